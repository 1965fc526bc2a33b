# One idea: what the health monitor does at a fault.
#
# The same mistake, an access outside the area, has another action in each of five partitions. The sixth, a system
# partition, reads the log of the health monitor and helps up who was suspended.

partition ignored standard 8
partition told    standard 8
partition held    standard 8
partition again   standard 8
partition fresh   standard 8
partition watch   system   8

plan 600
    slot ignored   0 100
    slot told    100 100
    slot held    200 100
    slot again   300 100
    slot fresh   400 100
    slot watch   500 100

action ignored MEM_PROTECTION ignore     silent
action told    MEM_PROTECTION signal     silent
action again   MEM_PROTECTION warm_reset log
action fresh   MEM_PROTECTION cold_reset log
# held has no line of its own: by default it is suspended, with an entry in the log.

action system OVERRUN halt silent

events

# Each stores a byte, and then reaches one byte too far. The answer to that is 1, whatever the action.
tick 0
ignored store 0 65
ignored store 8 65
ignored get_time                                        # it goes on as if nothing had happened

tick 100
told store 0 66
told load 8
told get_irqs                                           # pending: fault, bit 9

tick 200
held store 0 67
held load 8
held get_time                                           # refused: it is suspended, so it is not on the processor

tick 300
again store 0 68
again clear_irqmask 0xffffffff
again load 8
again get_irqs                                          # it has started again: everything is hidden
again load 0                                            # but its bytes are as they were

tick 400
fresh store 0 69
fresh load 8
fresh load 0                                            # its bytes are zero

# The log has the three that asked for an entry, the oldest first.
tick 500
watch hm_read                                           # held, MEM_PROTECTION, suspend; 2 are left
watch hm_read                                           # again, warm reset; 1 is left
watch hm_read                                           # fresh, cold reset; 0 are left
watch hm_read                                           # refused: the log is empty
watch get_partition_status held                         # SUSPENDED
watch resume_partition held

tick 600
ignored fault DIVIDE_EXCEPTION                          # the default for this event: signal, no entry
ignored get_irqs
ignored hm_raise_event                                  # PARTITION_ERROR, by default: it is halted
ignored get_time                                        # refused

tick 800
held get_time                                           # back again
held load 0                                             # with its byte

# A fault of the board itself is nobody's event. Here it halts the system.
system_fault SCHED_ERROR                                # the default: ignored, with an entry
system_fault OVERRUN
held get_time                                           # refused: the whole system is halted
tick 900                                                # refused, too: time stands
