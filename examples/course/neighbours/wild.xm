# The course exercise beside wild neighbours: beacon and camera try whatever could disturb the others.
#
# The vector and all that attitude and dosimeter do are those of course.xm, and so are the ticks and the line. The
# sheets of attitude and dosimeter must be the same as there, letter by letter.

partition attitude  standard 64
partition beacon    standard 96
partition camera    standard 64
partition dosimeter standard 64

plan 20_000
    slot attitude       0  3_000
    slot beacon     3_000  6_000
    slot attitude  10_000  2_000
    slot camera    12_000  4_000
    slot dosimeter 16_000  3_000

channel sampling 8
    port attitude  source      aim
    port beacon    destination aim
    port camera    destination aim
    port dosimeter destination aim

channel queuing 16 2
    port camera source      pictures
    port beacon destination pictures

ipvi 1 beacon to camera

line 3 dosimeter

action dosimeter MEM_PROTECTION warm_reset log

events

tick 100
attitude get_time
beacon get_time                                         # refused, like all that comes out of turn
camera store 0 255
attitude store 0 "aim"
attitude create_sampling_port 0 3 8 source
attitude store 16 "N045E012"
attitude write_sampling_message 0 16 8

tick 3_000

# beacon has its slot. It asks for what is not its own.
beacon halt_partition attitude                          # refused: it may only halt itself
beacon suspend_partition dosimeter
beacon reset_partition dosimeter cold
beacon reset_system cold
beacon switch_sched_plan 0
beacon hm_read
beacon call 200 1 2 3 4 5                               # refused: there is no call 200
beacon store 0 "aim"
beacon create_sampling_port 0 3 8 source                # refused: its port is a destination
beacon write_sampling_message 0 0 8                     # refused: port 0 is attitude's
beacon read_sampling_message 3 0 8                      # refused: port 3 is dosimeter's
beacon raise_ipvi 1
beacon raise_ipvi 2                                     # refused: it has no such link
beacon set_irqmask 0xffffffff
beacon store 95 255
beacon store 96 255                                     # one byte too far: it is suspended
beacon get_time                                         # refused

tick 10_500
attitude store 16 "N046E013"
camera reset_partition attitude cold                    # refused: not its slot
attitude write_sampling_message 0 16 8

tick 12_000

# camera has its slot, and floods the queue.
camera store 4 "pictures"
camera create_queuing_port 4 8 16 source 2
camera send_queuing_message 4 0 16
camera send_queuing_message 4 0 16
camera send_queuing_message 4 0 16                      # refused: the queue is full
camera send_queuing_message 4 0 16
camera halt_system                                      # refused
camera fault PRIVILEGED_INST
camera fault DATA_ACC_EXCEPTION
camera reset_partition camera cold                      # its own area is zero again
camera load 4
camera fault REG_HW_ERROR                               # it is suspended

tick 16_000
dosimeter store 0 "aim"
beacon load 0                                           # refused
dosimeter create_sampling_port 0 3 8 destination
dosimeter read_sampling_message 3 16 8
dosimeter clear_irqmask 0x80000
dosimeter idle_self
line 3
dosimeter get_irqs
dosimeter store 32 1
dosimeter clear_irqpend 0x80000

tick 20_000
attitude store 16 "N047E014"
attitude write_sampling_message 0 16 8
attitude get_partition_status beacon

tick 23_500
beacon resume_partition beacon                          # refused: it is suspended, so it cannot help itself

line 3

tick 32_100
camera hm_raise_event                                   # refused
camera store 0 "gone"

tick 36_200
dosimeter get_irqs
dosimeter store 32 2
dosimeter store 64 2
camera get_partition_status dosimeter                   # refused
dosimeter get_irqs
dosimeter read_sampling_message 3 16 8
dosimeter create_sampling_port 0 3 8 destination
dosimeter read_sampling_message 3 16 8
dosimeter load 32
dosimeter clear_irqmask 0x80000

tick 40_000
attitude get_plan_status

tick 43_000
beacon idle_self                                        # refused

line 3
tick 56_000
dosimeter get_irqs
dosimeter store 32 3
dosimeter get_partition_status dosimeter
