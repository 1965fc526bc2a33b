# The course exercise: four groups share one board.
#
#   attitude    works out where the satellite points, and tells everybody
#   beacon      sends pictures down to the ground
#   camera      takes pictures, and puts them into a queue for beacon
#   dosimeter   counts particles; a particle is a signal on interrupt line 3
#
# Who can act on whom: attitude is heard by all; camera and beacon share a queue; beacon calls camera by an
# interrupt. Nobody can act on attitude, and nobody but attitude can act on dosimeter. So the sheets of these two
# do not change, whatever beacon and camera do: neighbours/ has two scripts to try it.

partition attitude  standard 64
partition beacon    standard 96
partition camera    standard 64
partition dosimeter standard 64

# One frame of 20 milliseconds. attitude runs twice in it; the last millisecond is nobody's.
plan 20_000
    slot attitude       0  3_000
    slot beacon     3_000  6_000
    slot attitude  10_000  2_000
    slot camera    12_000  4_000
    slot dosimeter 16_000  3_000

# Where the satellite points, 8 bytes. A sampling channel keeps the last message, and every reader may read it
# again and again.
channel sampling 8
    port attitude  source      aim          # port 0
    port beacon    destination aim          # port 1
    port camera    destination aim          # port 2
    port dosimeter destination aim          # port 3

# Pictures of at most 16 bytes. Two of them fit into the queue; who takes one out makes room.
channel queuing 16 2
    port camera source      pictures        # port 4
    port beacon destination pictures        # port 5

# By IPVI 1 beacon asks camera for the next picture.
ipvi 1 beacon to camera

# Line 3 is the particle counter's.
line 3 dosimeter

# If dosimeter reaches outside its area, it starts again with its bytes as they are, and there is an entry in the
# log of the health monitor.
action dosimeter MEM_PROTECTION warm_reset log

events

# ---- First frame, 0 to 20,000. Everybody opens ports. A port is opened by its name, which has to stand in the
# guest's area: the address, the length of the name, the longest message, the direction, for a queue the depth.

tick 100
attitude get_time
attitude store 0 "aim"
attitude create_sampling_port 0 3 8 source              # answers 0, the number of the port
attitude store 16 "N045E012"
attitude write_sampling_message 0 16 8                  # taken, although nobody has opened a port to read yet

tick 3_000
beacon store 0 "aim"
beacon create_sampling_port 0 3 8 destination           # answers 1
beacon store 4 "pictures"
beacon create_queuing_port 4 8 16 destination 2         # answers 5
beacon read_sampling_message 1 16 8                     # 8 bytes, sent at 100
beacon receive_queuing_message 5 32 16                  # refused: the queue is empty
beacon clear_irqmask 0x100                              # show bit 8, "a message came", so that it wakes it
beacon idle_self

tick 10_500
attitude store 16 "N046E013"
attitude write_sampling_message 0 16 8                  # replaces the message; bit 8 wakes beacon

tick 12_000
camera store 0 "aim"
camera create_sampling_port 0 3 8 destination           # answers 2
camera store 4 "pictures"
camera create_queuing_port 4 8 16 source 2              # answers 4
camera read_sampling_message 2 16 8                     # sent at 10,500: the first message is gone
camera store 32 "picture 1"
camera send_queuing_message 4 32 9
camera store 40 "2"
camera send_queuing_message 4 32 9
camera store 40 "3"
camera send_queuing_message 4 32 9                      # refused: the queue holds two, and nobody took one
camera get_queuing_port_status 4                        # 2 messages wait
camera clear_irqmask 0x2                                # show IPVI 1
camera idle_self                                        # until its next slot, or until beacon calls

tick 16_000
dosimeter store 0 "aim"
dosimeter create_sampling_port 0 3 8 destination        # answers 3
dosimeter read_sampling_message 3 16 8
dosimeter clear_irqmask 0x80000                         # show bit 19, which is line 3
dosimeter idle_self
line 3                                                  # a particle: dosimeter is awake at once, in its slot
dosimeter get_irqs                                      # pending: line 3
dosimeter store 32 1                                    # it has counted one
dosimeter clear_irqpend 0x80000

# ---- Second frame, 20,000 to 40,000.

tick 20_000
attitude store 16 "N047E014"
attitude write_sampling_message 0 16 8
attitude get_partition_status beacon                    # refused: it may only ask about itself

tick 23_500
beacon get_irqs                                         # pending: a message came
beacon clear_irqpend 0x100
beacon receive_queuing_message 5 32 16                  # "picture 1"; one is left
beacon raise_ipvi 1                                     # "there is room again"
beacon receive_queuing_message 5 48 16                  # "picture 2"; none is left
beacon read_sampling_message 1 16 8

line 3                                                  # a particle in beacon's slot: it is kept for dosimeter
beacon get_irqs                                         # nothing of it reaches beacon

tick 32_100
camera get_irqs                                         # pending: IPVI 1, and that a message came
camera clear_irqpend 0x102
camera send_queuing_message 4 32 9                      # "picture 3" goes through now
camera load 64                                          # outside its 64 bytes: by default it is suspended
camera get_time                                         # refused: it is not on the processor any more

tick 36_200
dosimeter get_irqs                                      # pending: line 3, and that a message came
dosimeter store 32 2
dosimeter store 64 2                                    # a mistake, one byte past its area: warm reset
dosimeter get_irqs                                      # nothing pending, all hidden: it has started again
dosimeter read_sampling_message 3 16 8                  # refused: the reset has closed its port
dosimeter create_sampling_port 0 3 8 destination        # the name still stands there, so it opens it again
dosimeter read_sampling_message 3 16 8                  # and reads where the satellite points
dosimeter load 32                                       # the count is still there: 2
dosimeter clear_irqmask 0x80000

# ---- Third frame, from 40,000 on: the others go on as if nothing had happened.

tick 40_000
attitude get_plan_status                                # plan 0; 2,000 microseconds are in no slot

tick 43_000
beacon receive_queuing_message 5 32 16                  # "picture 3"
beacon raise_ipvi 1                                     # camera is suspended; the answer does not tell: it is 0
beacon get_time

line 3
tick 56_000
dosimeter get_irqs                                      # pending: line 3
dosimeter store 32 3
dosimeter get_partition_status dosimeter                # READY
