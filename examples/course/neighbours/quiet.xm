# The course exercise beside quiet neighbours: beacon and camera do nothing at all.
#
# The vector and all that attitude and dosimeter do are those of course.xm, and so are the ticks and the line. The
# sheets of attitude and dosimeter must be the same as there, letter by letter.

partition attitude  standard 64
partition beacon    standard 96
partition camera    standard 64
partition dosimeter standard 64

plan 20_000
    slot attitude       0  3_000
    slot beacon     3_000  6_000
    slot attitude  10_000  2_000
    slot camera    12_000  4_000
    slot dosimeter 16_000  3_000

channel sampling 8
    port attitude  source      aim
    port beacon    destination aim
    port camera    destination aim
    port dosimeter destination aim

channel queuing 16 2
    port camera source      pictures
    port beacon destination pictures

ipvi 1 beacon to camera

line 3 dosimeter

action dosimeter MEM_PROTECTION warm_reset log

events

tick 100
attitude get_time
attitude store 0 "aim"
attitude create_sampling_port 0 3 8 source
attitude store 16 "N045E012"
attitude write_sampling_message 0 16 8

tick 3_000

tick 10_500
attitude store 16 "N046E013"
attitude write_sampling_message 0 16 8

tick 12_000

tick 16_000
dosimeter store 0 "aim"
dosimeter create_sampling_port 0 3 8 destination
dosimeter read_sampling_message 3 16 8
dosimeter clear_irqmask 0x80000
dosimeter idle_self
line 3
dosimeter get_irqs
dosimeter store 32 1
dosimeter clear_irqpend 0x80000

tick 20_000
attitude store 16 "N047E014"
attitude write_sampling_message 0 16 8
attitude get_partition_status beacon

tick 23_500

line 3

tick 32_100

tick 36_200
dosimeter get_irqs
dosimeter store 32 2
dosimeter store 64 2
dosimeter get_irqs
dosimeter read_sampling_message 3 16 8
dosimeter create_sampling_port 0 3 8 destination
dosimeter read_sampling_message 3 16 8
dosimeter load 32
dosimeter clear_irqmask 0x80000

tick 40_000
attitude get_plan_status

tick 43_000

line 3
tick 56_000
dosimeter get_irqs
dosimeter store 32 3
dosimeter get_partition_status dosimeter
