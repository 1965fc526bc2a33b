# One idea: a system partition switches the plan.
#
# Two plans: by day the sensor has most of the frame, by night the radio. A switch does not cut a slot short: it
# takes effect where the frame ends.

partition chief  system   16
partition sensor standard 16
partition radio  standard 16

plan 1_000                                  # plan 0, day
    slot chief    0 100
    slot sensor 100 700
    slot radio  900 100

plan 2_000                                  # plan 1, night
    slot chief     0   100
    slot radio   200 1_600

events

tick 50
chief get_plan_status                                   # plan 0 is in force, plan 0 follows

tick 500
sensor get_time
sensor switch_sched_plan 1                              # refused: a standard partition may not

tick 950
radio get_time

tick 1_000
chief switch_sched_plan 1
chief get_plan_status                                   # plan 0 is still in force, plan 1 follows
chief switch_sched_plan 2                               # refused: there is no plan 2

tick 1_500
sensor get_time                                         # its slot of this frame is whole

tick 2_000
chief get_plan_status                                   # plan 1 is in force now

tick 2_500
sensor get_time                                         # refused: by night it has no slot
radio get_time

# A frame of plan 1 lasts from 2,000 to 4,000. The way back is the same.
tick 4_050
chief switch_sched_plan 0
tick 5_999
chief get_plan_status                                   # refused: its slot is over
tick 6_000
chief get_plan_status                                   # plan 0 in force
tick 6_100
sensor get_time
