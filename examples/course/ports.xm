# One idea: the two sorts of channels.
#
# A sampling channel holds one message. A new one replaces it, and reading leaves it there. A queuing channel holds
# several. A new one goes behind the others, and receiving takes the oldest out.

partition writer standard 32
partition reader standard 32

plan 1_000
    slot writer   0 500
    slot reader 500 500

channel sampling 4
    port writer source      last            # port 0
    port reader destination last            # port 1

channel queuing 4 2
    port writer source      all             # port 2
    port reader destination all             # port 3

events

# Both open their two ports. The names stand in their areas first.
tick 0
writer store 0 "lastall"
writer create_sampling_port 0 4 4 source                # answers 0
writer create_queuing_port 4 3 4 source 2               # answers 2
writer create_queuing_port 4 3 4 source 2               # refused: it is open already
writer create_queuing_port 0 4 4 source 2               # refused: "last" is no queuing port

tick 500
reader store 0 "lastall"
reader create_sampling_port 0 4 8 destination           # refused: the longest message is 4, not 8
reader create_sampling_port 0 4 4 destination           # answers 1
reader create_queuing_port 4 3 4 destination 2          # answers 3
reader read_sampling_message 1 16 4                     # refused: there is no message yet
reader receive_queuing_message 3 16 4                   # refused: the queue is empty

# The writer sends "one", "two" and "six" through both.
tick 1_000
writer store 16 "one"
writer write_sampling_message 0 16 3
writer send_queuing_message 2 16 3
tick 1_100
writer store 16 "two"
writer write_sampling_message 0 16 3
writer send_queuing_message 2 16 3
tick 1_200
writer store 16 "six"
writer write_sampling_message 0 16 3
writer send_queuing_message 2 16 3                      # refused: the queue is full
writer send_queuing_message 2 16 5                      # refused: a message has 4 bytes at most
writer read_sampling_message 0 16 4                     # refused: this port is a source

# The reader finds "six" in the one, as often as it asks, and "one" and "two" in the other, each once.
tick 1_500
reader get_irqs                                         # pending: a message came
reader read_sampling_message 1 8 4                      # 3 bytes, sent at 1,200
reader read_sampling_message 1 12 4                     # the same again
reader get_queuing_port_status 3                        # 2 messages wait
reader receive_queuing_message 3 16 2                   # refused: too little room; it stays
reader receive_queuing_message 3 16 4                   # "one", sent at 1,000; 1 is left
reader receive_queuing_message 3 20 4                   # "two", sent at 1,100; none is left
reader receive_queuing_message 3 24 4                   # refused: the queue is empty
reader load 16
reader load 17
reader load 18
