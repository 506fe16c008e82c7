"""How the program ends. The scripts that run it, and those that judge texts as it does, end so too."""

DONE = 0
REFUSED = 1  # the policy can't be kept
USAGE = 2  # the words are no command
BAD_INPUT = 3  # a text isn't what it is to be
READ_FAULT = 4  # a file can't be read
WRITE_FAULT = 5  # an output takes nothing more
NO_MEMORY = 6
CHECK_FAILS = 7  # what was compared differs
NOT_RUN = 126  # the program is there and can't be run
NO_PROGRAM = 127  # a program that is needed isn't there
BY_SIGNAL = 128  # and the number of the signal
