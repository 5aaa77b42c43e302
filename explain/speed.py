"""How fast a search is, which is measured and not proved."""

# What one command at one state takes at most, with up to so many choice words
# at once, in nanoseconds. bench/run found 6,131 on a virtual machine with two
# cores of an x86-64 server processor. It is about doubled, for slower
# processors and for programs in which the linker puts the loops elsewhere.
BATCH_WORDS = 64
BATCH_NANOSECONDS = 12000
