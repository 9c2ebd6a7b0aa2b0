# Enters the mailbox, at 0x100006100, and stops behind the call. It is at 0x200 in the code.
    set 3 0x6100
    high 3 1
    pdx 3 4                 # register 4 is 0: none of the own slots is kept
    halt
