# Puts twice the word at 0x100001000 to 0x100004000.
    set 1 0x1000
    high 1 1
    load 2 1 0
    add 2 2 2
    set 1 0x4000
    high 1 1
    store 2 1 0
    halt
