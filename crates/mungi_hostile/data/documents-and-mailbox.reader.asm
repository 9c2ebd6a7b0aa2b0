# Reads the first word of the document, at 0x100002000, and stops. It is at the beginning of the code.
    set 1 0x2000
    high 1 1
    load 2 1 0
    halt
