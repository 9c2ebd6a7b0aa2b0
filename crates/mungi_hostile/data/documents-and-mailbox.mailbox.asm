# What is entered: it puts 7 into the second word of the document, at 0x100002008, and returns. It is at 0x100 in the code.
    set 1 0x2008
    high 1 1
    set 2 7
    store 2 1 0
    ret
