# Adds 1 to a counter, twice. Three threads run this, each from a start of its own, and take turns: a turn is one word. A sum is
# lost where a thread loads the counter while another has loaded it and not yet stored it; so each begins two turns behind the
# one before, which is as long as that takes.
third:
    yield
    yield
second:
    yield
    yield
first:
    set 1 0x1000            # register 1: where the counter is, 0x100001000
    high 1 1
    set 2 1                 # register 2: what is added, and what is counted down
    set 4 2                 # register 4: how often
again:
    load 3 1 0
    add 3 3 2
    store 3 1 0
    yield                   # time for the two others
    yield
    sub 4 4 2
    jnz 4 again
    halt
