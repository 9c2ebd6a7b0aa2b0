"""Sizes, limits and words of the machine and of its runs."""

WORD_BYTES = 8
PAGE_BYTES = 4096
# The most pages of an object.
MOST_PAGES = 1024
# The base of the root, the object that a fresh volume has.
ROOT = 0x100000000
# The most lines that become durable together.
MOST_BATCH = 64
# The most bytes of a line, its newline not counted.
MOST_LINE_BYTES = 256
# The most entries of a capability list.
MOST_ENTRIES = 255
# The most bytes that one run reads: some hours of lines that are sent one after the other.
MOST_INPUT_BYTES = 1 << 32
# The most lines that wait for their answers. It is more than a batch, so the program always has a full one to answer.
MOST_IN_FLIGHT = 4096

# What the program says on standard error if another run has the file, and how many seconds pass until it is started
# again.
HELD = "another run holds it"
PAUSE = 0.05

# A line that is refused with Syntax, and so changes nothing. It fills a batch whose answers are wanted now.
FILL = b".\n"

STATUSES = {
    0: "done",
    1: "the words spell no command",
    2: "the file is no volume",
    3: "not enough memory",
    4: "a call of the disk failed, or another run has the file",
    5: "standard input failed",
    6: "standard output failed",
    7: "more than 2**32 bytes came",
    8: "the disk is too small",
    9: "the program could not have its words",
    255: "the connection to the broker was cut",
}
# The status of a connection that ended without the broker's last word.
CUT = 255
