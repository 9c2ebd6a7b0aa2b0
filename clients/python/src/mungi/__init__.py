"""A client of mungi: the calls of the machine as Python methods, over the pipes of one run.

    import mungi

    fresh = mungi.new_volume("vol", frames=64, credits=1000)
    with mungi.Machine("vol") as machine:
        root = machine.root(fresh.treasury)
        document = root.create(pages=1)
        document.put(b"Hello")
        reader = document.grant("R", until=3)
        reader.revoke()

Python finds this package where its folder is on the path of modules, as in
`PYTHONPATH=clients/python/src python3 program.py`, or after `pip install ./clients/python`. The program `mungi` is that
of the environment variable MUNGI, or that of the path, or else the script at the top of the repository.

A `Machine` runs `mungi VOLUME run BATCH` and holds the volume until it is closed. Every value that a method returns was
durable before it was returned. A refused call raises the exception of its refusal, such as `Denied`, and has changed
nothing. A program that ended early raises `Ended`, which says which lines were answered. Both are subclasses of
`Error`, as are all exceptions of this package.

Three things to know:

- **Threads are no logins.** Whoever has the file may send lines of any thread, and has every password. What the machine
  keeps apart is what threads may do to each other's objects.
- **A method that makes several calls is not one step.** `put`, `add`, `remove`, `create` of a `Home` and `new_thread`
  send several lines. A stop between two of them leaves the first ones done. Each method says what can be left then.
- **One Python thread at a time** uses a machine.

Numbers are whole, from 0 to 2**64 - 1. A word is 8 bytes and a page 4,096. Addresses are bytes. All calls with their
refusals are in docs/MACHINE.md, and docs/CLIENT.md says how lines and replies go over the pipes. Linux and Python 3.11
or later; no other package.
"""

from mungi.batch import Batch, BatchObject, BatchThread
from mungi.connected import Connected, connect
from mungi.errors import (
    REFUSALS,
    Account,
    Align,
    BackupFailed,
    Calendar,
    Credit,
    CutShort,
    Debt,
    Denied,
    Depth,
    Ended,
    Error,
    Full,
    Idle,
    InputIsFull,
    Limit,
    ListIsFull,
    ListPage,
    NoEntry,
    NoFrame,
    NoPassword,
    NoSlot,
    NotAllowed,
    NoThread,
    NotReady,
    NotYours,
    Past,
    Range,
    Refused,
    SideDropped,
    Size,
    SlotFull,
    Syntax,
    VolumeWarning,
)
from mungi.limits import (
    CUT,
    FILL,
    HELD,
    MOST_BATCH,
    MOST_ENTRIES,
    MOST_IN_FLIGHT,
    MOST_INPUT_BYTES,
    MOST_LINE_BYTES,
    MOST_PAGES,
    PAGE_BYTES,
    PAUSE,
    ROOT,
    STATUSES,
    WORD_BYTES,
)
from mungi.machine import Machine
from mungi.objects import CapabilityList, Grant, Home, Object, Purse
from mungi.program import default_program
from mungi.run import Answer
from mungi.show import changes, reach, show
from mungi.texts import BadText
from mungi.thread import Thread
from mungi.values import Balance, Capability, Check, Fresh, Info, NewAccount, Next, Rent, Turn, Unreached
from mungi.volumes import check, drop_cache, new_volume, unreached

__all__ = [
    "Account",
    "Align",
    "Answer",
    "BackupFailed",
    "BadText",
    "Balance",
    "Batch",
    "BatchObject",
    "BatchThread",
    "CUT",
    "Calendar",
    "Capability",
    "CapabilityList",
    "Check",
    "Connected",
    "Credit",
    "CutShort",
    "Debt",
    "Denied",
    "Depth",
    "Ended",
    "Error",
    "FILL",
    "Fresh",
    "Full",
    "Grant",
    "HELD",
    "Home",
    "Idle",
    "Info",
    "InputIsFull",
    "Limit",
    "ListIsFull",
    "ListPage",
    "MOST_BATCH",
    "MOST_ENTRIES",
    "MOST_INPUT_BYTES",
    "MOST_IN_FLIGHT",
    "MOST_LINE_BYTES",
    "MOST_PAGES",
    "Machine",
    "NewAccount",
    "Next",
    "NoEntry",
    "NoFrame",
    "NoPassword",
    "NoSlot",
    "NoThread",
    "NotAllowed",
    "NotReady",
    "NotYours",
    "Object",
    "PAGE_BYTES",
    "PAUSE",
    "Past",
    "Purse",
    "REFUSALS",
    "ROOT",
    "Range",
    "Refused",
    "Rent",
    "STATUSES",
    "SideDropped",
    "Size",
    "SlotFull",
    "Syntax",
    "Thread",
    "Turn",
    "Unreached",
    "VolumeWarning",
    "WORD_BYTES",
    "changes",
    "check",
    "connect",
    "default_program",
    "drop_cache",
    "new_volume",
    "reach",
    "show",
    "unreached",
]
