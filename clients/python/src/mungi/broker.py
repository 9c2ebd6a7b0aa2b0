"""A broker: many people use one volume, each as the threads that are theirs.

    python3 -m mungi.broker VOLUME SOCKET USERS

It holds one run, `mungi VOLUME run 64`, and listens on the Unix socket SOCKET. Who is at the other end of a connection is what the kernel
says of it. The file USERS says which threads each user and each group has. A connection sends lines and gets a reply a line, in order, as
with `run`. A line of a thread that is not the sender's is not given to the machine, and is answered by a line that begins with `refused`.
`mungi.connect(SOCKET)` gives the client's `Machine` over a connection. docs/SERVICE.md says how to run it, and what its words mean.

- SIGHUP reads USERS again. A mistake in it keeps what was read before, and is reported with its line.
- SIGUSR1 runs the command of --backup while the volume is closed, and opens the volume again.
- SIGTERM: no more lines are taken, those that were taken are answered, and the status is 0.

The other statuses are 1 if a word or USERS is wrong or SOCKET is taken, and that of the program if the volume can't be opened at
first. What happens is written to standard error, a line each. systemd, if it started the broker, is told when the volume
is open and what the broker waits for, and may hand over the socket. Linux and Python 3.11 or later; no other package.
"""

from __future__ import annotations

import signal
import sys

# The signals that came before the broker could act on them. It does so once it runs.
EARLY: list[int] = []


def keep_signals() -> None:
    """Keeps SIGHUP and SIGUSR1, which would end a process that has no handler for them."""
    for number in (signal.SIGHUP, signal.SIGUSR1):
        signal.signal(number, lambda number, _: EARLY.append(number))
    # Whoever starts the broker may block them, as its unit does, so that they wait while Python itself starts.
    signal.pthread_sigmask(signal.SIG_UNBLOCK, (signal.SIGHUP, signal.SIGUSR1))


# Before the other modules are read, which takes longer than all else up to here. The name is not `__main__` where the
# module is a package that `-m` runs, nor as pip's command.
if __name__ == "__main__" or sys.argv[0] == "-m" or sys.argv[0].endswith("/mungi-broker"):
    keep_signals()

import argparse
import asyncio
import collections
import contextlib
import errno
import grp
import os
import pwd
import re
import resource
import select
import shlex
import socket
import stat
import struct
import subprocess
import time
import tomllib
from typing import Iterable, NamedTuple, NoReturn

import mungi

# The most bytes that are read from a connection at once.
READ_BYTES = 1 << 14
# A connection that has more lines waiting is not read from until few are left.
MOST_QUEUED = 256
FEW_QUEUED = 64
# The most connections of one user, and how many may wait to be accepted.
MOST_CONNECTIONS = 128
BACKLOG = 512
# How long a connection may take to read its last replies when the broker ends, in seconds.
FAREWELL = 5.0
# How often the volume is tried at the start while another run has it, and the seconds between two tries.
FIRST_TRIES = 20
FIRST_WAIT = 0.5
# How long the command of --backup may take, in seconds.
BACKUP_PATIENCE = 900.0
# The seconds in which openings are counted.
MINUTE = 60.0
# The first open file that systemd hands over, and how long it may take to read what it is told, in seconds.
FIRST_FILE = 3
TELL_PATIENCE = 5.0
# Lines are gathered for a batch at most this many times as long as the silence that closes one.
LONGEST_GATHERING = 8
# More than the most bytes of one batch.
MOST_BATCH_BYTES = 1 << 15

# The option of a socket that gives the groups of its peer. Python has no name for it; this is its number on most processors.
SO_PEERGROUPS = getattr(socket, "SO_PEERGROUPS", 59)
# The most bytes of these groups that Python takes, 4 each. Of a peer with more groups the first one counts alone.
MOST_GROUPS_BYTES = 1024

ALL_NUMBERS = range(1, 257)
PERMISSIONS = ("next", "rent", "turn")

# A word of a line, and a number, as the machine reads them.
WORD = re.compile(rb"[^ \t\r]+")
NUMBER = re.compile(rb"0x([0-9a-fA-F]{1,16})|([0-9]{1,20})")
# The first letters of the calls that need no further look once the thread is known: all but `end`, `entry`, `thread` and `turn`.
PLAIN = frozenset(b"abcdfghijklmnopqrs")


def say(text: str) -> None:
    print(f"mungi_broker: {text}", file=sys.stderr, flush=True)


class System:
    """What systemd gave to this process, by its variables: an address that is told how the service is, and a socket that
    listens. Both may be missing. The variables are taken away, so that no process that is started here has them."""

    def __init__(self) -> None:
        self.address = os.environ.pop("NOTIFY_SOCKET", "")
        given, count = os.environ.pop("LISTEN_PID", ""), os.environ.pop("LISTEN_FDS", "")
        os.environ.pop("LISTEN_FDNAMES", None)
        # They may be meant for the process that started this one.
        self.files = int(count) if given == str(os.getpid()) and count.isdecimal() else 0

    def tell(self, *lines: str) -> None:
        """Sends lines such as READY=1. If nobody asked for them nothing is sent. A failure is printed."""
        if self.address:
            # An abstract name begins with @ in the variable, and with a zero in the system.
            address = "\0" + self.address[1:] if self.address.startswith("@") else self.address
            try:
                with socket.socket(socket.AF_UNIX, socket.SOCK_DGRAM) as peer:
                    peer.settimeout(TELL_PATIENCE)
                    peer.sendto("\n".join(lines).encode(), address)
            except OSError as error:
                say(f"{self.address}: {error.strerror or error}")

    def listening(self, path: str) -> socket.socket | None:
        """The socket that systemd listens on, or None if it gave none. Raises OSError if it doesn't listen at this path."""
        if self.files == 0:
            return None
        if self.files != 1:
            raise OSError(errno.EINVAL, f"{self.files} sockets are handed over, and one is wanted")
        if not stat.S_ISSOCK(os.fstat(FIRST_FILE).st_mode):
            raise OSError(errno.ENOTSOCK, "what is handed over is no socket")
        listening = socket.socket(fileno=FIRST_FILE)
        listening.set_inheritable(False)
        if listening.family != socket.AF_UNIX or listening.type != socket.SOCK_STREAM or not listening.getsockopt(socket.SOL_SOCKET, socket.SO_ACCEPTCONN):
            raise OSError(errno.EINVAL, "what is handed over is no Unix socket that listens for connections")
        name = listening.getsockname()
        if not isinstance(name, str) or os.path.realpath(name) != os.path.realpath(path):
            raise OSError(errno.EINVAL, f"the socket that is handed over is {name or 'without a name'}")
        return listening


# Who may send what


class Mistake(mungi.Error):
    """The file of users can't be read as one. The text begins with the line."""


class Grant:
    """What a table of the file gives: numbers of threads, or all, and the permissions for `next`, `rent` and `turn`."""

    def __init__(self, threads: Iterable[int] = (), is_all: bool = False, may: Iterable[str] = ()):
        self.threads = frozenset(threads)
        self.is_all = is_all
        self.may = frozenset(may)

    def __or__(self, other: Grant) -> Grant:
        return Grant(self.threads | other.threads, self.is_all or other.is_all, self.may | other.may)


class Users:
    """The file of users: a grant for each user and each group that it names."""

    def __init__(self, text: str):
        self.users: dict[int, Grant] = {}
        self.groups: dict[int, Grant] = {}
        try:
            tables = tomllib.loads(text)
        except tomllib.TOMLDecodeError as error:
            found = re.search(r"at line (\d+)", str(error))
            line = int(found[1]) if found else text.count("\n") + 1
            raise Mistake(f"line {line}: {error}") from None
        for kind, rows in tables.items():
            if kind not in ("user", "group") or not isinstance(rows, dict):
                raise Mistake(f"line {_line_of(text, kind)}: {kind!r} is neither [user.NAME] nor [group.NAME]")
            known = self.users if kind == "user" else self.groups
            for name, row in rows.items():
                number = _number_of(kind, name)
                if number is None:
                    raise Mistake(f"line {_line_of(text, kind, name)}: there is no {kind} {name!r}")
                if not isinstance(row, dict):
                    raise Mistake(f"line {_line_of(text, kind, name)}: {kind}.{name} is no table")
                for key, value in row.items():
                    why = _mistake_in(key, value)
                    if why:
                        raise Mistake(f"line {_line_of(text, kind, name, key)}: {why}")
                if number in known:
                    raise Mistake(f"line {_line_of(text, kind, name)}: the {kind} {name!r} is named twice, by name and by number")
                threads = row.get("threads", [])
                known[number] = Grant((), True, row.get("may", [])) if threads == "all" else Grant(threads, False, row.get("may", []))
        grants = [*self.users.values(), *self.groups.values()]
        # The numbers that stand in a list of threads.
        self.named: frozenset[int] = frozenset().union(*(grant.threads for grant in grants))

    @staticmethod
    def read(path: str) -> Users:
        """The users of a file. Raises OSError, and Mistake with the line."""
        with open(path, "rb") as file:
            data = file.read()
        try:
            return Users(data.decode())
        except UnicodeDecodeError as error:
            line = data.count(b"\n", 0, error.start) + 1
            raise Mistake(f"line {line}: it is not UTF-8") from None

    def grant_of(self, user: int, groups: Iterable[int]) -> Grant | None:
        """What a user has by the own table and those of the groups, or None if no table names the user or one of the groups."""
        found = [self.users[user]] if user in self.users else []
        found += [self.groups[group] for group in groups if group in self.groups]
        if not found:
            return None
        whole = Grant()
        for grant in found:
            whole |= grant
        return whole


def _number_of(kind: str, name: str) -> int | None:
    """The number of a user or a group, by its name or its decimal number. A name that is known comes first."""
    try:
        return pwd.getpwnam(name).pw_uid if kind == "user" else grp.getgrnam(name).gr_gid
    except KeyError:
        return int(name) if re.fullmatch(r"[0-9]{1,10}", name) and int(name) < (1 << 32) - 1 else None


def _mistake_in(key: str, value: object) -> str | None:
    """What is wrong with a key of a table and its value, or None."""
    if key == "threads":
        if value == "all":
            return None
        if not isinstance(value, list):
            return "threads is neither a list of numbers nor \"all\""
        for number in value:
            if type(number) is not int or number not in ALL_NUMBERS:
                return f"{number!r} is no number of a thread, 1 to 256"
        return None
    if key == "may":
        if not isinstance(value, list):
            return "may is no list of words"
        for word in value:
            if word not in PERMISSIONS:
                return f"{word!r} is none of {', '.join(PERMISSIONS)}"
        return None
    return f"{key!r} is neither threads nor may"


def _line_of(text: str, *keys: str) -> int:
    """The line of a file of users that comes nearest to these keys: the first one that has most of them."""
    best, most = 1, 0
    header: list[str] = []
    for number, line in enumerate(text.splitlines(), 1):
        if match := re.match(r"\s*\[+([^\]]*)\]", line):
            here = header = _keys_of(match[1])
        elif match := re.match(r"([^=#]+)=", line):
            here = header + _keys_of(match[1])
        else:
            continue
        same = next((at for at, (key, wanted) in enumerate(zip(here, keys)) if key != wanted), min(len(here), len(keys)))
        if same > most:
            best, most = number, same
    return best


def _keys_of(text: str) -> list[str]:
    """The parts of a dotted key."""
    return ["".join(parts) for parts in re.findall(r"""\"([^"]*)\"|'([^']*)'|([^\s."']+)""", text)]


class Rights:
    """What the lines of a connection may say now: `own` has the numbers of threads as they are usually spelled."""

    def __init__(self, grant: Grant | None, living: Iterable[int]):
        self.is_named = grant is not None
        self.is_all = grant is not None and grant.is_all
        self.may = frozenset() if grant is None else grant.may
        numbers = ALL_NUMBERS if self.is_all else frozenset() if grant is None else grant.threads.intersection(living)
        self.own = {b"%d" % number: number for number in numbers}
        self.threads = frozenset(numbers)


NO_RIGHTS = Rights(None, ())


def number_of(word: bytes) -> int | None:
    """The number that a word spells, as the machine reads it, or None."""
    match = NUMBER.fullmatch(word)
    if match is None:
        return None
    value = int(match[1], 16) if match[1] is not None else int(match[2])
    return value if value < 1 << 64 else None


# Lines and replies

REFUSED_USER = b"refused User"
REFUSED_CONNECTIONS = b"refused Connections"
REFUSED_THREAD = b"refused Thread"
REFUSED_CALL = b"refused Call"
REFUSED_HALF = b"refused Half"

# The line that the machine refuses with Syntax. It replaces every line that the machine would refuse so.
DOT = mungi.FILL.rstrip(b"\n")


class Verdict(NamedTuple):
    """What becomes of a line.

    - `kind`: "passed" over, as a comment is; "refused"; "given" to the machine; or "turn", "next" or "end", given, and the reply is read.
    - `text`: what the machine is given, or the reply of a refused line.
    - `thread`: the number of the line's thread, or 0.
    - `ends`: the number of the thread that may end by it, or 0.
    """

    kind: str
    text: bytes = b""
    thread: int = 0
    ends: int = 0


def judge(line: bytes, rights: Rights, named: frozenset[int]) -> Verdict:
    """What becomes of a line, given without its newline. `named` are the numbers that somebody has by name.

    The machine gets the number of a thread as a decimal one without zeros ahead, whatever spelling came, so that it can't read another
    number than this did. What is no call of any thread it gets as a dot."""
    if len(line) > mungi.MOST_LINE_BYTES:
        return Verdict("given", DOT)
    first = WORD.search(line)
    if first is None or first[0].startswith(b"#"):
        return Verdict("passed")
    if not rights.is_named:
        return Verdict("refused", REFUSED_USER)
    word = first[0]
    if word in (b"next", b"rent"):
        if word.decode() not in rights.may:
            return Verdict("refused", REFUSED_CALL)
        return Verdict("next" if word == b"next" else "given", line)
    thread = number_of(word)
    if thread is None:
        return Verdict("given", DOT)
    rest = line[first.end() :]
    words = WORD.findall(rest)
    call = words[0] if words else b""
    if not rights.is_all and thread not in rights.threads and not (call == b"turn" and "turn" in rights.may):
        return Verdict("refused", REFUSED_THREAD)
    text = b"%d%b" % (thread, rest)
    if call == b"turn":
        return Verdict("turn", text, thread, thread)
    if call == b"end" and len(words) > 1:
        other = number_of(words[1])
        if other in named:
            return Verdict("end", text, thread, other) if rights.is_all else Verdict("refused", REFUSED_CALL)
    return Verdict("given", text, thread)


class Note:
    """A line whose reply the broker reads too: one of a connection that may end a thread, or one of its own."""

    __slots__ = ("kind", "connection", "thread")

    def __init__(self, kind: str, connection: Connection | None = None, thread: int = 0):
        # "turn", "next" and "end" of a connection; "open", the first line of a run; "ask", whether a thread lives.
        self.kind = kind
        self.connection = connection
        self.thread = thread


class Connection:
    """A connection: its lines that wait, and its replies of the batch under way."""

    __slots__ = ("broker", "peer", "file", "user", "groups", "rights", "queue", "tail", "replies", "in_flight", "unsent", "events", "is_ready", "is_held",
                 "has_ended", "is_over")  # fmt: skip

    def __init__(self, broker: Broker, peer: socket.socket):
        self.broker = broker
        self.peer = peer
        self.file = peer.fileno()
        _, self.user, group = struct.unpack("3I", peer.getsockopt(socket.SOL_SOCKET, socket.SO_PEERCRED, 12))
        groups = {group}
        with contextlib.suppress(OSError):
            packed = peer.getsockopt(socket.SOL_SOCKET, SO_PEERGROUPS, MOST_GROUPS_BYTES)
            groups.update(struct.unpack(f"{len(packed) // 4}I", packed))
        self.groups = frozenset(groups)
        self.rights = NO_RIGHTS
        # The lines that wait, and the bytes after the last newline.
        self.queue: collections.deque[bytes] = collections.deque()
        self.tail = b""
        self.replies: list[bytes] = []
        # How many of its lines were given to the machine and not answered.
        self.in_flight = 0
        # The replies that its socket did not take. No line is taken from it while there are some.
        self.unsent = b""
        # What its socket is watched for.
        self.events = 0
        # Whether it is in `ready`; whether it is not read from, since many lines wait; whether its last line has come; whether it was told
        # the end.
        self.is_ready = self.is_held = self.has_ended = self.is_over = False

    def watch(self) -> None:
        """Has its socket watched for what is needed now. A socket from which nothing is needed is not watched, since it would report a peer that
        is gone again and again."""
        wants_lines = not (self.is_held or self.has_ended or self.is_over or self.broker.is_ending)
        events = (select.EPOLLIN if wants_lines else 0) | (select.EPOLLOUT if self.unsent else 0)
        if events and not self.events:
            self.broker.epoll.register(self.file, events)
        elif events:
            self.broker.epoll.modify(self.file, events)
        elif self.events:
            self.broker.epoll.unregister(self.file)
        self.events = events

    def read(self) -> None:
        """Takes in lines."""
        try:
            data = os.read(self.file, READ_BYTES)
        except BlockingIOError:
            return
        except OSError:
            self.drop()
            return
        if data:
            lines = (self.tail + data).split(b"\n")
            # A line that is too long is still too long when it is cut here.
            self.tail = lines.pop()[: mungi.MOST_LINE_BYTES + 1]
            self.queue += lines
            if len(self.queue) > MOST_QUEUED:
                self.is_held = True
                self.watch()
        else:
            self.has_ended = True
            self.watch()
        self.look()

    def look(self) -> None:
        """Waits for its turn, if there is something to do for it."""
        if not self.is_ready and (self.queue or self.has_ended) and not self.unsent and not self.is_over:
            self.is_ready = True
            self.broker.ready.append(self)

    def release(self) -> None:
        """Is read from again."""
        self.is_held = False
        self.watch()

    def answer(self) -> None:
        """Sends the replies that are there."""
        data = b"\n".join(self.replies) + b"\n"
        self.replies.clear()
        if self.is_over:
            return
        if self.unsent:
            self.unsent += data
            return
        self.send(data)

    def send(self, data: bytes) -> None:
        """Sends bytes, and keeps what the socket does not take."""
        try:
            taken = os.write(self.file, data)
        except BlockingIOError:
            taken = 0
        except OSError:
            self.drop()
            return
        before, self.unsent = self.unsent, data[taken:]
        if bool(before) != bool(self.unsent):
            self.watch()

    def flush(self) -> None:
        """Sends what the socket did not take before."""
        self.send(self.unsent)
        if not self.unsent:
            if self.is_over:
                self.drop()
            else:
                self.look()

    def end(self, last: bytes = b"") -> None:
        """Sends the last words, and closes when they are taken."""
        if self.is_over:
            return
        data = b"".join(reply + b"\n" for reply in (*self.replies, last) if reply)
        self.replies.clear()
        self.queue.clear()
        if self.unsent:
            self.unsent += data
        elif data:
            self.send(data)
        if not self.is_over:
            self.is_over = True
            self.watch()
            if not self.unsent:
                self.drop()

    def drop(self) -> None:
        """Closes the connection at once."""
        if self.file >= 0:
            self.is_over = True
            self.unsent = b""
            self.queue.clear()
            self.watch()
            self.broker.leave(self)
            self.peer.close()
            self.file = -1


class Broker:
    """One run of a volume, and the connections that share it.

    Lines are taken from the connections in turn, up to 64, when the machine has answered those before. Dots fill the batch, so that the machine
    commits and answers it at once. Where it closes a batch early, since much has changed, lines that wait are given with what is left."""

    def __init__(
        self,
        volume: str,
        users: str,
        program: str | None = None,
        silence: float = 100e-6,
        openings: int = 10,
        patience: float = 60.0,
        backup: list[str] | None = None,
        most_input: int = mungi.MOST_INPUT_BYTES,
        system: System | None = None,
    ):
        self.system = system or System()
        self.volume = volume
        self.file = users
        self.program = program or mungi.default_program()
        self.silence = silence
        self.patience = patience
        self.backup = backup
        self.most_input = most_input
        self.loop = asyncio.get_running_loop()
        # The connections by their files, which are watched by an epoll of their own: a call of asyncio for each of them would cost more than
        # all else that is done for a line.
        self.epoll = select.epoll()
        self.connections: dict[int, Connection] = {}
        self.counts: collections.Counter[int] = collections.Counter()
        # The connections whose lines are taken next, in turn.
        self.ready: collections.deque[Connection] = collections.deque()
        # Whose replies come next, in order; None is that of a dot.
        self.owed: collections.deque[Connection | Note | None] = collections.deque()
        # How many of these are no dots. If there are none, no batch is under way.
        self.wanted = 0
        # How many of these let no other line be given before they are answered: the broker's own, and `next`, which may end any thread. And the
        # threads that others may end, whose numbers other threads may get then: no line of theirs is given.
        self.alone = 0
        self.ending: collections.Counter[int] = collections.Counter()
        self.process: subprocess.Popen[bytes] | None = None
        # Whether the run before ended with status 0, so that the system's cache has nothing that the medium lacks.
        self.is_clean = False
        # Whether the program was started and has not answered yet, and whether its input was closed.
        self.is_opening = self.is_closing = False
        self.is_gathering = False
        self.is_ending = False
        # What happens between two runs; no line is given meanwhile. At the start that is the opening.
        self.pause: asyncio.Future[None] | None = self.loop.create_future()
        self.backup_is_wanted = False
        self.copying: asyncio.subprocess.Process | None = None
        # What the program gave of its next reply, and what it was not given yet, in pieces of whole lines.
        self.begun = b""
        self.unwritten: collections.deque[bytes] = collections.deque()
        self.sent_bytes = 0
        # When the machine took or gave something.
        self.progress = 0.0
        self.opened: collections.deque[float] = collections.deque(maxlen=openings)
        # The status of the run that ended last, once it has ended or failed to open; and that the broker is done.
        self.outcome: asyncio.Future[int] = self.loop.create_future()
        self.hurry = asyncio.Event()
        self.is_done = asyncio.Event()
        self.listening: socket.socket | None = None
        # Of the numbers that USERS names: those whose threads live, those whose threads ended, and those that the machine is asked for.
        self.living: set[int] = set()
        self.gone: set[int] = set()
        self.asking: list[int] = []
        self.is_news = False
        self.rights: dict[tuple[int, frozenset[int]], Rights] = {}
        self.users = Users.read(users)

    # Users

    def reload(self) -> None:
        """Reads USERS again. A mistake keeps what was read before."""
        try:
            self.users = Users.read(self.file)
        except (OSError, Mistake) as error:
            say(f"{self.file}: {error}; what was read before stays")
            return
        # A number that is named no more is forgotten. One that was named all the time is not asked for again.
        self.living &= self.users.named
        self.gone &= self.users.named
        self.asking = sorted(self.users.named - self.living - self.gone)
        self.judge_anew()
        say(f"{self.file}: read again")
        self.stir()

    def judge_anew(self) -> None:
        """Gives each connection the rights that it has now."""
        self.rights.clear()
        for connection in self.connections.values():
            connection.rights = self.rights_of(connection)

    def rights_of(self, connection: Connection) -> Rights:
        key = (connection.user, connection.groups)
        found = self.rights.get(key)
        if found is None:
            found = self.rights[key] = Rights(self.users.grant_of(*key), self.living)
        return found

    def lose(self, number: int) -> None:
        """A thread does not live: who has its number must not have the next thread that gets it."""
        if number in self.users.named and number not in self.gone:
            self.living.discard(number)
            self.gone.add(number)
            self.judge_anew()
            say(f"thread {number} does not live; its number is refused, and should be taken out of {self.file}")

    # Connections

    def listen(self, listening: socket.socket) -> None:
        """Serves who connects."""
        self.listening = listening
        listening.setblocking(False)
        listening.listen(BACKLOG)
        self.loop.add_reader(self.epoll.fileno(), self.poll)
        self.loop.add_reader(listening.fileno(), self.accept)

    def accept(self) -> None:
        """Takes in those who connect."""
        assert self.listening is not None
        for _ in range(BACKLOG):
            try:
                peer, _ = self.listening.accept()
            except BlockingIOError:
                return
            except OSError as error:
                # No file is free: those who wait are tried again later.
                say(f"a connection could not be accepted: {error.strerror}")
                self.loop.remove_reader(self.listening.fileno())
                self.loop.call_later(1, self.accept_again)
                return
            peer.setblocking(False)
            self.join(Connection(self, peer))

    def accept_again(self) -> None:
        if self.listening is not None and not self.is_ending:
            self.loop.add_reader(self.listening.fileno(), self.accept)

    def join(self, connection: Connection) -> None:
        self.connections[connection.file] = connection
        self.counts[connection.user] += 1
        connection.rights = self.rights_of(connection)
        if not connection.rights.is_named:
            connection.end(REFUSED_USER)
        elif self.counts[connection.user] > MOST_CONNECTIONS:
            connection.end(REFUSED_CONNECTIONS)
        else:
            connection.watch()

    def leave(self, connection: Connection) -> None:
        del self.connections[connection.file]
        self.counts[connection.user] -= 1
        if not self.counts[connection.user]:
            del self.counts[connection.user]

    def poll(self) -> bool:
        """Reads from those who sent something, and sends to those who read: whether there were some."""
        events = self.epoll.poll(0)
        for file, event in events:
            connection = self.connections.get(file)
            if connection is not None:
                if event & select.EPOLLOUT:
                    connection.flush()
                if event & ~select.EPOLLOUT and connection.events & select.EPOLLIN:
                    connection.read()
                elif event & (select.EPOLLERR | select.EPOLLHUP) and connection.unsent:
                    connection.drop()
        if events and not self.is_gathering:
            self.gather()
        return bool(events)

    # Batches

    def gather(self) -> None:
        """Takes in lines until none came for so long, or none can come, and begins the next batch; nothing if one is under way."""
        if self.wanted or self.pause is not None:
            return
        self.is_gathering = True
        first = last = time.perf_counter()
        while self.ready and len(self.ready) < min(len(self.connections), mungi.MOST_BATCH):
            # asyncio's timers count milliseconds. Others who have this processor may run meanwhile.
            os.sched_yield()
            now = time.perf_counter()
            if self.poll():
                last = now
            elif now - last > self.silence:
                break
            if now - first > LONGEST_GATHERING * self.silence:
                break
        self.is_gathering = False
        self.begin()

    def begin(self) -> None:
        """Does what is to be done between two batches, or gives lines to the machine."""
        if self.pause is not None:
            return
        is_full = self.sent_bytes > self.most_input - MOST_BATCH_BYTES
        if self.wanted:
            # The machine closed a batch early. Lines that wait join those that are left, unless something is to be done first.
            if self.ready and not (self.alone or self.asking or self.backup_is_wanted or is_full):
                self.collect()
            else:
                self.give([])
        elif self.is_ending and not self.ready:
            self.pause = self.loop.create_task(self.finish())
        elif self.process is None or self.backup_is_wanted or is_full:
            self.pause = self.loop.create_task(self.reopen())
        elif self.asking:
            asked, self.asking = self.asking[: mungi.MOST_BATCH], self.asking[mungi.MOST_BATCH :]
            self.owed.extend(Note("ask", None, number) for number in asked)
            self.alone += len(asked)
            self.give([b"%d apdlist" % number for number in asked])
        elif self.ready:
            self.collect()

    def collect(self) -> None:
        """Takes lines from the connections in turn, and gives them to the machine."""
        ready, owed, ending = self.ready, self.owed, self.ending
        lines: list[bytes] = []
        # The connections whose next line waits for replies.
        blocked: list[Connection] = []
        room = mungi.MOST_BATCH
        while room > 0 and ready:
            connection = ready.popleft()
            if connection.is_over:
                continue
            queue = connection.queue
            is_blocked = False
            for _ in range(max(1, room // (len(ready) + 1))):
                if not queue:
                    break
                line = queue.popleft()
                room -= 1
                # Most lines are judged by these few looks.
                number, _, rest = line.partition(b" ")
                if number in connection.rights.own and rest and rest[0] in PLAIN and len(line) <= mungi.MOST_LINE_BYTES and not ending:
                    lines.append(line)
                    owed.append(connection)
                    connection.in_flight += 1
                    continue
                verdict = judge(line, connection.rights, self.users.named)
                if verdict.kind == "passed":
                    continue
                if verdict.kind == "refused" and not connection.in_flight:
                    connection.replies.append(verdict.text)
                    continue
                if verdict.kind == "refused" or verdict.thread in ending:
                    queue.appendleft(line)
                    is_blocked = True
                    break
                lines.append(verdict.text)
                connection.in_flight += 1
                if verdict.kind == "given":
                    owed.append(connection)
                    continue
                owed.append(Note(verdict.kind, connection, verdict.ends))
                if verdict.kind == "next":
                    self.alone += 1
                    room = 0
                    break
                ending[verdict.ends] += 1
            if connection.replies:
                connection.answer()
            if connection.is_held and len(queue) < FEW_QUEUED:
                connection.release()
            if connection.unsent:
                # It comes again when it has read.
                connection.is_ready = False
            elif is_blocked or connection.has_ended and not queue and connection.in_flight:
                blocked.append(connection)
            elif queue:
                ready.append(connection)
            elif connection.has_ended:
                connection.end(REFUSED_HALF if connection.tail else b"")
            else:
                connection.is_ready = False
        ready.extendleft(reversed(blocked))
        if lines or self.wanted:
            self.give(lines)
        else:
            self.stir()

    def stir(self) -> None:
        """Has the next batch begun soon."""
        self.loop.call_soon(self.gather)

    def give(self, lines: list[bytes]) -> None:
        """Gives lines to the machine, whose places in `owed` are made, and dots until it has a batch to answer."""
        self.wanted += len(lines)
        dots = max(0, mungi.MOST_BATCH - len(self.owed))
        self.owed.extend([None] * dots)
        data = b"".join([line + b"\n" for line in lines]) + mungi.FILL * dots
        self.sent_bytes += len(data)
        self.progress = time.monotonic()
        # A pipe takes this many bytes whole or not at all: whatever kills this process, the machine never gets half of a line.
        while len(data) > select.PIPE_BUF:
            cut = data.rindex(b"\n", 0, select.PIPE_BUF) + 1
            self.unwritten.append(data[:cut])
            data = data[cut:]
        self.unwritten.append(data)
        self.write()

    def write(self) -> None:
        """Writes to the machine what it takes."""
        assert self.process is not None and self.process.stdin is not None
        pipe = self.process.stdin.fileno()
        try:
            while self.unwritten:
                os.write(pipe, self.unwritten[0])
                self.unwritten.popleft()
        except BlockingIOError:
            self.loop.add_writer(pipe, self.write_more)
        except BrokenPipeError:
            # The end of its replies comes too.
            self.unwritten.clear()

    def write_more(self) -> None:
        assert self.process is not None and self.process.stdin is not None
        self.loop.remove_writer(self.process.stdin.fileno())
        self.write()

    def take(self) -> None:
        """Reads replies of the machine."""
        assert self.process is not None and self.process.stdout is not None
        try:
            data = os.read(self.process.stdout.fileno(), 1 << 16)
        except BlockingIOError:
            return
        self.progress = time.monotonic()
        if not data:
            self.run_ended()
            return
        replies = (self.begun + data).split(b"\n")
        self.begun = replies.pop()
        self.deliver(replies)

    def deliver(self, replies: list[bytes]) -> None:
        """Sends each reply to the connection whose line it answers. After the last one the next batch begins."""
        owed = self.owed
        touched: list[Connection] = []
        wanted = 0
        for reply in replies:
            if not owed or reply.startswith(b"open"):
                say(f"{self.volume}: {reply.decode('utf-8', 'backslashreplace')}")
                continue
            entry = owed.popleft()
            if entry is None:
                continue
            wanted += 1
            if isinstance(entry, Note):
                self.note(entry, reply)
                if entry.connection is None:
                    continue
                entry = entry.connection
            if not entry.replies:
                touched.append(entry)
            entry.replies.append(reply)
            entry.in_flight -= 1
        for connection in touched:
            connection.answer()
        if self.wanted == 0:
            # These were dots alone.
            return
        self.wanted -= wanted
        if self.wanted == 0:
            if self.is_news:
                self.is_news = False
                self.judge_anew()
            self.gather()
        elif len(owed) < mungi.MOST_BATCH:
            self.begin()

    def note(self, note: Note, reply: bytes) -> None:
        """Reads the reply to a noted line."""
        if note.kind == "open":
            self.alone -= 1
            self.is_opening = False
            self.outcome.set_result(0)
        elif note.kind == "ask":
            self.alone -= 1
            if reply == b"no NoThread":
                self.lose(note.thread)
            else:
                self.living.add(note.thread)
                self.is_news = True
        elif note.kind == "next":
            self.alone -= 1
            if reply.endswith(b" Ended"):
                self.lose(int(reply.split()[1]))
        else:
            self.ending[note.thread] -= 1
            if not self.ending[note.thread]:
                del self.ending[note.thread]
            if reply == (b"ok" if note.kind == "end" else b"ok Ended"):
                self.lose(note.thread)

    # Runs

    def report(self, text: str) -> None:
        """Prints what happens to the volume, and tells it to systemd."""
        say(f"{self.volume} {text}")
        self.system.tell(f"STATUS={self.volume} {text}")

    def start(self) -> None:
        """Starts the program. `outcome` then is 0 once the volume is open, or else the status."""
        self.outcome = self.loop.create_future()
        self.is_opening, self.is_closing = True, False
        self.sent_bytes = 0
        self.begun = b""
        try:
            os.stat(self.volume)
            is_there = True
        except OSError as error:
            # Of other errors the program says what they are.
            is_there = not isinstance(error, (FileNotFoundError, NotADirectoryError))
        if not is_there:
            # The program would make an empty file, as where a mount is away, and a later mount would hide it.
            say(f"{self.volume}: there is no volume")
            self.is_opening = False
            self.tell_all(2)
            self.outcome.set_result(2)
            return
        if not self.is_clean:
            mungi.drop_cache(self.volume)
        # Whoever ended in what was under way is not known, so all are asked for.
        self.asking = sorted(self.users.named - self.gone)
        try:
            self.process = subprocess.Popen(
                [self.program, self.volume, "run", str(mungi.MOST_BATCH)],
                bufsize=0,
                stdin=subprocess.PIPE,
                stdout=subprocess.PIPE,
                # An interrupt from the keyboard then reaches the broker alone, which closes the run in order.
                process_group=0,
            )
        except OSError as error:
            # As when there is not enough memory, nothing was read.
            say(f"{self.program} can't be started: {error.strerror}")
            self.is_opening = False
            self.tell_all(3)
            self.outcome.set_result(3)
            return
        assert self.process.stdin is not None and self.process.stdout is not None
        os.set_blocking(self.process.stdin.fileno(), False)
        os.set_blocking(self.process.stdout.fileno(), False)
        self.loop.add_reader(self.process.stdout.fileno(), self.take)
        self.owed.append(Note("open"))
        self.alone += 1
        self.give([DOT])

    def run_ended(self) -> None:
        """The program printed its last reply. Each user with lines under way is told, and its connection is closed."""
        process = self.process
        assert process is not None and process.stdin is not None and process.stdout is not None
        self.process = None
        self.loop.remove_reader(process.stdout.fileno())
        if not self.is_closing:
            self.loop.remove_writer(process.stdin.fileno())
            process.stdin.close()
        process.stdout.close()
        try:
            status = process.wait(FAREWELL)
        except subprocess.TimeoutExpired:
            process.kill()
            status = process.wait()
        self.is_clean = status == 0
        lost: collections.Counter[Connection] = collections.Counter()
        for entry in self.owed:
            connection = entry.connection if isinstance(entry, Note) else entry
            if connection is not None:
                lost[connection] += 1
        self.owed.clear()
        self.unwritten.clear()
        self.ending.clear()
        self.wanted = self.alone = 0
        has_failed = self.is_opening
        if not self.is_closing or status != 0:
            told = mungi.STATUSES.get(status, f"killed by signal {-status}" if status < 0 else "no status of mungi")
            say(f"{self.volume}: the program ended with status {status}, {told}")
        if has_failed:
            # Whoever waits may wait for long: it is told that nothing of it was given.
            self.tell_all(status)
        for connection, lines in lost.items():
            # With these statuses the program keeps nothing that it did not answer.
            connection.end(b"ended %d %d" % (status, 0 if status in (1, 2, 3, 5, 7, 9) else lines))
        self.is_opening = False
        if has_failed or self.is_closing:
            self.outcome.set_result(status)
        else:
            self.stir()

    def tell_all(self, status: int) -> None:
        """Ends each connection that waits. None of its waiting lines was given to the machine."""
        for connection in self.ready:
            connection.is_ready = False
            connection.end(b"ended %d 0" % status)
        self.ready.clear()

    async def open(self) -> int:
        """Starts the program: 0 once the volume is open, or else the status of the program."""
        self.start()
        return await self.outcome

    async def close_run(self) -> bool:
        """Ends the input of the run, between two batches, and waits until the run has ended. Gives whether there was one
        that ended with status 0."""
        if self.process is None:
            return False
        assert self.process.stdin is not None
        self.outcome = self.loop.create_future()
        self.is_closing = True
        self.progress = time.monotonic()
        # Of dots that were not written yet none is waited for.
        self.loop.remove_writer(self.process.stdin.fileno())
        self.unwritten.clear()
        self.process.stdin.close()
        return await self.outcome == 0

    async def reopen(self) -> None:
        """Closes the run if there is one, has the volume copied if that was asked for, and opens the volume again."""
        closed = time.monotonic()
        # An opening after a run that the broker closed itself does not count: it was wanted.
        counts = not await self.close_run()
        if self.backup_is_wanted:
            self.backup_is_wanted = False
            self.report("is closed for a backup")
            await self.copy()
        most = self.opened.maxlen or 1
        while True:
            now = time.monotonic()
            if counts and len(self.opened) == most and self.opened[0] + MINUTE > now:
                seconds = self.opened[0] + MINUTE - now
                self.report(f"waits {seconds:.1f} s: it was opened {most} times in {MINUTE:g} s")
                await self.rest(seconds)
            if counts:
                self.opened.append(time.monotonic())
            status = await self.open()
            if status == 0 or self.is_ending:
                break
            counts = True
            self.report(f"can't be opened: status {status}; it is tried again in {MINUTE / most:.1f} s")
            await self.rest(MINUTE / most)
        if status == 0:
            self.report(f"is open again, after {time.monotonic() - closed:.1f} s")
        self.pause = None
        self.stir()

    async def rest(self, seconds: float) -> None:
        """Waits so long, or until the broker is to end."""
        with contextlib.suppress(asyncio.TimeoutError):
            await asyncio.wait_for(self.hurry.wait(), max(0.0, seconds))

    async def copy(self) -> None:
        """Runs the command of --backup."""
        assert self.backup is not None
        begun = time.monotonic()
        environment = dict(os.environ, MUNGI=self.program)
        try:
            self.copying = await asyncio.create_subprocess_exec(
                *self.backup, self.volume, stdin=subprocess.DEVNULL, stdout=sys.stderr, env=environment, process_group=0
            )
        except OSError as error:
            say(f"{self.backup[0]}: {error.strerror}")
            return
        if self.is_ending:
            self.end_copy()
        try:
            status = await asyncio.wait_for(self.copying.wait(), BACKUP_PATIENCE)
        except asyncio.TimeoutError:
            self.end_copy()
            status = await self.copying.wait()
        self.copying = None
        say(f"{self.backup[0]} ended with status {status}, after {time.monotonic() - begun:.1f} s")

    def end_copy(self) -> None:
        """Ends the command of --backup and what it started. They have some seconds to remove what they made, and are
        killed then."""
        copying = self.copying

        def send(number: int) -> None:
            if copying is not None and copying is self.copying:
                with contextlib.suppress(ProcessLookupError):
                    os.killpg(copying.pid, number)

        send(signal.SIGTERM)
        self.loop.call_later(FAREWELL, send, signal.SIGKILL)

    def want_backup(self) -> None:
        if self.backup is None:
            say("there is no command to copy the volume with: see --backup")
        else:
            self.backup_is_wanted = True
            self.stir()

    def watch(self) -> None:
        """Kills a program that neither takes nor gives anything for too long while it is waited for."""
        if self.process is not None and (self.wanted or self.is_closing) and time.monotonic() - self.progress > self.patience:
            say(f"{self.volume}: the program did not answer for {self.patience:g} s")
            self.process.kill()
        self.loop.call_later(1, self.watch)

    # The end

    def stop(self) -> None:
        """Takes no more lines, answers those that were taken, and ends."""
        if not self.is_ending:
            self.is_ending = True
            self.hurry.set()
            if self.listening is not None:
                self.loop.remove_reader(self.listening.fileno())
                self.listening.close()
            for connection in self.connections.values():
                connection.watch()
            self.system.tell("STOPPING=1", f"STATUS={self.volume} is closed")
            self.end_copy()
            self.stir()

    async def finish(self) -> None:
        """Closes the run and the connections."""
        await self.close_run()
        for connection in list(self.connections.values()):
            connection.end(b"ended 0 0")
        deadline = time.monotonic() + FAREWELL
        while self.connections and time.monotonic() < deadline:
            await asyncio.sleep(0.01)
        self.is_done.set()


def is_taken(path: str) -> str | None:
    """Why there can be no socket at this path, or None. One that nobody listens on, as a broker that was killed leaves it, does not count."""
    try:
        found = os.lstat(path)
    except FileNotFoundError:
        return None
    if not stat.S_ISSOCK(found.st_mode):
        return "is there, and is no socket"
    with socket.socket(socket.AF_UNIX) as peer:
        peer.setblocking(False)
        try:
            peer.connect(path)
        except ConnectionRefusedError:
            return None
        except OSError as error:
            return f"is there: {error.strerror}"
    return "is there, and somebody listens on it"


def listen(path: str) -> socket.socket:
    """A socket at this path, to which everybody may connect: who is named in USERS is served. Raises OSError."""
    why = is_taken(path)
    if why is not None:
        raise FileExistsError(errno.EEXIST, why, path)
    with contextlib.suppress(FileNotFoundError):
        os.unlink(path)
    listening = socket.socket(socket.AF_UNIX)
    mask = os.umask(0)
    try:
        listening.bind(path)
    except BaseException:
        listening.close()
        raise
    finally:
        os.umask(mask)
    return listening


async def serve(volume: str, path: str, broker: Broker, given: socket.socket | None = None) -> int:
    """Opens the volume, listens until the broker is done, and gives the status. `given` is systemd's socket at the path."""
    loop = asyncio.get_running_loop()
    loop.add_signal_handler(signal.SIGTERM, broker.stop)
    loop.add_signal_handler(signal.SIGINT, broker.stop)
    loop.add_signal_handler(signal.SIGHUP, broker.reload)
    loop.add_signal_handler(signal.SIGUSR1, broker.want_backup)
    for number in dict.fromkeys(EARLY):
        (broker.reload if number == signal.SIGHUP else broker.want_backup)()
    broker.watch()
    broker.opened.append(time.monotonic())
    for place in range(FIRST_TRIES):
        # Nothing else is begun before the volume is open.
        status = await broker.open()
        if status != 4 or broker.is_ending:
            break
        # Another run may be about to end: that of a broker that was killed.
        if place == 0:
            broker.report(f"can't be opened yet: it is tried {FIRST_TRIES} times, every {FIRST_WAIT:g} s")
        await broker.rest(FIRST_WAIT)
    if status != 0:
        # Whoever has it ended meanwhile gets the status of an end in order: no line was taken.
        return 0 if broker.is_ending else status if status > 0 else 4
    made = None
    if given is None:
        try:
            given = listen(path)
        except OSError as error:
            say(f"{path}: {error.strerror or error}")
            await broker.close_run()
            return 1
        made = os.lstat(path)
    broker.pause = None
    broker.listen(given)
    say(f"{volume} is open, and {path} is listened on")
    broker.system.tell("READY=1", f"STATUS={volume} is open")
    broker.stir()
    await broker.is_done.wait()
    # A socket of systemd's stays, and so do those who wait to be accepted: the next broker serves them.
    with contextlib.suppress(FileNotFoundError):
        if made is not None and os.path.samestat(os.lstat(path), made):
            os.unlink(path)
    return 0


def positive(text: str) -> float:
    value = float(text)
    if not 0 < value < 1e9:
        raise ValueError
    return value


async def run(words: argparse.Namespace) -> int:
    """The status of the broker that the words of the command describe."""
    system = System()
    try:
        program = words.program or mungi.default_program()
        backup = shlex.split(words.backup) if words.backup else None
        broker = Broker(words.volume, words.users, program, words.silence * 1e-6, words.openings, words.patience, backup, words.most_input, system)
    except (OSError, Mistake) as error:
        say(f"{words.users}: {error}" if isinstance(error, Mistake) else str(error))
        return 1
    try:
        given = system.listening(words.socket)
    except OSError as error:
        say(f"{words.socket}: {error.strerror}")
        return 1
    why = is_taken(words.socket) if given is None else None
    if why is not None or not os.path.exists(words.volume):
        say(f"{words.socket} {why}" if why is not None else f"{words.volume}: there is no volume")
        return 1
    return await serve(words.volume, words.socket, broker, given)


class Words(argparse.ArgumentParser):
    """The words of the command. Wrong ones end it with status 1: 2 is that of a program that finds no volume."""

    def error(self, message: str) -> NoReturn:
        self.print_usage(sys.stderr)
        self.exit(1, f"mungi_broker: {message}; --help says more\n")


def main() -> None:
    keep_signals()
    parser = Words(prog="mungi-broker", description="Lets many people use one volume, each as the threads that are theirs.")
    parser.add_argument("volume", metavar="VOLUME", help="the file of the volume")
    parser.add_argument("socket", metavar="SOCKET", help="the Unix socket to listen on, which is made")
    parser.add_argument("users", metavar="USERS", help="the file that says who has which threads")
    parser.add_argument("--program", help="the program mungi; else the one that MUNGI names, or that of the path")
    parser.add_argument("--silence", type=positive, default=100, metavar="MICROSECONDS", help="a batch closes when no line came for so long (100)")
    parser.add_argument("--openings", type=int, default=10, metavar="N", help="the volume is opened at most N times in 60 seconds (10)")
    parser.add_argument("--patience", type=positive, default=60, metavar="SECONDS", help="a program that does not answer for so long is killed (60)")
    parser.add_argument("--backup", metavar="COMMAND", help="what SIGUSR1 runs, with VOLUME as last word, while the volume is closed")
    parser.add_argument("--most-input", type=int, default=mungi.MOST_INPUT_BYTES, metavar="BYTES", help="a run ends before it has read this many bytes (2^32)")
    words = parser.parse_args()
    if words.openings < 1 or not 2 * MOST_BATCH_BYTES <= words.most_input <= mungi.MOST_INPUT_BYTES:
        parser.error(f"--openings is at least 1, and --most-input from {2 * MOST_BATCH_BYTES} to {mungi.MOST_INPUT_BYTES}")
    # Each connection is an open file.
    _, most_files = resource.getrlimit(resource.RLIMIT_NOFILE)
    resource.setrlimit(resource.RLIMIT_NOFILE, (most_files, most_files))
    sys.exit(asyncio.run(run(words)))


if __name__ == "__main__":
    main()
