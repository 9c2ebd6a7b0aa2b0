"""The texts of mungi_show, read line by line."""

from __future__ import annotations

import bisect
import re
from array import array
from collections.abc import Callable, Iterable, Iterator, Mapping, Sequence
from dataclasses import dataclass, field
from typing import TypeVar

from mungi.errors import Error
from mungi.limits import PAGE_BYTES

LETTERS = "RWXDPO"
T = TypeVar("T")


class BadText(Error, ValueError):
    """A line that is not known, or not in this place, or a text that ends before it is whole. `number` is the line's
    number, from 1, and `line` the line, or "" at the end of the text."""

    def __init__(self, number: int, line: str):
        self.number = number
        self.line = line.rstrip("\n")
        super().__init__(
            f"line {number} is not known here: {self.line!r}"
            if line
            else f"the text ends before line {number}, and is not whole"
        )


@dataclass(frozen=True, slots=True)
class Settings:
    """What the volume was made with: pages that all objects may have together, the seed as 64 hexadecimal digits,
    credits of all accounts together, and the tariff, four pairs of a number of pages and the credits that a page costs
    a period from there on."""

    frames: int
    seed: str
    credits: int
    tariff: tuple[tuple[int, int], ...]


@dataclass(frozen=True, slots=True)
class Counters:
    """Passwords drawn so far, the period, the thread that `next` ran last (0 at first), and threads made so far."""

    draws: int
    period: int
    cursor: int
    births: int


@dataclass(frozen=True, slots=True)
class AccountRow:
    """An account: its number and password, credits that it has and that it owes, and the pages that it pays for."""

    number: int
    password: int
    balance: int
    owed: int
    pages: int


@dataclass(frozen=True, slots=True)
class PasswordRow:
    """A password of an object, and its rights. `until` is the first period in which it does not count any more, or None
    if it never ends."""

    password: int
    rights: str
    until: int | None

    def is_current(self, period: int) -> bool:
        """Whether it counts in this period."""
        return self.until is None or period < self.until


@dataclass(frozen=True, slots=True)
class Slot:
    """The base and the password of a capability list: a slot of a frame, or an object's extension."""

    base: int
    password: int


class Words(Mapping[int, int]):
    """The words of an object that are not 0: each address with its value, in the order of addresses. An address that is
    not in it raises KeyError; its word is 0 if the object has it."""

    __slots__ = ("_addresses", "_values")

    def __init__(self, words: Iterable[tuple[int, int]] = ()):
        self._addresses, self._values = array("Q"), array("Q")
        for address, value in words:
            self._add(address, value)

    def _add(self, address: int, value: int) -> None:
        self._addresses.append(address)
        self._values.append(value)

    def __getitem__(self, address: int) -> int:
        at = bisect.bisect_left(self._addresses, address)
        if at == len(self._addresses) or self._addresses[at] != address:
            raise KeyError(address)
        return self._values[at]

    def __iter__(self) -> Iterator[int]:
        return iter(self._addresses)

    def __len__(self) -> int:
        return len(self._addresses)

    def __repr__(self) -> str:
        return f"<Words, {len(self)} that are not 0>"


@dataclass(frozen=True, slots=True)
class ObjectRow:
    """An object: its base, pages of 4,096 bytes, the account that pays, its passwords (ended ones too), the addresses
    at which it may be entered, its extension or None, and its words that are not 0."""

    base: int
    pages: int
    account: int
    passwords: tuple[PasswordRow, ...]
    entries: tuple[int, ...]
    extension: Slot | None
    words: Words = field(default_factory=Words, hash=False)

    @property
    def end(self) -> int:
        """The first address after the object."""
        return self.base + PAGE_BYTES * self.pages

    def word(self, address: int) -> int:
        """The word at an address. Raises KeyError if the address is no word of the object."""
        if not self.base <= address < self.end or address % 8:
            raise KeyError(address)
        return self.words.get(address, 0)

    def rights_by(self, password: int, period: int) -> str:
        """The rights that a password gives on the object in a period; "" if it gives none."""
        rights = {
            letter
            for row in self.passwords
            if row.password == password and row.is_current(period)
            for letter in row.rights
        }
        return "".join(letter for letter in LETTERS if letter in rights)


@dataclass(frozen=True, slots=True)
class Frame:
    """A frame: the address to which `ret` leads back from it, and its slots."""

    back: int
    slots: tuple[Slot, ...]


@dataclass(frozen=True, slots=True)
class ThreadRow:
    """A thread: its number, its birth and that of the thread that made it (0 of the first), the address of its next
    instruction, "Ready", "Stopped" or "Faulted", the cause of a fault or None, registers r0 to r7, and its frames, the
    present one last."""

    number: int
    birth: int
    creator: int
    pc: int
    state: str
    cause: str | None
    registers: tuple[int, ...]
    frames: tuple[Frame, ...]

    @property
    def domain(self) -> tuple[Slot, ...]:
        """The slots of the present frame: the lists that the thread uses now."""
        return self.frames[-1].slots


@dataclass(frozen=True, slots=True)
class State:
    """All that a volume holds, each kind in the order of its numbers or bases."""

    settings: Settings
    counters: Counters
    accounts: tuple[AccountRow, ...]
    objects: tuple[ObjectRow, ...]
    threads: tuple[ThreadRow, ...]

    def account(self, number: int) -> AccountRow:
        """The account with this number. Raises KeyError."""
        return _found(self.accounts, number, lambda row: row.number)

    def object(self, base: int) -> ObjectRow:
        """The object with this base. Raises KeyError."""
        return _found(self.objects, base, lambda row: row.base)

    def thread(self, number: int) -> ThreadRow:
        """The thread with this number. Raises KeyError."""
        return _found(self.threads, number, lambda row: row.number)


def _found(rows: Sequence[T], wanted: int, key: Callable[[T], int]) -> T:
    at = bisect.bisect_left(rows, wanted, key=key)
    if at == len(rows) or key(rows[at]) != wanted:
        raise KeyError(wanted)
    return rows[at]


@dataclass(frozen=True, slots=True)
class Reach:
    """The rights that a thread has now on the object with this base. `enters` has the object's entries if P is one of
    them: there `pdx` is not refused with Denied or NoEntry."""

    thread: int
    base: int
    rights: str
    enters: tuple[int, ...]


@dataclass(frozen=True, slots=True)
class Change:
    """The rights on the object with this base that a thread has after and not before (`gained`), and before and not
    after (`lost`), with the addresses of `enter` lines that came and went."""

    thread: int
    base: int
    gained: str
    lost: str
    gained_enters: tuple[int, ...] = ()
    lost_enters: tuple[int, ...] = ()


# Lines


_HEX, _DEC = "0x([0-9a-f]{16})", "(0|[1-9][0-9]*)"
_STEP = "(?:0|[1-9][0-9]*):(?:0|[1-9][0-9]*)"
_RIGHTS = "(R?W?X?D?P?O?)"
_WORDS = {
    "frames": [_DEC],
    "seed": ["([0-9a-f]{64})"],
    "credits": [_DEC],
    "tariff": ["(" + " ".join([_STEP] * 4) + ")"],
    "draws": [_DEC],
    "period": [_DEC],
    "cursor": [_DEC],
    "births": [_DEC],
    "account": [_DEC, _HEX, _DEC, _DEC, _DEC],
    "object": [_HEX, _DEC, _DEC],
    "password": [_HEX, _RIGHTS, "(never|[1-9][0-9]*)"],
    "entry": [_HEX],
    "extension": [_HEX, _HEX],
    "thread": [_DEC, _DEC, _DEC, _HEX, "(Ready|Stopped|Faulted (?:Align|Denied|Opcode))", *[_HEX] * 8],
    "frame": [_HEX],
    "slot": [_HEX, _HEX],
    "word": [_HEX, _HEX],
    "reach": [_DEC, _HEX, "(?=[RWXDPO])" + _RIGHTS],
    "enter": [_DEC, _HEX],
}
# For each kind of line what reads a whole one, its newline with it.
_MATCHES = {kind: re.compile(" ".join([kind, *words]) + "\n").fullmatch for kind, words in _WORDS.items()}


class _Text:
    """The lines of a text, of which the next one is known. `kind` is its first word, "" at the end."""

    def __init__(self, lines: Iterable[str]):
        self._lines = iter(lines)
        self.number = 0
        self._next()

    def _next(self) -> None:
        self.line = next(self._lines, "")
        self.number += 1
        self.kind = self.line.partition(" ")[0]

    def take(self, kind: str) -> tuple[str, ...]:
        """The words after the first one of the next line. Raises BadText if it is not of this kind."""
        found = _MATCHES[kind](self.line) if self.kind == kind else None
        if found is None:
            raise self.bad()
        self._next()
        return found.groups()

    def bad(self) -> BadText:
        return BadText(self.number, self.line)

    def ends(self) -> None:
        """Raises BadText if there is another line."""
        if self.line:
            raise self.bad()


def _hex(word: str) -> int:
    return int(word, 16)


def _slot(words: tuple[str, ...]) -> Slot:
    return Slot(_hex(words[0]), _hex(words[1]))


def _settings(text: _Text) -> Settings:
    (frames,), (seed,), (credits,), (tariff,) = (text.take(kind) for kind in ("frames", "seed", "credits", "tariff"))
    steps = (step.split(":") for step in tariff.split())
    return Settings(int(frames), seed, int(credits), tuple((int(pages), int(rate)) for pages, rate in steps))


def _account(text: _Text, number: int) -> AccountRow:
    """The next account, which has to have this number."""
    bad = text.bad()
    words = text.take("account")
    if int(words[0]) != number:
        raise bad
    return AccountRow(number, _hex(words[1]), *map(int, words[2:]))


def _object(text: _Text, least: int) -> ObjectRow:
    """The next object, whose base is not below `least`."""
    bad = text.bad()
    base, pages, account = text.take("object")
    if _hex(base) < least:
        raise bad
    passwords, entries, extension = [], [], None
    while text.kind == "password":
        password, rights, until = text.take("password")
        passwords.append(PasswordRow(_hex(password), rights, None if until == "never" else int(until)))
    while text.kind == "entry":
        entries.append(_hex(text.take("entry")[0]))
    if text.kind == "extension":
        extension = _slot(text.take("extension"))
    return ObjectRow(_hex(base), int(pages), int(account), tuple(passwords), tuple(entries), extension)


def _thread(text: _Text, least: int) -> ThreadRow:
    """The next thread, whose number is not below `least`."""
    bad = text.bad()
    number, birth, creator, pc, state, *registers = text.take("thread")
    if int(number) < least:
        raise bad
    frames: list[Frame] = []
    while text.kind == "frame" or not frames:
        (back,) = text.take("frame")
        slots = []
        while text.kind == "slot":
            slots.append(_slot(text.take("slot")))
        frames.append(Frame(_hex(back), tuple(slots)))
    word, _, cause = state.partition(" ")
    return ThreadRow(
        int(number), int(birth), int(creator), _hex(pc), word, cause or None, tuple(map(_hex, registers)), tuple(frames)
    )


def _read_words(text: _Text, places: list[tuple[int, int, Words | None]]) -> None:
    """Reads the words of objects. `places` has the base and the end of each in order, and what takes its words, or
    None."""
    at, least = 0, 0
    while text.kind == "word":
        bad_number, bad_line = text.number, text.line
        address, value = map(_hex, text.take("word"))
        while at < len(places) and places[at][1] <= address:
            at += 1
        if at == len(places) or address < max(places[at][0], least) or address % 8 or value == 0:
            raise BadText(bad_number, bad_line)
        least = address + 8
        words = places[at][2]
        if words is not None:
            words._add(address, value)


def read_state(lines: Iterable[str], thread: int | None = None, base: int | None = None, words: bool = True) -> State:
    """Reads the text of a state from its lines, each with its newline. Filters are those of `show`. Raises BadText."""
    text = _Text(lines)
    settings = _settings(text)
    counters = Counters(*(int(text.take(kind)[0]) for kind in ("draws", "period", "cursor", "births")))
    accounts: list[AccountRow] = []
    while text.kind == "account":
        accounts.append(_account(text, len(accounts) + 1))
    objects, places, least = [], [], 0
    while text.kind == "object":
        row = _object(text, least)
        least = row.end
        is_wanted = base in (None, row.base)
        if is_wanted:
            objects.append(row)
        places.append((row.base, row.end, row.words if is_wanted and words else None))
    threads, least = [], 0
    while text.kind == "thread":
        made = _thread(text, least)
        least = made.number + 1
        if thread in (None, made.number):
            threads.append(made)
    _read_words(text, places)
    text.ends()
    return State(settings, counters, tuple(accounts), tuple(objects), tuple(threads))


def read_reach(lines: Iterable[str]) -> Iterator[Reach]:
    """Reads the text of `reach` from its lines, each with its newline, and gives a row as soon as it is read. Raises
    BadText."""
    text, last = _Text(lines), (0, -1)
    while text.line:
        bad = text.number, text.line
        words = text.take("reach")
        thread, base, rights = int(words[0]), _hex(words[1]), words[2]
        if (thread, base) <= last:
            raise BadText(*bad)
        last, enters = (thread, base), []
        while text.kind == "enter":
            bad = text.number, text.line
            entered, address = text.take("enter")
            if int(entered) != thread or "P" not in rights or _hex(address) < base:
                raise BadText(*bad)
            enters.append(_hex(address))
        yield Reach(thread, base, rights, tuple(enters))
