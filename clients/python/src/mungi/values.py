"""What calls and commands give, as tuples with names."""

from __future__ import annotations

from typing import NamedTuple


class Capability(NamedTuple):
    """The base of an object and a password of it. Both together, in a list that a thread uses, give the thread a
    right."""

    base: int
    password: int


class Info(NamedTuple):
    """What `info` says of an object: its base, pages, the account that pays, password rows (ended ones too), entries,
    and whether it has an extension."""

    base: int
    pages: int
    account: int
    passwords: int
    entries: int
    has_extension: bool


class Balance(NamedTuple):
    """Credits that an account has, credits that it owes, and pages that it pays for."""

    credits: int
    debt: int
    pages: int


class NewAccount(NamedTuple):
    """The number of a new account, and its password."""

    number: int
    password: int


class Rent(NamedTuple):
    """The period that begins, what a page cost in the one that ended, and what all accounts paid together, in
    credits."""

    period: int
    rate: int
    paid: int


class Turn(NamedTuple):
    """What a thread is after a turn: "Ready", "Stopped", "Faulted" or "Ended". `cause` is "Align", "Denied" or "Opcode"
    of a faulted one, else None."""

    state: str
    cause: str | None


class Next(NamedTuple):
    """The thread that had the turn, and what it is then."""

    thread: int
    turn: Turn


class Check(NamedTuple):
    """What `check` says of a volume: its frames, the numbers of objects, pages, accounts and threads, the period, the
    credits."""

    frames: int
    objects: int
    pages: int
    accounts: int
    threads: int
    period: int
    credits: int


class Fresh(NamedTuple):
    """Of a fresh volume: the base of the root, the root's password, and the password of account 1, the treasury."""

    root: int
    password: int
    treasury: int


class Unreached(NamedTuple):
    """An object on which no thread has a right now. It costs its account rent all the same.

    - `password` is one of its passwords that gives D now, or None if none does.
    - `is_named` says whether some slot, extension, or two words in a row name it by one of its passwords: then a thread
      may come to it again, for instance after `pdx`, or by `ret`. If no list names it, only somebody who noted its
      password elsewhere can.
    """

    base: int
    pages: int
    account: int
    password: int | None
    is_named: bool
