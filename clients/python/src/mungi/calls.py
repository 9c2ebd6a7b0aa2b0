"""The calls of the machine: each as its line, and what makes a value of the words of its answer."""

from __future__ import annotations

from collections.abc import Callable
from dataclasses import dataclass
from typing import Generic, TypeVar

from mungi.errors import ListPage
from mungi.limits import PAGE_BYTES, ROOT, WORD_BYTES
from mungi.values import Balance, Capability, Info, NewAccount, Next, Rent, Turn

T = TypeVar("T")


def number(value: int) -> str:
    """A number of a line, decimal. Raises ValueError outside 0 to 2**64 - 1."""
    if not isinstance(value, int) or not 0 <= value < 1 << 64:
        raise ValueError(f"{value!r} is no whole number from 0 to 2**64 - 1")
    return str(int(value))


def hexadecimal(value: int) -> str:
    """An address or a password of a line."""
    return hex(int(number(value)))


def rights_of(letters: str) -> str:
    """The rights of a line. Which letters there are is left to the machine."""
    if not letters.isascii() or not letters.isalpha():
        raise ValueError(f"rights are letters of RWXDPO, and {letters!r} has others")
    return letters


def nothing(_words: list[str]) -> None:
    return None


def first(words: list[str]) -> int:
    return int(words[0], 0)


def numbers(words: list[str]) -> list[int]:
    return [int(word, 0) for word in words]


def info_of(words: list[str]) -> Info:
    base, pages, account, passwords, entries, has_extension = numbers(words)
    return Info(base, pages, account, passwords, entries, has_extension == 1)


def turn_of(words: list[str]) -> Turn:
    return Turn(words[0], words[1] if len(words) > 1 else None)


@dataclass(frozen=True, slots=True)
class Call(Generic[T]):
    """A line that is a call, and what makes its value of the words after "ok"."""

    line: str
    read: Callable[[list[str]], T]


NEXT = Call("next", lambda words: Next(int(words[0]), turn_of(words[1:])))
RENT = Call("rent", lambda words: Rent(*numbers(words)))


def as_it_is(line: str) -> Call[None]:
    """A line that is sent as it is. Raises ValueError if it is never answered."""
    words = line.strip(" \t\r")
    if not words or words.startswith("#"):
        raise ValueError("a blank line or a comment is never answered")
    return Call(line, nothing)


class Lists:
    """The first pages of objects that are known to be capability lists."""

    def __init__(self) -> None:
        self._pages = {ROOT}

    def add(self, address: int) -> None:
        """The object that begins in this page is a list."""
        self._pages.add(address - address % PAGE_BYTES)

    def listed(self, bases: list[int]) -> list[int]:
        """Notes that objects are used as lists."""
        self._pages.update(bases)
        return bases

    def made(self, made: Capability, pages: int) -> Capability:
        """Notes that an object is new: no page of it is a list that was there before."""
        self._pages.difference_update(range(made.base, made.base + pages * PAGE_BYTES, PAGE_BYTES))
        return made

    def guard(self, address: int, into_list: bool) -> None:
        """Raises ListPage if a store would change a list that is known, and is not asked to."""
        page = address - address % PAGE_BYTES
        if page in self._pages and not into_list and address != page + WORD_BYTES:
            raise ListPage(f"{address:#x} lies in a capability list: use add and remove, or say into_list=True")


class ThreadCalls:
    """The calls of one thread, under their own names. `Thread` says what each does."""

    def __init__(self, lists: Lists, thread: int):
        if not 1 <= thread <= 256:
            raise ValueError(f"the thread is {thread}, and has to be from 1 to 256")
        self._lists = lists
        self._thread = thread

    def load(self, address: int) -> Call[int]:
        return Call(f"{self._thread} load {hexadecimal(address)}", first)

    def store(self, address: int, value: int, into_list: bool) -> Call[None]:
        self._lists.guard(address, into_list)
        return Call(f"{self._thread} store {hexadecimal(address)} {number(value)}", nothing)

    def create(self, pages: int, account: int, password: int) -> Call[Capability]:
        line = f"{self._thread} create {number(pages)} {number(account)} {hexadecimal(password)}"
        return Call(line, lambda words: self._lists.made(Capability(*numbers(words)), pages))

    def delete(self, base: int) -> Call[None]:
        return Call(f"{self._thread} delete {hexadecimal(base)}", nothing)

    def info(self, base: int) -> Call[Info]:
        return Call(f"{self._thread} info {hexadecimal(base)}", info_of)

    def pwadd(self, base: int, rights: str, until: int | None) -> Call[int]:
        end = "" if until is None else f" {number(until)}"
        return Call(f"{self._thread} pwadd {hexadecimal(base)} {rights_of(rights)}{end}", first)

    def pwdel(self, base: int, password: int) -> Call[None]:
        return Call(f"{self._thread} pwdel {hexadecimal(base)} {hexadecimal(password)}", nothing)

    def entry(self, base: int, offset: int) -> Call[int]:
        return Call(f"{self._thread} entry {hexadecimal(base)} {number(offset)}", first)

    def ext(self, base: int, list_base: int, list_password: int) -> Call[None]:
        line = f"{self._thread} ext {hexadecimal(base)} {hexadecimal(list_base)} {hexadecimal(list_password)}"
        return Call(line, nothing)

    def recharge(self, base: int, account: int, password: int) -> Call[None]:
        return Call(f"{self._thread} recharge {hexadecimal(base)} {number(account)} {hexadecimal(password)}", nothing)

    def apdadd(self, list_base: int, list_password: int) -> Call[int]:
        self._lists.add(list_base)
        return Call(f"{self._thread} apdadd {hexadecimal(list_base)} {hexadecimal(list_password)}", first)

    def apddel(self, slot: int) -> Call[None]:
        return Call(f"{self._thread} apddel {number(slot)}", nothing)

    def apdlist(self) -> Call[list[int]]:
        return Call(f"{self._thread} apdlist", lambda words: self._lists.listed(numbers(words[1:])))

    def pdx(self, address: int, mask: int) -> Call[int]:
        return Call(f"{self._thread} pdx {hexadecimal(address)} {number(mask)}", first)

    def ret(self) -> Call[int]:
        return Call(f"{self._thread} ret", first)

    def thread(self, address: int) -> Call[int]:
        return Call(f"{self._thread} thread {hexadecimal(address)}", first)

    def end(self, other: int) -> Call[None]:
        return Call(f"{self._thread} end {number(other)}", nothing)

    def resume(self, other: int) -> Call[None]:
        return Call(f"{self._thread} resume {number(other)}", nothing)

    def turn(self) -> Call[Turn]:
        return Call(f"{self._thread} turn", turn_of)

    def account(self, account: int, password: int, credits: int) -> Call[NewAccount]:
        line = f"{self._thread} account {number(account)} {hexadecimal(password)} {number(credits)}"
        return Call(line, lambda words: NewAccount(*numbers(words)))

    def pay(self, account: int, password: int, to: int, credits: int) -> Call[None]:
        line = f"{self._thread} pay {number(account)} {hexadecimal(password)} {number(to)} {number(credits)}"
        return Call(line, nothing)

    def balance(self, account: int, password: int) -> Call[Balance]:
        line = f"{self._thread} balance {number(account)} {hexadecimal(password)}"
        return Call(line, lambda words: Balance(*numbers(words)))
