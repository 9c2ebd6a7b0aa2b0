"""Objects, lists, accounts and homes, as a thread uses them."""

from __future__ import annotations

from typing import TYPE_CHECKING

from mungi.errors import ListIsFull
from mungi.limits import MOST_ENTRIES, PAGE_BYTES, WORD_BYTES
from mungi.run import Answer, whole
from mungi.values import Balance, Capability, Info, Unreached

if TYPE_CHECKING:
    from mungi.machine import Machine
    from mungi.thread import Thread


class Purse:
    """An account with its password, as a thread uses it."""

    def __init__(self, thread: Thread, number: int, password: int):
        self.thread = thread
        self.number = number
        self.password = password
        self._machine: Machine = thread._machine

    def balance(self) -> Balance:
        """Credits, debt, and pages paid for. Raises Account."""
        return self.thread.balance(self.number, self.password)

    def pay(self, to: int | Purse, credits: int) -> None:
        """Pays credits to an account. Raises Account, Credit."""
        return self.thread.pay(self.number, self.password, to.number if isinstance(to, Purse) else to, credits)

    def open(self, credits: int) -> Purse:
        """Makes a new account with credits of this one. Raises Account, Credit, Limit."""
        return Purse(self.thread, *self.thread.account(self.number, self.password, credits))


class Object:
    """An object, as a thread uses it. `base` is its address. `password` is the one with all rights that `create` gave,
    or None."""

    def __init__(self, thread: Thread, base: int, password: int | None = None):
        self.thread = thread
        self.base = base
        self.password = password
        self._machine: Machine = thread._machine
        # How many pages it has, once they were asked for. An object never grows or shrinks.
        self._pages: int | None = None

    def __repr__(self) -> str:
        return f"<{type(self).__name__} {self.base:#x} of {self.thread!r}>"

    def load(self, offset: int) -> int:
        """The word at `offset` bytes from the base, a multiple of 8. Raises Align, Denied, and ValueError if the offset
        is not of this object: below 0, or not below its pages' bytes. Behind the first page `info` is asked once for
        the pages."""
        return self.thread.load(self._place(offset))

    def store(self, offset: int, value: int, into_list: bool = False) -> None:
        """The word at `offset` bytes from the base becomes `value`. Raises Align, Denied, ValueError as `load` does,
        and ListPage as `Thread.store` does."""
        return self.thread.store(self._place(offset), value, into_list)

    def info(self) -> Info:
        """Tells of the object. Raises Denied."""
        return self.thread.info(self.base)

    def delete(self) -> None:
        """The object is gone. Lists that name it keep an entry that gives nothing. Raises Denied."""
        return self.thread.delete(self.base)

    def grant(self, rights: str, until: int | None = None) -> Grant:
        """A new password with these rights, letters of RWXDPO, until a period begins, or for ever. It gives nothing
        until it is in a list that a thread uses. Raises Denied, Past, Limit."""
        return Grant(self, self.thread.pwadd(self.base, rights, until), rights, until)

    def entry(self, offset: int) -> int:
        """The object may be entered at `offset`: the address. Raises Denied, Range, Limit."""
        return self.thread.entry(self.base, offset)

    def extend(self, grant: Grant | None) -> None:
        """Who enters the object gets the list of this grant, of R on the list; with None there is none. Raises
        Denied."""
        base, password = (0, 0) if grant is None else (grant.base, grant.password)
        return self.thread.ext(self.base, base, password)

    def recharge(self, purse: Purse) -> None:
        """The account pays for the object from now on. Raises Denied, Account, Debt."""
        return self.thread.recharge(self.base, purse.number, purse.password)

    @whole
    def put(self, data: bytes | bytearray | memoryview) -> None:
        """The object holds these bytes, as `get` reads them: their number is its first word, and they follow it, 8 a
        word, the first byte the lowest, with zeros after the last. An object of n pages has room for 4096 n - 8 bytes;
        more raise ValueError.

        The first word is 0 meanwhile, and becomes the number last. So after a stop in `put` the object holds what it
        held, nothing (`get` returns b""), or all of the new bytes. Raises Denied without W, TypeError if `data` is no
        bytes, and ListPage if the object is known to be a capability list."""
        self._machine._settle([self._store(place, word) for place, word in self._stores(data)])

    @whole
    def get(self) -> bytes:
        """The bytes that `put` stored; none of an object of zeros. Raises Denied without R, and ValueError if the first
        word is no number of bytes that fit."""
        room = self.info().pages * PAGE_BYTES - WORD_BYTES
        count = self.load(0)
        if count > room:
            raise ValueError(
                f"the object holds no bytes of put: its first word is {count}, and it has room for {room} bytes"
            )
        answers = [self._load(WORD_BYTES + at) for at in range(0, count, WORD_BYTES)]
        return b"".join(answer.value.to_bytes(WORD_BYTES, "little") for answer in answers)[:count]

    def _stores(self, data: bytes | bytearray | memoryview) -> list[tuple[int, int]]:
        """The stores of `put`, each an offset and a word. Asks for the object's pages."""
        # (bytes(5) would be five zeros)
        data = bytes(memoryview(data))
        self._machine._lists.guard(self.base, False)
        room = self.info().pages * PAGE_BYTES - WORD_BYTES
        if len(data) > room:
            raise ValueError(f"the object has room for {room} bytes, and there are {len(data)}")
        words = [int.from_bytes(data[at : at + WORD_BYTES], "little") for at in range(0, len(data), WORD_BYTES)]
        places = [(WORD_BYTES * (index + 1), word) for index, word in enumerate(words)]
        return [(0, 0), *places, (0, len(data))]

    def _place(self, offset: int) -> int:
        """The address at `offset` bytes from the base. Raises ValueError if it is outside the object."""
        if offset >= PAGE_BYTES and self._pages is None:
            self._pages = self.info().pages
        if not 0 <= offset < PAGE_BYTES * (self._pages or 1):
            raise ValueError(f"the offset is {offset}, and the object has {PAGE_BYTES * (self._pages or 1)} bytes")
        return self.base + offset

    def _load(self, offset: int) -> Answer[int]:
        return self._machine._ask(self.thread._calls.load(self.base + offset))

    def _store(self, offset: int, value: int) -> Answer[None]:
        return self._machine._ask(self.thread._calls.store(self.base + offset, value, True))


class Grant:
    """A password of an object with some rights: `base`, `password`, `rights`, and `until`, the period with which it
    ends, or None."""

    def __init__(self, target: Object, password: int, rights: str, until: int | None):
        self.object = target
        self.base = target.base
        self.password = password
        self.rights = rights
        self.until = until

    def revoke(self) -> None:
        """Takes the password back: from the next line on it gives nothing, whoever holds it. Raises Denied,
        NoPassword."""
        return self.object.thread.pwdel(self.base, self.password)


class CapabilityList(Object):
    """An object whose first page is a capability list: a count, a word not used, and up to 255 pairs of a base and a
    password.

    A thread that has the list in its domain may use what the list names. To change it a thread needs W on the object,
    to read it R.

    The second word is for the program's own use: `store(8, number)` needs no `into_list`, and no other store to the
    page goes without."""

    def __init__(self, thread: Thread, base: int, password: int | None = None):
        super().__init__(thread, base, password)
        self._machine._lists.add(base)

    @whole
    def entries(self) -> list[Capability]:
        """What the list names, in order. Raises Denied."""
        answers = [self._load(8 * (2 + index)) for index in range(2 * self._count())]
        words = [answer.value for answer in answers]
        return [Capability(*pair) for pair in zip(words[::2], words[1::2], strict=True)]

    @whole
    def add(self, capability: Capability | Grant | Object | Unreached) -> None:
        """Adds a capability, a grant, an object with the password that `create` gave, or what `unreached` gave. Raises
        Denied, ListIsFull.

        The count is stored last: after a stop in `add` the list names what it named, or that and the new one."""
        if capability.password is None:
            raise ValueError("the password of the object is not known: add a grant of it")
        count = self._count()
        if count == MOST_ENTRIES:
            raise ListIsFull
        base, password = capability.base, capability.password
        self._machine._settle(
            [self._store(16 + 16 * count, base), self._store(24 + 16 * count, password), self._store(0, count + 1)]
        )

    @whole
    def remove(self, capability: Capability | Grant | Object | Unreached) -> None:
        """Removes every entry with this base and password; the last entries take their places. Raises Denied, and
        KeyError if there is none. After a stop in `remove` an entry may be there twice, or be still there."""
        base, password = capability.base, capability.password
        entries = self.entries()
        if password is None or (base, password) not in entries:
            raise KeyError(f"the list does not name {base:#x} by this password")
        wanted = Capability(base, password)
        answers = []
        while wanted in entries:
            place = entries.index(wanted)
            last = entries.pop()
            if place < len(entries):
                entries[place] = last
                answers += [self._store(16 + 16 * place, last.base), self._store(24 + 16 * place, last.password)]
            answers.append(self._store(0, len(entries)))
        self._machine._settle(answers)

    def _count(self) -> int:
        return min(self.load(0), MOST_ENTRIES)


class Home(CapabilityList):
    """What an owner has: a thread, the capability list that it uses, and an account that pays. `Machine.root` gives the
    first one."""

    def __init__(self, thread: Thread, base: int, purse: Purse, password: int | None = None):
        super().__init__(thread, base, password)
        self.purse = purse

    @whole
    def create(self, pages: int = 1) -> Object:
        """Makes an object of 1 to 1,024 pages, all zeros, that the purse pays for, and adds it to the list. Raises
        Size, Account, Debt, Limit, Full, and ListIsFull before anything is made.

        After a stop between the two the object is there and no list names it: it costs rent, and only who noted its
        password can use it. `unreached` finds it."""
        if self._count() == MOST_ENTRIES:
            raise ListIsFull
        made = Object(self.thread, *self.thread.create(pages, self.purse.number, self.purse.password))
        made._pages = pages
        self.add(made)
        return made

    def create_list(self) -> CapabilityList:
        """Makes an object of one page that is an empty capability list, as `create` does."""
        made = self.create(1)
        return CapabilityList(self.thread, made.base, made.password)

    @whole
    def new_thread(self, used: CapabilityList, start: int) -> Thread:
        """Makes a thread that has this list in its domain, and no other; it begins at the address `start`, to which the
        list must give X.

        The list gets a password with R, under which the thread uses it. For a moment this thread enters its home with
        the new list alone: the home needs P and O on itself, which the root has, and may have no extension. After a
        stop meanwhile `ret` leads this thread back, and `apddel` takes the slot away. Raises Denied, Limit, SlotFull,
        Depth."""
        if self.info().has_extension:
            raise ValueError("the home has an extension, which the new thread would get too")
        self.entry(0)
        grant = used.grant("R")
        slot = self.thread.apdadd(grant.base, grant.password)
        try:
            with self.thread.inside(self.base, 1 << slot):
                number = self.thread.thread(start)
        finally:
            self.thread.apddel(slot)
        return self._machine.thread(number)
