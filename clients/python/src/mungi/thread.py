"""A thread of the machine, and its calls."""

from __future__ import annotations

import contextlib
from collections.abc import Iterator
from typing import TYPE_CHECKING

from mungi.calls import ThreadCalls
from mungi.objects import Object
from mungi.values import Balance, Capability, Info, NewAccount, Turn

if TYPE_CHECKING:
    from mungi.machine import Machine


class Thread:
    """A thread of the machine, and its calls under their own names. Each needs what docs/MACHINE.md says, and raises
    NoThread if the thread does not live. In a block of `Machine.batch` each waits for its value too; `Batch.thread`
    gives calls that do not."""

    def __init__(self, machine: Machine, number: int):
        self._calls: ThreadCalls = ThreadCalls(machine._lists, number)
        self._machine: Machine = machine
        self.number = number

    def __repr__(self) -> str:
        return f"<Thread {self.number}>"

    def object(self, base: int | Object) -> Object:
        """The object at this base, or the same object as another thread uses, as this thread uses it. Nothing is
        asked."""
        return Object(self, base.base if isinstance(base, Object) else base)

    def load(self, address: int) -> int:
        """The word at an address. Raises Align, or Denied without R."""
        return self._machine._value(self._calls.load(address))

    def store(self, address: int, value: int, into_list: bool = False) -> None:
        """The word at an address becomes `value`. Raises Align, or Denied without W.

        Raises ListPage if the address lies in the first page of an object that is known to be a capability list, unless
        `into_list` is true, or it is that page's second word, which the machine does not use. Known are the root, each
        `CapabilityList` that was made over this machine, and each list that `apdadd` or `apdlist` named."""
        return self._machine._value(self._calls.store(address, value, into_list))

    def create(self, pages: int, account: int, password: int) -> Capability:
        """Makes an object of 1 to 1,024 pages, all zeros, which this account pays for: its base, and a password with
        all rights. No list names it yet, so no thread can use it: see `Home.create`. Raises Size, Account, Debt, Limit,
        Full."""
        return self._machine._value(self._calls.create(pages, account, password))

    def delete(self, base: int) -> None:
        """The object is gone. Raises Denied without D."""
        return self._machine._value(self._calls.delete(base))

    def info(self, base: int) -> Info:
        """Tells of an object. Raises Denied without any right."""
        return self._machine._value(self._calls.info(base))

    def pwadd(self, base: int, rights: str, until: int | None = None) -> int:
        """Adds a password with these rights, letters of RWXDPO, which holds while the period is below `until`, or
        always. Raises Denied without O, Past, Limit."""
        return self._machine._value(self._calls.pwadd(base, rights, until))

    def pwdel(self, base: int, password: int) -> None:
        """Removes this password. Raises Denied without O, NoPassword."""
        return self._machine._value(self._calls.pwdel(base, password))

    def entry(self, base: int, offset: int) -> int:
        """The object may be entered at `offset` bytes from its base: the address. Raises Denied without O, Range,
        Limit."""
        return self._machine._value(self._calls.entry(base, offset))

    def ext(self, base: int, list_base: int, list_password: int) -> None:
        """The object's extension, which a domain gets as it is entered, is this list; with `list_base` 0 there is none.
        Raises Denied without O."""
        return self._machine._value(self._calls.ext(base, list_base, list_password))

    def recharge(self, base: int, account: int, password: int) -> None:
        """The account pays for the object from now on. Raises Denied without O, Account, Debt."""
        return self._machine._value(self._calls.recharge(base, account, password))

    def apdadd(self, list_base: int, list_password: int) -> int:
        """Adds a slot to the thread's domain, which is not tested: its place, from 0. Raises SlotFull."""
        return self._machine._value(self._calls.apdadd(list_base, list_password))

    def apddel(self, slot: int) -> None:
        """Removes a slot, from 0; later ones close up. Raises NoSlot."""
        return self._machine._value(self._calls.apddel(slot))

    def apdlist(self) -> list[int]:
        """The bases of the slots' lists."""
        return self._machine._value(self._calls.apdlist())

    def pdx(self, address: int, mask: int) -> int:
        """Enters an object at an entry, keeping slot j if bit j of `mask` is 1, 0 to 255: the number of frames. Raises
        Align, Denied without P, NoEntry, Depth, SlotFull."""
        return self._machine._value(self._calls.pdx(address, mask))

    def ret(self) -> int:
        """Leaves the last frame: the number of frames left. Raises NoFrame."""
        return self._machine._value(self._calls.ret())

    def thread(self, address: int) -> int:
        """Makes a thread that begins at an address, with the present slots: its number. Raises Align, Denied without X,
        Limit."""
        return self._machine._value(self._calls.thread(address))

    def end(self, number: int) -> None:
        """A thread is gone: this one, or one that it made. Raises NoThread, NotYours."""
        return self._machine._value(self._calls.end(number))

    def resume(self, number: int) -> None:
        """A thread is Ready again: this one, or one that it made. Raises NoThread, NotYours."""
        return self._machine._value(self._calls.resume(number))

    def turn(self) -> Turn:
        """The thread does one word of its script: what it is then. Raises NotReady."""
        return self._machine._value(self._calls.turn())

    def account(self, account: int, password: int, credits: int) -> NewAccount:
        """Makes an account with credits of this one. Raises Account, Credit, Limit."""
        return self._machine._value(self._calls.account(account, password, credits))

    def pay(self, account: int, password: int, to: int, credits: int) -> None:
        """Credits go from this account to the account `to`. Raises Account, Credit."""
        return self._machine._value(self._calls.pay(account, password, to, credits))

    def balance(self, account: int, password: int) -> Balance:
        """Tells of an account. Raises Account."""
        return self._machine._value(self._calls.balance(account, password))

    @contextlib.contextmanager
    def inside(self, address: int, mask: int) -> Iterator[None]:
        """A block in which the thread is inside an object, entered by `pdx`; after it the thread leaves by `ret`.

        After a stop in the block the thread is still inside: `ret` leads out."""
        self.pdx(address, mask)
        try:
            yield
        finally:
            self.ret()
