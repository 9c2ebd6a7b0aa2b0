"""Lines that are sent together, and their answers."""

from __future__ import annotations

from types import TracebackType
from typing import TYPE_CHECKING, Any, Self, TypeVar

from mungi.calls import NEXT, RENT, Call, ThreadCalls, as_it_is
from mungi.errors import Ended
from mungi.limits import MOST_IN_FLIGHT
from mungi.objects import Grant, Object, Purse
from mungi.run import Answer
from mungi.values import Balance, Capability, Info, NewAccount, Next, Rent, Turn

if TYPE_CHECKING:
    from mungi.machine import Machine

T = TypeVar("T")


class Batch:
    """The block of `Machine.batch`. `answers` has the answers of its own lines, in order."""

    def __init__(self, machine: Machine, lines: int, check: bool):
        if not 1 <= lines <= MOST_IN_FLIGHT:
            raise ValueError(f"lines is {lines}, and has to be from 1 to {MOST_IN_FLIGHT}")
        self.answers: list[Answer[Any]] = []
        self._machine = machine
        self._lines = lines
        self._check = check

    def thread(self, number: int) -> BatchThread:
        """The thread with this number, 1 to 256, whose calls return an `Answer`."""
        return BatchThread(self, number)

    def object(self, target: Object) -> BatchObject:
        """An object, as its own thread uses it, whose calls return an `Answer`."""
        return BatchObject(self.thread(target.thread.number), target)

    def next(self) -> Answer[Next]:
        """`next`, as `Machine.next`."""
        return self._ask(NEXT)

    def rent(self) -> Answer[Rent]:
        """`rent`, as `Machine.rent`."""
        return self._ask(RENT)

    def call(self, line: str) -> Answer[None]:
        """Sends a line as it is, as `Machine.call`. The `text` of the answer is what that returns; a refusal is raised
        at the end of the block, unless its `check` is false."""
        return self._ask(as_it_is(line))

    def __enter__(self) -> Self:
        if self._machine._block is not None:
            raise RuntimeError("a batch is open already")
        self._machine._wait()
        self._machine._block = self
        self._machine._asked = []
        self._machine._at_once = self._lines
        return self

    def __exit__(
        self, kind: type[BaseException] | None, error: BaseException | None, trace: TracebackType | None
    ) -> None:
        machine = self._machine
        try:
            # After an error too: what was asked may be sent already, and the next call must not find answers that are
            # not its own.
            machine._wait()
        except Ended:
            if error is None:
                raise
        finally:
            machine._block = None
            machine._asked = []
            machine._at_once = 1
        if error is None and self._check:
            for answer in self.answers:
                _ = answer.value

    def _ask(self, call: Call[T]) -> Answer[T]:
        """Queues a call. Raises RuntimeError outside of the block."""
        if self._machine._block is not self:
            raise RuntimeError("the batch is not open: its calls are made in its block")
        answer = self._machine._ask(call)
        self.answers.append(answer)
        return answer


class BatchThread:
    """A thread, and its calls as those of `Thread`, which says what each does and gives. Here each returns an `Answer`,
    whose `value` is there after the block: a refusal is raised by it, and at the end of the block."""

    def __init__(self, batch: Batch, number: int):
        self._calls = ThreadCalls(batch._machine._lists, number)
        self._batch = batch
        self.number = number

    def __repr__(self) -> str:
        return f"<BatchThread {self.number}>"

    def object(self, base: int | Object) -> BatchObject:
        """The object at this base, or the same object as another thread uses, as this thread uses it. Nothing is
        asked."""
        return BatchObject(self, self._batch._machine.thread(self.number).object(base))

    def load(self, address: int) -> Answer[int]:
        return self._batch._ask(self._calls.load(address))

    def store(self, address: int, value: int, into_list: bool = False) -> Answer[None]:
        return self._batch._ask(self._calls.store(address, value, into_list))

    def create(self, pages: int, account: int, password: int) -> Answer[Capability]:
        return self._batch._ask(self._calls.create(pages, account, password))

    def delete(self, base: int) -> Answer[None]:
        return self._batch._ask(self._calls.delete(base))

    def info(self, base: int) -> Answer[Info]:
        return self._batch._ask(self._calls.info(base))

    def pwadd(self, base: int, rights: str, until: int | None = None) -> Answer[int]:
        return self._batch._ask(self._calls.pwadd(base, rights, until))

    def pwdel(self, base: int, password: int) -> Answer[None]:
        return self._batch._ask(self._calls.pwdel(base, password))

    def entry(self, base: int, offset: int) -> Answer[int]:
        return self._batch._ask(self._calls.entry(base, offset))

    def ext(self, base: int, list_base: int, list_password: int) -> Answer[None]:
        return self._batch._ask(self._calls.ext(base, list_base, list_password))

    def recharge(self, base: int, account: int, password: int) -> Answer[None]:
        return self._batch._ask(self._calls.recharge(base, account, password))

    def apdadd(self, list_base: int, list_password: int) -> Answer[int]:
        return self._batch._ask(self._calls.apdadd(list_base, list_password))

    def apddel(self, slot: int) -> Answer[None]:
        return self._batch._ask(self._calls.apddel(slot))

    def apdlist(self) -> Answer[list[int]]:
        return self._batch._ask(self._calls.apdlist())

    def pdx(self, address: int, mask: int) -> Answer[int]:
        return self._batch._ask(self._calls.pdx(address, mask))

    def ret(self) -> Answer[int]:
        return self._batch._ask(self._calls.ret())

    def thread(self, address: int) -> Answer[int]:
        return self._batch._ask(self._calls.thread(address))

    def end(self, number: int) -> Answer[None]:
        return self._batch._ask(self._calls.end(number))

    def resume(self, number: int) -> Answer[None]:
        return self._batch._ask(self._calls.resume(number))

    def turn(self) -> Answer[Turn]:
        return self._batch._ask(self._calls.turn())

    def account(self, account: int, password: int, credits: int) -> Answer[NewAccount]:
        return self._batch._ask(self._calls.account(account, password, credits))

    def pay(self, account: int, password: int, to: int, credits: int) -> Answer[None]:
        return self._batch._ask(self._calls.pay(account, password, to, credits))

    def balance(self, account: int, password: int) -> Answer[Balance]:
        return self._batch._ask(self._calls.balance(account, password))


class BatchObject:
    """An object, and its calls as those of `Object`, which says what each does and gives. Here each returns an
    `Answer`."""

    def __init__(self, thread: BatchThread, target: Object):
        self.thread = thread
        self.base = target.base
        self._target = target

    def __repr__(self) -> str:
        return f"<BatchObject {self.base:#x} of {self.thread!r}>"

    def load(self, offset: int) -> Answer[int]:
        return self.thread.load(self._target._place(offset))

    def store(self, offset: int, value: int, into_list: bool = False) -> Answer[None]:
        return self.thread.store(self._target._place(offset), value, into_list)

    def info(self) -> Answer[Info]:
        return self.thread.info(self.base)

    def delete(self) -> Answer[None]:
        return self.thread.delete(self.base)

    def entry(self, offset: int) -> Answer[int]:
        return self.thread.entry(self.base, offset)

    def extend(self, grant: Grant | None) -> Answer[None]:
        base, password = (0, 0) if grant is None else (grant.base, grant.password)
        return self.thread.ext(self.base, base, password)

    def recharge(self, purse: Purse) -> Answer[None]:
        return self.thread.recharge(self.base, purse.number, purse.password)

    def put(self, data: bytes | bytearray | memoryview) -> list[Answer[None]]:
        """As `Object.put`: the answers of its stores. It waits for the object's pages, and for nothing else."""
        return [self.thread.store(self.base + place, word, True) for place, word in self._target._stores(data)]
