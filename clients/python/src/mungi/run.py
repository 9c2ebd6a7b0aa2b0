"""Lines that go to a program over its pipes, and the answers that come back."""

from __future__ import annotations

import collections
import contextlib
import functools
import os
import select
import selectors
import subprocess
from collections.abc import Callable, Iterable, Iterator
from typing import IO, TYPE_CHECKING, Any, Concatenate, Generic, ParamSpec, Protocol, TypeVar

from mungi.calls import Call
from mungi.errors import REFUSALS, Ended, InputIsFull, NotAllowed, Refused
from mungi.limits import FILL, MOST_BATCH, MOST_IN_FLIGHT, MOST_INPUT_BYTES, MOST_LINE_BYTES

if TYPE_CHECKING:
    from mungi.batch import Batch

T = TypeVar("T")
P = ParamSpec("P")


class End(Protocol):
    """An end of a pipe, or half of a connection."""

    def fileno(self) -> int: ...

    def close(self) -> None: ...


class Program(Protocol):
    """A program with two pipes, or a connection in its place."""

    @property
    def stdin(self) -> End | None: ...

    @property
    def stdout(self) -> End | None: ...

    def kill(self) -> None: ...

    def wait(self, timeout: float | None = None, /) -> int: ...


class OfMachine(Protocol):
    """What has a machine."""

    _machine: Any


S = TypeVar("S", bound=OfMachine)


class Answer(Generic[T]):
    """The answer of one line, which may still be on its way. `line` is the line. `text` is the answer, or None until it
    is there."""

    __slots__ = ("line", "text", "_read", "_run")

    def __init__(self, run: Run, call: Call[T]):
        self.line = call.line
        self.text: str | None = None
        self._run = run
        self._read = call.read

    @property
    def value(self) -> T:
        """What the call gives, once it is durable; an answer that is not there is waited for. Raises the refusal of a
        refused call, and Ended if the answer will not come."""
        if self.text is None:
            self._run._wait()
        if self.text is None:
            raise self._run._ended()
        verdict, *words = self.text.split()
        if verdict == "no":
            raise REFUSALS.get(words[0], Refused)(words[0], self.line)
        if verdict == "refused":
            raise NotAllowed(words[0], self.line)
        return self._read(words)

    def __repr__(self) -> str:
        return f"<Answer {self.line} -> {self.text or 'on its way'}>"


def whole(method: Callable[Concatenate[S, P], T]) -> Callable[Concatenate[S, P], T]:
    """Makes the lines of a method of several calls belong together: `Ended` speaks of all of them."""

    @functools.wraps(method)
    def together(self: S, /, *words: P.args, **more: P.kwargs) -> T:
        with self._machine._whole():
            return method(self, *words, **more)

    return together


class Run:
    """A run of the program under way: lines are queued, sent and answered in order."""

    # The first words of replies.
    _verdicts: tuple[str, ...] = ("ok", "no")
    # Whether a run ends when it has read that many bytes.
    _is_bounded = True
    # What the program says on standard error.
    _errors: IO[bytes]

    def __init__(self, batch: int, timeout: float | None):
        self._batch = batch
        self._timeout = timeout
        self._block: Batch | None = None
        self._is_whole = False
        # How many lines are sent together.
        self._at_once = 1

    def _begin_run(self, process: Program) -> None:
        """Waits until the machine answers over the pipes of this program."""
        # The lines that are not sent yet, and the answers that the program owes, in order; None for a line that only
        # fills a batch.
        self._unsent: collections.deque[tuple[bytes, Answer[Any] | None]] = collections.deque()
        self._owed: collections.deque[Answer[Any] | None] = collections.deque()
        # The answers of the call or block that is under way.
        self._asked: list[Answer[Any]] = []
        self._begun_line = b""
        self._put: list[str] = []
        self._sent_bytes = 0
        self._status: int | None = None
        self._said = ""
        # How many bytes of standard error were looked at.
        self._looked = 0
        self._process = process
        assert process.stdin is not None and process.stdout is not None
        self._input = process.stdin.fileno()
        self._output = process.stdout.fileno()
        os.set_blocking(self._input, False)
        os.set_blocking(self._output, False)
        self._selector = selectors.DefaultSelector()
        self._selector.register(self._output, selectors.EVENT_READ)
        self._takes_input = True
        # A batch of lines that change nothing: once they are answered the volume is open.
        self._fill(self._batch)
        self._pump(lambda: not self._unsent and not self._owed)

    def _ask(self, call: Call[T]) -> Answer[T]:
        """Queues a call to be sent."""
        line = call.line
        data = line.encode() + b"\n"
        if len(data) > MOST_LINE_BYTES + 1 or b"\n" in data[:-1]:
            raise ValueError(f"a line has at most {MOST_LINE_BYTES} bytes, and no newline")
        if self._status is not None:
            raise self._ended([line])
        if self._is_bounded and self._sent_bytes + len(data) + len(FILL) * MOST_BATCH > MOST_INPUT_BYTES:
            raise InputIsFull(line)
        self._sent_bytes += len(data)
        answer = Answer(self, call)
        self._unsent.append((data, answer))
        self._asked.append(answer)
        if len(self._unsent) >= self._at_once:
            self._pump(lambda: not self._unsent)
        if len(self._unsent) + len(self._owed) >= MOST_IN_FLIGHT:
            self._pump(lambda: len(self._unsent) + len(self._owed) < MOST_IN_FLIGHT)
        return answer

    def _value(self, call: Call[T]) -> T:
        """Asks one call, and waits for its value."""
        self._begin()
        return self._ask(call).value

    @staticmethod
    def _settle(answers: Iterable[Answer[None]]) -> None:
        """Waits for answers that have no values, and raises the first refusal."""
        for answer in answers:
            _ = answer.value

    def _begin(self) -> None:
        """A method of a user begins, unless it is part of a block or of another method: `Ended` then speaks of its
        lines alone."""
        if self._block is None and not self._is_whole:
            self._asked = []

    @contextlib.contextmanager
    def _whole(self) -> Iterator[None]:
        """What is asked meanwhile belongs together: `Ended` speaks of all of it."""
        self._begin()
        before, self._is_whole = self._is_whole, True
        try:
            yield
        finally:
            self._is_whole = before

    def _look(self) -> None:
        """Hands on what the program said on standard error since the last look."""
        raise NotImplementedError

    def _fill(self, count: int) -> None:
        self._unsent.extend([(FILL, None)] * count)
        self._sent_bytes += count * len(FILL)

    def _wait(self) -> None:
        """Waits until every line is answered."""
        if self._asked and (last := self._asked[-1]).text is None:
            # However the program cut its batches, the batch of the last line is full after these.
            self._fill(self._batch - 1)
            self._pump(lambda: last.text is not None)
            self._look()

    def _pump(self, is_done: Callable[[], bool]) -> None:
        """Sends and reads, whichever is possible, until `is_done`. Raises Ended if that can't happen."""
        while not is_done():
            if self._status is not None:
                raise self._ended()
            try:
                self._move()
            except BaseException:
                # What was read in this moment may be lost, and no later answer could be told apart: the run ends here.
                self._process.kill()
                self._finish()
                raise

    def _move(self) -> None:
        """Waits until the program reads or prints something, and sends or reads it."""
        wants_to_send = self._takes_input and bool(self._unsent)
        is_registered = self._takes_input and self._input in self._selector.get_map()
        if wants_to_send and not is_registered:
            self._selector.register(self._input, selectors.EVENT_WRITE)
        elif is_registered and not wants_to_send:
            self._selector.unregister(self._input)
        ready = self._selector.select(self._timeout)
        if not ready:
            self._process.kill()
        for key, _ in ready:
            if key.fd == self._output:
                self._take()
            elif self._takes_input:
                self._send()

    def _send(self) -> None:
        """Sends lines, as many as a pipe is sure to take whole or not at all: so no line is ever cut in two there."""
        data = []
        room = select.PIPE_BUF
        for line, _ in self._unsent:
            if len(line) > room:
                break
            data.append(line)
            room -= len(line)
        try:
            taken = os.write(self._input, b"".join(data))
        except BlockingIOError:
            return
        except (BrokenPipeError, ConnectionResetError):
            self._end_input()
            return
        for line in data:
            if taken < len(line):
                # A socket took a part. The broker gives no part of a line to the machine, so this line is not sent yet.
                self._unsent[0] = (line[taken:], self._unsent[0][1])
                break
            taken -= len(line)
            self._owed.append(self._unsent.popleft()[1])

    def _take(self) -> None:
        """Reads answers, and gives each to its line."""
        try:
            data = os.read(self._output, 1 << 16)
        except BlockingIOError:
            return
        except ConnectionResetError:
            data = b""
        if not data:
            self._finish()
            return
        *lines, self._begun_line = (self._begun_line + data).split(b"\n")
        for line in lines:
            self._reply(line.decode("utf-8", "backslashreplace"))

    def _reply(self, text: str) -> None:
        """Gives a reply to its line."""
        if self._owed and text.split(" ", 1)[0] in self._verdicts:
            answer = self._owed.popleft()
            if answer is not None:
                answer.text = text
        else:
            self._put.append(text)

    def _end_input(self) -> None:
        if self._takes_input:
            self._takes_input = False
            if self._input in self._selector.get_map():
                self._selector.unregister(self._input)
            assert self._process.stdin is not None
            self._process.stdin.close()

    def _finish(self) -> None:
        """Waits for the status of a program that printed its last line, or was killed."""
        self._end_input()
        try:
            self._status = self._process.wait(self._timeout)
        except subprocess.TimeoutExpired:
            self._process.kill()
            self._status = self._process.wait()
        self._selector.close()
        assert self._process.stdout is not None
        self._process.stdout.close()
        with self._errors as errors:
            errors.seek(0)
            self._said = errors.read(1 << 16).decode("utf-8", "backslashreplace")

    def _ended(self, more: list[str] | None = None) -> Ended:
        """The report on a program that has ended; `more` are lines that came too late."""
        answered = [(answer.line, answer.text) for answer in self._asked if answer.text is not None]
        unanswered = [answer.line for answer in self._owed if answer is not None]
        unsent = [answer.line for _, answer in self._unsent if answer is not None]
        assert self._status is not None
        return Ended(self._status, self._said, self._put, answered, unanswered, unsent + (more or []))
