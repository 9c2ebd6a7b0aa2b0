"""A volume that is open, by a run of the program."""

from __future__ import annotations

import contextlib
import errno
import os
import subprocess
import tempfile
import time
import warnings
from pathlib import Path
from types import TracebackType
from typing import Self

from mungi.batch import Batch
from mungi.calls import NEXT, RENT, Lists, as_it_is
from mungi.errors import BackupFailed, Ended, SideDropped, VolumeWarning
from mungi.limits import HELD, MOST_BATCH, PAUSE, ROOT
from mungi.objects import Home, Purse
from mungi.program import TOP, default_program, look_before_mirror, there, warn
from mungi.run import Run
from mungi.thread import Thread
from mungi.values import Check, Next, Rent


class Machine(Run):
    """A volume that is open, by a run of `mungi VOLUME run BATCH`. No other run can have the volume meanwhile.

    `volume` is the file. `batch`, 1 to 64, is how many lines become durable together: 1 makes each line durable by
    itself; 64 is faster for lines of a `with machine.batch():` block. `program` is the program, else that of
    `default_program`. `timeout`, in seconds, is how long the program may neither read nor print anything while it is
    waited for; then it is killed, and Ended is raised with status -9. Without it a wait lasts as long as the program
    runs.

    `wait`, in seconds, is how long the volume is waited for while another run has it. The program itself asks for the
    lock for 0.3 s; with `wait` the client then starts it again, until it has the lock or that many seconds are over.
    Without it the first status 4 is raised. A `timeout` has to be longer than those 0.3 s, or it kills a program that
    still asks.

    With `mirror`, another file, the volume is kept in both, by a run of `mungi_dev VOLUME mirror MIRROR SIDE`;
    `program` is mungi_dev then, and `batch` 1. `side` names the file that holds the volume: "left" is `volume`, "right"
    is `mirror`. **The other file is written over first**, with 287 MB, which the opening waits for; one that holds
    something else than a volume raises FileExistsError. Where one file fails the run continues with the other:
    `dropped` says so, and a SideDropped warning.

    Raises FileNotFoundError if there is no file (none is made), and Ended if the volume can't be opened: status 2 if
    the file is no volume, 4 if another run has it, and has it still after `wait`. Warns with CutShort if the file is
    shorter than its volume; with `warnings.simplefilter("error", mungi.CutShort)` that is raised, and the volume is
    closed again. Other lines that the program says on standard error later are warned of as VolumeWarning.

    Used in a `with` block the machine is closed after it.
    """

    def __init__(
        self,
        volume: str | os.PathLike[str],
        batch: int = 1,
        program: str | os.PathLike[str] | None = None,
        timeout: float | None = None,
        mirror: str | os.PathLike[str] | None = None,
        side: str | None = None,
        wait: float | None = None,
    ):
        if not 1 <= batch <= MOST_BATCH:
            raise ValueError(f"batch is {batch}, and has to be from 1 to {MOST_BATCH}")
        if mirror is None and side is not None:
            raise ValueError("side is told, and there is no mirror")
        if mirror is not None and batch != 1:
            raise ValueError("with a mirror each line is made durable by itself: batch is 1")
        if side not in (None, "left", "right"):
            raise ValueError(f"side is {side!r}, and has to be 'left' or 'right'")
        if wait is not None and not wait >= 0:
            raise ValueError(f"wait is {wait}, and has to be a number of seconds")
        self.volume = os.fspath(volume)
        self.mirror = None if mirror is None else os.fspath(mirror)
        self.side = None if mirror is None else side or "left"
        # The side of a mirror that was dropped in this run, "left" or "right", or None: known as soon as a later call
        # is answered.
        self.dropped: str | None = None
        self._program = program
        self._lists = Lists()
        self._patience = wait or 0
        super().__init__(batch, timeout)
        self._open()

    def _open(self) -> None:
        """Opens the volume, and waits for it if another run has it."""
        end = time.monotonic() + self._patience
        while True:
            try:
                self._start()
                break
            except Ended as ended:
                is_held = ended.status == 4 and HELD in ended.said
                if not is_held or time.monotonic() >= end:
                    raise
            time.sleep(PAUSE)
        self._look()

    def _start(self) -> None:
        """Starts the program, and waits until it has opened the volume."""
        there(self.mirror if self.side == "right" and self.mirror is not None else self.volume)
        self.dropped = None
        if self.mirror is None:
            words = [self._program or default_program(), self.volume, "run", str(self._batch)]
        else:
            assert self.side is not None
            look_before_mirror(self.volume, self.mirror, self.side)
            words = [self._program or default_program("mungi_dev"), self.volume, "mirror", self.mirror, self.side]
        self._errors = tempfile.TemporaryFile()
        try:
            process = subprocess.Popen(
                words,
                bufsize=0,
                stdin=subprocess.PIPE,
                stdout=subprocess.PIPE,
                stderr=self._errors,
                # An interrupt from the keyboard then reaches this program alone, which closes the run in order.
                process_group=0,
            )
        except BaseException:
            self._errors.close()
            raise
        self._begin_run(process)

    def thread(self, number: int) -> Thread:
        """The thread with this number, 1 to 256. Nothing is asked of the machine; a fresh volume has thread 1."""
        return Thread(self, number)

    def root(self, treasury: int) -> Home:
        """The root as the home of thread 1, paid from account 1, whose password is `treasury`. Nothing is asked of the
        machine."""
        return Home(self.thread(1), ROOT, Purse(self.thread(1), 1, treasury))

    def next(self) -> Next:
        """`next`: the next Ready thread does one word of its script. Raises Idle."""
        return self._value(NEXT)

    def rent(self) -> Rent:
        """`rent`: collects the rent of a period and begins the next one. Raises Calendar."""
        return self._value(RENT)

    def call(self, line: str) -> str:
        """Sends a line as it is, and returns its answer as it is, such as "ok" or "no Denied": no refusal is raised.

        The line has no newline and at most 256 bytes. A blank line, or one that begins with #, has no answer; these
        raise ValueError.
        """
        call = as_it_is(line)
        self._begin()
        answer = self._ask(call)
        self._wait()
        assert answer.text is not None
        return answer.text

    def batch(self, lines: int = MOST_BATCH, check: bool = True) -> Batch:
        """A block whose lines are sent together, `lines` at a time, 1 to 4096, and whose answers are read at its end:

            with machine.batch() as batch:
                stores = batch.object(document)
                for place in range(512):
                    stores.store(8 * place, place)

        The methods of the block, and of what its `thread` and `object` give, return an `Answer`, whose `value` is there
        after the block. All other methods, as those of a `Thread` or an `Object`, wait for their values in the block
        too, and so for all lines before them. After the block the first refusal of its answers is raised, unless
        `check` is false; the lines after a refused one were sent all the same. A block keeps all its answers, so it
        should have some thousand lines at most.

        The block saves waiting for each answer. How many lines become durable together is another matter, and is set as
        the machine is opened: with `Machine(volume, batch=64)` up to 64 lines of a block cost one commit; with
        `batch=1` each has a commit of its own. A block is not one step in either case: after a stop a first part of its
        lines is kept.

        The program holds answers back until a batch is full. If they are needed earlier, here at the end of the block
        and after every call outside of one, up to 63 lines are sent that are refused with Syntax and change nothing,
        and so fill the batch.
        """
        return Batch(self, lines, check)

    def close(self) -> int:
        """Sends what is unsent, ends the input, and returns the status of the program once it has ended; 0 says that
        every line is answered and kept. Raises Ended if a line was not answered. Closing again returns the same
        status."""
        if self._status is None:
            with contextlib.suppress(Ended):
                self._pump(lambda: not self._unsent)
            self._end_input()
            with contextlib.suppress(Ended):
                self._pump(lambda: self._status is not None)
            if self._status == 0:
                self._look()
            for alone, dropped in (("left", "right"), ("right", "left")):
                if f"alone {alone}" in self._put and self.dropped is None:
                    self.dropped = dropped
                    name = self.mirror if dropped == "right" else self.volume
                    warnings.warn(
                        f"{name}, the {dropped} side, was dropped: the volume is in the {alone} one alone",
                        SideDropped,
                        stacklevel=2,
                    )
        if any(answer is not None for answer in self._owed) or any(answer is not None for _, answer in self._unsent):
            raise self._ended()
        assert self._status is not None
        return self._status

    def backup(self, path: str | os.PathLike[str], script: str | os.PathLike[str] | None = None) -> Check:
        """Copies the volume to the file `path`, which must not be there, and gives what the copy holds. The machine is
        closed meanwhile, and open again after it: all that was answered before is in the copy, and nothing else.

        The copy is made by `scripts/backup` of the repository, if this file is in one, or by the `script` that is told;
        its SHA-256 lies beside it, in `path` with `.sha256`. Of a volume in two files the one in use is copied. Raises
        BackupFailed if there is no good copy, and Ended if the volume can't be closed in order or opened again; another
        run may have it then, which is waited for as at the opening.
        """
        if self._block is not None:
            raise RuntimeError("a batch is open: a backup is made between calls")
        script = Path(script or TOP / "scripts/backup")
        if not script.is_file():
            raise FileNotFoundError(errno.ENOENT, "there is no script backup", str(script))
        if self.close() != 0:
            raise self._ended()
        if self.dropped is not None:
            # The side that is left holds the newer state, so the next copy goes from it.
            self.side = "left" if self.dropped == "right" else "right"
        mungi = os.fspath(self._program) if self._program and self.mirror is None else default_program()
        source = self.mirror if self.side == "right" and self.mirror is not None else self.volume
        try:
            done = subprocess.run(
                [script, source, os.fspath(path)],
                stdin=subprocess.DEVNULL,
                capture_output=True,
                text=True,
                check=False,
                env=dict(os.environ, MUNGI=mungi),
            )
        finally:
            self._open()
        if done.returncode != 0:
            raise BackupFailed(done.stderr.strip() or f"backup ended with status {done.returncode}")
        return Check(*(int(word) for word in done.stdout.split()[1:]))

    def kill(self) -> None:
        """Kills the program. All that was answered is kept. The next call, or `close`, says what was not answered."""
        if self._status is None:
            self._process.kill()

    def __enter__(self) -> Self:
        return self

    def __exit__(
        self, kind: type[BaseException] | None, error: BaseException | None, trace: TracebackType | None
    ) -> None:
        if error is not None:
            with contextlib.suppress(Ended):
                self.close()
        elif self.close() != 0:
            raise self._ended()

    # Within

    def _look(self) -> None:
        """Hands on what the program said on standard error since the last look. Where a warning is made an error the
        run ends."""
        if self._status is None:
            if os.fstat(self._errors.fileno()).st_size <= self._looked:
                return
            said = os.pread(self._errors.fileno(), 1 << 16, self._looked)
            # A line that is not whole waits.
            said = said[: said.rfind(b"\n") + 1]
        else:
            said = self._said.encode()[self._looked :]
        self._looked += len(said)
        text = said.decode("utf-8", "backslashreplace")
        names = {"left": self.volume, "right": self.mirror} if self.mirror is not None else {"": self.volume}
        for line in text.splitlines():
            for side, name in names.items():
                if side and "drop" in line and f": {name}: " in line:
                    self.dropped = side
        try:
            warn(text, names.values(), 4)
        except VolumeWarning:
            if self._status is None:
                self._process.kill()
                self._finish()
            raise
