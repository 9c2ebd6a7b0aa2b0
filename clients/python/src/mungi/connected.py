"""A volume that a broker has, over its socket."""

from __future__ import annotations

import contextlib
import errno
import io
import os
import socket
import time

from mungi.calls import Lists
from mungi.errors import Ended
from mungi.limits import CUT, PAUSE
from mungi.machine import Machine
from mungi.values import Check


class _Sending:
    """The half of a connection that lines go into."""

    def __init__(self, peer: socket.socket):
        self._peer = peer.dup()

    def fileno(self) -> int:
        return self._peer.fileno()

    def close(self) -> None:
        with contextlib.suppress(OSError):
            self._peer.shutdown(socket.SHUT_WR)
        self._peer.close()


class _Link:
    """A connection to a broker, in the place of a program with two pipes."""

    def __init__(self, path: str):
        self.stdout = socket.socket(socket.AF_UNIX)
        try:
            self.stdout.connect(path)
        except OSError as error:
            self.stdout.close()
            if error.errno is None:
                raise OSError(errno.ENAMETOOLONG, "the path of the socket is too long", path) from None
            error.filename = path
            raise
        except BaseException:
            self.stdout.close()
            raise
        self.stdin = _Sending(self.stdout)
        self.status = 0

    def kill(self) -> None:
        with contextlib.suppress(OSError):
            self.stdout.shutdown(socket.SHUT_RDWR)

    def wait(self, _timeout: float | None = None) -> int:
        return self.status


class Connected(Machine):
    """A volume that a broker has, as `connect` gives it.

    All of `Machine` goes over it but `backup`, which is the broker's to make. Each line becomes durable together with
    those of others, so there is no batch to choose. A line that the broker does not give to the machine raises
    `NotAllowed`. `Ended` says that the broker or its program ended; `unanswered` are then just the lines that may or
    may not be done. Its status is that of the program, or 0 if the broker was ended in order, or `CUT` if no word of it
    came: then each line without an answer may be done.
    """

    _verdicts = ("ok", "no", "refused")
    _is_bounded = False

    def __init__(self, path: str | os.PathLike[str], timeout: float | None = None, wait: float | None = None):
        if wait is not None and not wait >= 0:
            raise ValueError(f"wait is {wait}, and has to be a number of seconds")
        self.volume = os.fspath(path)
        self.mirror = self.side = self.dropped = None
        self._lists = Lists()
        super(Machine, self).__init__(1, timeout)
        self._patience = wait or 0
        self._open()

    def _open(self) -> None:
        end = time.monotonic() + self._patience
        while True:
            try:
                self._connect()
                return
            except (FileNotFoundError, ConnectionRefusedError, ConnectionResetError, Ended):
                # No line of the user's was sent yet.
                if time.monotonic() >= end:
                    raise
            time.sleep(PAUSE)

    def _connect(self) -> None:
        """Connects, and waits until the machine answers."""
        # The status that the broker ended the connection with, and how many lines may be done; and the word of one that
        # it refused.
        self._told: tuple[int, int] | None = None
        self._refused: str | None = None
        self._errors = io.BytesIO()
        self._link = _Link(self.volume)
        try:
            self._begin_run(self._link)
        except Ended:
            if self._refused is None:
                raise
        if self._refused is not None:
            self.kill()
            with contextlib.suppress(Ended):
                self.close()
            raise PermissionError(errno.EACCES, f"the broker refused the connection: {self._refused}", self.volume)

    def backup(self, path: str | os.PathLike[str], script: str | os.PathLike[str] | None = None) -> Check:
        raise RuntimeError("the broker has the volume, and makes the backups")

    def _look(self) -> None:
        pass

    def _reply(self, text: str) -> None:
        verdict, *words = text.split()
        if verdict == "ended":
            self._told = (int(words[0]), int(words[1]))
            return
        if verdict == "refused" and (not self._owed or self._owed[0] is None):
            # It answers no call: the broker does not serve this user, and may have closed the connection before a line
            # came.
            self._refused = words[0]
        super()._reply(text)

    def _finish(self) -> None:
        if self._told is not None:
            self._link.status = self._told[0]
        else:
            self._link.status = CUT if self._takes_input or self._owed or self._unsent else 0
        super()._finish()

    def _ended(self, more: list[str] | None = None) -> Ended:
        ended = super()._ended(more)
        if self._told is None:
            return ended
        given = self._told[1]
        unsent = ended.unanswered[given:] + ended.unsent
        return Ended(ended.status, ended.said, ended.put, ended.answered, ended.unanswered[:given], unsent)


def connect(path: str | os.PathLike[str], timeout: float | None = None, wait: float | None = None) -> Machine:
    """The volume of a broker that listens on the Unix socket `path`, as docs/SERVICE.md says. `timeout` is that of
    `Machine`.

    `wait` is how many seconds it is tried again, as while the broker is started anew. A try that was begun in time is
    not cut off.

    Raises FileNotFoundError or ConnectionRefusedError, with the path, if nobody listens, and Ended if the broker ended
    before the machine answered. It raises PermissionError at once if the broker does not name this user, or the user
    has too many connections."""
    return Connected(path, timeout, wait)
