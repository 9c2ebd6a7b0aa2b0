"""Reads the texts of mungi_show: what a volume holds, who may reach what, and who gained and who lost which right.

    import mungi

    state = mungi.show("vol")
    for thread in state.threads:
        print(thread.number, thread.state, [hex(slot.base) for slot in thread.domain])
    for row in mungi.reach("vol", thread=2):
        print(hex(row.base), row.rights)
    for change in mungi.changes("vol.before", "vol"):
        print(change.thread, hex(change.base), "gained", change.gained, "lost", change.lost)

`show`, `reach` and `changes` run the program mungi_show, which only reads the volume; no run may have the volume
meanwhile. The texts are defined and proved (docs/PROMISES.md), and `man -l docs/mungi_show.1` describes them. Module
texts reads each line of them, into rows of its classes. A line that is not known, or that is out of its place, raises
`BadText`, which says the line.

A text is read as it comes, and what a filter leaves out is not kept. A word costs 16 bytes, another line some 100 to
500. **What is read has secrets**: all passwords, and the seed.

Numbers are whole. Addresses, bases and passwords are below 2**64, and an address counts bytes. Rights are letters out
of RWXDPO, in this order.
"""

from __future__ import annotations

import contextlib
import heapq
import io
import itertools
import os
import subprocess
import tempfile
from collections.abc import Generator, Hashable, Iterable, Iterator
from typing import TypeVar

from mungi.errors import Ended
from mungi.program import default_program, there, warn
from mungi.texts import Change, Reach, State, read_reach, read_state

T = TypeVar("T", bound=Hashable)

# What the program prints, and nothing else, if the file is no volume or its words ask for nothing.
_REFUSALS = {"open not\n", "open old\n", "open damaged\n", "usage\n"}


def _lines_of(
    volume: str | os.PathLike[str], name: str, program: str | os.PathLike[str] | None
) -> Generator[str, None, None]:
    """The lines of a text of a volume, as the program prints them. Raises FileNotFoundError and Ended as `show`
    does."""
    words = [program or default_program("mungi_show"), there(volume), name]
    with tempfile.TemporaryFile() as errors:
        process = subprocess.Popen(words, stdin=subprocess.DEVNULL, stdout=subprocess.PIPE, stderr=errors)
        assert process.stdout is not None
        try:
            rest = []
            with io.TextIOWrapper(process.stdout, encoding="ascii", errors="backslashreplace", newline="\n") as put:
                for number, line in enumerate(put):
                    if not line.endswith("\n") or (number == 0 and line in _REFUSALS):
                        rest = [line]
                        break
                    yield line
            status = process.wait()
        finally:
            # Who wants no more lines, or met one that is not known, does not wait for the others.
            process.kill()
            process.wait()
        errors.seek(0)
        said = errors.read(1 << 16).decode("utf-8", "backslashreplace")
    if status != 0:
        raise Ended(status, said, [line.rstrip("\n") for line in rest], [], [], [])
    warn(said, [os.fspath(volume)], 4)
    yield from rest


def show(
    volume: str | os.PathLike[str],
    thread: int | None = None,
    base: int | None = None,
    words: bool = True,
    program: str | os.PathLike[str] | None = None,
) -> State:
    """What the volume in the file `volume` holds.

    With `thread`, a number, it has that thread alone; with `base` that object alone; without `words` no words. There
    may be none with the number or the base. Settings, counters and accounts are always there. `program` is mungi_show,
    else that of `mungi.default_program`.

    It only reads. Raises FileNotFoundError if there is no file, mungi.Ended with status 2 if it is no volume and 4 if a
    run has it, and BadText. Warns with mungi.CutShort if the file is shorter than its volume."""
    with contextlib.closing(_lines_of(volume, "state", program)) as lines:
        return read_state(lines, thread, base, words)


def _reached(volume: str | os.PathLike[str], program: str | os.PathLike[str] | None) -> Generator[Reach, None, None]:
    with contextlib.closing(_lines_of(volume, "reach", program)) as lines:
        yield from read_reach(lines)


def _wanted(rows: Iterable[Reach], thread: int | None, base: int | None) -> Iterator[Reach]:
    return (row for row in rows if thread in (None, row.thread) and base in (None, row.base))


def reach(
    volume: str | os.PathLike[str],
    thread: int | None = None,
    base: int | None = None,
    program: str | os.PathLike[str] | None = None,
) -> list[Reach]:
    """Who may reach what now: a row for each thread and each object on which it has some right, by the thread's number
    and then by the object's base. A right is in it exactly if an access would be allowed now.

    With `thread`, a number, it has the rows of that thread alone; with `base` those of that object. Reads and raises as
    `show` does."""
    with contextlib.closing(_reached(volume, program)) as rows:
        return list(_wanted(rows, thread, base))


def _place(row: Reach) -> tuple[int, int]:
    return row.thread, row.base


def _without(some: Iterable[T], others: Iterable[T]) -> tuple[T, ...]:
    left = set(others)
    return tuple(it for it in some if it not in left)


def changes(
    before: str | os.PathLike[str] | Iterable[Reach],
    after: str | os.PathLike[str] | Iterable[Reach],
    thread: int | None = None,
    base: int | None = None,
    program: str | os.PathLike[str] | None = None,
) -> list[Change]:
    """Who gained and who lost which right: a row for each thread and object with a difference, by the thread's number
    and then by the base.

    `before` and `after` are each the file of a volume, or what `reach` gave. Volumes are read side by side, and only
    what differs is kept. With `thread` or `base` it has that thread or that object alone. Reads and raises as `show`
    does.

    Threads are known by their numbers, and objects by their bases. If a thread ended and another one got its number, or
    an object was deleted and another one begins at its base, they count as one: compare `birth` of threads, and
    passwords of objects, of `show`."""
    found: list[Change] = []
    with contextlib.ExitStack() as stack:
        sides = []
        for side, given in enumerate((before, after)):
            if isinstance(given, (str, os.PathLike)):
                rows: Iterable[Reach] = stack.enter_context(contextlib.closing(_reached(given, program)))
            else:
                rows = sorted(given, key=_place)
            sides.append(zip(_wanted(rows, thread, base), itertools.repeat(side)))
        for (number, start), both in itertools.groupby(
            heapq.merge(*sides, key=lambda it: _place(it[0])), key=lambda it: _place(it[0])
        ):
            by_side = {side: row for row, side in both}
            old, new = (by_side.get(side) or Reach(number, start, "", ()) for side in (0, 1))
            if old != new:
                gained, lost = (
                    "".join(_without(*pair)) for pair in ((new.rights, old.rights), (old.rights, new.rights))
                )
                found.append(
                    Change(
                        number, start, gained, lost, _without(new.enters, old.enters), _without(old.enters, new.enters)
                    )
                )
    return found
