"""Volumes that no run has open: making one, and looking into one."""

from __future__ import annotations

import contextlib
import errno
import os
import secrets
from collections.abc import Iterable

from mungi.calls import number
from mungi.limits import WORD_BYTES
from mungi.program import TOP, default_program, put_by, there
from mungi.values import Check, Fresh, Unreached


def drop_cache(volume: str | os.PathLike[str]) -> None:
    """Has the system write what it keeps of a volume's file, and forget the rest. Call it after status 4, before the
    volume is opened again.

    A block that the system could not write may stay in its cache: reads then give the new bytes, the next sync answers
    that all is well, and the medium still has the old ones. Opening the volume after this call reads what the medium
    has. A file that is not there, or that can't be written, is left alone.
    """
    try:
        file = os.open(volume, os.O_RDONLY | os.O_CLOEXEC)
    except OSError:
        return
    try:
        with contextlib.suppress(OSError):
            os.fsync(file)
        with contextlib.suppress(OSError):
            os.posix_fadvise(file, 0, 0, os.POSIX_FADV_DONTNEED)
    finally:
        os.close(file)


def new_volume(
    path: str | os.PathLike[str],
    frames: int,
    credits: int,
    tariff: Iterable[tuple[int, int]] = (),
    seed: str | None = None,
    program: str | os.PathLike[str] | None = None,
) -> Fresh:
    """Makes the file `path` a fresh volume. A file that is there is never written over: that raises FileExistsError.

    `frames` is how many pages all objects may have together, 16 to 65,536, and `credits` what all accounts have
    together, at most 2**62. `tariff` is none, for the usual one, or four pairs of a number of pages and the rate from
    it on. `seed` is 64 hexadecimal digits, from which all passwords follow; without it 32 random bytes are drawn. The
    file gets the mode 0600, since who reads it has every password. The seed is a word of the command line, which the
    system shows to others while the command runs.

    Raises Ended if the program refuses the words or the disk fails; no file is left then.
    """
    seed = secrets.token_hex(32) if seed is None else seed
    steps = [f"{number(pages)}:{number(rate)}" for pages, rate in tariff]
    program = program or default_program()
    if os.path.lexists(path):
        raise FileExistsError(errno.EEXIST, os.strerror(errno.EEXIST), os.fspath(path))
    if os.path.realpath(program) == str(TOP / "mungi"):
        # The script builds the program if there is none. That takes long, so no file is there yet if it is ended
        # meanwhile.
        put_by(["x", "dry", "16", "0" * 64, "0"], program)
    os.close(os.open(path, os.O_WRONLY | os.O_CREAT | os.O_EXCL, 0o600))
    try:
        put = put_by([os.fspath(path), "format", number(frames), seed, number(credits), *steps], program)
    except BaseException:
        os.unlink(path)
        raise
    return Fresh(*(int(word, 16) for word in put.split()[1:]))


def check(path: str | os.PathLike[str], program: str | os.PathLike[str] | None = None) -> Check:
    """Returns what the volume in the file `path` holds. It only reads. Raises FileNotFoundError if there is no file,
    and Ended with status 2 if it is no volume, 4 if a run has it. Warns with CutShort if the file is shorter than its
    volume."""
    return Check(*(int(word) for word in put_by([there(path), "check"], program).split()[1:]))


def unreached(path: str | os.PathLike[str], program: str | os.PathLike[str] | None = None) -> list[Unreached]:
    """The objects of the volume on which no thread has a right now, in the order of their bases. It only reads; no run
    may have the volume.

    A kill between a `create` and the store of its entry leaves such an object. docs/CLIENT.md says how it is taken
    back. `program` is mungi_show, else that of `default_program`. Raises FileNotFoundError and Ended as `check` does.
    """
    show = program or default_program("mungi_show")
    words = [line.split() for line in put_by([there(path), "state"], show).splitlines()]
    reached = {
        line.split()[2] for line in put_by([os.fspath(path), "reach"], show).splitlines() if line.startswith("reach ")
    }
    period = next(int(line[1]) for line in words if line[0] == "period")
    named = _named(words)
    found = []
    for at, line in enumerate(words):
        if line[0] != "object" or line[1] in reached:
            continue
        base = int(line[1], 16)
        rows = []
        for row in words[at + 1 :]:
            if row[0] not in ("password", "entry", "extension"):
                break
            if row[0] == "password" and (row[3] == "never" or period < int(row[3])):
                rows.append((int(row[1], 16), row[2]))
        deletes = [password for password, rights in rows if "D" in rights]
        is_named = any((base, password) in named for password, _ in rows)
        found.append(Unreached(base, int(line[2]), int(line[3]), deletes[0] if deletes else None, is_named))
    return found


def _named(words: list[list[str]]) -> set[tuple[int, int]]:
    """Each base and password that stand together in a state: in a slot or an extension, or in two words in a row."""
    pairs = {(int(line[1], 16), int(line[2], 16)) for line in words if line[0] in ("slot", "extension")}
    stored = {int(line[1], 16): int(line[2], 16) for line in words if line[0] == "word"}
    # A word that is not told is 0, and may be a password too.
    pairs |= {(value, stored.get(address + WORD_BYTES, 0)) for address, value in stored.items()}
    return pairs
