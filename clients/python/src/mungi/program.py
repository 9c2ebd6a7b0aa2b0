"""Finding and starting the programs, and what they say of a volume's file."""

from __future__ import annotations

import errno
import os
import shutil
import subprocess
import warnings
from collections.abc import Iterable
from pathlib import Path

from mungi.errors import CutShort, Ended, SideDropped, VolumeWarning

# The top of the repository, if the package is used from a checkout, and else some folder above it.
TOP = Path(__file__).resolve().parents[:5][-1]


def default_program(name: str = "mungi") -> str:
    """The program `mungi`, or `mungi_dev` or `mungi_show` by its name.

    It is that of the environment variable MUNGI, MUNGI_DEV or MUNGI_SHOW; for the last two else the one beside the
    program that MUNGI names; else the one of the path; else the script of that name at the top of the repository, if
    this file is in one. The script builds the program if it is not built, which takes long, so build it before. Raises
    FileNotFoundError if there is none."""
    variable = name.upper()
    told = os.environ.get(variable)
    if told:
        found = shutil.which(told)
        if found is None:
            raise FileNotFoundError(f"{variable} names {told}, which is no program")
        return found
    mungi = os.environ.get("MUNGI")
    beside = os.path.join(os.path.dirname(mungi), name) if mungi else name
    found = shutil.which(beside) or shutil.which(name)
    if found is not None:
        return found
    script = TOP / name
    if script.is_file():
        return str(script)
    raise FileNotFoundError(
        f"{variable} names no program {name}, and there is none on the path, and no script {name} in {TOP}"
    )


def there(path: str | os.PathLike[str]) -> str:
    """The name of a volume's file. Raises FileNotFoundError if there is none, so that a wrong name makes no empty
    file."""
    if not os.path.exists(path):
        raise FileNotFoundError(errno.ENOENT, "there is no volume", os.fspath(path))
    return os.fspath(path)


def look_before_mirror(volume: str, mirror: str, side: str) -> None:
    """Raises ValueError if both names are one file, and FileExistsError if the copy would overwrite something other
    than a volume. A volume is known by its superblock, in block 1; an empty file, or one whose first 256 blocks are
    zeros, holds nothing."""
    if os.path.exists(volume) and os.path.exists(mirror) and os.path.samefile(volume, mirror):
        raise ValueError(f"{volume} and {mirror} are one file: a mirror needs two")
    other = volume if side == "right" else mirror
    if os.path.isfile(other):
        with open(other, "rb") as file:
            start = file.read(256 * 4096)
        if start.strip(b"\0") and start[4096:4104] != b"MUNGIVOL":
            raise FileExistsError(
                errno.EEXIST, "it holds something that is no volume, and would be written over: remove it first", other
            )


def warn(said: str, names: Iterable[str], depth: int) -> None:
    """Hands on what the program said of these files on standard error while it went on. The script that builds it says
    other things there."""
    for line in said.splitlines():
        if any(f": {name}: " in line for name in names):
            kind = CutShort if "cut short" in line else SideDropped if "drop" in line else VolumeWarning
            warnings.warn(line, kind, stacklevel=depth + 1)


def put_by(words: list[str], program: str | os.PathLike[str] | None) -> str:
    """What a command prints that reads no input, and whose first word is the volume. Raises Ended if its status is not
    0, and hands on what it said else."""
    done = subprocess.run(
        [program or default_program(), *words], stdin=subprocess.DEVNULL, capture_output=True, text=True, check=False
    )
    if done.returncode != 0:
        raise Ended(done.returncode, done.stderr, done.stdout.splitlines(), [], [], [])
    warn(done.stderr, words[:1], 3)
    return done.stdout
