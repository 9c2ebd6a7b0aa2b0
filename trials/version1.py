#!/usr/bin/env python3
"""Makes a volume of version 1 of one of today, so that `mungi VOLUME migrate OLD` can be tried.

    trials/version1.py [--overwrite] VOLUME OLD

The file VOLUME is only read; OLD is made, and is another file. A file OLD that is not empty is overwritten only if the first word is --overwrite. VOLUME must be a volume whose journal holds nothing, as a run on no
lines leaves it, and whose objects have at most 16 passwords each, none of which ends. Version 1 has another superblock, objects of
512 bytes without untils, and so its frame table and its frames 512 blocks lower; all else is as it is today (docs/VOLUME.md).
"""
import os
import sys
from pathlib import Path

BLOCK, OBJECTS, TABLE = 4096, 1571, 2595
NEVER = (1 << 24).to_bytes(8, "little")


def lowered(row):
    """The 512 bytes of an object for the 1,024 of today."""
    count = row[32]
    if count > 16 or row[496 : 496 + 8 * count] != NEVER * count:
        raise ValueError("an object has more than 16 passwords, or one that ends")
    return (row[:208] + row[336:352] + row[368:496]).ljust(512, b"\0")


def version1(volume, old):
    """Writes the volume of version 1 that this volume was, and gives the name of its file."""
    if os.path.exists(old) and os.path.samefile(volume, old):
        raise ValueError("VOLUME and OLD are one file, and VOLUME is not to be changed")
    whole = Path(volume).read_bytes()
    if whole[:1] != b"\xa5" or whole[BLOCK : BLOCK + 9] != b"MUNGIVOL\x02":
        raise ValueError("no volume of today")
    if any(whole[BLOCK * gate] == 0xA5 for gate in range(2, 1298, 162)):
        raise ValueError("the journal holds something: run mungi on no lines first")
    front = whole[:BLOCK] + b"MUNGIVOL\x01" + whole[BLOCK + 9 : BLOCK * OBJECTS]
    rows = (lowered(whole[at : at + 1024]) for at in range(BLOCK * OBJECTS, BLOCK * TABLE, 1024))
    Path(old).write_bytes(front + b"".join(rows) + whole[BLOCK * TABLE :])
    return old


if __name__ == "__main__":
    if sys.argv[1:] in (["--help"], ["-h"]):
        print(__doc__.strip())
        sys.exit(0)
    words = sys.argv[1:]
    overwrites = words[:1] == ["--overwrite"]
    words = words[overwrites:]
    if len(words) != 2 or any(it.startswith("-") for it in words):
        print("usage: trials/version1.py [--overwrite] VOLUME OLD", file=sys.stderr)
        sys.exit(2)
    try:
        if not overwrites and os.path.exists(words[1]) and os.path.getsize(words[1]) > 0:
            sys.exit(f"version1: {words[1]} is not empty, and is left as it was; with --overwrite as first word it is overwritten")
        version1(*words)
    except OSError as fault:
        sys.exit(f"version1: {fault.filename}: {fault.strerror}")
    except ValueError as fault:
        sys.exit(f"version1: {fault}")
