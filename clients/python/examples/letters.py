#!/usr/bin/env python3
"""A letter that a reader may read for three periods, that is replaced whole, and then may not be read any more.

    python3 clients/python/examples/letters.py VOLUME

Makes the volume in the file VOLUME, which must not be there yet. The program is the one that the environment variable
MUNGI names, or else the client's own choice. It prints

    Come at nine.
    Come at ten.
    2 info 0x100004000 -> no Denied
"""

import sys
from pathlib import Path

sys.path.insert(0, str(Path(__file__).resolve().parents[1] / "src"))
import mungi  # noqa: E402


def main(volume):
    fresh = mungi.new_volume(volume, frames=64, credits=1000)
    with mungi.Machine(volume) as machine:
        root = machine.root(fresh.treasury)
        letter = root.create()
        letter.put(b"Come at nine.\n")

        # The reader is a thread with a list of its own, and begins at a page of zeros. The second word of the list says
        # which object is the letter.
        start, shared = root.create(), root.create_list()
        shared.add(start.grant("X"))
        shared.add(shared.grant("R"))
        reader = root.new_thread(shared, start.base)
        shared.add(letter.grant("R", until=3))
        shared.store(8, letter.base)

        def read():
            return reader.object(reader.load(shared.base + 8)).get().decode()

        print(read(), end="")

        # The new text goes into a new object, and one store makes that the letter.
        newer = root.create()
        newer.put(b"Come at ten.\n")
        right = newer.grant("R", until=3)
        shared.add(right)
        shared.store(8, newer.base)
        letter.delete()
        print(read(), end="")

        right.revoke()
        try:
            read()
        except mungi.Denied as refused:
            print(refused)


if __name__ == "__main__":
    if {"-h", "--help"} & set(sys.argv[1:]):
        print(__doc__.strip())
        sys.exit(0)
    if len(sys.argv) != 2 or sys.argv[1].startswith("-"):
        print("usage: letters.py VOLUME; --help says more", file=sys.stderr)
        sys.exit(2)
    try:
        main(sys.argv[1])
    except (OSError, mungi.Ended) as error:
        sys.exit(f"letters: {sys.argv[1]}: {getattr(error, 'strerror', None) or error}")
