#!/usr/bin/env python3
"""Two documents of an owner, one of which a reader may read until period 2, and then no more.

    python3 clients/python/examples/shared_documents.py [VOLUME]

Makes the volume in the file VOLUME, which must not be there yet, or in a temporary folder. The program is the one that
the environment variable MUNGI names, or else the client's own choice. It prints

    the reader reads: The meeting is at nine.
    the reader writes: Denied
    the reader reads the diary: Denied
    after a change the reader reads: The meeting is at ten.
    in period 2 the reader reads: Denied
    granted again, and taken back: Denied
    in a new run the owner reads: The meeting is at ten.
"""

import sys
import tempfile
from pathlib import Path

sys.path.insert(0, str(Path(__file__).resolve().parents[1] / "src"))
import mungi  # noqa: E402


def tried(call, *words):
    """What a call gives as text, or the word of its refusal."""
    try:
        return call(*words).decode()
    except mungi.Refused as refused:
        return refused.word


def main(volume):
    fresh = mungi.new_volume(volume, frames=64, credits=1000)
    with mungi.Machine(volume, batch=64) as machine:
        root = machine.root(fresh.treasury)
        note, diary = root.create(), root.create()
        note.put(b"The meeting is at nine.")
        diary.put(b"I was late.")

        # The reader is a thread with a list of its own. It begins at a page of zeros, which is a script that halts.
        shared, start = root.create_list(), root.create()
        shared.add(start.grant("X"))
        reader = root.new_thread(shared, start.base)
        shared.add(note.grant("R", until=2))

        print("the reader reads:", tried(reader.object(note).get))
        print("the reader writes:", tried(reader.object(note).put, b"It is off."))
        print("the reader reads the diary:", tried(reader.object(diary).get))
        note.put(b"The meeting is at ten.")
        print("after a change the reader reads:", tried(reader.object(note).get))
        machine.rent()
        machine.rent()
        print("in period 2 the reader reads:", tried(reader.object(note).get))
        again = note.grant("R")
        shared.add(again)
        again.revoke()
        print("granted again, and taken back:", tried(reader.object(note).get))
    with mungi.Machine(volume) as machine:
        print("in a new run the owner reads:", machine.thread(1).object(note.base).get().decode())


if __name__ == "__main__":
    if {"-h", "--help"} & set(sys.argv[1:]):
        print(__doc__.strip())
        sys.exit(0)
    if len(sys.argv) > 2 or sys.argv[1:] and sys.argv[1].startswith("-"):
        print("usage: shared_documents.py [VOLUME]; --help says more", file=sys.stderr)
        sys.exit(2)
    with tempfile.TemporaryDirectory() as folder:
        volume = sys.argv[1] if len(sys.argv) > 1 else Path(folder) / "volume"
        try:
            main(volume)
        except (OSError, mungi.Ended) as error:
            sys.exit(f"shared_documents: {volume}: {getattr(error, 'strerror', None) or error}")
