#!/usr/bin/env python3
"""A mailbox: a sender leaves a letter in it, can't read it, and can write to it only through its door.

    python3 clients/python/examples/mailbox.py [VOLUME]

Makes the volume in the file VOLUME, which must not be there yet, or in a temporary folder. The program is the one that
the environment variable MUNGI names, or else the client's own choice. It prints

    before the door, a letter: Denied
    inside the door, a letter: put
    inside the door, a look: Denied
    back again, a letter: Denied
    without the password of the door: Denied
    the owner reads: Dear owner, hello.
"""

import sys
import tempfile
from pathlib import Path

sys.path.insert(0, str(Path(__file__).resolve().parents[1] / "src"))
import mungi  # noqa: E402


def tried(call, *words):
    """"put" if a call is answered, or the word of its refusal."""
    try:
        call(*words)
        return "put"
    except mungi.Refused as refused:
        return refused.word


def main(volume):
    fresh = mungi.new_volume(volume, frames=64, credits=1000)
    with mungi.Machine(volume, batch=64) as machine:
        root = machine.root(fresh.treasury)
        mailbox, door = root.create(), root.create()

        # Behind the door a thread has the door's list too, which names the mailbox by a password that only writes.
        inside = root.create_list()
        inside.add(mailbox.grant("W"))
        door.extend(inside.grant("R"))
        entrance = door.entry(0)

        # The sender's list names the door by a password that only lets in, and a page of zeros, where its thread
        # begins.
        start, senders = root.create(), root.create_list()
        way_in = door.grant("P")
        senders.add(start.grant("X"))
        senders.add(way_in)
        sender = root.new_thread(senders, start.base)

        slot = sender.object(mailbox)
        print("before the door, a letter:", tried(slot.put, b"Dear owner, hello."))
        with sender.inside(entrance, mask=1):
            print("inside the door, a letter:", tried(slot.put, b"Dear owner, hello."))
            print("inside the door, a look:", tried(slot.get))
        print("back again, a letter:", tried(slot.put, b"And another thing."))
        way_in.revoke()
        print("without the password of the door:", tried(sender.pdx, entrance, 1))
        print("the owner reads:", mailbox.get().decode())


if __name__ == "__main__":
    if {"-h", "--help"} & set(sys.argv[1:]):
        print(__doc__.strip())
        sys.exit(0)
    if len(sys.argv) > 2 or sys.argv[1:] and sys.argv[1].startswith("-"):
        print("usage: mailbox.py [VOLUME]; --help says more", file=sys.stderr)
        sys.exit(2)
    with tempfile.TemporaryDirectory() as folder:
        volume = sys.argv[1] if len(sys.argv) > 1 else Path(folder) / "volume"
        try:
            main(volume)
        except (OSError, mungi.Ended) as error:
            sys.exit(f"mailbox: {volume}: {getattr(error, 'strerror', None) or error}")
