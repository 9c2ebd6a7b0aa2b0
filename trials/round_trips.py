#!/usr/bin/env python3
"""Sends random bytes into a volume and out again, by the programs mungi_text and mungi.

    trials/round_trips.py [ROUNDS [NUMBER]]

It reads no input.

Each of ROUNDS trips, 100 by default, stores 0 to 9,000 random bytes in one object, by `mungi_text put` and a run, over those of the
trip before; and gets them in a run of its own, by `mungi_text get` and `mungi_text bytes`. The lengths begin with 0 to 17 and those around a
page. The last trip is one of 4,194,296 bytes, the most that a document has, through files; one byte more must be refused. NUMBER is where the random numbers begin, and is
drawn by default; it is printed. The volume lies in a temporary folder.

The programs are those that the environment variables MUNGI and MUNGI_TEXT name, or else the scripts at the top of the repository. It prints
what the last trip took, and ends with status 1 at the first bytes that come back changed, or at a program that can't be run.
"""

import argparse
import os
import random
import secrets
import subprocess
import sys
import tempfile
import time
from pathlib import Path

TOP = Path(__file__).resolve().parents[1]
MUNGI = os.environ.get("MUNGI", str(TOP / "mungi"))
MUNGI_TEXT = os.environ.get("MUNGI_TEXT", str(TOP / "mungi_text"))
FIRST_LENGTHS = [*range(18), 4087, 4088, 4089, 4095, 4096, 4097, 8999, 9000]
MOST_BYTES = 1024 * 4096 - 8


def put_by(words, given=b""):
    """What a program prints for this input. It must end with status 0."""
    try:
        done = subprocess.run(words, input=given, capture_output=True)
    except OSError as error:
        sys.exit(f"round_trips: {words[0]} can't be run: {error.strerror}")
    if done.returncode != 0:
        sys.exit(f"{' '.join(words)} ended with status {done.returncode}: {done.stderr.decode()}")
    return done.stdout


def run(volume, lines):
    return put_by([MUNGI, volume, "run", "64"], lines)


def all_ok(replies, count):
    if replies.count(b"\n") != count or not all(reply.startswith(b"ok") for reply in replies.splitlines()):
        sys.exit(f"a line was not answered ok: {replies[:200]!r}")
    return replies


def make_volume(folder):
    """A volume with an object of 3 pages and one of 1,024, in the list of thread 1: its name and their bases."""
    volume = str(folder / "volume")
    treasury = put_by([MUNGI, volume, "format", "2048", secrets.token_hex(32), "1000"]).split()[3].decode()
    bases = []
    for entry, pages in enumerate((3, 1024), 1):
        _, base, password = run(volume, f"1 create {pages} 1 {treasury}\n".encode()).decode().split()
        place = 0x100000010 + 16 * entry
        lines = f"1 store {place} {base}\n1 store {place + 8} {password}\n1 store 0x100000000 {entry + 1}\n"
        all_ok(run(volume, lines.encode()), 3)
        bases.append(base)
    return volume, bases


def trip(volume, base, data):
    lines = put_by([MUNGI_TEXT, "put", "1", base], data)
    all_ok(run(volume, lines), 1 + (len(data) + 7) // 8)
    replies = run(volume, put_by([MUNGI_TEXT, "get", "1", base, str(len(data))]))
    if put_by([MUNGI_TEXT, "bytes"], all_ok(replies, 1 + (len(data) + 7) // 8)) != data:
        sys.exit(f"{len(data)} bytes came back changed")


def shell(command, folder):
    began = time.monotonic()
    if subprocess.run(command, shell=True, cwd=folder).returncode != 0:
        sys.exit(f"failed: {command}")
    return time.monotonic() - began


def large_trip(folder, base):
    """The most bytes, through real files, as a user sends them."""
    (folder / "in").write_bytes(random.randbytes(MOST_BYTES))
    into = shell(f"'{MUNGI_TEXT}' put 1 {base} < in | '{MUNGI}' volume run 64 > answers", folder)
    all_ok((folder / "answers").read_bytes(), MOST_BYTES // 8 + 1)
    out = shell(f"'{MUNGI_TEXT}' get 1 {base} {MOST_BYTES} | '{MUNGI}' volume run 64 | '{MUNGI_TEXT}' bytes > out", folder)
    if (folder / "in").read_bytes() != (folder / "out").read_bytes():
        sys.exit(f"{MOST_BYTES} bytes came back changed")
    print(f"{MOST_BYTES} bytes came back the same: {into:.1f} s in, {out:.1f} s out")
    done = subprocess.run([MUNGI_TEXT, "put", "1", base], input=bytes(MOST_BYTES + 1), capture_output=True)
    if done.returncode != 7 or done.stdout:
        sys.exit(f"one byte more ended with status {done.returncode} and printed {len(done.stdout)} bytes")
    print("one byte more is refused with status 7")


def main(rounds, number):
    print(f"{rounds} trips from number {number}", flush=True)
    random.seed(number)
    with tempfile.TemporaryDirectory() as folder:
        volume, (small, large) = make_volume(Path(folder))
        lengths = FIRST_LENGTHS + [random.randint(0, 9000) for _ in range(rounds)]
        for length in lengths[:rounds]:
            trip(volume, small, random.randbytes(length))
        print(f"{rounds} trips of up to 9,000 bytes came back the same", flush=True)
        large_trip(Path(folder), large)


def count(word):
    """A whole number that is not negative."""
    number = int(word)
    if number < 0:
        raise ValueError
    return number


if __name__ == "__main__":
    parser = argparse.ArgumentParser(description=__doc__, formatter_class=argparse.RawDescriptionHelpFormatter)
    parser.add_argument("rounds", nargs="?", type=count, default=100, metavar="ROUNDS")
    parser.add_argument("number", nargs="?", type=count, default=secrets.randbits(32), metavar="NUMBER")
    told = parser.parse_args()
    try:
        main(told.rounds, told.number)
    except KeyboardInterrupt:
        sys.exit("round_trips: interrupted")
