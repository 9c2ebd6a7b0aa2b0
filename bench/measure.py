#!/usr/bin/env python3
"""Measures the program in one run on one machine: durable stores beside the least that the protocol asks of the disk and beside SQLite,
openings beside reading the file, lines a second that are kept nowhere, instructions a line, and calls of the disk.

    bench/measure.py [--program PATH] [--before PATH] [--folder FOLDER] [--seconds S] [--svg FILE]
    bench/measure.py --full [--program PATH] [--mirror PATH] [--show PATH ..] [--folder FOLDER]

It prints one table. A rate of mungi is that of a run less a run on no lines, both with the page cache warm; lines come from a file, and
answers go into one. The floor is the rate of bench/floor.c, which makes just the system calls that the protocol needs, and once
more with the reads that 256 kept blocks leave; the system's C compiler builds it. Both run on a copy of one volume. A rate of SQLite is
that of updates of one row each, with journal_mode WAL and synchronous FULL, in transactions of as many updates as a batch has lines. A
row fills a page of SQLite's as a store's page fills one of mungi's. What is compared is run in turn, ten times each if it is
durable and four times else, and the fastest run of each counts. Instructions are counted by valgrind's callgrind and calls by strace.
Where one of these tools is not there, its rows are left out, and that is said on standard error. --before names another build of the
program, whose time for a million lines is given too.
--svg draws the ratios to the floor and to SQLite.

With --full it measures a full volume instead: 65,536 frames, 4,096 objects, 61,426 pages and 256 threads. Openings stand beside `cat`
of the blocks up to the end of the frame table, least of 20 with the page cache warm, and of 5 if it is dropped before each, which
takes a system that lets it be dropped; a migration, and a mirror's copy by the program mungi_dev, stand beside `cp`, with a sync and
without. Their ratio is that of the speeds. What mungi_show prints is measured too, and of each build after the first beside the first.
"""
import argparse
import itertools
import os
import re
import shutil
import sqlite3
import subprocess
import sys
import tempfile
import time
from pathlib import Path

TOP = Path(__file__).resolve().parent.parent
sys.path.insert(0, str(TOP / "trials"))

from version1 import version1  # noqa: E402

SEED = "0" * 64
TREASURY = "0x28bd8653e56a5d40"
CREDITS = str(2**62)
LOAD = "1 load 0x100000000"
# A store into the page of the thread's own list.
STORE = "1 store 0x100000008 7"
# A store into the first page of an object that is no list, and the lines that make it.
STORE_ASIDE = "1 store 0x100001008 7"
LOAD_ASIDE = "1 load 0x100001000"
ASIDE = [f"1 create 1 1 {TREASURY}", "1 store 0x100000020 0x100001000", "1 store 0x100000028 0x1aed8da0b819d2bd", "1 store 0x100000000 2"]
PAGES = (1, 24, 1000)
# How many blocks the program keeps.
KEPT = 256
# The goal for the ratio to the floor.
WANTED = 0.9
# How often each run is made, in turn with those that stand beside it, and one that waits for the disk, whose time is less even.
ROUNDS = 4
DURABLE_ROUNDS = 10


def text_of(lines):
    return "".join(line + "\n" for line in lines).encode()


def mungi(program, words, lines=()):
    """Runs these lines, and gives the seconds and the answers."""
    begun = time.perf_counter()
    done = subprocess.run([program, *words], input=text_of(lines), stdout=subprocess.PIPE, check=True)
    return time.perf_counter() - begun, done.stdout.decode().splitlines()


def timed(program, words, lines, folder):
    """Runs these lines from a file, with the answers into one, and gives the seconds of the program alone; each is to be answered `ok`."""
    source, answers = f"{folder}/lines", f"{folder}/answers"
    Path(source).write_bytes(text_of(lines))
    with open(source, "rb") as given, open(answers, "wb") as put:
        begun = time.perf_counter()
        subprocess.run([program, *words], stdin=given, stdout=put, check=True)
        took = time.perf_counter() - begun
    assert all(line.startswith(b"ok") for line in Path(answers).read_bytes().splitlines())
    return took


def count_for(run, seconds):
    """The number of lines, a power of two, with which a run takes this many seconds."""
    count = 64
    while count < 1 << 22 and run(count) < seconds:
        count *= 2
    return count


def rates(runs, seconds):
    """Durable lines a second of each, over runs of this many seconds."""
    return rates_of(runs, [count_for(run, seconds) for run in runs], DURABLE_ROUNDS)


def rates_of(runs, counts, rounds=ROUNDS):
    """Lines a second of each, the highest of this many runs of each, made in turn: noise only makes a run slower."""
    best = [0.0] * len(runs)
    for _ in range(rounds):
        for place, run in enumerate(runs):
            best[place] = max(best[place], counts[place] / run(counts[place]))
    return best


def volume_with(program, volume, pages):
    """A volume with one object of this many pages, each stored to, and its base."""
    Path(volume).unlink(missing_ok=True)
    mungi(program, [volume, "format", "2048", SEED, "1000000"])
    _, put = mungi(program, [volume, "run"], [f"1 create {pages} 1 {TREASURY}"])
    base, password = put[0].split()[1:]
    lines = [f"1 store 0x100000020 {base}", f"1 store 0x100000028 {password}", "1 store 0x100000000 2"]
    _, put = mungi(program, [volume, "run", "64"], lines + [f"1 store {int(base, 16) + 4096 * k} 1" for k in range(pages)])
    assert all(line == "ok" for line in put)
    return int(base, 16)


def copy_over(volume):
    """Puts a copy of a volume in its place, so that the system caches it as it does the floor's: in the large pieces of a file that was
    written from end to end. To be copied leaves a file with holes in small ones, and each piece of a write costs by itself."""
    shutil.copy(volume, volume + ".copy")
    os.replace(volume + ".copy", volume)


def stores(program, volume, pages, batch, folder):
    """Runs of stores over the pages of a new volume, this many to a commit, and their seconds."""
    base = volume_with(program, volume, pages)
    copy_over(volume)
    words = [volume, "run", str(batch)]
    empty = min(timed(program, words, [], folder) for _ in range(3))

    def run(count):
        lines = [f"1 store {base + 4096 * (i * 7 % pages) + 8 * (i % 512)} {i}" for i in range(count)]
        return timed(program, words, lines, folder) - empty

    return run


def floor_of(folder):
    """The program that makes just the calls of the protocol, built in this folder; None without a C compiler."""
    compiler = shutil.which("cc")
    if compiler is None:
        print("cc is not there: no floor", file=sys.stderr)
        return None
    subprocess.run([compiler, "-O2", "-o", f"{folder}/floor", str(TOP / "bench/floor.c")], check=True)
    return f"{folder}/floor"


def floor_stores(floor, volume, pages, batch, *kept):
    """The same of the floor, on a copy of that volume; with its reads, if the number of kept blocks is given."""
    shutil.copy(volume, volume + ".floor")

    def run(count):
        words = [floor, volume + ".floor", str(count), str(batch), str(pages), *map(str, kept)]
        return float(subprocess.run(words, stdout=subprocess.PIPE, check=True).stdout)

    return run


def sqlite_updates(path, pages, batch):
    """Runs of updates of a row each, this many to a transaction, and their seconds."""
    for name in (path, path + "-wal", path + "-shm"):
        Path(name).unlink(missing_ok=True)
    base = sqlite3.connect(path, isolation_level=None)
    base.execute("PRAGMA page_size = 4096")
    base.execute("PRAGMA journal_mode = WAL")
    base.execute("PRAGMA synchronous = FULL")
    base.execute("CREATE TABLE pages (k INTEGER PRIMARY KEY, v INTEGER, rest BLOB)")
    base.execute("BEGIN")
    for k in range(pages):
        base.execute("INSERT INTO pages VALUES (?, 0, ?)", (k, bytes(3900)))
    base.execute("COMMIT")
    value = itertools.count(1)

    # Each update has another value: one that changes nothing is not written.
    def run(count):
        begun = time.perf_counter()
        for first in range(0, count, batch):
            base.execute("BEGIN")
            for i in range(first, first + batch):
                base.execute("UPDATE pages SET v = ? WHERE k = ?", (next(value), i * 7 % pages))
            base.execute("COMMIT")
        return time.perf_counter() - begun

    return run


def machine_with(objects):
    """Lines that make a machine with this many objects, the root object among them."""
    return [f"1 create 1 1 {TREASURY}"] * (objects - 1)


def dry(frames=65536):
    return ["x", "dry", str(frames), SEED, CREDITS]


def dry_runs(program, line, before, folder):
    """Runs of a line after some others, and their seconds."""
    empty = min(timed(program, dry(), before, folder) for _ in range(ROUNDS))
    return lambda count: timed(program, dry(), before + [line] * count, folder) - empty


def gen_runs(program):
    """Runs of this many generated lines, and their seconds."""

    def run(count):
        begun = time.perf_counter()
        subprocess.run([program, "x", "gen", "7", str(count)], stdout=subprocess.DEVNULL, check=True)
        return time.perf_counter() - begun

    empty = min(run(0) for _ in range(ROUNDS))
    return lambda count: run(count) - empty


def measure_millions(program, before, folder):
    """A million lines of each kind by the clock, the least of four runs, in turn with those of the program of before."""
    kinds = {
        "`1 load B`, 1 object": (LOAD, []),
        "`1 load B`, 4,096 objects": (LOAD, machine_with(4096)),
        "`1 store A V` into a first page": (STORE_ASIDE, ASIDE),
        "`1 store A V` into the thread's list": (STORE, []),
        "`2 turn`, a jump": ("2 turn", jumping(1)),
        "`next`, a jump, 1 Ready": ("next", jumping(1)),
        "`next`, a jump, 255 Ready": ("next", jumping(255)),
        "`gen`": None,
    }
    for name, kind in kinds.items():
        runs = [gen_runs(each) if kind is None else dry_runs(each, *kind, folder) for each in (program, before) if each]
        now, *was = (1e6 / rate for rate in rates_of(runs, [1000000] * len(runs)))
        row(f"a million lines: {name}", f"{now:.3f} s", *(f"before {took:.3f} s" for took in was), *(f"{now / took:.2f}" for took in was))


def counted(command, lines=()):
    """The instructions of a command on these lines."""
    command = ["valgrind", "--tool=callgrind", "--callgrind-out-file=/dev/null", *command]
    done = subprocess.run(command, input=text_of(lines), stdout=subprocess.DEVNULL, stderr=subprocess.PIPE, check=True)
    return int(re.search(rb"Collected : (\d+)", done.stderr)[1])


def instructions(program, line, before=()):
    """Instructions a line after some others: those of 3,000 less those of 1,000, over 2,000. Several lines are made in turn."""
    lines = line if isinstance(line, list) else [line]
    few, many = (counted([program, *dry()], [*before, *lines * count]) for count in (1000, 3000))
    return (many - few) / (2000 * len(lines))


def generated(program):
    """Instructions of a line of `gen`, on average."""
    few, many = (counted([program, "x", "gen", "7", str(count)]) for count in (1000, 3000))
    return (many - few) / 2000


def jumping(threads):
    """Lines that make this many threads, each of which jumps to its own word for ever."""
    return ["1 store 0x100000200 0x8", *["1 thread 0x100000200"] * threads]


def crowd():
    """Lines that add 4,095 objects and 254 threads, each of which has halted."""
    return machine_with(4096) + ["1 thread 0x100000300"] * 254 + ["next"] * 255


def searched(entries):
    """Lines that make an object and a list of this many entries, of which the last one is for the object."""
    first, last = 0x100000010, 0x100000010 + 16 * (entries - 1)
    others = [f"1 store {first + 16 * k:#x} 1" for k in range(1, entries - 1)]
    return [ASIDE[0], *others, f"1 store {last:#x} 0x100001000", f"1 store {last + 8:#x} 0x1aed8da0b819d2bd", f"1 store 0x100000000 {entries}"]


def measure_instructions(program):
    """Instructions of a line of each kind, alone and among 4,096 objects and 256 threads."""
    kinds = {
        "a load": (LOAD, []),
        "a load, of two objects in turn": ([LOAD, LOAD_ASIDE], ASIDE),
        "a store into a first page": (STORE_ASIDE, ASIDE),
        "a store into the page of the thread's list": (STORE, []),
        "a turn that jumps": ("2 turn", jumping(1)),
        "`next`, the same, 1 Ready": ("next", jumping(1)),
    }
    for name, (line, before) in kinds.items():
        alone, among = (instructions(program, line, before + more) for more in ([], crowd()))
        row(f"instructions of {name}", f"{alone:,.0f}", f"among 4,096 objects and 256 threads {among:,.0f}", f"{among / alone:.2f}")
    pairs = [2 * instructions(program, [STORE, LOAD_ASIDE], searched(entries)) for entries in (2, 255)]
    row("instructions of a store into the own list and a load that searches its 255 entries", f"{pairs[1]:,.0f}", f"2 entries {pairs[0]:,.0f}", f"{pairs[1] / pairs[0]:.2f}")
    turns = [instructions(program, "next", jumping(threads)) for threads in (1, 255)]
    row("instructions of `next`, the same, 255 Ready", f"{turns[1]:,.0f}", f"1 Ready {turns[0]:,.0f}", f"{turns[1] / turns[0]:.2f}")
    row("instructions of a line of `gen`, on average", f"{generated(program):,.0f}")


def disk_calls(program, volume, lines):
    """The writes and the syncs of a run of these lines, a line a commit, less those of one on no lines."""
    counts = []
    for some in ([], lines):
        command = ["strace", "-f", "-e", "trace=pwrite64,fdatasync,fsync", program, volume, "run"]
        done = subprocess.run(command, input=text_of(some), stdout=subprocess.DEVNULL, stderr=subprocess.PIPE, check=True)
        counts.append((done.stderr.count(b"pwrite64("), done.stderr.count(b"sync(")))
    return counts[1][0] - counts[0][0], counts[1][1] - counts[0][1]


def least(command, runs=20):
    best = None
    for _ in range(runs):
        begun = time.perf_counter()
        subprocess.run(command, stdin=subprocess.DEVNULL, stdout=subprocess.DEVNULL, check=True)
        took = time.perf_counter() - begun
        best = took if best is None else min(best, took)
    return best


def full_volume(program, volume):
    """A full volume: each page of each object is stored to, and 256 threads live."""
    mungi(program, [volume, "format", "65536", SEED, CREDITS])
    _, put = mungi(program, [volume, "run", "64"], [f"1 create 15 1 {TREASURY}"] * 4095 + ["1 thread 0x100000200"] * 255)
    lines = ["1 store 0x100000000 2"]
    for answer in put[:4095]:
        base, password = answer.split()[1:]
        lines += [f"1 store 0x100000020 {base}", f"1 store 0x100000028 {password}"]
        lines += [f"1 store {int(base, 16) + 4096 * k} 1" for k in range(15)]
    _, answers = mungi(program, [volume, "run", "64"], lines)
    assert all(line.startswith("ok") for line in put) and set(answers) == {"ok"}
    # A run on no lines writes home what the journal holds.
    mungi(program, [volume, "run"])
    _, put = mungi(program, [volume, "check"])
    assert put[0].split()[1:6] == ["65536", "4096", "61426", "1", "256"], put


def drop_caches():
    """Drops the page cache; whether that could be done."""
    subprocess.run(["sync"], check=True)
    try:
        Path("/proc/sys/vm/drop_caches").write_text("3")
        return True
    except OSError:
        return False


def cold(command):
    times = []
    for _ in range(5):
        if not drop_caches():
            return None
        times.append(least(command, 1))
    return min(times)


def system_calls(command):
    """How many calls of the system a command makes; None without strace."""
    if shutil.which("strace") is None:
        return None
    done = subprocess.run(["strace", "-f", *command], stdin=subprocess.DEVNULL, stdout=subprocess.DEVNULL, stderr=subprocess.PIPE, check=True)
    return sum(b"(" in line for line in done.stderr.splitlines())


def page_faults(command):
    """How many pages of memory a command touches for the first time."""
    process = subprocess.Popen(command, stdin=subprocess.DEVNULL, stdout=subprocess.DEVNULL)
    _, _, usage = os.wait4(process.pid, 0)
    return usage.ru_minflt


def cost_of(name, command):
    counts = [f"{page_faults(command):,} page faults", f"{system_calls(command) or 0:,} calls"]
    if shutil.which("valgrind"):
        counts.append(f"{counted(command):,} instructions")
    row(f"{name}, page cache warm", ", ".join(counts))


def measure_shown(shows, volume):
    """The texts of a volume, by each of these builds in turn; the ratio is of the time to that of the first build."""
    for text in ("state", "reach", "dot"):
        first = None
        for show in shows:
            command = [show, volume, text]
            took = least(command)
            first = first or took
            lines = subprocess.run(command, capture_output=True, check=True).stdout.count(b"\n")
            told = f"{counted(command):,} instructions" if shutil.which("valgrind") else ""
            row(f"`{os.path.basename(show)} {text}`, page cache warm", f"{1000 * took:.1f} ms", f"{lines:,} lines, {told}", f"{took / first:.2f}")


def measure_full(program, mirror, shows, folder):
    volume, head, old, new = (f"{folder}/{name}" for name in ("vol", "head", "old", "new"))
    full_volume(program, volume)
    with open(volume, "rb") as whole:
        Path(head).write_bytes(whole.read(4096 * (2595 + 128)))
    row("what", "mungi", "beside it", "ratio")
    row("---", "---", "---", "---")
    for cache, time_of in (("dropped", cold), ("warm", least)):
        reading = time_of(["cat", head])
        if reading is None:
            print("the page cache can't be dropped here", file=sys.stderr)
            continue
        for command in ("run", "check"):
            took = time_of([program, volume, command])
            row(f"`{command}` on no lines, page cache {cache}", f"{1000 * took:.1f} ms", f"`cat` {1000 * reading:.1f} ms", f"{took / reading:.2f}")
    cost_of("`run` on no lines", [program, volume, "run"])
    cost_of("`check`", [program, volume, "check"])
    cost_of("`cat`", ["cat", head])
    version1(volume, old)
    copies_beside_cp("migration of a full volume", [program, new, "migrate", old], old, new)
    if mirror is None:
        print("mungi_dev is not built: no copy of a mirror", file=sys.stderr)
    else:
        copies_beside_cp("mirror of a full volume, on no lines", [mirror, volume, "mirror", new, "left"], volume, new)
    if not shows:
        print("mungi_show is not built: no texts of the volume", file=sys.stderr)
    measure_shown(shows, volume)


def made_anew(command, target):
    """The least of five times in which this command makes a file that is not there, with nothing else left to write."""
    times = []
    for _ in range(5):
        Path(target).unlink(missing_ok=True)
        subprocess.run(["sync"], check=True)
        times.append(least(command, 1))
    return min(times)


def copies_beside_cp(name, command, source, target):
    took = made_anew(command, target)
    for other, copy in (("cp and sync", ["sh", "-c", f"cp {source} {target} && sync {target}"]), ("cp", ["cp", source, target])):
        beside = made_anew(copy, target)
        row(name, f"{1000 * took:.0f} ms", f"`{other}` {1000 * beside:.0f} ms", f"{beside / took:.2f}")


def picture(ratios):
    """The ratios to the floor and to SQLite as bars, with a mark at the goal for the first."""
    left, wide, step = 210, 240, 56
    parts = []
    for place, ((batch, pages), (floor, other)) in enumerate(ratios.items()):
        y = 40 + step * place
        label = f"{batch} to a commit, {pages:,} page{'s' if pages > 1 else ''}"
        parts.append(f'<text x="{left - 8}" y="{y + 25}" text-anchor="end">{label}</text>')
        for ratio, at, colour, name in ((floor, y, "#4878a8", "floor"), (other, y + 22, "#9aa4ae", "SQLite")):
            if ratio is not None:
                parts.append(f'<rect x="{left}" y="{at}" width="{wide * ratio:.0f}" height="18" fill="{colour}"/>')
                parts.append(f'<text x="{left + wide * ratio + 6:.0f}" y="{at + 14}">{ratio:.2f} of {name}</text>')
    height = 40 + step * len(ratios) + 10
    for x, colour in ((left + wide, "#888"), (left + wide * WANTED, "#b03030")):
        parts.append(f'<line x1="{x:.0f}" y1="30" x2="{x:.0f}" y2="{height - 8}" stroke="{colour}" stroke-dasharray="3 3"/>')
    parts.append(f'<text x="{left}" y="20">durable stores a second over the floor\'s and over SQLite\'s updates; red: wanted of the floor</text>')
    return f'<svg xmlns="http://www.w3.org/2000/svg" width="760" height="{height}" font-family="sans-serif" font-size="13">\n' + "\n".join(parts) + "\n</svg>\n"


def row(name, figure, beside="", ratio=""):
    print(f"| {name} | {figure} | {beside} | {ratio} |", flush=True)


def main():
    parser = argparse.ArgumentParser(description=__doc__, formatter_class=argparse.RawDescriptionHelpFormatter)
    parser.add_argument("--program")
    parser.add_argument("--mirror")
    parser.add_argument("--show", nargs="+", default=[])
    parser.add_argument("--folder")
    parser.add_argument("--before")
    parser.add_argument("--seconds", type=float, default=1.0)
    parser.add_argument("--svg")
    parser.add_argument("--full", action="store_true")
    words = parser.parse_args()
    if words.program is None:
        mungi(str(TOP / "mungi"), ["x", "dry", "16", SEED, "0"])
        words.program = str(TOP / "crates/mungi/out/mungi")
    program = os.path.abspath(words.program)
    if words.mirror is None and (TOP / "crates/mungi_dev/out/mungi_dev").exists():
        words.mirror = str(TOP / "crates/mungi_dev/out/mungi_dev")
    if not words.show and (TOP / "crates/mungi_show/out/mungi_show").exists():
        words.show = [str(TOP / "crates/mungi_show/out/mungi_show")]
    if words.full:
        with tempfile.TemporaryDirectory(dir=words.folder) as folder:
            measure_full(program, words.mirror, words.show, folder)
        return
    print(f"SQLite {sqlite3.sqlite_version}, WAL, synchronous FULL; {words.seconds} seconds or more a rate\n")
    row("what", "mungi", "beside it", "ratio")
    row("---", "---", "---", "---")
    ratios = {}
    with tempfile.TemporaryDirectory(dir=words.folder) as folder:
        volume, floor = folder + "/vol", floor_of(folder)
        for batch in (1, 64):
            for pages in PAGES:
                name = f"durable stores a second, {batch} to a commit, {pages:,} pages"
                runs = [stores(program, volume, pages, batch, folder), sqlite_updates(folder + "/base", pages, batch)]
                if floor:
                    runs += [floor_stores(floor, volume, pages, batch), floor_stores(floor, volume, pages, batch, KEPT)]
                ours, theirs, *floors = rates(runs, words.seconds)
                ratios[(batch, pages)] = (ours / floors[0] if floor else None, ours / theirs)
                for calls, rate in zip(("floor", "floor with its reads"), floors):
                    row(name, f"{ours:,.0f}", f"{calls} {rate:,.0f}", f"{ours / rate:.2f}")
                row(name, f"{ours:,.0f}", f"SQLite {theirs:,.0f}", f"{ours / theirs:.2f}")
        opening, reading = least([program, volume, "run"]), least(["cat", volume])
        row(f"opening a volume of {os.stat(volume).st_size >> 20} MB", f"{1000 * opening:.1f} ms", f"`cat` of it {1000 * reading:.1f} ms", f"{opening / reading:.1f}")
        if shutil.which("strace"):
            base = volume_with(program, volume, 1)
            writes, syncs = disk_calls(program, volume, [f"1 store {base + 8 * (i % 512)} {i}" for i in range(800)])
            row("writes a commit, of 800 of one store", f"{writes / 800:.2f}")
            row("syncs a commit, of 800 of one store", f"{syncs / 800:.2f}")
        else:
            print("strace is not there: no counts of calls", file=sys.stderr)
    with tempfile.TemporaryDirectory(dir=words.folder) as folder:
        measure_millions(program, words.before and os.path.abspath(words.before), folder)
    if shutil.which("valgrind"):
        measure_instructions(program)
    else:
        print("valgrind is not there: no counts of instructions", file=sys.stderr)
    if words.svg:
        Path(words.svg).write_text(picture(ratios))


if __name__ == "__main__":
    main()
