#!/usr/bin/env python3
"""Runs mungi on real files as a hostile machine or user may, and prints a line for each case.

    trials/hostile.py files            files, folders, modes, limits, streams, two runs at once, two files, migrations
    trials/hostile.py kill [RUNS]      runs that are killed at random moments, 100 of them
    trials/hostile.py restart [IMAGES] runs that are killed, the next run on the same file, and what a loss of power then leaves:
                                        1,000 images, which takes strace
    trials/hostile.py memory           each allocation refused in turn, which takes a C compiler

--program names the program; without it that of the script mungi is used. The cases of a volume in two files use the program that the variable
MUNGI_DEV names, or else that of the script mungi_dev. No input is read. A line begins with 'ok', with 'not tried' and the reason, or with
'FAILED'; the status is 0 if no line is FAILED. docs/HOSTILE.md says what each case shows.
"""
import argparse
import fcntl
import os
import random
import re
import resource
import shutil
import signal
import subprocess
import sys
import tempfile
import time
from concurrent.futures import ThreadPoolExecutor
from pathlib import Path

from version1 import version1

TOP = Path(__file__).resolve().parent.parent
SEED = "0" * 64
ROOT = 0x100000000
FORMATTED = b"ok 0x0000000100000000 0x903df1a0ade0b876 0x28bd8653e56a5d40\n"
FRESH = b"ok 64 1 1 1 1 0 1000\n"
failed = 0


def tell(good, case, note=""):
    global failed
    failed += not good
    print(("ok          " if good else "FAILED      ") + case + (": " + note if note else ""), flush=True)


def not_tried(case, why):
    print("not tried   " + case + ": " + why, flush=True)


class Ended:
    """A run that ended: its status, what it printed, how many bytes of its input it took, and what it said on standard error."""

    def __init__(self, status, put, took, said):
        self.status, self.put, self.took, self.said = status, put, took, said

    def __str__(self):
        return f"status {self.status}, put {self.put[:60]!r}, took {self.took}, said {self.said[:120]!r}"


def run(words, lines=b"", stdout=None, **more):
    """Runs the program on these words and this input, which is a file, so that what it took can be told."""
    with tempfile.TemporaryFile() as source, tempfile.TemporaryFile() as sink:
        source.write(lines)
        source.flush()
        source.seek(0)
        done = subprocess.run([PROGRAM, *words], stdin=source, stdout=sink if stdout is None else stdout, stderr=subprocess.PIPE, **more)
        took = os.lseek(source.fileno(), 0, os.SEEK_CUR)
        sink.seek(0)
        return Ended(done.returncode, sink.read(), took, done.stderr)


def as_nobody():
    """What runs a command as somebody who may write no file here, or None where that somebody can't run the program."""
    more = {"user": 65534} if os.geteuid() == 0 else {}
    try:
        subprocess.run([PROGRAM], stdin=subprocess.DEVNULL, capture_output=True, **more)
    except OSError:
        return None
    return more


def stores(first, count):
    """Lines that store their own number, each at the word of its number modulo 400 after the root's 8th."""
    return "".join(f"1 store {ROOT + 64 + 8 * (i % 400)} {i}\n" for i in range(first, first + count)).encode()


def held(volume, first, last):
    """The number k for which the volume holds the stores up to k and no more, or None where it holds no such prefix."""
    ask = "".join(f"1 load {ROOT + 64 + 8 * w}\n" for w in range(400)).encode()
    ended = run([volume, "run", "64"], ask)
    if ended.status != 0:
        return None
    words = [int(line.split()[1], 16) for line in ended.put.splitlines()]
    k = max(words)
    for w in range(400):
        newest = k - (k - w) % 400
        if words[w] != (newest if newest >= first else 0):
            return None
    return k if k <= last else None


def fresh(folder, name="vol"):
    path = str(Path(folder) / name)
    ended = run([path, "format", "64", SEED, "1000"])
    if (ended.status, ended.put) != (0, FORMATTED):
        sys.exit(f"hostile: {PROGRAM} makes no volume: {ended}")
    return path


def answered(ended):
    return ended.put.count(b"\n")


def keeps(volume, ended, count):
    """Whether all answers are ok, and the volume holds the stores 1 to k: at least those answered, at most all."""
    k = held(volume, 1, count)
    return ended.put == b"ok\n" * answered(ended) and k is not None and answered(ended) <= k


def untouched(ended, status):
    return (ended.status, ended.put, ended.took) == (status, b"", 0)


def told(ended, path, what):
    """Whether nothing was done, at status 4, and one line on standard error says of which file and why."""
    line = f"mungi: {path}: {what}".encode()
    return untouched(ended, 4) and ended.said.startswith(line) and ended.said.count(b"\n") == 1


# Files

def file_cases(folder):
    lines = stores(1, 600)

    ended = run([folder, "run"], lines)
    tell(told(ended, folder, "Is a directory"), "the volume is a folder", str(ended))
    ended = run([folder + "/none/vol", "run"], lines)
    tell(told(ended, folder + "/none/vol", "No such file or directory"), "the folder of the volume is missing", str(ended))

    path = folder + "/nothing"
    ended = run([path, "check"])
    tell((ended.status, ended.put, os.path.exists(path)) == (2, b"open not\n", False), "check without a file", str(ended))

    path = folder + "/new"
    ended = run([path, "run"], lines)
    tell((ended.status, ended.put, ended.took) == (2, b"open not\n", 0), "there is no file", str(ended))

    for blocks, put in ((0, b"open not\n"), (1, b"open not\n"), (1300, b"open damaged\n")):
        volume = fresh(folder, f"cut{blocks}")
        os.truncate(volume, 4096 * blocks)
        before = Path(volume).read_bytes()
        ended = run([volume, "run"], lines)
        same = Path(volume).read_bytes() == before
        tell((ended.status, ended.put, ended.took, same) == (2, put, 0, True), f"the file is cut to {blocks} blocks", str(ended))

    # The journal may hold the newest words, so a run on no lines writes them home before the file is cut.
    for blocks, where in ((2000, "before its frame table"), (2596, "before its first frame"), (2659, "a block before its last frame")):
        volume = fresh(folder, f"short{blocks}")
        run([volume, "run"])
        os.truncate(volume, 4096 * blocks)
        ended = run([volume, "check"])
        good = ended.status == 0 and ended.put.startswith(b"ok 64 ") and b"cut short" in ended.said
        tell(good, f"check of a file that ends {where}", str(ended))
        done = script("backup", volume, volume + ".copy")
        tell(done.returncode == 1 and b"cut short" in done.stderr and not os.path.exists(volume + ".copy"), f"backup of a file that ends {where}", said(done))
    backup_cases(folder)

    path = folder + "/fifo"
    os.mkfifo(path)
    for command in (["run"], ["check"], ["format", "64", SEED, "1000"]):
        case = f"{command[0]} of a fifo"
        try:
            ended = run([path, *command], lines, timeout=10)
        except subprocess.TimeoutExpired:
            tell(False, case, "it waits")
            continue
        tell(told(ended, path, ""), case, str(ended))

    path = folder + "/empty"
    Path(path).touch(0o640)
    for command in ("run", "check"):
        ended = run([path, command], lines)
        good = (ended.status, ended.put, ended.took, os.path.getsize(path)) == (2, b"open not\n", 0, 0)
        tell(good, f"{command} of an empty file", str(ended))
    ended = run([path, "format", "64", SEED, "1000"])
    good = (ended.status, ended.put, run([path, "check"]).put, mode_of(path)) == (0, FORMATTED, FRESH, 0o640)
    tell(good, "format of an empty file", f"{ended}, mode {mode_of(path):o}")

    volume = fresh(folder, "readonly")
    os.chmod(volume, 0o444)
    os.chmod(folder, 0o755)
    nobody = as_nobody()
    if nobody is None:
        not_tried("the file may not be written", "the program can't be run by the user nobody")
        return
    ended = run([volume, "run"], lines, **nobody)
    tell(told(ended, volume, "Permission denied"), "the file may not be written", str(ended))
    ended = run([volume, "check"], **nobody)
    tell((ended.status, ended.put) == (0, FRESH), "check of a file that may not be written", str(ended))


def script(name, *words):
    """Runs a script of this folder with the program."""
    return subprocess.run([str(TOP / "scripts" / name), *words], capture_output=True, env=dict(os.environ, MUNGI=PROGRAM))


def said(done):
    return f"status {done.returncode}, said {done.stderr.decode(errors='backslashreplace').strip()!r}"


def mode_of(path):
    return os.stat(path).st_mode & 0o777


def backup_cases(folder):
    """A volume is copied whole, and the copy is told to be cut when it is."""
    volume, copy = fresh(folder, "whole"), folder + "/whole.copy"
    os.chmod(volume, 0o640)
    done = script("backup", volume, copy)
    good = done.returncode == 0 and done.stdout == FRESH and mode_of(copy) == 0o640 and script("backup", "--verify", copy).returncode == 0
    tell(good and Path(copy).read_bytes() == Path(volume).read_bytes(), "backup of a whole file, and its --verify", said(done))
    if not good:
        return
    os.truncate(copy, 4096 * 2659)
    done = script("backup", "--verify", copy)
    tell(done.returncode == 1, "--verify of a copy that was cut", said(done))
    digest = subprocess.run(["sha256sum"], stdin=open(copy, "rb"), capture_output=True).stdout.split()[0].decode()
    Path(copy + ".sha256").write_text(f"{digest}  whole.copy\n")
    done = script("backup", "--verify", copy)
    tell(done.returncode == 1 and b"cut short" in done.stderr, "--verify of a cut copy whose sum fits", said(done))


def mode_cases(folder):
    """Who reads a volume has every password: a new file is for its owner alone, or for those who might read what it copies."""
    before = os.umask(0)
    try:
        volume = fresh(folder, "mode")
        tell(mode_of(volume) == 0o600, "format makes a file for its owner alone", f"mode {mode_of(volume):o}")
        os.chmod(volume, 0o644)
        fresh(folder, "mode")
        tell(mode_of(volume) == 0o644, "format of a file that is there keeps its mode", f"mode {mode_of(volume):o}")
        assert run([volume, "run"]).status == 0
        old, new = version1(volume, folder + "/mode.old"), folder + "/mode.new"
        os.chmod(old, 0o640)
        ended = run([new, "migrate", old])
        tell(ended.status == 0 and mode_of(new) == 0o640, "migrate makes a file with the mode of OLD", f"{ended}, mode {mode_of(new) if os.path.exists(new) else 0:o}")
    finally:
        os.umask(before)


def mirror_cases(folder):
    """A volume in two files: which files are taken."""
    program = os.environ.get("MUNGI_DEV", str(TOP / "mungi_dev"))
    if "MUNGI_DEV" not in os.environ and not (TOP / "crates/mungi_dev/out/mungi_dev").is_file():
        not_tried("a volume in two files", "mungi_dev is not built")
        return

    def mirrored(*words):
        return subprocess.run([program, *words], cwd=folder, stdin=subprocess.DEVNULL, capture_output=True)

    volume = Path(fresh(folder, "side"))
    before = volume.read_bytes()
    os.symlink("side", folder + "/side.link")
    os.link(volume, folder + "/side.hard")
    for other in ("./side", "side.link", "side.hard"):
        for side, words in (("left", ("side", "mirror", other, "left")), ("right", (other, "mirror", "side", "right"))):
            done = mirrored(*words)
            # The script refuses; the program says so, and continues with one side, since the lock on the file keeps the other out.
            good = b"one file" in done.stderr and volume.read_bytes() == before
            good = good and ("MUNGI_DEV" in os.environ or (done.returncode, done.stdout) == (1, b""))
            tell(good, f"a mirror whose two files are one, {other}, from {side}", said(done))
    if "MUNGI_DEV" in os.environ:
        not_tried("a mirror over a file that is no volume", "the script mungi_dev refuses it, and not the program")
    else:
        text = Path(folder) / "text"
        text.write_bytes(b"no volume\n")
        for words in (("side", "mirror", "text", "left"), ("text", "mirror", "side", "right")):
            done = mirrored(*words)
            good = done.returncode == 1 and done.stdout == b"" and b"--overwrite" in done.stderr and text.read_bytes() == b"no volume\n"
            tell(good, f"a mirror over a file that is no volume, from {words[3]}", said(done))
    volume.chmod(0o640)
    umask = os.umask(0)
    done = mirrored("side", "mirror", "side.copy", "left")
    os.umask(umask)
    good = done.returncode == 0 and mode_of(folder + "/side.copy") == 0o640 and run([folder + "/side.copy", "check"]).put == FRESH
    tell(good, "a mirror makes a file with the mode of the file that it copies", said(done))


def maker_cases(folder):
    def made(*words):
        return script("new_volume", *words)

    path = folder + "/made"
    done = made(path, "64", "1000")
    mode = os.stat(path).st_mode & 0o777 if os.path.exists(path) else None
    tell(done.returncode == 0 and mode == 0o600 and run([path, "check"]).put == FRESH, "new_volume makes a volume", f"mode {mode and oct(mode)}")
    before = Path(path).read_bytes()
    done = made(path, "64", "1000")
    good = done.returncode == 1 and b"is there already" in done.stderr and Path(path).read_bytes() == before
    tell(good, "new_volume over a file", done.stderr.decode().strip())
    done = made(folder + "/no_folder/made", "64", "1000")
    good = done.returncode == 1 and b"can't be made" in done.stderr
    tell(good, "new_volume in a folder that is not there", done.stderr.decode().strip())
    done = made(folder + "/few", "15", "1000")
    tell(done.returncode == 1 and not os.path.exists(folder + "/few"), "new_volume with words that format refuses", f"status {done.returncode}")


def guard_cases(folder):
    """Slips that would cost what a file holds: a command over it through the scripts' guard, and a copy over it."""
    text, volume = Path(folder) / "diary", Path(fresh(folder, "kept"))
    copy = folder + "/kept.copy"
    assert run([str(volume), "run"], b"1 load 0x100000000\n").status == 0
    tell(script("backup", str(volume), copy).returncode == 0, "a copy is made before a slip")
    # The slip that no call undoes: thread 1's own entry is stored over.
    ended = run([str(volume), "run"], b"1 store 0x100000010 7\n1 load 0x100000000\n")
    tell(ended.put == b"ok\nno Denied\n", "a wrong store into the root's first page locks thread 1 out", str(ended))
    old = version1_of(folder)
    for path in (text, volume):
        for command in (["format", "64", SEED, "1000"], ["migrate", old]):
            for words, status in ((command, 1), (["--overwrite", *command], 0)):
                if path == text:
                    text.write_bytes(b"what may not be lost\n")
                path.chmod(0o644)
                before = path.read_bytes()
                overwrites = words[0] == "--overwrite"
                if overwrites and path == volume:
                    continue
                given = ["--overwrite", str(path), *command] if overwrites else [str(path), *command]
                done = script("guard", "mungi", PROGRAM, *given)
                good = done.returncode == status and (overwrites or path.read_bytes() == before and b"--overwrite" in done.stderr)
                good = good and mode_of(path) == (0o600 if overwrites else 0o644)
                tell(good, f"{command[0]} over {'a text' if path == text else 'a volume'}" + (" with --overwrite" if overwrites else ""), said(done))
    done = script("guard", "mungi", PROGRAM, folder + "/slip", "run")
    good = (done.returncode, done.stdout, os.path.exists(folder + "/slip")) == (2, b"open not\n", False)
    tell(good, "run on a file that is not there, through the scripts, makes no file", said(done))
    before = volume.read_bytes()
    done = script("restore", copy, str(volume))
    tell(done.returncode == 1 and volume.read_bytes() == before, "restore over a volume without --overwrite", said(done))
    with open(volume, "rb") as reader:
        fcntl.flock(reader, fcntl.LOCK_SH)
        done = script("restore", "--overwrite", copy, str(volume))
    tell(done.returncode == 1 and b"another run holds" in done.stderr and volume.read_bytes() == before, "restore while somebody has the volume", said(done))
    done = script("restore", "--overwrite", copy, str(volume))
    ended = run([str(volume), "run"], b"1 load 0x100000000\n")
    good = done.returncode == 0 and ended.put == b"ok 0x0000000000000001\n" and mode_of(volume) == 0o600
    tell(good, "restore brings the volume back", f"{said(done)}; {ended}")


def version1_of(folder):
    """A volume of version 1."""
    volume = fresh(folder, "newer")
    assert run([volume, "run"]).status == 0
    return version1(volume, folder + "/older")


def limit_cases(folder):
    def limited(size):
        return lambda: resource.setrlimit(resource.RLIMIT_FSIZE, (size, size))

    path = folder + "/limited"
    ended = run([path, "format", "64", SEED, "1000"], restore_signals=False, preexec_fn=limited(1 << 20))
    again = run([path, "check"])
    tell((ended.status, ended.put, again.put) == (4, b"", b"open not\n"), "format under a limit of file size", f"{ended}; then {again}")

    for blocks in (20, 200, 1300, 2595):
        for stopped in (False, True):
            volume = fresh(folder, f"limited{blocks}{stopped}")
            ended = run([volume, "run", "8"], stores(1, 600), restore_signals=stopped, preexec_fn=limited(4096 * blocks))
            want = (-signal.SIGXFSZ, 0) if stopped else (4, 0)
            good = ended.status in want and keeps(volume, ended, 600)
            tell(good, f"run under a limit of {blocks} blocks" + (", killed by it" if stopped else ""), f"status {ended.status}, {answered(ended)} answers")


def full_cases(folder):
    place = folder + "/small"
    os.mkdir(place)
    mount = subprocess.run(["mount", "-t", "tmpfs", "-o", "size=12m", "none", place], stderr=subprocess.PIPE)
    if mount.returncode != 0:
        not_tried("a full file system", mount.stderr.decode().strip())
        return
    try:
        volume = fresh(place)
        for free in (0, 1, 5, 20):
            filler = Path(place) / "filler"
            with open(filler, "wb", buffering=0) as f:
                try:
                    while f.write(bytes(4096)) == 4096:
                        pass
                except OSError:
                    pass
            os.truncate(filler, max(0, os.stat(filler).st_size - 4096 * free))
            ended = run([volume, "run", "8"], stores(1, 600))
            status = ended.status
            filler.unlink()
            tell(status in (0, 4) and keeps(volume, ended, 600), f"a file system with {free} blocks free", f"status {status}, {answered(ended)} answers")
            Path(volume).unlink()
            volume = fresh(place)
        Path(volume).unlink()
        with open(Path(place) / "filler", "wb") as f:
            f.write(bytes(8 << 20))
        ended = run([place + "/vol", "format", "64", SEED, "1000"])
        tell((ended.status, ended.put) == (4, b""), "format on a full file system", str(ended))
    finally:
        subprocess.run(["umount", place])


def stream_cases(folder):
    volume = fresh(folder, "streams")
    with open("/dev/full", "wb") as full:
        ended = run([volume, "run", "8"], stores(1, 600), stdout=full)
    k = held(volume, 1, 600)
    tell(ended.status == 6 and k is not None and k <= 8, "standard output is full", f"status {ended.status}, {k} lines held")

    volume = fresh(folder, "closed")
    ended = run([volume, "run", "8"], stores(1, 600), preexec_fn=lambda: os.close(1))
    k = held(volume, 1, 600)
    tell(ended.status in (0, 6) and k is not None and (ended.status == 0) == (k == 600), "standard output is closed", f"status {ended.status}, {k} lines held")

    volume = fresh(folder, "broken")
    reader, writer = os.pipe()
    os.close(reader)
    with os.fdopen(writer, "wb") as broken:
        ended = run([volume, "run", "8"], stores(1, 600), stdout=broken, restore_signals=False)
    k = held(volume, 1, 600)
    tell(ended.status == 6 and k is not None and k <= 8, "nobody reads standard output", f"status {ended.status}, {k} lines held")

    volume = fresh(folder, "unread")
    ended = run([volume, "run", "8"], stores(1, 600), preexec_fn=lambda: os.close(0))
    tell(ended.status in (0, 5) and ended.put == b"", "standard input is closed", str(ended))

    there = os.open(folder, os.O_RDONLY)
    done = subprocess.run([PROGRAM, volume, "run"], stdin=there, stdout=subprocess.PIPE, stderr=subprocess.PIPE)
    os.close(there)
    tell((done.returncode, done.stdout) == (5, b""), "standard input is a folder", f"status {done.returncode}")


def two_cases(folder):
    volume = fresh(folder, "two")
    first = subprocess.Popen([PROGRAM, volume, "run"], stdin=subprocess.PIPE, stdout=subprocess.PIPE)
    first.stdin.write(stores(1, 1))
    first.stdin.flush()
    assert first.stdout.readline() == b"ok\n"
    for command in (["run"], ["check"], ["format", "64", SEED, "1000"]):
        ended = run([volume, *command], stores(1, 600))
        tell(told(ended, volume, "another run holds it, and has for 0.3 s"), f"{command[0]} while another run has the file", str(ended))
    os.symlink(volume, folder + "/other")
    ended = run([folder + "/other", "run"], stores(1, 600))
    tell(untouched(ended, 4), "run by another name while another run has the file", str(ended))
    first.stdin.write(stores(2, 1))
    first.stdin.flush()
    good = first.stdout.readline() == b"ok\n"
    first.stdin.close()
    good = good and first.wait() == 0
    ended = run([volume, "check"])
    tell(good and held(volume, 1, 2) == 2 and ended.status == 0, "the first run continues, and its file is free afterwards", str(ended))
    with open(volume, "rb") as reader:
        fcntl.flock(reader, fcntl.LOCK_SH)
        ended, other = run([volume, "check"]), run([volume, "run"], stores(1, 600))
    tell(ended.status == 0 and told(other, volume, "another run holds it, and has for 0.3 s"), "check, and run, while somebody reads the file", f"{ended}; {other}")


# Migration

def migrate_cases(folder):
    volume = fresh(folder, "today")
    # The second run writes home what the journal of the first one holds, whose places are today's.
    assert run([volume, "run", "64"], stores(1, 300)).status == run([volume, "run"]).status == 0
    old, new = version1(volume, folder + "/old"), folder + "/migrated"
    before = Path(old).read_bytes()

    os.chmod(old, 0o444)
    os.chmod(folder, 0o777)
    nobody = as_nobody()
    if nobody is None:
        not_tried("a volume of version 1 in a file that may not be written", "the program can't be run by the user nobody")
    else:
        ended = run([new, "migrate", old], **nobody)
        good = (ended.status, ended.put, Path(old).read_bytes() == before) == (0, FRESH, True)
        tell(good and held(new, 1, 300) == 300, "a volume of version 1 in a file that may not be written is migrated", str(ended))

    ended = run([old, "check"])
    tell((ended.status, ended.put, b"migrate" in ended.said) == (2, b"open old\n", True), "check of a volume of version 1", str(ended))

    ended, none = run([folder + "/no1", "migrate", folder + "/no2"]), (folder + "/no1", folder + "/no2")
    good = (ended.status, ended.put) == (2, b"open not\n")
    tell(good and not any(map(os.path.exists, none)), "OLD is missing", str(ended))

    os.symlink(old, folder + "/alias")
    ended = run([folder + "/alias", "migrate", old])
    tell(untouched(ended, 4) and Path(old).read_bytes() == before, "VOLUME is another name of OLD", str(ended))

    ended = run([folder + "/no1", "migrate", volume])
    tell((ended.status, ended.put, os.path.exists(folder + "/no1")) == (2, b"open new\n", False), "OLD is of today's version", str(ended))

    limit = lambda: resource.setrlimit(resource.RLIMIT_FSIZE, (4096 * 2000, 4096 * 2000))
    ended = run([folder + "/limited", "migrate", old], restore_signals=False, preexec_fn=limit)
    again = run([folder + "/limited", "check"])
    tell((ended.status, ended.put, again.put) == (4, b"", b"open not\n"), "migrate under a limit of file size", f"{ended}; then {again}")

    chance, left = random.Random(1), {}
    for number in range(40):
        path = folder + f"/killed{number}"
        process = subprocess.Popen([PROGRAM, path, "migrate", old], stdin=subprocess.DEVNULL, stdout=subprocess.DEVNULL)
        time.sleep(chance.uniform(0, 0.08))
        process.send_signal(signal.SIGKILL)
        process.wait()
        put = run([path, "check"]).put
        if put == FRESH and held(path, 1, 300) != 300:
            put = b"words are lost"
        left[put] = left.get(put, 0) + 1
        Path(path).unlink(missing_ok=True)
    if set(left) == {b"open not\n"}:
        not_tried("40 kills of a migration", "none had copied the volume when it was killed")
        return
    tell(set(left) <= {b"open not\n", FRESH} and Path(old).read_bytes() == before, "40 kills of a migration", str(left))


# Stops

def kill_cases(folder, runs):
    chance = random.Random(1)
    counts, lost = [], 0
    for number in range(runs):
        volume = fresh(folder, "killed")
        first = 1
        for part in range(3):
            batch = chance.choice(("1", "8", "64"))
            with open(folder + "/in", "wb") as source:
                source.write(stores(first, 20000))
            with open(folder + "/in", "rb") as source, open(folder + "/out", "wb") as sink:
                process = subprocess.Popen([PROGRAM, volume, "run", batch], stdin=source, stdout=sink)
                time.sleep(chance.uniform(0, 0.05))
                process.send_signal(signal.SIGKILL)
                process.wait()
            put = Path(folder + "/out").read_bytes()
            answers = put.count(b"\n")
            k = held(volume, 1, first + 20000 - 1)
            if first == 1 and k is None and answers == 0:
                k = 0
            if put != b"ok\n" * answers or k is None or k < first - 1 + answers:
                lost += 1
                print(f"            run {number}, part {part}: batch {batch}, {answers} answers after {first - 1}, held {k}", flush=True)
                break
            counts.append(answers)
            first = k + 1
    case = f"{len(counts)} kills of {runs} volumes"
    if lost == 0 and sum(counts) == 0:
        not_tried(case, "no run had answered a line when it was killed")
        return
    tell(lost == 0, case, f"{min(counts, default=0)} to {max(counts, default=0)} answers before a kill, {lost} lost")


# A run after one that was killed, and a loss of power then

BLOCK = 4096
OBJECT = 0x100001000
PASSWORD = "0x28bd8653e56a5d40"
# Makes an object of three pages and gives the root access to it.
SETUP = (f"1 create 3 1 {PASSWORD}\n1 store 0x100000020 {OBJECT}\n1 store 0x100000028 0x1aed8da0b819d2bd\n1 store 0x100000000 2\n").encode()
# Shows what the lines below change.
ASK = ("".join(f"1 load {OBJECT + 4096 * page + 8 * word}\n" for page in range(3) for word in range(5)) + f"1 balance 1 {PASSWORD}\nrent\n").encode()
MOST_LINES = 140


def changes(first, count):
    """Lines that change pages, and the period and an account, by turns. No two states after some first ones are the same."""
    lines = []
    for i in range(first, first + count):
        lines.append("rent\n" if i % 4 == 0 else f"1 store {OBJECT + 4096 * (i % 4 - 1) + 8 * (i // 4 % 5)} {i}\n")
    return "".join(lines).encode()


class Cache:
    """The blocks of a file: what a sync made durable, and the forms that each block was given since."""

    def __init__(self, blocks):
        self.durable, self.since = dict(blocks), {}

    def write(self, at, data):
        for i in range(0, len(data), BLOCK):
            self.since.setdefault((at + i) // BLOCK, []).append(data[i:i + BLOCK])

    def sync(self):
        self.durable, self.since = self.newest(), {}

    def newest(self):
        return self.durable | {i: forms[-1] for i, forms in self.since.items()}

    def left(self, chance):
        """The blocks as a loss of power may leave them: each that was written since the last sync is old or new as a whole or by sectors."""
        blocks = dict(self.durable)
        kind = chance.randrange(4)
        for i, forms in self.since.items():
            old = self.durable.get(i, bytes(BLOCK))
            if kind == 3 and chance.randrange(2):
                blocks[i] = b"".join(chance.choice([old, *forms])[at:at + 512] for at in range(0, BLOCK, 512))
            else:
                blocks[i] = chance.choice([old, forms[-1], chance.choice(forms)])
        return blocks


def blocks_of(path):
    """The blocks of a file that are not zeros."""
    data = Path(path).read_bytes()
    whole = ((i // BLOCK, data[i:i + BLOCK]) for i in range(0, len(data), BLOCK))
    return {i: block for i, block in whole if block.count(0) != BLOCK}


def lay(path, blocks, size):
    """Makes a file of these blocks."""
    with open(path, "wb") as file:
        file.truncate(size)
        for i, block in blocks.items():
            os.pwrite(file.fileno(), block, BLOCK * i)


CALL = re.compile(r'(pwrite64|fdatasync|fsync|write)\((\d+)(?:, "((?:\\x[0-9a-f]{2})*)"(?:, (\d+)(?:, (\d+))?)?)?(?:\)\s+= (\d+|\?)| <unfinished)?')


def traced(words, lines, stop=None):
    """Runs the program, and kills it as it begins a call of a kind for the nth time. Returns its status, what it printed, and in their order
    what it did: ('write', place, bytes), ('sync',), ('answers', number). A write that was begun when it was killed is 'cut'."""
    with tempfile.NamedTemporaryFile() as log, tempfile.TemporaryFile() as source, tempfile.TemporaryFile() as sink:
        source.write(lines)
        source.flush()
        source.seek(0)
        kill = ["-e", f"inject={stop[0]}:signal=SIGKILL:when={stop[1]}"] if stop else []
        words = ["strace", "-o", log.name, "-xx", "-s", "1000000", "-e", "trace=pwrite64,fdatasync,fsync,write", *kill, PROGRAM, *words]
        done = subprocess.run(words, stdin=source, stdout=sink, stderr=subprocess.DEVNULL)
        sink.seek(0)
        put, did = sink.read(), []
        for line in log.read().decode().splitlines():
            call = CALL.match(line)
            if call is None:
                continue
            name, file, data, _, at, result = call.groups()
            data = bytes.fromhex(data.replace("\\x", "")) if data else b""
            is_done = result not in (None, "?")
            if name == "pwrite64":
                did.append(("write" if is_done else "cut", int(at), data[:int(result)] if is_done else data))
            elif name in ("fdatasync", "fsync") and result == "0":
                did.append(("sync",))
            elif name == "write" and file == "1" and is_done:
                did.append(("answers", data[:int(result)].count(b"\n")))
        return done.returncode, put, did


class Known:
    """The states after the first k lines, and their answers, as dry gives them."""

    def __init__(self):
        self.answers = run(["x", "dry", "64", SEED, "1000"], SETUP + changes(1, MOST_LINES)).put.splitlines(True)[4:]
        with ThreadPoolExecutor() as pool:
            shown = list(pool.map(self.shown_after, range(MOST_LINES + 1)))
        self.numbers = {text: k for k, text in enumerate(shown)}
        assert len(self.answers) == MOST_LINES and len(self.numbers) == MOST_LINES + 1

    def shown_after(self, k):
        return b"".join(run(["x", "dry", "64", SEED, "1000"], SETUP + changes(1, k) + ASK).put.splitlines(True)[4 + k:])

    def number(self, folder, blocks, size):
        """The k for which these blocks hold the state after the first k lines, or None where it is no such state."""
        with tempfile.NamedTemporaryFile(dir=folder) as image:
            lay(image.name, blocks, size)
            ended = run([image.name, "run", "64"], ASK)
            return self.numbers.get(ended.put) if ended.status == 0 else None

    def begins(self, first, put):
        """Whether these are the first answers of the lines after the first ones."""
        return b"".join(self.answers[first:]).startswith(put)


def apply(cache, step, path):
    if step[0] == "write":
        cache.write(step[1], step[2])
    elif step[0] == "sync":
        cache.sync()
    elif step[0] == "cut":
        # What the kill left of the write is what the file has there.
        with open(path, "rb") as file:
            cache.write(step[1], os.pread(file.fileno(), len(step[2]), step[1]))


def cut_images(cache, did, chance, path, least):
    """Images that a loss of power may leave while something is pending and at the end of a run, with the number of lines that each must hold."""
    answers = 0
    for step in [None, *did, None]:
        if step is not None:
            apply(cache, step, path)
            answers += step[1] if step[0] == "answers" else 0
        for _ in range(min(4, 2 ** len(cache.since)) if cache.since else step is None):
            yield cache.left(chance), least(answers)


def a_kill(chance, batch, count):
    """A call at which a run of these lines is killed: half of the times the sync of a gate that was just written, and else any."""
    commits = -(-count // int(batch))
    if chance.randrange(2):
        # The syncs of the opening, and then of the bodies and the gate of each commit. A ninth commit has those of a checkpoint too.
        return "fdatasync", 1 + 2 * chance.randint(1, min(commits, 8))
    return chance.choice(("pwrite64", "fdatasync", "write")), chance.randint(1, 2 * commits + 10 * (commits // 9) + 1)


def restarted(folder, chance, known, start, size):
    """A run that is killed and one after it: images, each with the number of lines that it must hold, and what is wrong with the runs."""
    with tempfile.NamedTemporaryFile(dir=folder) as volume:
        path, cache = volume.name, Cache(start)
        lay(path, start, size)
        batch, again = chance.choice(("1", "8", "64")), chance.choice(("1", "8", "64"))
        count = chance.randint(1, {"1": 20, "8": 80, "64": 100}[batch])
        stop = a_kill(chance, batch, count)
        status, put, did = traced([path, "run", batch], changes(1, count), stop)
        first = put.count(b"\n")
        images = list(cut_images(cache, did, chance, path, lambda answers: answers))
        found = blocks_of(path)
        kept = known.number(folder, found, size)
        is_traced = found == {i: block for i, block in cache.newest().items() if block.count(0) != BLOCK}
        if status not in (0, -signal.SIGKILL) or not known.begins(0, put) or kept is None or kept < first or not is_traced:
            return images, f"batch {batch}, killed at {stop}: status {status}, {first} answers, kept {kept}, traced {is_traced}"
        status, put, did = traced([path, "run", again], changes(kept + 1, chance.choice((0, 0, 3, 12))))
        images += cut_images(cache, did, chance, path, lambda answers: kept + answers if answers else first)
        good = status == 0 and known.begins(kept, put)
        return images, None if good else f"batch {again}, after a kill at {stop}: status {status}, {put.count(b'ok')} answers"


def restart_cases(folder, wanted):
    if shutil.which("strace") is None:
        not_tried("a loss of power after a kill", "there is no strace")
        return
    volume, chance = fresh(folder, "start"), random.Random(1)
    assert run([volume, "run"], SETUP).put.count(b"ok") == 4 and run([volume, "run"]).status == 0
    known, start, size = Known(), blocks_of(volume), os.path.getsize(volume)
    images, wrong, pairs, bad = 0, 0, 0, 0

    def judge(image):
        k = known.number(folder, image[0], size)
        return k, k is not None and image[1] <= k

    with ThreadPoolExecutor() as pool:
        while images < wanted:
            seeds = [chance.getrandbits(64) for _ in range(16)]
            for left, fault in pool.map(lambda seed: restarted(folder, random.Random(seed), known, start, size), seeds):
                pairs += 1
                if fault is not None:
                    bad += 1
                    print(f"            pair {pairs}: {fault}", flush=True)
                judged = list(pool.map(judge, left))
                images += len(judged)
                wrong += sum(not good for _, good in judged)
                for (_, least), (k, good) in zip(left, judged):
                    if not good:
                        print(f"            pair {pairs}: at least {least} lines must be held, held {k}", flush=True)
                        break
    tell(wrong == bad == 0, f"{images} losses of power in {pairs} pairs of runs", f"{wrong} images and {bad} runs wrong")


# Memory

SHIM = r"""
#define _GNU_SOURCE
#include <dlfcn.h>
#include <errno.h>
#include <stdlib.h>
#define REAL(name) static __typeof__(name) *real; if (!real) real = (__typeof__(name) *)dlsym(RTLD_NEXT, #name)
static int refuse(void) {
    static long count, refused = -1;
    if (refused < 0) { const char *s = getenv("REFUSED"); refused = s ? atol(s) : 0; }
    return ++count == refused;
}
void *malloc(size_t n) { REAL(malloc); return refuse() ? NULL : real(n); }
void *calloc(size_t k, size_t n) { REAL(calloc); return refuse() ? NULL : real(k, n); }
void *realloc(void *p, size_t n) { REAL(realloc); return refuse() ? NULL : real(p, n); }
void *aligned_alloc(size_t a, size_t n) { REAL(aligned_alloc); return refuse() ? NULL : real(a, n); }
int posix_memalign(void **p, size_t a, size_t n) { REAL(posix_memalign); return refuse() ? ENOMEM : real(p, a, n); }
"""


def memory_cases(folder):
    compiler = shutil.which("cc") or shutil.which("gcc") or shutil.which("clang")
    if compiler is None:
        not_tried("allocations refused", "there is no C compiler")
        return
    source, shim = folder + "/shim.c", folder + "/shim.so"
    Path(source).write_text(SHIM)
    subprocess.run([compiler, "-O1", "-shared", "-fPIC", "-o", shim, source, "-ldl"], check=True)
    for command, lines in ((["run"], stores(1, 20)), (["run", "64"], stores(1, 200)), (["dry", "64", SEED, "1000"], stores(1, 200)),
                           (["check"], b""), (["format", "64", SEED, "1000"], b""), (["gen", "7", "300"], b"")):
        refused_cases(folder, shim, command, lines)


def refused_cases(folder, shim, command, lines):
    def one(number):
        volume = fresh(folder, "memory")
        environment = dict(os.environ, LD_PRELOAD=shim, REFUSED=str(number))
        return run([volume, *command], lines, env=environment), volume

    ample, _ = one(1 << 40)
    statuses, wrong, number, same = {}, 0, 0, 0
    while same < 40 and number < 5000:
        number += 1
        ended, volume = one(number)
        statuses[ended.status] = statuses.get(ended.status, 0) + 1
        if (ended.status, ended.put) == (ample.status, ample.put):
            same += 1
            continue
        same = 0
        if not (ended.status in (3, 9) and ended.put == b"" and ended.took == 0 and run([volume, "check"]).put == FRESH):
            wrong += 1
            print(f"            allocation {number}: {ended}", flush=True)
    case = "each allocation refused under " + " ".join(command[:2])
    if wrong == 0 and not statuses.keys() & {3, 9}:
        # (a program that is linked with no shared C library, say, never calls what would refuse)
        not_tried(case, "no allocation was refused")
        return
    tell(wrong == 0 and ample.status == 0, case, f"{number} tried, statuses {statuses}")


def main():
    global PROGRAM
    parser = argparse.ArgumentParser(description=__doc__, formatter_class=argparse.RawDescriptionHelpFormatter)
    parser.add_argument("kind", choices=("files", "kill", "restart", "memory"))
    parser.add_argument("runs", nargs="?", type=int)
    parser.add_argument("--program")
    words = parser.parse_args()
    if words.program is None:
        if subprocess.run([str(TOP / "mungi"), "x", "dry", "16", SEED, "0"], stdin=subprocess.DEVNULL).returncode != 0:
            sys.exit("hostile: the script mungi builds no program")
        words.program = str(TOP / "crates/mungi/out/mungi")
    PROGRAM = os.path.abspath(words.program)
    if not os.path.isfile(PROGRAM) or not os.access(PROGRAM, os.X_OK):
        sys.exit(f"hostile: {words.program!r} is no program")
    with tempfile.TemporaryDirectory() as folder:
        if words.kind == "files":
            for cases in (file_cases, maker_cases, guard_cases, mode_cases, mirror_cases, limit_cases, full_cases, stream_cases, two_cases, migrate_cases):
                cases(folder)
        elif words.kind == "kill":
            kill_cases(folder, words.runs or 100)
        elif words.kind == "restart":
            restart_cases(folder, words.runs or 1000)
        else:
            memory_cases(folder)
    return 1 if failed else 0


if __name__ == "__main__":
    try:
        sys.exit(main())
    except KeyboardInterrupt:
        sys.exit("hostile: interrupted")
