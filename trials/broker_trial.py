#!/usr/bin/env python3
"""Tries the broker for longer than its tests do.

    trials/broker_trial.py [--program PATH] [--folder FOLDER] [--seconds S] [--kills N] [--fuzz N] [PART ..]

It has to be root, since it connects as eight users and as `nobody`. The parts are these; without a word all are tried.

- right: 100 connections of 8 users send lines for S seconds (60), several at a time: stores and loads of their own words and of others',
  other threads in many spellings, `rent`, `next` and `turn`, comments, and lines that are none. Each reply is compared with what a model
  says that this user may see.
- kills: the program and the broker are killed N times each (50) in the middle of stores and loads of 16 connections. No line that was
  answered may be lost, none may be done that was told as not given, and no reply may come twice.
- power: the volume is on a device that loses what was not flushed (trials/losing_device.py; the packages are those of
  trials/device_faults). The program is killed N times, the broker opens the volume again, and the device loses power in that opening
  or soon after it. No line that was answered may be lost.
- out: another user's thread in 40 spellings, N byte strings (10,000), users who aren't named, and the same as `nobody`. All that the
  machine is given is recorded: it must hold no line but those of the sender's thread, and lines that are no call.

It prints a line for each part, and ends with status 1 at the first difference.
"""

import argparse
import collections
import contextlib
import importlib.machinery
import importlib.util
import os
import random
import select
import shutil
import signal
import socket
import sys
import tempfile
import time
from pathlib import Path

CLIENT = Path(__file__).resolve().parents[1] / "clients/python"
sys.path.insert(0, str(CLIENT))

from tests import test_broker  # noqa: E402  (first, since the folder of the tests says where the package is)
import mungi  # noqa: E402
from tests.test_broker import NOBODY, SPELLINGS, Peer, Running, meaning, wild  # noqa: E402

USERS = [62000 + number for number in range(8)]
# A group that one of the users is in, and gets its thread by.
GROUP = 62100
CONNECTIONS = 100
# The words of an object that one connection alone stores to.
WORDS = 512 // (CONNECTIONS // len(USERS) + 1)
# The blocks of the volume, which has 200 frames.
BLOCKS = 2796
# The most lines of a connection that are not answered.
MOST_IN_FLIGHT = 20
PATIENCE = 120


def fail(text):
    raise SystemExit(f"broker_trial: {text}")


def prepare(path, program):
    """A volume in which each user has a thread and an object of its own, and may read the object of the next user: threads and bases."""
    fresh = mungi.new_volume(path, 200, 1 << 40, program=program)
    with mungi.Machine(path, 64, program) as machine:
        root = machine.root(fresh.treasury)
        start = root.create()
        objects = [root.create() for _ in USERS]
        made = []
        for number, own in enumerate(objects):
            used = root.create_list()
            for right in (start.grant("X"), own.grant("RW"), objects[(number + 1) % len(objects)].grant("R")):
                used.add(right)
            made.append((root.new_thread(used, start.base).number, own.base))
    return made


def users_text(made):
    """The file of users. The first may collect rent, the second may turn the threads of others, the third may send `next`."""
    may = ['["rent"]', '["turn"]', '["next"]'] + ["[]"] * 5
    rows = [f"[user.{user}]\nthreads = [{thread}]\nmay = {words}\n" for user, (thread, _), words in zip(USERS, made, may)]
    rows[-1] = rows[-1].replace(f"[user.{USERS[-1]}]", f"[group.{GROUP}]")
    return "\n".join(rows)


class Talker:
    """A connection of the first part: what it sent, and what has to come."""

    def __init__(self, path, index, made, words):
        self.index = index
        self.number = index % len(USERS)
        self.thread, self.base = made[self.number]
        self.made = made
        # What every connection stored last into a word of its own, by what was sent and by what was answered.
        self.sent, self.answered = words
        self.counter = 0
        self.period = 0
        self.peer = Peer(path, USERS[self.number], groups=[GROUP] if self.number == len(USERS) - 1 else [])
        self.peer.socket.setblocking(False)
        self.waiting = collections.deque()
        self.out = b""
        self.replies = 0

    def place(self):
        """A word of its own: its address."""
        return self.base + 8 * (self.index // len(USERS) * WORDS + random.randrange(WORDS))

    def spelled(self):
        """Its thread, somehow."""
        kind = random.random()
        if kind < 0.7:
            return b"%d" % self.thread
        return random.choice((b"0x%x", b"%03d", b" %d", b"\t%d", b"\r%d\t", b"0x%016x")) % self.thread

    def make(self):
        """A line, and a function of its reply that tells what is wrong with it; None where the line has no reply."""
        kind = random.random()
        nxt, far = self.made[(self.number + 1) % len(USERS)], self.made[(self.number + 3) % len(USERS)]
        if kind < 0.35:
            place = self.place()
            self.counter += 1
            value = self.index << 32 | self.counter
            self.sent[place] = value

            def stored(reply):
                if reply != "ok":
                    return "ok"
                self.answered[place] = value
                return None

            return b"%b store %d %d" % (self.spelled(), place, value), stored
        if kind < 0.55:
            place = self.place()
            return b"%b load 0x%x" % (self.spelled(), place), self.just(f"ok 0x{self.sent.get(place, 0):016x}")
        if kind < 0.7:
            place = nxt[1] + 8 * random.randrange(512)
            least = self.answered.get(place, 0)

            def read(reply):
                verdict, _, value = reply.partition(" ")
                if verdict != "ok" or not least <= int(value, 16) <= self.sent.get(place, 0):
                    return f"a value from {least:#x} to {self.sent.get(place, 0):#x}"
                return None

            return b"%b load %d" % (self.spelled(), place), read
        if kind < 0.75:
            return b"%b store %d 1" % (self.spelled(), nxt[1] + 8 * random.randrange(512)), self.just("no Denied")
        if kind < 0.78:
            return b"%b load %d" % (self.spelled(), far[1]), self.just("no Denied")
        if kind < 0.83:
            other = random.choice((nxt, far, (1, mungi.ROOT)))
            return random.choice((b"%d load %d", b"0x%x load %d", b"\t%03d  load\t%d")) % other, self.just("refused Thread")
        if kind < 0.84:
            return b"rent", self.rent if self.number == 0 else self.just("refused Call")
        if kind < 0.85:
            return b"next", self.just("no Idle", "ok ") if self.number == 2 else self.just("refused Call")
        if kind < 0.87:
            return b"%b turn" % self.spelled(), self.just("no NotReady", "ok Stopped")
        if kind < 0.89:
            return b"%d turn" % far[0], self.just("no NotReady", "ok Stopped") if self.number == 1 else self.just("refused Thread")
        if kind < 0.91:
            return b"%b end %d" % (self.spelled(), random.choice(self.made)[0]), self.just("refused Call")
        if kind < 0.93:
            return b"%b load %d" % (self.spelled(), self.base + 4), self.just("no Align")
        if kind < 0.95:
            return random.choice((b"laod", b"x" * 300, b"%d" % self.thread, b"%d next" % self.thread, b"-2 load 8", b"\0")), self.just("no Syntax")
        if kind < 0.97:
            return random.choice((b"", b" \t\r", b"# note", b" #" + b"x" * 100)), None
        return b"%b apdlist" % self.spelled(), self.just("ok 1 ")

    @staticmethod
    def just(*starts):
        """The reply has to be, or to begin with, one of these; one that ends with a blank is a beginning."""

        def is_one(reply):
            return None if any(reply == start or start[-1] == " " and reply.startswith(start) for start in starts) else " or ".join(starts)

        return is_one

    def rent(self, reply):
        words = reply.split()
        if len(words) != 4 or words[0] != "ok" or int(words[1]) <= self.period:
            return f"a period above {self.period}"
        self.period = int(words[1])
        return None

    def write(self, is_last):
        """Sends some more lines."""
        while not is_last and len(self.waiting) < MOST_IN_FLIGHT and random.random() < 0.8:
            line, check = self.make()
            self.out += line + b"\n"
            if check is not None:
                self.waiting.append((line, check))
        if self.out:
            # Lines are cut anywhere, as a socket may cut them.
            part = self.out if random.random() < 0.8 else self.out[: random.randrange(len(self.out)) + 1]
            try:
                self.out = self.out[self.peer.socket.send(part) :]
            except BlockingIOError:
                pass

    def read(self):
        """Compares the replies that are there."""
        data = self.peer.socket.recv(1 << 16)
        if not data:
            fail(f"connection {self.index} was ended")
        *lines, self.peer.rest = (self.peer.rest + data).split(b"\n")
        for reply in lines:
            if not self.waiting:
                fail(f"connection {self.index} got {reply} and had asked nothing")
            line, check = self.waiting.popleft()
            wanted = check(reply.decode())
            if wanted is not None:
                fail(f"user {self.number}: {line} -> {reply}, and wanted is {wanted}")
            self.replies += 1


def right(folder, options, made):
    """The first part."""
    running = Running(folder, folder / "volume", users_text(made), program=options.program, name="right").ready()
    try:
        words = {}, {}
        # What an earlier part stored is not known: each word is given its first value here.
        with_peer = [Talker(running.path, index, made, words) for index in range(CONNECTIONS)]
        for talker in with_peer[: len(USERS)]:
            talker.peer.socket.settimeout(PATIENCE)
            talker.peer.ask(*(f"{talker.thread} store {talker.base + 8 * word} 0" for word in range(512)))
            talker.peer.socket.setblocking(False)
        poll = select.epoll()
        by_file = {talker.peer.socket.fileno(): talker for talker in with_peer}
        for file in by_file:
            poll.register(file, select.EPOLLIN)
        end = time.monotonic() + options.seconds
        last = end + PATIENCE
        while time.monotonic() < last:
            is_last = time.monotonic() >= end
            for talker in with_peer:
                talker.write(is_last)
            for file, _ in poll.poll(0.01):
                by_file[file].read()
            if is_last and not any(talker.waiting or talker.out for talker in with_peer):
                break
        else:
            fail("some replies did not come")
        replies = sum(talker.replies for talker in with_peer)
        if running.stop() != 0:
            fail(running.log_text())
        print(f"right: {CONNECTIONS} connections of {len(USERS)} users, {options.seconds:g} s, {replies} replies, 0 differences", flush=True)
    finally:
        running.stop()


class Storer:
    """A connection of the second part: it stores a number that rises into a word of its own, and loads it back."""

    def __init__(self, index, made):
        self.index = index
        self.number = index % len(USERS)
        self.thread, self.base = made[self.number]
        self.place = self.base + 8 * (index // len(USERS))
        # The number that was sent last, the last one whose store was answered, and the one that the word holds after the lines sent.
        self.sent = self.answered = self.held = 0
        self.peer = None
        self.waiting = collections.deque()
        self.out = b""
        self.told = None

    def connect(self, path):
        """Connects anew, and looks which of its stores are done."""
        if self.peer is not None:
            self.peer.close()
        self.out = b""
        self.peer = Peer(path, USERS[self.number], groups=[GROUP] if self.number == len(USERS) - 1 else [])
        self.peer.socket.settimeout(PATIENCE)
        reply = self.peer.ask(f"{self.thread} load {self.place}")[0]
        if reply is None or reply.startswith("ended "):
            return False
        value = int(reply.split()[1], 16)
        most = self.sent
        if self.told is not None:
            # Of the lines without an answer, so many may be done, and no later one.
            given = [number for number, _ in list(self.waiting)[: self.told]]
            most = max([self.answered, *(number for number in given if number is not None)])
        if not self.answered <= value <= most:
            fail(f"connection {self.index}: the word is {value}, stores up to {self.answered} were answered, and up to {most} may be done")
        self.answered = self.held = value
        self.waiting.clear()
        self.told = None
        self.peer.socket.setblocking(False)
        return True

    def write(self):
        while len(self.waiting) < MOST_IN_FLIGHT and random.random() < 0.8:
            if random.random() < 0.7:
                self.sent += 1
                self.held = self.sent
                self.waiting.append((self.sent, "ok"))
                self.out += b"%d store %d %d\n" % (self.thread, self.place, self.sent)
            else:
                # The value tells this reply from all others, so one that came twice would be seen.
                self.waiting.append((None, f"ok 0x{self.held:016x}"))
                self.out += b"%d load %d\n" % (self.thread, self.place)
        try:
            self.out = self.out[self.peer.socket.send(self.out) :]
        except BlockingIOError:
            pass
        except OSError:
            # Its end is read.
            self.out = b""

    def read(self):
        """Reads replies: the number of them, or None at the end."""
        try:
            data = self.peer.socket.recv(1 << 16)
        except BlockingIOError:
            return 0
        except ConnectionResetError:
            data = b""
        *lines, self.peer.rest = (self.peer.rest + data).split(b"\n")
        for reply in lines:
            text = reply.decode()
            if text.startswith("ended "):
                self.told = int(text.split()[2])
                continue
            if not self.waiting:
                fail(f"connection {self.index} got {text} and had asked nothing")
            number, wanted = self.waiting.popleft()
            if text != wanted:
                fail(f"connection {self.index}: {text} came, and wanted is {wanted}")
            if number is not None:
                self.answered = number
        return len(lines) if data else None


def kills(folder, options, made):
    """The second part."""
    more = ("--openings", "1000")
    running = Running(folder, folder / "volume", users_text(made), *more, program=options.program, name="kills").ready()
    storers = [Storer(index, made) for index in range(16)]
    for storer in storers:
        # Its word is 0 to begin with.
        storer.peer = Peer(running.path, USERS[storer.number], groups=[GROUP] if storer.number == len(USERS) - 1 else [])
        reply = storer.peer.ask(f"{storer.thread} store {storer.place} 0")[0]
        if reply != "ok":
            fail(f"a first store was answered {reply}: {running.log_text()}")
    replies = cut = 0
    try:
        for turn in range(2 * options.kills):
            deadline = time.monotonic() + PATIENCE
            for storer in storers:
                while not storer.connect(running.path):
                    if time.monotonic() > deadline:
                        fail("nobody listens again")
            end = time.monotonic() + random.uniform(0.05, 0.3)
            is_killed = False
            alive = set(storers)
            while alive and time.monotonic() < deadline:
                if not is_killed:
                    for storer in alive:
                        storer.write()
                replies += read_all(alive)
                if not is_killed and time.monotonic() > end:
                    is_killed = True
                    if turn % 2 == 0:
                        os.kill(running.program(), signal.SIGKILL)
                    else:
                        running.process.kill()
                if is_killed and turn % 2 == 0:
                    # Who had no line under way is served on, by the next run.
                    alive = {storer for storer in alive if storer.waiting or storer.out}
            cut += sum(len(storer.waiting) for storer in storers)
            if turn % 2:
                running.process.wait()
                running = Running(folder, folder / "volume", users_text(made), *more, program=options.program, name="kills")
                running.wait("is listened on")
        for storer in storers:
            storer.connect(running.path)
        if running.stop() != 0:
            fail(running.log_text())
        print(f"kills: {options.kills} of the program and {options.kills} of the broker, {replies} replies, {cut} lines cut off; none lost, none twice", flush=True)
    finally:
        running.stop()


def read_all(alive):
    """Reads from each: how many replies came. Who is served no more is taken out of `alive`."""
    replies = 0
    for storer in list(alive):
        count = storer.read()
        if count is None:
            alive.discard(storer)
        else:
            replies += count
    return replies


def device_faults():
    """The script of that name, as a module."""
    loader = importlib.machinery.SourceFileLoader("device_faults", str(Path(__file__).resolve().parent / "device_faults"))
    module = importlib.util.module_from_spec(importlib.util.spec_from_loader("device_faults", loader))
    sys.modules["device_faults"] = module
    loader.exec_module(module)
    return module


def talk(storers, until):
    """Sends stores and loads and reads replies until so: how many replies came."""
    replies, alive = 0, set(storers)
    deadline = time.monotonic() + PATIENCE
    while alive and not until() and time.monotonic() < deadline:
        for storer in alive:
            storer.write()
        replies += read_all(alive)
        time.sleep(0.001)
    return replies


def is_gone(process):
    """Whether a process has ended; nobody may have asked for its status yet."""
    try:
        return Path(f"/proc/{process}/stat").read_text().rpartition(")")[2].split()[0] == "Z"
    except OSError:
        return True


def stop_all(running):
    """The machine stops: the broker and the program that it runs are killed."""
    try:
        children = Path(f"/proc/{running.process.pid}/task/{running.process.pid}/children").read_text().split()
    except OSError:
        children = []
    running.process.kill()
    running.process.wait()
    for child in children:
        with contextlib.suppress(ProcessLookupError):
            os.kill(int(child), signal.SIGKILL)
        # The process keeps the file until it is gone.
        while not is_gone(child):
            time.sleep(0.001)


def power(folder, options, made):
    """The third part."""
    if any(shutil.which(command) is None for command in ("nbdkit", "nbdfuse", "fusermount3")):
        print("power: not tried, there is no nbdkit, nbdfuse or fusermount3", flush=True)
        return
    device = device_faults().Device(folder, "device", BLOCKS)
    device.fill(folder / "volume")
    storers = [Storer(index, made) for index in range(16)]
    more = ("--openings", "1000")
    replies = lost = 0
    running = None
    try:
        for turn in range(options.kills + 1):
            # The last turn has no fault, and looks at what is there.
            faults = {"fault": random.choice(("loses", "tears")), "at": random.randint(1, 6), "waits": True} if turn < options.kills else {}
            device.start(**faults)
            running = Running(folder, device.path, users_text(made), *more, program=options.program, name="power").ready()
            for storer in storers:
                if turn == 0:
                    peer = Peer(running.path, USERS[storer.number], groups=[GROUP] if storer.number == len(USERS) - 1 else [])
                    if peer.ask(f"{storer.thread} store {storer.place} 0")[0] != "ok":
                        fail(f"a first store was refused: {running.log_text()}")
                    peer.close()
                if not storer.connect(running.path):
                    fail(f"nobody serves: {running.log_text()}")
            end = time.monotonic() + random.uniform(0.05, 0.3)
            replies += talk(storers, lambda: time.monotonic() > end)
            if turn == options.kills:
                break
            device.now()
            os.kill(running.program(), signal.SIGKILL)
            # The broker opens the volume again, and the device loses power meanwhile.
            end = time.monotonic() + 5
            replies += talk(storers, lambda: device.server.poll() is not None or time.monotonic() > end)
            while device.server.poll() is None and time.monotonic() < end:
                time.sleep(0.001)
            lost += device.server.poll() is not None
            device.cut()
            stop_all(running)
            replies += sum(storer.read() or 0 for storer in storers)
            device.stop()
        if running.stop() != 0:
            fail(running.log_text())
        device.stop()
        print(f"power: {options.kills} kills of the program, {lost} losses of power in the next opening or soon after, {replies} replies; none lost", flush=True)
    finally:
        if running is not None:
            stop_all(running)
        device.cut()
        device.stop()


def out(folder, options, made):
    """The third part."""
    record, program = folder / "record", folder / "recorded"
    program.write_text(f'#!/bin/sh\ntee -a "{record}" | "{options.program}" "$@"\n')
    program.chmod(0o700)
    mine, other = made[0][0], made[1][0]
    text = users_text(made) + f"\n[user.{NOBODY}]\nthreads = [{made[3][0]}]\n"
    running = Running(folder, folder / "volume", text, program=program, name="out").ready()
    try:
        spellings = fuzzed = 0
        for user, thread in ((USERS[0], mine), (NOBODY, made[3][0])):
            peer = Peer(running.path, user)
            for word in SPELLINGS:
                # The spellings are of thread 3: here they are of the other one.
                line = word.replace(b"3", b"%d" % other) if other != 3 else word
                reply = peer.ask(line + b" store %d 1" % made[1][1])[0]
                means = meaning(line + b" store %d 1" % made[1][1])
                if reply not in ("refused Thread", "no Syntax"):
                    fail(f"{line} was answered {reply}")
                if means != "bad" and means[0] == other and reply != "refused Thread":
                    fail(f"{line} was answered {reply}")
                spellings += 1
            for start in range(0, options.fuzz, 100):
                # Numbers 2 and 3 of the wild lines are the own thread and another one's.
                given = [wild().replace(b"2", b"%d" % thread) if random.random() < 0.7 else random.randbytes(random.randrange(300)) for _ in range(100)]
                pieces = b"\n".join(given).split(b"\n")
                peer.send(b"\n".join(pieces) + b"\n")
                for piece in pieces:
                    if meaning(piece) is None:
                        continue
                    reply = peer.reply()
                    if reply is None or not reply.startswith(("ok", "no ", "refused ")):
                        fail(f"{piece} was answered {reply}")
                fuzzed += len(given)
            peer.close()
        for stranger in (63000, 0):
            peer = Peer(running.path, stranger)
            with contextlib.suppress(BrokenPipeError):
                peer.send(b"%d load %d\n" % (mine, made[0][1]))
            if peer.rest_of_it() != ["refused User"]:
                fail("a user who isn't named was let in")
        if running.stop() != 0:
            fail(running.log_text())
        lines = record.read_bytes().split(b"\n")[:-1]
        allowed = {mine, made[3][0]}
        for line in lines:
            means = meaning(line)
            is_asked = line in {b"%d apdlist" % thread for thread, _ in made}
            is_rent = means not in (None, "bad") and means[0] == 0 and means[1][0] == b"rent"
            if not (means == "bad" or is_asked or is_rent or means is not None and means[0] in allowed):
                fail(f"the machine was given {line}")
        print(f"out: {spellings} spellings, {fuzzed} byte strings, as {USERS[0]} and as nobody; {len(lines)} lines were given, none of another's thread", flush=True)
    finally:
        running.stop()


def main():
    parser = argparse.ArgumentParser(description="Tries the broker for longer than its tests do.")
    parser.add_argument("--program", default=None)
    parser.add_argument("--folder", default=None)
    parser.add_argument("--seconds", type=float, default=60)
    parser.add_argument("--kills", type=int, default=50)
    parser.add_argument("--fuzz", type=int, default=10_000)
    parser.add_argument("parts", nargs="*", metavar="PART", help="right, kills, power or out")
    options = parser.parse_args()
    parts = {"right": right, "kills": kills, "power": power, "out": out}
    for part in options.parts:
        if part not in parts:
            parser.error(f"{part} is none of {', '.join(parts)}")
    if os.geteuid() != 0:
        fail("it has to be root, since it connects as other users")
    options.program = options.program or test_broker.PROGRAM
    if options.program is None:
        fail("there is no program: set MUNGI, or build it with the script mungi")
    test_broker.PATIENCE = PATIENCE
    with tempfile.TemporaryDirectory(dir=options.folder) as name:
        folder = Path(name)
        folder.chmod(0o755)
        made = prepare(folder / "volume", options.program)
        for part in options.parts or parts:
            parts[part](folder, options, made)


if __name__ == "__main__":
    main()
