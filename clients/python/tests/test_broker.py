"""Tests of the broker on real volumes in a temporary folder: python3 -m unittest, in the folder above.

The program is found as support.py finds it; where there is none, only what needs no program is tested. Tests with several users need
root, who connects as others. trials/broker_trial.py tries more, for longer.
"""

import contextlib
import fcntl
import io
import os
import random
import re
import select
import shutil
import signal
import socket
import stat
import subprocess
import sys
import tempfile
import threading
import time
import unittest
import unittest.mock
import zipfile
from pathlib import Path

import mungi
from mungi import broker as mungi_broker
from tests import test_calls, test_objects, test_pages
from tests.support import HERE, PATIENCE, PROGRAM, SOURCES, TOP, OnVolumes

IS_ROOT = os.geteuid() == 0
# Numbers of users that need no name.
ANNA, BERT, CARL = 61001, 61002, 61003
NOBODY = 65534
LONE = (b"next", b"rent")


# What the machine reads, written down from the text of docs/MACHINE.md and not from the broker


def words_of(line):
    """The words of a line."""
    words, word = [], bytearray()
    for byte in line + b" ":
        if byte in b" \t\r":
            if word:
                words.append(bytes(word))
            word = bytearray()
        else:
            word.append(byte)
    return words


def value_of(word):
    """The number that a word spells, or None."""
    base, most, digits = (16, 16, word[2:]) if word[:2] == b"0x" else (10, 20, word)
    if not 1 <= len(digits) <= most:
        return None
    value = 0
    for byte in digits.lower():
        digit = b"0123456789abcdef".find(byte)
        if not 0 <= digit < base:
            return None
        value = value * base + digit
    return value if value < 2**64 else None


def meaning(line):
    """What the machine makes of a line: None, "bad", or its thread (0 for `next` and `rent`) and its other words. Some lines have a meaning
    here that are no calls: those whose words after the thread's number make none."""
    if len(line) > 256:
        return "bad"
    words = words_of(line)
    if not words or words[0][:1] == b"#":
        return None
    if words[0] in LONE:
        return 0, tuple(words)
    thread = value_of(words[0])
    return "bad" if thread is None else (thread, tuple(words[1:]))


# 40 ways to write another one's thread, 3, where some are no number of the machine's
SPELLINGS = [
    b"3", b"03", b"003", b"0" * 19 + b"3", b"0" * 20 + b"3", b"0x3", b"0x03", b"0x" + b"0" * 15 + b"3", b"0x" + b"0" * 16 + b"3", b"0X3",
    b" 3", b"\t3", b"\r3", b" \t\r 3", b"   3", b"\t0x3", b"\r\r0x03", b"3\t", b"3\r", b"3 \t", b"+3", b"-3", b"3.0", b"3e0", b"0b11", b"0o3",
    b"\x003", b"3\x00", b"\x0b3", b"\x0c3", b"\xa03", b"\xc2\xa03", b"\xef\xbb\xbf3", b"\xd9\xa3", b"\xef\xbc\x93", b"'3'", b"2\r3", b"2\x003",
    b"18446744073709551619", b"0x10000000000000003",
]  # fmt: skip


def wild(most=40):
    """Some bytes, most of them such as lines are made of."""
    pieces = [b"2", b"3", b"0x2", b"0x3", b" ", b" ", b"\t", b"\r", b"load", b"store", b"turn", b"next", b"rent", b"end", b"#", b"\0", b"0x100000000", b"5"]
    made = b""
    for _ in range(random.randrange(most)):
        kind = random.random()
        made += random.choice(pieces) if kind < 0.8 else random.randbytes(1) if kind < 0.95 else random.choice(SPELLINGS)
    return made if random.random() < 0.98 else made + random.randbytes(300)


class Judging(unittest.TestCase):
    """What is given to the machine, by the bytes of a line."""

    @staticmethod
    def rights(threads, may=(), is_all=False):
        return mungi_broker.Rights(mungi_broker.Grant(threads, is_all, may), threads)

    def assert_allowed(self, line, rights, named=frozenset()):
        """The verdict on a line: what is given means to the machine what the line means, and is the user's own."""
        verdict = mungi_broker.judge(line, rights, named)
        means = meaning(line)
        if verdict.kind == "passed":
            self.assertIsNone(means, line)
        elif verdict.kind == "refused":
            self.assertTrue(verdict.text.startswith(b"refused "))
            self.assertNotIn(means, (None, "bad"), line)
        else:
            self.assertEqual(meaning(verdict.text), means, line)
            if means != "bad":
                thread, words = means
                lone = thread == 0 and words[0] in LONE
                self.assertTrue(words[0].decode() in rights.may if lone else thread in rights.threads or words[:1] == (b"turn",), line)
        return verdict

    def test_another_thread_in_many_spellings(self):
        self.assertGreaterEqual(len(SPELLINGS), 40)
        rights = self.rights({2})
        for word in SPELLINGS:
            line = word + b" load 0x100000000"
            verdict = self.assert_allowed(line, rights)
            self.assertIn((verdict.kind, verdict.text), {("refused", b"refused Thread"), ("given", b"."), ("given", b"2\r3 load 0x100000000")}, word)

    def test_ones_own_thread_in_many_spellings(self):
        rights = self.rights({2})
        for word in (b"2", b"0x2", b"\t 0002", b"\r0x0000000000000002"):
            verdict = self.assert_allowed(word + b" \tload\r8", rights)
            self.assertEqual(verdict.text, b"2 \tload\r8")

    def test_wild_bytes(self):
        for rights in (self.rights({2}), self.rights(set()), self.rights({2}, ("turn", "rent")), self.rights({2, 3}, ("next",))):
            for _ in range(5000):
                self.assert_allowed(wild(), rights, frozenset({2, 3}))

    def test_permissions(self):
        few, many = self.rights({2}), self.rights({2}, ("rent", "next", "turn"))
        for line in (b"rent", b"next", b" rent\r", b"rent 5"):
            self.assertEqual(mungi_broker.judge(line, few, frozenset()).text, b"refused Call")
            self.assertEqual(mungi_broker.judge(line, many, frozenset()).text, line)
        self.assertEqual(mungi_broker.judge(b"3 turn", few, frozenset()).text, b"refused Thread")
        self.assertEqual(mungi_broker.judge(b"03 turn", many, frozenset()).text, b"3 turn")
        self.assertEqual(mungi_broker.judge(b"3 turns", many, frozenset()).text, b"refused Thread")
        self.assertEqual(mungi_broker.judge(b"2 turn", few, frozenset()), ("turn", b"2 turn", 2, 2))

    def test_a_thread_that_is_named_is_not_ended(self):
        whole = mungi_broker.Rights(mungi_broker.Grant((), True), ())
        for line in (b"2 end 2", b"2  end\t0x0002", b"0x2 end 3"):
            self.assertEqual(mungi_broker.judge(line, self.rights({2}), frozenset({2, 3})).text, b"refused Call")
            self.assertEqual(mungi_broker.judge(line, whole, frozenset({2, 3})).kind, "end")
        self.assertEqual(mungi_broker.judge(b"2 end 4", self.rights({2}), frozenset({2, 3})).kind, "given")

    def test_nobody_is_named(self):
        for line in (b"2 load 8", b"rent", b"x"):
            self.assertEqual(mungi_broker.judge(line, mungi_broker.NO_RIGHTS, frozenset()).text, b"refused User")


class Naming(unittest.TestCase):
    """The file of users."""

    def test_users_and_groups(self):
        users = mungi_broker.Users(
            '[user.root]\nthreads = [1]\n[user.61001]\nthreads = [2, 3]\nmay = ["rent"]\n[group.61002]\nthreads = [4]\n[group.61003]\nthreads = "all"\n'
        )
        self.assertEqual(users.named, {1, 2, 3, 4})
        self.assertEqual(users.grant_of(0, [5]).threads, {1})
        both = users.grant_of(ANNA, [1, BERT])
        self.assertEqual((both.threads, both.may, both.is_all), ({2, 3, 4}, {"rent"}, False))
        self.assertTrue(users.grant_of(7, [CARL]).is_all)
        self.assertIsNone(users.grant_of(7, [7]))
        self.assertIsNone(mungi_broker.Users("").grant_of(0, [0]))

    def test_a_thread_counts_while_it_lives(self):
        grant = mungi_broker.Grant([2, 3])
        self.assertEqual(mungi_broker.Rights(grant, {3, 4}).own, {b"3": 3})

    def test_mistakes_are_told_with_their_line(self):
        start = "# who has what\n\n[user.root]\nthreads = [1]\n"
        for more, line in (
            ("threads = [2]\n", 5),
            ("[user.root\n", 5),
            ("[user.61001]\n\nthreads = [0]\n", 7),
            ("[user.61001]\nthreads = [257]\n", 6),
            ("[user.61001]\nthreads = [true]\n", 6),
            ('[user.61001]\nthreads = ["2"]\n', 6),
            ("[user.61001]\nthreads = 2\n", 6),
            ('[user.61001]\nthreads = "some"\n', 6),
            ('[user.61001]\nthreads = [2]\nmay = ["end"]\n', 7),
            ('[user.61001]\nmay = "rent"\n', 6),
            ('[user."61001"]\nthread = [2]\n', 6),
            ("[user.no_such_user_here]\nthreads = [2]\n", 5),
            ("[group.no_such_group_here]\n", 5),
            ("[users.root]\n", 5),
            ("[user.0]\n", 5),
            ("[group]\nroot = 5\n", 6),
            ("[group.99999999999]\n", 5),
            ("user.61001 = 5\n", 5),
        ):
            with self.assertRaises(mungi_broker.Mistake, msg=more) as caught:
                mungi_broker.Users(start + more)
            self.assertTrue(str(caught.exception).startswith(f"line {line}: "), (more, caught.exception))


@contextlib.contextmanager
def being(user, group=None, groups=()):
    """A block in which this process is another user, where it is root."""
    if user == os.geteuid():
        yield
        return
    before = os.getgroups()
    os.setgroups(groups)
    os.setegid(user if group is None else group)
    os.seteuid(user)
    try:
        yield
    finally:
        os.seteuid(0)
        os.setegid(0)
        os.setgroups(before)


class Running:
    """A broker that runs, in a process of its own."""

    def __init__(self, folder, volume, users, *more, program=PROGRAM, name="socket", starter=(), **kinds):
        self.path = folder / name
        self.users = folder / f"users-{name}"
        self.users.write_text(users)
        self.log = folder / f"log-{name}"
        command = [*starter, sys.executable, "-m", "mungi.broker", str(volume), str(self.path), str(self.users), "--program", str(program), *more]
        with open(self.log, "wb") as log:
            self.process = subprocess.Popen(command, cwd=SOURCES, stdin=subprocess.DEVNULL, stderr=log, **kinds)

    def log_text(self):
        return self.log.read_text()

    def wait(self, text, count=1):
        """Waits until the broker said something so many times."""
        deadline = time.monotonic() + PATIENCE
        while self.log_text().count(text) < count:
            if self.process.poll() is not None or time.monotonic() > deadline:
                raise AssertionError(f"the broker did not say {text!r}: {self.log_text()}")
            time.sleep(0.01)
        return self

    def ready(self):
        return self.wait("is listened on")

    def program(self):
        """The process of the program."""
        return int(Path(f"/proc/{self.process.pid}/task/{self.process.pid}/children").read_text().split()[0])

    def reload(self, users):
        count = self.log_text().count(f"{self.users}: ")
        self.users.write_text(users)
        self.process.send_signal(signal.SIGHUP)
        self.wait(f"{self.users}: ", count + 1)

    def stop(self):
        if self.process.poll() is None:
            self.process.send_signal(signal.SIGTERM)
        return self.process.wait(PATIENCE)


class Peer:
    """A connection, by its bytes."""

    def __init__(self, path, user=None, **more):
        self.socket = socket.socket(socket.AF_UNIX)
        self.socket.settimeout(PATIENCE)
        try:
            with being(os.geteuid() if user is None else user, **more):
                self.socket.connect(str(path))
        except BaseException:
            self.socket.close()
            raise
        self.rest = b""

    def send(self, data):
        self.socket.sendall(data)

    def reply(self):
        """The next reply, or None at the end."""
        while b"\n" not in self.rest:
            try:
                data = self.socket.recv(1 << 16)
            except ConnectionResetError:
                data = b""
            if not data:
                return None
            self.rest += data
        line, _, self.rest = self.rest.partition(b"\n")
        return line.decode()

    def ask(self, *lines):
        """The replies to lines that are sent together."""
        self.send(b"".join(line.encode() + b"\n" if isinstance(line, str) else line + b"\n" for line in lines))
        return [self.reply() for _ in lines]

    def rest_of_it(self):
        """All replies up to the end."""
        replies = []
        while (reply := self.reply()) is not None:
            replies.append(reply)
        return replies

    def close(self):
        self.socket.close()


class OnBroker(OnVolumes):
    """A volume with two threads beside the first: 2 and 3, each with an object of its own, and a page at which threads may begin."""

    def setUp(self):
        super().setUp()
        self.volume, self.fresh = self.new()
        with self.open(self.volume, 64) as machine:
            root = machine.root(self.fresh.treasury)
            self.start = root.create()
            self.own = {}
            for _ in range(2):
                own, used = root.create(), root.create_list()
                used.add(self.start.grant("RX"))
                used.add(own.grant("RW"))
                self.own[root.new_thread(used, self.start.base).number] = own.base
        self.assertEqual(sorted(self.own), [2, 3])
        os.chmod(self.folder, 0o755)

    def run_broker(self, users, *more, **kinds):
        running = Running(self.folder, self.volume, users, *more, **kinds)
        self.addCleanup(running.stop)
        return running.ready()

    def peer(self, running, user=None, **more):
        peer = Peer(running.path, user, **more)
        self.addCleanup(peer.close)
        return peer

    @staticmethod
    def me(threads, more=""):
        return f"[user.{os.geteuid()}]\nthreads = {threads}\n{more}"


class Sharing(OnBroker):
    def test_lines_and_replies_as_with_run(self):
        running = self.run_broker(self.me([2]))
        own = self.own[2]
        lines = [f"2 store {own} 5", "# note", "", " \t\r", f" 0x2\tload\r{own}", "laod", "2", "2 load 3", b"x" * 257, b"#" * 257, b"\0", b"2 load\0 8", b"\xff"]
        lines = [line.encode() if isinstance(line, str) else line for line in lines]
        peer = self.peer(running)
        peer.send(b"\n".join(lines))
        peer.send(b"\n")
        peer.socket.shutdown(socket.SHUT_WR)
        replies = peer.rest_of_it()
        self.assertEqual(running.stop(), 0)
        run = subprocess.run([PROGRAM, self.volume, "run"], input=b"\n".join(lines) + b"\n", capture_output=True, timeout=PATIENCE, check=True)
        self.assertEqual(replies, run.stdout.decode().splitlines())
        self.assertEqual(len(replies), 10)

    def test_what_is_refused(self):
        running = self.run_broker(self.me([2]))
        peer = self.peer(running)
        other = self.own[3]
        self.assertEqual(peer.ask(f"3 store {other} 1", "rent", "next", "3 turn", "2 end 2", "1 load 0x100000000"),
                         ["refused Thread", "refused Call", "refused Call", "refused Thread", "refused Call", "refused Thread"])  # fmt: skip
        own = self.own[2]
        self.assertEqual(peer.ask(f"2 store {own} 9", "rent", f"2 load {own}", "3 load 8", f"2 load {other}"),
                         ["ok", "refused Call", "ok 0x0000000000000009", "refused Thread", "no Denied"])  # fmt: skip

    def test_half_a_line_is_not_given(self):
        running = self.run_broker(self.me([2]))
        own = self.own[2]
        for half in (f"2 store {own} 12", "x", "# note"):
            peer = self.peer(running)
            peer.send(f"2 load {own}\n{half}".encode())
            peer.socket.shutdown(socket.SHUT_WR)
            self.assertEqual(peer.rest_of_it(), ["ok 0x0000000000000000", "refused Half"])

    @unittest.skipUnless(IS_ROOT, "only root can be several users")
    def test_users_have_their_own_threads(self):
        running = self.run_broker(f'[user.{ANNA}]\nthreads = [2]\n[group.{BERT}]\nthreads = [3]\nmay = ["rent"]\n')
        anna, bert, third = self.peer(running, ANNA), self.peer(running, BERT), self.peer(running, CARL, groups=[BERT])
        self.assertEqual(anna.ask(f"2 store {self.own[2]} 7", f"3 load {self.own[3]}", "rent"), ["ok", "refused Thread", "refused Call"])
        self.assertEqual(bert.ask(f"3 store {self.own[3]} 8", f"2 load {self.own[2]}", "rent")[:2], ["ok", "refused Thread"])
        self.assertEqual(third.ask(f"3 load {self.own[3]}"), ["ok 0x0000000000000008"])
        for stranger in (CARL, NOBODY, 0):
            peer = self.peer(running, stranger)
            self.assertEqual(peer.rest_of_it(), ["refused User"])
            with self.assertRaises(PermissionError), being(stranger):
                mungi.connect(running.path, PATIENCE)

    def test_the_file_is_read_again(self):
        running = self.run_broker(self.me([2]))
        peer = self.peer(running)
        ask = lambda: peer.ask(f"2 load {self.own[2]}", f"3 load {self.own[3]}")
        mine, others = "ok 0x0000000000000000", "refused Thread"
        self.assertEqual(ask(), [mine, others])
        running.reload(self.me([2, 3]))
        self.assertEqual(ask(), [mine, mine])
        running.reload(self.me([3, 300]))
        self.assertIn("line 2: 300 is no number of a thread", running.log_text())
        self.assertEqual(ask(), [mine, mine])
        running.reload(self.me([3]))
        self.assertEqual(ask(), [others, mine])
        os.unlink(running.users)
        running.process.send_signal(signal.SIGHUP)
        running.wait("No such file")
        self.assertEqual(ask(), [others, mine])
        running.reload("")
        self.assertEqual(ask(), ["refused User", "refused User"])

    def test_words_that_start_nothing(self):
        there = self.folder / "there"
        there.write_text("mine")
        link = self.folder / "link"
        link.symlink_to(there)
        users = self.folder / "users"
        users.write_text(self.me([2]))
        wrong = self.folder / "wrong"
        wrong.write_text("[user.root]\nthreads = [1\n")
        running = self.run_broker(self.me([2]))
        free = self.folder / "free"
        for words, said in (
            ((self.volume, there, users), "is no socket"),
            ((self.volume, link, users), "is no socket"),
            ((self.volume, self.folder, users), "is no socket"),
            ((self.volume, running.path, users), "somebody listens on it"),
            ((self.folder / "none", free, users), "there is no volume"),
            ((self.volume, free, wrong), "line "),
            ((self.volume, free, self.folder / "none"), "No such file"),
            ((there, free, users), "open not"),
        ):
            command = [sys.executable, "-m", "mungi.broker", *map(str, words), "--program", PROGRAM]
            done = subprocess.run(command, cwd=SOURCES, capture_output=True, text=True, timeout=PATIENCE, check=False)
            self.assertEqual(done.returncode, 2 if said == "open not" else 1, done.stderr)
            self.assertIn(said, done.stderr)
        command = [sys.executable, "-m", "mungi.broker", str(self.volume), str(free), str(users), "--program", str(self.folder / "none")]
        done = subprocess.run(command, cwd=SOURCES, capture_output=True, text=True, timeout=PATIENCE, check=False)
        self.assertEqual((done.returncode, done.stderr.count("\n")), (3, 1), done.stderr)
        for words in (("--nonsense",), (str(self.volume),), (str(self.volume), str(free), str(users), "--openings", "0")):
            command = [sys.executable, "-m", "mungi.broker", *words]
            done = subprocess.run(command, cwd=SOURCES, capture_output=True, text=True, timeout=PATIENCE, check=False)
            self.assertEqual((done.returncode, done.stdout), (1, ""), done.stderr)
        with self.assertRaises(FileNotFoundError) as caught:
            mungi.connect(free)
        self.assertEqual(caught.exception.filename, str(free))
        self.assertEqual((there.read_text(), link.is_symlink(), free.exists()), ("mine", True, False))
        self.assertEqual(self.peer(running).ask("2 load 8"), ["no Denied"])

    def test_a_socket_that_a_broker_left(self):
        running = self.run_broker(self.me([2]))
        peer = self.peer(running)
        self.assertEqual(peer.ask(f"2 store {self.own[2]} 4"), ["ok"])
        running.process.kill()
        running.process.wait()
        self.assertIsNone(peer.reply())
        self.assertTrue(stat.S_ISSOCK(running.path.lstat().st_mode))
        again = self.run_broker(self.me([2]))
        self.assertEqual(self.peer(again).ask(f"2 load {self.own[2]}"), ["ok 0x0000000000000004"])
        self.assertEqual(again.stop(), 0)
        self.assertFalse(again.path.exists())


class Ending(OnBroker):
    def test_the_program_is_killed(self):
        running = self.run_broker(self.me([2, 3]))
        idle, busy = self.peer(running), self.peer(running)
        self.assertEqual(idle.ask(f"2 store {self.own[2]} 1"), ["ok"])
        os.kill(running.program(), signal.SIGSTOP)
        busy.send(f"3 store {self.own[3]} 1\n3 store {self.own[3]} 2\n".encode())
        time.sleep(0.3)
        waiting = self.peer(running)
        waiting.send(f"2 load {self.own[2]}\n".encode())
        time.sleep(0.1)
        os.kill(running.program(), signal.SIGKILL)
        # What was under way may be done; what waited is done by the next run, and who asked nothing sees nothing.
        self.assertEqual(busy.rest_of_it(), ["ended -9 2"])
        self.assertEqual(waiting.reply(), "ok 0x0000000000000001")
        self.assertEqual(idle.ask(f"2 load {self.own[2]}"), ["ok 0x0000000000000001"])
        self.assertIn(self.peer(running).ask(f"3 load {self.own[3]}")[0][-1], "012")
        self.assertEqual(running.stop(), 0)

    def test_what_the_client_says_of_an_end(self):
        running = self.run_broker(self.me([2]))
        machine = mungi.connect(running.path, PATIENCE)
        thread, own = machine.thread(2), self.own[2]
        thread.store(own, 1)
        os.kill(running.program(), signal.SIGSTOP)
        timer = threading.Timer(0.3, lambda: os.kill(running.program(), signal.SIGKILL))
        timer.start()
        with self.assertRaises(mungi.Ended) as caught:
            with machine.batch(4096) as batch:
                for number in range(200):
                    batch.thread(2).store(own, number)
        timer.join()
        ended = caught.exception
        self.assertEqual((ended.status, ended.some_may_be_kept), (-9, True))
        self.assertEqual(len(ended.answered) + len(ended.unanswered) + len(ended.unsent), 200)
        self.assertLessEqual(len(ended.unanswered), 64)
        self.assertGreater(len(ended.unsent), 0)
        again = mungi.connect(running.path, PATIENCE)
        with self.assertRaises(mungi.NotAllowed) as caught:
            again.thread(3).load(8)
        self.assertEqual((caught.exception.word, caught.exception.line), ("Thread", "3 load 0x8"))
        with self.assertRaises(RuntimeError):
            again.backup(self.folder / "copy")
        running.process.kill()
        running.process.wait()
        with self.assertRaises(mungi.Ended) as caught:
            again.thread(2).load(own)
        self.assertEqual(caught.exception.status, mungi.CUT)

    def test_a_disk_that_fails(self):
        # A limit on the size of files lies below the pages' places, so the journal can't be emptied into them. An opening without the limit
        # empties it first.
        with self.open(self.volume):
            pass
        limited = self.folder / "limited"
        limited.write_text(f'#!/bin/sh\ntrap "" XFSZ\nulimit -f 20000\nexec "{PROGRAM}" "$@"\n')
        limited.chmod(0o700)
        running = self.run_broker(self.me([2]), "--openings", "1000", program=limited)
        peer, reply, answered = self.peer(running), "ok", 0
        while reply == "ok" and "status 4" not in running.log_text() and answered < 20000:
            reply = peer.ask(f"2 store {self.own[2] + 8 * ((answered + 1) % 400)} {answered + 1}")[0]
            answered += reply == "ok"
        running.wait("status 4")
        self.assertIn("File too large", running.log_text())
        self.assertGreater(answered, 0)
        if reply != "ok":
            # The disk failed with this line under way, and not after its reply.
            self.assertEqual((reply, peer.reply()), ("ended 4 1", None))
        running.stop()
        with self.open(self.volume) as machine:
            self.assertEqual(machine.thread(2).load(self.own[2] + 8 * (answered % 400)), answered)
            self.assertIn(machine.thread(2).load(self.own[2] + 8 * ((answered + 1) % 400)), (answered + 1, max(0, answered - 399)))

    def test_a_volume_that_can_not_be_opened_again(self):
        running = self.run_broker(self.me([2]), "--openings", "60")
        os.rename(self.volume, self.folder / "away")
        os.kill(running.program(), signal.SIGKILL)
        running.wait("there is no volume")
        peer = self.peer(running)
        peer.send(b"2 load 8\n")
        self.assertEqual(peer.reply(), "ended 2 0")
        os.replace(self.folder / "away", self.volume)
        deadline = time.monotonic() + PATIENCE
        reply = ""
        while reply != "no Denied" and time.monotonic() < deadline:
            reply = self.peer(running).ask("2 load 8")[0]
        self.assertEqual(reply, "no Denied")
        self.assertEqual(running.stop(), 0)

    def test_a_program_that_does_not_answer(self):
        running = self.run_broker(self.me([2]), "--patience", "1")
        os.kill(running.program(), signal.SIGSTOP)
        self.assertEqual(self.peer(running).ask("2 load 8"), ["ended -9 1"])
        self.assertEqual(self.peer(running).ask("2 load 8"), ["no Denied"])

    def test_openings_are_counted(self):
        running = self.run_broker(self.me([2]), "--openings", "2")
        os.kill(running.program(), signal.SIGKILL)
        running.wait("status -9")
        self.assertEqual(self.peer(running).ask("2 load 8"), ["no Denied"])
        os.kill(running.program(), signal.SIGKILL)
        running.wait("status -9", 2)
        peer = self.peer(running)
        peer.send(b"2 load 8\n")
        # The third opening waits for the rest of the minute, and an order to end does not.
        self.assertEqual(select.select([peer.socket], [], [], 2)[0], [])
        begun = time.monotonic()
        self.assertEqual(running.stop(), 0)
        self.assertLess(time.monotonic() - begun, 20)
        self.assertEqual(peer.rest_of_it(), ["no Denied", "ended 0 0"])

    def test_an_end_in_order(self):
        running = self.run_broker(self.me([2]))
        idle, busy = self.peer(running), self.peer(running)
        os.kill(running.program(), signal.SIGSTOP)
        lines = 200
        busy.send(b"".join(b"2 store %d %d\n" % (self.own[2], number) for number in range(lines)) + b"2 store")
        time.sleep(0.3)
        running.process.send_signal(signal.SIGTERM)
        time.sleep(0.3)
        os.kill(running.program(), signal.SIGCONT)
        self.assertEqual(busy.rest_of_it(), ["ok"] * lines + ["ended 0 0"])
        self.assertEqual(idle.rest_of_it(), ["ended 0 0"])
        self.assertEqual(running.process.wait(PATIENCE), 0)
        self.assertFalse(running.path.exists())
        with self.open(self.volume) as machine:
            self.assertEqual(machine.thread(2).load(self.own[2]), lines - 1)

    def test_a_run_that_has_read_all_it_may_is_begun_anew(self):
        running = self.run_broker(self.me([2]), "--most-input", "70000", "--openings", "1000")
        first = running.program()
        machine = mungi.connect(running.path, PATIENCE)
        thread = machine.thread(2)
        for number in range(500):
            thread.store(self.own[2], number)
            self.assertEqual(thread.load(self.own[2]), number)
        with machine.batch(4096) as batch:
            for number in range(4000):
                batch.thread(2).store(self.own[2] + 8 * (number % 512), number)
        self.assertEqual(machine.close(), 0)
        self.assertNotEqual(running.program(), first)
        self.assertEqual(running.stop(), 0)

    def test_a_backup_while_it_runs(self):
        script = self.folder / "copy"
        script.write_text(f'#!/bin/sh\nexec cp "$1" "{self.folder}/copied"\n')
        script.chmod(0o700)
        running = self.run_broker(self.me([2]), "--backup", str(script))
        peer = self.peer(running)
        number = 0
        running.process.send_signal(signal.SIGUSR1)
        while "ended with status 0" not in running.log_text():
            number += 1
            self.assertEqual(peer.ask(f"2 store {self.own[2]} {number}"), ["ok"])
        self.assertEqual(peer.ask(f"2 load {self.own[2]}"), [f"ok 0x{number:016x}"])
        self.assertEqual(mungi.check(self.folder / "copied", PROGRAM).threads, 3)
        os.unlink(script)
        running.process.send_signal(signal.SIGUSR1)
        running.wait("No such file")
        self.assertEqual(peer.ask(f"2 load {self.own[2]}"), [f"ok 0x{number:016x}"])


class Turns(OnBroker):
    """Threads that end, whose numbers another thread may get."""

    def script(self, thread, base):
        """A script at the start page that ends the thread of this number: r0 is the call `end`, r1 the number."""
        words = (1 | 14 << 32, 1 | 1 << 8 | thread << 32, 14)
        return [f"1 store {base + 8 * place} {word}" for place, word in enumerate(words)]

    def test_a_number_whose_thread_ended_is_refused(self):
        with self.open(self.volume) as machine:
            for line in self.script(2, self.start.base):
                self.assertEqual(machine.call(line), "ok")
        running = self.run_broker(self.me([2, 3]))
        peer = self.peer(running)
        self.assertEqual(peer.ask(f"2 load {self.own[2]}", "2 turn", "2 turn", "2 turn"), ["ok 0x0000000000000000", "ok Ready", "ok Ready", "ok Ended"])
        # The next thread gets the number, and is not the user's, although the lines come together.
        self.assertEqual(peer.ask(f"3 thread {self.start.base}", f"2 load {self.own[3]}", f"2 load {self.own[3]}"), ["ok 2", "refused Thread", "refused Thread"])
        running.wait("thread 2 does not live")
        running.reload(self.me([2, 3]))
        self.assertEqual(peer.ask(f"2 load {self.own[3]}"), ["refused Thread"])
        running.reload(self.me([3]))
        running.reload(self.me([2, 3]))
        self.assertEqual(peer.ask(f"2 load {self.own[3]}"), ["ok 0x0000000000000000"])

    def test_a_number_is_not_used_in_the_batch_in_which_it_may_end(self):
        with self.open(self.volume) as machine:
            for line in self.script(2, self.start.base):
                machine.call(line)
        running = self.run_broker(self.me([2, 3]))
        peer, other = self.peer(running), self.peer(running)
        self.assertEqual(peer.ask("2 turn", "2 turn"), ["ok Ready", "ok Ready"])
        os.kill(running.program(), signal.SIGSTOP)
        other.send(b"3 load 8\n")
        time.sleep(0.2)
        peer.send(b"2 turn\n3 thread %d\n2 load %d\n" % (self.start.base, self.own[3]))
        time.sleep(0.2)
        os.kill(running.program(), signal.SIGCONT)
        self.assertEqual([peer.reply() for _ in range(3)], ["ok Ended", "ok 2", "refused Thread"])

    def test_a_number_without_a_thread(self):
        running = self.run_broker(self.me([2, 9]))
        running.wait("thread 9 does not live")
        self.assertEqual(self.peer(running).ask("9 load 8", "2 load 8"), ["refused Thread", "no Denied"])

    def test_all_numbers(self):
        running = self.run_broker(self.me('"all"') + "[user.61001]\nthreads = [2]\n")
        peer = self.peer(running)
        self.assertEqual(peer.ask("77 load 8", "1 load 0x100000000", "1 end 2", "3 end 3"), ["no NoThread", "ok 0x0000000000000006", "ok", "ok"])
        running.wait("thread 2 does not live")


class Pressing(OnBroker):
    def test_one_that_never_reads(self):
        running = self.run_broker(self.me([2]))
        greedy, other = self.peer(running), self.peer(running)
        greedy.socket.setblocking(False)
        line = b"2 load %d\n" % self.own[2]
        sent = 0
        deadline = time.monotonic() + PATIENCE / 2
        quiet = time.monotonic()
        while time.monotonic() < deadline and time.monotonic() - quiet < 1:
            try:
                sent += greedy.socket.send(line * 1000)
                quiet = time.monotonic()
            except BlockingIOError:
                time.sleep(0.01)
        # It is stopped, and what waits for it is bounded.
        self.assertGreater(time.monotonic() - quiet, 1)
        self.assertLess(sent, 4 << 20)
        for number in range(50):
            self.assertEqual(other.ask(f"2 store {self.own[2]} {number}"), ["ok"])
        # When it reads again it gets all, in order.
        greedy.socket.setblocking(True)
        greedy.socket.settimeout(PATIENCE)
        whole = sent // len(line)
        greedy.socket.shutdown(socket.SHUT_WR)
        replies = greedy.rest_of_it()
        self.assertEqual(len(replies), whole + (1 if sent % len(line) else 0))
        self.assertEqual({reply for reply in replies[:whole]} - {f"ok 0x{number:016x}" for number in range(50)}, set())

    def test_many_connections(self):
        running = self.run_broker(self.me([2]))
        peers = [self.peer(running) for _ in range(mungi_broker.MOST_CONNECTIONS)]
        for place, peer in enumerate(peers):
            peer.send(b"2 store %d %d\n" % (self.own[2] + 8 * place, place))
        self.assertEqual({peer.reply() for peer in peers}, {"ok"})
        self.assertEqual(self.peer(running).rest_of_it(), ["refused Connections"])
        peers[0].close()
        deadline = time.monotonic() + PATIENCE
        reply = None
        while reply != "no Denied" and time.monotonic() < deadline:
            with contextlib.suppress(OSError):
                reply = self.peer(running).ask("2 load 8")[0]
        self.assertEqual(reply, "no Denied")

    def test_wild_bytes(self):
        record = self.folder / "record"
        program = self.folder / "recorded"
        program.write_text(f'#!/bin/sh\ntee -a "{record}" | "{PROGRAM}" "$@"\n')
        program.chmod(0o700)
        running = self.run_broker(self.me([2]), program=program)
        peer, count = self.peer(running), 0
        lines = [wild() for _ in range(2000)]
        for start in range(0, len(lines), 100):
            some = [piece for line in lines[start : start + 100] for piece in line.split(b"\n")]
            peer.send(b"\n".join(some) + b"\n")
            for line in some:
                means = meaning(line)
                if means is not None:
                    count += 1
                    reply = peer.reply()
                    if means == "bad":
                        self.assertEqual(reply, "no Syntax", line)
                    elif means[0] == 2:
                        self.assertTrue(reply.startswith(("ok", "no ")) or reply == "refused Call", line)
                    else:
                        self.assertTrue(reply.startswith("refused "), line)
        self.assertGreater(count, 500)
        self.assertEqual(running.stop(), 0)
        for line in record.read_bytes().split(b"\n")[:-1]:
            self.assertTrue(meaning(line) == "bad" or meaning(line)[0] == 2 or re.fullmatch(rb"[0-9]+ apdlist", line), line)


# What stands in for the program where the machine does not matter. It holds the file, answers 64 lines at once, and
# keeps one word. `check` says that the file is a volume of 16 frames. While there is a file VOLUME.wait it opens nothing.
STAND_IN = r"""
import fcntl, os, sys, time
volume, word = sys.argv[1:3]
if word == "check":
    file = os.open(volume, os.O_RDONLY)
    try:
        fcntl.flock(file, fcntl.LOCK_SH | fcntl.LOCK_NB)
    except OSError:
        sys.exit(4)
    print("ok 16 1 1 1 1 0 5")
    sys.exit(0)
if word != "run":
    sys.exit(0)
while os.path.exists(volume + ".wait"):
    time.sleep(0.01)
file = os.open(volume, os.O_RDWR)
try:
    fcntl.flock(file, fcntl.LOCK_EX | fcntl.LOCK_NB)
except OSError:
    sys.exit(4)
def answer(line):
    words = line.split()
    if words[1:2] == [b"store"]:
        os.pwrite(file, b"%020d" % int(words[3]), 0)
        return b"ok\n"
    if words[1:2] == [b"load"]:
        return b"ok 0x%016x\n" % int(os.pread(file, 20, 0).strip(b"\0") or b"0")
    return b"no Syntax\n"
replies = []
for line in sys.stdin.buffer:
    replies.append(answer(line))
    if len(replies) == 64:
        sys.stdout.buffer.write(b"".join(replies))
        sys.stdout.buffer.flush()
        replies.clear()
sys.stdout.buffer.write(b"".join(replies))
"""
STAND_IN_BYTES = 4096 * (2595 + 1 + 16)
SCRIPTS = TOP / "scripts"


def patiently(test, what):
    """Waits until a test gives something."""
    deadline = time.monotonic() + PATIENCE
    while not (found := test()):
        if time.monotonic() > deadline:
            raise AssertionError(f"{what} did not happen")
        time.sleep(0.01)
    return found


class Serving(unittest.TestCase):
    """The broker as a service of systemd, where a program that stands in for `mungi` is enough."""

    def setUp(self):
        folder = tempfile.TemporaryDirectory(prefix="mungi-test-")
        self.addCleanup(folder.cleanup)
        self.folder = Path(folder.name)
        self.program = self.script("program", f"#!{sys.executable}\n{STAND_IN}")
        self.volume = self.folder / "volume"
        self.volume.touch()
        os.truncate(self.volume, STAND_IN_BYTES)
        self.count = 0

    def script(self, name, text):
        path = self.folder / name
        path.write_text(text)
        path.chmod(0o700)
        return path

    def begin(self, *more, path="socket", **kinds):
        self.count += 1
        users = f"[user.{os.geteuid()}]\nthreads = [2]\n"
        kinds.setdefault("program", self.program)
        running = Running(self.folder, self.volume, users, *more, name=path, **kinds)
        self.addCleanup(running.process.wait)
        self.addCleanup(running.process.kill)
        return running

    def listener(self, address=None):
        """What systemd listens on for what it is told, and its name for the variable."""
        name = address or str(self.folder / "notify")
        listener = socket.socket(socket.AF_UNIX, socket.SOCK_DGRAM)
        self.addCleanup(listener.close)
        listener.bind(name)
        listener.settimeout(PATIENCE)
        return listener, name.replace("\0", "@")

    @staticmethod
    def told(listener, wanted):
        """What was told, up to a text that is wanted."""
        lines = []
        while not any(wanted in line for line in lines):
            lines += listener.recv(1 << 16).decode().split("\n")
        return lines

    def peer(self, running):
        peer = Peer(running.path)
        self.addCleanup(peer.close)
        return peer

    # Signals

    def assert_acts(self, running):
        """Both signals came, and the broker did what they ask for."""
        running.ready()
        running.wait("read again")
        running.wait("ended with status 0")
        self.assertEqual(self.peer(running).ask("2 store 8 5", "2 load 8"), ["ok", "ok 0x0000000000000005"])
        self.assertEqual(running.stop(), 0)

    def test_signals_while_it_starts(self):
        # As its unit starts it: they are blocked until it says otherwise.
        starter = ["env", "--block-signal=HUP,USR1"]
        if subprocess.run([*starter, "true"], stderr=subprocess.DEVNULL, check=False).returncode:
            self.skipTest("env can't block signals")
        for delay in (0.01, 0.05, 0.15):
            running = self.begin("--backup", "true", starter=starter)
            time.sleep(delay)
            for number in (signal.SIGHUP, signal.SIGUSR1):
                running.process.send_signal(number)
            self.assert_acts(running)

    def test_signals_while_modules_are_read(self):
        # A module that is read slowly: it says so, waits, and gives way to the one that is meant.
        slow = self.folder / "slow"
        slow.mkdir()
        (slow / "argparse.py").write_text(
            "import sys, time\nfrom pathlib import Path\nhere = Path(__file__).parent\n(here / 'reading').touch()\ntime.sleep(0.5)\n"
            "sys.path.remove(str(here))\ndel sys.modules['argparse']\nimport argparse\n"
        )
        running = self.begin("--backup", "true", env=dict(os.environ, PYTHONPATH=str(slow)))
        patiently((slow / "reading").exists, "reading")
        for number in (signal.SIGHUP, signal.SIGUSR1):
            running.process.send_signal(number)
        self.assert_acts(running)

    def test_signals_while_it_opens(self):
        wait = self.folder / "volume.wait"
        wait.touch()
        running = self.begin("--backup", "true")
        patiently(lambda: Path(f"/proc/{running.process.pid}/task/{running.process.pid}/children").read_text(), "a program")
        for number in (signal.SIGHUP, signal.SIGUSR1):
            running.process.send_signal(number)
        running.wait("read again")
        wait.unlink()
        self.assert_acts(running)

    # What systemd is told

    def test_it_is_ready_once_the_volume_is_open(self):
        for address in (None, f"\0mungi-test-{os.getpid()}"):
            listener, name = self.listener(address)
            wait = self.folder / "volume.wait"
            wait.touch()
            seen = self.folder / "seen"
            backup = self.script("backup", f'#!/bin/sh\nenv >"{seen}"\n')
            running = self.begin("--backup", str(backup), env=dict(os.environ, NOTIFY_SOCKET=name, LISTEN_PID="1", LISTEN_FDS="1"))
            self.assertEqual(select.select([listener], [], [], 1)[0], [])
            wait.unlink()
            self.assertEqual(listener.recv(1 << 16).decode().split("\n"), ["READY=1", f"STATUS={self.volume} is open"])
            self.assertEqual(self.peer(running).ask("2 load 8"), ["ok 0x0000000000000000"])
            running.process.send_signal(signal.SIGUSR1)
            told = self.told(listener, "is open again")
            self.assertEqual(told[0], f"STATUS={self.volume} is closed for a backup")
            self.assertNotRegex(seen.read_text(), "(?m)^(NOTIFY_SOCKET|LISTEN_)")
            self.assertEqual(running.stop(), 0)
            self.assertIn("STOPPING=1", self.told(listener, "STOPPING"))

    def test_a_broker_that_can_not_start_is_never_ready(self):
        listener, name = self.listener()
        environment = dict(os.environ, NOTIFY_SOCKET=name)
        for program, status in ((self.script("broken", "#!/bin/sh\nexit 2\n"), 2), (self.folder / "none", 3)):
            running = self.begin(program=program, env=environment)
            self.assertEqual(running.process.wait(PATIENCE), status)
        with open(self.volume, "rb") as held:
            fcntl.flock(held, fcntl.LOCK_EX)
            running = self.begin(env=environment)
            told = self.told(listener, "STATUS")
            self.assertEqual(told, [f"STATUS={self.volume} can't be opened yet: it is tried 20 times, every 0.5 s"])
            self.assertIn(told[0].removeprefix("STATUS="), running.log_text())
            running.process.send_signal(signal.SIGTERM)
            self.assertEqual(running.process.wait(PATIENCE), 0)
        listener.setblocking(False)
        with contextlib.suppress(BlockingIOError):
            while True:
                self.assertNotIn("READY", listener.recv(1 << 16).decode())

    def test_nobody_reads_what_is_told(self):
        running = self.begin(env=dict(os.environ, NOTIFY_SOCKET=str(self.folder / "none"))).ready()
        running.wait("none: No such file")
        self.assertEqual(self.peer(running).ask("2 load 8"), ["ok 0x0000000000000000"])
        self.assertEqual(running.stop(), 0)

    # Pauses

    def test_backups_are_no_openings(self):
        listener, name = self.listener()
        running = self.begin("--openings", "2", "--backup", "true", env=dict(os.environ, NOTIFY_SOCKET=name)).ready()
        peer = self.peer(running)
        for number in range(1, 5):
            running.process.send_signal(signal.SIGUSR1)
            running.wait("is open again, after", number)
            self.assertEqual(peer.ask("2 load 8"), ["ok 0x0000000000000000"])
        os.kill(running.program(), signal.SIGKILL)
        running.wait("is open again, after", 5)
        self.assertNotIn("waits", running.log_text())
        os.kill(running.program(), signal.SIGKILL)
        # The third opening of this minute waits, and that is said.
        running.wait("it was opened 2 times in 60 s")
        self.told(listener, "it was opened 2 times in 60 s")
        self.assertRegex(running.log_text(), r"waits [0-9]+\.[0-9] s: it was opened")
        self.assertEqual(running.stop(), 0)

    def test_a_volume_that_goes_away_and_comes_back(self):
        running = self.begin("--openings", "60").ready()
        away = self.folder / "away"
        os.rename(self.volume, away)
        os.kill(running.program(), signal.SIGKILL)
        running.wait("there is no volume", 2)
        running.wait("can't be opened: status 2; it is tried again in 1.0 s")
        # No empty file is made, which a later mount would hide.
        self.assertFalse(self.volume.exists())
        os.rename(away, self.volume)
        running.wait("is open again, after")
        self.assertEqual(self.peer(running).ask("2 load 8"), ["ok 0x0000000000000000"])
        self.assertEqual(running.stop(), 0)

    # The socket

    def hand_over(self, files, count=None, path="socket", **kinds):
        """A broker that gets open files as systemd gives them."""
        moves = " ".join(f"{3 + place}<&{file.fileno()}" for place, file in enumerate(files))
        text = f'export LISTEN_PID=$$ LISTEN_FDS={len(files) if count is None else count}\nexec "$@" {moves}'
        return self.begin(path=path, starter=["bash", "-c", text, "bash"], pass_fds=[file.fileno() for file in files], **kinds)

    def bound(self, name="socket"):
        listening = socket.socket(socket.AF_UNIX)
        self.addCleanup(listening.close)
        listening.bind(str(self.folder / name))
        listening.listen(8)
        # The shell has room for 3 and 4 then.
        high = socket.socket(fileno=fcntl.fcntl(listening.fileno(), fcntl.F_DUPFD_CLOEXEC, 20))
        self.addCleanup(high.close)
        return high

    def test_the_socket_stays_over_a_restart(self):
        listening = self.bound()
        early = Peer(self.folder / "socket")
        self.addCleanup(early.close)
        early.send(b"2 store 8 7\n")
        running = self.hand_over([listening]).ready()
        self.assertEqual(early.reply(), "ok")
        place = running.path.lstat()
        self.assertEqual(running.stop(), 0)
        self.assertEqual(early.rest_of_it(), ["ended 0 0"])
        self.assertTrue(os.path.samestat(running.path.lstat(), place))
        # Nobody serves it, and who connects waits for who will.
        waiting = Peer(self.folder / "socket")
        self.addCleanup(waiting.close)
        waiting.send(b"2 load 8\n")
        self.assertEqual(select.select([waiting.socket], [], [], 0.3)[0], [])
        again = self.hand_over([listening]).ready()
        self.assertEqual(waiting.reply(), "ok 0x0000000000000007")
        again.process.kill()
        again.process.wait()
        self.assertIsNone(waiting.reply())
        third = self.hand_over([listening]).ready()
        self.assertEqual(self.peer(third).ask("2 load 8"), ["ok 0x0000000000000007"])
        self.assertEqual(third.stop(), 0)

    def test_what_is_handed_over_and_not_taken(self):
        listening = self.bound("other")
        datagrams = socket.socket(socket.AF_UNIX, socket.SOCK_DGRAM)
        silent = socket.socket(socket.AF_UNIX)
        self.addCleanup(datagrams.close)
        self.addCleanup(silent.close)
        silent.bind(str(self.folder / "socket"))
        high = [socket.socket(fileno=fcntl.fcntl(it.fileno(), fcntl.F_DUPFD_CLOEXEC, 20)) for it in (datagrams, silent)]
        for it in high:
            self.addCleanup(it.close)
        with open(os.devnull) as null, open(fcntl.fcntl(null.fileno(), fcntl.F_DUPFD_CLOEXEC, 20)) as file:
            for files, said in (
                ([listening], "other"),
                ([listening, listening], "2 sockets are handed over"),
                ([high[0]], "no Unix socket that listens"),
                ([high[1]], "no Unix socket that listens"),
                ([file], "no socket"),
            ):
                running = self.hand_over(files)
                self.assertEqual(running.process.wait(PATIENCE), 1, running.log_text())
                self.assertIn(said, running.log_text())
        # Files for another process are none.
        running = self.begin(path="own", env=dict(os.environ, LISTEN_PID="1", LISTEN_FDS="1")).ready()
        self.assertEqual(running.stop(), 0)

    def test_a_client_that_waits_for_the_broker(self):
        path = self.folder / "socket"
        with self.assertRaises(FileNotFoundError):
            mungi.connect(path, PATIENCE)
        begun = time.monotonic()
        with self.assertRaises(FileNotFoundError):
            mungi.connect(path, PATIENCE, wait=0.4)
        self.assertGreater(time.monotonic() - begun, 0.4)
        with self.assertRaises(ValueError):
            mungi.connect(path, wait=-1)
        started = []
        timer = threading.Timer(0.5, lambda: started.append(self.begin()))
        timer.start()
        machine = mungi.connect(path, PATIENCE, wait=PATIENCE)
        timer.join()
        machine.thread(2).store(8, 6)
        started[0].process.kill()
        started[0].process.wait()
        # The socket is there, and nobody listens.
        with self.assertRaises(ConnectionRefusedError):
            mungi.connect(path, PATIENCE)
        timer = threading.Timer(0.5, lambda: started.append(self.begin()))
        timer.start()
        self.assertEqual(mungi.connect(path, PATIENCE, wait=PATIENCE).thread(2).load(8), 6)
        timer.join()
        self.assertEqual(started[1].stop(), 0)

    # Backups

    def slow_copy(self):
        """The environment of a backup whose `cp` never ends, and the file with the number of its process."""
        tools = self.folder / "commands"
        tools.mkdir(exist_ok=True)
        number = self.folder / "number"
        self.script("commands/cp", f'#!/bin/sh\necho "$$" >"{number}.new"\nmv "{number}.new" "{number}"\nexec sleep 1000\n')
        return dict(os.environ, PATH=f"{tools}:{os.environ['PATH']}", MUNGI=str(self.program)), number

    def back_up(self, *words, environment=None):
        environment = environment or dict(os.environ, MUNGI=str(self.program))
        return subprocess.run([SCRIPTS / "backup", *words], env=environment, capture_output=True, text=True, timeout=PATIENCE, check=False)

    def assert_gone(self, number):
        """The process that a file names has ended."""
        patiently(lambda: not os.path.exists(f"/proc/{number.read_text().strip()}"), "the end of cp")
        number.unlink()

    def assert_free(self):
        with open(self.volume, "rb") as file:
            fcntl.flock(file, fcntl.LOCK_EX | fcntl.LOCK_NB)

    def test_a_backup_that_is_ended(self):
        environment, number = self.slow_copy()
        copy = self.folder / "copies" / "copy"
        copy.parent.mkdir()
        for how in (signal.SIGTERM, signal.SIGINT, signal.SIGHUP):
            process = subprocess.Popen([SCRIPTS / "backup", self.volume, copy], env=environment, stderr=subprocess.DEVNULL)
            patiently(number.exists, "a copy")
            process.send_signal(how)
            self.assertEqual(process.wait(PATIENCE), 130)
            self.assert_gone(number)
            self.assertEqual(list(copy.parent.iterdir()), [])
            self.assert_free()

    def test_a_backup_that_is_killed(self):
        environment, number = self.slow_copy()
        copy = self.folder / "copies" / "copy"
        copy.parent.mkdir()
        process = subprocess.Popen([SCRIPTS / "backup", self.volume, copy], env=environment, stderr=subprocess.DEVNULL)
        patiently(number.exists, "a copy")
        done = self.back_up(self.volume, copy)
        self.assertEqual(done.returncode, 1)
        self.assertIn("another backup makes it", done.stderr)
        process.kill()
        process.wait()
        try:
            # What it started may run on, and holds nothing.
            self.assert_free()
            self.assertTrue(Path(f"{copy}.part").exists())
            Path(f"{copy}.sha256").touch()
            done = self.back_up(self.volume, copy)
            self.assertEqual((done.returncode, done.stderr), (0, ""))
        finally:
            os.kill(int(number.read_text()), signal.SIGKILL)
        self.assertEqual(sorted(it.name for it in copy.parent.iterdir()), ["copy", "copy.sha256"])
        self.assertEqual(self.back_up("--verify", copy).returncode, 0)

    def test_so_many_copies_are_kept(self):
        folder = self.folder / "copies"
        folder.mkdir()
        others = ["other-2020-01-01-000000", "volume", "volume-2020-01-01", "volume-2020-01-01-000000.txt"]
        old = [f"volume-2020-01-0{day}-000000" for day in range(1, 5)]
        for name in (*others, *old, *(f"{name}.sha256" for name in old), "volume-2020-01-09-000000.part", "volume-2020-01-09-000000.sha256"):
            (folder / name).write_text("x")
        done = self.back_up("--keep", "3", folder, self.volume)
        self.assertEqual((done.returncode, done.stderr), (0, ""))
        left = {it.name for it in folder.iterdir()}
        new = left - set(others) - {name + end for name in old[2:] for end in ("", ".sha256")}
        self.assertEqual(len(new), 2, new)
        self.assertLessEqual(set(others), left)
        name = min(new)
        self.assertRegex(name, r"^volume-20\d\d-\d\d-\d\d-\d{6}$")
        self.assertEqual(self.back_up("--verify", folder / name).returncode, 0)
        for words, status in ((("0", folder), 2), (("x", folder), 2), (("", folder), 2), (("1", folder / "none"), 1)):
            done = self.back_up("--keep", *words, self.volume)
            self.assertEqual((done.returncode, done.stderr.count("\n")), (status, 1))
        self.assertEqual({it.name for it in folder.iterdir()}, left)

    def test_the_broker_ends_while_it_backs_up(self):
        environment, number = self.slow_copy()
        folder = self.folder / "copies"
        folder.mkdir()
        command = f"{SCRIPTS / 'backup'} --keep 5 {folder}"
        running = self.begin("--backup", command, env=environment).ready()
        running.process.send_signal(signal.SIGUSR1)
        patiently(number.exists, "a copy")
        begun = time.monotonic()
        self.assertEqual(running.stop(), 0)
        self.assertLess(time.monotonic() - begun, 4)
        self.assert_gone(number)
        self.assertEqual(list(folder.iterdir()), [])
        self.assert_free()
        # Also where a shell of the operator's, which does nothing with signals, is between.
        between = self.script("between", f'#!/bin/sh\n{command} "$1"\necho done\n')
        running = self.begin("--backup", str(between), env=environment).ready()
        running.process.send_signal(signal.SIGUSR1)
        patiently(number.exists, "a copy")
        self.assertEqual(running.stop(), 0)
        self.assert_gone(number)
        patiently(lambda: not list(folder.iterdir()), "an empty folder")
        running = self.begin("--backup", command).ready()
        running.process.send_signal(signal.SIGUSR1)
        running.wait("ended with status 0")
        self.assertEqual(len(list(folder.iterdir())), 2)
        self.assertEqual(running.stop(), 0)

    def test_a_new_volume_has_its_blocks(self):
        maker = self.script(
            "maker", f'#!/bin/sh\n[ "$2" = format ] || exit 0\ntruncate -s {STAND_IN_BYTES} "$1"\necho ok 0x1 0x2 0x3\n'
        )
        for words, is_whole in (((), True), (("--sparse",), False)):
            path = self.folder / f"new{len(words)}"
            done = subprocess.run([SCRIPTS / "new_volume", *words, path, "16", "5"], env=dict(os.environ, MUNGI=str(maker)), capture_output=True, text=True, check=False)
            self.assertEqual((done.returncode, done.stdout, done.stderr), (0, "ok 0x1 0x2 0x3\n", ""))
            self.assertEqual((path.stat().st_size, path.stat().st_blocks * 512 >= STAND_IN_BYTES), (STAND_IN_BYTES, is_whole))


class Units(unittest.TestCase):
    """The files of systemd."""

    FOLDER = TOP / "clients/systemd"

    def test_the_page_names_each_and_they_name_what_it_makes(self):
        page = (TOP / "docs/SERVICE.md").read_text()
        for path in self.FOLDER.iterdir():
            self.assertTrue(path.name in page, path.name)
        self.assertIn("/run/mungi/socket", (self.FOLDER / "mungi.service").read_text())
        self.assertIn("ListenStream=/run/mungi/socket\n", (self.FOLDER / "mungi.socket").read_text())

    @unittest.skipIf(shutil.which("systemd-analyze") is None, "systemd-analyze is not here")
    def test_systemd_reads_them(self):
        with tempfile.TemporaryDirectory() as folder:
            # The programs of the units are not here.
            for path in self.FOLDER.iterdir():
                text = re.sub(r"(?m)^(Exec\w+)=\S+", rf"\1={shutil.which('true')}", path.read_text())
                Path(folder, path.name).write_text(text)
            names = sorted(str(path) for path in Path(folder).iterdir())
            done = subprocess.run(["systemd-analyze", "verify", *names], capture_output=True, text=True, timeout=PATIENCE, check=False)
        said = [line for line in done.stderr.splitlines() if "mungi" in line and "man " not in line]
        self.assertEqual(said, [])


class Pages(OnVolumes):
    """The examples of docs/SERVICE.md, and what pip installs."""

    @unittest.skipUnless(IS_ROOT, "only root can be several users")
    def test_two_users(self):
        sources = list(test_pages.Examples.sources(TOP / "docs/SERVICE.md"))
        puts = {
            "shared": [(ANNA, "granted\n"), (BERT, "Come at ten.\n1 store 0x100004008 0 -> refused Thread\n2 store 0x100004008 0 -> no Denied\n")],
            "mailbox": [(ANNA, "open\n"), (BERT, "2 load 0x100001000 -> no Denied\n"), (ANNA, "Dear Anna, it is Bert.\n")],
        }
        self.assertEqual(len(sources), 1 + sum(len(rows) for rows in puts.values()))
        page = (TOP / "docs/SERVICE.md").read_text()
        users = "[user.anna]\nthreads = [1]\n\n[user.bert]\nthreads = [2]\n"
        self.assertIn("".join(f"    {line}\n" if line else "\n" for line in users.splitlines()), page)
        users = users.replace("anna", str(ANNA)).replace("bert", str(BERT))
        os.chmod(self.folder, 0o755)
        self.addCleanup(os.chdir, os.getcwd())
        os.chdir(self.folder)
        place = 1
        for name, rows in puts.items():
            example = "letters" if name == "shared" else name
            command = [sys.executable, str(HERE / "examples" / f"{example}.py"), name]
            subprocess.run(command, check=True, capture_output=True, env=dict(os.environ, MUNGI=PROGRAM), timeout=PATIENCE)
            running = Running(self.folder, self.folder / name, users, name=f"{name}.socket")
            self.addCleanup(running.stop)
            running.ready()
            for user, put in rows:
                with being(user), contextlib.redirect_stdout(io.StringIO()) as said:
                    exec(compile(sources[place], "SERVICE.md", "exec"), {})
                self.assertEqual(said.getvalue(), put)
                place += 1
            self.assertEqual(running.stop(), 0)

    def test_what_pip_installs(self):
        # (a copy, since setuptools writes beside the sources)
        source = self.folder / "source"
        shutil.copytree(HERE, source, ignore=shutil.ignore_patterns("tests", "examples", "build", "*.egg-info", "__pycache__"))
        build = "import sys\nfrom setuptools import build_meta\nbuild_meta.build_wheel(sys.argv[1])\n"
        done = subprocess.run([sys.executable, "-c", build, str(self.folder)], cwd=source, capture_output=True, text=True, timeout=PATIENCE, check=False)
        if done.returncode != 0 and re.search("No module named|bdist_wheel", done.stderr):
            self.skipTest("setuptools is not here, or not the package wheel that an old one needs")
        self.assertEqual(done.returncode, 0, done.stderr)
        (place,) = self.folder.glob("mungi-*.whl")
        for words in (["-c", "import mungi; print(mungi.connect)"], ["-m", "mungi.broker", "--help"]):
            environment = {key: value for key, value in os.environ.items() if key != "PYTHONPATH"} | {"PYTHONPATH": str(place)}
            done = subprocess.run([sys.executable, *words], cwd=self.folder, env=environment, capture_output=True, timeout=PATIENCE, check=True)
            self.assertGreater(len(done.stdout), 20)
        with zipfile.ZipFile(place) as wheel:
            names = set(wheel.namelist())
        modules = {f"mungi/{path.name}" for path in (SOURCES / "mungi").iterdir() if path.is_file()}
        self.assertEqual((modules - names, {it for it in names if it.startswith("test")}), (set(), set()))
        self.assertIn("mungi/py.typed", modules)


class OverBroker:
    """The client's own tests, over a broker that is begun where they open a volume, and ended where they close it."""

    def open(self, path, batch=1, program=PROGRAM):
        self.opened = getattr(self, "opened", 0) + 1
        name = f"socket{self.opened}"
        users = f'[user.{os.geteuid()}]\nthreads = "all"\nmay = ["rent", "next"]\n'
        running = Running(self.folder, path, users, program=program, name=name)
        self.addCleanup(running.stop)
        running.ready()
        machine = mungi.connect(running.path, PATIENCE)
        close = machine.close

        def close_both():
            status = close()
            if running.process.poll() is None and running.stop() != 0:
                raise AssertionError(running.log_text())
            return status

        machine.close = close_both
        # (its sockets are closed before the broker is ended)
        self.addCleanup(self.quit, machine)
        return machine


def over(kind, *left_out):
    """Tests of the client over a broker, but for those that look at the program itself."""
    return type(f"{kind.__name__}OverBroker", (OverBroker, kind), {name: None for name in left_out})


CallsOverBroker = over(test_calls.Calls)
MistakesOverBroker = over(
    test_calls.Mistakes,
    "test_a_file_that_is_not_there",
    "test_the_program_that_the_environment_names",
    "test_words_for_a_mirror",
    "test_files_that_a_mirror_does_not_take",
)
DocumentsOverBroker = over(test_objects.Documents)
RightsOverBroker = over(test_objects.Rights)
BatchesOverBroker = over(test_objects.Batches, "test_a_run_that_has_read_all_it_may")
TourOverBroker = over(test_pages.Tour)


if __name__ == "__main__":
    unittest.main()
