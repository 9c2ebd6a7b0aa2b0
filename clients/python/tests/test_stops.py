"""A program that ends early."""

import os
import random
import signal
import subprocess
import sys
import threading
import time
import unittest

import mungi
from tests.support import PATIENCE, PROGRAM, SOURCES, OnVolumes


class Stops(OnVolumes):
    """A program that ends early. The lines store their own number, each into the next word of a ring: so the words tell
    how many lines are kept, and whether these are the first ones."""

    RING = 400

    def store_until_it_ends(self, machine, first, count):
        with machine.batch(4096) as batch:
            thread = batch.thread(1)
            for number in range(first, first + count):
                thread.store(mungi.ROOT + 64 + 8 * (number % self.RING), number, into_list=True)

    def kept(self, path, first):
        """The number k for which the volume holds the stores 1 to k and no others."""
        with self.open(path, 64) as machine:
            with machine.batch() as batch:
                answers = [batch.thread(1).load(mungi.ROOT + 64 + 8 * place) for place in range(self.RING)]
            words = [answer.value for answer in answers]
        last = max(words)
        for place, word in enumerate(words):
            newest = last - (last - place) % self.RING
            self.assertEqual(word, newest if newest >= 1 else 0)
        self.assertGreaterEqual(last, first - 1)
        return last

    def assert_holds(self, path, first, ended, batch):
        """All answered lines are kept, and the kept ones are a prefix of those sent, which reaches at most a batch
        behind the answers."""
        last = first + len(ended.answered) - 1
        kept = self.kept(path, first)
        self.assertLessEqual(last, kept)
        self.assertLessEqual(kept, last + min(batch, len(ended.unanswered)))
        self.assertEqual({answer for _, answer in ended.answered}, {"ok"} if ended.answered else set())
        lines = [line for line, _ in ended.answered] + ended.unanswered + ended.unsent
        self.assertEqual([int(line.split()[3]) for line in lines], list(range(first, first + len(lines))))
        return kept

    def test_killed_in_the_middle_of_many_lines(self):
        # A kill may come as every line that was sent is answered, but not each time.
        unanswered = 0
        for batch in (1, 8, 64):
            path, _ = self.new()
            first = 1
            for _ in range(3):
                machine = self.open(path, batch)
                killer = threading.Timer(random.uniform(0.05, 0.3), machine.kill)
                killer.start()
                with self.assertRaises(mungi.Ended) as caught:
                    self.store_until_it_ends(machine, first, 1_000_000)
                killer.join()
                ended = caught.exception
                self.assertEqual(ended.status, -signal.SIGKILL)
                self.assertTrue(ended.some_may_be_kept)
                unanswered += len(ended.unanswered)
                kept = self.assert_holds(path, first, ended, batch)
                # Every later call tells the same end.
                with self.assertRaises(mungi.Ended):
                    machine.rent()
                with self.assertRaises(mungi.Ended):
                    machine.close()
                first = kept + 1
            self.assertGreater(first, 1)
        self.assertGreater(unanswered, 0)

    def test_a_document_is_never_half_of_one(self):
        path, fresh = self.new()
        data = [random.randbytes(1500), random.randbytes(1500)]
        machine = self.open(path, 8)
        document = machine.root(fresh.treasury).create()
        begun = time.monotonic()
        document.put(data[0])
        whole = time.monotonic() - begun
        machine.close()
        cut = 0
        for turn in range(6):
            machine = self.open(path, 8)
            killer = threading.Timer(random.uniform(0.05, 0.7) * whole, machine.kill)
            killer.start()
            try:
                machine.thread(1).object(document.base).put(data[turn % 2])
            except mungi.Ended as ended:
                cut += 1
                lines = [line for line, _ in ended.answered] + ended.unanswered + ended.unsent
                self.assertEqual(
                    lines[:2], [f"1 info {document.base:#x}", f"1 store {document.base:#x} 0"][: len(lines)]
                )
                self.assertLessEqual(len(lines), 1 + 1 + 188 + 1)
            killer.join()
            self.quit(machine)
            with self.open(path) as machine:
                self.assertIn(machine.thread(1).object(document.base).get(), (b"", *data))
        self.assertGreater(cut, 0, "no put was cut")

    def test_the_client_is_killed_in_the_middle(self):
        path, _ = self.new()
        source = (
            "import sys, mungi\n"
            "machine = mungi.Machine(sys.argv[1], 8, sys.argv[2])\n"
            "with machine.batch(100) as batch:\n"
            "    for number in range(1, 1_000_000):\n"
            f"        batch.thread(1).store({mungi.ROOT + 64} + 8 * (number % {self.RING}), number, into_list=True)\n"
            "        if number == 3000: print(flush=True)\n"
        )
        client = subprocess.Popen([sys.executable, "-c", source, path, PROGRAM], stdout=subprocess.PIPE, cwd=SOURCES)
        with client:
            client.stdout.readline()
            time.sleep(random.uniform(0, 0.3))
            client.kill()
        # The program runs the lines that it was given, and ends. No line was cut, so what is kept are first ones.
        for _ in range(PATIENCE * 10):
            try:
                self.open(path).close()
                break
            except mungi.Ended as ended:
                self.assertIn("another run holds it", ended.said)
                time.sleep(0.1)
        self.assertGreater(self.kept(path, 1), 0)

    def test_killed_while_nothing_is_asked(self):
        path, fresh = self.new()
        machine = self.open(path)
        machine.root(fresh.treasury).store(8, 4)
        machine.kill()
        with self.assertRaises(mungi.Ended) as caught:
            machine.root(fresh.treasury).load(8)
        self.assertEqual((caught.exception.status, caught.exception.answered), (-signal.SIGKILL, []))
        self.assertEqual(caught.exception.unanswered + caught.exception.unsent, ["1 load 0x100000008"])
        machine = self.open(path)
        self.assertEqual(machine.thread(1).load(mungi.ROOT + 8), 4)
        machine.kill()
        self.assertEqual(machine.close(), -signal.SIGKILL)

    def test_a_program_that_does_not_answer(self):
        path, fresh = self.new()
        machine = mungi.Machine(path, 1, PROGRAM, timeout=0.3)
        self.addCleanup(self.quit, machine)
        os.kill(machine._process.pid, signal.SIGSTOP)
        begun = time.monotonic()
        with self.assertRaises(mungi.Ended) as caught:
            machine.root(fresh.treasury).store(8, 4)
        self.assertEqual(
            (caught.exception.status, caught.exception.unanswered), (-signal.SIGKILL, ["1 store 0x100000008 4"])
        )
        self.assertLess(time.monotonic() - begun, 10)

    def test_an_interrupt_in_a_wait_ends_the_run(self):
        path, fresh = self.new()
        machine = self.open(path, 64)
        root = machine.root(fresh.treasury)
        root.store(8, 4)
        os.kill(machine._process.pid, signal.SIGSTOP)
        timer = threading.Timer(0.2, signal.pthread_kill, [threading.main_thread().ident, signal.SIGINT])
        begun = time.monotonic()
        timer.start()
        with self.assertRaises(KeyboardInterrupt):
            root.store(8, 5)
        self.assertLess(time.monotonic() - begun, 10)
        timer.join()
        with self.assertRaises(mungi.Ended) as caught:
            root.load(8)
        self.assertEqual((caught.exception.status, caught.exception.unsent), (-signal.SIGKILL, ["1 load 0x100000008"]))
        self.assertIn(self.open(path).thread(1).load(mungi.ROOT + 8), (4, 5))

    def test_the_disk_fails_in_the_middle(self):
        # A limit on the size of files lies below the pages' places, so the journal can't be emptied into them.
        limited = self.folder / "limited"
        limited.write_text(f'#!/bin/sh\ntrap "" XFSZ\nulimit -f 20000\nexec "{PROGRAM}" "$@"\n')
        limited.chmod(0o700)
        if (
            subprocess.run([limited, "x", "dry", "16", "0" * 64, "0"], stdin=subprocess.DEVNULL, check=False).returncode
            != 0
        ):
            self.skipTest("the shell can't limit the size of files")
        for batch in (1, 8):
            path, _ = self.new()
            machine = self.open(path, batch, limited)
            with self.assertRaises(mungi.Ended) as caught:
                self.store_until_it_ends(machine, 1, 100_000)
            ended = caught.exception
            self.assertEqual(ended.status, 4)
            self.assertIn("File too large", ended.said)
            self.assertGreater(len(ended.answered), 0)
            self.assert_holds(path, 1, ended, batch)

    def test_nothing_is_kept_of_what_a_source_that_fails_left_unanswered(self):
        ended = mungi.Ended(5, "", [], [], ["1 store 0x100000008 4"], [])
        self.assertFalse(ended.some_may_be_kept)
        self.assertIn("standard input failed", str(ended))

    def test_what_an_end_of_the_input_gives(self):
        path, fresh = self.new()
        with self.assertRaises(ZeroDivisionError):
            with self.open(path, 64) as machine:
                with machine.batch() as batch:
                    batch.object(machine.root(fresh.treasury)).store(8, 3)
                    _ = 1 // 0
        self.assertEqual((machine.close(), machine.close()), (0, 0))
        machine = self.open(path)
        self.assertEqual(machine.thread(1).load(mungi.ROOT + 8), 3)


if __name__ == "__main__":
    unittest.main()
