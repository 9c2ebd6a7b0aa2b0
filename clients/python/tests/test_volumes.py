"""Making and opening volumes, and keeping them."""

import os
import threading
import time
import unittest
import warnings

import mungi
from tests.support import DEV, PATIENCE, PROGRAM, SHOW, OnVolumes


class Volumes(OnVolumes):
    def test_a_new_volume_is_fresh_and_private(self):
        path, fresh = self.new(frames=80, credits=77)
        self.assertEqual(fresh.root, mungi.ROOT)
        self.assertNotEqual(fresh.password, fresh.treasury)
        self.assertEqual(path.stat().st_mode & 0o777, 0o600)
        self.assertEqual(mungi.check(path, PROGRAM), mungi.Check(80, 1, 1, 1, 1, 0, 77))

    def test_seeds_are_drawn(self):
        made = [mungi.new_volume(self.folder / name, 16, 0, program=PROGRAM) for name in ("one", "two")]
        self.assertNotEqual(made[0].password, made[1].password)

    def test_a_file_that_is_there_is_kept(self):
        path = self.folder / "mine"
        path.write_bytes(b"mine")
        with self.assertRaises(FileExistsError):
            mungi.new_volume(path, 64, 1000, program=PROGRAM)
        self.assertEqual(path.read_bytes(), b"mine")

    def test_words_that_format_refuses_leave_no_file(self):
        path = self.folder / "few"
        with self.assertRaises(mungi.Ended) as caught:
            mungi.new_volume(path, 15, 1000, program=PROGRAM)
        self.assertEqual(caught.exception.status, 1)
        self.assertIn("FRAMES is 15", caught.exception.said)
        self.assertFalse(path.exists())

    def test_a_tariff(self):
        machine, _ = self.begin(tariff=[(0, 7), (10, 8), (20, 9), (30, 10)])
        self.assertEqual(machine.rent(), mungi.Rent(1, 7, 7))

    def test_a_file_that_is_no_volume(self):
        path = self.folder / "none"
        path.write_bytes(bytes(8192))
        with self.assertRaises(mungi.Ended) as caught:
            self.open(path)
        self.assertEqual((caught.exception.status, caught.exception.put), (2, ["open not"]))
        self.assertFalse(caught.exception.some_may_be_kept)
        with self.assertRaises(mungi.Ended) as caught:
            mungi.check(path, PROGRAM)
        self.assertEqual(caught.exception.status, 2)

    def test_another_run_has_the_file(self):
        path, fresh = self.new()
        first = self.open(path)
        with self.assertRaises(mungi.Ended) as caught:
            self.open(path)
        self.assertEqual(caught.exception.status, 4)
        self.assertIn("another run holds it, and has for 0.3 s", caught.exception.said)
        first.root(fresh.treasury).store(8, 6)
        self.assertEqual(first.close(), 0)
        self.assertEqual(self.open(path).thread(1).load(mungi.ROOT + 8), 6)

    def test_another_run_is_waited_for(self):
        path, fresh = self.new()
        first = self.open(path)
        first.root(fresh.treasury).store(8, 6)
        ends = threading.Timer(1.2, first.close)
        ends.start()
        begun = time.monotonic()
        second = mungi.Machine(path, program=PROGRAM, timeout=PATIENCE, wait=PATIENCE)
        self.addCleanup(self.quit, second)
        self.assertGreater(time.monotonic() - begun, 1)
        self.assertEqual(second.thread(1).load(mungi.ROOT + 8), 6)
        ends.join()
        self.assertEqual(first.close(), 0)

    def test_a_wait_for_another_run_ends(self):
        path, fresh = self.new()
        first = self.open(path)
        begun = time.monotonic()
        with self.assertRaises(mungi.Ended) as caught:
            mungi.Machine(path, program=PROGRAM, timeout=PATIENCE, wait=1)
        self.assertGreater(time.monotonic() - begun, 1)
        self.assertEqual((caught.exception.status, caught.exception.unanswered + caught.exception.unsent), (4, []))
        self.assertIn("another run holds it, and has for 0.3 s", caught.exception.said)
        first.root(fresh.treasury).store(8, 6)
        with self.assertRaises(ValueError):
            mungi.Machine(path, program=PROGRAM, wait=-1)

    def test_what_is_no_volume_is_not_waited_for(self):
        path = self.folder / "none"
        path.write_bytes(bytes(8192))
        begun = time.monotonic()
        with self.assertRaises(mungi.Ended) as caught:
            mungi.Machine(path, program=PROGRAM, timeout=PATIENCE, wait=2 * PATIENCE)
        self.assertEqual(caught.exception.status, 2)
        self.assertLess(time.monotonic() - begun, PATIENCE)


class Keeping(OnVolumes):
    """Files that were cut, copies, two files, and what nobody reaches."""

    @staticmethod
    def lengthen(path, frames=64):
        """Gives a file the whole length of its volume, as `format` does."""
        os.truncate(path, 4096 * (2595 + (frames + 511) // 512 + frames))

    def test_a_file_that_was_cut_short(self):
        path, _ = self.new()
        os.truncate(path, 4096 * 2000)
        with self.assertWarns(mungi.CutShort) as caught:
            mungi.check(path, PROGRAM)
        self.assertIn("cut short", str(caught.warning))
        with self.assertWarns(mungi.CutShort):
            self.open(path).close()

    def test_a_warning_that_is_an_error(self):
        path, _ = self.new()
        os.truncate(path, 4096 * 2000)
        with warnings.catch_warnings():
            warnings.simplefilter("error", mungi.CutShort)
            with self.assertRaises(mungi.CutShort):
                with self.open(path):
                    pass
        # Nothing holds the file any more.
        os.truncate(path, 4096 * 1300)
        with self.assertRaises(mungi.Ended) as caught:
            self.open(path)
        self.assertEqual(caught.exception.put, ["open damaged"])

    def test_a_backup_between_calls(self):
        path, fresh = self.new()
        self.lengthen(path)
        machine = self.open(path)
        root, copy = machine.root(fresh.treasury), self.folder / "copy"
        document = root.create()
        document.put(b"first")
        self.assertEqual(machine.backup(copy).objects, 2)
        document.put(b"second")
        self.assertEqual(document.get(), b"second")
        with self.assertRaises(mungi.BackupFailed) as caught:
            machine.backup(copy)
        self.assertIn("is there already", str(caught.exception))
        self.assertEqual(document.get(), b"second")
        with machine.batch():
            with self.assertRaises(RuntimeError):
                machine.backup(self.folder / "other")
        self.assertEqual(machine.close(), 0)
        self.assertEqual(self.open(copy).thread(1).object(document.base).get(), b"first")

    def test_a_backup_of_a_file_that_was_cut(self):
        path, _ = self.new()
        self.lengthen(path)
        with warnings.catch_warnings(), self.open(path) as machine:
            warnings.simplefilter("ignore", mungi.CutShort)
            os.truncate(path, os.path.getsize(path) - 4096)
            with self.assertRaises(mungi.BackupFailed) as caught:
                machine.backup(self.folder / "copy")
            self.assertIn("cut short", str(caught.exception))
        self.assertFalse((self.folder / "copy").exists())

    @unittest.skipIf(DEV is None, "there is no program mungi_dev: set MUNGI_DEV, or build it")
    def test_two_files(self):
        path, fresh = self.new()
        other = self.folder / "other"
        machine = mungi.Machine(path, program=DEV, mirror=other)
        self.addCleanup(self.quit, machine)
        machine.root(fresh.treasury).store(8, 6)
        self.assertEqual((machine.close(), machine.dropped), (0, None))
        with self.open(other) as machine:
            self.assertEqual(machine.thread(1).load(mungi.ROOT + 8), 6)
        # The other way round, with a file that can't be written.
        with warnings.catch_warnings(record=True) as caught:
            warnings.simplefilter("always")
            machine = mungi.Machine("/dev/full", program=DEV, mirror=other, side="right")
            self.addCleanup(self.quit, machine)
            machine.root(fresh.treasury).store(8, 7)
            self.assertEqual((machine.close(), machine.dropped), (0, "left"))
        self.assertIn(mungi.SideDropped, {warning.category for warning in caught})

    @unittest.skipIf(SHOW is None, "there is no program mungi_show: set MUNGI_SHOW, or build it")
    def test_what_nobody_reaches(self):
        path, fresh = self.new()
        with self.open(path) as machine:
            root = machine.root(fresh.treasury)
            kept, named = root.create(), root.create()
            kept.store(8, 5)
            # As a kill between `create` and the store of the entry leaves it.
            lost = root.thread.create(3, 1, fresh.treasury)
            # A slot names this one, by a password without R, so nobody has a right there now.
            root.thread.apdadd(named.base, named.grant("X").password)
            root.remove(named)
        found = mungi.unreached(path, SHOW)
        self.assertEqual(
            found,
            [
                mungi.Unreached(named.base, 1, 1, named.password, True),
                mungi.Unreached(lost.base, 3, 1, lost.password, False),
            ],
        )
        self.assertEqual(mungi.check(path, PROGRAM).pages, 6)
        with self.open(path) as machine:
            root = machine.root(fresh.treasury)
            for it in found:
                if not it.is_named:
                    root.add(it)
                    root.thread.delete(it.base)
                    root.remove(it)
            self.assertEqual(kept.base, root.entries()[1].base)
        self.assertEqual([it.base for it in mungi.unreached(path, SHOW)], [named.base])
        self.assertEqual(mungi.check(path, PROGRAM).pages, 3)

    def test_what_a_debt_does_and_how_it_ends(self):
        machine, root = self.begin(credits=100)
        friend = root.purse.open(1)
        document = root.create(3)
        document.recharge(friend)
        document.put(b"still there")
        machine.rent()
        self.assertEqual(friend.balance(), mungi.Balance(0, 2, 3))
        self.assertEqual(document.get(), b"still there")
        with self.assertRaises(mungi.Debt):
            root.thread.create(1, friend.number, friend.password)
        with self.assertRaises(mungi.Debt):
            root.recharge(friend)
        # Credits alone end no debt: the next rent does.
        root.purse.pay(friend, 10)
        self.assertEqual(friend.balance(), mungi.Balance(10, 2, 3))
        with self.assertRaises(mungi.Debt):
            root.thread.create(1, friend.number, friend.password)
        machine.rent()
        self.assertEqual(friend.balance(), mungi.Balance(5, 0, 3))
        self.assertEqual(root.thread.create(1, friend.number, friend.password).base, document.base + 3 * 4096)


if __name__ == "__main__":
    unittest.main()
