"""Each call, and mistakes that are found before a line is sent."""

import os
import random
import unittest
import unittest.mock
from pathlib import Path

import mungi
from mungi.calls import RENT
from tests.support import PROGRAM, OnVolumes


class Calls(OnVolumes):
    """Each call by its own name: what it gives, and its refusals."""

    def test_words(self):
        machine, root = self.begin()
        thread = machine.thread(1)
        value = random.getrandbits(64)
        self.assertIsNone(thread.store(mungi.ROOT + 4088, value, into_list=True))
        self.assertEqual(thread.load(mungi.ROOT + 4088), value)
        for refusal, call in (
            (mungi.Align, lambda: thread.load(mungi.ROOT + 4)),
            (mungi.Denied, lambda: thread.load(mungi.ROOT + 4096)),
            (mungi.Align, lambda: thread.store(mungi.ROOT + 1, 0, into_list=True)),
            (mungi.Denied, lambda: thread.store(8, 0)),
            (mungi.NoThread, lambda: machine.thread(2).load(mungi.ROOT)),
        ):
            with self.assertRaises(refusal) as caught:
                call()
            self.assertEqual(caught.exception.word, refusal.__name__)
        self.assertEqual(root.load(4088), value)

    def test_objects(self):
        machine, root = self.begin(frames=20)
        thread, purse = machine.thread(1), root.purse
        made = thread.create(2, 1, purse.password)
        self.assertEqual(made.base, mungi.ROOT + 4096)
        with self.assertRaises(mungi.Denied):
            thread.info(made.base)
        root.add(made)
        self.assertEqual(thread.info(made.base + 4096), mungi.Info(made.base, 2, 1, 1, 0, False))
        for refusal, call in (
            (mungi.Size, lambda: thread.create(0, 1, purse.password)),
            (mungi.Account, lambda: thread.create(1, 1, purse.password ^ 1)),
            (mungi.Full, lambda: thread.create(18, 1, purse.password)),
            (mungi.Denied, lambda: thread.delete(made.base + 2 * 4096)),
        ):
            with self.assertRaises(refusal):
                call()
        self.assertIsNone(thread.delete(made.base))
        with self.assertRaises(mungi.Denied):
            thread.info(made.base)

    def test_too_many_objects(self):
        machine, root = self.begin(64, frames=5000)
        with machine.batch() as batch:
            for _ in range(4095):
                batch.thread(1).create(1, 1, root.purse.password)
        with self.assertRaises(mungi.Limit):
            root.create()

    def test_passwords(self):
        machine, root = self.begin()
        thread = machine.thread(1)
        password = thread.pwadd(mungi.ROOT, "RW", 2)
        self.assertEqual(root.info().passwords, 2)
        self.assertIsNone(thread.pwdel(mungi.ROOT, password))
        machine.rent()
        for refusal, call in (
            (mungi.NoPassword, lambda: thread.pwdel(mungi.ROOT, password)),
            (mungi.Denied, lambda: thread.pwadd(0, "R")),
            (mungi.Past, lambda: thread.pwadd(mungi.ROOT, "R", 1)),
            (mungi.Syntax, lambda: thread.pwadd(mungi.ROOT, "RZ")),
        ):
            with self.assertRaises(refusal):
                call()
        for _ in range(31):
            thread.pwadd(mungi.ROOT, "R")
        with self.assertRaises(mungi.Limit):
            thread.pwadd(mungi.ROOT, "R")

    def test_entries_and_extensions(self):
        machine, root = self.begin()
        thread = machine.thread(1)
        self.assertEqual(thread.entry(mungi.ROOT, 16), mungi.ROOT + 16)
        with self.assertRaises(mungi.Range):
            thread.entry(mungi.ROOT, 4096)
        self.assertIsNone(thread.ext(mungi.ROOT, mungi.ROOT, 5))
        self.assertTrue(root.info().has_extension)
        root.extend(None)
        self.assertFalse(root.info().has_extension)
        for offset in range(24, 24 + 8 * 15, 8):
            root.entry(offset)
        with self.assertRaises(mungi.Limit):
            root.entry(0)

    def test_domains(self):
        machine, root = self.begin()
        thread = machine.thread(1)
        self.assertEqual(thread.apdadd(4096, 9), 1)
        self.assertEqual(thread.apdlist(), [mungi.ROOT, 4096])
        self.assertIsNone(thread.apddel(1))
        with self.assertRaises(mungi.NoSlot):
            thread.apddel(1)
        for _ in range(7):
            thread.apdadd(4096, 9)
        with self.assertRaises(mungi.SlotFull):
            thread.apdadd(4096, 9)
        door = thread.entry(mungi.ROOT, 8)
        self.assertEqual(thread.pdx(door, 255), 2)
        self.assertEqual(thread.ret(), 1)
        for refusal, call in (
            (mungi.NoFrame, thread.ret),
            (mungi.NoEntry, lambda: thread.pdx(mungi.ROOT, 1)),
            (mungi.Align, lambda: thread.pdx(mungi.ROOT + 1, 1)),
            (mungi.Denied, lambda: thread.pdx(8, 1)),
            (mungi.Syntax, lambda: thread.pdx(door, 256)),
        ):
            with self.assertRaises(refusal):
                call()
        for frames in range(2, 17):
            self.assertEqual(thread.pdx(door, 1), frames)
        with self.assertRaises(mungi.Depth):
            thread.pdx(door, 1)

    def test_threads_and_turns(self):
        machine, root = self.begin(64)
        thread = machine.thread(1)
        with self.assertRaises(mungi.Idle):
            machine.next()
        with self.assertRaises(mungi.NotReady):
            thread.turn()
        script = root.create()
        script.store(8, 255)
        number = thread.thread(script.base)
        self.assertEqual(number, 2)
        self.assertEqual(machine.next(), mungi.Next(2, mungi.Turn("Stopped", None)))
        # It stands at the second word now, which is no instruction.
        self.assertIsNone(thread.resume(2))
        self.assertEqual(machine.thread(2).turn(), mungi.Turn("Faulted", "Opcode"))
        for refusal, call in (
            (mungi.NotYours, lambda: machine.thread(2).end(1)),
            (mungi.NotYours, lambda: machine.thread(2).resume(1)),
            (mungi.NoThread, lambda: thread.resume(3)),
            (mungi.Align, lambda: thread.thread(script.base + 1)),
            (mungi.Denied, lambda: thread.thread(8)),
        ):
            with self.assertRaises(refusal):
                call()
        self.assertIsNone(thread.end(2))
        with self.assertRaises(mungi.NoThread):
            thread.end(2)
        with machine.batch() as batch:
            for _ in range(255):
                batch.thread(1).thread(script.base)
        with self.assertRaises(mungi.Limit):
            thread.thread(script.base)

    def test_accounts(self):
        machine, root = self.begin()
        thread, purse = machine.thread(1), root.purse
        number, password = thread.account(1, purse.password, 100)
        self.assertEqual(number, 2)
        self.assertEqual(thread.balance(2, password), mungi.Balance(100, 0, 0))
        self.assertIsNone(thread.pay(2, password, 1, 98))
        self.assertEqual(purse.balance(), mungi.Balance(998, 0, 1))
        document = root.create(4)
        self.assertIsNone(thread.recharge(document.base, 2, password))
        self.assertEqual(machine.rent(), mungi.Rent(1, 1, 3))
        self.assertEqual(thread.balance(2, password), mungi.Balance(0, 2, 4))
        for refusal, call in (
            (mungi.Credit, lambda: thread.pay(2, password, 1, 1)),
            (mungi.Credit, lambda: thread.account(1, purse.password, 1001)),
            (mungi.Account, lambda: thread.balance(3, password)),
            (mungi.Account, lambda: thread.pay(1, purse.password, 3, 1)),
            (mungi.Debt, lambda: thread.create(1, 2, password)),
            (mungi.Debt, lambda: thread.recharge(mungi.ROOT, 2, password)),
        ):
            with self.assertRaises(refusal):
                call()

    def test_the_last_period(self):
        # Calendar takes 2**24 collections of rent, which is too long; its answer is read as all others are.
        machine, _ = self.begin()
        answer = mungi.Answer(machine, RENT)
        answer.text = "no Calendar"
        with self.assertRaises(mungi.Calendar) as caught:
            _ = answer.value
        self.assertEqual((str(caught.exception), len(mungi.REFUSALS)), ("rent -> no Calendar", 22))

    def test_lines_as_they_are(self):
        machine, _ = self.begin()
        self.assertEqual(machine.call("1 load 0x100000000"), "ok 0x0000000000000001")
        self.assertEqual(machine.call("laod"), "no Syntax")
        self.assertEqual(machine.call("x" * 256), "no Syntax")
        for line in ("", " \t\r", "# note", " # note", "1 load 8\n1 load 8", "x" * 257):
            with self.assertRaises(ValueError):
                machine.call(line)
        self.assertEqual(machine.call("next"), "no Idle")

    def test_words_that_no_line_could_hold(self):
        machine, root = self.begin()
        for call in (
            lambda: root.store(8, -1),
            lambda: root.store(8, 1 << 64),
            lambda: root.store(8, 1.0),
            lambda: root.grant("R 5"),
            lambda: root.grant("R\n1"),
            lambda: root.grant(""),
            lambda: root.grant("R" * 300),
            lambda: machine.thread(257),
            lambda: machine.batch(0),
            lambda: mungi.Machine(machine.volume, 65, PROGRAM),
        ):
            with self.assertRaises(ValueError):
                call()
        root.store(8, (1 << 64) - 1)
        self.assertEqual(root.load(8), (1 << 64) - 1)
        self.assertEqual(root.info().passwords, 1)


class Mistakes(OnVolumes):
    """What the client refuses before it sends a line, or before it starts a program."""

    def test_offsets_that_are_none_of_the_object(self):
        machine, root = self.begin(64)
        first, second = root.create(2), root.create()
        same = machine.thread(1).object(first)
        first.store(4096, 7)
        self.assertEqual((same.load(4096), same.load(8184)), (7, 0))
        for call in (
            lambda: first.load(-8),
            lambda: first.load(8192),
            lambda: same.store(8192, 1),
            lambda: machine.thread(1).object(second.base).store(4096, 1),
            lambda: second.store(-4096, 0),
            lambda: root.load(-4096),
        ):
            with self.assertRaises(ValueError):
                call()
        with machine.batch() as batch:
            stored = batch.thread(1).object(first.base).store(4104, 8)
        self.assertEqual((stored.value, same.load(4104), second.load(0), root.load(0)), (None, 8, 0, 3))

    def test_bytes_that_are_none(self):
        _, root = self.begin(64)
        document = root.create()
        document.put(b"kept")
        for data in (5, "text", [1, 2], None):
            with self.assertRaises(TypeError):
                document.put(data)
        self.assertEqual(document.get(), b"kept")
        for data in (bytearray(b"more"), memoryview(b"more")):
            document.put(data)
            self.assertEqual(document.get(), b"more")

    def test_pages_of_lists(self):
        machine, root = self.begin(64)
        thread, shared, document = machine.thread(1), root.create_list(), root.create()
        for call in (
            lambda: root.store(0, 0),
            lambda: thread.store(mungi.ROOT + 32, 5),
            lambda: shared.store(4088, 1),
            lambda: thread.object(shared).store(0, 1),
            lambda: thread.object(shared).put(b"gone"),
        ):
            with self.assertRaises(mungi.ListPage):
                call()
        # The second word is free, and what is asked for is done.
        shared.store(8, 6)
        shared.store(4088, 7, into_list=True)
        self.assertEqual((shared.load(8), shared.load(4088), shared.entries()), (6, 7, []))
        document.store(0, 9)
        thread.apdadd(document.base, 9)
        with self.assertRaises(mungi.ListPage):
            document.store(0, 10)
        # Where a list is gone, the next object in its place is none.
        shared.delete()
        again = root.create()
        self.assertEqual(again.base, shared.base)
        again.put(b"a document")
        self.assertEqual(again.get(), b"a document")

    def test_a_file_that_is_not_there(self):
        path = self.folder / "typo"
        for call in (
            lambda: mungi.Machine(path, program=PROGRAM),
            lambda: mungi.Machine(self.folder / "new", program=PROGRAM, mirror=path, side="right"),
            lambda: mungi.check(path, PROGRAM),
            lambda: mungi.unreached(path, PROGRAM),
        ):
            with self.assertRaises(FileNotFoundError):
                call()
        self.assertEqual(list(self.folder.iterdir()), [])

    def test_the_program_that_the_environment_names(self):
        with unittest.mock.patch.dict(os.environ, {"MUNGI": PROGRAM}):
            self.assertEqual(mungi.default_program(), PROGRAM)
            path = self.folder / "vol"
            mungi.new_volume(path, 16, 5)
            self.assertEqual(mungi.check(path).credits, 5)
        with unittest.mock.patch.dict(os.environ, {"MUNGI": str(self.folder / "none")}):
            with self.assertRaises(FileNotFoundError):
                mungi.default_program()
        for name in ("mungi", "mungi_show"):
            (self.folder / name).symlink_to(Path(PROGRAM).resolve())
        with unittest.mock.patch.dict(os.environ, {"MUNGI": str(self.folder / "mungi"), "MUNGI_SHOW": ""}):
            self.assertEqual(mungi.default_program("mungi_show"), str(self.folder / "mungi_show"))

    def test_words_for_a_mirror(self):
        path, _ = self.new()
        for more in ({"side": "left"}, {"mirror": "b", "batch": 2}, {"mirror": "b", "side": "both"}):
            with self.assertRaises(ValueError):
                mungi.Machine(path, program=PROGRAM, **more)

    def test_files_that_a_mirror_does_not_take(self):
        path, _ = self.new()
        before, text, link = path.read_bytes(), self.folder / "text", self.folder / "link"
        text.write_bytes(b"mine")
        link.symlink_to(path)
        for first, second, side in ((path, text, "left"), (text, path, "right")):
            with self.assertRaises(FileExistsError):
                mungi.Machine(first, program=PROGRAM, mirror=second, side=side)
        for first, second in ((path, link), (path, path)):
            with self.assertRaises(ValueError):
                mungi.Machine(first, program=PROGRAM, mirror=second)
        self.assertEqual((text.read_bytes(), path.read_bytes()), (b"mine", before))


if __name__ == "__main__":
    unittest.main()
