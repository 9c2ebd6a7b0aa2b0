"""Documents, rights, and lines that are sent together."""

import random
import unittest
import unittest.mock

import mungi
from tests.support import OnVolumes


class Documents(OnVolumes):
    SIZES = (0, 1, 7, 8, 9, 4095, 4096, 4097, 9000)

    def test_bytes_come_back(self):
        path, fresh = self.new(frames=1100)
        with self.open(path, 64) as machine:
            root = machine.root(fresh.treasury)
            kept = {}
            for size in self.SIZES:
                document = root.create((size + 8 + 4095) // 4096)
                self.assertEqual(document.get(), b"")
                kept[document.base] = random.randbytes(size)
                document.put(kept[document.base])
                self.assertEqual(document.get(), kept[document.base], size)
            largest = root.create(1024)
            kept[largest.base] = random.randbytes(9000)
            largest.put(kept[largest.base])
        with self.open(path) as machine:
            for base, data in kept.items():
                self.assertEqual(machine.thread(1).object(base).get(), data)

    def test_bytes_line_by_line(self):
        _, root = self.begin(1)
        document = root.create()
        for size in (9, 0, 200, 7):
            data = random.randbytes(size)
            document.put(data)
            self.assertEqual(document.get(), data)

    def test_where_the_bytes_stand(self):
        _, root = self.begin()
        document = root.create()
        document.put(b"\x01\x02\x03\x04\x05\x06\x07\x08\x09")
        self.assertEqual([document.load(8 * place) for place in range(4)], [9, 0x0807060504030201, 9, 0])

    def test_the_largest_that_fits(self):
        _, root = self.begin(64)
        document = root.create()
        data = random.randbytes(4088)
        document.put(data)
        self.assertEqual(document.get(), data)
        with self.assertRaises(ValueError):
            document.put(bytes(4089))
        self.assertEqual(document.get(), data)
        document.store(0, 4089)
        with self.assertRaises(ValueError):
            document.get()

    def test_a_put_that_is_refused(self):
        machine, root = self.begin(64)
        document = root.create()
        document.put(b"before")
        used = root.create_list()
        used.add(document.grant("RX"))
        other = root.new_thread(used, document.base).object(document)
        with self.assertRaises(mungi.Denied):
            other.put(random.randbytes(500))
        self.assertEqual((other.get(), document.get()), (b"before", b"before"))


class Rights(OnVolumes):
    def test_a_reader_that_is_granted_and_revoked(self):
        for batch in (1, 64):
            path, fresh = self.new()
            machine = self.open(path, batch)
            root = machine.root(fresh.treasury)
            document, start, shared = root.create(), root.create(), root.create_list()
            shared.add(start.grant("X"))
            friend = root.new_thread(shared, start.base)
            self.assertEqual(
                (friend.number, friend.apdlist(), machine.thread(1).apdlist()), (2, [shared.base], [mungi.ROOT])
            )
            document.put(b"for a while")
            mine = friend.object(document)
            with self.assertRaises(mungi.Denied):
                mine.get()
            reader = document.grant("R", until=3)
            with self.assertRaises(mungi.Denied):
                mine.get()
            shared.add(reader)
            self.assertEqual(mine.get(), b"for a while")
            with self.assertRaises(mungi.Denied):
                mine.put(b"mine")
            with self.assertRaises(mungi.Denied):
                mine.delete()
            reader.revoke()
            with self.assertRaises(mungi.Denied):
                mine.get()
            with self.assertRaises(mungi.NoPassword):
                reader.revoke()
            self.assertEqual(document.get(), b"for a while")
            # A right that ends with a period, and is kept over a new run.
            shared.add(document.grant("R", until=1))
            self.assertEqual(machine.close(), 0)
            machine = self.open(path, batch)
            mine = machine.thread(2).object(document.base)
            self.assertEqual(mine.get(), b"for a while")
            self.assertEqual(machine.rent().period, 1)
            with self.assertRaises(mungi.Denied):
                mine.get()

    def test_a_thread_needs_a_start_that_its_list_gives(self):
        machine, root = self.begin()
        shared, start = root.create_list(), root.create()
        with self.assertRaises(mungi.Denied):
            root.new_thread(shared, start.base)
        self.assertEqual(machine.thread(1).apdlist(), [mungi.ROOT])
        with self.assertRaises(mungi.NoFrame):
            machine.thread(1).ret()

    def test_lists(self):
        machine, root = self.begin(64)
        shared = root.create_list()
        wanted = [mungi.Capability(random.getrandbits(64), random.getrandbits(64)) for _ in range(255)]
        for capability in wanted[:9]:
            shared.add(capability)
        self.assertEqual(shared.entries(), wanted[:9])
        for index in (3, 8, 0):
            shared.remove(wanted[index])
        left = [wanted[index] for index in (1, 2, 4, 5, 6, 7)]
        self.assertEqual(sorted(shared.entries()), sorted(left))
        with self.assertRaises(KeyError):
            shared.remove(wanted[3])
        with machine.batch() as batch:
            stores = batch.object(shared)
            for place, capability in enumerate(wanted):
                stores.store(16 + 16 * place, capability.base, into_list=True)
                stores.store(24 + 16 * place, capability.password, into_list=True)
            stores.store(0, 1 << 40, into_list=True)
        self.assertEqual(shared.entries(), wanted)
        with self.assertRaises(mungi.ListIsFull):
            shared.add(wanted[0])
        self.assertEqual(shared.load(0), 1 << 40)
        with self.assertRaises(ValueError):
            shared.add(root)

    def test_accounts_of_others(self):
        machine, root = self.begin()
        document = root.create(3)
        friend = root.purse.open(20)
        document.recharge(friend)
        machine.rent()
        self.assertEqual((friend.balance(), root.purse.balance()), (mungi.Balance(17, 0, 3), mungi.Balance(983, 0, 1)))
        root.purse.pay(friend, 3)
        self.assertEqual(friend.balance().credits, 20)


class Batches(OnVolumes):
    def test_answers_are_there_behind_the_block(self):
        for batch in (1, 7, 64):
            for lines in (1, 10, 4096):
                machine, root = self.begin(batch)
                with machine.batch(lines) as block:
                    its = block.object(root)
                    stored = [its.store(8 * place, 3 * place, into_list=True) for place in range(8, 58)]
                    loaded = [its.load(8 * place) for place in range(8, 58)]
                self.assertEqual([answer.value for answer in stored], [None] * 50)
                self.assertEqual([answer.value for answer in loaded], [3 * place for place in range(8, 58)])
                self.assertEqual(len(block.answers), 100)
                self.assertEqual(machine.close(), 0)

    def test_lines_wait_for_each_other(self):
        machine, root = self.begin(64)
        with machine.batch(64) as batch:
            batch.object(root).store(8, 5)
            waiting = batch.object(root).load(8)
            self.assertIsNone(waiting.text)
            self.assertEqual(waiting.value, 5)

    def test_one_call_at_a_time_is_answered_at_once_in_any_batch(self):
        for batch in (2, 63, 64):
            machine, root = self.begin(batch)
            for number in range(70):
                root.store(8, number)
                self.assertEqual(root.load(8), number)

    def test_refusals_in_a_block(self):
        machine, root = self.begin(64)
        with self.assertRaises(mungi.Denied):
            with machine.batch() as batch:
                batch.object(root).store(8, 1)
                batch.thread(1).store(8, 1)
                batch.object(root).store(64, 2, into_list=True)
        self.assertEqual((root.load(8), root.load(64)), (1, 2))
        with machine.batch(check=False) as batch:
            refused, line = batch.thread(1).load(3), batch.call("1 laod")
            stored = batch.object(root).store(72, 4, into_list=True)
        with self.assertRaises(mungi.Align):
            _ = refused.value
        self.assertEqual((stored.value, root.load(72), line.text), (None, 4, "no Syntax"))

    def test_an_error_in_a_block_leaves_no_answer_behind(self):
        machine, root = self.begin(64)
        with self.assertRaises(ZeroDivisionError):
            with machine.batch() as batch:
                batch.object(root).store(8, 9)
                _ = 1 // 0
        self.assertEqual(root.load(8), 9)
        with machine.batch():
            with self.assertRaises(RuntimeError):
                machine.batch().__enter__()
        self.assertEqual(root.load(8), 9)
        with self.assertRaises(ZeroDivisionError):
            with machine.batch() as batch:
                batch.object(root).store(8, 10)
                machine.kill()
                _ = 1 // 0

    def test_methods_of_several_calls_in_a_block(self):
        machine, root = self.begin(64)
        with machine.batch():
            document = root.create()
            document.put(b"in a block")
            grant = document.grant("R")
            root.add(grant)
            self.assertEqual(document.get(), b"in a block")
        self.assertIn((document.base, grant.password), root.entries())

    def test_other_methods_give_values_in_a_block(self):
        machine, root = self.begin(64)
        thread = machine.thread(1)
        with machine.batch() as batch:
            stored = batch.object(root).store(8, 5)
            self.assertIsNone(stored.text)
            self.assertEqual((root.load(8), stored.text), (5, "ok"))
            with self.assertRaises(mungi.Align):
                thread.load(3)
            self.assertEqual((machine.call("laod"), machine.rent().period), ("no Syntax", 1))
        self.assertEqual(batch.answers, [stored])

    def test_a_refusal_of_another_method_is_in_no_answer(self):
        machine, root = self.begin(64)
        with machine.batch() as batch:
            with self.assertRaises(mungi.Denied):
                machine.thread(1).store(8, 1)
            loaded = batch.object(root).load(0)
        self.assertEqual((loaded.value, len(batch.answers)), (1, 1))

    def test_each_call_in_a_block(self):
        machine, root = self.begin(64)
        script, purse = root.create(), root.purse
        with machine.batch() as batch:
            its, thread = batch.object(script), batch.thread(1)
            made = thread.create(1, 1, purse.password)
            password, number = thread.pwadd(script.base, "R", 9), thread.thread(script.base)
            entry, extended, recharged = its.entry(8), its.extend(None), its.recharge(purse)
            account, info = thread.account(1, purse.password, 5), its.info()
            slot, slots, gone = thread.apdadd(mungi.ROOT, 9), thread.apdlist(), thread.apddel(1)
            turn, rent = batch.next(), batch.rent()
        self.assertEqual(made.value.base, script.base + 4096)
        self.assertEqual((number.value, entry.value, extended.value, recharged.value), (2, script.base + 8, None, None))
        self.assertEqual((account.value.number, info.value), (2, mungi.Info(script.base, 1, 1, 2, 1, False)))
        self.assertEqual((slot.value, slots.value, gone.value), (1, [mungi.ROOT, mungi.ROOT], None))
        self.assertEqual((turn.value, rent.value.period), (mungi.Next(2, mungi.Turn("Stopped", None)), 1))
        with machine.batch() as batch:
            thread = batch.thread(1)
            entered, left = thread.pdx(entry.value, 1), thread.ret()
            removed, resumed = thread.pwdel(script.base, password.value), thread.resume(2)
            again, ended = batch.thread(2).turn(), thread.end(2)
            paid, balance = thread.pay(1, purse.password, 2, 7), thread.balance(2, account.value.password)
            taken, deleted = thread.ext(script.base, 0, 0), batch.object(script).delete()
        self.assertEqual((entered.value, left.value, again.value), (2, 1, mungi.Turn("Stopped", None)))
        self.assertEqual([it.value for it in (removed, resumed, ended, paid, taken, deleted)], [None] * 6)
        self.assertEqual(balance.value, mungi.Balance(12, 0, 0))

    def test_documents_in_a_block(self):
        machine, root = self.begin(64)
        documents = [root.create() for _ in range(3)]
        with machine.batch() as batch:
            answers = [batch.object(document).put(b"number %d" % place) for place, document in enumerate(documents)]
        self.assertEqual([document.get() for document in documents], [b"number 0", b"number 1", b"number 2"])
        self.assertEqual([len(some) for some in answers], [3, 3, 3])
        with machine.batch() as batch, self.assertRaises(mungi.ListPage):
            batch.object(root).store(0, 0)

    def test_a_block_that_is_not_open(self):
        machine, root = self.begin()
        batch = machine.batch()
        with self.assertRaises(RuntimeError):
            batch.thread(1).load(mungi.ROOT)
        with batch:
            its = batch.object(root)
        with self.assertRaises(RuntimeError):
            its.load(0)
        self.assertEqual(root.load(0), 1)

    def test_more_lines_than_the_pipes_hold(self):
        machine, root = self.begin(64)
        count = 40_000
        in_flight = 0
        with machine.batch(4096) as batch:
            answers, its = [], batch.object(root)
            for _ in range(count):
                answers.append(its.load(0))
                in_flight = max(in_flight, len(machine._owed) + len(machine._unsent))
        self.assertEqual(sum(answer.value == 1 for answer in answers), count)
        self.assertLessEqual(in_flight, mungi.MOST_IN_FLIGHT)
        # More than a pipe holds at once.
        self.assertGreater(4096 * (len(answers[0].line) + 1), 1 << 16)

    def test_a_run_that_has_read_all_it_may(self):
        path, fresh = self.new()
        machine = self.open(path)
        root = machine.root(fresh.treasury)
        with unittest.mock.patch("mungi.run.MOST_INPUT_BYTES", 1000), self.assertRaises(mungi.InputIsFull):
            for number in range(100):
                root.store(8, number)
                kept = number
        self.assertLess(kept, 99)
        self.assertEqual(root.load(8), kept)
        self.assertEqual(machine.close(), 0)


if __name__ == "__main__":
    unittest.main()
