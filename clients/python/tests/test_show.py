"""Tests of the reader of mungi_show's texts: python3 -m unittest, in the folder above.

The programs are those of support.py; the tests on real volumes are skipped if there are none. MUNGI_SESSIONS says how many random
sessions are run, and MUNGI_PATIENCE how many seconds a program may take. The seed of the random sessions is in the message of a failure.
"""

import itertools
import os
import random
import shutil
import subprocess
import tempfile
import time
import unittest
from pathlib import Path

import mungi
from mungi.show import read_reach, read_state
from mungi.texts import (
    AccountRow,
    BadText,
    Change,
    Counters,
    Frame,
    ObjectRow,
    PasswordRow,
    Reach,
    Settings,
    Slot,
    State,
    ThreadRow,
    Words,
)
from tests.support import PROGRAM, SHOW

PATIENCE = float(os.environ.get("MUNGI_PATIENCE", "60"))
SESSIONS = int(os.environ.get("MUNGI_SESSIONS", "20"))
ZEROS = "0" * 64
ROOT = mungi.ROOT
ALL = "RWXDPO"


def drawn(count):
    """The first passwords of the seed of zeros: the key stream of ChaCha20, 64 bits each."""
    found = []
    for block in range(-(-count // 8)):
        start = [0x61707865, 0x3320646E, 0x79622D32, 0x6B206574, *[0] * 8, block, 0, 0, 0]
        x = list(start)
        for _ in range(10):
            for a, b, c, d in ((0, 4, 8, 12), (1, 5, 9, 13), (2, 6, 10, 14), (3, 7, 11, 15), (0, 5, 10, 15), (1, 6, 11, 12), (2, 7, 8, 13), (3, 4, 9, 14)):
                for to, by, mixed, left in ((a, b, d, 16), (c, d, b, 12), (a, b, d, 8), (c, d, b, 7)):
                    x[to] = (x[to] + x[by]) % 2**32
                    y = x[mixed] ^ x[to]
                    x[mixed] = (y << left | y >> (32 - left)) % 2**32
        words = [(one + other) % 2**32 for one, other in zip(x, start)]
        found += [low | high << 32 for low, high in zip(words[::2], words[1::2])]
    return found[:count]


def text_of(state):
    """The text of a state, written as docs/mungi_show.1 describes it."""
    made, counters = state.settings, state.counters
    yield f"frames {made.frames}\nseed {made.seed}\ncredits {made.credits}\ntariff {' '.join(f'{pages}:{rate}' for pages, rate in made.tariff)}\n"
    yield f"draws {counters.draws}\nperiod {counters.period}\ncursor {counters.cursor}\nbirths {counters.births}\n"
    for row in state.accounts:
        yield f"account {row.number} {row.password:#018x} {row.balance} {row.owed} {row.pages}\n"
    for row in state.objects:
        yield f"object {row.base:#018x} {row.pages} {row.account}\n"
        for it in row.passwords:
            yield f"password {it.password:#018x} {it.rights} {'never' if it.until is None else it.until}\n"
        yield from (f"entry {it:#018x}\n" for it in row.entries)
        if row.extension is not None:
            yield f"extension {row.extension.base:#018x} {row.extension.password:#018x}\n"
    for row in state.threads:
        registers = " ".join(f"{it:#018x}" for it in row.registers)
        yield f"thread {row.number} {row.birth} {row.creator} {row.pc:#018x} {row.state}{f' {row.cause}' if row.cause else ''} {registers}\n"
        for frame in row.frames:
            yield f"frame {frame.back:#018x}\n"
            yield from (f"slot {it.base:#018x} {it.password:#018x}\n" for it in frame.slots)
    for row in state.objects:
        yield from (f"word {address:#018x} {value:#018x}\n" for address, value in row.words.items())


def reach_of(state):
    """Who may reach what, by the rules of docs/MACHINE.md: a search through the state, which shares no line with the reader."""
    period = state.counters.period
    objects = {row.base: row for row in state.objects}

    def holds(base, password, right):
        rows = objects[base].passwords if base in objects else ()
        return any(row.password == password and right in row.rights and (row.until is None or period < row.until) for row in rows)

    def named_by(slot):
        if not holds(slot.base, slot.password, "R"):
            return
        words = objects[slot.base].words
        for place in range(min(words.get(slot.base, 0), 255)):
            at = slot.base + 16 + 16 * place
            yield words.get(at, 0), words.get(at + 8, 0)

    found = []
    for thread in state.threads:
        named = {pair for slot in thread.frames[-1].slots for pair in named_by(slot)}
        for base in sorted({base for base, _ in named} & set(objects)):
            passwords = [password for named_base, password in named if named_base == base]
            rights = "".join(letter for letter in ALL if any(holds(base, password, letter) for password in passwords))
            if rights:
                found.append(Reach(thread.number, base, rights, objects[base].entries if "P" in rights else ()))
    return found


class Texts(unittest.TestCase):
    """The reader alone: no program is needed."""

    LINES = [
        "frames 64\n", f"seed {ZEROS}\n", "credits 1000\n", "tariff 0:1 16:2 32:4 48:8\n", "draws 4\n", "period 3\n", "cursor 1\n", "births 2\n",
        "account 1 0x0000000000000001 900 0 1\n", "account 2 0x0000000000000002 100 7 2\n",
        "object 0x0000000100000000 1 1\n", "password 0x0000000000000003 RWXDPO never\n", "password 0x0000000000000004 RX 3\n",
        "entry 0x0000000100000008\n", "extension 0x0000000100001000 0x0000000000000005\n", "object 0x0000000100001000 2 2\n",
        "thread 1 1 0 0x0000000000000000 Stopped" + " 0x0000000000000000" * 8 + "\n", "frame 0x0000000000000000\n",
        "thread 7 2 1 0x0000000100000008 Faulted Denied" + " 0x0000000000000009" * 8 + "\n",
        "frame 0x0000000000000000\n", "slot 0x0000000100000000 0x0000000000000003\n", "frame 0x0000000000000010\n",
        "word 0x0000000100000000 0x0000000000000001\n", "word 0x0000000100002ff8 0xffffffffffffffff\n",
    ]  # fmt: skip
    STATE = State(
        Settings(64, ZEROS, 1000, ((0, 1), (16, 2), (32, 4), (48, 8))),
        Counters(4, 3, 1, 2),
        (AccountRow(1, 1, 900, 0, 1), AccountRow(2, 2, 100, 7, 2)),
        (
            ObjectRow(ROOT, 1, 1, (PasswordRow(3, ALL, None), PasswordRow(4, "RX", 3)), (ROOT + 8,), Slot(ROOT + 4096, 5), Words([(ROOT, 1)])),
            ObjectRow(ROOT + 4096, 2, 2, (), (), None, Words([(ROOT + 0x2FF8, 2**64 - 1)])),
        ),
        (
            ThreadRow(1, 1, 0, 0, "Stopped", None, (0,) * 8, (Frame(0, ()),)),
            ThreadRow(7, 2, 1, ROOT + 8, "Faulted", "Denied", (9,) * 8, (Frame(0, (Slot(ROOT, 3),)), Frame(16, ()))),
        ),
    )

    def test_each_line_of_a_state(self):
        self.assertEqual(read_state(self.LINES), self.STATE)
        self.assertEqual("".join(text_of(self.STATE)), "".join(self.LINES))

    def test_what_a_state_is_asked(self):
        state = self.STATE
        root, thread = state.object(ROOT), state.thread(7)
        self.assertEqual((root.word(ROOT), root.word(ROOT + 4088), root.end), (1, 0, ROOT + 4096))
        self.assertEqual((root.rights_by(4, 2), root.rights_by(4, 3), root.rights_by(3, 3), root.rights_by(5, 0)), ("RX", "", ALL, ""))
        self.assertEqual((thread.domain, state.account(2).owed), ((), 7))
        for asks in (lambda: state.thread(2), lambda: state.object(ROOT + 8), lambda: state.account(3), lambda: root.word(ROOT + 4096), lambda: root.word(ROOT + 4)):
            self.assertRaises(KeyError, asks)

    def test_filters(self):
        state = read_state(self.LINES, thread=7, base=ROOT + 4096)
        self.assertEqual((state.threads, state.objects), (self.STATE.threads[1:], self.STATE.objects[1:]))
        self.assertEqual((state.settings, state.accounts), (self.STATE.settings, self.STATE.accounts))
        state = read_state(self.LINES, thread=2, words=False)
        self.assertEqual((state.threads, [len(row.words) for row in state.objects]), ((), [0, 0]))

    def test_a_line_that_is_not_known_is_told(self):
        for at, line in (
            (0, "frames 064\n"), (1, "seed 00\n"), (3, "tariff 0:1 16:2 32:4\n"), (4, "draw 4\n"), (8, "account 2 0x0000000000000001 900 0 1\n"),
            (9, "account 2 0x2 100 7 2\n"), (11, "password 0x0000000000000003 WR never\n"), (12, "password 0x0000000000000004 RX ever\n"),
            (13, "entry 0x0000000100000008 \n"), (14, "Extension 0x0000000100001000 0x0000000000000005\n"), (15, "object 0x0000000100000000 2 2\n"),
            (16, "thread 1 1 0 0x0000000000000000 Ended" + " 0x0000000000000000" * 8 + "\n"), (17, "slot 0x0000000100000000 0x0000000000000003\n"),
            (18, "\n"), (21, "frame 0x000000000000001A\n"), (22, "word 0x0000000100000001 0x0000000000000001\n"),
            (23, "word 0x0000000100003000 0x0000000000000001\n"), (23, "word 0x0000000100000000 0x0000000000000001\n"), (23, "word 0x0000000100002ff8 0x0000000000000000\n"),
        ):  # fmt: skip
            with self.subTest(line), self.assertRaises(BadText) as caught:
                read_state([*self.LINES[:at], line, *self.LINES[at + 1 :]])
            self.assertEqual((caught.exception.number, caught.exception.line), (at + 1, line.rstrip("\n")))
            self.assertIn(repr(line.rstrip("\n")), str(caught.exception))

    def test_each_line_is_read(self):
        # No line may be dropped, written twice or moved, but for those whose absence is a smaller state.
        for at, line in enumerate(self.LINES):
            with self.subTest(line), self.assertRaises(BadText):
                read_state([*self.LINES[: at + 1], "more\n", *self.LINES[at + 1 :]])
            with self.subTest(line), self.assertRaises(BadText):
                read_state([*self.LINES[:at], line.rstrip("\n")])
        for end in range(17):
            if self.LINES[end].split()[0] not in ("account", "object", "password", "entry", "extension", "thread"):
                self.assertRaises(BadText, read_state, self.LINES[:end])
        self.assertRaises(BadText, read_state, self.LINES[:17])

    def test_the_lines_of_reach(self):
        lines = ["reach 1 0x0000000100000000 RP\n", "enter 1 0x0000000100000008\n", "enter 1 0x0000000100000010\n", "reach 1 0x0000000100001000 O\n", "reach 2 0x0000000100000000 W\n"]
        rows = [Reach(1, ROOT, "RP", (ROOT + 8, ROOT + 16)), Reach(1, ROOT + 4096, "O", ()), Reach(2, ROOT, "W", ())]
        self.assertEqual(list(read_reach(lines)), rows)
        self.assertEqual(list(read_reach([])), [])
        for at, line in (
            (0, "reach 1 0x0000000100000000 \n"), (0, "reach 1 0x0000000100000000 PR\n"), (1, "enter 2 0x0000000100000008\n"), (2, "enter 1 0x10\n"),
            (3, "reach 1 0x0000000100000000 O\n"), (4, "enter 1 0x0000000100001000\n"), (4, "reach 2 0x0000000100000000 W"), (4, "word 1 2\n"),
        ):  # fmt: skip
            with self.subTest(line), self.assertRaises(BadText) as caught:
                list(read_reach([*lines[:at], line, *lines[at + 1 :]]))
            self.assertEqual((caught.exception.number, caught.exception.line), (at + 1, line.rstrip("\n")))

    def test_changes_of_rows(self):
        before = [Reach(1, ROOT, ALL, ()), Reach(2, ROOT, "RP", (ROOT + 8,)), Reach(2, ROOT + 4096, "R", ())]
        after = [Reach(1, ROOT, ALL, ()), Reach(2, ROOT, "RWP", (ROOT + 16,)), Reach(3, ROOT, "X", ())]
        told = [
            Change(2, ROOT, "W", "", (ROOT + 16,), (ROOT + 8,)),
            Change(2, ROOT + 4096, "", "R"),
            Change(3, ROOT, "X", ""),
        ]
        self.assertEqual(mungi.changes(before, after), told)
        self.assertEqual(mungi.changes(reversed(before), iter(after)), told)
        self.assertEqual(mungi.changes(before, before), [])
        self.assertEqual(mungi.changes(before, after, thread=3), told[2:])
        self.assertEqual(mungi.changes(before, after, base=ROOT), [told[0], told[2]])

    def test_a_large_text_is_read_in_time(self):
        base = [ROOT + 4096 * at for at in range(4000)]
        objects = [f"object {it:#018x} 1 1\n" + f"password {it:#018x} RWXDPO never\n" * 8 + f"entry {it:#018x}\n" for it in base]
        text = "".join([*self.LINES[:9], *objects, *self.LINES[16:18], *(f"word {it + 8 * at:#018x} {at + 1:#018x}\n" for it in base for at in range(25))])
        begun = time.process_time()
        state = read_state(text.splitlines(keepends=True))
        self.assertLess(time.process_time() - begun, 5)
        self.assertEqual((len(state.objects), sum(len(row.words) for row in state.objects)), (4000, 100_000))


@unittest.skipIf(PROGRAM is None or SHOW is None, "there are no programs: set MUNGI and MUNGI_SHOW, or build them")
class OnVolumes(unittest.TestCase):
    def setUp(self):
        folder = tempfile.TemporaryDirectory(prefix="mungi-test-")
        self.addCleanup(folder.cleanup)
        self.folder = Path(folder.name)
        self.volume = self.folder / "volume"

    def program(self, *words, calls=""):
        done = subprocess.run([PROGRAM, *map(str, words)], input=calls, capture_output=True, text=True, timeout=PATIENCE, check=False)
        self.assertEqual(done.returncode, 0, done.stderr)
        return done.stdout.splitlines()

    def format(self, frames=64, credits=1000):
        self.program(self.volume, "format", frames, ZEROS, credits)

    def run_all(self, calls):
        """Runs lines, none of which may be refused, on the volume."""
        lines = [line for line in calls.splitlines() if line.strip()]
        answers = self.program(self.volume, "run", "64", calls="\n".join(lines) + "\n")
        self.assertEqual([pair for pair in zip(lines, answers, strict=True) if not pair[1].startswith("ok")], [])

    def texts_agree(self, volume):
        """Reads both texts of a volume, and looks that no word of them was lost, and that the rights follow from the state."""
        state, reach = mungi.show(volume, program=SHOW), mungi.reach(volume, program=SHOW)
        done = subprocess.run([SHOW, volume], stdin=subprocess.DEVNULL, capture_output=True, text=True, timeout=PATIENCE, check=False)
        self.assertEqual("".join(text_of(state)), done.stdout)
        self.assertEqual(reach, reach_of(state))
        return state, reach


class Sessions(OnVolumes):
    def test_rights_that_come_and_go(self):
        p = drawn(10)
        D, L, E = ROOT + 0x1000, ROOT + 0x2000, ROOT + 0x3000
        self.format()
        # Thread 1 has a document D, a list L for thread 2, and an object E of 2 pages which account 2 pays for. Thread 2 has RWX on D.
        self.run_all(f"""
            1 create 1 1 {p[1]}
            1 create 1 1 {p[1]}
            1 store {ROOT + 32} {D}
            1 store {ROOT + 40} {p[2]}
            1 store {ROOT + 48} {L}
            1 store {ROOT + 56} {p[3]}
            1 store {ROOT} 3
            1 pwadd {L} R
            1 thread {ROOT}
            2 apdadd {L} {p[4]}
            2 apddel 0
            1 pwadd {D} RW
            1 pwadd {D} X 1
            1 pwadd {D} P
            1 entry {D} 8
            1 ext {D} {L} {p[4]}
            1 store {L + 16} {D}
            1 store {L + 24} {p[5]}
            1 store {L + 32} {D}
            1 store {L + 40} {p[6]}
            1 store {L} 2
            1 account 1 {p[1]} 100
            1 create 2 2 {p[8]}
            1 store {ROOT + 64} {E}
            1 store {ROOT + 72} {p[9]}
            1 store {ROOT} 4
        """)
        _, before = self.texts_agree(self.volume)
        self.assertEqual(before, [
            Reach(1, ROOT, ALL, ()), Reach(1, D, ALL, (D + 8,)), Reach(1, L, ALL, ()), Reach(1, E, ALL, ()), Reach(2, D, "RWX", ()),
        ])  # fmt: skip
        old = self.folder / "old"
        shutil.copyfile(self.volume, old)
        # P is given to thread 2; RW is taken away; X ends with period 0; E is deleted. The turn of thread 2 faults: it has no X on the root.
        self.run_all(f"""
            1 store {L + 48} {D}
            1 store {L + 56} {p[7]}
            1 store {L} 3
            1 pwdel {D} {p[5]}
            rent
            1 delete {E}
            next
        """)
        state, after = self.texts_agree(self.volume)
        told = [Change(1, E, "", ALL), Change(2, D, "P", "RWX", (D + 8,), ())]
        self.assertEqual(mungi.changes(before, after), told)
        self.assertEqual(mungi.changes(old, self.volume, program=SHOW), told)
        self.assertEqual(mungi.changes(before, self.volume, thread=2, program=SHOW), told[1:])
        self.assertEqual(mungi.reach(self.volume, thread=2, program=SHOW), [Reach(2, D, "P", (D + 8,))])
        self.assertEqual(mungi.reach(self.volume, base=L, program=SHOW), [Reach(1, L, ALL, ())])
        never = None
        self.assertEqual(state, State(
            Settings(64, ZEROS, 1000, ((0, 1), (16, 2), (32, 4), (48, 8))),
            Counters(10, 1, 2, 2),
            # 3 pages cost account 1 three credits, and 2 pages account 2 two; the treasury has the five.
            (AccountRow(1, p[1], 902, 0, 3), AccountRow(2, p[8], 98, 0, 0)),
            (
                ObjectRow(ROOT, 1, 1, (PasswordRow(p[0], ALL, never),), (), None, Words([
                    (ROOT, 4), (ROOT + 16, ROOT), (ROOT + 24, p[0]), (ROOT + 32, D), (ROOT + 40, p[2]), (ROOT + 48, L), (ROOT + 56, p[3]),
                    (ROOT + 64, E), (ROOT + 72, p[9]),
                ])),
                ObjectRow(D, 1, 1, (PasswordRow(p[2], ALL, never), PasswordRow(p[6], "X", 1), PasswordRow(p[7], "P", never)), (D + 8,), Slot(L, p[4])),
                ObjectRow(L, 1, 1, (PasswordRow(p[3], ALL, never), PasswordRow(p[4], "R", never)), (), None, Words([
                    (L, 3), (L + 16, D), (L + 24, p[5]), (L + 32, D), (L + 40, p[6]), (L + 48, D), (L + 56, p[7]),
                ])),
            ),
            (
                ThreadRow(1, 1, 0, 0, "Stopped", None, (0,) * 8, (Frame(0, (Slot(ROOT, p[0]),)),)),
                ThreadRow(2, 2, 1, ROOT, "Faulted", "Denied", (0,) * 8, (Frame(0, (Slot(L, p[4]),)),)),
            ),
        ))  # fmt: skip
        one = mungi.show(self.volume, thread=2, base=L, program=SHOW)
        self.assertEqual((one.threads, one.objects), (state.threads[1:], state.objects[2:]))

    def test_sixteen_frames(self):
        p = drawn(1)
        self.format()
        self.run_all(f"1 entry {ROOT} 8\n" + f"1 pdx {ROOT + 8} 1\n" * 15)
        state, reach = self.texts_agree(self.volume)
        slot = Slot(ROOT, p[0])
        self.assertEqual(state.thread(1).frames, (Frame(0, (slot,)), Frame(0, (slot,)), *[Frame(ROOT + 8, (slot,))] * 14))
        # The line `enter` is there, and yet pdx is refused with Depth.
        self.assertEqual(reach, [Reach(1, ROOT, ALL, (ROOT + 8,))])
        self.assertEqual(self.program(self.volume, "run", calls=f"1 pdx {ROOT + 8} 1\n"), ["no Depth"])

    def test_files_that_are_no_volume(self):
        self.volume.write_bytes(bytes(8192))
        for reads in (mungi.show, mungi.reach):
            with self.assertRaises(mungi.Ended) as caught:
                reads(self.volume, program=SHOW)
            self.assertEqual((caught.exception.status, caught.exception.put), (2, ["open not"]))
            self.assertRaises(FileNotFoundError, reads, self.folder / "none", program=SHOW)

    def test_random_sessions(self):
        """Each session goes on with the volume of the last one, and is made of what its state holds; now and then a new volume begins."""
        seed = random.randrange(2**32)
        draws, last = random.Random(seed), []
        for number in range(SESSIONS):
            if number % 10 == 0:
                self.format()
                state, last = self.texts_agree(self.volume)
            with self.subTest(seed=seed, session=number):
                self.program(self.volume, "run", "64", calls="".join(f"{line}\n" for line in self.lines(draws, state)))
                state, reach = self.texts_agree(self.volume)
                self.follows(last, reach)
                last = reach

    def lines(self, draws, state):
        """Some sixty lines, most of which change who may reach what."""
        bases = [row.base for row in state.objects]
        others = bases[1:] or [ROOT + 4096]
        named = [(row.base, it.password) for row in state.objects for it in row.passwords]
        entries = [it for row in state.objects for it in row.entries] or [ROOT]
        threads = [row.number for row in state.threads]
        accounts = [(row.number, row.password) for row in state.accounts]
        # The first entry of the root and the slot of thread 1 stay as they were made: so thread 1 can go on. Others change.
        for place, (base, password) in enumerate(draws.sample(named, min(len(named), 12)), 1):
            yield f"1 store {ROOT + 16 + 16 * place} {base}\n1 store {ROOT + 24 + 16 * place} {password}"
        yield f"1 store {ROOT} {draws.choice([2, 5, 13, 13, 13, 300])}"
        for _ in range(40):
            thread, base, (named_base, password) = draws.choice([1, 1, *threads]), draws.choice(bases), draws.choice(named)
            rights = "".join(draws.sample(ALL, draws.randint(1, 6)))
            until = draws.choice(["", "", f" {state.counters.period + draws.randint(1, 3)}"])
            at = base + 16 + 16 * draws.randint(base == ROOT, 4)
            yield draws.choice([
                f"{thread} create {draws.randint(1, 2)} {' '.join(map(str, draws.choice(accounts)))}",
                f"{thread} delete {draws.choice(others)}",
                f"{thread} pwadd {base} {rights}{until}", f"{thread} pwadd {base} R{until}",
                f"{thread} pwdel {named_base} {password}" if (named_base, password) != named[0] else "rent",
                f"{thread} store {at} {named_base}\n{thread} store {at + 8} {password}",
                f"{thread} store {at} {named_base}\n{thread} store {at + 8} {password}",
                f"{thread} store {base} {draws.randint(1, 6)}",
                f"{thread} apdadd {named_base} {password}", f"{thread} apddel {draws.randrange(3)}" if thread > 1 else "next",
                f"{thread} entry {base} {8 * draws.randrange(4)}", f"{thread} ext {base} {named_base} {password}",
                f"{thread} pdx {draws.choice(entries)} {draws.choice([1, 3, 255])}", f"{thread} ret", f"{thread} ret",
                f"{thread} thread {base}", f"{thread} end {draws.choice(threads)}", f"{thread} resume {draws.choice(threads)}",
                f"{thread} account 1 {accounts[0][1]} 10", "rent", "next",
            ])  # fmt: skip

    def follows(self, before, after):
        """What `changes` says leads from the one to the other."""
        rights = {(row.thread, row.base): (set(row.rights), set(row.enters)) for row in before}
        for row in mungi.changes(before, after):
            letters, enters = rights.setdefault((row.thread, row.base), (set(), set()))
            self.assertTrue(row.gained or row.lost or row.gained_enters or row.lost_enters)
            self.assertTrue(letters >= set(row.lost) and not letters & set(row.gained))
            self.assertTrue(enters >= set(row.lost_enters) and not enters & set(row.gained_enters))
            letters ^= set(itertools.chain(row.gained, row.lost))
            enters ^= set(itertools.chain(row.gained_enters, row.lost_enters))
        left = {place: both for place, both in rights.items() if both[0]}
        self.assertEqual(left, {(row.thread, row.base): (set(row.rights), set(row.enters)) for row in after})


if __name__ == "__main__":
    unittest.main()
