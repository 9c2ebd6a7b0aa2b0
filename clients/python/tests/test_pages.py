"""What the pages say: of pipes, the calls of the tour, the examples."""

import importlib
import os
import pkgutil
import re
import subprocess
import sys
import time
import unittest
from pathlib import Path

import mungi
from tests.support import HERE, PATIENCE, PROGRAM, SHOW, SOURCES, TOP, OnVolumes


class Pipes(OnVolumes):
    """What docs/CLIENT.md says of lines and replies, without the client."""

    def put_by(self, path, text, *batch):
        done = subprocess.run(
            [PROGRAM, path, "run", *batch], input=text, capture_output=True, text=True, timeout=PATIENCE, check=True
        )
        return done.stdout

    def test_comments_and_blank_lines_have_no_reply(self):
        path, _ = self.new()
        put = self.put_by(path, "# 1 next\n\n \t\r\n  #\n1 load 0x100000000\n" + "#" * 257 + "\nlaod\n")
        self.assertEqual(put, "ok 0x0000000000000001\nno Syntax\nno Syntax\n")

    def test_a_last_line_without_newline_is_run(self):
        path, _ = self.new()
        self.assertEqual(self.put_by(path, "1 store 0x100000008 12"), "ok\n")
        self.assertEqual(self.put_by(path, "1 load 0x100000008"), "ok 0x000000000000000c\n")

    def test_replies_wait_for_a_full_batch(self):
        path, _ = self.new()
        run = subprocess.Popen([PROGRAM, path, "run", "64"], stdin=subprocess.PIPE, stdout=subprocess.PIPE, bufsize=0)
        with run:
            os.set_blocking(run.stdout.fileno(), False)
            run.stdin.write(b"1 load 0x100000000\n" + b"# a comment fills no batch\n\n" * 5 + mungi.FILL * 62)
            time.sleep(0.3)
            self.assertIsNone(run.stdout.read(1))
            run.stdin.write(mungi.FILL)
            os.set_blocking(run.stdout.fileno(), True)
            replies = b""
            while replies.count(b"\n") < 64:
                replies += run.stdout.read(4096)
            self.assertEqual(replies, b"ok 0x0000000000000001\n" + b"no Syntax\n" * 63)
            run.stdin.write(b"1 load 0x100000000\n")
            run.stdin.close()
            self.assertEqual((run.stdout.read(4096), run.wait()), (b"ok 0x0000000000000001\n", 0))

    def test_calls_that_are_sent_twice(self):
        machine, root = self.begin()
        thread, purse = machine.thread(1), root.purse
        made = root.create()
        harmless = (
            lambda: thread.load(made.base),
            lambda: thread.store(made.base, 5),
            lambda: thread.info(made.base),
            lambda: thread.entry(made.base, 8),
            lambda: thread.ext(made.base, mungi.ROOT, 5),
            lambda: thread.recharge(made.base, 1, purse.password),
            lambda: thread.apdlist(),
            lambda: thread.balance(1, purse.password),
        )
        for call in harmless:
            call()
        before = (made.info(), purse.balance(), [made.load(8 * place) for place in range(4)])
        for call in harmless:
            call()
        self.assertEqual((made.info(), purse.balance(), [made.load(8 * place) for place in range(4)]), before)
        password, number = made.grant("R").password, thread.thread(made.base)
        for refusal, call in (
            (mungi.NoPassword, lambda: thread.pwdel(made.base, password)),
            (mungi.NoThread, lambda: thread.end(number)),
            (mungi.Denied, lambda: thread.delete(made.base)),
        ):
            call()
            with self.assertRaises(refusal):
                call()


class Tour(OnVolumes):
    """The calls of docs/TOUR.md, with the answers that it shows."""

    LINE = re.compile(r"    (\S.*) -> ((?:ok|no)\b.*)")

    def parts(self):
        """The listed calls of sections 2 to 5, and those of section 6."""
        sections = (TOP / "docs/TOUR.md").read_text().split("\n## ")[1:]
        calls = {
            section[0]: [match.groups() for line in section.splitlines() if (match := self.LINE.fullmatch(line))]
            for section in sections
        }
        return calls["2"] + calls["3"] + calls["4"] + calls["5"], calls["6"]

    @staticmethod
    def made(machine, line):
        """The call of a line, by its method."""
        words = line.split()
        if words[0] in ("next", "rent"):
            return getattr(machine, words[0])()
        numbers = [word if word.isalpha() else int(word, 0) for word in words[2:]]
        more = {"into_list": True} if words[1] == "store" else {}
        return getattr(machine.thread(int(words[0])), words[1])(*numbers, **more)

    @classmethod
    def flat(cls, value):
        """The values of a reply, one behind the other, as the words of its text."""
        if value is None:
            return []
        if isinstance(value, list):
            return [len(value), *value]
        if isinstance(value, tuple):
            return [word for part in value for word in cls.flat(part)]
        return [value]

    def assert_answers(self, value, answer):
        words = [word if word.isalpha() else int(word, 0) for word in answer.split()[1:]]
        self.assertEqual(self.flat(value), words)

    def test_by_methods(self):
        for part, least in zip(self.parts(), (65, 45), strict=True):
            self.assertGreaterEqual(len(part), least)
            machine, _ = self.begin(seed="0" * 64)
            for line, answer in part:
                with self.subTest(line=line):
                    if answer.startswith("no "):
                        with self.assertRaises(mungi.REFUSALS[answer[3:]]):
                            self.made(machine, line)
                    else:
                        self.assert_answers(self.made(machine, line), answer)
            self.assertEqual(machine.close(), 0)

    def test_in_one_block(self):
        for part in self.parts():
            machine, _ = self.begin(64, seed="0" * 64)
            with machine.batch(check=False) as batch:
                answers = [batch.call(line) for line, _ in part]
            self.assertEqual([answer.text for answer in answers], [answer for _, answer in part])
            with self.assertRaises(mungi.Refused):
                for answer in answers:
                    _ = answer.value


class Examples(OnVolumes):
    def put_by(self, name):
        environment = dict(os.environ, MUNGI=PROGRAM, PYTHONDONTWRITEBYTECODE="1")
        command = [sys.executable, str(HERE / "examples" / name), str(self.folder / "example")]
        done = subprocess.run(command, capture_output=True, text=True, env=environment, timeout=PATIENCE, check=False)
        self.assertEqual((done.returncode, done.stderr), (0, ""))
        return done.stdout

    def told(self, name):
        """What the head of an example says that it prints."""
        text = (HERE / "examples" / name).read_text().split("It prints\n\n")[1].split('\n"""')[0]
        return "".join(line[4:] + "\n" for line in text.splitlines())

    def run_by(self, words):
        """What a Python program puts, which finds the client by PYTHONPATH and the program on the path."""
        environment = dict(
            os.environ, PATH=f"{self.folder}:{os.environ['PATH']}", PYTHONPATH=str(SOURCES), PYTHONDONTWRITEBYTECODE="1"
        )
        environment.pop("MUNGI", None)
        if SHOW is not None:
            environment["MUNGI_SHOW"] = SHOW
        return subprocess.run(
            [sys.executable, *words],
            cwd=self.folder,
            env=environment,
            capture_output=True,
            text=True,
            timeout=PATIENCE,
            check=False,
        )

    @staticmethod
    def sources(page):
        """The programs that a page shows: each begins with `import mungi`."""
        lines = page.read_text().splitlines()
        for first in (at for at, line in enumerate(lines) if line == "    import mungi"):
            last = next(at for at in range(first, len(lines)) if lines[at] and not lines[at].startswith("    "))
            yield "\n".join(line[4:] for line in lines[first:last])

    def test_the_examples_of_the_pages(self):
        (self.folder / "mungi").symlink_to(Path(PROGRAM).resolve())
        sources = list(self.sources(TOP / "docs/CLIENT.md"))
        puts = [
            "Hello\nHello\n2 info 0x100001000 -> no Denied\n",
            "Hello\nHello again\n19 0 1\n",
            "took back 3 pages\n",
        ]
        self.assertEqual(len(sources), len(puts))
        for number, (source, put) in enumerate(zip(sources, puts, strict=True)):
            if "unreached" in source:
                if SHOW is None:
                    continue
                with self.open(self.folder / "documents") as machine:
                    treasury = int((self.folder / "treasury").read_text())
                    machine.thread(1).create(3, 1, treasury)
            done = self.run_by(["-c", source])
            self.assertEqual((done.returncode, done.stderr, done.stdout), (0, "", put), number)
        self.assertEqual(mungi.check(self.folder / "documents", PROGRAM).objects, 4)
        done = self.run_by(["-c", next(self.sources(SOURCES / "mungi/__init__.py"))])
        self.assertEqual((done.returncode, done.stderr, done.stdout), (0, "", ""))
        self.assertEqual(mungi.check(self.folder / "vol", PROGRAM).objects, 2)

    def said_by(self, *words):
        return subprocess.run(
            [sys.executable, *words], cwd=self.folder, capture_output=True, text=True, timeout=PATIENCE, check=False
        )

    def test_an_example_that_can_not_run(self):
        (self.folder / "there").write_bytes(b"mine")
        for name in ("letters.py", "mailbox.py", "shared_documents.py"):
            script = str(HERE / "examples" / name)
            done = self.said_by(script, "there")
            self.assertEqual((done.returncode, done.stdout, done.stderr.count("\n")), (1, "", 1), done.stderr)
            self.assertIn("there: File exists", done.stderr)
            for words in (["one", "two"], ["--one"], ["-x"]):
                done = self.said_by(script, *words)
                self.assertEqual((done.returncode, done.stdout, done.stderr.count("\n")), (2, "", 1), done.stderr)
            for word in ("-h", "--help"):
                done = self.said_by(script, word)
                self.assertEqual((done.returncode, done.stderr), (0, ""))
                self.assertIn(f"examples/{name} ", done.stdout)
            self.assertEqual(os.listdir(self.folder), ["there"])

    def test_letters(self):
        put = self.put_by("letters.py")
        self.assertEqual(put, self.told("letters.py"))

    def test_shared_documents(self):
        put = self.put_by("shared_documents.py")
        self.assertEqual(put, self.told("shared_documents.py"))
        self.assertEqual(mungi.check(self.folder / "example", PROGRAM).threads, 2)

    def test_mailbox(self):
        put = self.put_by("mailbox.py")
        self.assertEqual(put, self.told("mailbox.py"))
        self.assertEqual(mungi.check(self.folder / "example", PROGRAM).threads, 2)


class Names(unittest.TestCase):
    def test_one_error_is_above_all_exceptions(self):
        found = set()
        for module in pkgutil.iter_modules(mungi.__path__, "mungi."):
            for it in vars(importlib.import_module(module.name)).values():
                if isinstance(it, type) and issubclass(it, Exception) and it.__module__.startswith("mungi"):
                    self.assertTrue(issubclass(it, mungi.Error), it)
                    found.add(it.__name__)
        self.assertGreater(found, {"Ended", "Denied", "CutShort", "BadText", "Mistake"})
        self.assertEqual({mungi.ListPage.__mro__[2], mungi.CutShort.__mro__[3]}, {ValueError, UserWarning})

    def test_functions_that_are_named_as_modules(self):
        # (a module of this name is there too, and its import must not hide the function)
        importlib.import_module("mungi.show")
        self.assertTrue(callable(mungi.show))
        self.assertEqual([name for name in mungi.__all__ if not hasattr(mungi, name)], [])


if __name__ == "__main__":
    unittest.main()
