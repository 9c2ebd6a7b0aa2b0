"""Tests of scripts/terminal: what a person at a terminal sees, and what goes to standard output alone."""

import os
import pathlib
import re
import subprocess
import sys
import tempfile
import unittest

TOP = pathlib.Path(__file__).resolve().parents[3]
SCRIPT = TOP / "scripts" / "terminal"
PROGRAM = os.environ.get("MUNGI") or str(TOP / "crates" / "mungi" / "out" / "mungi")


def typed(text, *words):
    """What the script answers to these lines: its status, standard output and standard error."""
    done = subprocess.run(
        [sys.executable, str(SCRIPT), *words], input=text, capture_output=True, text=True, timeout=60, check=False
    )
    return done.returncode, done.stdout, done.stderr


class Words(unittest.TestCase):
    def test_help_and_bad_words(self):
        self.assertEqual(typed("", "--help")[0], 0)
        self.assertEqual(typed("")[0], 2)
        self.assertEqual(typed("", "--nothing")[0], 2)
        self.assertEqual(typed("", "/no/such/program")[0], 2)

    def test_the_calls_are_those_of_the_machine(self):
        page = (TOP / "docs" / "MACHINE.md").read_text()
        calls = {
            line.split("`")[1].split()[-1 if "T" not in line.split("`")[1] else 1]
            for line in page.split("\n")
            if re.match(r"\| `(T \w+|next|rent)", line)
        }
        said = typed("help\n", "cat")[2].replace("mungi> ", "")
        listed = {
            words[1] if words[0] == "THREAD" else words[0]
            for words in map(str.split, said.split("\n"))
            if words[:1] in (["THREAD"], ["next"], ["rent"])
        }
        self.assertEqual(listed, calls)

    def test_a_program_that_ends_at_once_is_not_prompted(self):
        self.assertEqual(typed("1 info 1\n", "sh", "-c", "echo open not; exit 2"), (2, "open not\n", ""))


@unittest.skipUnless(os.access(PROGRAM, os.X_OK), "the program mungi is not built")
class OnAVolume(unittest.TestCase):
    def setUp(self):
        self.folder = tempfile.TemporaryDirectory()
        self.addCleanup(self.folder.cleanup)
        self.volume = os.path.join(self.folder.name, "vol")
        subprocess.run([PROGRAM, self.volume, "format", "64", "0" * 64, "1000"], check=True, capture_output=True)

    def test_answers_alone_go_to_standard_output(self):
        status, out, err = typed("1 info 0x100000000\nhelp load\n\n# a note\n1 store 5\n", PROGRAM, self.volume, "run")
        self.assertEqual((status, out), (0, "ok 0x0000000100000000 1 1 1 0 0\nno Syntax\n"))
        self.assertIn("THREAD load ADDRESS", err)
        self.assertIn("store is written: THREAD store ADDRESS WORD", err)
        self.assertEqual(err.count("mungi> "), 6)

    def test_what_was_answered_is_kept(self):
        made = typed("1 create 1 1 0x28bd8653e56a5d40\n", PROGRAM, self.volume, "run")[1].split()
        self.assertEqual(made[0], "ok")
        found = typed(f"1 load {made[1]}\n1 info 0x100000000\n", PROGRAM, self.volume, "run")[1].split("\n")
        self.assertEqual(found, ["no Denied", "ok 0x0000000100000000 1 1 1 0 0", ""])
        told = subprocess.run([PROGRAM, self.volume, "check"], check=True, capture_output=True, text=True).stdout
        self.assertEqual(told.split()[2], "2")


if __name__ == "__main__":
    unittest.main()
