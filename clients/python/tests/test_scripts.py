"""Tests of the scripts that overwrite, copy and build: python3 -m unittest, in the folder above.

Those on real volumes need the program, as in `support`. The others run a program of one line in its place.
"""

import fcntl
import os
import shutil
import signal
import subprocess
import tempfile
import time
import unittest
from pathlib import Path

import mungi
from tests.support import PATIENCE, PROGRAM, TOP, OnVolumes, find_program

SCRIPTS = TOP / "scripts"
SEED = "0" * 64
TEXT = b"what may not be lost\n"
# A page of an object that docs/object.calls makes.
OBJECT = "0x100001000"


def mode_of(path):
    return os.stat(path).st_mode & 0o777


class InFolder(unittest.TestCase):
    def setUp(self):
        folder = tempfile.TemporaryDirectory(prefix="mungi-test-")
        self.addCleanup(folder.cleanup)
        self.folder = Path(folder.name)

    def run_by(self, *words, stdin=b"", **more):
        return subprocess.run(
            [str(it) for it in words],
            cwd=self.folder,
            input=stdin,
            capture_output=True,
            timeout=PATIENCE,
            check=False,
            **more,
        )

    def text(self, name, mode=0o644, data=TEXT):
        path = self.folder / name
        path.write_bytes(data)
        path.chmod(mode)
        return path


class Guards(InFolder):
    """scripts/guard, before a program that writes down the words that it got and the mode of the first one."""

    def setUp(self):
        super().setUp()
        self.program = self.text(
            "program", 0o755, b'#!/bin/sh\necho "$*" > ran\nstat -c %a -- "$1" >> ran 2>/dev/null\necho ok\n'
        )

    def guarded(self, name, *words):
        (self.folder / "ran").unlink(missing_ok=True)
        return self.run_by(SCRIPTS / "guard", name, self.program, *words)

    def ran(self):
        path = self.folder / "ran"
        return path.read_text().splitlines() if path.exists() else None

    def assert_refused(self, done, *says):
        self.assertEqual(
            (done.returncode, done.stdout, done.stderr.count(b"\n"), self.ran()), (1, b"", 1, None), done.stderr
        )
        for text in says:
            self.assertIn(text, done.stderr)

    COMMANDS = (
        ("format", "64", SEED, "1000"),
        ("format", "64", SEED, "1000", "0:1", "1:1", "2:1", "3:1"),
        ("migrate", "old"),
    )

    def test_a_file_that_is_not_empty_is_kept(self):
        for data in (TEXT, bytes(8192), bytes(4096) + b"MUNGIVOL\2", b"\0"):
            for words in self.COMMANDS:
                path = self.text("vol", data=data)
                self.assert_refused(
                    self.guarded("mungi", "vol", *words), b"--overwrite as first word", words[0].encode()
                )
                self.assertEqual((path.read_bytes(), mode_of(path)), (data, 0o644))

    def test_the_word_overwrites_and_the_mode_comes_first(self):
        for words in self.COMMANDS:
            self.text("vol")
            done = self.guarded("mungi", "--overwrite", "vol", *words)
            self.assertEqual((done.returncode, done.stderr, self.ran()), (0, b"", [" ".join(("vol", *words)), "600"]))

    def test_an_empty_or_absent_file_needs_no_word(self):
        for words in self.COMMANDS:
            self.text("vol", data=b"")
            self.assertEqual(self.guarded("mungi", "vol", *words).returncode, 0)
            self.assertEqual(self.ran(), [" ".join(("vol", *words)), "600"])
            self.assertEqual(self.guarded("mungi", "absent", *words).returncode, 0)
            self.assertFalse((self.folder / "absent").exists())

    def test_a_link_is_followed(self):
        path = self.text("text")
        (self.folder / "link").symlink_to("text")
        self.assert_refused(self.guarded("mungi", "link", "format", "64", SEED, "1000"))
        self.assert_refused(self.guarded("mungi", "--overwrite", "link", "migrate", "text"), b"one file")
        self.assertEqual((path.read_bytes(), mode_of(path)), (TEXT, 0o644))

    def test_the_word_goes_with_no_other_command(self):
        self.text("vol")
        for words in (("vol", "run"), ("vol", "check"), ("vol", "format"), ("vol",)):
            self.assert_refused(self.guarded("mungi", "--overwrite", *words))

    def test_a_mirror(self):
        self.text("side", data=bytes(4096) + b"MUNGIVOL\2")
        text, older = self.text("text"), self.text("older", data=bytes(4096) + b"MUNGIVOL\2older")
        for words in (("side", "mirror", "text", "left"), ("text", "mirror", "side", "right")):
            self.assert_refused(self.guarded("mungi_dev", *words), b"no volume", b"--overwrite")
            self.assertEqual((text.read_bytes(), mode_of(text)), (TEXT, 0o644))
            self.assertEqual(self.guarded("mungi_dev", "--overwrite", *words).returncode, 0)
            self.assertEqual((self.ran()[0], mode_of(text)), (" ".join(words), 0o600))
            text.chmod(0o644)
        self.assertEqual(self.guarded("mungi_dev", "side", "mirror", "older", "left").returncode, 0)
        self.assertEqual(
            (self.ran()[0], mode_of(older), mode_of(self.folder / "side")), ("side mirror older left", 0o600, 0o644)
        )
        self.assert_refused(self.guarded("mungi_dev", "side", "mirror", "./side", "left"), b"one file")

    def test_a_slip_in_a_name_makes_no_file(self):
        for name, words in (
            ("mungi", ("vlo", "run")),
            ("mungi", ("vlo", "run", "64")),
            ("mungi_dev", ("vlo", "dev")),
            ("mungi_dev", ("vlo", "mirror", "b", "left")),
        ):
            done = self.guarded(name, *words)
            self.assertEqual((done.returncode, done.stdout, self.ran()), (2, b"open not\n", None))
            self.assertIn(b"vlo: there is no such file", done.stderr)
        self.assertEqual(os.listdir(self.folder), ["program"])
        # What the system says of a folder that is not there is the program's to say.
        self.assertEqual(self.guarded("mungi", "none/vol", "run").returncode, 0)

    def test_other_commands_go_through(self):
        self.text("vol")
        for name, words in (
            ("mungi", ("vol", "run")),
            ("mungi", ("vol", "check")),
            ("mungi", ("vol", "format")),
            ("mungi_text", ("put", "1", "8")),
            ("mungi", ()),
        ):
            self.assertEqual(self.guarded(name, *words).stdout, b"ok\n")
            self.assertEqual(self.ran()[0], " ".join(words))


class Wrapper(InFolder):
    """The script mungi, in a copy with two crates, and with an `rt` that takes a moment and proves nothing."""

    def setUp(self):
        super().setUp()
        (self.folder / "scripts").mkdir()
        for name in ("mungi", "mungi_text", "scripts/guard"):
            shutil.copy(TOP / name, self.folder / name)
        self.text("HANDLES")
        self.text("crates.txt", data=b"below:\nmungi: below\nmungi_text: below\n")
        for crate in ("below", "mungi", "mungi_text"):
            (self.folder / "crates" / crate / "src").mkdir(parents=True)
            self.text(f"crates/{crate}/src/lib.rt")
        (self.folder / "bin").mkdir()
        build = """#!/bin/sh
[ "$1" = ci ] || exit 0
echo built >> "$BUILDS"
sleep 0.7
for crate in crates/mungi*; do
    mkdir -p "$crate/out"
    printf '#!/bin/sh\\necho "ran $*"\\n' > "$crate/out/${crate#*/}"
    chmod +x "$crate/out/${crate#*/}"
done
echo '3 passed, 0 failed'
"""
        self.text("bin/rt", 0o755, build.encode())
        self.environment = dict(
            os.environ, PATH=f"{self.folder}/bin:{os.environ['PATH']}", BUILDS=str(self.folder / "builds")
        )
        self.environment.pop("MUNGI_PROGRAM", None)

    def builds(self):
        path = self.folder / "builds"
        return path.read_text().count("built") if path.exists() else 0

    def test_one_build_at_a_time(self):
        command = "(./mungi_text put | ./mungi vol check) & ./mungi vol check & wait"
        done = self.run_by("sh", "-c", command, env=self.environment)
        self.assertEqual((done.stdout, self.builds()), (b"ran vol check\n" * 2, 2), done.stderr)
        self.assertIn(b"this one waits for it", done.stderr)

    def test_a_newer_source_builds_nothing(self):
        done = self.run_by("./mungi", "--build", env=self.environment)
        self.assertEqual((done.returncode, self.builds()), (0, 1), done.stderr)
        done = self.run_by("./mungi", "vol", "check", env=self.environment)
        self.assertEqual((done.stdout, done.stderr), (b"ran vol check\n", b""))
        later = time.time() + 5
        os.utime(self.folder / "crates/mungi_text/src/lib.rt", (later, later))
        self.assertEqual(self.run_by("./mungi", "vol", "check", env=self.environment).stderr, b"")
        os.utime(self.folder / "crates/below/src/lib.rt", (later, later))
        for _ in range(2):
            done = self.run_by("./mungi", "vol", "check", env=self.environment)
            self.assertEqual((done.returncode, done.stdout), (0, b"ran vol check\n"))
            self.assertEqual(done.stderr, b"mungi: the sources are newer than the program; ./mungi --build builds it\n")
        self.assertEqual(self.builds(), 1)
        self.assertEqual(self.run_by("./mungi", "--build", env=self.environment).returncode, 0)
        self.assertEqual(self.builds(), 2)

    def test_a_build_that_is_killed_leaves_nothing(self):
        command = subprocess.Popen(
            ["./mungi", "vol", "format", "64", SEED, "1000"],
            cwd=self.folder,
            env=self.environment,
            stdout=subprocess.PIPE,
            stderr=subprocess.PIPE,
            start_new_session=True,
        )
        while self.builds() == 0:
            time.sleep(0.01)
        os.killpg(command.pid, signal.SIGKILL)
        command.communicate()
        self.assertFalse((self.folder / "vol").exists())
        self.assertEqual(self.run_by("./mungi", "vol", "check", env=self.environment).stdout, b"ran vol check\n")

    def test_help(self):
        for word in ("-h", "--help"):
            done = self.run_by("./mungi", word, env=self.environment)
            self.assertEqual((done.returncode, done.stderr, self.builds()), (0, b"", 0))
            self.assertIn(b"[--overwrite] VOLUME format", done.stdout)


class Pairs(InFolder):
    LINES = b"1 load 0x100000000\n\n# a note\n1 store 8 7\n1 load 0x100000000\n"

    def paired(self, replies, *words):
        self.text("lines", data=self.LINES)
        return self.run_by(SCRIPTS / "pair", *words, "lines", stdin=replies)

    def test_strict_stops_at_a_refusal(self):
        done = self.paired(b"ok 0x1\nno Denied\nok 0x1\n", "--strict")
        self.assertEqual(
            (done.returncode, done.stdout),
            (1, b"lines:1: 1 load 0x100000000 -> ok 0x1\nlines:4: 1 store 8 7 -> no Denied\n"),
        )
        done = self.paired(b"ok 0x1\nno Denied\nok 0x1\n")
        self.assertEqual((done.returncode, done.stdout.count(b"\n")), (0, 3))
        self.assertEqual(self.paired(b"ok 0x1\nok\nok 0x1\n", "--strict").returncode, 0)

    def test_answers_that_are_missing_or_too_many(self):
        for words in ((), ("--strict",)):
            self.assertEqual(self.paired(b"ok 0x1\n", *words).returncode, 1)
            self.assertEqual(self.paired(b"ok\nok\nok\nok\n", *words).returncode, 1)
            self.assertEqual(self.paired(b"open not\n", *words).returncode, 1)

    def test_strict_stops_while_the_run_goes_on(self):
        self.text("lines", data=self.LINES)
        with subprocess.Popen(
            [SCRIPTS / "pair", "--strict", "lines"], cwd=self.folder, stdin=subprocess.PIPE, stdout=subprocess.PIPE
        ) as pair:
            pair.stdin.write(b"no Denied\n")
            pair.stdin.flush()
            self.assertEqual(pair.wait(PATIENCE), 1)


class HelpAndWords(InFolder):
    """Each script takes -h and --help, and ends with 2 at words that it does not know. It makes no file meanwhile."""

    def test_every_script(self):
        folders = (SCRIPTS, TOP / "trials", TOP / "tools")
        scripts = [
            it for folder in folders for it in sorted(folder.iterdir()) if it.is_file() and os.access(it, os.X_OK)
        ]
        self.assertGreater(len(scripts), 25)
        more = {
            "new_volume": ("--volume", "64", "1000"),
            "version1.py": ("--one", "two"),
            "backup": ("--one", "two"),
            "restore": ("--one", "two"),
            "put_document": ("--one", "1", "8"),
        }
        for script in scripts:
            for word in ("-h", "--help"):
                done = self.run_by(script, word)
                self.assertEqual((done.returncode, done.stderr), (0, b""), script.name)
                self.assertGreater(len(done.stdout), 60, script.name)
            done = self.run_by(script, *more.get(script.name, ("--nonsense",)))
            self.assertEqual((done.returncode, done.stdout), (2, b""), script.name)
        self.assertEqual(os.listdir(self.folder), [])


class OnRealVolumes(OnVolumes):
    """Scripts over real volumes. The program is named by MUNGI, and mungi_text by MUNGI_TEXT."""

    def setUp(self):
        super().setUp()
        self.environment = dict(os.environ, MUNGI=PROGRAM)
        self.vol = self.folder / "vol"
        mungi.new_volume(self.vol, 64, 1000, seed=SEED, program=PROGRAM)
        self.lines((TOP / "docs/object.calls").read_bytes())

    def lines(self, text):
        done = subprocess.run(
            [PROGRAM, self.vol, "run", "64"], input=text, capture_output=True, timeout=PATIENCE, check=True
        )
        return done.stdout.decode().splitlines()

    def script(self, name, *words, stdin=b"", **more):
        command = [str(SCRIPTS / name), *map(str, words)]
        return subprocess.run(
            command,
            cwd=self.folder,
            input=stdin,
            capture_output=True,
            timeout=PATIENCE,
            check=False,
            env=dict(self.environment, **more),
        )

    def held(self):
        """The bytes of the volume once an opening has nothing left to write home, so that another one changes none."""
        self.lines(b"")
        return self.vol.read_bytes()

    def assert_kept(self, done, before, *says):
        self.assertEqual((done.returncode, done.stdout), (1, b""), done.stderr)
        self.assertTrue(self.vol.read_bytes() == before)
        for text in says:
            self.assertIn(text, done.stderr)


class Restoring(OnRealVolumes):
    def setUp(self):
        super().setUp()
        self.lines(f"1 store {OBJECT} 5\n".encode())
        self.copy = self.folder / "vol.copy"
        self.assertEqual(self.script("backup", "vol", "vol.copy").returncode, 0)
        # The slip: thread 1 is locked out.
        self.assertEqual(self.lines(b"1 store 0x100000010 7\n1 load 0x100000000\n"), ["ok", "no Denied"])
        self.before = self.held()

    def test_a_volume_is_brought_back(self):
        self.assert_kept(self.script("restore", "vol.copy", "vol"), self.before, b"--overwrite")
        self.vol.chmod(0o644)
        done = self.script("restore", "--overwrite", "vol.copy", "vol")
        self.assertEqual((done.returncode, done.stdout, done.stderr), (0, b"ok 64 2 2 1 1 0 1000\n", b""))
        self.assertEqual((mode_of(self.vol), self.vol.read_bytes()), (0o600, self.copy.read_bytes()))
        self.assertEqual(self.lines(f"1 load {OBJECT}\n".encode()), ["ok 0x0000000000000005"])
        self.assertEqual(sorted(os.listdir(self.folder)), ["vol", "vol.copy", "vol.copy.sha256"])

    def test_where_there_is_no_file(self):
        for make in (self.vol.unlink, lambda: self.vol.write_bytes(b"")):
            make()
            done = self.script("restore", "vol.copy", "vol")
            self.assertEqual((done.returncode, done.stderr, mode_of(self.vol)), (0, b"", 0o600))
            self.assertEqual(self.vol.read_bytes(), self.copy.read_bytes())

    def test_a_run_that_has_the_volume(self):
        with subprocess.Popen([PROGRAM, self.vol, "run"], stdin=subprocess.PIPE, stdout=subprocess.PIPE) as run:
            run.stdin.write(b"1 balance 1 0\n")
            run.stdin.flush()
            run.stdout.readline()
            self.assert_kept(
                self.script("restore", "--overwrite", "vol.copy", "vol"),
                self.before,
                b"another run holds",
                b"end it first",
            )
            run.stdin.close()
            self.assertEqual(run.wait(PATIENCE), 0)

    def test_a_copy_that_is_none(self):
        self.text("text", b"no volume\n")
        self.assert_kept(
            self.script("restore", "--overwrite", "text", "vol"), self.before, b"no sum", b"nothing was done"
        )
        self.assert_kept(self.script("restore", "--overwrite", "none", "vol"), self.before)
        with open(self.copy, "r+b") as file:
            file.seek(9_000_000)
            file.write(b"x")
        self.assert_kept(
            self.script("restore", "--overwrite", "vol.copy", "vol"), self.before, b"is not what was copied"
        )
        self.assert_kept(self.script("restore", "--overwrite", "vol", "vol"), self.before, b"one file")

    def text(self, name, data):
        (self.folder / name).write_bytes(data)

    def test_a_restore_that_was_stopped(self):
        self.text("vol.restored", TEXT)
        self.assert_kept(
            self.script("restore", "--overwrite", "vol.copy", "vol"), self.before, b"vol.restored is there already"
        )
        self.assertEqual((self.folder / "vol.restored").read_bytes(), TEXT)

    def test_a_link_is_followed(self):
        (self.folder / "link").symlink_to("vol")
        self.assertEqual(self.script("restore", "--overwrite", "vol.copy", "link").returncode, 0)
        self.assertTrue((self.folder / "link").is_symlink())
        self.assertEqual(self.vol.read_bytes(), self.copy.read_bytes())

    def test_a_name_with_a_newline(self):
        for name in ("a\nb", "a\\b", "a b\n"):
            self.assertEqual(self.script("restore", "--overwrite", "vol.copy", "vol").returncode, 0)
            self.assertEqual(self.script("backup", "vol", name).returncode, 0, name)
            self.assertEqual(self.script("backup", "--verify", name).returncode, 0, name)
            done = subprocess.run(
                ["sha256sum", "-c", "--", f"{name}.sha256"],
                cwd=self.folder,
                capture_output=True,
                timeout=PATIENCE,
                check=False,
            )
            self.assertEqual(done.returncode, 0, done.stderr)


TEXT_PROGRAM = find_program("mungi_text")


class Documents(OnRealVolumes):
    """scripts/put_document. Where mungi_text is not built, a few lines of Python stand for its `put`."""

    def setUp(self):
        super().setUp()
        program = TEXT_PROGRAM
        if program is None:
            program = self.folder / "mungi_text"
            program.write_text(
                "#!/usr/bin/env python3\n"
                "import sys\n"
                "data = sys.stdin.buffer.read()\n"
                "words = [len(data)] + [int.from_bytes(data[k : k + 8], 'little') for k in range(0, len(data), 8)]\n"
                "for k, word in enumerate(words):\n"
                "    print(f'{sys.argv[2]} store {int(sys.argv[3]) + 8 * k:#018x} {word:#018x}')\n"
            )
            program.chmod(0o755)
        self.environment["MUNGI_TEXT"] = str(program)

    def put(self, data, thread="1", address=OBJECT):
        return self.script("put_document", "vol", thread, address, stdin=data)

    def test_a_document_that_fits(self):
        for data in (b"", b"Hello\n", bytes(range(256)) * 15, os.urandom(4088)):
            done = self.put(data)
            self.assertEqual((done.returncode, done.stdout, done.stderr), (0, b"", b""))
            with mungi.Machine(self.vol, program=PROGRAM) as machine:
                self.assertEqual(machine.thread(1).object(int(OBJECT, 16)).get(), data)
        self.assertEqual(self.put(b"decimal", address=str(int(OBJECT, 16))).returncode, 0)

    def test_a_document_that_is_too_large_leaves_the_old_one(self):
        # The next object is thread 1's too, so that no line would be refused.
        again = "1 create 1 1 0x28bd8653e56a5d40\n"
        base, password = self.lines(again.encode())[0].split()[1:]
        self.lines(f"1 store 0x100000030 {base}\n1 store 0x100000038 {password}\n1 store 0x100000000 3\n".encode())
        self.assertEqual(self.put(b"the old one").returncode, 0)
        before = self.held()
        for data in (bytes(4089), bytes(10_000)):
            self.assert_kept(self.put(data), before, b"nothing was stored")
        self.assert_kept(self.put(bytes(4088), address="0x100001008"), before, b"nothing was stored")

    def test_what_is_denied_ends_with_1(self):
        before = self.held()
        self.assert_kept(self.put(b"x", address="0x100002000"), before, b"no Denied", b"nothing was stored")
        self.assert_kept(self.put(b"x", thread="2"), before, b"no NoThread")
        for address in ("0x100000000", "0x100000008", "0x100000ff8"):
            self.assert_kept(self.put(b"x", address=address), before, b"thread 1's list", b"nothing was stored")
        self.assertEqual(sorted(it for it in os.listdir(self.folder) if it != "mungi_text"), ["vol"])

    def test_a_reader_stores_nothing(self):
        with mungi.Machine(self.vol, program=PROGRAM) as machine:
            thread = machine.thread(1)
            password = thread.pwadd(int(OBJECT, 16), "R")
            thread.store(0x100000028, password, into_list=True)
        done = self.put(b"x")
        self.assertEqual((done.returncode, done.stdout), (1, b""))
        self.assertIn(b"no Denied", done.stderr)

    def test_words_that_are_wrong(self):
        before = self.held()
        for thread, address in (
            ("one", OBJECT),
            ("1", "0x10000100g"),
            ("1", "0x100001004"),
            ("1", "0x"),
            ("-1", OBJECT),
            ("1", "9" * 30),
            ("", OBJECT),
        ):
            done = self.put(b"x", thread, address)
            self.assertEqual((done.returncode, done.stdout), (2, b""), done.stderr)
            self.assertTrue(self.vol.read_bytes() == before)


class MakingVolumes(OnRealVolumes):
    def test_new_volume(self):
        done = self.script("new_volume", "made", "64", "1000")
        self.assertEqual((done.returncode, mode_of(self.folder / "made")), (0, 0o600), done.stderr)
        done = self.script("new_volume", "few", "15", "1000")
        self.assertEqual((done.returncode, (self.folder / "few").exists()), (1, False))
        for words in (("made",), ("--volume", "64", "1000"), ("x", "64"), ("x", "-64", "1000")):
            self.assertEqual(self.script("new_volume", *words).returncode, 2)
        self.assertEqual(sorted(os.listdir(self.folder)), ["made", "vol"])

    def test_format_through_the_guard(self):
        before = self.held()
        self.vol.chmod(0o644)
        words = ("vol", "format", "64", SEED, "1000")
        self.assert_kept(self.script("guard", "mungi", PROGRAM, *words), before, b"holds a volume")
        done = self.script("guard", "mungi", PROGRAM, "--overwrite", *words)
        self.assertEqual((done.returncode, mode_of(self.vol), mungi.check(self.vol, PROGRAM).objects), (0, 0o600, 1))

    def test_a_run_that_has_the_volume_is_not_formatted(self):
        with open(self.vol, "rb") as reader:
            fcntl.flock(reader, fcntl.LOCK_SH)
            done = self.script("guard", "mungi", PROGRAM, "--overwrite", "vol", "format", "64", SEED, "1000")
        self.assertEqual(done.returncode, 4)


del OnRealVolumes, InFolder

if __name__ == "__main__":
    unittest.main()
