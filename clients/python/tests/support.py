"""What the tests on real volumes have in common.

The program is the one that the environment variable MUNGI names, or else `mungi` of the path, or the built program of
this repository. Where there is none the tests are skipped. So it is with MUNGI_DEV and MUNGI_SHOW and the few tests
that need these. Seeds and bytes are random.
"""

import os
import random
import shutil
import signal
import tempfile
import unittest
from pathlib import Path

import mungi

HERE = Path(__file__).resolve().parents[1]
TOP = HERE.parents[1]
# Where Python finds the package.
SOURCES = HERE / "src"


def find_program(name):
    named = os.environ.get(name.upper())
    if named:
        return named
    found = shutil.which(name)
    if found is not None:
        return found
    built = TOP / "crates" / name / "out" / name
    return str(built) if built.is_file() else None


PROGRAM, DEV, SHOW = find_program("mungi"), find_program("mungi_dev"), find_program("mungi_show")
# The most seconds that a wait may take without any answer, so that a test that would hang fails.
PATIENCE = 30


@unittest.skipIf(PROGRAM is None, "there is no program: set MUNGI, or build it with the script mungi")
class OnVolumes(unittest.TestCase):
    def setUp(self):
        def hangs(_signal, _frame):
            raise TimeoutError("the test hangs")

        signal.signal(signal.SIGALRM, hangs)
        signal.alarm(2 * PATIENCE)
        self.addCleanup(signal.alarm, 0)
        folder = tempfile.TemporaryDirectory(prefix="mungi-test-")
        self.addCleanup(folder.cleanup)
        self.folder = Path(folder.name)
        self.volumes = 0

    def new(self, frames=64, credits=1000, **more):
        """A fresh volume with a random seed: its path, and what its making told."""
        self.volumes += 1
        path = self.folder / f"vol{self.volumes}"
        seed = more.pop("seed", None) or f"{random.getrandbits(256):064x}"
        return path, mungi.new_volume(path, frames, credits, seed=seed, program=PROGRAM, **more)

    def open(self, path, batch=1, program=PROGRAM):
        machine = mungi.Machine(path, batch, program, PATIENCE)
        self.addCleanup(self.quit, machine)
        return machine

    def begin(self, batch=1, **more):
        """A machine on a fresh volume, and its root."""
        path, fresh = self.new(**more)
        machine = self.open(path, batch)
        return machine, machine.root(fresh.treasury)

    @staticmethod
    def quit(machine):
        machine.kill()
        try:
            machine.close()
        except mungi.Ended:
            pass
