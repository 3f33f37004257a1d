"""What the tests of the page share: files, and which Python can run them. It has no tests of its own."""
import os
import subprocess
import unittest
from importlib import util
from pathlib import Path

from desk.rules.lifelike import rule_text
from places import DEBIAN, WITH_PACKAGE

SETUP = "clients/python/tests/setup.sh installs it"
LIFE = rule_text("B3/S23").encode()
BLINKER = b"#CXRLE Pos=-1,0\nx = 3, y = 1\n3o!\n"


def soup(side: int) -> bytes:
    """A start that takes long, since all of it is disorder: the bits of the powers of a number."""
    bits, value = [], 1
    for _ in range(side * side):
        value = value * 48271 % 2147483647
        bits.append("bo"[value >> 15 & 1])
    rows = ["".join(bits[it:it + side]) for it in range(0, side * side, side)]
    return f"x = {side}, y = {side}\n{'$'.join(rows)}!\n".encode()


def slack():
    """How many times as long things may take: a machine may have more to do than it has processors."""
    return max(1.0, os.getloadavg()[0] / (os.cpu_count() or 1))


def here_or_elsewhere(tests, modules, path):
    """The tests, or one that runs them with Debian's Python, where this one lacks the modules."""
    if all(map(util.find_spec, modules)):
        return tests

    class Elsewhere(unittest.TestCase):
        def test_with_the_python_of_debian(self):
            words = f"import {', '.join(modules)}"
            if not os.path.exists(DEBIAN) or subprocess.run([DEBIAN, "-c", words], capture_output=True).returncode:
                self.skipTest(f"there is no {' or no '.join(modules)}; {SETUP}")
            run = subprocess.run([DEBIAN, "-B", "-m", "unittest", Path(path).stem], cwd=Path(path).parent,
                                 env=WITH_PACKAGE, capture_output=True, text=True, timeout=400)
            self.assertEqual(run.returncode, 0, run.stderr)
            if "skipped=" in run.stderr:
                self.skipTest(run.stderr[-400:])

    return unittest.defaultTestLoader.loadTestsFromTestCase(Elsewhere)
