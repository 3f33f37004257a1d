"""A soak: random use of the program for hours, part by part. It runs by

    python3 -m soak HOURS

where `testing` is on the path; `./soak.sh` sees to that. The parts are what hostile/, model/ and the tests of the page
have, with seeds that go on from run to run.
"""
import sys
from pathlib import Path

ROOT = Path(__file__).resolve().parents[2]
# Before all else, since a package of the system may have a module of the same name.
sys.path[:0] = [str(ROOT / place) for place in ("hostile", "model", "clients/python/src", "clients/python/tests")]
