"""Units of parts in processes of their own, which a soak starts, looks at and ends."""
from __future__ import annotations

import contextlib
import json
import os
import shutil
import signal
import subprocess
import sys
import tempfile
import time
from importlib import util
from pathlib import Path
from typing import NamedTuple, Optional

from .found import Difference, Found
from .unit import TOLD

TESTING = Path(__file__).resolve().parents[1]
DEBIAN = "/usr/bin/python3"
# What a unit may take beyond its seconds before it counts as one that hangs, and to end when it is told to.
PATIENCE, SECONDS_TO_END = 1800, 10


class Ended(NamedTuple):
    """What came of a unit: how many seeds there were and what they found, or what it lacks."""

    seeds: int
    found: Found
    lacking: str = ""


def interpreter() -> str:
    """This Python, or Debian's where this one lacks what the page's tests need and that one may have it."""
    if all(map(util.find_spec, ("aiohttp", "selenium"))) or not shutil.which(DEBIAN):
        return sys.executable
    return DEBIAN


class Unit:
    """Some runs of a part that are under way."""

    def __init__(self, part: str, seed: int, seconds: float, program: str) -> None:
        self.part, self.seed, self.began = part, seed, time.monotonic()
        self._last = self.began + seconds + PATIENCE
        self._said = tempfile.TemporaryFile()
        python = interpreter() if part == "page" else sys.executable
        words = [python, "-B", "-m", "soak.unit", part, str(seed), str(seconds), program]
        environment = {**os.environ, "PYTHONPATH": str(TESTING), "DESK": program}
        # In a session of its own Ctrl-C doesn't reach it, nor the programs that it runs.
        self._process = subprocess.Popen(words, env=environment, stdin=subprocess.DEVNULL, stdout=self._said,
                                         stderr=subprocess.STDOUT, start_new_session=True)

    @property
    def seconds(self) -> float:
        """For how long it has been under way."""
        return time.monotonic() - self.began

    def ended(self) -> Optional[Ended]:
        """What came of it, or None while it is under way."""
        if self._process.poll() is None and time.monotonic() < self._last:
            return None
        self.end()
        return self._read()

    def _read(self) -> Ended:
        self._said.seek(0)
        said = self._said.read().decode(errors="replace")
        self._said.close()
        for line in reversed(said.splitlines()):
            if line.startswith(TOLD):
                told = json.loads(line[len(TOLD):])
                if "lacking" in told:
                    return Ended(0, Found(), told["lacking"])
                return Ended(told["seeds"], Found.from_json(told["found"]))
        why = f"the unit ended with status {self._process.returncode}:\n{said[-4000:]}"
        return Ended(1, Found(1, [Difference(self.seed, why)]))

    def end(self) -> None:
        """Ends it with all that it runs, in order if that is soon."""
        with contextlib.suppress(ProcessLookupError, subprocess.TimeoutExpired):
            if self._process.poll() is None:
                self._process.terminate()
                self._process.wait(SECONDS_TO_END)
        with contextlib.suppress(ProcessLookupError):
            os.killpg(self._process.pid, signal.SIGKILL)
        self._process.wait()
