#!/usr/bin/env python3
"""Runs the tests in Python of some folders, each file in a process of its own, several at a time.

    testing/run_tests.py FOLDER .. [--jobs N] [--seconds N]

What a file says is shown when it has ended, with how long it took. A file that failed is run once more when the others
have ended, since some tests are of how long things take. The last line counts the tests.
"""
from __future__ import annotations

import argparse
import os
import re
import signal
import subprocess
import sys
import time
from concurrent.futures import ThreadPoolExecutor, as_completed
from pathlib import Path
from typing import NamedTuple

# What unittest says last.
ENDING = re.compile(r"^Ran (\d+) tests? in .*\n\n(?:OK|FAILED)(?: \((.*)\))?$", re.M)
FAULT = re.compile(r"^(?:FAIL|ERROR): ", re.M)


class Result(NamedTuple):
    """How many tests of a file passed, failed and were left out, and what it said."""

    passed: int
    failed: int
    left_out: int
    said: str


def counted(said: str, status: int) -> Result:
    """What the output of a run comes to. One that doesn't end as it should has failed."""
    ending = None
    for ending in ENDING.finditer(said):  # a failure may quote the output of other tests
        pass
    failed = len(FAULT.findall(said))
    if ending is None:
        return Result(0, max(failed, 1), 0, said)
    skipped = re.search(r"skipped=(\d+)", ending[2] or "")
    left_out = int(skipped[1]) if skipped else 0
    failed = max(failed, 1) if status else 0
    return Result(max(int(ending[1]) - failed - left_out, 0), failed, left_out, said)


def take_interrupts() -> None:
    """Lets a process be interrupted also where this one was started to ignore that, as in the background."""
    signal.signal(signal.SIGINT, signal.SIG_DFL)


def run(path: Path, seconds: float) -> Result:
    """Runs a file's tests."""
    words = [sys.executable, "-B", "-m", "unittest", "discover", "-s", str(path.parent), "-p", path.name]
    began = time.monotonic()
    with subprocess.Popen(words, stdin=subprocess.DEVNULL, stdout=subprocess.PIPE, stderr=subprocess.STDOUT, text=True,
                          errors="replace", start_new_session=True, preexec_fn=take_interrupts) as process:
        try:
            said, _ = process.communicate(timeout=seconds)
        except subprocess.TimeoutExpired:
            os.killpg(process.pid, 9)
            said, _ = process.communicate()
            said += f"\nit had not ended after {seconds:.0f} s\n"
    result = counted(said, process.returncode)
    took = time.monotonic() - began
    ending = f"{path}: {result.passed} passed, {result.failed} failed, {result.left_out} left out, {took:.0f} s\n"
    return result._replace(said=(said if result.failed else "") + ending)


def main() -> int:
    words = argparse.ArgumentParser(description=__doc__, formatter_class=argparse.RawDescriptionHelpFormatter)
    words.add_argument("folders", metavar="FOLDER", type=Path, nargs="+")
    words.add_argument("--jobs", type=int, default=len(os.sched_getaffinity(0)))
    words.add_argument("--seconds", type=float, default=900, help="how long a file may take; else 900")
    given = words.parse_args()
    # Those with most text mostly take longest, so these begin.
    found = [path for folder in given.folders for path in folder.glob("test*.py")]
    paths = sorted(found, key=lambda path: -path.stat().st_size)
    results = {}
    with ThreadPoolExecutor(given.jobs) as pool:
        runs = {pool.submit(run, path, given.seconds): path for path in paths}
        for done in as_completed(runs):
            results[runs[done]] = done.result()
            print(done.result().said, end="", flush=True)
    for path in [it for it in paths if results[it].failed]:
        print(f"{path}: once more, alone", flush=True)
        results[path] = run(path, given.seconds)
        print(results[path].said, end="", flush=True)
    passed, failed, left_out = (sum(counts) for counts in zip(*(it[:3] for it in results.values()), (0, 0, 0)))
    print(f"tests: {passed} passed, {failed} failed, {left_out} left out")
    return 1 if failed or not passed else 0


if __name__ == "__main__":
    sys.exit(main())
