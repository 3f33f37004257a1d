#!/usr/bin/env python3
"""Runs the tests of crates again and again, with one more allocation of each test failing each time.

    hostile/fail_alloc.py [--minutes 30] [--at 1,2,3,..] [CRATE_tests ..]

A test that has no memory is to end by a refusal that says so, "memory", NoMemory or 70. Printed is
whatever else happens: a fault, a hang, another end, or a test that passes although a later failing
allocation ends it, so that it went on without memory. The gate doesn't run this. `rt try` makes the
crate anew for each number, which takes one to two minutes of one processor, so the numbers of --at are
tried in turn, with all crates, until no test of a crate comes as far or the minutes are over.
"""
import argparse
import os
import re
import subprocess
import sys
import time

TOP = os.path.dirname(os.path.dirname(os.path.realpath(__file__)))
AT = "1,2,3,4,5,6,8,10,13,16,21,27,34,44,55,70,89,144,233,377,610,987"
REFUSED = re.compile(r"memory|AllocError|NoMemory|\(70\b|: 70 is not|\b70 is not")
# The status of `rt try` where a test ended otherwise than as the program itself can end.
STATUSES = {2: "rt try stopped", 3: "a limit of rt try", 4: "a fault", 5: "two runs differ",
            6: "no answer"}


def tests_of(output):
    """The tests of an output by name: how each ended, with the lines about it."""
    tests, lines = {}, []
    for line in output.splitlines():
        found = re.match(r"test (\S+) \.\.\. (\S+)", line)
        if found:
            lines = []
            tests[found.group(1)] = (found.group(2), lines)
        elif line.startswith(" "):
            lines.append(line.strip())
        elif line:
            lines = []
    return tests


def was_refused(lines):
    text = " ".join(lines)
    return "signal 6 (SIGABRT)" in text and REFUSED.search(text)


def run(crate, number, seconds):
    """What a run of the crate's tests says, with its status; None where the time is over."""
    words = ["rt", "try", "--test", "--fail-alloc", str(number)]
    try:
        done = subprocess.run(words, cwd=f"{TOP}/crates/{crate}", timeout=seconds, text=True,
                              stdout=subprocess.PIPE, stderr=subprocess.STDOUT)
    except subprocess.TimeoutExpired:
        return None
    return done.returncode, done.stdout


def judge(crate, number, status, tests):
    """The lines to print about a run."""
    said = []
    if status in STATUSES or not tests:
        said.append(f"{crate} at {number}: {STATUSES.get(status, 'no tests')} (status {status})")
    for name, (end, lines) in tests.items():
        if end != "ok" and not was_refused(lines):
            said.append(f"{crate} at {number}: {name}: {end}: {' | '.join(lines)[:300]}")
    return said


def went_on(crate, passed):
    """The tests that passed at a number and were ended by a later allocation."""
    return [f"{crate}: {name} passes at {at} and ends at a later number"
            for name, ends in sorted(passed.items())
            for k, (at, is_passed) in enumerate(ends)
            if is_passed and not all(later for _, later in ends[k:])]


def main():
    words = argparse.ArgumentParser(description=__doc__,
                                    formatter_class=argparse.RawDescriptionHelpFormatter)
    words.add_argument("--minutes", type=float, default=30)
    words.add_argument("--at", default=AT)
    words.add_argument("crates", nargs="*")
    words = words.parse_args()
    names = sorted(os.listdir(f"{TOP}/crates"))
    left = words.crates or [name for name in names if name.endswith("_tests")]
    end = time.monotonic() + 60 * words.minutes
    passed = {crate: {} for crate in left}
    reached = {crate: [] for crate in left}
    odd = 0
    for number in map(int, words.at.split(",")):
        for crate in list(left):
            done = run(crate, number, max(1, end - time.monotonic()))
            if done is None:
                left = []
                break
            status, output = done
            tests = tests_of(output)
            for line in judge(crate, number, status, tests):
                odd += 1
                print(line, flush=True)
            for name, (ended, _) in tests.items():
                passed[crate].setdefault(name, []).append((number, ended == "ok"))
            reached[crate].append(number)
            if tests and all(ended == "ok" for ended, _ in tests.values()):
                left.remove(crate)
    for crate, numbers in reached.items():
        for line in went_on(crate, passed[crate]):
            odd += 1
            print(line)
        ended = sum(not all(is_passed for _, is_passed in ends) for ends in passed[crate].values())
        print(f"{crate}: {ended} of {len(passed[crate])} tests ended for memory, "
              f"tried at {','.join(map(str, numbers))}")
    print(f"{odd} to look at")
    return 1 if odd else 0


if __name__ == "__main__":
    sys.exit(main())
