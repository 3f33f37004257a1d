#!/usr/bin/env python3
"""Runs the scripts here with 1, 2 and 8 workers, and with 1, 64 and 4,096 results of steps kept.

    examples/each_way.py [PROGRAM] [--runs N]

What the program replies is compared with the file .replies beside the script. A script that passes in each of the nine
ways is one that passed, and the last line counts them. The program is the built one, which has to be there.
"""
from __future__ import annotations

import argparse
import itertools
import os
import pathlib
import subprocess
import sys
from concurrent.futures import ThreadPoolExecutor
from typing import List, NamedTuple

FOLDER = pathlib.Path(__file__).resolve().parent
WORKERS, FACTS = (1, 2, 8), (1, 64, 4096)
SECONDS = 180


class Way(NamedTuple):
    """A number of workers, and of results of steps that are kept."""

    workers: int
    facts: int

    def __str__(self) -> str:
        return f"--workers {self.workers} --facts {self.facts}"


WAYS = [Way(*way) for way in itertools.product(WORKERS, FACTS)]


def fault_of(program: str, script: pathlib.Path, way: Way) -> str:
    """What is wrong with a run of the script, or nothing."""
    with script.open("rb") as commands:
        try:
            run = subprocess.run([program, *str(way).split()], stdin=commands, capture_output=True, timeout=SECONDS)
        except subprocess.TimeoutExpired:
            return f"no end within {SECONDS} s"
    if run.returncode:
        return f"exit status {run.returncode}, {run.stderr.decode(errors='replace').strip()}"
    return "" if run.stdout == script.with_suffix(".replies").read_bytes() else "other replies"


def main() -> int:
    parser = argparse.ArgumentParser(description=__doc__, formatter_class=argparse.RawDescriptionHelpFormatter)
    parser.add_argument("program", nargs="?", default=str(FOLDER.parent / "crates/desk/out/desk"))
    parser.add_argument("--runs", type=int, default=1, help="how often each way is run (1)")
    said = parser.parse_args()
    # The scripts with most text take longest, so these begin.
    scripts = sorted(FOLDER.glob("*.script"), key=lambda script: -script.stat().st_size)
    ways = WAYS * said.runs
    with ThreadPoolExecutor(os.cpu_count()) as pool:
        runs = {script: [pool.submit(fault_of, said.program, script, way) for way in ways] for script in scripts}
        failed: List[str] = []
        for script in scripts:
            faults = [f"{way}: {fault}" for way, run in zip(ways, runs[script]) if (fault := run.result())]
            failed += [script.name] if faults else []
            print(f"{script.name}: {'; '.join(faults) or 'passed'}", flush=True)
    print(f"examples: {len(scripts) - len(failed)} passed, {len(failed)} failed")
    return 1 if failed else 0


if __name__ == "__main__":
    sys.exit(main())
