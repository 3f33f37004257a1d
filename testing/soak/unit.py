"""Some runs of a part, in a process of its own:

    python3 -m soak.unit PART SEED SECONDS PROGRAM

They begin with a seed, and end when so many seconds are over. A line says what was found, as JSON.
"""
from __future__ import annotations

import json
import signal
import sys
import time
from typing import List

from .found import Found, Lacking
from .parts import PARTS


# What that line begins with.
TOLD = "soak: "


def end_early(_number: int, _frame: object) -> None:
    """Lets what was begun be ended in order, as by Ctrl-C."""
    raise KeyboardInterrupt


def runs(name: str, seed: int, seconds: float, program: str) -> str:
    """What the runs found, and how many seeds there were."""
    found, first, end = Found(), seed, time.monotonic() + seconds
    with PARTS[name].open(program) as run:
        while seed == first or time.monotonic() < end and not found.differences:
            found.take(run(seed, max(1.0, end - time.monotonic())))
            seed += 1
    return json.dumps({"seeds": seed - first, "found": found.to_json()})


def main(words: List[str]) -> int:
    signal.signal(signal.SIGTERM, end_early)
    name, seed, seconds, program = words
    try:
        print(TOLD + runs(name, int(seed), float(seconds), program))
    except Lacking as lacking:
        print(TOLD + json.dumps({"lacking": str(lacking)}))
    except KeyboardInterrupt:
        return 130
    return 0


if __name__ == "__main__":
    sys.exit(main(sys.argv[1:]))
