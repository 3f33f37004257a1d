#!/usr/bin/env python3
"""Prints the replies that a script has to get.

    model/model.py SCRIPT

It computes each text anew from the start, cell by cell, as the definitions say it, and knows nothing of how the
program works. A pattern that doesn't come back within four generations can't be followed far: where a script wants a
growing one at generation 100,000, the model says so and ends.
"""
from __future__ import annotations

import sys
from pathlib import Path

from replies import replies_to
from worlds import BeyondTheModel


def main() -> None:
    if len(sys.argv) != 2:
        raise SystemExit(__doc__)
    try:
        for told in replies_to(Path(sys.argv[1]).read_bytes()):
            sys.stdout.buffer.write(told)
    except BeyondTheModel as fault:
        sys.stdout.buffer.flush()
        raise SystemExit("model: a pattern has too many cells, or is wanted too late, to go cell by cell") from fault


if __name__ == "__main__":
    main()
