#!/usr/bin/env python3
"""`python3 -m desk picture` for whoever has a clone: it takes the package in `src` beside this file."""
import os
import sys

sys.path[0] = os.path.join(os.path.dirname(os.path.realpath(__file__)), "src")

from desk.picture import main  # noqa: E402

if __name__ == "__main__":
    sys.exit(main())
