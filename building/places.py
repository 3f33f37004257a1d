"""Where things stand in the repository, and what is said to the user."""
import os
import sys

ROOT = os.path.dirname(os.path.dirname(os.path.realpath(__file__)))
PROGRAM = "desk"
OUT = f"{ROOT}/crates/{PROGRAM}/out"
# The proved program, where `rt ci` puts it too, and the one that is built without proofs.
PROVED = f"{OUT}/{PROGRAM}"
QUICK = f"{OUT}/quick/{PROGRAM}"
# What is proved of libraries: a built one, and the sum of what it was proved of. The toolchain's commands pass
# over a folder of that name, and `rt ci` leaves it there.
KEPT = f"{OUT}/rlib"


class Lacking(Exception):
    """What a program can't be had without, in one line."""


def tell(text, end="\n"):
    print(f"desk: {text}", end=end, file=sys.stderr, flush=True)


def parts_of(program):
    """The file that lists what a program was built of, a folder or a file a line, for desk.sh."""
    return f"{program}.parts"
