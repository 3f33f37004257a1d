"""Builds the program: `python3 building answer|prove|proved`, which desk.sh calls.

    answer    a program of the present text, proved if there is one, else built without proofs
    prove     the proved one, which is built where it isn't there
    proved    the proved one, and nothing is built

Prints its place. Where there is none, one line on standard error says why.
"""
import asyncio
import sys

import prove
import quick
from crates import crates, is_fresh, list_parts
from places import PROVED, Lacking, tell


def proved(needed):
    """The place of the proved program of the present text, if it is there."""
    if not is_fresh(PROVED, needed):
        raise Lacking("no proved program of this text is here, and ./desk.sh --prove makes it")
    list_parts(PROVED, needed)
    return PROVED


WAYS = {"answer": quick.make, "prove": prove.make, "proved": proved}


def main(words):
    if len(words) != 1 or words[0] not in WAYS:
        tell(f"building takes one word: {', '.join(WAYS)}")
        return 2
    try:
        print(WAYS[words[0]](crates()))
        return 0
    except (quick.NotBuilt, prove.Refused) as refused:
        sys.stderr.write(str(refused))
        tell("the program is not built")
    except Lacking as lacking:
        tell(lacking)
    except OSError as fault:
        tell(f"the program can't be built in this folder: {fault.strerror}: {fault.filename}")
    except KeyboardInterrupt:
        return 130
    except asyncio.CancelledError:
        return 143
    return 1


if __name__ == "__main__":
    sys.exit(main(sys.argv[1:]))
