#!/bin/bash
# Uses the program at random for hours and compares what it does, at the lowest priority.
#
#     ./soak.sh 8                    the proved program, or where there is none of this text one built without proofs
#     DESK=PROGRAM ./soak.sh 8       another one
#     ./soak.sh --again PART SEED    runs one seed again
#
# It goes on where the last one ended; `./soak.sh --help` has more, and docs/TESTING.md says what it runs.
here=$(cd "$(dirname "$0")" && pwd) || exit 1
if [ -z "${DESK-}" ]; then
    DESK=$(python3 -B "$here/building" answer) || exit 1
fi
DESK=$(realpath -m "$DESK")
export DESK PYTHONDONTWRITEBYTECODE=1 PYTHONPATH="$here/testing"
exec python3 -B -m soak "$@"
