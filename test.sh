#!/bin/bash
# Tests the program, without proving anything, in about six minutes on four processors.
#
#     ./test.sh                 tests the proved program, or where there is none of this text one built without proofs
#     DESK=PROGRAM ./test.sh    tests another one
#
# These are the scripts of examples/, hostile use, refused allocations, threads under stress, the line of progress, speed
# and room that could be lost, the model's own tests and random scripts that are compared with it, the clients, how the
# program is built, and a minute of ./soak.sh. Each part says what it does; the last lines say what was left out and why,
# and count all of them. The random scripts and runs, and the order of refused allocations, are those of the present
# commit.
cd "$(dirname "$0")" || exit 1
if [ -z "${DESK-}" ]; then
    is_given=
    DESK=$(python3 -B building answer) || exit 1
else
    is_given=yes
fi
DESK=$(realpath -m "$DESK")
export DESK PYTHONDONTWRITEBYTECODE=1 PYTHONPATH="$PWD/clients/python/src"
commit=$(git rev-parse HEAD 2> /dev/null || echo 1)
passed=0 failed=0 left=0
log=$(mktemp) || exit 1
trap 'rm -f "$log"' EXIT

if ! version=$("$DESK" --version 2> /dev/null); then
    echo "there is no program $DESK; ./desk.sh --prove makes the proved one, and DESK names another one"
    echo "0 passed, 1 failed"
    exit 1
fi
echo "-- the program is $version, $DESK"

begin() {
    title=$1 begun=$SECONDS
    echo "-- $title"
}

# Counts what passed, what failed and what was left out since `begin`.
count() {
    passed=$((passed + $1)) failed=$((failed + $2)) left=$((left + $3))
    echo "-- $title: $1 passed, $2 failed, $3 left out, $((SECONDS - begun)) s"
}

# Runs a program for at most so many seconds, whose last line counts its cases. Where it doesn't, one failed.
counted() {
    begin "$1"
    timeout "$2" "${@:3}" 2>&1 | tee "$log"
    local last good wrong skipped
    last=$(tail -n 1 "$log")
    good=$(sed -n 's/^[a-z ]*: \([0-9]*\) passed, .*/\1/p' <<< "$last")
    wrong=$(sed -n 's/.* passed, \([0-9]*\) failed.*/\1/p' <<< "$last")
    skipped=$(sed -n 's/.* failed, \([0-9]*\) left out$/\1/p' <<< "$last")
    count "${good:-0}" "${wrong:-1}" "${skipped:-0}"
}

counted "scripts of examples/ with the replies beside them, in nine ways each" 400 python3 examples/each_way.py "$DESK"
counted "hostile use: signals, failing devices, little memory, huge scripts" 120 python3 hostile/check.py "$DESK"
counted "allocations that are refused in turn" 300 \
    python3 hostile/allocations.py "$DESK" --seconds 30 --seed "$commit"
counted "threads under stress, and random runs whose threads stall" 300 \
    python3 hostile/threads.py "$DESK" --runs 100 --seed "$commit"
counted "the line that says how far a settling is" 180 python3 hostile/progress.py "$DESK"
counted "speed, memory and room that would be lost in silence" 180 python3 hostile/speed.py "$DESK"
counted "random scripts, compared with the model" 180 \
    python3 model/differ.py --count 300 --jobs 4 --seed "$commit" --desk "$DESK"
counted "tests in Python: the model, the clients, how the program is built, packages" 1800 \
    python3 testing/run_tests.py model/tests clients/python/tests building/tests testing/tests packaging/tests

if [ -z "$is_given" ] && [ -x crates/desk/out/quick/desk ] && [ "$DESK" = "$PWD/crates/desk/out/desk" ]; then
    counted "the proved program and the other one reply alike" 300 python3 testing/same_replies.py --seed "$commit"
fi

if [ "$left" -gt 0 ]; then
    echo "-- $left tests were left out"
    python3 testing/lacking.py
fi
echo "$passed passed, $failed failed"
[ "$failed" -eq 0 ]
