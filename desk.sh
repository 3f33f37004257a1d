#!/bin/sh
# Runs the program on a script, as in: ./desk.sh < examples/first_path.script
#
#     ./desk.sh WORDS           runs the proved program, or builds and runs one without proofs where that isn't there
#     ./desk.sh --prove         proves and builds the program, which runs from then on
#     ./desk.sh --proved WORDS  runs the proved program and nothing else
here=$(readlink -f "$0")
folder=${here%/*}
proved=$folder/crates/desk/out/desk
quick=$folder/crates/desk/out/quick/desk

# Whether a program is newer than all that it was built of, which a file beside it lists.
is_fresh() {
    [ -x "$1" ] && [ -f "$1.parts" ] || return 1
    parts=
    while read -r part; do
        parts="$parts $part"
    done < "$1.parts"
    # shellcheck disable=SC2086 # no path has a space
    changed=$(cd "$folder" && find $parts -newer "$1" -print -quit 2>&1)
    [ -z "$changed" ]
}

# Builds what its word says, and prints the program's place.
build() {
    if ! command -v python3 > /dev/null; then
        echo "desk: python3 is not on the PATH, and nothing can be built without it" >&2
        exit 126
    fi
    python3 -B "$folder/building" "$1" < /dev/null || exit 126
}

case ${1-} in
    --prove)
        build prove > /dev/null
        exit
        ;;
    --proved)
        shift
        is_fresh "$proved" || proved=$(build proved) || exit
        exec "$proved" "$@"
        ;;
esac
if is_fresh "$proved"; then
    exec "$proved" "$@"
fi
program=$quick
# One without that list, as the gate leaves it, may be of this text too.
if [ -x "$proved" ] && ! [ -f "$proved.parts" ] || ! is_fresh "$quick"; then
    program=$(build answer) || exit
fi
if [ "$program" = "$quick" ]; then
    echo "desk: what answers is not proved on this machine; ./desk.sh --prove proves it, in 20 to 40 minutes" >&2
fi
exec "$program" "$@"
