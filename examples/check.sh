#!/bin/sh
# check.sh [SCRIPT [PROGRAM]]: gives the script, or each one here, to the program, and compares what
# it replies with the file .replies beside it.
folder=$(dirname "$(readlink -f "$0")")
program=${2:-$folder/../desk.sh}
replies=$(mktemp) || exit 1
trap 'rm -f "$replies"' EXIT
status=0
for script in ${1:-"$folder"/*.script}; do
    if "$program" < "$script" > "$replies" && cmp "$replies" "${script%.script}.replies"; then
        echo "${script##*/}: passed"
    else
        echo "${script##*/}: FAILED"
        status=1
    fi
done
exit $status
