#!/bin/sh
# Which series did not survive, by GNU parallel over files: examples/scale/parallel_pairs.sh FOLDER [PROGRAM]. It prints a line for each pair of
# FOLDER/sent and FOLDER/received that is not equal, in the order of their names: what rr says of it, a tab, and the name. A file that
# one of the two folders lacks is `missing A` or `missing B`. A job has 200 files, and a process each pair.
# More machines are an option of GNU parallel: --sshlogin, with the program and the folder on each.
set -eu
here=$(CDPATH='' cd -- "$(dirname -- "$0")/../.." && pwd)
program=${2:-$here/release/rr-x86_64-linux}
cd -- "$1"
export program
# shellcheck disable=SC2016 # (the shells that parallel starts expand these)
ask='for name in {}; do
    status=1
    if [ ! -f "sent/$name" ]; then
        said="missing A"
    elif [ ! -f "received/$name" ]; then
        said="missing B"
    else
        said=$("$program" equal "rrule:sent/$name" "rrule:received/$name")
        status=$?
        [ "$status" -le 2 ] || said="failed $status"
    fi
    [ "$status" -eq 0 ] || printf "%s\t%s\n" "$said" "$name"
done'
find sent received -mindepth 1 -maxdepth 1 -printf '%f\0' | LC_ALL=C sort -zu | parallel --will-cite --null --keep-order --max-args 200 "$ask"
