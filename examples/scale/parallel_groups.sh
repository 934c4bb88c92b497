#!/bin/sh
# Which series are the same, by GNU parallel over files: examples/scale/parallel_groups.sh FOLDER [PROGRAM]. It prints a line for each file of
# FOLDER/received, those of one group in a row: a key, a tab, and the name. The key is the sum of the canonical text, so two files have
# one key exactly if they have the same occurrences. A file that is refused is in no group: its line begins with its refusal.
set -eu
here=$(CDPATH='' cd -- "$(dirname -- "$0")/../.." && pwd)
program=${2:-$here/release/rr-x86_64-linux}
cd -- "$1/received"
export program
# shellcheck disable=SC2016 # (the shells that parallel starts expand these)
ask='text=$(mktemp) || exit 1
for name in {}; do
    "$program" canon "rrule:$name" >"$text"
    status=$?
    case $status in
    0) key=$(sha256sum <"$text") && key=${key%% *} ;;
    2) read -r key <"$text" ;;
    *) key="failed $status" ;;
    esac
    printf "%s\t%s\n" "$key" "$name"
done
rm -f "$text"'
find . -mindepth 1 -maxdepth 1 -printf '%f\0' | parallel --will-cite --null --max-args 200 "$ask" | LC_ALL=C sort
