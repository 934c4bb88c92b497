#!/bin/sh
# Translates each shipped example into every language and compares it with what was written: a line for each says `yes`, or
# why the example is refused: the language has no words for it, or it shows a refusal.
# Usage: bench/there_and_back.sh [PROGRAM], after the program was built.
set -u

here=$(CDPATH= cd -- "$(dirname -- "$0")/.." && pwd) || exit 1
program=${1:-$here/crates/rr_cli/out/rr_cli}
[ -x "$program" ] || { echo "there_and_back.sh: $program is not built" >&2; exit 1; }

scratch=$(mktemp -d) || exit 1
trap 'rm -rf "$scratch"' EXIT

# back NAME OPERAND LANGUAGE WORDS..: what the words write of the operand, compared with it.
back() {
    name=$1
    operand=$2
    language=$3
    shift 3
    if "$program" "$@" "$operand" >"$scratch/written"; then
        said=$("$program" equal "$operand" "$language:$scratch/written")
    else
        said=$(head -n 1 "$scratch/written")
    fi
    printf '%-28s %-16s %s\n' "$name" "$*" "$said"
}

for file in "$here"/examples/*; do
    [ -f "$file" ] || continue
    name=$(basename -- "$file")
    case $name in
    # (the offset turns an UNTIL in UTC beside a local start, and nothing where there is none)
    *.ics) operand=rrule@+01:00:$file ;;
    *.vcs) operand=vcal:$file ;;
    *.json) operand=graph:$file ;;
    *) operand=list:$file ;;
    esac
    for language in rrule vcal graph; do
        back "$name" "$operand" "$language" translate "$language"
    done
    back "$name" "$operand" rrule infer
done
