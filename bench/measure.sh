# What the scripts that time the program share: series in a scratch folder, and a line of their tables. It is read by them, not run.
# A line has the seconds, the ratio to a run that only prints the usage line, the most memory in megabytes, and the output's
# first line. It stands on GNU time.

here=$(CDPATH= cd -- "$(dirname -- "$0")/.." && pwd) || exit 1
program=${1:-$here/crates/rr_cli/out/rr_cli}
[ -x "$program" ] || { echo "$(basename -- "$0"): $program is not built" >&2; exit 1; }

scratch=$(mktemp -d) || exit 1
trap 'rm -rf "$scratch"' EXIT

# series NAME START RULE: a series of one rule under that name.
series() {
    printf 'DTSTART:%s\nRRULE:%s\n' "$2" "$3" >"$scratch/$1"
}

# several NAME START RULE..: a series of several rules under that name.
several() {
    name=$1
    printf 'DTSTART:%s\n' "$2" >"$scratch/$name"
    shift 2
    printf 'RRULE:%s\n' "$@" >>"$scratch/$name"
}

# dates NAME: ten thousand dates more in that series, the first 28 days of each month from 2030 on.
dates() {
    awk 'BEGIN { for (y = 2030; n < 10000; y++) for (m = 1; m <= 12; m++) for (d = 1; d <= 28 && n < 10000; d++) {
        n++; printf "RDATE:%d%02d%02d\n", y, m, d } }' >>"$scratch/$1"
}

# best RUNS WORDS..: of RUNS runs the least time in nanoseconds; of the last one the memory in kilobytes and the first line.
best() {
    runs=$1
    shift
    least=
    for _ in $(seq "$runs"); do
        begun=$(date +%s%N)
        /usr/bin/time -o "$scratch/memory" -f '%M' "$program" "$@" >"$scratch/out" 2>/dev/null
        taken=$(($(date +%s%N) - begun))
        [ -n "$least" ] && [ "$least" -le "$taken" ] || least=$taken
    done
    memory=$(tail -n 1 "$scratch/memory")
    first=$(head -n 1 "$scratch/out")
}

# measure LIMIT RUNS NAME WORDS..: one line of the table. The limit is in seconds; that of the memory in megabytes, if there is one, in
# `megabytes`.
measure() {
    limit=$1
    runs=$2
    name=$3
    shift 3
    best "$runs" "$@"
    awk -v name="$name" -v taken="$least" -v empty="$empty" -v memory="$memory" -v limit="$limit" -v most="${megabytes:-}" -v first="$first" 'BEGIN {
        said = (taken > limit * 1e9) ? "SLOW" : (most != "" && memory > most * 1024) ? "LARGE" : "ok"
        printf "%-40s %8.3f s %8.0f x %6.0f MB  %-5s %s\n", name, taken / 1e9, taken / empty, memory / 1024, said, first
    }'
}

best 20 none
empty=$least
awk -v empty="$empty" 'BEGIN { printf "an empty run: %.4f s\n", empty / 1e9 }'

# instructions WORDS..: how many instructions a run takes.
instructions() {
    valgrind --tool=callgrind --callgrind-out-file="$scratch/callgrind" "$program" "$@" 2>&1 >/dev/null |
        sed -n 's/.*Collected : //p'
}

if command -v valgrind >/dev/null 2>&1; then
    empty_instructions=$(instructions none)
else
    empty_instructions=
fi

# counted LIMIT EACH NAME WORDS..: one line with the instructions of a run beyond those of an empty one, divided by EACH.
counted() {
    limit=$1
    each=$2
    name=$3
    shift 3
    if [ -z "$empty_instructions" ]; then
        printf '%-42s %12s\n' "$name" -
        return
    fi
    all=$(instructions "$@")
    taken=$(((all - empty_instructions) / each))
    said=ok
    [ "$taken" -le "$limit" ] || said=SLOW
    printf '%-42s %12d  %-5s %s\n' "$name" "$taken" "$said" "$("$program" "$@" | head -n 1)"
}
