#!/bin/sh
# Refuses each allocation of four runs in turn, one in each run, and prints of each how many allocations it makes, and how many
# runs then ended with the answer, how many out of memory with nothing put, and how many otherwise, of which there are to be none.
# Usage: bench/allocations.sh [PROGRAM], after the program was built. It stands on a C compiler ($CC, else cc), which makes a library
# that is loaded before the system's and refuses one call of malloc or realloc, so the program is one that is linked dynamically.
# (`rt try --fail-alloc N` in crates/rr_cli refuses the same calls, but compiles the program for each N.)
set -u

here=$(CDPATH= cd -- "$(dirname -- "$0")/.." && pwd) || exit 1
program=${1:-$here/crates/rr_cli/out/rr_cli}
[ -x "$program" ] || { echo "allocations.sh: $program is not built" >&2; exit 1; }
program=$(CDPATH= cd -- "$(dirname -- "$program")" && pwd)/$(basename -- "$program")

scratch=$(mktemp -d) || exit 1
trap 'rm -rf "$scratch"' EXIT
cd "$scratch" || exit 1

# REFUSE is the number of the call that is refused, from 1; at the end the number of calls is written to descriptor 9.
cat >refuse.c <<'C'
#include <stdio.h>
#include <stdlib.h>
#include <unistd.h>

extern void *__libc_malloc(size_t);
extern void *__libc_realloc(void *, size_t);

static long refused, calls;
static int counts;

__attribute__((constructor)) static void begin(void) {
    const char *number = getenv("REFUSE");
    refused = number ? atol(number) : 0;
    counts = 1;
}

static int is_refused(void) { return counts && ++calls == refused; }

void *malloc(size_t size) { return is_refused() ? NULL : __libc_malloc(size); }

void *realloc(void *old, size_t size) { return is_refused() ? NULL : __libc_realloc(old, size); }

__attribute__((destructor)) static void end(void) {
    char text[32];
    counts = 0;
    int length = snprintf(text, sizeof text, "%ld\n", calls);
    if (write(9, text, length) < 0) _exit(99);
}
C
"${CC:-cc}" -shared -fPIC -O1 -o refuse.so refuse.c || exit 1

# refusing N WORDS..: a run whose Nth allocation is refused; none where N is 0. Its output is in `out`, its status in $status.
refusing() {
    number=$1
    shift
    REFUSE=$number LD_PRELOAD=$scratch/refuse.so "$program" "$@" >out 2>/dev/null 9>calls
    status=$?
}

# each NAME WORDS..: all runs over these words.
each() {
    name=$1
    shift
    refusing 0 "$@"
    cp out answer
    wanted=$status
    calls=$(cat calls)
    answered=0
    wanting=0
    others=0
    for n in $(seq "$calls"); do
        refusing "$n" "$@"
        if [ "$status" -eq "$wanted" ] && cmp -s out answer; then
            answered=$((answered + 1))
        elif [ "$status" -eq 6 ] && [ ! -s out ]; then
            wanting=$((wanting + 1))
        else
            others=$((others + 1))
            worst=1
            echo "allocation $n of $name: status $status, $(wc -c <out) bytes put"
        fi
    done
    printf '%-40s %6d allocations %6d answered %6d out of memory %6d otherwise\n' "$name" "$calls" "$answered" "$wanting" "$others"
}

printf 'DTSTART:20240101T090000\nRRULE:FREQ=HOURLY;INTERVAL=7\n' >hours
printf '%s' '{"subject":"Review","isAllDay":false,"start":{"dateTime":"2024-01-02T09:30:00.0000000","timeZone":"Pacific Standard Time"},"recurrence":{"pattern":{"type":"weekly","interval":2,"month":0,"dayOfMonth":0,"daysOfWeek":["tuesday","thursday"],"firstDayOfWeek":"sunday","index":"first"},"range":{"type":"endDate","startDate":"2024-01-02","endDate":"2024-06-30","recurrenceTimeZone":"Pacific Standard Time","numberOfOccurrences":0}}}' >event
printf 'DTSTART:20240117\nRRULE:FREQ=MONTHLY;BYMONTHDAY=15,16,17,18,19,20,21;BYDAY=WE\n' >wednesdays
printf '%s\r\n' BEGIN:VCALENDAR VERSION:2.0 BEGIN:VTIMEZONE TZID:Europe/Berlin BEGIN:STANDARD DTSTART:19701025T030000 \
    'RRULE:FREQ=YEARLY;BYMONTH=10;BYDAY=-1SU' END:STANDARD END:VTIMEZONE BEGIN:VEVENT 'DTSTART;TZID=Europe/Berlin:20240103T100000' \
    'RRULE:FREQ=WEEKLY;WKST=MO;COUNT=4;' ' BYDAY=WE' 'EXDATE;TZID=Europe/Berlin:20240110T100000' SUMMARY:Status BEGIN:VALARM \
    TRIGGER:-P0DT0H10M0S END:VALARM END:VEVENT END:VCALENDAR >calendar

worst=0
each 'canon, every seven hours' canon rrule:hours
each 'translate rrule, an event of Graph' translate rrule graph:event
each 'translate graph, third Wednesdays' translate graph rrule:wednesdays
each 'list 9, a calendar' list 9 rrule:calendar
exit "$worst"
