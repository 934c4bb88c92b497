#!/bin/sh
# Times translations into Graph and vCalendar and inferred rules of everyday series, most of which are refused, and of the
# longest lists and cycles, and prints a line for each.
# Usage: bench/translations.sh [PROGRAM], after the program was built; it stands on GNU time.
set -u

. "$(dirname -- "$0")/measure.sh"

# listed NAME: ten thousand dates in rising order, by days after 1970-01-01 from the standard input.
listed() {
    awk '{ printf "@%.0f\n", $1 * 86400 }' | TZ=UTC date -u -f - +%Y-%m-%d >"$scratch/$1"
}

series halves 20240101 'FREQ=MONTHLY;BYMONTHDAY=1,15'
series rare 20240101 'FREQ=DAILY;INTERVAL=1000'
series week 20240115 'FREQ=YEARLY;BYWEEKNO=3;BYDAY=MO'
series twice 20240101T090000 'FREQ=DAILY;BYHOUR=9,17'
series leap 20240229 'FREQ=YEARLY;BYMONTH=2;BYMONTHDAY=29'
series work 20240131 'FREQ=MONTHLY;BYDAY=MO,TU,WE,TH,FR;BYSETPOS=-1'
series holidays 20240101T090000 'FREQ=WEEKLY;BYDAY=MO,WE'
printf 'EXDATE:20240110T090000\nRDATE:20240111T090000\n' >>"$scratch/holidays"
series course 20240101 'FREQ=WEEKLY;COUNT=100;BYDAY=MO,TU'
printf 'EXDATE:20240205\n' >>"$scratch/course"
several dense 20240101 "FREQ=MONTHLY;INTERVAL=113;BYMONTHDAY=$(seq -s , 1 31)" 'FREQ=DAILY;INTERVAL=3'
awk 'BEGIN { for (n = 0; n < 10000; n++) { x = (x * 69069 + 1) % 4294967296; d += 1 + x % 580; print d - 700000 } }' | listed scattered
awk 'BEGIN { for (n = 0; n < 9999; n++) print n; print 10000 }' | listed gap

for set in halves rare week twice leap holidays course; do
    measure 0.05 5 "graph, $set" translate graph "rrule:$scratch/$set"
done
for set in halves rare week twice work holidays course; do
    measure 0.05 5 "infer, $set" infer "rrule:$scratch/$set"
done
for set in scattered gap; do
    measure 5 1 "graph, 10,000 dates, $set" translate graph "list:$scratch/$set"
    measure 5 1 "infer, 10,000 dates, $set" infer "list:$scratch/$set"
done
measure 5 1 'graph, a dense cycle of 16,508,961 days' translate graph "rrule:$scratch/dense"
measure 5 1 'infer, a dense cycle of 16,508,961 days' infer "rrule:$scratch/dense"
measure 5 1 'drill 1 100' drill 1 100
