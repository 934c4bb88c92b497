#!/bin/sh
# What it costs to find events again without their UID: 10,000 everyday events beside the same with each tenth changed, once with the same
# UIDs and once with all UIDs new. Each event has to have the same verdict in both, and the new UID of the event that it was, and the second
# may take at most three times the processor seconds of the first, the least of three runs each. The status is 0 if all of that is so.
# Usage: bench/matched.sh [PROGRAM [EVENTS]], after the program was built; it stands on GNU time.
set -eu
program=${1:-$(dirname -- "$0")/../crates/rr_calendars/out/rr_calendars}
events=${2:-10000}
scratch=$(mktemp -d)
trap 'rm -rf "$scratch"' EXIT
[ -x "$program" ] || { echo "matched.sh: $program is not built" >&2; exit 1; }

# calendar CHANGED RENAMED: events of Berlin with its VTIMEZONE, two of each title, weekly ones, two workdays, fortnights, months by day and
# by weekday, birthdays and five days, and of every twentieth a moved instance; where CHANGED is 1, each tenth has a date more, the next day;
# where RENAMED is 1, each has another UID, so that they come in another order.
calendar() {
    awk -v n="$events" -v changed="$1" -v renamed="$2" 'BEGIN {
        ORS = "\r\n"
        split("FREQ=WEEKLY;BYDAY=MO|FREQ=WEEKLY;BYDAY=MO,WE|FREQ=WEEKLY;INTERVAL=2;BYDAY=MO|FREQ=MONTHLY;BYMONTHDAY=8|FREQ=MONTHLY;BYDAY=2MO|FREQ=YEARLY|FREQ=DAILY;COUNT=5|FREQ=WEEKLY;COUNT=70", rule, "|")
        print "BEGIN:VCALENDAR"
        print "VERSION:2.0"
        print "PRODID:-//Bench//Calendars//EN"
        print "BEGIN:VTIMEZONE"
        print "TZID:Europe/Berlin"
        print "BEGIN:DAYLIGHT\r\nDTSTART:19810329T020000\r\nRRULE:FREQ=YEARLY;BYMONTH=3;BYDAY=-1SU\r\nTZOFFSETFROM:+0100\r\nTZOFFSETTO:+0200\r\nEND:DAYLIGHT"
        print "BEGIN:STANDARD\r\nDTSTART:19961027T030000\r\nRRULE:FREQ=YEARLY;BYMONTH=10;BYDAY=-1SU\r\nTZOFFSETFROM:+0200\r\nTZOFFSETTO:+0100\r\nEND:STANDARD"
        print "END:VTIMEZONE"
        for (i = 0; i < n; i++) {
            uid = sprintf("%06d-event@bench.example", (i * 7919) % 1000000)
            if (renamed) uid = sprintf("%06d-new@bench.example", (i * 104729 + 17) % 1000000)
            time = sprintf("T%02d%02d00", 8 + i % 10, i % 4 * 15)
            print "BEGIN:VEVENT"
            print "UID:" uid
            print "DTSTAMP:20240101T080000Z"
            print "SUMMARY:Event " int(i / 2)
            print "DTSTART;TZID=Europe/Berlin:20240108" time
            print "DURATION:PT1H"
            print "RRULE:" rule[1 + i % 8]
            if (changed && i % 10 == 0) print "RDATE;TZID=Europe/Berlin:20240109T030000"
            print "END:VEVENT"
            if (i % 20 == 1) {
                print "BEGIN:VEVENT"
                print "UID:" uid
                print "DTSTAMP:20240101T080000Z"
                print "RECURRENCE-ID;TZID=Europe/Berlin:20240108" time
                print "SUMMARY:Event " int(i / 2)
                print "DTSTART;TZID=Europe/Berlin:20240107" time
                print "END:VEVENT"
            }
        }
        print "END:VCALENDAR"
    }'
}

# The UID of each event, and its new one.
pairs() {
    awk -v n="$events" 'BEGIN {
        for (i = 0; i < n; i++) printf("%06d-event@bench.example %06d-new@bench.example\n", (i * 7919) % 1000000, (i * 104729 + 17) % 1000000)
    }'
}

# seconds NAME: the least processor seconds of three comparisons of the old file with this one, whose report is kept.
seconds() {
    : >"$scratch/times"
    for run in 1 2 3; do
        status=0
        /usr/bin/time -f '%U %S' -o "$scratch/time" "$program" "$scratch/old.ics" "$scratch/$1.ics" >"$scratch/$1.said" || status=$?
        [ "$status" -le 1 ] || { echo "$1: status $status" >&2; return 1; }
        tail -n 1 "$scratch/time" >>"$scratch/times"
    done
    awk '{ s = $1 + $2; if (NR == 1 || s < least) least = s } END { print least }' "$scratch/times"
}

calendar 0 0 >"$scratch/old.ics"
calendar 1 0 >"$scratch/same.ics"
calendar 1 1 >"$scratch/new.ics"
pairs >"$scratch/pairs"
same=$(seconds same)
new=$(seconds new)
printf 'the same UIDs: %s s, %s\n' "$same" "$(tail -n 1 "$scratch/same.said")"
printf 'all UIDs new: %s s, %s\n' "$new" "$(tail -n 1 "$scratch/new.said")"

# What the second report has to be: the first one, with the new UID behind each UID, and as many events that were found so.
awk -v n="$events" 'NR == FNR { new[$1] = $2; next }
    $1 == "events" { sub(/matched 0$/, "matched " n); print; next }
    { $2 = $2 " = " new[$2]; print }' "$scratch/pairs" "$scratch/same.said" >"$scratch/wanted"
if [ "$(wc -l <"$scratch/wanted")" -ne $((events + 1)) ] || ! cmp -s "$scratch/wanted" "$scratch/new.said"; then
    echo 'the verdicts are not the same:' >&2
    diff "$scratch/wanted" "$scratch/new.said" | head >&2
    exit 1
fi
awk -v same="$same" -v new="$new" 'BEGIN { ratio = new / (same > 0 ? same : 0.01); printf "%.2f times the processor seconds\n", ratio; exit ratio > 3 }'
