#!/bin/sh
# What two calendars of 10,000 everyday events cost: seconds and the most memory, of a comparison of equal files, of one in which every
# tenth event differs, and of two files of 10,000 weekly events that end in local time and in UTC, read by the zone of the file: the second
# may take at most 1.3 times what the first takes; and of 10,000 events as a list of Microsoft Graph beside the same list, which may take at
# most twice what the first comparison takes. Usage: bench/calendars.sh [PROGRAM [EVENTS]], after the program was built; it stands on GNU time.
set -eu
program=${1:-$(dirname -- "$0")/../crates/rr_calendars/out/rr_calendars}
events=${2:-10000}
scratch=$(mktemp -d)
trap 'rm -rf "$scratch"' EXIT

# calendar DIFFERENT: a mix of everyday events: weekly ones, two workdays, fortnights, months by day and by weekday, birthdays, single
# ones, and of every twentieth a moved instance; where DIFFERENT is 1, each tenth lacks a date.
calendar() {
    awk -v n="$events" -v different="$1" 'BEGIN {
        ORS = "\r\n"
        split("FREQ=WEEKLY;BYDAY=MO|FREQ=WEEKLY;BYDAY=MO,WE|FREQ=WEEKLY;INTERVAL=2;BYDAY=MO|FREQ=MONTHLY;BYMONTHDAY=8|FREQ=MONTHLY;BYDAY=2MO|FREQ=YEARLY||FREQ=DAILY;COUNT=5", rule, "|")
        print "BEGIN:VCALENDAR"
        print "VERSION:2.0"
        print "PRODID:-//Bench//Calendars//EN"
        for (i = 0; i < n; i++) {
            uid = sprintf("%06d-event@bench.example", (i * 7919) % 1000000)
            time = sprintf("T%02d%02d00", 8 + i % 10, i % 4 * 15)
            print "BEGIN:VEVENT"
            print "UID:" uid
            print "DTSTAMP:20240101T080000Z"
            print "SUMMARY:Event " i
            print "DTSTART;TZID=Europe/Berlin:20240108" time
            print "DURATION:PT1H"
            r = rule[1 + i % 8]
            if (r != "") print "RRULE:" r
            if (different && i % 10 == 0) print "EXDATE;TZID=Europe/Berlin:20240108" time
            print "END:VEVENT"
            if (i % 20 == 0) {
                print "BEGIN:VEVENT"
                print "UID:" uid
                print "DTSTAMP:20240101T080000Z"
                print "RECURRENCE-ID;TZID=Europe/Berlin:20240115" time
                print "DTSTART;TZID=Europe/Berlin:20240116" time
                print "END:VEVENT"
            }
        }
        print "END:VCALENDAR"
    }'
}

calendar 0 >"$scratch/old.ics"
calendar 1 >"$scratch/new.ics"
for other in old new; do
    status=0
    /usr/bin/time -f '%e s (%U of the processor), %M KB' -o "$scratch/time" "$program" "$scratch/old.ics" "$scratch/$other.ics" --differences >"$scratch/said" || status=$?
    printf '%s: status %s, %s, %s\n' "$other" "$status" "$(tail -n 1 "$scratch/time")" "$(tail -n 1 "$scratch/said")"
done

# ending UNTIL: weekly events of Berlin with the VTIMEZONE of it, each of which ends so.
ending() {
    awk -v n="$events" -v until="$1" 'BEGIN {
        ORS = "\r\n"
        print "BEGIN:VCALENDAR"
        print "VERSION:2.0"
        print "PRODID:-//Bench//Calendars//EN"
        print "BEGIN:VTIMEZONE"
        print "TZID:Europe/Berlin"
        print "BEGIN:DAYLIGHT\r\nDTSTART:19810329T020000\r\nRRULE:FREQ=YEARLY;BYMONTH=3;BYDAY=-1SU\r\nTZOFFSETFROM:+0100\r\nTZOFFSETTO:+0200\r\nEND:DAYLIGHT"
        print "BEGIN:STANDARD\r\nDTSTART:19961027T030000\r\nRRULE:FREQ=YEARLY;BYMONTH=10;BYDAY=-1SU\r\nTZOFFSETFROM:+0200\r\nTZOFFSETTO:+0100\r\nEND:STANDARD"
        print "END:VTIMEZONE"
        for (i = 0; i < n; i++) {
            print "BEGIN:VEVENT"
            print "UID:" sprintf("%06d-event@bench.example", (i * 7919) % 1000000)
            print "DTSTART;TZID=Europe/Berlin:20240108T090000"
            print "RRULE:FREQ=WEEKLY;UNTIL=" until
            print "END:VEVENT"
        }
        print "END:VCALENDAR"
    }'
}

ending 20250630T090000 >"$scratch/local.ics"
ending 20250630T070000Z >"$scratch/utc.ics"
for ends in local utc; do
    status=0
    /usr/bin/time -f '%e s (%U of the processor), %M KB' -o "$scratch/time" "$program" "$scratch/$ends.ics" "$scratch/$ends.ics" --differences >"$scratch/said" || status=$?
    printf 'ends in %s: status %s, %s, %s\n' "$ends" "$status" "$(tail -n 1 "$scratch/time")" "$(tail -n 1 "$scratch/said")"
done

# listed: the same mix as a list of Microsoft Graph, each series with the instances that it lists.
listed() {
    awk -v n="$events" 'BEGIN {
        split("weekly|weekly|weekly|absoluteMonthly|relativeMonthly|absoluteYearly||daily", type, "|")
        split("1|1|2|1|1|1||1", interval, "|")
        split(",\"daysOfWeek\":[\"monday\"]|,\"daysOfWeek\":[\"monday\",\"wednesday\"]|,\"daysOfWeek\":[\"monday\"]|,\"dayOfMonth\":8|,\"daysOfWeek\":[\"monday\"],\"index\":\"second\"|,\"dayOfMonth\":8,\"month\":1||", more, "|")
        printf "{\"value\":["
        for (i = 0; i < n; i++) {
            k = 1 + i % 8
            time = sprintf("T%02d:%02d:00.0000000\",\"timeZone\":\"Europe/Berlin\"}", 8 + i % 10, i % 4 * 15)
            if (i) printf ","
            printf "\n{\"id\":\"AQMk%06d=\",\"iCalUId\":\"%06d-event@bench.example\",\"subject\":\"Event %d\"", i, (i * 7919) % 1000000, i
            printf ",\"type\":\"%s\",\"isAllDay\":false,\"isCancelled\":false", type[k] == "" ? "singleInstance" : "seriesMaster"
            printf ",\"start\":{\"dateTime\":\"2024-01-08" time
            if (type[k] == "") { printf "}"; continue }
            printf ",\"recurrence\":{\"pattern\":{\"type\":\"%s\",\"interval\":%d%s}", type[k], interval[k], more[k]
            printf ",\"range\":{\"type\":\"%s\",\"startDate\":\"2024-01-08\"%s}}", k == 8 ? "numbered" : "noEnd", k == 8 ? ",\"numberOfOccurrences\":5" : ""
            printf ",\"cancelledOccurrences\":[],\"exceptionOccurrences\":["
            if (i % 20 == 0) printf "{\"id\":\"AQMk%06dx=\",\"occurrenceId\":\"OID.AQMk%06d=.2024-01-15\",\"type\":\"exception\",\"start\":{\"dateTime\":\"2024-01-16" time "}", i, i
            printf "]}"
        }
        print "\n]}"
    }'
}

listed >"$scratch/list.json"
status=0
/usr/bin/time -f '%e s (%U of the processor), %M KB' -o "$scratch/time" "$program" "graph:$scratch/list.json" "graph:$scratch/list.json" --differences >"$scratch/said" || status=$?
printf 'lists of Graph: status %s, %s, %s\n' "$status" "$(tail -n 1 "$scratch/time")" "$(tail -n 1 "$scratch/said")"
