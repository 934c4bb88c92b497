# Takes one event out of a calendar, with its moved and cancelled instances, as a text that rr reads as `rrule`:
#     awk -v uid=standup@team.example -f examples/one_event.awk calendar.ics
# Each instance becomes an EXDATE of the moment that it names, and an RDATE of its own start unless it is cancelled. Without uid the file
# has one series. It ends with 1, and says why, if there is no such series or two, if the series is cancelled, if an instance names all
# that follow it (RANGE), or if one was moved onto a moment that the series itself takes out.

function fail(said) {
    print "one_event.awk: " said >"/dev/stderr"
    failed = 1
    exit 1
}

# The value after the first colon that stands outside of quotes.
function colon(line,    at, quoted, letter) {
    for (at = 1; at <= length(line); at++) {
        letter = substr(line, at, 1)
        if (letter == "\"") quoted = !quoted
        if (letter == ":" && !quoted) return at
    }
    return 0
}

# An unfolded line of an event: its name decides.
function take(line,    name, value) {
    name = toupper(line)
    sub(/[;:].*/, "", name)
    value = substr(line, colon(line) + 1)
    if (name == "UID") id = value
    if (name == "STATUS") cancelled = toupper(value) == "CANCELLED"
    if (name == "EXDATE") excluded = excluded "," value
    if (name == "DTSTART") {
        start = value
        start_line = line
    }
    if (name == "RECURRENCE-ID") {
        moved = value
        moved_line = line
    }
    lines = lines line "\n"
}

function begin_event() {
    id = start = start_line = moved = moved_line = excluded = lines = ""
    cancelled = 0
}

function end_event() {
    if (uid != "" && id != uid) return
    if (moved_line == "") {
        if (series != "") fail("there are two series")
        series = lines
        out = excluded ","
        if (cancelled) fail("the series is cancelled")
        return
    }
    if (toupper(moved_line) ~ /^RECURRENCE-ID[^:]*;RANGE=/) fail("an instance names all that follow it")
    instances++
    sub(/^[^;:]*/, "", moved_line)
    sub(/^[^;:]*/, "", start_line)
    named[instances] = moved
    taken_out[instances] = "EXDATE" moved_line
    if (!cancelled) {
        put_in[start] = 1
        put_line[instances] = "RDATE" start_line
    }
}

function line_of(line,    name) {
    name = toupper(line)
    if (name ~ /^BEGIN:/) {
        depth++
        if (name == "BEGIN:VEVENT") {
            begin_event()
            event_depth = depth
        }
    } else if (name ~ /^END:/) {
        if (depth == event_depth) {
            end_event()
            event_depth = 0
        }
        depth--
    } else if (event_depth && depth == event_depth) {
        take(line)
    }
}

{ sub(/\r$/, "") }
/^[ \t]/ { whole = whole substr($0, 2); next }
{ if (NR > 1) line_of(whole); whole = $0 }
END {
    if (failed) exit 1
    line_of(whole)
    if (series == "") fail("there is no such series")
    for (moment in put_in) if (index(out, "," moment ",")) fail("an instance was moved onto " moment ", which the series takes out")
    print "BEGIN:VEVENT"
    printf "%s", series
    for (i = 1; i <= instances; i++) {
        if (!(named[i] in put_in)) print taken_out[i]
        if (i in put_line) print put_line[i]
    }
    print "END:VEVENT"
}
