#!/bin/sh
# Times verdicts and canonical texts of long and short series, and prints of each the seconds, the ratio to a run that
# only prints the usage line, the most memory in megabytes and the output's first line.
# Usage: bench/verdicts.sh [PROGRAM], after the program was built; it stands on GNU time.
set -u

. "$(dirname -- "$0")/measure.sh"

series long 20240101 'FREQ=MONTHLY;INTERVAL=113'
series weekly 20240101 'FREQ=WEEKLY;BYDAY=MO,WE,FR'
series monthly 20240109 'FREQ=MONTHLY;BYDAY=2TU'
series yearly 20240229 'FREQ=YEARLY;BYMONTH=2;BYMONTHDAY=-1'
series counted 20240101 'FREQ=DAILY;COUNT=16777217'
series seconds 20240101T000000 'FREQ=SECONDLY;INTERVAL=86399'
series january 20240101T000000 'FREQ=SECONDLY;BYMONTH=1'
series visits 20240101T090000 'FREQ=DAILY;INTERVAL=4096'
series repairs 20240101T100000 'FREQ=DAILY;INTERVAL=4095'
series daily 20240101 'FREQ=DAILY'
series dense 20240101T000000 'FREQ=MINUTELY;INTERVAL=113;BYMONTH=1,2,3,4,5,6,7,8,9,10,11,12'
series dense-other 20240101T000100 'FREQ=MINUTELY;INTERVAL=113;BYMONTH=1,2,3,4,5,6,7,8,9,10,11,12'
# 113 sets of 765 seconds take turns
series turns 20240101T000000 'FREQ=SECONDLY;INTERVAL=113;BYMONTH=1,2,3,4,5,6,7,8,9,10,11,12'

several beside 20240101 'FREQ=MONTHLY;INTERVAL=113' 'FREQ=DAILY'
several minutes 20240101T000000 'FREQ=MINUTELY' 'FREQ=MONTHLY;INTERVAL=113;BYSECOND=0,30'
"$program" canon "rrule:$scratch/minutes" >"$scratch/minutes-text"
# a canonical text of a megabyte, whose runs have a day each
{ printf 'rrcanon 2\ndays\nf 2024-01-01\nb 0 0 1\n' && yes 'b 1 0 1
b 2 0 1' | head -n 130000 && echo 'b 1 0 1'; } >"$scratch/megabyte"
# seven sets of 12,343 seconds take turns; the second rule adds none, but its cycle
months=$(seq -s , 1 12)
several sevenths 20240101T000000 'FREQ=SECONDLY;INTERVAL=7' "FREQ=SECONDLY;INTERVAL=791;BYMONTH=$months"
several sevenths-later 20240101T000001 'FREQ=SECONDLY;INTERVAL=7' "FREQ=SECONDLY;INTERVAL=791;BYMONTH=$months"
several pair 20240101 'FREQ=WEEKLY' 'FREQ=MONTHLY'
several sixteen 20240101 'FREQ=DAILY;COUNT=1001' 'FREQ=DAILY;COUNT=1002' 'FREQ=DAILY;COUNT=1003' 'FREQ=DAILY;COUNT=1004' \
    'FREQ=DAILY;COUNT=1005' 'FREQ=DAILY;COUNT=1006' 'FREQ=DAILY;COUNT=1007' 'FREQ=DAILY;COUNT=1008' \
    'FREQ=WEEKLY;COUNT=1001' 'FREQ=WEEKLY;COUNT=1002' 'FREQ=WEEKLY;COUNT=1003' 'FREQ=WEEKLY;COUNT=1004' \
    'FREQ=WEEKLY;COUNT=1005' 'FREQ=WEEKLY;COUNT=1006' 'FREQ=WEEKLY;COUNT=1007' 'FREQ=WEEKLY;COUNT=1008'
dates sixteen
day=$(seq -s , 0 59)
series second 20240101T000000 "FREQ=YEARLY;BYHOUR=$(seq -s , 0 23);BYMINUTE=$day;BYSECOND=$day;BYMONTH=1;BYSETPOS=1,-1"

measure 0.3 3 'equal, a cycle of 16,508,961 days' equal "rrule:$scratch/long" "rrule:$scratch/long"
measure 0.02 5 'equal, weekly and monthly' equal "rrule:$scratch/weekly" "rrule:$scratch/monthly"
measure 0.02 5 'within, monthly and yearly' within "rrule:$scratch/monthly" "rrule:$scratch/yearly"
measure 0.02 5 'disjoint, yearly and weekly' disjoint "rrule:$scratch/yearly" "rrule:$scratch/weekly"
measure 1 3 'equal, 16,777,217 counted days' equal "rrule:$scratch/counted" "rrule:$scratch/counted"
measure 0.5 3 'equal, each 86,399 seconds' equal "rrule:$scratch/seconds" "rrule:$scratch/seconds"
measure 10 1 'equal, each second of January' equal "rrule:$scratch/january" "rrule:$scratch/january"
measure 3 1 'disjoint, each seventh second and a second later, 16,508,961 days' disjoint "rrule:$scratch/sevenths" "rrule:$scratch/sevenths-later"
measure 0.02 5 'canon, monthly' canon "rrule:$scratch/monthly"
measure 2 3 'canon, a dense cycle of 16,508,961 days' canon "rrule:$scratch/dense"
measure 1.5 3 'canon, minutes beside a cycle of 16,508,961 days' canon "rrule:$scratch/minutes"
measure 0.5 3 'within, the text of those minutes, read back' within "canon:$scratch/minutes-text" "rrule:$scratch/weekly"
measure 0.05 5 'nth 1, a canonical text of a megabyte' nth 1 "canon:$scratch/megabyte"
measure 2 3 'union, two dense cycles of 16,508,961 days' union "rrule:$scratch/dense" "rrule:$scratch/dense-other"
measure 1.6 3 'canon, 113 sets that take turns' canon "rrule:$scratch/turns"
measure 1 1 'equal, a long and a daily rule' equal "rrule:$scratch/beside" "rrule:$scratch/beside"
measure 2 3 'equal, 16 counted rules and 10,000 dates' equal "rrule:$scratch/sixteen" "rrule:$scratch/sixteen"
measure 0.02 5 'clear, yearly and weekly, a day each' clear 86400 "rrule:$scratch/yearly" 86400 "rrule:$scratch/weekly"
measure 2 3 'clear, visits and repairs of an hour, 16,773,120 days' clear 3600 "rrule:$scratch/visits" 3600 "rrule:$scratch/repairs"
measure 0.02 5 'nth 1000000000000, daily' nth 1000000000000 "rrule:$scratch/daily"
measure 0.5 3 'rank 9999-12-31, a cycle of 16,508,961 days' rank 9999-12-31 "rrule:$scratch/long"
measure 0.5 3 'list 100000 of two rules' list 100000 "rrule:$scratch/pair"
measure 0.1 3 'check, set positions of whole years' check "rrule:$scratch/second"
