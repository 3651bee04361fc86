#!/bin/sh
# Runs the program `suite` and holds what it prints: a line for each test, the last line, every refusal, and the largest
# pairs. How the input is split is tested with `compare`, which reads it by the same function.
set -u
cd "$(dirname "$0")/.." || exit 1
. tests/shared
built suite
begins

# tests FIRST COUNT WORD: the lines of so many tests
tests() {
    awk -v first="$1" -v count="$2" -v word="$3" \
        'BEGIN { for (k = first; k < first + count; k++) print "test " k " " word }'
}

# heads P Q E: the lines of two accepted sheets
heads() {
    printf 'reference %s nodes %s events\ndevice %s nodes %s events\n' "$1" "$3" "$2" "$3"
}

input $reference $device
prints "01's example" "$(heads 2 3 2)" "$(tests 0 5 passes)" "$(tests 5 1 fails)" 'tests 6 run 6 failed 1'

input $coded_reference $coded_device
prints 'both of version 2' "$(heads 2 3 2)" "$(tests 0 5 passes)" "$(tests 5 1 fails)" 'tests 6 run 6 failed 1'

input $reference $plain_device
prints 'version 1 and version 2' "$(heads 2 3 2)" "$(tests 0 5 passes)" "$(tests 5 1 fails)" 'tests 6 run 6 failed 1'

input $reference $reference
prints 'a sheet against itself' "$(heads 2 2 2)" "$(tests 0 4 passes)" 'tests 4 run 4 all pass'

input $only_zero $only_one
prints 'a stray at the start' "$(heads 1 1 2)" "$(tests 0 1 fails)" 'tests 1 run 1 failed 1'

# refusals
input $reference $stopped
prints 'unequal E' 'reference 2 nodes 2 events' 'device 1 nodes 1 events' 'suite refused 11'
input $reference 00
prints 'a bad device' 'reference 2 nodes 2 events' 'device refused 1'
input 00 00 00 07 03 01 01 00 01 00 00 $stopped
prints 'a bad reference' 'reference refused 2'
input $reference 00 00 00 0A 02 02 01 00 07 00 07 00 00 00
prints 'a code given twice' 'reference 2 nodes 2 events' 'device refused 18'
input $coded_reference $stopped
prints 'unequal E and unequal codes' 'reference 2 nodes 2 events' 'device 1 nodes 1 events' 'suite refused 11'
input $coded_reference $turned_device
prints 'the same codes for other events' "$(heads 2 3 2)" 'suite refused 19'
input $coded_reference $device
prints 'version 2 and version 1, other codes' "$(heads 2 3 2)" 'suite refused 19'
input
prints 'no byte' 'reference refused 1'

# a violation after 991 events: at the last test
late_sheets > "$scratch/input"
prints 'the last test fails' "$(heads 32 31 2)" "$(tests 0 991 passes)" "$(tests 991 1 fails)" \
    'tests 992 run 992 failed 1'

# all 1,024 pairs
full_sheets > "$scratch/input"
prints 'all 1,024 tests pass' "$(heads 32 32 2)" "$(tests 0 1024 passes)" 'tests 1024 run 1024 all pass'

ends
