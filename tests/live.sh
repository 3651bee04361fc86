#!/bin/sh
# Runs the program `live` and holds what it prints to 01's section "Test k and a live run", to 02's K4 and to the header
# of crates/live/src/main.rt: every kind of line, bad words, files that cannot be read, trace-only runs, input that is
# empty, cut off, long or in pieces, and output that cannot be written.
set -u
cd "$(dirname "$0")/.." || exit 1
. tests/shared
built live
begins

# started WORD..: runs the program with these words on the lines of $scratch/input
started() {
    "$program" "$@" < "$scratch/input" > "$scratch/printed" 2> "$scratch/said"
}

# reports LINE..: these lines are the input
reports() {
    lines "$@" > "$scratch/input"
}

# quiet NAME: nothing stands on standard error
quiet() {
    [ ! -s "$scratch/said" ] || {
        fails "$1: standard error has:"
        cat "$scratch/said" >&2
    }
}

# told NAME WORDS: one line with these words stands on standard error
told() {
    [ "$(wc -l < "$scratch/said")" -eq 1 ] && grep -q "$2" "$scratch/said" || {
        fails "$1: standard error has:"
        cat "$scratch/said" >&2
    }
}

# 01's reference and cases
bytes $reference > "$scratch/reference"
bytes $only_zero > "$scratch/only_zero"
bytes $may_loop > "$scratch/may_loop"
bytes $stopped > "$scratch/stopped"
# twelve events, all of them initials, acceptance 2,055 (events 0, 1, 2 and 11)
bytes 00 00 00 12 01 0C 01 00 00 00 00 00 00 00 00 00 00 00 00 01 08 07 > "$scratch/twelve"
# five events, of which 2, 3 and 4 are initials, with the two acceptances 12 (2 and 3) and 16 (4):
# the probes are 20 and 24
bytes 00 00 00 0D 01 05 01 FF FF 00 00 00 02 00 0C 00 10 > "$scratch/five"
R=$scratch/reference
# first lines on 01's reference, and the lines of refused reports
test_0='test 0 choice 0 reference 2 nodes 2 events'
test_1='test 1 choice 0 reference 2 nodes 2 events'
no_report='report refused 15 no event of the sheet, or no report'
not_offered='report refused 17 the event was not offered'

# ---- test 1 on 01's reference: node 0 has probe 3, node 1 probes 1 and 2
reports 'event 0' 'event 0'
started "$R" 1 0
held 'passed at depth k' "$test_1" 'offer 0 1' 'offer 0' 'run passed'
quiet 'passed at depth k'
reports 'event 1' 'event 1'
started "$R" 1 1
held 'the second probe' 'test 1 choice 1 reference 2 nodes 2 events' 'offer 0 1' 'offer 1' 'run passed'
reports 'event 1' 'event 0'
started "$R" 1 65534
held 'h 65,534' 'test 1 choice 65534 reference 2 nodes 2 events' 'offer 0 1' 'offer 0' 'run passed'
started "$R" 1 65535
held 'h 65,535, and then an event that is not offered' 'test 1 choice 65535 reference 2 nodes 2 events' 'offer 0 1' \
    'offer 1' "$not_offered" 'offer 1' 'input ended'
reports 'event 0' 'blocked'
started "$R" 1 0
held 'refused' "$test_1" 'offer 0 1' 'offer 0' 'run failed refused 1 ( 0 )'
reports 'blocked'
started "$R" 1 0
held 'blocked below depth k' "$test_1" 'offer 0 1' 'run failed refused 3 ( 0 1 )'
reports 'event 1'
started "$scratch/only_zero" 0 0
held 'a stray' 'test 0 choice 0 reference 1 nodes 2 events' 'offer 0 1' 'run failed stray 1'
reports 'blocked'
started "$scratch/may_loop" 0 0
held 'an empty offer, and a node that may stop' 'test 0 choice 0 reference 1 nodes 1 events' 'offer' 'run passed'
started "$scratch/stopped" 0 0
held 'no initial' 'test 0 choice 0 reference 1 nodes 1 events' 'offer 0' 'run passed'
reports 'event 0'
started "$scratch/stopped" 0 0
held 'a stray where there is no initial' 'test 0 choice 0 reference 1 nodes 1 events' 'offer 0' 'run failed stray 0'
reports 'blocked'
started "$scratch/twelve" 1 0
held 'a set of twelve events' 'test 1 choice 0 reference 1 nodes 12 events' 'offer 0 1 2 3 4 5 6 7 8 9 10 11' \
    'run failed refused 4095 ( 0 1 2 3 4 5 6 7 8 9 10 11 )'
started "$scratch/twelve" 0 3
held 'an event of two digits' 'test 0 choice 3 reference 1 nodes 12 events' 'offer 11' \
    'run failed refused 2048 ( 11 )'
started "$scratch/five" 0 0
held 'a probe and the events outside the initials' 'test 0 choice 0 reference 1 nodes 5 events' 'offer 0 1 2 4' \
    'run failed refused 23 ( 0 1 2 4 )'
started "$scratch/five" 0 1
held 'the other probe' 'test 0 choice 1 reference 1 nodes 5 events' 'offer 0 1 3 4' \
    'run failed refused 27 ( 0 1 3 4 )'

# a reference of version 2
bytes $coded_reference > "$scratch/coded"
reports 'event 1' 'event 1'
started "$scratch/coded" 1 1
held 'version 2' 'test 1 choice 1 reference 2 nodes 2 events' 'offer 0 1' 'offer 1' 'run passed'
reports 'event 257' 'event 0' 'blocked'
started "$scratch/coded" 1 0
held 'version 2, a code is no event' "$test_1" 'offer 0 1' "$no_report" 'offer 0 1' 'offer 0' \
    'run failed refused 1 ( 0 )'

# what follows an ending is not read
reports 'event 0' 'event 0' 'event 0' 'blocked'
started "$R" 1 0
held 'after the end' "$test_1" 'offer 0 1' 'offer 0' 'run passed'

# ---- lines that are no report: the offer stands, and is printed again
reports 'event 2' 'event 255' 'event 256' 'event 999' 'event 0000' 'event' 'event ' 'event  0' ' event 0' 'event 0 ' \
    'event -0' 'event x' 'Event 0' 'block' 'blocked ' 'Blocked' '' '0' 'traces' 'event 0'
started "$R" 0 0
held 'no reports' "$test_0" 'offer 0 1' "$(repeat 19 "$no_report\noffer 0 1\n")" 'run passed'
reports 'event 000'
started "$R" 0 0
held 'leading zeros' "$test_0" 'offer 0 1' 'run passed'
printf 'event 0\r\nblocked\r\n' > "$scratch/input"
started "$R" 1 0
held 'a carriage return at the end' "$test_1" 'offer 0 1' 'offer 0' 'run failed refused 1 ( 0 )'
printf 'event 0\r\r\n\revent 0\nevent\r0\nblocked\r\r\n\r\nevent 0\r \nevent 0\n' > "$scratch/input"
started "$R" 0 0
held 'two carriage returns, and others than at the end' "$test_0" 'offer 0 1' \
    "$(repeat 6 "$no_report\noffer 0 1\n")" 'run passed'
printf 'event 0\000\n\377\376\nevent 0\n' > "$scratch/input"
started "$R" 0 0
held 'bytes that are no text' "$test_0" 'offer 0 1' "$(repeat 2 "$no_report\noffer 0 1\n")" 'run passed'

# lines of 63 to 65 bytes and of many: one refusal each
long() { # COUNT: `event 0` and so many bytes more
    printf 'event 0'
    repeat "$1" ' '
    echo
}
{
    long 56
    long 57
    long 58
    long 100000
    printf 'event 0\n'
} > "$scratch/input"
started "$R" 0 0
held 'long lines' "$test_0" 'offer 0 1' "$(repeat 4 "$no_report\noffer 0 1\n")" 'run passed'
# after 1,000,000 bytes a line counts as ended: the rest of it is another line
{
    repeat 1000000 x
    printf 'event 0\n'
} > "$scratch/input"
started "$R" 0 0
held 'a line of more than 1,000,000 bytes' "$test_0" 'offer 0 1' "$no_report" 'offer 0 1' 'run passed'

# ---- the input ends
: > "$scratch/input"
started "$R" 1 0
held 'no input' "$test_1" 'offer 0 1' 'input ended'
# a last line without its newline is no report
printf 'event 0' > "$scratch/input"
started "$R" 1 0
held 'no last newline' "$test_1" 'offer 0 1' 'input ended'
started "$R" 0 0
held 'no last newline where the run would end' "$test_0" 'offer 0 1' 'input ended'
printf 'event 0\r' > "$scratch/input"
started "$R" 0 0
held 'a carriage return and no last newline' "$test_0" 'offer 0 1' 'input ended'
printf 'event 0\nev' > "$scratch/input"
started "$R" 1 0
held 'half a line' "$test_1" 'offer 0 1' 'offer 0' 'input ended'
"$program" "$R" 1 0 <&- > "$scratch/printed" 2> "$scratch/said"
held 'no standard input' "$test_1" 'offer 0 1' 'input ended'
{
    printf 'eve'
    sleep 1
    printf 'nt 0\nblo'
    sleep 1
    printf 'cked\n'
} | "$program" "$R" 1 0 > "$scratch/printed"
held 'in pieces' "$test_1" 'offer 0 1' 'offer 0' 'run failed refused 1 ( 0 )'

# ---- trace-only: all events at each depth, never refused
reports 'event 0' 'event 1'
started "$R" 1 0 traces
held 'traces' 'trace-only test 1 choice 0 reference 2 nodes 2 events' 'offer 0 1' 'offer 0 1' 'run passed'
reports 'event 0' 'blocked'
started "$R" 1 0 traces
held 'traces, blocked' 'trace-only test 1 choice 0 reference 2 nodes 2 events' 'offer 0 1' 'offer 0 1' 'run passed'
reports 'event 0' 'event 1'
started "$scratch/only_zero" 3 0 traces
held 'traces, a stray' 'trace-only test 3 choice 0 reference 1 nodes 2 events' 'offer 0 1' 'offer 0 1' \
    'run failed stray 1'

# ---- trace-only, blocked below depth k: inconclusive, also where it may stop; at depth k: passed
traces_0='trace-only test 0 choice 0 reference 2 nodes 2 events'
traces_1='trace-only test 1 choice 0 reference 2 nodes 2 events'
traces_2='trace-only test 2 choice 0 reference 2 nodes 2 events'
# of the sheets with one event
small_0='trace-only test 0 choice 0 reference 1 nodes 1 events'
small_1='trace-only test 1 choice 0 reference 1 nodes 1 events'
reports 'blocked'
started "$R" 1 0 traces
held 'traces, blocked at once' "$traces_1" 'offer 0 1' 'run inconclusive'
quiet 'traces, blocked at once'
started "$R" 0 0 traces
held 'traces, k 0, blocked' "$traces_0" 'offer 0 1' 'run passed'
started "$scratch/may_loop" 1 0 traces
held 'traces, blocked at once where it may stop' "$small_1" 'offer 0' 'run inconclusive'
started "$scratch/may_loop" 0 0 traces
held 'traces, k 0, blocked where it may stop' "$small_0" 'offer 0' 'run passed'
started "$scratch/stopped" 1 0 traces
held 'traces, blocked at once without an initial' "$small_1" 'offer 0' 'run inconclusive'
started "$scratch/stopped" 0 0 traces
held 'traces, k 0, blocked without an initial' "$small_0" 'offer 0' 'run passed'
started "$scratch/twelve" 1 0 traces
held 'traces, twelve events, blocked at once' 'trace-only test 1 choice 0 reference 1 nodes 12 events' \
    'offer 0 1 2 3 4 5 6 7 8 9 10 11' 'run inconclusive'
started "$R" 1023 65535 traces
held 'traces, k 1,023, blocked at once' 'trace-only test 1023 choice 65535 reference 2 nodes 2 events' 'offer 0 1' \
    'run inconclusive'
started "$scratch/coded" 1 0 traces
held 'traces, version 2, blocked at once' "$traces_1" 'offer 0 1' 'run inconclusive'
# the same reports in runs that are not trace-only
started "$scratch/may_loop" 1 0
held 'blocked below depth k where it may stop' 'test 1 choice 0 reference 1 nodes 1 events' 'offer 0' 'run passed'
started "$scratch/stopped" 1 0
held 'blocked below depth k without an initial' 'test 1 choice 0 reference 1 nodes 1 events' 'offer 0' 'run passed'
reports 'event 0' 'blocked'
started "$R" 2 0
held 'blocked below depth k after an event' 'test 2 choice 0 reference 2 nodes 2 events' 'offer 0 1' 'offer 0 1' \
    'run failed refused 3 ( 0 1 )'
# after an event
started "$R" 2 0 traces
held 'traces, blocked below depth k after an event' "$traces_2" 'offer 0 1' 'offer 0 1' 'run inconclusive'
started "$scratch/may_loop" 1 0 traces
held 'traces, blocked at depth k where it may stop' "$small_1" 'offer 0' 'offer 0' 'run passed'
{
    repeat 1022 'event 0\n'
    echo blocked
} > "$scratch/input"
started "$R" 1023 0 traces
held 'traces, blocked at depth 1,022 of k 1,023' 'trace-only test 1023 choice 0 reference 2 nodes 2 events' \
    "$(repeat 1023 'offer 0 1\n')" 'run inconclusive'
started "$R" 1022 0 traces
held 'traces, blocked at depth 1,022 of k 1,022' 'trace-only test 1022 choice 0 reference 2 nodes 2 events' \
    "$(repeat 1023 'offer 0 1\n')" 'run passed'
# after lines that are refused: the offer is printed again each time
reports 'event 2' 'block' 'event 1' 'event 255' 'blocked'
started "$R" 2 0 traces
held 'traces, refused lines, and blocked' "$traces_2" 'offer 0 1' "$no_report" 'offer 0 1' "$no_report" 'offer 0 1' \
    'offer 0 1' "$no_report" 'offer 0 1' 'run inconclusive'
printf 'blocked\r\n' > "$scratch/input"
started "$R" 1 0 traces
held 'traces, blocked and a carriage return' "$traces_1" 'offer 0 1' 'run inconclusive'
printf 'blocked' > "$scratch/input"
started "$R" 1 0 traces
held 'traces, blocked without its newline' "$traces_1" 'offer 0 1' 'input ended'
# what follows it is not read: another program finds it in the same input
reports 'blocked' 'event 0' 'blocked' 'no report'
started "$R" 2 0 traces
held 'traces, after an inconclusive end' "$traces_2" 'offer 0 1' 'run inconclusive'
{
    "$program" "$R" 2 0 traces
    cat
} < "$scratch/input" > "$scratch/printed"
held 'traces, the lines after an inconclusive end' "$traces_2" 'offer 0 1' 'run inconclusive' 'event 0' 'blocked' \
    'no report'

# ---- k 1,023 and 1,024
repeat 1030 'event 0\n' > "$scratch/input"
started "$R" 1023 0
held 'k 1,023' 'test 1023 choice 0 reference 2 nodes 2 events' "$(repeat 1023 'offer 0 1\n')" 'offer 0' 'run passed'
reports 'event 0'
started "$R" 1024 0
held 'k 1,024' 'test refused 14'

# ---- bad words
bad() { # WORD..: these words are refused with 14
    started "$@"
    held "words: $*" 'test refused 14'
    quiet "words: $*"
}
bad
bad "$R"
bad "$R" 1
bad "$R" 1 0 traces traces
bad "$R" 1 0 trace
bad "$R" 1 0 tracesx
bad "$R" 1 0 ''
bad "$R" '' 0
bad "$R" 1 ''
bad "$R" 65535 0
bad "$R" 65536 0
bad "$R" 99999 0
bad "$R" 000001 0
bad "$R" 1 65536
bad "$R" 1 99999
bad "$R" 1 000000
bad "$R" -1 0
bad "$R" +1 0
bad "$R" 1x 0
bad "$R" ' 1' 0
bad "$R" 1 0x0
bad "$R" 1 0 "$(long 100)"
bad "$R" "$(repeat 100 1)" 0
# four digits with zeros before them
: > "$scratch/input"
started "$R" 00001 00000
held 'zeros before a number' "$test_1" 'offer 0 1' 'input ended'

# ---- the reference's own refusals come before 14
refused_first() { # NUMBER HEX..: these bytes are refused with the number, before the words are
    number=$1
    shift
    bytes "$@" > "$scratch/bad"
    started "$scratch/bad" 1 0
    held "refused $number: $*" "reference refused $number"
    started "$scratch/bad" 1024 x trace
    held "refused $number before 14: $*" "reference refused $number"
    quiet "refused $number: $*"
}
refused_first 1
refused_first 1 00 00 00 02 01 01
refused_first 1 00 00 00 07 01 01 01 00 01 00 00 00
refused_first 2 00 00 00 07 00 01 01 00 01 00 00
refused_first 2 00 00 00 07 03 01 01 00 01 00 00
refused_first 2 00 00 00 07 FF 01 01 00 01 00 00
refused_first 3 00 00 00 07 01 0D 01 00 01 00 00
refused_first 4 00 00 00 05 01 01 01 00 01
refused_first 4 00 00 00 06 02 02 01 00 07 00
refused_first 5 00 00 00 05 01 01 01 00 00
refused_first 6 00 00 00 07 01 01 01 01 01 00 01
refused_first 7 00 00 00 07 01 01 01 FF 01 00 01
refused_first 8 00 00 00 0B 01 01 02 00 01 00 01 00 01 00 01
refused_first 18 00 00 00 0A 02 02 01 00 07 00 07 00 00 00

# of a longer file the first 4,096 bytes are the reference: one as long as its field says (its version is 0), and one
# that is not
{ bytes 00 00 0F FC; zeros 4996; } > "$scratch/bad"
started "$scratch/bad" 1 0
held 'a file of 5,000 bytes, a sheet of 4,096' 'reference refused 2'
{ bytes 00 00 0F FD; zeros 4996; } > "$scratch/bad"
started "$scratch/bad" 1 0
held 'a file of 5,000 bytes, a sheet of 4,097' 'reference refused 1'

# ---- files that cannot be read
started "$scratch/absent" 1 0
held 'no such file'
told 'no such file' 'live: No such file'
started "$scratch/absent" x y z
held 'no such file, and bad words'
told 'no such file, and bad words' 'live: No such file'
started "$scratch" 1 0
held 'a folder'
told 'a folder' 'live: Is a directory'
started '' 1 0
held 'an empty name'
told 'an empty name' 'live: '
started "$(repeat 5000 x)" 1 0
held 'a name that is too long'
told 'a name that is too long' 'live: File name too long'

# ---- output that cannot be written: one line on standard error, and the end
unwritten() { # NAME: it was told, once
    runs=$((runs + 1))
    told "$1" '^live: the output could not be written$'
}
reports 'event 0' 'blocked'
"$program" "$R" 1 0 < "$scratch/input" > /dev/full 2> "$scratch/said"
unwritten 'a full device'
"$program" "$R" 1024 0 < "$scratch/input" > /dev/full 2> "$scratch/said"
unwritten 'a full device, refused'
"$program" > /dev/full 2> "$scratch/said"
unwritten 'a full device, no words'
"$program" "$R" 1 0 < "$scratch/input" >&- 2> "$scratch/said"
unwritten 'a closed output'
repeat 1030 'event 0\n' > "$scratch/input"
sh -c 'trap "" XFSZ; ulimit -f 1; exec "$@"' sh "$program" "$R" 1023 0 < "$scratch/input" > "$scratch/printed" \
    2> "$scratch/said"
unwritten 'a limit on file size'

# ---- 1,000,000 lines
yes | head -n 1000001 > "$scratch/input"
started "$R" 0 0
runs=$((runs + 1))
[ "$(wc -l < "$scratch/printed")" -eq 2000003 ] && [ "$(tail -n 1 "$scratch/printed")" = 'lines ended' ] &&
    [ "$(grep -c 'report refused 15' "$scratch/printed")" -eq 1000000 ] || fails '1,000,000 lines'

ends
