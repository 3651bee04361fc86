#!/bin/sh
# Runs the program `script_counts` and holds what it prints to 02's K2 and to the header of
# crates/script_counts/src/main.rt: the counts of each length, the widest, every refusal and their order, and words that
# are no length. How the input is split is tested with `compare`, which reads it by the same function.
set -u
cd "$(dirname "$0")/.." || exit 1
. tests/shared
built script_counts
begins

# heads P Q E: the lines of two accepted sheets
heads() {
    printf 'reference %s nodes %s events\ndevice %s nodes %s events\n' "$1" "$3" "$2" "$3"
}

# started WORD..: runs the program with these words on the input
started() {
    "$program" "$@" < "$scratch/input" > "$scratch/printed" 2> "$scratch/said"
}

# refused WORD LINE..: with this word the program prints these lines, and nothing on standard error
refused() {
    word=$1
    shift
    started "$word"
    held "the length '$word': $*" "$@"
    [ ! -s "$scratch/said" ] || fails "the length '$word': $*: standard error has a line"
}

# counted LENGTH ALL WALKED DEVICE REFERENCE EARLY: with this length the program prints $heads and these counts
counted() {
    started "$1"
    held "$heads, scripts of $1 events" "$heads" "scripts of $1 events $2" "walked $3" "device stops $4" \
        "reference stops $5" "ends early $6"
}

# 01's pair: the device has no event 1 at every third node
input $reference $device
heads=$(heads 2 3 2)
counted 0 1 1 0 0 0
counted 1 2 2 0 0 0
counted 2 4 4 0 0 0
counted 3 8 4 4 0 4
counted 6 64 16 48 0 48
counted 16 65536 2048 63488 0 63488
# exchanged: the device can do what the reference cannot
input $device $reference
heads=$(heads 3 2 2)
counted 0 1 1 0 0 0
counted 3 8 4 0 4 4
counted 16 65536 2048 0 63488 63488
# a sheet and itself
input $reference $reference
heads=$(heads 2 2 2)
counted 16 65536 65536 0 0 0

# each of the two can do what the other cannot: the first event decides
input $only_zero $only_one
heads=$(heads 1 1 2)
counted 0 1 1 0 0 0
counted 1 2 0 1 1 2
counted 16 65536 0 32768 32768 65536
# an event that neither can do counts for the device
input $only_zero $only_zero
counted 1 2 1 1 0 1
counted 16 65536 1 65535 0 65535
# a device that does nothing, a reference that does nothing, and both
input $may_loop $stopped
heads=$(heads 1 1 1)
counted 0 1 1 0 0 0
counted 16 1 0 1 0 1
input $stopped $may_loop
counted 16 1 0 0 1 1
input $stopped $stopped
counted 16 1 0 1 0 1
# acceptances play no part: a device that may stop walks as one that may not
input $must_loop $may_loop
counted 16 1 1 0 0 0

# the widest counts: twelve events, of which one node does all, or all but the last, or none
all='00 00 00 00 00 00 00 00 00 00 00'
none='FF FF FF FF FF FF FF FF FF FF FF'
twelve='00 00 00 12 01 0C 01'
input $twelve $all 00 01 00 01 $twelve $all 00 01 00 01
heads=$(heads 1 1 12)
counted 1 12 12 0 0 0
counted 15 15407021574586368 15407021574586368 0 0 0
counted 16 184884258895036416 184884258895036416 0 0 0
input $twelve $all 00 01 00 01 $twelve $none FF 01 00 00
counted 16 184884258895036416 0 184884258895036416 0 184884258895036416
input $twelve $none FF 01 00 00 $twelve $all 00 01 00 01
counted 16 184884258895036416 0 0 184884258895036416 184884258895036416
input $twelve $all 00 01 00 01 $twelve $all FF 01 00 01
counted 16 184884258895036416 45949729863572161 138934529031464255 0 138934529031464255
input $twelve $all FF 01 00 01 $twelve $all 00 01 00 01
counted 16 184884258895036416 45949729863572161 0 138934529031464255 138934529031464255

# the largest sheets, all 1,024 pairs, and a stray that no script of 16 events reaches
{ largest_sheet 05 BB; largest_sheet 05 BB; } > "$scratch/input"
heads=$(heads 32 32 12)
counted 16 184884258895036416 184884258895036416 0 0 0
full_sheets > "$scratch/input"
heads=$(heads 32 32 2)
counted 16 65536 65536 0 0 0
late_sheets > "$scratch/input"
heads=$(heads 32 31 2)
counted 16 65536 1 65535 0 65535

# codes: the same for each event, or 19
input $coded_reference $coded_device
heads=$(heads 2 3 2)
counted 3 8 4 4 0 4
input $reference $plain_device
counted 3 8 4 4 0 4

# ---- words
input $reference $device
# zeros before a number, up to five digits
for word in 00016 0016 016 16; do
    started "$word"
    held "the length $word" "$heads" 'scripts of 16 events 65536' 'walked 2048' 'device stops 63488' \
        'reference stops 0' 'ends early 63488'
done
started 00000
held 'the length 00000' "$heads" 'scripts of 0 events 1' 'walked 1' 'device stops 0' 'reference stops 0' 'ends early 0'
# no length; 65,536 and what follows it do not begin anew at 0
for word in 17 017 00017 20 99 256 272 1023 1024 65535 65536 65539 65552 99999 000016 000000 '' -1 -0 +3 x 3x x3 0x3 \
    3.0 3,0 ' 3' '3 ' '1 6' traces "$(printf '3\n.')" "$(printf '3\r')" "$(printf '\331\243')" \
    "$(repeat 100 0)" "$(repeat 100 1)" "$(repeat 5000 x)"; do
    refused "$word" "$heads" 'scripts refused 20'
done
# no word, and more than one
for words in '' '3 3' '3 traces' '3 3 3'; do
    started $words
    held "the words '$words'" "$heads" 'scripts refused 20'
done
started 3 ''
held 'a length and an empty word' "$heads" 'scripts refused 20'

# ---- the order of refusals: the reference's, the device's, 11, 19, 20
# each_length LINE..: these lines are printed for a length, for one above 16 and for a word that is none
each_length() {
    for word in 0 3 16 17 x ''; do refused "$word" "$@"; done
}
input $reference $stopped
each_length 'reference 2 nodes 2 events' 'device 1 nodes 1 events' 'scripts refused 11'
input $coded_reference $stopped
each_length 'reference 2 nodes 2 events' 'device 1 nodes 1 events' 'scripts refused 11'
input $coded_reference $device
each_length "$heads" 'scripts refused 19'
input $reference $coded_device
each_length "$heads" 'scripts refused 19'
input $coded_reference $turned_device
each_length "$heads" 'scripts refused 19'
input $reference 00 00 00 07 03 01 01 00 01 00 00
each_length 'reference 2 nodes 2 events' 'device refused 2'
input $coded_reference 00 00 00 0A 02 02 01 00 07 00 07 00 00 00
each_length 'reference 2 nodes 2 events' 'device refused 18'
input 00 00 00 0B 01 01 02 00 01 00 01 00 01 00 01 00
each_length 'reference refused 8'
# input that is cut off, and a byte too many
: > "$scratch/input"
each_length 'reference refused 1'
input 00 00 00
each_length 'reference refused 1'
input 00 00 00 0F 01 02 02 01 01
each_length 'reference refused 1'
input $reference
each_length 'reference 2 nodes 2 events' 'device refused 1'
input $reference 00 00 00 12 01 02 03 01 01 01 00
each_length 'reference 2 nodes 2 events' 'device refused 1'
input $reference $device 00
each_length 'reference 2 nodes 2 events' 'device refused 1'
"$program" 3 <&- > "$scratch/printed"
held 'no standard input' 'reference refused 1'

# input that arrives in pieces
{
    bytes 00 00
    sleep 1
    bytes 00 0F 01 02 02 01 01 02 00 01 00 02 00 00 01 00 03 00 00
    sleep 1
    bytes 00 12 01 02 03 01 01 01 00 03 02 02 01 00 03 00 FF 01 00 01
} | "$program" 3 > "$scratch/printed"
held 'in pieces' "$heads" 'scripts of 3 events 8' 'walked 4' 'device stops 4' 'reference stops 0' 'ends early 4'

# output that cannot be written: one line on standard error
input $reference $device
for word in 3 17; do
    runs=$((runs + 1))
    "$program" "$word" < "$scratch/input" > /dev/full 2> "$scratch/said"
    [ "$(cat "$scratch/said")" = 'script_counts: the output could not be written' ] ||
        fails "a full device, the length $word: standard error has: $(cat "$scratch/said")"
done

ends
