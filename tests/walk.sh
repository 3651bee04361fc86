#!/bin/sh
# Runs the program `walk` and holds what it prints to 02's K9 and to the header of crates/walk/src/main.rt: walks that
# are written out here, and walks that a few lines of this script make from 02's words; walks that end early; words that
# are no seed or no length, their number and their order; the sheet's refusals; input of every kind; and output that
# cannot be written.
set -u
cd "$(dirname "$0")/.." || exit 1
. tests/shared
built walk
begins

# started WORD..: runs the program with these words on the input; its own status is always 0
started() {
    "$program" "$@" < "$scratch/input" > "$scratch/printed" 2> "$scratch/said" || fails "the words '$*': status $?"
}

# silent NAME: standard error has no line
silent() {
    [ ! -s "$scratch/said" ] || fails "$1: standard error has a line"
}

# sheet NODES EVENTS HEX..: from here on the input is this sheet, which is accepted
sheet() {
    head="sheet $1 nodes $2 events"
    shift 2
    input "$@"
    laid_out
}

# laid_out: of each node of the input, which is an accepted sheet, the initials, ascending, each with its successor:
# $node_0, $node_1 and so on
laid_out() {
    eval "$(od -An -v -tu1 "$scratch/input" | awk '
        { for (i = 1; i <= NF; i++) byte[count++] = $i }
        END {
            e = byte[5]
            at = byte[4] == 2 ? 7 + 2 * e : 7
            for (v = 0; v < byte[6]; v++) {
                initials = ""
                for (k = 0; k < e; k++) if (byte[at + k] != 255) initials = initials " " k " " byte[at + k]
                print "node_" v "=\"" initials "\""
                at += e + 1 + 2 * byte[at + e]
            }
        }')"
}

# walked SEED WISH: the walk by 02's words, as $trace, and its length, as $count
walked() {
    x=$1
    wish=$2
    v=0
    count=0
    trace=trace
    while [ "$count" -lt "$wish" ]; do
        eval "set -- \$node_$v"
        [ $# -gt 0 ] || break
        # the next state
        x=$((x ^ ((x << 13) & 4294967295)))
        x=$((x ^ (x >> 17)))
        x=$((x ^ ((x << 5) & 4294967295)))
        # of the initials, which come in pairs with their successors, number (state remainder m)
        shift $((x % ($# / 2) * 2))
        trace="$trace $1"
        v=$2
        count=$((count + 1))
    done
}

# says SEED LENGTH LINE..: with these words the program prints the line of the sheet and these lines
says() {
    words="$1' '$2"
    started "$1" "$2"
    shift 2
    held "$head, the words '$words'" "$head" "$@"
    silent "$head, the words '$words'"
}

# goes SEED LENGTH: the program prints the walk by 02's words
goes() {
    walked "$1" "$2"
    says "$1" "$2" "walked $count of $2" "$trace"
}

# ---- walks that are written out
sheet 2 2 $reference
says 1 8 'walked 8 of 8' 'trace 1 1 1 1 1 0 0 0'
says 1 0 'walked 0 of 0' trace
says 1 1 'walked 1 of 1' 'trace 1'
says 1 5 'walked 5 of 5' 'trace 1 1 1 1 1'
says 1 6 'walked 6 of 6' 'trace 1 1 1 1 1 0'
says 4294967295 0 'walked 0 of 0' trace
sheet 3 2 $device
says 1 8 'walked 8 of 8' 'trace 1 1 0 1 1 0 0 0'
says 4294967295 8 'walked 8 of 8' 'trace 1 1 0 0 1 0 0 1'
says 4294967295 1 'walked 1 of 1' 'trace 1'
sheet 1 1 $stopped
for length in 0 1 8 4096; do
    says 1 $length "walked 0 of $length" trace
    says 4294967295 $length "walked 0 of $length" trace
done
# node 0 goes on event 0 to a node without initials, and stays on event 1
ending='00 00 00 0D 01 02 02 01 00 01 00 01 FF FF 01 00 00'
sheet 2 2 $ending
says 2 8 'walked 1 of 8' 'trace 0'
says 2 1 'walked 1 of 1' 'trace 0'
says 2 0 'walked 0 of 0' trace
says 2 4096 'walked 1 of 4096' 'trace 0'
says 1 8 'walked 6 of 8' 'trace 1 1 1 1 1 0'
says 1 7 'walked 6 of 7' 'trace 1 1 1 1 1 0'
says 1 6 'walked 6 of 6' 'trace 1 1 1 1 1 0'
says 1 5 'walked 5 of 5' 'trace 1 1 1 1 1'
says 1 4096 'walked 6 of 4096' 'trace 1 1 1 1 1 0'
# state 1 is followed by 270369, and its remainder by 12 is 9; the remainder of the next state is 1
twelve='00 00 00 12 01 0C 01 00 00 00 00 00 00 00 00 00 00 00 00 01 00 01'
sheet 1 12 $twelve
says 1 2 'walked 2 of 2' 'trace 9 1'
says 270369 1 'walked 1 of 1' 'trace 1'
# one initial: always that one, whatever the seed
sheet 1 2 $only_zero
says 1 4 'walked 4 of 4' 'trace 0 0 0 0'
sheet 1 2 $only_one
says 2147483648 4 'walked 4 of 4' 'trace 1 1 1 1'
# a node that may stop goes on, as one that may not
sheet 1 1 $may_loop
says 1 3 'walked 3 of 3' 'trace 0 0 0'
sheet 1 1 $must_loop
says 1 3 'walked 3 of 3' 'trace 0 0 0'
# the longest text: 4,096 events of two digits
sheet 1 12 00 00 00 12 01 0C 01 FF FF FF FF FF FF FF FF FF FF FF 00 01 08 00
says 1 4096 'walked 4096 of 4096' "trace$(repeat 4096 ' 11')"

# ---- walks by 02's words
# seeds: small ones, each bit, the halves of 32 bits, and both ends
seeds='1 2 3 4 5 6 7 8 9 10 12 13 255 256 4095 4096 8191 8192 32767 32768 65535 65536 65537 131071 131072 270369 524288
    16777216 67634689 268435456 999999999 1000000000 1073741824 2147483647 2147483648 2147483649 2415919104 2647435461
    3735928559 4026531840 4294901760 4294967040 4294967294 4294967295'
# on_seeds LENGTH..: every seed with each of these lengths
on_seeds() {
    for length; do
        for seed in $seeds; do goes "$seed" "$length"; done
    done
}
# at_lengths SEED..: each of these seeds with lengths up to the most
at_lengths() {
    for seed; do
        for length in 0 1 2 3 9 10 11 31 32 33 99 100 101 255 256 257 999 1000 4095 4096; do
            goes "$seed" "$length"
        done
    done
}
sheet 2 2 $reference
on_seeds 1 8
at_lengths 1 4294967295
sheet 3 2 $device
on_seeds 8 20
at_lengths 1 4294967295
sheet 2 2 $ending
on_seeds 1 2 8 40
sheet 1 12 $twelve
on_seeds 1 24
at_lengths 1 2147483648
# version 2, with other codes: the walks are those of version 1
sheet 2 2 $coded_reference
says 1 8 'walked 8 of 8' 'trace 1 1 1 1 1 0 0 0'
on_seeds 8
sheet 3 2 $coded_device
says 1 8 'walked 8 of 8' 'trace 1 1 0 1 1 0 0 0'
sheet 3 2 $turned_device
says 4294967295 8 'walked 8 of 8' 'trace 1 1 0 0 1 0 0 1'
# one node of twelve events with each number of initials, 1 to 12: the lowest, the highest; every other, every third
for m in 1 2 3 4 5 6 7 8 9 10 11 12; do
    front=$(repeat $m '00 ')
    back=$(repeat $((12 - m)) 'FF ')
    sheet 1 12 00 00 00 12 01 0C 01 $front $back 01 00 01
    for seed in 1 2147483648 4294967295; do goes $seed 30; done
    sheet 1 12 00 00 00 12 01 0C 01 $back $front 01 08 00
    for seed in 1 2147483648 4294967295; do goes $seed 30; done
done
sheet 1 12 00 00 00 12 01 0C 01 00 FF 00 FF 00 FF 00 FF 00 FF 00 FF 01 00 01
for seed in 1 2147483648 4294967295; do goes $seed 30; done
sheet 1 12 00 00 00 12 01 0C 01 FF FF 00 FF FF 00 FF FF 00 FF FF 00 01 00 04
for seed in 1 2147483648 4294967295; do goes $seed 30; done

# two NUMBER: its two bytes, in hexadecimal
two() {
    printf '%02X %02X' $(($1 / 256)) $(($1 % 256))
}

# large_sheet NODES KIND: from here on the input is a sheet of so many nodes and twelve events. A node goes to others on
# some of the events: on all, on one, on three, on five, on as many as its own number modulo 12 and one more; or, for
# `ends`, on three to the next node, and the last has none.
large_sheet() {
    head="sheet $1 nodes 12 events"
    rows=$(awk -v n="$1" -v kind="$2" 'BEGIN {
        for (v = 0; v < n; v++) {
            for (k = 0; k < 12; k++) {
                to = (v + k + 1) % n
                if (kind == "all") does = 1
                if (kind == "one") { does = k == (5 * v) % 12; to = (v + 1) % n }
                if (kind == "three") { does = k % 4 == v % 4; to = (v + int(k / 4) + 1) % n }
                if (kind == "five") does = (5 * k + v) % 12 < 5
                if (kind == "own") does = (7 * k + v) % 12 <= v % 12
                if (kind == "ends") { does = k % 4 == v % 4 && v < n - 1; to = v + 1 }
                printf "%02X ", does ? to : 255
            }
            printf "01 00 00 "
        }
    }')
    input 00 00 $(two $((15 * $1 + 3))) 01 0C "$(printf '%02X' "$1")" $rows
    laid_out
}
for kind in all one three five own; do
    large_sheet 32 $kind
    for seed in 1 2 2147483648 4294967295; do
        for length in 1 40 4096; do goes $seed $length; done
    done
done
for nodes in 2 3 31 32; do
    large_sheet $nodes ends
    for seed in 1 4294967295; do
        for length in 0 $((nodes - 2)) $((nodes - 1)) $nodes $((nodes + 1)) 4096; do goes $seed $length; done
    done
    says 4294967295 4095 "walked $((nodes - 1)) of 4095" "$trace"
done
# the largest sheet, and sheets of 32 nodes and two events
head='sheet 32 nodes 12 events'
largest_sheet 05 BB > "$scratch/input"
laid_out
at_lengths 1 4294967295
head='sheet 32 nodes 2 events'
{ bytes 00 00 00 A3 01 02 20; walk 32; } > "$scratch/input"
laid_out
at_lengths 1
{ bytes 00 00 00 A3 01 02 20; ring 32 00 FF; } > "$scratch/input"
laid_out
at_lengths 4294967295

# ---- words: a seed is one to ten digits, 1 to 4,294,967,295, and a length one to five, 0 to 4,096
sheet 3 2 $device
# zeros before a number
for word in 1 01 001 000000001 0000000001; do says "$word" 8 'walked 8 of 8' 'trace 1 1 0 1 1 0 0 0'; done
walked 5 8
for word in 5 05 0000000005; do says "$word" 8 'walked 8 of 8' "$trace"; done
walked 429496729 8
for word in 429496729 0429496729; do says "$word" 8 'walked 8 of 8' "$trace"; done
for word in 8 08 008 0008 00008; do says 1 "$word" 'walked 8 of 8' 'trace 1 1 0 1 1 0 0 0'; done
for word in 0 00 00000; do says 1 "$word" 'walked 0 of 0' trace; done
walked 1 4096
for word in 4096 04096; do says 1 "$word" 'walked 4096 of 4096' "$trace"; done
newline='
'
# no seed: 0; 2 to the power 32 and above, which do not begin anew at 0; more than ten digits; no digits
not_seeds="0 00 000000000 0000000000 4294967296 4294967297 4294967303 5000000000 6442450945 8589934592 8589934593
    9999999999 00000000001 00000000008 04294967295 10000000000 12345678901 42949672951 18446744073709551615
    18446744073709551616 18446744073709551617 340282366920938463463374607431768211457"
# no length: 4,097 and above, also 65,536 and what follows it; more than five digits; no digits
not_lengths='4097 04097 4098 4104 5000 8192 9999 10000 32768 32776 65534 65535 65536 65537 65544 69632 99999 000000
    000001 000008 004096 0000000008 100000 4294967296 4294967304 18446744073709551616 18446744073709551624'
for word in $not_seeds; do
    says "$word" 8 'walk refused 27'
    # 27 comes before 28
    says "$word" 4097 'walk refused 27'
    says "$word" x 'walk refused 27'
    says "$word" 0 'walk refused 27'
done
for word in $not_lengths; do
    says 1 "$word" 'walk refused 28'
    says 4294967295 "$word" 'walk refused 28'
    says 0 "$word" 'walk refused 27'
done
for word in '' ' ' -1 -0 +1 -8 +8 x 1x x1 8x 0x1 1.0 1,0 8. .8 1e0 1/ /1 1: :8 / : ' 1' '1 ' '1 2' "$(printf '1\t')" \
    "8$newline" "${newline}1" "$(printf '1\r')" one seed eight traces '*' '?' -h --help -- "$(printf '\331\241')" \
    "$(printf '\357\274\221')" "$(printf '\302\271')" "$(printf '\377')" "$(printf '1\377')" "$(printf '\261')" \
    "$(repeat 62 0)1" "$(repeat 63 0)" "$(repeat 63 0)1" "$(repeat 64 0)" "$(repeat 64 0)1" "$(repeat 65 0)" \
    "$(repeat 64 1)" "$(repeat 65 1)" "$(repeat 100 1)" "$(repeat 256 0)1" "$(repeat 5000 x)" "$(repeat 65536 0)1"; do
    says "$word" 8 'walk refused 27'
    says 1 "$word" 'walk refused 28'
    says "$word" "$word" 'walk refused 27'
    says 0 "$word" 'walk refused 27'
done
# another count of words than two, also where some of them would do
# counted NAME WORD..: with these words the walk is refused with 27
counted() {
    name=$1
    shift
    started "$@"
    held "$name" "$head" 'walk refused 27'
    silent "$name"
}
counted 'no word'
counted 'a seed' 1
counted 'a length' 8
counted 'an empty word' ''
counted 'a long word' "$(repeat 5000 1)"
counted 'two words in one' '1 8'
counted 'a word more' 1 8 8
counted 'an empty word more' 1 8 ''
counted 'an empty word before' '' 1 8
counted 'a word of letters more' 1 8 traces
counted 'a long word more' 1 8 "$(repeat 5000 1)"
counted 'four words' 1 8 1 8
counted 'no length, a word more' 1 4097 8
counted 'a hundred words' $(repeat 100 '1 ')
counted '256 words' $(repeat 256 '1 ')
counted '258 words' $(repeat 258 '1 ')
# the same words again: the same text
for word in 1 77 4294967295; do
    started $word 4096
    cp "$scratch/printed" "$scratch/first"
    started $word 4096
    same "the seed $word again" "$scratch/first"
done

# ---- the sheet's own refusals come first, whatever the words are: its line alone
# any_words NAME LINE: with words of every kind the program prints this line alone
any_words() {
    for words in '1 8' '4294967295 4096' '1 0' '0 8' '1 4097' '0 4097' 'x 8' '1 x' 'x x' '' '1' '1 8 8'; do
        started $words
        held "$1, the words '$words'" "$2"
        silent "$1, the words '$words'"
    done
    started '' ''
    held "$1, two empty words" "$2"
}
# sheet_refused NUMBER MEANING HEX..: these bytes are refused
sheet_refused() {
    line="sheet refused $1 $2"
    shift 2
    input "$@"
    any_words "the bytes $*" "$line"
}
wrong_length='too short or its length field is wrong'
sheet_refused 1 "$wrong_length"
sheet_refused 1 "$wrong_length" 00
sheet_refused 1 "$wrong_length" 00 00 00
sheet_refused 1 "$wrong_length" 00 00 00 00
sheet_refused 1 "$wrong_length" 00 00 00 02 01 01
sheet_refused 1 "$wrong_length" 00 00 00 0F 01 02 02 01 01
sheet_refused 1 "$wrong_length" $reference 00
sheet_refused 1 "$wrong_length" $reference $device
sheet_refused 1 "$wrong_length" 00 00 00 0E 01 02 02 01 01 02 00 01 00 02 00 00 01 00 03
sheet_refused 1 "$wrong_length" 00 00 00 10 01 02 02 01 01 02 00 01 00 02 00 00 01 00 03
sheet_refused 1 "$wrong_length" FF FF FF FF 01 02 02 01 01 02 00 01 00 02 00 00 01 00 03
sheet_refused 2 'version is neither 1 nor 2' 00 00 00 07 00 01 01 00 01 00 00
sheet_refused 2 'version is neither 1 nor 2' 00 00 00 07 03 01 01 00 01 00 00
sheet_refused 3 'events or nodes out of range' 00 00 00 07 01 0D 01 00 01 00 00
sheet_refused 3 'events or nodes out of range' 00 00 00 07 01 01 21 00 01 00 00
sheet_refused 4 'the bytes end too early or some remain' 00 00 00 08 01 01 01 00 01 00 00 00
sheet_refused 4 'the bytes end too early or some remain' 00 00 00 06 01 01 01 00 01 00
sheet_refused 4 'the bytes end too early or some remain' 00 00 00 06 02 02 01 00 07 00
sheet_refused 5 'number of acceptances out of range' 00 00 00 07 01 01 01 00 00 00 00
sheet_refused 6 'a successor is no node' 00 00 00 07 01 01 01 01 01 00 00
sheet_refused 7 'a rule of acceptances is broken' 00 00 00 07 01 01 01 00 01 00 02
sheet_refused 8 'a node cannot be reached' 00 00 00 0B 01 01 02 00 01 00 01 00 01 00 01
sheet_refused 18 'a code is given twice' 00 00 00 0A 02 02 01 00 07 00 07 00 00 00
# a sheet of which no walk would leave node 0 is refused for its other node all the same
sheet_refused 6 'a successor is no node' 00 00 00 0B 01 01 02 01 01 00 01 02 01 00 01

# ---- input of every length: at most 4,096 bytes are read
for length in 20 100 1471 1472 4095 4096 4097 4100 8192 100000; do
    { bytes $reference; head -c $((length - 19)) /dev/zero; } > "$scratch/input"
    any_words "a sheet and bytes 0, $length in all" "sheet refused 1 $wrong_length"
done
# told LENGTH MORE: the input is a sheet whose length field says that it has so many bytes, filled up with bytes 0, and
# so many bytes more
told() {
    bytes 00 00 $(two $(($1 - 4))) > "$scratch/input"
    { bytes 01 02 02 01 01 02 00 01 00 02 00 00 01 00 03; head -c $(($1 - 19 + $2)) /dev/zero; } >> "$scratch/input"
}
for length in 20 1471 4095 4096; do
    told $length 0
    any_words "a sheet of $length bytes" 'sheet refused 4 the bytes end too early or some remain'
done
# bytes after the first 4,096 are not read: they neither complete a sheet nor make it too long
for length in 4097 4098 5000; do
    told $length 0
    any_words "a sheet of $length bytes" "sheet refused 1 $wrong_length"
done
for more in 1 100 100000; do
    told 4096 $more
    any_words "a sheet of 4,096 bytes, and $more" 'sheet refused 4 the bytes end too early or some remain'
done
told 4095 1
any_words 'a sheet of 4,095 bytes, and 1' "sheet refused 1 $wrong_length"
"$program" 1 8 <&- > "$scratch/printed"
held 'no standard input' "sheet refused 1 $wrong_length"
"$program" 0 8 <&- > "$scratch/printed"
held 'no standard input, seed 0' "sheet refused 1 $wrong_length"
# input that arrives in pieces: within the length field and within a node
{
    bytes 00 00
    sleep 1
    bytes 00 12 01 02 03 01 01 01
    sleep 1
    bytes 00 03 02 02 01 00 03 00 FF 01 00 01
} | "$program" 1 8 > "$scratch/printed"
held 'in pieces' 'sheet 3 nodes 2 events' 'walked 8 of 8' 'trace 1 1 0 1 1 0 0 0'

# ---- output that cannot be written, or is closed: one line on standard error, and no other
# unwritten WORD..: with these words standard error has the line alone
unwritten() {
    "$program" "$@" < "$scratch/input" > /dev/full 2> "$scratch/printed" || fails "a full device, '$*': status $?"
    held "a full device, the words '$*'" 'walk: the output could not be written'
    "$program" "$@" < "$scratch/input" 2> "$scratch/printed" >&- || fails "a closed output, '$*': status $?"
    held "a closed output, the words '$*'" 'walk: the output could not be written'
}
input $device
unwritten 1 8
unwritten 1 0
unwritten 1 4096
unwritten 0 8
unwritten 1 4097
unwritten
input 00 00
unwritten 1 8
runs=$((runs + 1))
"$program" 1 8 < "$scratch/input" > /dev/full 2>&- || fails "a full device, standard error closed: status $?"

ends
