#!/bin/sh
# Runs the program `bound_pair` and holds what it writes to 02's K11 and to the header of crates/bound_pair/src/main.rt:
# pairs that are written out here, and the lines and the bytes of all 1,024 pairs, which a few lines of this script make
# from 02's words; what `show`, `compare` and `suite` say of them; words that are no number of nodes; last words that
# ask for nothing, and the number of words; which of standard output and standard error has the text, and that the other
# has none; input of every kind, which is not read; and output that cannot be written.
set -u
cd "$(dirname "$0")/.." || exit 1
. tests/shared
for name in show compare suite bound_pair; do built "$name"; done
begins
: > "$scratch/nothing"
: > "$scratch/input"

# started WORD..: runs the program with these words on the input; its own status is always 0
started() {
    "$program" "$@" < "$scratch/input" > "$scratch/printed" 2> "$scratch/said" || fails "the words '$*': status $?"
}

# writes P Q WORD FILE: with these words the program writes the file's bytes, and nothing on standard error
writes() {
    started "$1" "$2" "$3"
    same "the words '$1' '$2' '$3'" "$4"
    [ ! -s "$scratch/said" ] || fails "the words '$1' '$2' '$3': standard error has a line"
}

# says P Q LINE..: asked for lines, the program prints these, and nothing on standard error
says() {
    words="$1' '$2"
    started "$1" "$2" lines
    shift 2
    held "the words '$words' 'lines'" "$@"
    [ ! -s "$scratch/said" ] || fails "the words '$words' 'lines': standard error has a line"
}

# errs LINE WORD..: with these words the program prints nothing, and standard error has this line alone
errs() {
    line=$1
    shift
    started "$@"
    [ ! -s "$scratch/printed" ] || fails "the words '$*': standard output has some bytes"
    mv "$scratch/said" "$scratch/printed"
    held "the words '$*': standard error" "$line"
}

# ---- sheets that are written out
# told P Q HEX HEX: the bytes of the reference and of the device
told() {
    bytes $3 > "$scratch/reference"
    writes "$1" "$2" reference "$scratch/reference"
    bytes $4 > "$scratch/device"
    writes "$1" "$2" device "$scratch/device"
}
# the smallest pair is 01's: one node looping on event 0, one on event 1
told 1 1 "$only_zero" "$only_one"
says 1 1 'reference 1 nodes 12 bytes' 'device 1 nodes 12 bytes' 'first failing test 0'
told 2 2 '00 00 00 0F 01 02 02 00 01 02 00 01 00 02 01 FF 01 00 01' '00 00 00 0D 01 02 02 01 FF 01 00 01 FF 00 01 00 02'
says 2 2 'reference 2 nodes 19 bytes' 'device 2 nodes 17 bytes' 'first failing test 3'
told 3 4 "$bound_reference" "$bound_device"
says 3 4 'reference 3 nodes 26 bytes' 'device 4 nodes 27 bytes' 'first failing test 11'
told 1 2 "$only_zero" '00 00 00 0D 01 02 02 01 FF 01 00 01 FF 00 01 00 02'
says 1 2 'reference 1 nodes 12 bytes' 'device 2 nodes 17 bytes' 'first failing test 1'
told 2 1 '00 00 00 0F 01 02 02 00 01 02 00 01 00 02 01 FF 01 00 01' "$only_one"
says 2 1 'reference 2 nodes 19 bytes' 'device 1 nodes 12 bytes' 'first failing test 1'
says 32 32 'reference 32 nodes 229 bytes' 'device 32 nodes 167 bytes' 'first failing test 1023'

# ---- all pairs, by 02's words
# sheet_of WHO NODES: the bytes of a sheet, from its nodes
sheet_of() {
    printf '%b' "$(awk -v who="$1" -v n="$2" '
        function put(byte) {
            body = body sprintf("\\0%03o", byte)
            count++
        }
        function put_set(set) {
            put(0)
            put(set)
        }
        BEGIN {
            # version 1, two events
            put(1)
            put(2)
            put(n)
            for (v = 0; v < n; v++) {
                last = v == n - 1
                if (who == "reference") {
                    # it stays on 0 and climbs on 1, and may insist on either; the last knows only 0
                    put(v)
                    put(last ? 255 : v + 1)
                    put(last ? 1 : 2)
                    put_set(1)
                    if (!last) put_set(2)
                } else {
                    # it does only 0, climbing; the last only 1, back to the first
                    put(last ? 255 : v + 1)
                    put(last ? 0 : 255)
                    put(1)
                    put_set(last ? 2 : 1)
                }
            }
            printf "\\0000\\0000\\0%03o\\0%03o%s", int(count / 256), count % 256, body
        }')"
}

# shown_of WHO NODES: what `show` prints for it
shown_of() {
    awk -v who="$1" -v n="$2" 'BEGIN {
        print "sheet " n " nodes 2 events"
        for (v = 0; v < n; v++) {
            print "node " v
            last = v == n - 1
            if (who == "reference") {
                print "event 0 to " v
                if (!last) print "event 1 to " v + 1
                print "accepts 1 ( 0 )"
                if (!last) print "accepts 2 ( 1 )"
            } else if (last) {
                print "event 1 to 0"
                print "accepts 2 ( 1 )"
            } else {
                print "event 0 to " v + 1
                print "accepts 1 ( 0 )"
            }
        }
    }'
}

numbers='1 2 3 4 5 6 7 8 9 10 11 12 13 14 15 16 17 18 19 20 21 22 23 24 25 26 27 28 29 30 31 32'
for n in $numbers; do
    for who in reference device; do
        sheet_of $who $n > "$scratch/$who.$n"
        # such a sheet is accepted, and shows what 02 says of it
        target/bin/show < "$scratch/$who.$n" > "$scratch/printed"
        shown_of $who $n > "$scratch/shown"
        same "the $who of $n nodes" "$scratch/shown"
    done
done

# pair P Q: the lines and the bytes of the pair
pair() {
    says $1 $2 "reference $1 nodes $((7 * $1 + 5)) bytes" "device $2 nodes $((5 * $2 + 7)) bytes" \
        "first failing test $(($1 * $2 - 1))"
    writes $1 $2 reference "$scratch/reference.$1"
    writes $1 $2 device "$scratch/device.$2"
}
for p in $numbers; do
    for q in $numbers; do pair $p $q; done
done

# ---- the other programs read what was written: the first failing test is the last, p q - 1
# judged P Q: what `compare` and `suite` print for the pair. The device goes round, event 1 after q - 1 events 0; each
# round takes the reference one node up, and at its last it strays on event 1.
judged() {
    { "$program" $1 $2 reference; "$program" $1 $2 device; } > "$scratch/pair"
    target/bin/compare < "$scratch/pair" > "$scratch/printed"
    awk -v p=$1 -v q=$2 'BEGIN {
        print "reference " p " nodes 2 events"
        print "device " q " nodes 2 events"
        print "violates after " p * q - 1 " cleared " p * q - 1
        printf "trace"
        for (i = 1; i < p * q; i++) printf " %d", i % q == 0
        print ""
        print "stray 1"
    }' > "$scratch/wanted"
    same "compare, $1 and $2 nodes" "$scratch/wanted"
    target/bin/suite < "$scratch/pair" > "$scratch/printed"
    awk -v p=$1 -v q=$2 'BEGIN {
        print "reference " p " nodes 2 events"
        print "device " q " nodes 2 events"
        for (k = 0; k < p * q - 1; k++) print "test " k " passes"
        print "test " k " fails"
        print "tests " p * q " run " p * q " failed 1"
    }' > "$scratch/wanted"
    same "suite, $1 and $2 nodes" "$scratch/wanted"
}
spread='1 2 3 4 5 7 8 15 16 17 30 31 32'
for p in $spread; do
    for q in $spread; do judged $p $q; done
done

# ---- words: a number of nodes is one to three digits, 1 to 32
refused='bound refused 30'
usage='bound_pair: WORD is reference, device or lines'
newline='
'
# zeros before a number
for n in $numbers; do
    for word in $n 0$n 00$n; do
        [ ${#word} -le 3 ] || continue
        writes $word 5 reference "$scratch/reference.$n"
        writes 5 $word device "$scratch/device.$n"
        says $word $word "reference $n nodes $((7 * n + 5)) bytes" "device $n nodes $((5 * n + 7)) bytes" \
            "first failing test $((n * n - 1))"
    done
done
# no_number P Q: the pair is refused: on standard output where lines are asked for, else on standard error
no_number() {
    says "$1" "$2" "$refused"
    errs "$refused" "$1" "$2" reference
    errs "$refused" "$1" "$2" device
    # a last word that asks for nothing is told in its place
    errs "$usage" "$1" "$2" sheets
    errs "$usage" "$1" "$2" ''
}
# out of range: 0; 33 and above, also 256 and what follows it; more than three digits; no digits
for word in 0 00 000 33 033 34 63 64 65 96 99 099 100 127 128 129 132 160 255 256 257 258 259 260 287 288 289 511 512 \
    513 515 516 543 544 545 767 768 769 771 800 999 0000 0001 0003 0007 0010 0032 00003 000032 1000 1024 1025 1027 \
    3000 3200 65535 65536 65537 65539 65568 4294967296 4294967297 4294967299 18446744073709551616 18446744073709551617 \
    18446744073709551619 340282366920938463463374607431768211459 \
    '' ' ' -1 -0 -3 +1 +3 -32 +32 x 3x x3 3x4 0x3 0x1 0x20 20h 1f 03x 0b1 3.0 3,0 3. .3 3e0 1e1 3/ /3 3: :3 / : \
    ' 3' '3 ' ' 3 ' '3 4' '3  ' "$(printf '3\t')" "3$newline" "${newline}3" "$(printf '3\r')" three III all lines \
    reference device '*' '?' -h --help -- "$(printf '\331\243')" "$(printf '\357\274\223')" "$(printf '\302\263')" \
    "$(printf '\377')" "$(printf '3\377')" "$(printf '\263')" "$(repeat 61 0)3" "$(repeat 62 0)3" "$(repeat 63 0)" \
    "$(repeat 63 0)3" "$(repeat 64 0)" "$(repeat 64 3)" "$(repeat 64 0)3" "$(repeat 65 0)" "$(repeat 65 3)" \
    "3$(repeat 63 ' ')" "3$(repeat 64 ' ')" "$(repeat 128 0)3" "$(repeat 256 0)3" "$(repeat 1000 3)" \
    "$(repeat 1000 x)" "$(repeat 65536 0)3"; do
    no_number "$word" 4
    no_number 3 "$word"
    no_number "$word" "$word"
done
# the last word is one of the three, to the letter
for word in '' ' ' x 1 3 30 Lines LINES line liness linesx xlines 'lines ' ' lines' "lines$newline" "${newline}lines" \
    "$(printf 'lines\t')" "$(printf 'lines\r')" lines. lines3 Reference REFERENCE refer referenc references reference. \
    'reference ' ' reference' "reference$newline" "$(printf 'reference\377')" ref Device DEVICE devic devices device. \
    'device ' ' device' "device$newline" dev both sheet sheets pair bytes replace 'reference device' 'lines lines' \
    referencedevice -h --help -- -lines --lines '*' '?' "$(printf '\377')" "$(repeat 63 x)" "$(repeat 64 x)" \
    "$(repeat 65 x)" "$(repeat 1000 x)" "lines$(repeat 58 ' ')" "lines$(repeat 59 ' ')" "lines$(repeat 60 ' ')" \
    "$(repeat 12 lines)line" "$(repeat 13 lines)" "$(repeat 7 reference)d" "reference$(repeat 56 x)" \
    "device$(repeat 59 x)" "$(repeat 5000 lines)" "$(repeat 65536 x)"; do
    errs "$usage" 3 4 "$word"
    errs "$usage" 32 32 "$word"
    errs "$usage" 0 33 "$word"
done
# another count of words than three, also where some of them would do
errs "$usage"
errs "$usage" ''
errs "$usage" lines
errs "$usage" 3
errs "$usage" '3 4 lines'
errs "$usage" 3 4
errs "$usage" 3 lines
errs "$usage" lines lines
errs "$usage" '3 4' lines
errs "$usage" 3 '4 lines'
errs "$usage" 3 4 lines lines
errs "$usage" 3 4 lines ''
errs "$usage" '' 3 4 lines
errs "$usage" 3 '' 4 lines
errs "$usage" 3 4 reference device
errs "$usage" 3 4 device replace
errs "$usage" 3 4 lines "$(repeat 1000 x)"
errs "$usage" 3 4 lines 3 4
errs "$usage" 3 4 lines 3 4 device
errs "$usage" $(repeat 100 '3 ')
errs "$usage" $(repeat 255 '3 ') lines
errs "$usage" $(repeat 258 '3 ') lines
errs "$usage" $(repeat 259 '3 ')
# the same words again: the same bytes
for word in lines reference device; do
    started 31 17 $word
    cp "$scratch/printed" "$scratch/first"
    started 31 17 $word
    same "the word $word again" "$scratch/first"
done

# ---- input: it is not read, and changes nothing
# by_input NAME: what was written for 3 and 4 nodes, whatever the input is
by_input() {
    cmp -s "$scratch/said" "$scratch/nothing" || fails "$1: standard error has a line"
    held "$1" 'reference 3 nodes 26 bytes' 'device 4 nodes 27 bytes' 'first failing test 11'
}
"$program" 3 4 lines <&- > "$scratch/printed" 2> "$scratch/said" || fails "no standard input: status $?"
by_input 'no standard input'
"$program" 3 4 lines < "$scratch" > "$scratch/printed" 2> "$scratch/said" || fails "a folder as input: status $?"
by_input 'a folder as input'
for file in device.4 reference.3 pair; do
    "$program" 3 4 lines < "$scratch/$file" > "$scratch/printed" 2> "$scratch/said" || fails "input $file: status $?"
    by_input "input $file"
    # what comes after the program still has the whole input
    { "$program" 3 4 lines > /dev/null; cat; } < "$scratch/$file" > "$scratch/printed"
    same "input $file, read after it" "$scratch/$file"
    { "$program" 3 33 device 2> /dev/null; cat; } < "$scratch/$file" > "$scratch/printed"
    same "input $file, read after a refusal" "$scratch/$file"
done
# a pipe in which nothing comes: it does not wait for it
mkfifo "$scratch/silent"
exec 5<> "$scratch/silent"
"$program" 3 4 lines <&5 > "$scratch/printed" 2> "$scratch/said" &
started=$!
turn=0
while kill -0 "$started" 2> /dev/null && [ "$turn" -lt 50 ]; do
    turn=$((turn + 1))
    sleep 0.2
done
kill "$started" 2> /dev/null && fails 'a silent pipe: it waits for input'
wait "$started" || fails "a silent pipe: status $?"
by_input 'a silent pipe'
exec 5>&-
for word in reference device; do
    "$program" 3 3 $word <&- > "$scratch/printed" || fails "no standard input, $word: status $?"
    same "no standard input, $word" "$scratch/$word.3"
done
"$program" 3 33 device <&- > "$scratch/first" 2> "$scratch/printed" || fails "no standard input, refused: status $?"
held 'no standard input, refused' "$refused"
[ ! -s "$scratch/first" ] || fails 'no standard input, refused: standard output has some bytes'

# ---- output that cannot be written, or is closed: one line on standard error, and no other
# unwritten LINE WORD..: with these words standard error has this line alone
unwritten() {
    line=$1
    shift
    "$program" "$@" > /dev/full 2> "$scratch/printed" || fails "a full device, '$*': status $?"
    held "a full device, the words '$*'" "$line"
    "$program" "$@" 2> "$scratch/printed" >&- || fails "a closed output, '$*': status $?"
    held "a closed output, the words '$*'" "$line"
}
for word in lines reference device; do
    for n in 1 3 32; do unwritten 'bound_pair: the output could not be written' $n $n $word; done
done
unwritten 'bound_pair: the output could not be written' 3 33 lines
# where nothing is to be written nothing is missing
unwritten "$refused" 3 33 reference
unwritten "$refused" 0 4 device
unwritten "$usage" 3 4 sheets
unwritten "$usage"
# without standard error: what is on standard output stays
# unheard FILE WORD..: with these words the program writes the file's bytes
unheard() {
    file=$1
    shift
    "$program" "$@" 2>&- > "$scratch/printed" || fails "standard error closed, '$*': status $?"
    same "standard error closed, the words '$*'" "$file"
    "$program" "$@" 2> /dev/full > "$scratch/printed" || fails "standard error full, '$*': status $?"
    same "standard error full, the words '$*'" "$file"
}
unheard "$scratch/reference.7" 7 4 reference
unheard "$scratch/device.4" 7 4 device
lines "$refused" > "$scratch/wanted"
unheard "$scratch/wanted" 7 33 lines
unheard "$scratch/nothing" 7 33 device
unheard "$scratch/nothing" 7 4 sheets
unheard "$scratch/nothing"
runs=$((runs + 2))
"$program" 3 4 lines > /dev/full 2>&- || fails "a full device, standard error closed: status $?"
"$program" 3 4 lines >&- 2>&- || fails "both closed: status $?"

ends
