#!/bin/sh
# Runs the program `keypad_check` and holds what it prints to 02's K6 and to the header of
# crates/keypad_check/src/main.rt: good tables and the event of a code, gaps, overlaps, every refusal and their order,
# words that are no code, and input of every length around the limits.
set -u
cd "$(dirname "$0")/.." || exit 1
. tests/shared
built keypad_check
begins

# sheet NODES EVENTS HEX..: from here on the input begins with this sheet, which is accepted
sheet() {
    head="sheet $1 nodes $2 events"
    shift 2
    bytes "$@" > "$scratch/sheet"
}

# numbers NUMBER..: these bytes, in base ten
numbers() {
    [ $# = 0 ] || printf "$(printf '\\%03o' "$@")"
}

# table NUMBER..: the input is the sheet and a table of these bytes, in base ten: of each rule a mask, a value, an event
table() {
    numbers "$@" > "$scratch/table"
    cat "$scratch/sheet" "$scratch/table" > "$scratch/input"
    rules="$(($# / 3)) rules of $# bytes: $*"
}

# started WORD..: runs the program with these words on the input; its own status is always 0
started() {
    "$program" "$@" < "$scratch/input" > "$scratch/printed" 2> "$scratch/said" || fails "the words '$*': status $?"
}

# answered CODES LINE..: with each of these words in turn, and with no word for `none`, the program prints these lines,
# and nothing on standard error
answered() {
    asked=$1
    shift
    for code in $asked; do
        if [ "$code" = none ]; then started; else started "$code"; fi
        held "$head, $rules, code $code" "$@"
        [ ! -s "$scratch/said" ] || fails "$head, $rules, code $code: standard error has a line"
    done
}

# good COUNT CODE:EVENT..: a good table of so many rules, with the event of each of these codes
good() {
    count=$1
    shift
    answered none "$head" "table $count rules" good
    for pair in "$@"; do
        answered "${pair%:*}" "$head" "table $count rules" good "code ${pair%:*} event ${pair#*:}"
    done
}

# bad COUNT LINE: a bad table of so many rules; the line says why, whatever code is asked for
bad() {
    answered 'none 0 5 128 200 255' "$head" "table $1 rules" "$2"
}

# refused NUMBER: the table is refused
refused() {
    answered 'none 0 5 200 255' "$head" "table refused $1"
}

# ---- the lines, by 02's words, on 01's reference, which has two events
sheet 2 2 $reference
# one rule for all codes; one for each half; halves by each bit
table 0 0 0
good 1 0:0 1:0 127:0 128:0 254:0 255:0
table 0 0 1
good 1 0:1 200:1 255:1
table 128 0 0 128 128 1
good 2 0:0 5:0 127:0 128:1 200:1 255:1
table 128 128 0 128 0 1
good 2 0:1 127:1 128:0 255:0
for bit in 1 2 4 8 16 32 64 128; do
    table $bit 0 0 $bit $bit 1
    good 2 0:0 $bit:1 $((255 - bit)):0 255:1 $((bit - 1)):0
    table $bit 0 1
    bad 1 "gap $bit"
    table $bit $bit 1
    bad 1 'gap 0'
    # three rules, of which two match where the bit is 0, and two where it is 1; then two only where it is 1
    table $bit 0 0 0 0 0 $bit $bit 1
    bad 3 'overlap 0 by 0 and 1'
    table $bit $bit 0 $bit 0 0 $bit $bit 1
    bad 3 "overlap $bit by 0 and 2"
done
# both events for the four values of two bits that are not neighbours
table 129 0 0 129 1 1 129 128 1 129 129 0
good 4 0:0 1:1 2:0 3:1 126:0 127:1 128:1 129:0 254:1 255:0
# gaps
table 128 0 0
bad 1 'gap 128'
table 192 0 0 192 64 1 192 192 0
bad 3 'gap 128'
table 255 0 0
bad 1 'gap 1'
table 255 255 0
bad 1 'gap 0'
# overlaps: of two rules, of three, of all, of rules that are not neighbours, of equal rules
table 128 0 0 0 0 1
bad 2 'overlap 0 by 0 and 1'
table 1 0 0 1 1 1 3 2 1
bad 3 'overlap 2 by 0 and 2'
table 0 0 0 0 0 1 0 0 0
bad 3 'overlap 0 by 0 and 1'
table 128 128 0 0 0 1 0 0 0 0 0 1
bad 4 'overlap 0 by 1 and 2'
table 128 0 0 128 128 0 192 192 1 224 224 1 240 240 1
bad 5 'overlap 192 by 1 and 2'
table 128 128 0 192 0 0 192 64 0 255 100 1 255 90 1 255 90 1
bad 6 'overlap 90 by 2 and 4'
table 128 0 1 128 128 1 128 0 1
bad 3 'overlap 0 by 0 and 2'
# the smallest bad code counts, not the kind and not the order of the rules
table 128 128 0 128 128 1
bad 2 'gap 0'
table 128 0 0 128 0 1
bad 2 'overlap 0 by 0 and 1'
table 192 0 0 192 64 0 192 64 1
bad 3 'overlap 64 by 1 and 2'
table 192 0 0 192 128 0 192 128 1 192 192 1
bad 4 'gap 64'
table 192 192 0 192 192 1 192 0 0
bad 3 'gap 64'

# each of some codes as the only bad one: eight rules for all other codes, by the highest bit that differs; and then
# good with a ninth rule for it, an overlap with a tenth, or with one for it and its neighbour
for only in 0 1 2 3 7 8 63 64 85 127 128 129 170 191 192 253 254 255; do
    others=
    for bit in 1 2 4 8 16 32 64 128; do
        others="$others $((256 - bit)) $(((only ^ bit) & (256 - bit))) 0"
    done
    table $others
    bad 8 "gap $only"
    table $others 255 $only 1
    good 9 $only:1 $((only ^ 1)):0 $((only ^ 128)):0 $((255 - only)):0
    table $others 255 $only 1 255 $only 0
    bad 10 "overlap $only by 8 and 9"
    # its neighbour has the first of the eight rules too
    table $others 254 $((only & 254)) 1
    bad 9 "overlap $((only ^ 1)) by 0 and 8"
done

# ---- the most rules: each for four codes, with the events in turn
quads=
i=0
while [ $i -lt 64 ]; do
    quads="$quads 252 $((4 * i)) $((i % 2))"
    i=$((i + 1))
done
table $quads
good 64 0:0 3:0 4:1 7:1 8:0 248:0 251:0 252:1 255:1
# a last rule that is a copy of the one before, of the first, and of none
set -- $quads
shift 3
rest=$*
table $rest 252 252 0
bad 64 'gap 0'
table $rest 252 0 0
good 64 0:0 4:1 252:1
table ${quads% 252 252 1} 252 248 0
bad 64 'overlap 248 by 62 and 63'
table ${quads% 252 252 1} 252 0 0
bad 64 'overlap 0 by 0 and 63'
table ${quads% 252 252 1}
bad 63 'gap 252'
table ${quads% 252 252 1} 254 252 1
bad 64 'gap 254'
table ${quads% 252 252 1} 248 248 1
bad 64 'overlap 248 by 62 and 63'
# 22 and 23 in the last of 64 rules
table ${quads% 252 252 1} 252 253 1
refused 22
table ${quads% 252 252 1} 252 252 2
refused 23
table ${quads% 252 252 1} 252 253 2
refused 22

# every length of a table, 0 to 200 bytes: a part rule is no rule, and over 64 rules are too many
escapes=$(awk 'BEGIN { for (i = 0; i < 1400; i++) printf "\\%03o\\%03o\\%03o", 252, i * 4 % 256, i % 2 }')
printf "$escapes" > "$scratch/long"
# of_length COUNT: the input is the sheet and so many bytes of these rules
of_length() {
    { cat "$scratch/sheet"; head -c "$1" "$scratch/long"; } > "$scratch/input"
    rules="$1 bytes of rules for four codes"
}
length=0
while [ $length -le 200 ]; do
    of_length $length
    if [ $length = 0 ] || [ $((length % 3)) != 0 ] || [ $length -gt 192 ]; then
        answered 'none 5' "$head" 'table refused 21'
    elif [ $length = 192 ]; then
        answered none "$head" 'table 64 rules' good
        answered 5 "$head" 'table 64 rules' good 'code 5 event 1'
    else
        answered 'none 5' "$head" "table $((length / 3)) rules" "gap $((4 * length / 3))"
    fi
    length=$((length + 1))
done
# thousands of bytes, whole rules and parts: among them 256, 257 and 320 rules, and input just below, at and above the
# limit of 4,096, of which the sheet has 19
for length in 768 771 774 957 960 963 1000 3000 4074 4076 4077 4078 4079 4080 4096 4200; do
    of_length $length
    refused 21
done
head -c 100000 /dev/zero > "$scratch/zeros"
cat "$scratch/sheet" "$scratch/zeros" > "$scratch/input"
rules='100,000 bytes 0'
refused 21

# ---- the refusals of a table, each in the whole table, in this order: 21, 22, 23
table
refused 21
table 0
refused 21
table 0 0
refused 21
table 0 0 0 0
refused 21
table 0 0 0 0 0
refused 21
# a part rule is refused before what the rules say, and never completed with bytes 0
table 128 1 9 0
refused 21
table 128 0 0 128 128
refused 21
table 128 0 0 128
refused 21
table 128 1 0
refused 22
table 128 128 9
refused 23
table 128 1 9
refused 22
table 0 1 0
refused 22
table 0 128 0
refused 22
table 127 128 0
refused 22
table 254 255 0
refused 22
table 254 1 0
refused 22
# 22 in one rule and 23 in another, whichever comes first
table 128 0 9 128 129 0
refused 22
table 128 129 0 128 0 9
refused 22
# 22 and 23 where the rules before them are good already, and where there is a gap or an overlap
table 0 0 0 1 2 0
refused 22
table 0 0 0 0 0 2
refused 23
table 255 1 0 255 7 2
refused 23
table 255 1 0 254 7 0
refused 22
# the events of the sheet: E - 1 is one, E is none
table 0 0 1
good 1 5:1
for event in 2 3 12 128 254 255; do
    table 128 0 0 128 128 $event
    refused 23
    table 128 0 $event 128 128 0
    refused 23
done

# ---- other sheets: one event, twelve, version 2, the largest
sheet 1 1 $may_loop
table 0 0 0
good 1 0:0 200:0 255:0
table 0 0 1
refused 23
table 128 0 0 128 128 1
refused 23
twelve='00 00 00 12 01 0C 01 00 00 00 00 00 00 00 00 00 00 00 00 01 00 01'
sheet 1 12 $twelve
table 128 0 11 128 128 10
good 2 0:11 127:11 128:10 255:10
table 0 0 12
refused 23
# twelve events: 0 to 10 for the codes whose last four bits are that number, 11 for all others
table 15 0 0 15 1 1 15 2 2 15 3 3 15 4 4 15 5 5 15 6 6 15 7 7 15 8 8 15 9 9 15 10 10 15 11 11 12 12 11
good 13 0:0 1:1 2:2 9:9 10:10 11:11 12:11 15:11 16:0 26:10 200:8 250:10 255:11
sheet 2 2 $coded_reference
table 128 0 0 128 128 1
good 2 0:0 200:1
table 128 0 0
bad 1 'gap 128'
# an event is its number, not its catalogue code
table 0 0 2
refused 23
head='sheet 32 nodes 12 events'
largest_sheet 05 BB > "$scratch/sheet"
table 128 0 0 128 128 11
good 2 0:0 200:11
of_length 192
good 64 0:0 5:1 255:1
for length in 191 193 195 2624 2625 2626 3000; do
    of_length $length
    refused 21
done

# ---- the sheet's own refusals come first, whatever the table is and whatever code is asked for
# sheet_refused NUMBER MEANING HEX..: these bytes for the sheet are refused, and nothing is said of the table
sheet_refused() {
    meaning="sheet refused $1 $2"
    head="a sheet of refusal $1"
    shift 2
    bytes "$@" > "$scratch/sheet"
    table
    answered 'none 5 255' "$meaning"
    table 128 0 0 128 128 0
    answered 'none 5 255' "$meaning"
    table 0 0 0
    answered 'none 5' "$meaning"
    table 128 0 0
    answered 'none 5' "$meaning"
    table 128 1 0
    answered 'none 5' "$meaning"
    table 0 0 255
    answered 'none 5' "$meaning"
    table 0 0
    answered 'none 5' "$meaning"
}
wrong_length='too short or its length field is wrong'
sheet_refused 1 "$wrong_length" 00 00 00 00
sheet_refused 1 "$wrong_length" 00 00 00 01 01
sheet_refused 1 "$wrong_length" 00 00 00 02 01 01
sheet_refused 2 'version is neither 1 nor 2' 00 00 00 07 00 01 01 00 01 00 00
sheet_refused 2 'version is neither 1 nor 2' 00 00 00 07 03 01 01 00 01 00 00
sheet_refused 3 'events or nodes out of range' 00 00 00 07 01 0D 01 00 01 00 00
sheet_refused 3 'events or nodes out of range' 00 00 00 07 01 01 21 00 01 00 00
sheet_refused 4 'the bytes end too early or some remain' 00 00 00 08 01 01 01 00 01 00 00 00
sheet_refused 4 'the bytes end too early or some remain' 00 00 00 06 01 01 01 00 01 00
sheet_refused 4 'the bytes end too early or some remain' 00 00 00 06 02 02 01 00 07 00
sheet_refused 5 'number of acceptances out of range' 00 00 00 07 01 01 01 00 00 00 00
sheet_refused 6 'a successor is no node' 00 00 00 07 01 01 01 01 01 00 00
sheet_refused 7 'a rule of acceptances is broken' 00 00 00 07 01 01 01 00 01 00 02
sheet_refused 8 'a node cannot be reached' 00 00 00 0B 01 01 02 00 01 00 01 00 01 00 01
sheet_refused 18 'a code is given twice' 00 00 00 0A 02 02 01 00 07 00 07 00 00 00
# a length field that is one too small, or one too large: a byte of the sheet is the table's, or the other way round
sheet_refused 4 'the bytes end too early or some remain' 00 00 00 0E 01 02 02 01 01 02 00 01 00 02 00 00 01 00 03
head='a length field one too large'
bytes 00 00 00 10 01 02 02 01 01 02 00 01 00 02 00 00 01 00 03 > "$scratch/sheet"
table
answered 'none 5' "sheet refused 1 $wrong_length"
table 0
answered 'none 5' 'sheet refused 4 the bytes end too early or some remain'
table 128 0 0 128 128 1
answered 'none 5' 'sheet refused 4 the bytes end too early or some remain'
# a length field beyond the input, also one that with 4 more is above 32 bits
for field in '00 00 00 FF' '00 00 01 0F' '00 01 00 0F' '01 00 00 0F' '80 00 00 0F' 'FF FF FF FC' 'FF FF FF FF'; do
    head="the length field $field"
    bytes $field 01 02 02 01 01 02 00 01 00 02 00 00 01 00 03 > "$scratch/sheet"
    table 128 0 0 128 128 1
    answered 'none 5' "sheet refused 1 $wrong_length"
done
# sheets of 4,095 and 4,096 bytes, and one of 4,097, of which the last is cut off
rules='no table'
for field in '0F FB' '0F FC'; do
    head="a sheet of the length field $field"
    { bytes 00 00 $field 01 02 02 01 01 02 00 01 00 02 00 00 01 00 03; head -c 4100 /dev/zero; } > "$scratch/input"
    answered 'none 5' 'sheet refused 4 the bytes end too early or some remain'
done
head='a sheet of 4,097 bytes'
{ bytes 00 00 0F FD 01 02 02 01 01 02 00 01 00 02 00 00 01 00 03; head -c 4078 /dev/zero; } > "$scratch/input"
answered 'none 5' "sheet refused 1 $wrong_length"
# input that is cut off
for begun in '' '00' '00 00' '00 00 00' '00 00 00 0F' '00 00 00 0F 01 02 02 01 01'; do
    head="the input $begun"
    input $begun
    answered 'none 5 255' "sheet refused 1 $wrong_length"
done
"$program" <&- > "$scratch/printed"
held 'no standard input' "sheet refused 1 $wrong_length"
"$program" 5 <&- > "$scratch/printed"
held 'no standard input, code 5' "sheet refused 1 $wrong_length"

# ---- words
sheet 2 2 $reference
table 128 0 0 128 128 1
# asks WORD CODE EVENT: the word is this code
asks() {
    started "$1"
    held "the word '$1'" "$head" 'table 2 rules' good "code $2 event $3"
    [ ! -s "$scratch/said" ] || fails "the word '$1': standard error has a line"
}
# zeros before a number, up to five digits
for word in 0 00 000 0000 00000; do asks $word 0 0; done
for word in 9 09 009 0009 00009; do asks $word 9 0; done
for word in 99 099 0099 00099; do asks $word 99 0; done
for word in 127 0127 00127; do asks $word 127 0; done
for word in 128 0128 00128; do asks $word 128 1; done
for word in 200 0200 00200; do asks $word 200 1; done
for word in 249 250 254; do asks $word $word 1; done
for word in 255 0255 00255; do asks $word 255 1; done
# wrong_use NAME WORD..: with these words nothing is printed, and standard error says why
wrong_use() {
    name=$1
    shift
    started "$@"
    [ ! -s "$scratch/printed" ] || fails "$name: it printed a line"
    mv "$scratch/said" "$scratch/printed"
    held "$name" 'keypad_check: it takes one code at most, a number of 0 to 255'
}
# no code: above 255, and numbers that begin anew at 0 or 5 in 8, 16, 32 or 64 bits; more than five digits; no digits
newline='
'
for word in 256 257 261 0256 00256 260 300 511 512 517 999 1000 1023 9999 10000 65535 65536 65541 65791 99999 000000 \
    000005 000255 0000000000 4294967296 4294967301 18446744073709551616 18446744073709551621 '' ' ' -1 -0 +5 -5 x 5x \
    x5 0x5 5.0 5,0 5. .5 5e0 5/ /5 5: :5 / : ' 5' '5 ' '1 2' "$(printf '5\t')" "5$newline" "${newline}5" \
    "$(printf '5\r')" five none code traces '*' '?' -h --help -- "$(printf '\331\245')" "$(printf '\357\274\225')" \
    "$(printf '\302\262')" "$(printf '\377')" "$(printf '5\377')" "$(printf '\265')" "$(repeat 63 0)" "$(repeat 64 0)" \
    "$(repeat 65 0)" "$(repeat 63 0)5" "$(repeat 64 0)5" "$(repeat 64 5)" "$(repeat 100 1)" "$(repeat 256 0)" \
    "$(repeat 5000 x)" "$(repeat 65536 0)5"; do
    wrong_use "the word '$word'" "$word"
done
# more than one word
wrong_use 'a code twice' 5 5
wrong_use 'two codes' 0 255
wrong_use 'a code and an empty word' 5 ''
wrong_use 'an empty word and a code' '' 5
wrong_use 'two empty words' '' ''
wrong_use 'a code and a word' 5 traces
wrong_use 'a word and a code' traces 5
wrong_use 'three codes' 5 5 5
wrong_use 'a code and a long word' 5 "$(repeat 5000 x)"
wrong_use 'a hundred codes' $(repeat 100 '5 ')
wrong_use '256 codes' $(repeat 256 '5 ')
wrong_use '257 codes' $(repeat 257 '5 ')
# wrong use comes before every refusal
table
wrong_use 'an empty table, 256' 256
table 128 0 0
wrong_use 'a gap, two words' 5 5
table 128 1 0
wrong_use 'a table of refusal 22, x' x
input 00 00 00 07 03 01 01 00 01 00 00
wrong_use 'a sheet of refusal 2, 256' 256
: > "$scratch/input"
wrong_use 'no input, an empty word' ''
"$program" x <&- > "$scratch/printed" 2> "$scratch/said"
[ ! -s "$scratch/printed" ] || fails 'no standard input, x: it printed a line'
mv "$scratch/said" "$scratch/printed"
held 'no standard input, x' 'keypad_check: it takes one code at most, a number of 0 to 255'

# ---- input that arrives in pieces: within the length field, the sheet and a rule
{
    bytes 00 00
    sleep 1
    bytes 00 0F 01 02 02 01 01 02 00 01
    sleep 1
    bytes 00 02 00 00 01 00 03 80
    sleep 1
    bytes 00 00 80 80 01
} | "$program" 200 > "$scratch/printed"
held 'in pieces' 'sheet 2 nodes 2 events' 'table 2 rules' good 'code 200 event 1'
{
    bytes $reference 80 00
    sleep 1
    bytes 00
    sleep 1
} | "$program" > "$scratch/printed"
held 'a table in pieces' 'sheet 2 nodes 2 events' 'table 1 rules' 'gap 128'

# ---- output that cannot be written: one line on standard error, and no other
# unwritten LINE WORD..: with these words standard error has this line alone
unwritten() {
    line=$1
    shift
    "$program" "$@" < "$scratch/input" > /dev/full 2> "$scratch/printed"
    held "a full device, the words '$*'" "$line"
}
table 128 0 0 128 128 1
unwritten 'keypad_check: the output could not be written'
unwritten 'keypad_check: the output could not be written' 200
unwritten 'keypad_check: it takes one code at most, a number of 0 to 255' 256
table
unwritten 'keypad_check: the output could not be written' 5
: > "$scratch/input"
unwritten 'keypad_check: the output could not be written'

ends
