#!/bin/sh
# Runs every program on every sample by way of the entry script, and holds what it prints to the file beside the sheet
# or the table; makes the pair of samples/bound anew; then the entry script's own words: help, a missing file, a wrong
# program, a reference whose length is wrong. The rest of its work is in bench.sh.
set -u
cd "$(dirname "$0")/.." || exit 1
. tests/shared
begins

for folder in samples/*/; do
    for sheet in "$folder"*.sheet; do
        name=${sheet%.sheet}
        ./bench show "$sheet" > "$scratch/printed"
        same "show $sheet" "$name.show"
        ./bench probe_list "$sheet" > "$scratch/printed"
        same "probe_list $sheet" "$name.probes"
        # what is printed for the walk of the seed S with the length L stands in NAME.walk_S_L
        for text in "$name".walk_*; do
            words=${text##*.walk_}
            ./bench walk "$sheet" "${words%_*}" "${words#*_}" > "$scratch/printed"
            same "walk $text" "$text"
        done
        [ "$sheet" = "${folder}reference.sheet" ] && continue
        ./bench compare "${folder}reference.sheet" "$sheet" > "$scratch/printed"
        same "compare $sheet" "$name.compare"
        ./bench suite "${folder}reference.sheet" "$sheet" > "$scratch/printed"
        same "suite $sheet" "$name.suite"
        # what is printed for scripts of L events stands in NAME.scripts_L
        for text in "$name".scripts_*; do
            ./bench scripts "${folder}reference.sheet" "$sheet" "${text##*.scripts_}" > "$scratch/printed"
            same "scripts $text" "$text"
        done
    done
    # a keypad has tables in place of a live run: what is printed for one stands in NAME.keypad, and with the code N in
    # NAME.keypad_N
    if [ "$folder" = samples/keypad/ ]; then
        for table in "$folder"*.table; do
            name=${table%.table}
            ./bench keypad "${folder}reference.sheet" "$table" > "$scratch/printed"
            same "keypad $table" "$name.keypad"
            for text in "$name".keypad_*; do
                ./bench keypad "${folder}reference.sheet" "$table" "${text##*.keypad_}" > "$scratch/printed"
                same "keypad $text" "$text"
            done
        done
        continue
    fi
    # shellcheck disable=SC2046
    ./bench live "${folder}reference.sheet" $(cat "${folder}live.words") < "${folder}live.reports" > "$scratch/printed"
    same "live in $folder" "${folder}live.out"
done
for text in samples/*/*.walk_*; do
    [ -f "${text%.walk_*}.sheet" ] || fails "$text has no sheet"
done
# the pair of samples/bound is what `bound` writes for P and Q of bound.words, and prints as in bound.out
# shellcheck disable=SC2046
./bench bound $(cat samples/bound/bound.words) "$scratch/reference" "$scratch/device" > "$scratch/printed"
same 'bound in samples/bound/' samples/bound/bound.out
for sheet in reference device; do
    mv "$scratch/$sheet" "$scratch/printed"
    same "bound, the bytes of samples/bound/$sheet.sheet" "samples/bound/$sheet.sheet"
done

# says STATUS WORDS COMMAND..: the command ends with this status and says these words
says() {
    status=$1
    words=$2
    shift 2
    runs=$((runs + 1))
    "$@" > "$scratch/printed" 2>&1
    got=$?
    { [ "$got" = "$status" ] && grep -q -F -- "$words" "$scratch/printed"; } || {
        fails "$* ended with $got and said:"
        cat "$scratch/printed" >&2
    }
}

reference_file=samples/tray/reference.sheet
device_file=samples/tray/device.sheet
table_file=samples/keypad/good.table
head -c 50 "$reference_file" > "$scratch/cut"
{ cat "$reference_file"; printf x; } > "$scratch/long"
: > "$scratch/empty"
says 0 './bench compare REF DEV' ./bench help
says 2 './bench compare REF DEV' ./bench
says 2 'there is no program judge' ./bench judge
says 2 'there is no file nowhere' ./bench show nowhere
says 2 'is not a file' ./bench show samples
says 2 'takes one file' ./bench probe_list
says 2 'takes two files' ./bench compare "$reference_file"
says 2 'takes two files and a length' ./bench scripts
says 2 'takes two files and a length' ./bench scripts "$reference_file" "$device_file"
says 0 './bench keypad SHEET TABLE [CODE]' ./bench help
says 2 'takes two files, and may end with a code' ./bench keypad
says 2 'takes two files, and may end with a code' ./bench keypad "$reference_file"
says 2 'takes two files, and may end with a code' ./bench keypad "$reference_file" "$table_file" 5 5
says 0 './bench bound P Q REF DEV [replace]' ./bench help
says 2 'takes two numbers, 1 to 32, and two files, and may end with replace' ./bench bound
says 2 'takes two numbers, 1 to 32, and two files, and may end with replace' ./bench bound 3 4 "$scratch/reference"
says 2 'bound refused 30' ./bench bound 3 33 "$scratch/reference" "$scratch/device"
says 2 'takes a file and two numbers' ./bench live
says 2 'takes a file and two numbers' ./bench live "$reference_file" 1
# refused_meaning NUMBER MEANING HEX..: both programs refuse these bytes, with the number and its meaning
refused_meaning() {
    number=$1
    meaning=$2
    shift 2
    bytes "$@" > "$scratch/bad"
    for program in show probe_list; do
        says 2 "sheet refused $number $meaning" ./bench "$program" "$scratch/bad"
    done
}
refused_meaning 1 'too short or its length field is wrong'
refused_meaning 1 'too short or its length field is wrong' 00 00 00 07 01 01 01 00 01 00
refused_meaning 2 'version is neither 1 nor 2' 00 00 00 07 00 01 01 00 01 00 00
refused_meaning 2 'version is neither 1 nor 2' 00 00 00 07 03 01 01 00 01 00 00
refused_meaning 2 'version is neither 1 nor 2' 00 00 00 07 FF 01 01 00 01 00 00
refused_meaning 3 'events or nodes out of range' 00 00 00 07 01 0D 01 00 01 00 00
refused_meaning 4 'the bytes end too early or some remain' 00 00 00 08 01 01 01 00 01 00 00 00
refused_meaning 4 'the bytes end too early or some remain' 00 00 00 06 02 02 01 00 07 00
refused_meaning 5 'number of acceptances out of range' 00 00 00 07 01 01 01 00 00 00 00
refused_meaning 6 'a successor is no node' 00 00 00 07 01 01 01 01 01 00 00
refused_meaning 7 'a rule of acceptances is broken' 00 00 00 07 01 01 01 00 01 00 02
refused_meaning 8 'a node cannot be reached' 00 00 00 0B 01 01 02 00 01 00 01 00 01 00 01
refused_meaning 18 'a code is given twice' 00 00 00 0A 02 02 01 00 07 00 07 00 00 00
# shown NAME HEX LINE..: of a sheet of version 2 with one node, two events and these codes `show` prints its first line,
# these lines, and its node
shown() {
    name=$1
    bytes 00 00 00 0C 02 02 01 $2 00 00 01 00 03 > "$scratch/coded"
    shift 2
    ./bench show "$scratch/coded" > "$scratch/printed"
    held "$name" 'sheet 1 nodes 2 events' "$@" 'node 0' 'event 0 to 0' 'event 1 to 0' 'accepts 3 ( 0 1 )'
}
shown 'codes 257 and 258' '01 01 01 02' 'code 0 257' 'code 1 258'
shown 'codes 65,535 and 0' 'FF FF 00 00' 'code 0 65535' 'code 1 0'
shown 'codes 2 and 1' '00 02 00 01' 'code 0 2' 'code 1 1'
shown 'codes 1 and 3' '00 01 00 03' 'code 0 1' 'code 1 3'
shown 'the codes of version 1' '00 01 00 02'
largest_sheet 05 BB > "$scratch/largest"
./bench show "$scratch/largest" > "$scratch/shown"
head -n 14 "$scratch/shown" > "$scratch/printed"
held 'twelve codes' 'sheet 32 nodes 12 events' 'code 0 1' 'code 1 2' 'code 2 3' 'code 3 4' 'code 4 5' 'code 5 6' \
    'code 6 7' 'code 7 8' 'code 8 9' 'code 9 10' 'code 10 11' 'code 11 65535' 'node 0'
bytes $coded_reference > "$scratch/coded"
./bench probe_list "$scratch/coded" > "$scratch/printed"
held 'probe_list, version 2' 'sheet 2 nodes 2 events' 'node 0 probes 3 ( 0 1 )' 'node 1 probes 1 ( 0 ) 2 ( 1 )'
cp "$reference_file" "$scratch/-n"
says 0 'sheet 6 nodes 8 events' sh -c 'cd "$1" && "$2/bench" show -n' sh "$scratch" "$PWD"
says 0 'reference 6 nodes 8 events' sh -c 'cd "$1" && "$2/bench" compare -n -n' sh "$scratch" "$PWD"
says 0 'ends early 134217236' sh -c 'cd "$1" && "$2/bench" scripts -n -n 9' sh "$scratch" "$PWD"
says 2 'table refused 21' sh -c 'cd "$1" && "$2/bench" keypad -n -n' sh "$scratch" "$PWD"
for wrong in cut long empty; do
    for program in compare suite; do
        says 2 'reference refused 1' ./bench "$program" "$scratch/$wrong" "$device_file"
        says 2 'device refused 1' ./bench "$program" "$reference_file" "$scratch/$wrong"
    done
    says 2 'sheet refused 1 too short or its length field is wrong' ./bench keypad "$scratch/$wrong" "$table_file"
    says 2 'sheet refused 1 too short or its length field is wrong' ./bench keypad "$scratch/$wrong" "$table_file" 5
    says 2 'reference refused 1' ./bench scripts "$scratch/$wrong" "$device_file" 17
    says 2 'device refused 1' ./bench scripts "$reference_file" "$scratch/$wrong" 17
done
says 2 'scripts refused 20' ./bench scripts "$reference_file" "$device_file" 17
says 2 'scripts refused 20' ./bench scripts "$reference_file" "$device_file" L
says 2 'scripts refused 20' ./bench scripts "$reference_file" "$device_file" ''
says 2 'scripts refused 20' ./bench scripts "$reference_file" "$device_file" '9 '
says 2 'table refused 21' ./bench keypad "$reference_file" "$scratch/empty"
says 2 'it takes one code at most, a number of 0 to 255' ./bench keypad "$reference_file" "$table_file" 256
says 2 'it takes one code at most, a number of 0 to 255' ./bench keypad "$reference_file" "$table_file" ''
says 2 'test refused 14' ./bench live "$reference_file" 1024 0
says 2 'test refused 14' ./bench live "$reference_file" 0 h
says 2 'test refused 14' ./bench live "$reference_file" 0 0 trace
says 2 'reference refused 1' ./bench live "$scratch/cut" 1 0

ends
