#!/bin/sh
# The entry script's own work: the status for every ending of every program, a pair of sheets that is written and files
# that it must not touch, output that cannot be written, the lines of a form, interrupts, two scripts at once, and
# folders and tools that are not as they should be. Where it proves and builds, a stand-in takes the place of the
# toolchain, so that this takes seconds.
set -u
cd "$(dirname "$0")/.." || exit 1
. tests/shared
for name in compare suite show probe_list live script_counts keypad_check walk bound_pair; do built "$name"; done
begins
root=$PWD
example=samples/example
tray=samples/tray
codes=samples/codes

# ends_with STATUS NAME COMMAND..: the command ends with this status; what it says is in $scratch/printed and
# $scratch/said
ends_with() {
    status=$1
    name=$2
    shift 2
    runs=$((runs + 1))
    "$@" > "$scratch/printed" 2> "$scratch/said"
    got=$?
    [ "$got" = "$status" ] || {
        fails "$name: status $got, not $status:"
        tail -n 3 "$scratch/printed" "$scratch/said" >&2
    }
}

# told NAME WORDS: standard error has one line, with these words
told() {
    runs=$((runs + 1))
    [ "$(wc -l < "$scratch/said")" -eq 1 ] && grep -q -F -- "$2" "$scratch/said" || {
        fails "$1: standard error has:"
        cat "$scratch/said" >&2
    }
}

# ---- statuses: yes, no, everything else
bytes $reference > "$scratch/reference"
bytes $stopped > "$scratch/stopped"
bytes 00 00 00 07 03 01 01 00 01 00 00 > "$scratch/version"
: > "$scratch/empty"
lines 'event 0' 'event 0' > "$scratch/passes"
lines 'event 0' 'blocked' > "$scratch/refuses"
lines 'event 1' > "$scratch/strays"
lines 'blocked' > "$scratch/blocks"
bytes $only_zero > "$scratch/only_zero"
bytes $may_loop > "$scratch/may_loop"

ends_with 0 'refines' ./bench compare $tray/reference.sheet $tray/repaired.sheet
ends_with 1 'violates, stray' ./bench compare $tray/reference.sheet $tray/device.sheet
ends_with 1 'violates, refused' ./bench compare $example/reference.sheet $example/device.sheet
ends_with 2 'comparison refused' ./bench compare $example/reference.sheet "$scratch/stopped"
ends_with 2 'comparison refused by its codes' ./bench compare $codes/reference.sheet $codes/other.sheet
ends_with 2 'reference refused' ./bench compare "$scratch/version" $example/device.sheet
ends_with 2 'reference refused by its length' ./bench compare "$scratch/empty" $example/device.sheet
ends_with 2 'device refused' ./bench compare $example/reference.sheet "$scratch/version"
ends_with 0 'all pass' ./bench suite $tray/reference.sheet $tray/repaired.sheet
ends_with 1 'a test failed' ./bench suite $example/reference.sheet $example/device.sheet
ends_with 2 'suite refused' ./bench suite $example/reference.sheet "$scratch/stopped"
ends_with 2 'suite refused by its codes' ./bench suite $codes/reference.sheet $codes/other.sheet
ends_with 2 'suite, reference refused' ./bench suite "$scratch/version" $example/device.sheet
ends_with 2 'suite, device refused' ./bench suite $example/reference.sheet "$scratch/empty"
ends_with 0 'scripts, all walked' ./bench scripts $example/reference.sheet $example/device.sheet 2
ends_with 0 'scripts, some stopped' ./bench scripts $tray/reference.sheet $tray/device.sheet 16
ends_with 2 'scripts refused' ./bench scripts $example/reference.sheet "$scratch/stopped" 3
ends_with 2 'scripts refused by its codes' ./bench scripts $codes/reference.sheet $codes/other.sheet 3
ends_with 2 'scripts refused by their length' ./bench scripts $example/reference.sheet $example/device.sheet 17
ends_with 2 'scripts refused by a word' ./bench scripts $example/reference.sheet $example/device.sheet three
ends_with 2 'scripts, reference refused' ./bench scripts "$scratch/version" $example/device.sheet 3
ends_with 2 'scripts, reference refused by its length' ./bench scripts "$scratch/empty" $example/device.sheet 3
ends_with 2 'scripts, device refused' ./bench scripts $example/reference.sheet "$scratch/version" 3
# walk_says STATUS SHEET SEED LENGTH LINE..: `walk` with these words ends with this status and prints these lines
walk_says() {
    status=$1
    name="walk $2 '$3' '$4'"
    sheet=$2
    seed=$3
    length=$4
    shift 4
    ends_with "$status" "$name" ./bench walk "$sheet" "$seed" "$length"
    [ ! -s "$scratch/said" ] || fails "$name: standard error has a line"
    held "$name: its lines" "$@"
}
head='sheet 2 nodes 2 events'
bytes 00 00 00 0D 01 02 02 01 00 01 00 03 FF FF 01 00 00 > "$scratch/ending"
walk_says 0 "$scratch/reference" 1 8 "$head" 'walked 8 of 8' 'trace 1 1 1 1 1 0 0 0'
walk_says 0 "$scratch/reference" 0000000001 00008 "$head" 'walked 8 of 8' 'trace 1 1 1 1 1 0 0 0'
walk_says 0 $example/device.sheet 4294967295 8 'sheet 3 nodes 2 events' 'walked 8 of 8' 'trace 1 1 0 0 1 0 0 1'
walk_says 0 "$scratch/ending" 1 8 "$head" 'walked 6 of 8' 'trace 1 1 1 1 1 0'
walk_says 0 "$scratch/ending" 2 8 "$head" 'walked 1 of 8' 'trace 0'
walk_says 0 "$scratch/stopped" 7 4096 'sheet 1 nodes 1 events' 'walked 0 of 4096' trace
walk_says 0 "$scratch/reference" 7 0 "$head" 'walked 0 of 0' trace
for seed in 0 00 4294967296 00000000001 '' x -1 +1 ' 1' 1.0 0x1 '1 1'; do
    walk_says 2 "$scratch/reference" "$seed" 8 "$head" 'walk refused 27'
    walk_says 2 "$scratch/reference" "$seed" 4097 "$head" 'walk refused 27'
done
for length in 4097 65535 65536 99999 000008 '' x -1 ' 8' '8 8'; do
    walk_says 2 "$scratch/reference" 1 "$length" "$head" 'walk refused 28'
done
walk_says 2 "$scratch/version" 0 x 'sheet refused 2 version is neither 1 nor 2'
walk_says 2 "$scratch/empty" 1 8 'sheet refused 1 too short or its length field is wrong'
ends_with 0 'a walk of 4,096 events' ./bench walk "$scratch/reference" 1 4096
runs=$((runs + 1))
[ "$(sed -n 's/^trace//p' "$scratch/printed" | wc -w)" = 4096 ] || fails 'a walk of 4,096 events: it has others'
# a keypad's table on the example's reference, which has two events
bytes 80 00 00 80 80 01 > "$scratch/good"
bytes 80 00 00 > "$scratch/gap"
bytes 80 00 00 00 00 01 > "$scratch/overlap"
bytes 80 00 00 80 80 > "$scratch/part"
bytes 80 01 00 > "$scratch/outside"
bytes 80 80 09 > "$scratch/above"
# keypad_says STATUS SHEET TABLE CODES LINE..: `keypad` on these files, with each of the codes in turn (`none`: with no
# code), ends with this status, prints these lines and says nothing on standard error
keypad_says() {
    status=$1
    sheet=$2
    table=$3
    asked=$4
    shift 4
    for code in $asked; do
        word=$code
        [ "$code" != none ] || word=
        ends_with "$status" "keypad $sheet $table $word" ./bench keypad "$sheet" "$table" $word
        [ ! -s "$scratch/said" ] || fails "keypad $sheet $table $word: standard error has a line"
        held "keypad $sheet $table $word: its lines" "$@"
    done
}
head='sheet 2 nodes 2 events'
keypad_says 0 "$scratch/reference" "$scratch/good" none "$head" 'table 2 rules' good
keypad_says 0 "$scratch/reference" "$scratch/good" '200 0200 00200' "$head" 'table 2 rules' good 'code 200 event 1'
keypad_says 0 "$scratch/reference" "$scratch/good" '0 00000' "$head" 'table 2 rules' good 'code 0 event 0'
keypad_says 1 "$scratch/reference" "$scratch/gap" 'none 5 128 200' "$head" 'table 1 rules' 'gap 128'
keypad_says 1 "$scratch/reference" "$scratch/overlap" 'none 0 200' "$head" 'table 2 rules' 'overlap 0 by 0 and 1'
keypad_says 2 "$scratch/reference" "$scratch/empty" 'none 5' "$head" 'table refused 21'
keypad_says 2 "$scratch/reference" "$scratch/part" 'none 5' "$head" 'table refused 21'
keypad_says 2 "$scratch/reference" "$scratch/outside" 'none 5' "$head" 'table refused 22'
keypad_says 2 "$scratch/reference" "$scratch/above" 'none 5' "$head" 'table refused 23'
# a file of which most is never read by the program, and nothing is said of that
head -c 1000000 /dev/zero > "$scratch/large"
keypad_says 2 "$scratch/reference" "$scratch/large" 'none 5' "$head" 'table refused 21'
ends_with 2 'a large device' ./bench compare $example/reference.sheet "$scratch/large"
[ ! -s "$scratch/said" ] || fails 'a large device: standard error has a line'
held 'a large device' 'reference 2 nodes 2 events' 'device refused 1'
keypad_says 2 "$scratch/version" "$scratch/good" 'none 5' 'sheet refused 2 version is neither 1 nor 2'
keypad_says 2 "$scratch/version" "$scratch/empty" none 'sheet refused 2 version is neither 1 nor 2'
# a sheet whose length is wrong is refused, also where its bytes and the table's could be split elsewhere: a cut sheet
# that the table goes on with, and a sheet that is followed by a table of its own
head -c 13 "$scratch/reference" > "$scratch/cut"
{ tail -c +14 "$scratch/reference"; cat "$scratch/good"; } > "$scratch/goes_on"
cat "$scratch/reference" "$scratch/gap" > "$scratch/followed"
bytes 80 80 01 > "$scratch/other_half"
wrong_length='sheet refused 1 too short or its length field is wrong'
keypad_says 2 "$scratch/empty" "$scratch/good" 'none 5' "$wrong_length"
keypad_says 2 "$scratch/empty" "$scratch/empty" none "$wrong_length"
keypad_says 2 "$scratch/cut" "$scratch/good" 'none 5' "$wrong_length"
keypad_says 2 "$scratch/cut" "$scratch/goes_on" 'none 5' "$wrong_length"
keypad_says 2 "$scratch/followed" "$scratch/other_half" 'none 5' "$wrong_length"
keypad_says 2 "$scratch/followed" "$scratch/empty" 'none 5' "$wrong_length"
# a word that is no code: nothing is printed, whatever the files are
for code in 256 65536 000005 -1 x '' ' 5' '1 2' none; do
    for sheet in reference version cut; do
        ends_with 2 "keypad, the code '$code', $sheet" ./bench keypad "$scratch/$sheet" "$scratch/good" "$code"
        told "keypad, the code '$code', $sheet" 'keypad_check: it takes one code at most, a number of 0 to 255'
        [ ! -s "$scratch/printed" ] || fails "keypad, the code '$code', $sheet: it printed a line"
    done
done
for name in show probe_list; do
    ends_with 0 "$name, shown" ./bench "$name" $example/reference.sheet
    ends_with 2 "$name, refused" ./bench "$name" "$scratch/version"
done
live_ends() { # STATUS NAME REPORTS WORD..
    status=$1
    name=$2
    reports=$3
    shift 3
    ends_with "$status" "live, $name" sh -c 'reports=$1; shift; exec ./bench live "$@" < "$reports"' sh "$reports" "$@"
}
live_ends 0 'passed' "$scratch/passes" "$scratch/reference" 1 0
live_ends 1 'refused' "$scratch/refuses" "$scratch/reference" 1 0
live_ends 1 'stray' "$scratch/strays" "$scratch/only_zero" 0 0
live_ends 1 'blocked below depth k' "$scratch/blocks" "$scratch/reference" 1 0
live_ends 0 'blocked where it may stop' "$scratch/blocks" "$scratch/may_loop" 1 0
# inconclusive is neither yes nor no, and nothing else is wrong
inconclusive() { # NAME SHEET: `blocked` at once, of test 1, trace-only
    live_ends 2 "$1" "$scratch/blocks" "$2" 1 0 traces
    runs=$((runs + 1))
    [ "$(tail -n 1 "$scratch/printed")" = 'run inconclusive' ] && [ ! -s "$scratch/said" ] || {
        fails "live, $1: it said:"
        tail -n 3 "$scratch/printed" "$scratch/said" >&2
    }
}
inconclusive 'inconclusive' "$scratch/reference"
inconclusive 'inconclusive where it may stop' "$scratch/may_loop"
live_ends 2 'inconclusive after an event' "$scratch/refuses" "$scratch/reference" 2 0 traces
live_ends 0 'blocked at depth k, traces' "$scratch/refuses" "$scratch/reference" 1 0 traces
live_ends 0 'blocked, k 0, traces' "$scratch/blocks" "$scratch/reference" 0 0 traces
live_ends 1 'stray below depth k, traces' "$scratch/strays" "$scratch/only_zero" 1 0 traces
live_ends 2 'input ended' "$scratch/empty" "$scratch/reference" 1 0
live_ends 2 'test refused' "$scratch/passes" "$scratch/reference" 1024 0
live_ends 2 'reference refused' "$scratch/passes" "$scratch/version" 1 0
ends_with 2 'live without input' sh -c './bench live "$1" 1 0 <&-' sh "$scratch/reference"
# lines ended: after a million lines that are no report
yes | head -n 1000001 > "$scratch/many"
"$root/target/bin/live" "$scratch/reference" 0 0 < "$scratch/many" | tail -n 1 > "$scratch/printed"
held 'lines ended, which is no other ending' 'lines ended'
ends_with 0 'help' ./bench help
ends_with 2 'no word' ./bench
ends_with 2 'no such program' ./bench judge
ends_with 2 'no such file' ./bench show "$scratch/nowhere"
ends_with 2 'too few files' ./bench compare $example/reference.sheet
ends_with 2 'too many words' ./bench build now
wrong_words() { # WORD..: scripts is not so called
    ends_with 2 "scripts $*" ./bench scripts "$@"
    told "scripts $*" 'scripts refused 20: scripts takes two files and a length, 0 to 16: ./bench scripts REF DEV L'
}
wrong_words
wrong_words $example/reference.sheet $example/device.sheet
wrong_words $example/reference.sheet $example/device.sheet 3 3
ends_with 2 'scripts, no such file' ./bench scripts $example/reference.sheet "$scratch/nowhere" 3
told 'scripts, no such file' "there is no file $scratch/nowhere"
keypad_words() { # WORD..: keypad is not so called
    ends_with 2 "keypad $*" ./bench keypad "$@"
    told "keypad $*" 'keypad takes two files, and may end with a code, 0 to 255: ./bench keypad SHEET TABLE [CODE]'
    [ ! -s "$scratch/printed" ] || fails "keypad $*: it printed a line"
}
keypad_words
keypad_words "$scratch/reference"
keypad_words "$scratch/reference" "$scratch/good" 5 5
keypad_words "$scratch/reference" "$scratch/good" 5 ''
walk_words() { # WORD..: walk is not so called
    ends_with 2 "walk $*" ./bench walk "$@"
    told "walk $*" 'walk takes a file, a seed, 1 to 4294967295, and a length, 0 to 4096: ./bench walk SHEET SEED LENGTH'
    [ ! -s "$scratch/printed" ] || fails "walk $*: it printed a line"
}
walk_words
walk_words "$scratch/reference"
walk_words "$scratch/reference" 1
walk_words "$scratch/reference" 1 8 8
ends_with 2 'walk, no such file' ./bench walk "$scratch/nowhere" 1 8
told 'walk, no such file' "there is no file $scratch/nowhere"
ends_with 2 'walk, a folder' ./bench walk "$scratch" 1 8
told 'walk, a folder' "$scratch is not a file"
# no_file NAME WORDS SHEET TABLE: one of the two is no file, and these words say which
no_file() {
    ends_with 2 "keypad, $1" ./bench keypad "$3" "$4"
    told "keypad, $1" "$2"
    [ ! -s "$scratch/printed" ] || fails "keypad, $1: it printed a line"
}
no_file 'no such sheet' "there is no file $scratch/nowhere" "$scratch/nowhere" "$scratch/good"
no_file 'no such table' "there is no file $scratch/nowhere" "$scratch/reference" "$scratch/nowhere"
no_file 'a folder for the sheet' "$scratch is not a file" "$scratch" "$scratch/good"
no_file 'a folder for the table' "$scratch is not a file" "$scratch/reference" "$scratch"
no_file 'an empty word for the table' 'there is no file ' "$scratch/reference" ''
ends_with 0 'build, where all is built' ./bench build
held 'build, where all is built' "built $(pwd -P)/target/bin"

# live goes on line by line: each answer is there before the next report is typed
mkfifo "$scratch/typed"
./bench live "$scratch/reference" 1 0 < "$scratch/typed" > "$scratch/printed" 2> "$scratch/said" &
live=$!
exec 4> "$scratch/typed"
# soon COMMAND..: the command succeeds within a minute
soon() {
    turn=0
    until "$@"; do
        [ "$turn" -lt 300 ] || return 1
        turn=$((turn + 1))
        sleep 0.2
    done
}
has_lines() { # COUNT: so many lines are printed
    [ "$(wc -l < "$scratch/printed")" -ge "$1" ]
}
seen() { # COUNT: so many lines are printed, soon
    runs=$((runs + 1))
    soon has_lines "$1" || fails "live printed no line $1 before the next report"
}
seen 2
echo 'event 0' >&4
seen 3
echo 'event 0' >&4
seen 4
exec 4>&-
wait "$live" || fails "a live run, typed: status $?"

# ---- a pair of sheets that is written
place=$scratch/place
bytes $bound_reference > "$scratch/bound_reference"
bytes $bound_device > "$scratch/bound_device"
mkdir "$scratch/temporary"

# fresh: the folder $place is empty
fresh() {
    rm -rf "$place"
    mkdir "$place"
}

# state [tried]: the folder $place and what it has: names, kinds, modes, inodes, sizes, where links lead, times, and all
# bytes; the times of folders not where it was tried to write there
state() {
    {
        find "$place" -printf '%p %y %m %i %s %l\n' | sort
        find "$place" ${1:+! -type d} -printf '%p %T@ %C@\n' | sort
        find "$place" -type f -exec cksum {} + | sort
    } 2> /dev/null
}

# bound_ends STATUS NAME WORD..: `bound` with these words, called in $place as $bench, with $path and as the user $as
# says, ends with this status, and its temporary folder is gone
bound_ends() {
    wanted=$1
    called=$2
    shift 2
    ends_with "$wanted" "$called" $as env TMPDIR="$scratch/temporary" PATH="$path" \
        sh -c 'cd "$1" && shift && exec "$@"' sh "$place" "$bench" bound "$@"
    [ -z "$(ls -A "$scratch/temporary")" ] || fails "$called: a temporary folder remains"
}
bench=$root/bench
path=$PATH
as=

# entries NAME COUNT: the folder $place has so many entries: no temporary file remains
entries() {
    [ "$(find "$place" -mindepth 1 -printf x | wc -c)" = "$2" ] || {
        fails "$1: the folder has not $2 entries:"
        ls -lA "$place" >&2
    }
}

# has_pair NAME REF DEV: these files of the folder $place have the bytes of the pair of 3 and 4 nodes
has_pair() {
    cmp -s "$place/$2" "$scratch/bound_reference" && cmp -s "$place/$3" "$scratch/bound_device" ||
        fails "$1: the files have other bytes"
}

# written NAME COUNT REF DEV [replace]: the pair of 3 and 4 nodes is in these files, its lines are printed, standard
# error has none, and the folder has so many entries
written() {
    what="bound, $1"
    count=$2
    shift 2
    bound_ends 0 "$what" 3 4 "$@"
    [ ! -s "$scratch/said" ] || fails "$what: standard error has a line"
    held "$what: its lines" 'reference 3 nodes 26 bytes' 'device 4 nodes 27 bytes' 'first failing test 11'
    has_pair "$what" "$1" "$2"
    entries "$what" "$count"
}

# kept NAME WORDS WORD..: `bound` with these words prints nothing, standard error has one line, with these WORDS, and
# the folder is as it was: nothing was written, not for a moment
kept() {
    what="bound, $1"
    words=$2
    shift 2
    state $trying > "$scratch/before"
    bound_ends 2 "$what" "$@"
    told "$what" "$words"
    [ ! -s "$scratch/printed" ] || fails "$what: it printed a line"
    state $trying > "$scratch/printed"
    same "$what: the folder" "$scratch/before"
}
trying=

# undone NAME WORDS WORD..: the same, but that it was tried to write
undone() {
    trying=tried
    kept "$@"
    trying=
}

# out_of_range P Q REF DEV [replace]: the pair is refused, and the folder is as it was
out_of_range() {
    what="bound '$1' '$2' $3 $4 ${5-}"
    state > "$scratch/before"
    bound_ends 2 "$what" "$@"
    [ ! -s "$scratch/said" ] || fails "$what: standard error has a line"
    held "$what" 'bound refused 30'
    state > "$scratch/printed"
    same "$what: the folder" "$scratch/before"
}

# new files, and what is said of them
fresh
written 'new files' 2 r d
ends_with 1 'compare of the pair' ./bench compare "$place/r" "$place/d"
held 'compare of the pair' 'reference 3 nodes 2 events' 'device 4 nodes 2 events' 'violates after 11 cleared 11' \
    'trace 0 0 0 1 0 0 0 1 0 0 0' 'stray 1'
ends_with 1 'suite of the pair' ./bench suite "$place/r" "$place/d"
{
    lines 'reference 3 nodes 2 events' 'device 4 nodes 2 events'
    for k in 0 1 2 3 4 5 6 7 8 9 10; do echo "test $k passes"; done
    lines 'test 11 fails' 'tests 12 run 12 failed 1'
} > "$scratch/wanted"
same 'suite of the pair' "$scratch/wanted"
ends_with 0 'the reference of the pair' ./bench show "$place/r"
ends_with 0 'the device of the pair' ./bench show "$place/d"
# reaches P Q: the pair is written, and `compare` and `suite` say that its first failing test is number p q - 1
reaches() {
    fresh
    d=$((${1#0} * ${2#0} - 1))
    bound_ends 0 "bound $1 $2" "$1" "$2" r d
    held "bound $1 $2" "reference ${1#0} nodes $((7 * ${1#0} + 5)) bytes" \
        "device ${2#0} nodes $((5 * ${2#0} + 7)) bytes" "first failing test $d"
    entries "bound $1 $2" 2
    ends_with 1 "compare of $1 and $2" ./bench compare "$place/r" "$place/d"
    sed -n '3p;$p' "$scratch/printed" > "$scratch/last"
    mv "$scratch/last" "$scratch/printed"
    held "compare of $1 and $2" "violates after $d cleared $d" 'stray 1'
    ends_with 1 "suite of $1 and $2" ./bench suite "$place/r" "$place/d"
    grep -v ' passes$' "$scratch/printed" | tail -n 2 > "$scratch/last"
    mv "$scratch/last" "$scratch/printed"
    held "suite of $1 and $2" "test $d fails" "tests $((d + 1)) run $((d + 1)) failed 1"
}
for numbers in '1 1' '1 2' '2 1' '1 32' '32 1' '03 04' '5 7' '7 5' '31 32' '32 32'; do reaches $numbers; done

# files that exist: none is changed, and the other is not written
exists='exists, and nothing is written; a fifth word, replace, permits it'
fresh
echo mine > "$place/r"
kept 'the reference exists' "the file r $exists" 3 4 r d
kept 'the device exists' "the file r $exists" 3 4 d r
kept 'the reference exists, refused numbers' "the file r $exists" 0 33 r d
: > "$place/d"
kept 'both exist' "the file r $exists" 3 4 r d
rm "$place/r"
kept 'the device exists and is empty' "the file d $exists" 3 4 r d
cp "$scratch/bound_reference" "$place/r"
cp "$scratch/bound_device" "$place/d"
kept 'both exist, with these very bytes' "the file r $exists" 3 4 r d
chmod a-w "$place/r"
kept 'the reference exists, read only' "the file r $exists" 3 4 r e
kept 'another spelling' "the file ../place/r $exists" 3 4 ../place/r e
ln -s r "$place/link"
ln -s nowhere "$place/dangling"
ln -s nowhere/r "$place/astray"
ln -s circle "$place/circle"
for link in link dangling astray circle; do
    kept "a link for the reference: $link" "the file $link $exists" 3 4 $link e
    kept "a link for the device: $link" "the file $link $exists" 3 4 e $link
done

# one file, by whatever names: nothing is written, also with replace
one='are one file, and nothing is written'
# one_file REF DEV [replace]: they are one file
one_file() {
    kept "one file, $*" "$1 and $2 $one" 3 4 "$@"
}
# both_ways REF DEV [replace]: and also exchanged
both_ways() {
    one_file "$@"
    one_file "$2" "$1" ${3-}
}
fresh
mkdir "$place/folder"
ln -s folder "$place/other"
ln -s . "$place/here"
for word in '' replace; do
    one_file x x $word
    one_file ./x ./x $word
    both_ways x ./x $word
    both_ways x .//x $word
    both_ways x folder/../x $word
    both_ways x here/x $word
    both_ways x here/here/x $word
    both_ways x "$place/x" $word
    both_ways ../place/x x $word
    both_ways folder/x other/x $word
    both_ways folder/x other/../folder/x $word
    one_file 'a b' 'a b' $word
    one_file -x -x $word
done
kept 'one file, refused numbers' "x and ./x $one" 0 33 x ./x
# links to a file that is not there
ln -s y "$place/to_y"
ln -s to_y "$place/to_to_y"
both_ways y to_y replace
both_ways to_y to_to_y replace
# and to one that is
echo mine > "$place/x"
ln -s x "$place/to_x"
ln "$place/x" "$place/hard"
ln "$place/x" "$place/folder/hard"
for file in x ./x to_x hard folder/hard other/hard; do
    one_file $file $file replace
    [ $file = x ] || both_ways x $file replace
    kept "one file that exists, $file" "the file x $exists" 3 4 x $file
done
both_ways to_x hard replace
both_ways folder/hard other/hard replace

# replace: it permits files that exist, and asks for none
fresh
written 'replace, none exists' 2 r d replace
written 'replace, both exist' 2 r d replace
rm "$place/r"
head -c 5000 /dev/zero > "$place/d"
written 'replace, the device exists' 2 r d replace
rm "$place/d"
echo mine > "$place/r"
chmod a-w "$place/r"
written 'replace, the reference exists, read only' 2 r d replace
: > "$place/r"
: > "$place/d"
written 'replace, both exist and are empty' 2 r d replace
# the files exchanged
bound_ends 0 'bound, replace, exchanged' 3 4 d r replace
has_pair 'bound, replace, exchanged' d r
entries 'bound, replace, exchanged' 2
# a link stays, and the file where it leads is replaced, or made
fresh
mkdir "$place/folder"
echo mine > "$place/folder/r"
ln -s folder/r "$place/r"
ln -s folder/d "$place/d"
written 'replace, links' 5 r d replace
[ "$(readlink "$place/r") $(readlink "$place/d")" = 'folder/r folder/d' ] ||
    fails 'bound, replace, links: they are gone'
has_pair 'bound, replace, links' folder/r folder/d
# a link that leads nowhere at all
ln -s nowhere/r "$place/astray"
ln -s circle "$place/circle"
for link in astray circle; do
    kept "replace, a link for the reference: $link" "the file $link cannot be written" 3 4 $link e replace
    kept "replace, a link for the device: $link" "the file $link cannot be written" 3 4 e $link replace
done
# no such word
usage='bound takes two numbers, 1 to 32, and two files, and may end with replace: ./bench bound P Q REF DEV [replace]'
for word in '' ' ' Replace REPLACE replac replaces replace. 'replace ' ' replace' force -f --replace yes r; do
    kept "the word '$word', both exist" "$usage" 3 4 r d "$word"
    kept "the word '$word', none exists" "$usage" 3 4 v w "$word"
    kept "the word '$word', refused numbers" "$usage" 0 4 v w "$word"
done
kept 'no word' "$usage"
kept 'one number' "$usage" 3
kept 'two numbers' "$usage" 3 4
kept 'one file name' "$usage" 3 4 v
kept 'replace for a file name' "$usage" 3 4 v w replace replace
kept 'an empty word more' "$usage" 3 4 v w replace ''
kept 'replace before the files' "$usage" 3 4 replace v w

# numbers out of range, and words that are none: nothing is written, whether the files exist or not
fresh
for word in 0 00 33 033 255 256 259 288 1000 0003 0007 '' ' ' x 3x 0x3 -1 -3 +3 ' 3' '3 ' '3 4' 3.0 lines; do
    out_of_range "$word" 4 r d
    out_of_range 3 "$word" r d
    out_of_range "$word" "$word" r d replace
done
entries 'refused numbers' 0
echo mine > "$place/r"
echo yours > "$place/d"
for word in 0 33 259 0003 '' x; do
    out_of_range "$word" 4 r d replace
    out_of_range 3 "$word" r d replace
    kept "refused numbers, '$word', the files exist" "the file r $exists" 3 "$word" r d
done

# what is no file, and folders that are not there
fresh
mkdir "$place/folder"
ln -s folder "$place/to_folder"
mkfifo "$place/pipe"
ln -s /dev/null "$place/null"
echo mine > "$place/x"
for word in '' replace; do
    for file in folder to_folder . .. / folder/ folder/. /dev/null null /dev/full pipe x/ new/; do
        kept "$file for the reference $word" "$file is not a file" 3 4 $file d $word
        kept "$file for the device $word" "$file is not a file" 3 4 d $file $word
    done
    for file in nowhere/r folder/nowhere/r nowhere/../r x/r x/../r; do
        kept "$file for the reference $word" "there is no folder for the file $file" 3 4 $file d $word
        kept "$file for the device $word" "there is no folder for the file $file" 3 4 d $file $word
    done
    kept "an empty name for the reference $word" ' is not a file' 3 4 '' d $word
    kept "an empty name for the device $word" ' is not a file' 3 4 d '' $word
done

# names of every kind
newline='
'
for file in 'a b' ' a' 'a ' -x -- - -n -e '!' '(' = '*' '?' '[a]' '$HOME' '`a`' '"' "'" '\' 'a\nb' 'a\c' 'a;b' '&' '~' \
    '#' '%s' replace lines "$(printf '\303\244')" "$(printf '\377')" "a${newline}b" "${newline}a" "$(printf 'a\tb')" \
    "$(repeat 200 x)" "$(repeat 240 x)" "$(repeat 254 x)"; do
    fresh
    written "the names $file and y" 2 "$file" y
    written "the names y and $file, replace" 2 y "$file" replace
    written "the names ${file}x and $file, replace" 3 "${file}x" "$file" replace
    fresh
    mkdir -- "$place/${file}x"
    written "in the folder ${file}x" 3 "./${file}x/r" "./${file}x/d"
done
# a newline at the end of a name is a part of it, and the file without it is another
fresh
echo mine > "$place/x"
written 'a newline at the end' 3 "x$newline" y
[ "$(cat "$place/x")" = mine ] || fails 'bound, a newline at the end: another file is replaced'
written 'a newline at the end of the other' 4 "x$newline$newline" "x$newline" replace
[ "$(cat "$place/x")" = mine ] || fails 'bound, a newline at the end of the other: another file is replaced'
fresh
mkdir "$place/x$newline"
written 'a newline at the end of a folder' 3 "x$newline/r" "x$newline/d"
kept 'a folder without the newline at its end' 'there is no folder for the file x/r' 3 4 x/r "x$newline/e"
# the longest names, of 255 bytes; of more the system has none
fresh
written 'names of 255 bytes' 2 "$(repeat 255 x)" "$(repeat 255 y)"
kept 'a name of 256 bytes' 'cannot be written' 3 4 "$(repeat 256 z)" d
kept 'a name of 256 bytes for the device' 'cannot be written' 3 4 r "$(repeat 256 z)"
kept 'a name of 5,000 bytes' 'cannot be written' 3 4 r "$(repeat 5000 z)"
# what it says of a name with a backslash is one line
echo mine > "$place/a\\nb\\c"
kept 'a backslash in a name that exists' 'the file a\nb\c exists' 3 4 'a\nb\c' d

# called by its own name, by a link, and with CDPATH; the files are those of the folder in which it is called
fresh
mkdir "$place/folder"
ln -s "$root/bench" "$place/link"
bench=$place/link
written 'by a link' 4 r d
bench=../place/link
written 'by a link, another spelling' 6 folder/r folder/d
bench=$root/bench
ends_with 0 'bound with CDPATH' env CDPATH="$place:$root" sh bench bound 3 4 "$place/folder/e" "$place/folder/f"
has_pair 'bound with CDPATH' folder/e folder/f
entries 'bound with CDPATH' 8

# no input is read, and none is needed
fresh
ends_with 0 'bound without input' sh -c './bench bound 3 4 "$1/r" "$1/d" <&-' sh "$place"
has_pair 'bound without input' r d
[ ! -s "$scratch/said" ] || fails 'bound without input: standard error has a line'
ends_with 0 'show without input' sh -c './bench show "$1/r" <&-' sh "$place"
fresh
ends_with 0 'bound, input left' sh -c '{ ./bench bound 3 4 "$1/r" "$1/d" > /dev/null; cat; } < "$2"' sh \
    "$place" "$scratch/reference"
same 'bound, input left' "$scratch/reference"
# output that cannot be written is told. A closed one is told before anything is written; of one that is full the script
# hears when both files are there
fresh
ends_with 2 'bound to a closed output' sh -c './bench bound 3 4 "$1/r" "$1/d" >&-' sh "$place"
told 'bound to a closed output' 'the output could not be written'
entries 'bound to a closed output' 0
ends_with 2 'bound to a full device' sh -c './bench bound 3 4 "$1/r" "$1/d" > /dev/full' sh "$place"
told 'bound to a full device' 'the output could not be written'
has_pair 'bound to a full device' r d
entries 'bound to a full device' 2
fresh
ends_with 2 'refused numbers to a full device' sh -c './bench bound 3 33 "$1/r" "$1/d" > /dev/full' sh "$place"
told 'refused numbers to a full device' 'the output could not be written'
entries 'refused numbers to a full device' 0
# nothing can be written, not even into the temporary folder
ends_with 2 'bound, a limit on file size' \
    sh -c 'ulimit -f 0; exec ./bench bound 3 4 "$1/r" "$1/d" > /dev/null 2> /dev/null' sh "$place"
entries 'bound, a limit on file size' 0

# ---- output that cannot be written: told, and never status 0
ends_with 2 'a full device' sh -c "./bench suite $tray/reference.sheet $tray/repaired.sheet > /dev/full"
told 'a full device' 'the output could not be written'
ends_with 2 'a closed output' sh -c "./bench suite $tray/reference.sheet $tray/repaired.sheet >&-"
told 'a closed output' 'the output could not be written'
ends_with 2 'a limit on file size' \
    sh -c "ulimit -f 1; ./bench suite $tray/reference.sheet $tray/device.sheet > '$scratch/limited'"
told 'a limit on file size' 'the output could not be written'
{
    ./bench suite $tray/reference.sheet $tray/repaired.sheet 2> "$scratch/said"
    echo $? > "$scratch/status"
} 4>&1 | :
runs=$((runs + 1))
[ "$(cat "$scratch/status")" != 1 ] || fails 'a reader that goes away: status 1'
mkfifo "$scratch/gone"
: < "$scratch/gone" &
{
    sleep 1
    ./bench suite $tray/reference.sheet $tray/repaired.sheet 2> "$scratch/said"
    echo $? > "$scratch/status"
} > "$scratch/gone"
runs=$((runs + 1))
[ "$(cat "$scratch/status")" = 2 ] || fails "a reader that went away: status $(cat "$scratch/status")"
told 'a reader that went away' 'the output could not be written'
ends_with 2 'help to a full device' sh -c './bench help > /dev/full'
# the programs themselves tell it too; their own status is always 0
cat $example/reference.sheet $example/device.sheet > "$scratch/pair"
cat "$scratch/reference" "$scratch/good" > "$scratch/keyed"
for program in compare suite show probe_list script_counts keypad_check walk bound_pair; do
    input=$scratch/pair
    word=
    case $program in
        show | probe_list) input=$example/reference.sheet ;;
        script_counts) word=3 ;;
        keypad_check) input=$scratch/keyed ;;
        walk) input=$example/reference.sheet word='1 8' ;;
        bound_pair) word='3 4 lines' ;;
    esac
    ends_with 0 "$program itself" sh -c "target/bin/$program $word < '$input' > /dev/full"
    told "$program itself" "$program: the output could not be written"
done
ends_with 2 'a walk to a full device' sh -c "./bench walk '$scratch/reference' 1 8 > /dev/full"
told 'a walk to a full device' 'the output could not be written'
for code in '' 200; do
    ends_with 2 "keypad $code to a full device" \
        sh -c "./bench keypad '$scratch/reference' '$scratch/good' $code > /dev/full"
    told "keypad $code to a full device" 'the output could not be written'
done
ends_with 2 'a live run to a full device' \
    sh -c './bench live "$1" 1 0 < "$2" > /dev/full' sh "$scratch/reference" "$scratch/passes"

# a program that is cut off before its last line, or that ends badly, is never status 0
copy() { # a copy of the script, with a crate and a stand-in for each program
    rm -rf "$scratch/copy"
    mkdir -p "$scratch/copy/crates/show" "$scratch/copy/crates/edge" "$scratch/copy/target/bin" "$scratch/copy/include"
    cp bench "$scratch/copy/"
    printf 'events:\nbase: events\nshow: base\nedge staticlib: base\n' > "$scratch/copy/crates.txt"
}
stand_in() { # PROGRAM LINE..: a program that runs these lines
    name=$1
    shift
    lines '#!/bin/sh' "$@" > "$scratch/copy/target/bin/$name"
    chmod +x "$scratch/copy/target/bin/$name"
}
copy
stand_in suite 'printf "reference 1 nodes 1 events\ndevice 1 nodes 1 events\ntest 0 passes\n"'
ends_with 2 'a suite without its last line' "$scratch/copy/bench" suite $example/reference.sheet $example/device.sheet
stand_in suite 'printf "tests 1 run 1 all pass"'
ends_with 2 'a last line that is not whole' "$scratch/copy/bench" suite $example/reference.sheet $example/device.sheet
stand_in suite 'printf "tests 1 run 1 all pass\n"; exit 3'
ends_with 2 'a program that ends badly' "$scratch/copy/bench" suite $example/reference.sheet $example/device.sheet
stand_in script_counts 'printf "scripts of 1 events 2\nwalked 2\ndevice stops 0\nreference stops 0\n"'
ends_with 2 'counts without their last line' \
    "$scratch/copy/bench" scripts $example/reference.sheet $example/device.sheet 1
# the length is handed over as it was given, as one word
stand_in script_counts 'printf "%s\n" "ends early $# ($*)"'
for length in 3 00016 '' '1 2' '*'; do
    ends_with 0 "the length '$length'" \
        "$scratch/copy/bench" scripts $example/reference.sheet $example/device.sheet "$length"
    held "the length '$length'" "ends early 1 ($length)"
done
# a walk without its last line, or with one that is not whole
stand_in walk 'printf "sheet 2 nodes 2 events\nwalked 2 of 2\n"'
ends_with 2 'a walk without its last line' "$scratch/copy/bench" walk "$scratch/reference" 1 2
stand_in walk 'printf "walked 2 of 2\ntrace 1 1"'
ends_with 2 'a walk that is not whole' "$scratch/copy/bench" walk "$scratch/reference" 1 2
stand_in walk 'printf "walked 2 of 2\ntrace 1 1\n"; exit 3'
ends_with 2 'a walk that ends badly' "$scratch/copy/bench" walk "$scratch/reference" 1 2
# both words are handed over as they were given, and the bytes of the file
stand_in walk 'printf "%s\n" "trace $# ($1) ($2) $(od -An -v -tx1 | tr -d " \n")"'
for seed in 3 00016 '' '1 2' '*'; do
    ends_with 0 "the seed '$seed'" "$scratch/copy/bench" walk "$scratch/may_loop" "$seed" 8
    held "the seed '$seed'" "trace 2 ($seed) (8) 0000000701010100010000"
    ends_with 0 "the length '$seed'" "$scratch/copy/bench" walk "$scratch/may_loop" 1 "$seed"
    held "the length '$seed'" "trace 2 (1) ($seed) 0000000701010100010000"
done
# a pair whose lines or bytes are not whole, and a program that ends badly: nothing is written
text='printf "reference 3 nodes 26 bytes\ndevice 4 nodes 27 bytes\nfirst failing test 11\n"'
whole="cat '$scratch/may_loop'"
cut="head -c 10 '$scratch/may_loop'"
# unwritten NAME LINES REFERENCE DEVICE: with a program that runs these commands for its three words
unwritten() {
    stand_in bound_pair "case \$3 in lines) $2 ;; reference) $3 ;; device) $4 ;; esac"
    fresh
    bench=$scratch/copy/bench
    bound_ends 2 "bound, $1" 3 4 r d
    entries "bound, $1" 0
    echo mine > "$place/r"
    state > "$scratch/before"
    bound_ends 2 "bound, $1, replace" 3 4 r d replace
    state > "$scratch/printed"
    same "bound, $1, replace: the folder" "$scratch/before"
    bench=$root/bench
}
unwritten 'no line' : "$whole" "$whole"
unwritten 'lines without the last' 'printf "reference 3 nodes 26 bytes\ndevice 4 nodes 27 bytes\n"' "$whole" "$whole"
unwritten 'a line of its own' 'echo "bound refused 31"' "$whole" "$whole"
unwritten 'lines that end badly' "$text; exit 3" "$whole" "$whole"
unwritten 'no bytes of the reference' "$text" : "$whole"
unwritten 'no bytes of the device' "$text" "$whole" :
unwritten 'bytes of the reference that are cut off' "$text" "$cut" "$whole"
unwritten 'bytes of the device that are cut off' "$text" "$whole" "$cut"
unwritten 'a byte too many' "$text" "$whole; echo" "$whole"
unwritten 'a reference that ends badly' "$text" "$whole; exit 3" "$whole"
unwritten 'a device that ends badly' "$text" "$whole" "$whole; exit 3"
unwritten 'a program that is killed' "$text" "$whole" "$whole; kill -KILL \$\$"
# both numbers are handed over as they were given, for each of the three words
stand_in bound_pair "printf '%s|' \"\$@\" >> '$scratch/handed'" "case \$3 in lines) $text ;; *) $whole ;; esac"
bench=$scratch/copy/bench
for word in 3 00016 '' '1 2' '*' -x; do
    fresh
    rm -f "$scratch/handed"
    bound_ends 0 "bound, the numbers '$word'" "$word" "x$word" r d
    lines "$word|x$word|lines|$word|x$word|reference|$word|x$word|device|" > "$scratch/wanted"
    { cat "$scratch/handed"; echo; } > "$scratch/printed"
    same "bound, the numbers '$word'" "$scratch/wanted"
    cmp -s "$place/r" "$scratch/may_loop" && cmp -s "$place/d" "$scratch/may_loop" ||
        fails "bound, the numbers '$word': the files have other bytes"
done
# a file that appears meanwhile stays as it is
stand_in bound_pair "case \$3 in lines) $text ;; *) $whole ;; esac; echo mine > '$place/d'"
fresh
bound_ends 2 'bound, a file that appears' 3 4 r d
told 'bound, a file that appears' "the file d $exists"
entries 'bound, a file that appears' 1
[ "$(cat "$place/d")" = mine ] || fails 'bound, a file that appears: it is replaced'
bench=$root/bench
# a folder that is full, and a file that cannot be put in its place: nothing is written, and no temporary file remains
# broken TOOL LINE..: on the path this tool runs these lines; $real is the tool itself, and at the second call $again
# is not empty
broken() {
    rm -rf "$scratch/broken"
    mkdir "$scratch/broken"
    name=$1
    shift
    lines '#!/bin/sh' "real=$(command -v "$name")" "again=; [ ! -e '$scratch/broken/once' ] || again=yes" \
        ": > '$scratch/broken/once'" "$@" > "$scratch/broken/$name"
    chmod +x "$scratch/broken/$name"
    path=$scratch/broken:$PATH
}
fresh
broken cat 'head -c 5; exit 1'
undone 'a full folder' 'the file r cannot be written, and nothing is' 3 4 r d
broken cat '[ -n "$again" ] || exec "$real" "$@"' 'head -c 5; exit 1'
undone 'a full folder for the device' 'the file d cannot be written, and nothing is' 3 4 r d
broken mv 'exit 1'
undone 'a file that cannot be put in its place' 'the file r cannot be written, and nothing is' 3 4 r d
broken mv 'kill -TERM $PPID; exit 1'
bound_ends 130 'bound, an interrupt' 3 4 r d
entries 'bound, an interrupt' 0
echo mine > "$place/r"
echo yours > "$place/d"
broken cat 'head -c 5; exit 1'
undone 'a full folder, replace' 'the file r cannot be written, and nothing is' 3 4 r d replace
broken cat '[ -n "$again" ] || exec "$real" "$@"' 'head -c 5; exit 1'
undone 'a full folder for the device, replace' 'the file d cannot be written, and nothing is' 3 4 r d replace
broken mv 'exit 1'
undone 'a file that cannot be replaced' 'the file r cannot be written, and nothing is' 3 4 r d replace
# only here one of the two is there, and it is told which
broken mv '[ -n "$again" ] || exec "$real" "$@"' 'exit 1'
bound_ends 2 'bound, a device that cannot be replaced' 3 4 r d replace
told 'bound, a device that cannot be replaced' 'the file d cannot be written; r is'
[ ! -s "$scratch/printed" ] || fails 'bound, a device that cannot be replaced: it printed a line'
cmp -s "$place/r" "$scratch/bound_reference" && [ "$(cat "$place/d")" = yours ] ||
    fails 'bound, a device that cannot be replaced: the files have other bytes'
entries 'bound, a device that cannot be replaced' 2
path=$PATH
# a table of which nothing is told, and one that is good but whose event is missing
stand_in keypad_check 'printf "sheet 2 nodes 2 events\ntable 2 rules\n"'
ends_with 2 'a table without its last line' "$scratch/copy/bench" keypad "$scratch/reference" "$scratch/good"
stand_in keypad_check 'printf "sheet 2 nodes 2 events\ntable 2 rules\ngood\n"'
ends_with 0 'a good table' "$scratch/copy/bench" keypad "$scratch/reference" "$scratch/good"
ends_with 2 'a good table without the event' "$scratch/copy/bench" keypad "$scratch/reference" "$scratch/good" 5
stand_in keypad_check 'printf "table 2 rules\ngood\ncode 5 event 0"'
ends_with 2 'an event that is not whole' "$scratch/copy/bench" keypad "$scratch/reference" "$scratch/good" 5
stand_in keypad_check 'printf "table 2 rules\ngood\ncode 5 event 0\n"; exit 3'
ends_with 2 'a lookup that ends badly' "$scratch/copy/bench" keypad "$scratch/reference" "$scratch/good" 5
# the code is handed over as it was given, as one word, and no word without one
stand_in keypad_check 'printf "%s\n" "gap $# ($*)"'
for code in 3 00016 '' '1 2' '*'; do
    ends_with 1 "the code '$code'" "$scratch/copy/bench" keypad "$scratch/reference" "$scratch/good" "$code"
    held "the code '$code'" "gap 1 ($code)"
done
ends_with 1 'no code' "$scratch/copy/bench" keypad "$scratch/reference" "$scratch/good"
held 'no code' 'gap 0 ()'
# the bytes of both files are handed over, and none where the sheet's length is wrong
stand_in keypad_check 'printf "gap %s\n" "$(od -An -v -tx1 | tr -d " \n")"'
ends_with 1 'both files' "$scratch/copy/bench" keypad "$scratch/may_loop" "$scratch/good"
held 'both files' 'gap 0000000701010100010000800000808001'
ends_with 1 'an empty table' "$scratch/copy/bench" keypad "$scratch/may_loop" "$scratch/empty"
held 'an empty table' 'gap 0000000701010100010000'
ends_with 1 'a sheet whose length is wrong' "$scratch/copy/bench" keypad "$scratch/cut" "$scratch/good"
held 'a sheet whose length is wrong' 'gap '
stand_in show 'echo "sheet 1 nodes 1 events"; kill -KILL $$'
ends_with 2 'a program that is killed' "$scratch/copy/bench" show $example/reference.sheet
stand_in show ':'
ends_with 2 'no line at all' "$scratch/copy/bench" show $example/reference.sheet

# ---- a form
ends_with 1 'a form of a device that fails' ./bench form $example/reference.sheet $example/device.sheet
sed 's/ sha256 [0-9a-f]*$/ sha256 SUM/; s/ commit .*/ commit/' "$scratch/printed" > "$scratch/form"
mv "$scratch/form" "$scratch/printed"
held 'a form of a device that fails' \
    "reference file $example/reference.sheet sha256 SUM" "device file $example/device.sheet sha256 SUM" \
    'reference codes of version 1' 'device codes of version 1' \
    'reference 2 nodes 2 events' 'device 3 nodes 2 events' 'tests 6 run 6 failed 1' \
    'violates after 5 cleared 5' 'trace 0 0 0 0 0' 'refused 2 by 1' 'program suite commit' 'program compare commit' \
    'program show commit'
ends_with 0 'a form of a device that passes' ./bench form $tray/reference.sheet $tray/repaired.sheet
grep -q '^tests 42 run 42 all pass$' "$scratch/printed" || fails 'a form of a device that passes: no all pass'
grep -q "^device file $tray/repaired.sheet sha256 $(sha256sum < $tray/repaired.sheet | sed 's/ .*//')$" \
    "$scratch/printed" || fails 'a form: the sum of the device is another'
ends_with 2 'a form of a refused device' ./bench form $example/reference.sheet "$scratch/version"
grep -q '^device refused 2$' "$scratch/printed" || fails 'a form of a refused device: its refusal is missing'
# the codes of each accepted sheet
codes_said() { # NAME LINE..: these are the lines on codes
    grep ' codes ' "$scratch/printed" > "$scratch/form"
    mv "$scratch/form" "$scratch/printed"
    held "$@"
}
codes_said 'a form of a refused device' 'reference codes of version 1'
ends_with 0 'a form with codes' ./bench form $codes/reference.sheet $codes/device.sheet
codes_said 'a form with codes' 'reference codes 101 102 103 201 304' 'device codes 101 102 103 201 304'
ends_with 2 'a form with other codes' ./bench form $codes/reference.sheet $codes/other.sheet
grep -q '^suite refused 19$' "$scratch/printed" || fails 'a form with other codes: its refusal is missing'
codes_said 'a form with other codes' 'reference codes 101 102 103 201 304' 'device codes 101 102 103 201 305'
ends_with 2 'a form of both versions' ./bench form $codes/reference.sheet $codes/version_1.sheet
codes_said 'a form of both versions' 'reference codes 101 102 103 201 304' 'device codes of version 1'
ends_with 2 'a form of a refused reference' ./bench form "$scratch/empty" $codes/device.sheet
codes_said 'a form of a refused reference' 'device codes 101 102 103 201 304'
# a build is named only by the record of that very program
copy
stand_in suite 'printf "tests 1 run 1 all pass\n"'
stand_in compare 'printf "refines cleared 1\n"'
stand_in show 'printf "sheet 1 nodes 1 events\n"'
sum=$(sha256sum < "$scratch/copy/target/bin/suite")
lines 'commit 7' 'toolchain 8' "sha256 ${sum%% *}" > "$scratch/copy/target/bin/suite.built"
lines 'commit 7' 'toolchain 8' "sha256 ${sum%% *}" > "$scratch/copy/target/bin/compare.built"
ends_with 0 'a form after a program was built anew' \
    "$scratch/copy/bench" form $example/reference.sheet $example/device.sheet
tail -n 3 "$scratch/printed" > "$scratch/last"
mv "$scratch/last" "$scratch/printed"
held 'a form after a program was built anew' 'program suite commit 7 toolchain 8' \
    'program compare commit unknown toolchain unknown' 'program show commit unknown toolchain unknown'
stand_in show 'echo "sheet 1 nodes 1 events"; kill -KILL $$'
ends_with 2 'a form where show is killed' "$scratch/copy/bench" form $example/reference.sheet $example/device.sheet
stand_in show ':'
ends_with 2 'a form where show says nothing' "$scratch/copy/bench" form $example/reference.sheet $example/device.sheet
# a name with a line in it does not make a line
cp $example/device.sheet "$scratch/x
tests 6 run 6 all pass"
ends_with 1 'a form of a file with a strange name' ./bench form $example/reference.sheet "$scratch/x
tests 6 run 6 all pass"
runs=$((runs + 1))
[ "$(grep -c '^tests ' "$scratch/printed")" = 1 ] || fails 'a form of a file with a strange name: two lines on tests'

# ---- proving and building, with a stand-in for the toolchain
copy
mkdir "$scratch/tools"
lines '#!/bin/sh' '[ "$1" = version ] && { echo "stand-in 1"; exit; }' 'mkdir -p out' 'case $1 in' 'all)' \
    '    printf "== events\nrt: events: begins with what an earlier check left\n"' \
    '    printf "== base\nfn base::wide: proved\nlogic=proved functions=1\n"' \
    "    : > '$scratch/running'" "    until [ -e '$scratch/go' ]; do sleep 0.2; done" \
    '    printf "== %s\nlogic=proved functions=2\n== summary\n3 of 3 crates ok\n" "${PWD##*/}"' '    ;;' 'run)' \
    '    printf "#!/bin/sh\necho sheet 1 nodes 1 events\n" > out/show' '    chmod +x out/show' \
    '    printf "logic=proved functions=2\nrt: running out/show\n"' '    exit 3' '    ;;' \
    'lib) : > out/libedge.a ;;' 'esac' > "$scratch/tools/rt"
chmod +x "$scratch/tools/rt"
PATH=$scratch/tools:$PATH
export PATH
# two at once: each says its own words, and both programs run
"$scratch/copy/bench" show $example/reference.sheet > "$scratch/first" 2> "$scratch/first.said" &
first=$!
soon [ -e "$scratch/running" ]
"$scratch/copy/bench" show $example/reference.sheet > "$scratch/second" 2> "$scratch/second.said" &
second=$!
soon [ -s "$scratch/second.said" ]
: > "$scratch/go"
wait "$first" || fails "two at once: the first ended with $?"
wait "$second" || fails "two at once: the second ended with $?"
cat "$scratch/first" "$scratch/second" > "$scratch/printed"
held 'two at once' 'sheet 1 nodes 1 events' 'sheet 1 nodes 1 events'
cat "$scratch/first.said" "$scratch/second.said" > "$scratch/printed"
sort -o "$scratch/printed" "$scratch/printed"
held 'two at once: what they said' 'bench: 2 of 3 proved: base' 'bench: 3 of 3 proved: show' \
    'bench: proving and building show; the first time this takes some minutes' \
    'bench: waiting for another ./bench that proves in this folder'
# an edit made while a program is proved makes it stale
rm -f "$scratch/running" "$scratch/go"
touch "$scratch/copy/crates/show/lib.rt"
"$scratch/copy/bench" show $example/reference.sheet > /dev/null 2>&1 &
first=$!
soon [ -e "$scratch/running" ]
touch "$scratch/copy/crates/show/lib.rt"
: > "$scratch/go"
wait "$first"
ends_with 0 'after an edit during the check' "$scratch/copy/bench" show $example/reference.sheet
grep -q 'proving and building show' "$scratch/said" || fails 'an edit made while a program is proved is overlooked'
ends_with 0 'and then no more' "$scratch/copy/bench" show $example/reference.sheet
runs=$((runs + 1))
[ ! -s "$scratch/said" ] || fails 'a program that is not stale is proved again'
# what was recorded
recorded() { # COMMIT: the record of the program that was built
    cp "$scratch/copy/target/bin/show.built" "$scratch/printed"
    sum=$(sha256sum < "$scratch/copy/target/bin/show")
    held 'the record of a build' "commit $1" 'toolchain stand-in 1' "sha256 ${sum%% *}"
}
recorded unknown
if command -v git > /dev/null 2>&1; then
    (
        cd "$scratch/copy" && lines target out > .gitignore && git init -q && git add . &&
            git -c user.name=bench -c user.email=bench commit -qm built
    )
    commit=$(git -C "$scratch/copy" rev-parse HEAD)
    touch "$scratch/copy/crates/show/lib.rt"
    ends_with 0 'a build from a commit' "$scratch/copy/bench" show $example/reference.sheet
    recorded "$commit"
    echo changed > "$scratch/copy/crates/show/lib.rt"
    ends_with 0 'a build from changed sources' "$scratch/copy/bench" show $example/reference.sheet
    recorded "$commit changed"
fi
ends_with 0 'the library' "$scratch/copy/bench" library
held 'the library' "library $(cd "$scratch/copy" && pwd -P)/target/staticlib/libedge.a" \
    "header $(cd "$scratch/copy" && pwd -P)/include/bench.h"
# an interrupt ends the prover and what it started
copy
lines '#!/bin/sh' '[ "$1" = version ] && exit' "sleep 77 & echo \$! > '$scratch/child'; wait" > "$scratch/tools/rt"
"$scratch/copy/bench" show $example/reference.sheet > "$scratch/printed" 2> "$scratch/said" &
first=$!
soon [ -s "$scratch/child" ]
kill -TERM "$first"
wait "$first"
status=$?
runs=$((runs + 1))
[ "$status" = 130 ] || fails "an interrupt while proving: status $status"
is_gone() {
    case $(ps -o stat= -p "$(cat "$scratch/child")" 2> /dev/null) in '' | Z*) ;; *) return 1 ;; esac
}
soon is_gone || fails 'an interrupt left something running'
[ ! -L "$scratch/copy/target/bench.lock" ] || fails 'an interrupt left its lock'
# the lock of a process that is no more holds nobody up
ln -s 999999999 "$scratch/copy/target/bench.lock"
# a prover that refuses
lines '#!/bin/sh' 'echo "rt: FAILED: show"; exit 1' > "$scratch/tools/rt"
ends_with 2 'a program that is not proved' "$scratch/copy/bench" show $example/reference.sheet
grep -q 'show was not proved' "$scratch/said" || fails 'a program that is not proved: not told'
# what is proved but not built leaves the program that is there as it was, and stale
stand_in show 'echo "sheet 9 nodes 1 events"'
touch "$scratch/copy/crates/show/lib.rt"
lines '#!/bin/sh' 'case $1 in version | all) exit ;; esac' 'mkdir -p out' 'echo half > out/show' 'exit 1' \
    > "$scratch/tools/rt"
for time in first second; do
    ends_with 2 "a program that is not built, the $time time" "$scratch/copy/bench" show $example/reference.sheet
    grep -q 'show was not proved' "$scratch/said" || fails "a program that is not built, the $time time: not told"
done
stand_in other 'echo "sheet 9 nodes 1 events"'
cmp -s "$scratch/copy/target/bin/show" "$scratch/copy/target/bin/other" ||
    fails 'a program that is not built: the one before it is gone'
# a live run is ended too
mkfifo "$scratch/silent"
exec 5<> "$scratch/silent"
: > "$scratch/printed"
"$root/bench" live "$scratch/reference" 1 0 < "$scratch/silent" > "$scratch/printed" 2> "$scratch/said" &
first=$!
soon has_lines 2
kill -TERM "$first"
wait "$first"
status=$?
exec 5>&-
runs=$((runs + 1))
[ "$status" = 130 ] || fails "an interrupt of a live run: status $status"

# ---- folders and tools that are not as they should be
copy
ln -s "$root/bench" "$scratch/link"
ends_with 0 'a symbolic link' "$scratch/link" show $example/reference.sheet
ends_with 0 'CDPATH' env CDPATH="$root/samples:$root" sh bench show $example/reference.sheet
rm -rf "$scratch/copy/target"
: > "$scratch/copy/target"
ends_with 2 'a target that is no folder' "$scratch/copy/bench" show $example/reference.sheet
told 'a target that is no folder' 'cannot be written'
# a checkout that cannot be written: root, who can write everything, tries it as another user
copy
rm -rf "$scratch/copy/target"
chmod -R a+rX "$scratch" "$scratch/copy"
chmod -R a-w "$scratch/copy"
other=
[ "$(id -u)" != 0 ] || other='setpriv --reuid 65534 --regid 65534 --clear-groups'
if [ -z "$other" ] || command -v setpriv > /dev/null 2>&1; then
    ends_with 2 'a checkout that cannot be written' $other "$scratch/copy/bench" show "$scratch/reference"
    told 'a checkout that cannot be written' 'cannot be written'
fi
chmod -R u+w "$scratch/copy"
# a pair in a folder that cannot be written: neither sheet is, and no temporary file remains in the other folder
if [ -z "$other" ] || command -v setpriv > /dev/null 2>&1; then
    copy
    cp target/bin/bound_pair "$scratch/copy/target/bin/"
    chmod -R a+rX "$scratch/copy"
    chmod a+rwx "$scratch/temporary"
    fresh
    mkdir "$place/open" "$place/shut" "$place/dark"
    echo mine > "$place/shut/x"
    echo mine > "$place/open/x"
    chmod a+rwx "$place/open"
    chmod a+rx,a-w "$place/shut"
    chmod a-rwx "$place/dark"
    bench=$scratch/copy/bench
    as=$other
    for word in '' replace; do
        kept "a folder that cannot be written $word" 'the file shut/r cannot be written' 3 4 shut/r open/d $word
        undone "the device's folder cannot be written $word" 'the file shut/d cannot be written' 3 4 open/r shut/d $word
        kept "a folder that cannot be looked into $word" 'the file dark/r cannot be written' 3 4 dark/r open/d $word
        kept "the device's cannot be looked into $word" 'the file dark/d cannot be written' 3 4 open/r dark/d $word
    done
    kept 'a file that exists there' "the file shut/x $exists" 3 4 shut/x open/d
    kept 'a file that exists there, replace' 'the file shut/x cannot be written' 3 4 shut/x open/x replace
    undone 'a device that exists there, replace' 'the file shut/x cannot be written' 3 4 open/x shut/x replace
    chmod u+rwx "$place/dark" "$place/shut"
    written 'a folder that can be written' 7 open/r open/d
    bench=$root/bench
    as=
fi
rm -f "$scratch/tools/rt"
copy
mkdir "$scratch/few"
for tool in sh cat dirname readlink rm mkdir find head ps awk sed grep mktemp touch; do
    ln -s "$(command -v "$tool")" "$scratch/few/$tool"
done
ends_with 2 'a missing tool' env PATH="$scratch/few" ./bench compare $example/reference.sheet $example/device.sheet
told 'a missing tool' 'the command od is missing'
ends_with 2 'a missing tool, keypad' env PATH="$scratch/few" ./bench keypad "$scratch/reference" "$scratch/good"
told 'a missing tool, keypad' 'the command od is missing'
fresh
ends_with 2 'a missing tool, bound' env PATH="$scratch/few" ./bench bound 3 4 "$place/r" "$place/d"
told 'a missing tool, bound' 'the command od is missing'
entries 'a missing tool, bound' 0
ends_with 2 'no toolchain' env PATH=/usr/bin:/bin "$scratch/copy/bench" show $example/reference.sheet
told 'no toolchain' 'the Rattle toolchain (the command rt) is not on the PATH'
cp target/bin/show "$scratch/copy/target/bin/"
ends_with 0 'built, without the toolchain' env PATH=/usr/bin:/bin "$scratch/copy/bench" show $example/reference.sheet

ends
