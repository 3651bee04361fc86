#!/bin/sh
# Runs the program `compare` and holds what it prints to 01's section "The program `compare`" and to 02's K1: every kind
# of line, both versions, the split of the input, the cut at 4,096 bytes, and input that arrives in pieces.
set -u
cd "$(dirname "$0")/.." || exit 1
. tests/shared
built compare
begins
one='reference 1 nodes 1 events'

input $reference $device
prints "01's example" 'reference 2 nodes 2 events' 'device 3 nodes 2 events' \
    'violates after 5 cleared 5' 'trace 0 0 0 0 0' 'refused 2 by 1'

# refines
input $may_loop $stopped
prints 'refines' "$one" 'device 1 nodes 1 events' 'refines cleared 1'
input $reference $reference
prints 'a sheet against itself' 'reference 2 nodes 2 events' 'device 2 nodes 2 events' 'refines cleared 2'

# a violation at the start: an empty trace
input $only_zero $only_one
prints 'a stray at the start' 'reference 1 nodes 2 events' 'device 1 nodes 2 events' \
    'violates after 0 cleared 0' 'trace' 'stray 1'
input $must_loop $stopped
prints 'a refusal at the start' "$one" 'device 1 nodes 1 events' 'violates after 0 cleared 0' 'trace' 'refused 1 by 0'

# a stray after a trace
input 00 00 00 0D 01 02 02 01 FF 01 00 01 00 FF 01 00 01 00 00 00 0D 01 02 02 01 FF 01 00 01 FF 00 01 00 02
prints 'a stray after a trace' 'reference 2 nodes 2 events' 'device 2 nodes 2 events' \
    'violates after 1 cleared 1' 'trace 0' 'stray 1'

# numbers of more than one digit: 12 events; event 11 leads to a node that may stop, where the device does event 10
none='FF FF FF FF FF FF FF FF FF FF'
input 00 00 00 21 01 0C 02 $none FF 01 01 08 00 $none FF FF 01 00 00 \
    00 00 00 21 01 0C 02 $none FF 01 01 08 00 $none 01 FF 01 04 00
prints 'events of two digits' 'reference 2 nodes 12 events' 'device 2 nodes 12 events' \
    'violates after 1 cleared 1' 'trace 11' 'stray 10'
input 00 00 00 12 01 0C 01 $none 00 00 01 08 00 00 00 00 12 01 0C 01 $none 00 00 01 04 00
prints 'sets of four digits' 'reference 1 nodes 12 events' 'device 1 nodes 12 events' \
    'violates after 0 cleared 0' 'trace' 'refused 2048 by 1024'

# a violation after 991 events
late_sheets > "$scratch/input"
prints 'a long trace' 'reference 32 nodes 2 events' 'device 31 nodes 2 events' \
    'violates after 991 cleared 991' "trace$(repeat 991 ' 0')" 'stray 1'

# all 1,024 pairs
full_sheets > "$scratch/input"
prints 'all pairs' 'reference 32 nodes 2 events' 'device 32 nodes 2 events' 'refines cleared 1024'

# each refusal of a sheet, as the reference and as the device; a bad reference hides the device
refused_either() { # NUMBER HEX..: these bytes are refused with the number, as the reference and as the device
    number=$1
    shift
    input "$@" $stopped
    prints "reference refused $number: $*" "reference refused $number"
    input "$@" 00
    prints "reference refused $number, and a bad device: $*" "reference refused $number"
    input $may_loop "$@"
    prints "device refused $number: $*" "$one" "device refused $number"
}
refused_either 1 00 00 00 02 01 01
refused_either 2 00 00 00 07 00 00 00 00 00 00 00
refused_either 2 00 00 00 07 03 01 01 00 01 00 00
refused_either 2 00 00 00 07 FF 01 01 00 01 00 00
refused_either 3 00 00 00 07 01 00 01 00 01 00 00
refused_either 3 00 00 00 07 01 0D 01 00 01 00 00
refused_either 3 00 00 00 07 01 01 00 00 01 00 00
refused_either 3 00 00 00 07 01 01 21 00 01 00 00
refused_either 4 00 00 00 05 01 01 01 00 01
refused_either 4 00 00 00 08 01 01 01 00 01 00 00 00
refused_either 5 00 00 00 05 01 01 01 00 00
refused_either 5 00 00 00 05 01 01 01 00 11
refused_either 6 00 00 00 07 01 01 01 01 01 00 01
refused_either 7 00 00 00 07 01 01 01 FF 01 00 01
refused_either 8 00 00 00 0B 01 01 02 00 01 00 01 00 01 00 01

# the same of version 2: its codes are looked at after E and N and before the nodes
refused_either 3 00 00 00 03 02 00 01
refused_either 3 00 00 00 03 02 0D 01
refused_either 4 00 00 00 03 02 01 01
refused_either 4 00 00 00 06 02 02 01 00 07 00
refused_either 4 00 00 00 08 02 03 01 00 07 00 07 00
refused_either 4 00 00 00 07 02 02 01 00 07 00 08
refused_either 4 00 00 00 0A 02 01 01 00 07 00 01 00 00 00
refused_either 5 00 00 00 07 02 01 01 00 01 00 00
refused_either 5 00 00 00 0A 02 02 01 00 07 00 08 00 00 00
refused_either 18 00 00 00 07 02 02 01 00 07 00 07
refused_either 18 00 00 00 0A 02 02 01 00 07 00 07 00 00 00
refused_either 18 00 00 00 0C 02 02 01 00 00 00 00 00 00 01 00 03
refused_either 18 00 00 00 0F 02 03 01 00 07 00 08 00 07 00 00 00 01 00 00
refused_either 18 00 00 00 0F 02 03 01 00 07 00 08 00 08 00 00 00 01 00 00
refused_either 6 00 00 00 09 02 01 01 00 07 01 01 00 01
refused_either 7 00 00 00 09 02 01 01 00 07 FF 01 00 01
refused_either 8 00 00 00 0D 02 01 02 00 07 00 01 00 01 00 01 00 01

# unequal E
input $may_loop $only_one
prints 'unequal E' "$one" 'device 1 nodes 2 events' 'comparison refused 11'

# codes: the same for each event, or 19
two='reference 2 nodes 2 events'
three='device 3 nodes 2 events'
input $coded_reference $coded_device
prints 'both of version 2' "$two" "$three" 'violates after 5 cleared 5' 'trace 0 0 0 0 0' 'refused 2 by 1'
input $reference $plain_device
prints 'version 1 and version 2' "$two" "$three" 'violates after 5 cleared 5' 'trace 0 0 0 0 0' 'refused 2 by 1'
input $plain_device $device
prints 'version 2 and version 1' 'reference 3 nodes 2 events' "$three" 'refines cleared 3'
input $coded_reference $device
prints 'version 2 and version 1, other codes' "$two" "$three" 'comparison refused 19'
input $reference $coded_device
prints 'version 1 and version 2, other codes' "$two" "$three" 'comparison refused 19'
input $coded_reference $turned_device
prints 'the same codes for other events' "$two" "$three" 'comparison refused 19'
input $coded_reference 00 00 00 0C 02 02 01 01 03 01 02 00 00 01 00 03
prints 'another code for the first event' "$two" 'device 1 nodes 2 events' 'comparison refused 19'
input $coded_reference 00 00 00 0C 02 02 01 01 01 01 03 00 00 01 00 03
prints 'another code for the last event' "$two" 'device 1 nodes 2 events' 'comparison refused 19'
input $coded_reference 00 00 00 0C 02 02 01 01 01 02 02 00 00 01 00 03
prints 'another higher byte' "$two" 'device 1 nodes 2 events' 'comparison refused 19'
input $coded_reference 00 00 00 0C 02 02 01 01 01 01 02 00 00 01 00 03
prints 'the same codes, one node' "$two" 'device 1 nodes 2 events' 'refines cleared 2'
input $coded_reference $stopped
prints 'unequal E and unequal codes' "$two" 'device 1 nodes 1 events' 'comparison refused 11'
# codes may be any numbers of two bytes, 0 too
input 00 00 00 0C 02 02 01 FF FF 00 00 00 00 01 00 03 00 00 00 0C 02 02 01 FF FF 00 00 00 00 01 00 03
prints 'codes 65,535 and 0' 'reference 1 nodes 2 events' 'device 1 nodes 2 events' 'refines cleared 1'

# the largest sheets, and one byte more
{ largest_sheet 05 BB; largest_sheet 05 BB; } > "$scratch/input"
prints 'two sheets of 1,471 bytes' 'reference 32 nodes 12 events' 'device 32 nodes 12 events' 'refines cleared 32'
{ largest_sheet 05 BC; bytes 00; } > "$scratch/input"
prints 'a sheet of 1,472 bytes' 'reference refused 4'

# under 4 bytes
: > "$scratch/input"
prints 'no byte' 'reference refused 1'
input 00
prints 'one byte' 'reference refused 1'
input 00 00 00
prints 'three bytes' 'reference refused 1'
input 00 00 00 00
prints 'four bytes' 'reference refused 1'

# a first length field that is too long, by one and by far: all of it is the first sheet
input 00 00 00 08 01 01 01 00 01 00 00
prints 'a field one too long' 'reference refused 1'
input FF FF FF FF 01 01 01 00 01 00 00 $stopped
prints 'a field far too long' 'reference refused 1'
# one too short: the first sheet ends inside a node
input 00 00 00 06 01 01 01 00 01 00 00
prints 'a field one too short' 'reference refused 4'

# an empty second sheet, one that is cut off, and a byte after it
input $may_loop
prints 'no second sheet' "$one" 'device refused 1'
input $may_loop 00 00 00 07 01 01 01 FF 01 00
prints 'a second sheet cut off' "$one" 'device refused 1'
input $may_loop $stopped 00
prints 'a byte after the second sheet' "$one" 'device refused 1'

# over 4,096 bytes: later ones count as absent. A first sheet that ends with the last byte read (its version is 0), and
# one byte later
{ bytes 00 00 0F FC; zeros 4996; } > "$scratch/input"
prints 'a first sheet of 4,096 bytes' 'reference refused 2'
{ bytes 00 00 0F FD; zeros 4996; } > "$scratch/input"
prints 'a first sheet of 4,097 bytes' 'reference refused 1'
# a second sheet that is as long as its field says only because the rest counts as absent (its version is 0)
{ bytes $may_loop 00 00 0F F1; zeros 4985; } > "$scratch/input"
prints 'a second sheet up to byte 4,096' "$one" 'device refused 2'
{ bytes $may_loop 00 00 0F F2; zeros 4985; } > "$scratch/input"
prints 'a second sheet up to byte 4,097' "$one" 'device refused 1'
{ bytes $reference $device; zeros 4959; } > "$scratch/input"
prints 'many bytes after the second sheet' 'reference 2 nodes 2 events' 'device refused 1'

# input that arrives in pieces
{
    bytes 00 00
    sleep 1
    bytes 00 0F 01 02 02 01 01 02 00 01 00 02
    sleep 1
    bytes 00 00 01 00 03 00 00 00 12
    sleep 1
    bytes 01 02 03 01 01 01 00 03 02 02 01 00 03 00 FF 01 00
    sleep 1
    bytes 01
} | "$program" > "$scratch/printed"
held 'in pieces' 'reference 2 nodes 2 events' 'device 3 nodes 2 events' \
    'violates after 5 cleared 5' 'trace 0 0 0 0 0' 'refused 2 by 1'
{
    bytes 00 00 0F FC
    sleep 1
    zeros 3000
    sleep 1
    zeros 1500
} | "$program" > "$scratch/printed"
held 'in pieces, over 4,096 bytes' 'reference refused 2'

ends
