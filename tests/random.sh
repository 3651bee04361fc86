#!/bin/sh
# The model against the proved library, and against the programs, on random inputs.
#
#     tests/random.sh [PART] [SEED [COUNT [FIRST]]]
#
# With a PART only the parts whose names begin with it are played.
set -eu
cd "$(dirname "$0")/.."
. tests/shared

sh tests/archive
sh tests/programs

echo "random: building the comparison"
cargo_here
cargo build --release --offline --locked --quiet --manifest-path model/against/Cargo.toml

status=0
model/target/release/against "$@" || status=$?
if [ "$status" -gt 128 ]; then
    echo "random: a call ended the program by signal $((status - 128)); smaller COUNTs lead to its round"
fi
[ "$status" = 0 ] || exit "$status"
echo "random: ok"
