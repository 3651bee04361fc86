#!/bin/sh
# The speed of each call of the proved library against plain Rust over flat tables, on its worst case, in one run: a
# table of ratios and the growth over p q. It prints and judges no time; times depend on the machine. With --check
# nothing is measured: both sides only answer, and a difference is an error.
#
#     model/speed.sh [--check]
set -eu
cd "$(dirname "$0")/.."
. tests/shared

sh tests/archive

cargo_here
cargo build --profile speed --bin speed --offline --locked --quiet --manifest-path model/against/Cargo.toml
exec model/target/speed/speed "$@"
