#!/bin/sh
# The model's own tests: the cases of the papers, the samples, and its definitions held against literal ones.
set -eu
cd "$(dirname "$0")/.."
. tests/shared

cargo_here

for package in model model/against; do
    if cargo fmt --version > /dev/null 2>&1; then
        echo "model: the layout of $package"
        cargo fmt --check --manifest-path "$package/Cargo.toml"
    else
        echo "model: cargo fmt is not installed; the layout of $package is not looked at"
    fi
done

echo "model: its tests"
cargo test --release --offline --locked --quiet --manifest-path model/Cargo.toml
echo "model: ok"
