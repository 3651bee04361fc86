#!/bin/sh
# The benchmark (model/speed.sh) is built, and both of its sides give the same answers. No time is measured here.
set -eu
cd "$(dirname "$0")/.."

echo "speed: both sides"
sh model/speed.sh --check
echo "speed: ok"
