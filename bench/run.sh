#!/bin/bash
# Times the busy image by z80ex and, once it is built, by the card (crates/busy/out/busy, which reads the number of steps on
# standard input). User time in seconds. Usage: bench/run.sh [STEPS]
#
#   apt-get install build-essential libz80ex-dev
set -eu
cd "$(dirname "$0")/.."
steps=${1:-50000000}
work=$(mktemp -d)
trap 'rm -rf "$work"' EXIT
cc -O3 -Wall -Wextra -o "$work/z80ex-run" bench/z80ex-run.c -lz80ex
TIMEFORMAT="user %U s"

echo "z80ex:"
time "$work/z80ex-run" "$steps" <bench/image.hex

if [ -x crates/busy/out/busy ]; then
    echo "card:"
    time crates/busy/out/busy <<<"$steps"
else
    echo "card: crates/busy/out/busy is not built"
fi
