#!/bin/sh
# Makes crates/check_vectors/stdin anew and checks it. The file is kept, so checking the crates needs none of this.
#
#   apt-get install build-essential libz80ex-dev sdcc-ucsim python3      (Debian 12; z80ex 1.1.21, ucsim 0.6.4)
#   tools/vectors/make.sh
set -eu
cd "$(dirname "$0")"
work=$(mktemp -d)
trap 'rm -rf "$work"' EXIT
export PYTHONDONTWRITEBYTECODE=1
cc -O2 -Wall -Wextra -o "$work/z80ex-step" z80ex-step.c -lz80ex
python3 make.py "$work/z80ex-step" >"$work/vectors"
python3 check.py "$work/vectors"
python3 check-hand.py "$work/z80ex-step" "$work/vectors"
cp "$work/vectors" ../../crates/check_vectors/stdin
