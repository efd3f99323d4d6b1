#!/bin/sh
# Refuses the program memory wherever it asks for some, and a thread wherever it makes one:
# bench/faults.sh [PROGRAM]. faults.py says what must come of that. It needs cc, glibc and Python 3,
# and takes about a minute. No part of the gate.
set -eu
top=$(cd "$(dirname "$0")/.." && pwd)
program=${1:-$top/crates/credtrace/out/credtrace}
dir=$(mktemp -d)
trap 'rm -rf "$dir"' EXIT
cc -O2 -Wall -Wextra -Werror -shared -fPIC -o "$dir/faults.so" "$top/bench/faults.c"
python3 "$top/bench/faults.py" "$program" "$dir"
