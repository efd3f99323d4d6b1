#!/bin/sh
# Tries wrong ways of running lanes, most of which prove: bench/wrong-workers.sh [--jobs N] [NAME..]
# wrong-workers.py says what they are, and what must come of them. It needs rt and Python 3, and takes
# a minute and a half of processor time for each. No part of the checks.
exec python3 "$(dirname "$0")/wrong-workers.py" "$@"
