#!/usr/bin/env bash
# How long a server takes to read 65,536 names of mailboxes and to look at them, until it knows which one can't be used
# and its line:
#   many    one more, and so one too many
#   bad     the last is no name
#   twice   the last stands twice, 65,535 lines after the first
# Prints the least of RUNS times of each (5 if it isn't set), and fails where one is more than 0.2 seconds.
# usage: bench/names.sh [--build | --try]: with a word it only makes its program, proved or unproved (bench/program)
set -euo pipefail
cd "$(dirname "$0")/.."
. tests/needs python3
. bench/program
make_program box_lists names "mail_world lmtpd_words lmtpd_setup anyhow" "${1:-}"

python3 -B - out/box_lists "${RUNS:-5}" <<'PYTHON'
import sys

from turns import best, run

PROGRAM, RUNS = sys.argv[1], int(sys.argv[2])
MOST = 0.2

runs = [run(PROGRAM) for _ in range(RUNS)]
slow = False
for name in ["many", "bad", "twice"]:
    seconds = best(runs, name) / 1_000_000
    print(f"{name}: {seconds:.3f} s (at most {MOST})")
    slow = slow or seconds > MOST
sys.exit(1 if slow else 0)
PYTHON
