#!/usr/bin/env bash
# How long the arena takes for 64 MiB in pieces of 512 bytes, beside `memcpy` of the same (std's `copy_from_slice`):
#   put       `Arena::put` of every piece, into drafts of 1 MiB
#   copy_on   `Arena::copy_on` of every piece of the sealed messages
# and how long it takes for the pieces of one sealed message of 128 MiB, beside the same of one holder:
#   by 4      4 holders that take turns, each at a place of its own
#   by 16     16 of them
# and a byte of it by one holder beside a byte of a message of 64 MiB.
# Prints the median of RUNS times of each (5 if it isn't set), and the ratios. Fails where one of put or copy_on is
# above 3.0, or another above 1.3.
# usage: bench/arena.sh [--build | --try]: with a word it only makes its programs, proved or unproved (bench/program)
set -euo pipefail
cd "$(dirname "$0")/.."
. tests/needs python3
. bench/program
make_program arena arena "mail_world block_arena anyhow" "${1:-}"

python3 -B - out/arena "${RUNS:-5}" <<'PYTHON'
import statistics
import sys

from turns import run

PROGRAM, RUNS = sys.argv[1], int(sys.argv[2])

runs = [run(PROGRAM) for _ in range(RUNS)]
took = {name: statistics.median(one[name][0] for one in runs) / 1_000_000 for name in runs[0]}
took["twice 64 MiB"] = 2 * took["half_by_1"]

slow = False
for name, beside, most in [
    ("put", "memcpy", 3.0),
    ("copy_on", "memcpy", 3.0),
    ("by_4", "by_1", 1.3),
    ("by_16", "by_1", 1.3),
    ("by_1", "twice 64 MiB", 1.3),
]:
    ratio = took[name] / took[beside]
    print(f"{name}: {took[name]:.4f} s, {beside} {took[beside]:.4f} s, ratio {ratio:.2f} (at most {most})")
    slow = slow or ratio > most
sys.exit(1 if slow else 0)
PYTHON
