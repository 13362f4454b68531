#!/usr/bin/env bash
# How fast 64 MiB of mail go through the parts of the server that see each byte, against a plain loop over bytes
# that does the same work (bench/streams/loops.rs, by `rustc -O`):
#   lines    `Wire::command`, in pieces of 4,096 bytes
#   data     `Dot::feed`, in pieces of 4,096 bytes
#   record   `RecordWriter::piece`, in pieces of 512 bytes, to a spool that only counts; and small letters that are all
#            head, the worst for a site that has marks renamed, at such a site and at another
# Prints the best of RUNS times of each (9 if it isn't set) and the loop's time over ours, and the appends that a piece
# of a record makes. Fails where the counts differ or a ratio is below 1.0.
# Both run by turns, so that a ratio means something on a machine that does other work.
# usage: bench/streams.sh [--build | --try]: with a word it only makes its programs, proved or unproved (bench/program)
set -euo pipefail
cd "$(dirname "$0")/.."
. tests/needs cc rustc python3
. bench/program
make_program streams streams "mail_world lmtp_wire lmtp_text mbox_spool mbox_record anyhow" "${1:-}"

python3 -B - out/streams "$folder/loops" "${RUNS:-9}" <<'PYTHON'
import sys

from turns import best, by_turns

OURS, LOOPS, RUNS = sys.argv[1], sys.argv[2], int(sys.argv[3])

ours, loops = by_turns([OURS, LOOPS], RUNS)

slow = False
for name in ["lines", "data", "record"]:
    if ours[0][name][1] != loops[0][name][1]:
        sys.exit(f"{name}: {ours[0][name][1]}, and the loop has {loops[0][name][1]}")
    us, loop = best(ours, name) / 1_000_000, best(loops, name) / 1_000_000
    print(f"{name}: {us:.4f} s, loop {loop:.4f} s, ratio {loop / us:.2f} (at least 1.0)")
    slow = slow or loop < us

small, renamed = best(ours, "letters"), best(ours, "renamed")
print(f"letters of 2 KiB that are all head: {small / renamed:.2f} of it with marks renamed")
appends, pieces = ours[0]["calls"]
print(f"record: {appends / int(pieces.removeprefix('pieces=')):.2f} appends a piece")
sys.exit(1 if slow else 0)
PYTHON
