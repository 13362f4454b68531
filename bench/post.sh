#!/usr/bin/env bash
# How fast copies and slips go through the channels between lanes and workers, beside std::sync::mpsc::sync_channel
# doing the same with an Arc of the message in a hold's place (bench/post/channels.rs, by `rustc -O`):
#   posts L   copies of sealed messages, 100 of each, from 1, 2 and 4 lane threads to one receiver, at capacity 16: how
#             many a second. A lane seals each message, splits a hold off for each copy and offers it with an envelope
#             of its own; the receiver releases each hold, and gives the blocks back after a message's last one
#   trips     such a copy to a worker's thread, which releases it, and its slip back: microseconds a trip
# Prints the best of RUNS times of each (9 if it isn't set) and std's time over ours. Fails where the counts differ.
# Both run by turns, so that a ratio means something on a machine that does other work.
# usage: bench/post.sh [--build | --try]: with a word it only makes its programs, proved or unproved (bench/program)
set -euo pipefail
cd "$(dirname "$0")/.."
. tests/needs cc rustc python3
. bench/program
make_program post post "mail_world mbox_record msg_depot mail_post anyhow" "${1:-}"

python3 -B - out/post "$folder/channels" "${RUNS:-9}" <<'PYTHON'
import sys

from turns import best, by_turns

OURS, STD, RUNS = sys.argv[1], sys.argv[2], int(sys.argv[3])

ours, std = by_turns([OURS, STD], RUNS)

for name, (_, counts) in ours[0].items():
    if counts != std[0][name][1]:
        sys.exit(f"{name}: {counts}, and std's has {std[0][name][1]}")
    number = int(counts.split(" ")[0].split("=")[1])
    us, theirs = best(ours, name), best(std, name)
    if name == "trips":
        print(f"{name}: {us / number:.2f} microseconds, std {theirs / number:.2f}, ratio {theirs / us:.2f}")
    else:
        print(f"{name}: {number / us * 1e6:,.0f} a second, std {number / theirs * 1e6:,.0f}, ratio {theirs / us:.2f}")
PYTHON
