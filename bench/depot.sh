#!/usr/bin/env bash
# How the shared depot does under several threads, against plain Rust (bench/depot/loops.rs, by `rustc -O`):
#   read    one sealed message of 16 KiB, read whole in pieces of 512 bytes by 1, 2 and 4 threads through holds of their
#           own; beside it the same bytes in a Vec under a Mutex
#   holds   holds cut off and given up again by 1, 2 and 4 threads, each on messages of its own with 100 holds, and each
#           of these messages begun, sealed and reclaimed; beside it clones and drops of an Arc, a new one each 100
# Prints the best of RUNS runs of each (9 if it isn't set): MB/s and how it grows over one thread, turns a second, and
# the peer's time over ours. Fails where the counts differ. Both run by turns, so that a ratio means something on a
# machine that does other work.
# usage: bench/depot.sh [--build | --try]: with a word it only makes its programs, proved or unproved (bench/program)
set -euo pipefail
cd "$(dirname "$0")/.."
. tests/needs cc rustc python3
. bench/program
make_program depot_bench depot "mail_world msg_depot anyhow" "${1:-}"

python3 -B - out/depot_bench "$folder/loops" "${RUNS:-9}" <<'PYTHON'
import sys

from turns import best, by_turns

OURS, PEER, RUNS = sys.argv[1], sys.argv[2], int(sys.argv[3])
THREADS = ["1", "2", "4"]

ours, peer = by_turns([OURS, PEER], RUNS, words=2)

for name, unit in [("read", "MB/s"), ("holds", "M turns/s")]:
    for threads in THREADS:
        key = f"{name} {threads}"
        counts = ours[0][key][1]
        if peer[0][key][1] != counts:
            sys.exit(f"{name} by {threads}: {counts}, and the peer has {peer[0][key][1]}")
        count = int(counts.split("=")[1])
        us, them = best(ours, key), best(peer, key)
        first = best(ours, f"{name} 1") * int(threads) / us
        ours_said = f"{count / us:.1f} {unit}, {first:.2f} of one thread's"
        peer_said = f"peer {count / them:.1f}, ratio {them / us:.2f}"
        print(f"{name} by {threads}: {ours_said}, {peer_said}")
PYTHON
