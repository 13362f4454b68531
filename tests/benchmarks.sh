#!/usr/bin/env bash
# Each benchmark's program compiles against the crates as they stand, so that none is left behind. They are compiled
# side by side, with checks and unproved (`bench/program`); `make benchmarks` proves and builds them. One that leaves
# something out says so.
set -uo pipefail
cd "$(dirname "$0")/.."
. tests/needs cc rustc
status=0
declare -A running
for script in bench/*.sh; do
    "$script" --try < /dev/null &
    running[$script]=$!
done
for script in "${!running[@]}"; do
    wait "${running[$script]}"
    case $? in
    0) echo "ok: $script" ;;
    77) [ "$status" = 1 ] || status=77 ;;
    *) status=1 && echo "FAILED: $script" ;;
    esac
done
exit $status
