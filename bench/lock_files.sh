#!/usr/bin/env bash
# What a mailbox's lock file costs for each letter: one that is made and written, and one that is linked from a file
# that stays, as the server does it; both with what is looked at and removed, in microseconds, medians of five rounds.
# The files are in a folder of mktemp, so TMPDIR says on which disk.
# usage: bench/lock_files.sh --build or --try, which only builds, or bench/lock_files.sh
set -euo pipefail
cd "$(dirname "$0")/.."
. tests/needs cc rustc
folder=$(mktemp -d)
trap 'rm -rf "$folder"' EXIT
rustc -O -o "$folder/pairs" bench/lock_files/pairs.rs
case "${1:-}" in --build | --try) exit 0 ;; esac
"$folder/pairs" "$folder"
