#!/usr/bin/env bash
# How large messages go, byte for byte beside small ones. `serve`, its mailboxes on a file system in memory: messages of
# 1 MiB and of 64 MiB, to one mailbox and to ten. `rehearse`: one message of 64 MiB and one of 256 MiB. In each round
# all of these in turn; it prints the medians and their ratios, and fails where 64 MiB take more than 1.3 times 64 times
# what 1 MiB takes, 256 MiB more than 5 times what 64 MiB take, or a rehearsal more memory than 3 times its message.
# LMTPD names a program that is built already.
# usage: bench/large_messages.sh --build or --try, which only builds, or bench/large_messages.sh [ROUNDS], 5 without it
set -euo pipefail
cd "$(dirname "$0")/.."
. tests/needs cc rustc python3
folder=$(mktemp -d -p /dev/shm)
trap 'rm -rf "$folder"' EXIT
rustc -O -o "$folder/load" bench/serve/load.rs
case "${1:-}" in --build | --try) exit 0 ;; esac
[ "${1:-}" = --try ] || . tests/built_program
exec python3 -B bench/large_messages/rounds.py "$folder" "${1:-5}"
