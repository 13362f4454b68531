#!/usr/bin/env bash
# What a mailbox more costs a server that waits: of a server of 65,536 mailboxes of a file less one of 256, by mailbox,
# what is resident, the least of five starts, and the bytes that it asked malloc for and has, without and with malloc's
# own (bench/mailbox_memory/live.c, preloaded). At most 1,024 bytes are asked for. LMTPD names a program that is built
# already.
# usage: bench/mailbox_memory.sh --build or --try, which only builds, or bench/mailbox_memory.sh [MAILBOXES [FEW]]
set -euo pipefail
cd "$(dirname "$0")/.."
. tests/needs cc python3
case "${1:-}" in --try) ;; *) . tests/built_program ;; esac
folder=$(mktemp -d)
trap 'rm -rf "$folder"' EXIT
cc -O2 -shared -fPIC -Wall -o "$folder/live.so" bench/mailbox_memory/live.c
case "${1:-}" in --build | --try) exit 0 ;; esac
PYTHONPATH=$PYTHONPATH:$PWD/tests/serve python3 -B bench/mailbox_memory/measure.py "$folder" "$@"
