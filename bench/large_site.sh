#!/usr/bin/env bash
# A server of 65,536 mailboxes beside one of 256, with 4 lanes: what it takes to start, in seconds and in KiB resident,
# how many first letters of 2 KiB a second 4 connections bring to all mailboxes, and what is resident after that; then,
# side by side in rounds that take turns, how many letters a second 4 connections bring to 40 mailboxes of each; and that
# each mailbox has just its letters. Over loopback, in a folder of mktemp, so TMPDIR says on which disk. LMTPD names a
# program that is built already.
# usage: bench/large_site.sh --build or --try, which only builds, and here does nothing, or
#        bench/large_site.sh [MAILBOXES ..]: 256 65536 without numbers
set -euo pipefail
cd "$(dirname "$0")/.."
. tests/needs python3
# nothing of it is built
case "${1:-}" in --build | --try) exit 0 ;; esac
. tests/built_program
PYTHONPATH=$PYTHONPATH:$PWD/tests/serve exec python3 -B bench/large_site.py "$@"
