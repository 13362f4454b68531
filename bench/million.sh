#!/usr/bin/env bash
# A million letters and more to a server of 65,536 mailboxes, 16 for each, in messages of 64 recipients by 4 connections,
# each a process of its own: a copy that is put off (450, 451) is sent again, as by a relay, and at last each mailbox has
# just its letters, each once. How many letters a second, and what is resident of the server before the first and after
# the last. Over loopback; the mailboxes lie in a folder of mktemp, so TMPDIR says on which disk. LMTPD names a program
# that is built already. SECONDS_AT_MOST ends it before the million, with all that was sent looked at.
# usage: bench/million.sh --build or --try, which only builds, and here does nothing, or
#        bench/million.sh [LETTERS_EACH [MAILBOXES]]: 16 65536 without numbers
set -euo pipefail
cd "$(dirname "$0")/.."
. tests/needs python3
# nothing of it is built
case "${1:-}" in --build | --try) exit 0 ;; esac
. tests/built_program
PYTHONPATH=$PYTHONPATH:$PWD/tests/serve exec python3 -B bench/million.py "$@"
