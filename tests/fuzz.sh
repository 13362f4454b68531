#!/usr/bin/env bash
# Random conversations against `rehearse` as it is built: made by the grammar, and then broken (bytes dropped, doubled,
# put in or changed, bare CR and LF, cut off anywhere), in any pieces. Each ends with status 0 and says nothing on
# standard error, each reply is one of those that there are, and every letter that was told Stored is read back as often
# by `git mailsplit --mboxrd` and Python's `mailbox`. A case is made of the seed and its number alone; one that fails is
# printed. LMTPD names a program that is built already.
# usage: tests/fuzz.sh [CASES [SEED]]: 10,000 cases and the seed 1 without the words
set -euo pipefail
cd "$(dirname "$0")/.."
. tests/needs git python3
. tests/built_program
exec python3 -B tests/fuzz/run.py "${1:-10000}" "${2:-1}"
