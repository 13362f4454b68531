#!/usr/bin/env bash
# Heads whose marks are renamed, on the program as it is built (`rehearse --rename-marks`): the worked examples, and
# random heads beside a reading of the definition in Python that was written from its text. What is stored is what that
# reading says, byte for byte, wherever a mark lies in the lane's reads, and undone in Python it is the message again.
# Without the word heads stay. It prints one line a case, and fails where a case does. LMTPD names a program that is
# built already.
# usage: tests/marks.sh [MESSAGES [SEED]]: 20,000 messages and the seed 1 without the words
set -euo pipefail
cd "$(dirname "$0")/.."
. tests/needs python3
. tests/built_program
exec python3 -B tests/marks/run.py "${1:-20000}" "${2:-1}"
