#!/usr/bin/env bash
# The worked examples on the program as it is built: each run's words, input, every byte of its output, and its status
# (tests/runs/rows.py); short ones byte by byte too. Among them what looks like the end of the data and isn't. It prints
# one line a run, and fails where a run does. LMTPD names a program that is built already.
set -euo pipefail
cd "$(dirname "$0")/.."
. tests/needs python3
. tests/built_program
exec python3 -B tests/runs/run.py
