#!/usr/bin/env bash
# What a script leaves out is counted, and with CI=true it fails where tests/may_be_absent doesn't take it: made-up
# scripts in a gate of their own (tests/gate.sh --scripts), and what CI installs before (.ci/install), over an apt-get
# that is made up too. It prints one line a case, and fails where a case does.
set -euo pipefail
cd "$(dirname "$0")/.."
. tests/needs python3
PYTHONPATH=tests exec python3 -B tests/left_out/run.py
