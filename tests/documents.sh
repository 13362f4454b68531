#!/usr/bin/env bash
# What the documents cite is there: names, files and cases; docs/RULES.md has a row for each function that a crate hands
# on (tests/documents/run.py). It prints one line a case.
set -euo pipefail
cd "$(dirname "$0")/.."
. tests/needs git python3
PYTHONPATH=tests exec python3 -B tests/documents/run.py
