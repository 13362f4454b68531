#!/usr/bin/env bash
# How a wrong body's verdict is judged (tests/wrong_bodies/told.py), by verdicts of the prover that were recorded on
# functions as they were then (tests/told): an edit that changes nothing, a local with another name, a loosened ghost,
# and wrong bodies. It prints one line a case, and fails where a case does.
set -euo pipefail
cd "$(dirname "$0")/.."
. tests/needs python3
PYTHONPATH=tests:tests/wrong_bodies exec python3 -B tests/told/run.py
