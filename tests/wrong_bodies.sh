#!/usr/bin/env bash
# Each wrong body still applies: those of the crates' folders must-fail, which `rt ci` tries, and must-fail-at-once
# (tests/refused_at_once.sh), and the further ones of tests/wrong_bodies, which `make wrong-bodies` tries.
set -euo pipefail
cd "$(dirname "$0")/.."
. tests/needs python3
python3 tests/wrong_bodies/apply.py .
