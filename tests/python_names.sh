#!/usr/bin/env bash
# Each script in Python, also those that the gate doesn't run (tests/real, bench), has all names that it reads.
set -euo pipefail
cd "$(dirname "$0")/.."
. tests/needs git python3
git ls-files -z -- '*.py' | xargs -0 python3 -B tests/python_names.py
