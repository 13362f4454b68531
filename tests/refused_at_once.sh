#!/usr/bin/env bash
# The prover refuses each wrong body of the crates' folders must-fail-at-once, by a goal of the function that it
# changes: those of a crate are tried in one check of the functions that they change, and one alone again that wasn't
# refused so. Those of the folders must-fail `rt ci` itself tries, one by one. RT_SAID names the file that has what `rt
# ci` says: then each crate's are tried once those below it are proved; else over what stands proved (make check).
set -euo pipefail
cd "$(dirname "$0")/.."
. tests/needs python3
exec tests/wrong_bodies/run.sh --gate
