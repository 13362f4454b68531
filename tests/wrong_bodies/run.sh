#!/usr/bin/env bash
# Has the prover try the further wrong bodies of this folder, each in a copy of its crate, over what stands proved (make
# check), as many crates side by side as there are cores (JOBS: how many). Of each it says whether a goal of its
# function refused it, and which, something else did, it doesn't compile, or it is still proved; the last line counts
# them, and it fails where a goal of its function didn't refuse one. With --gate it tries those of the crates' folders
# must-fail-at-once, as the gate does; with --own those of their folders must-fail, which `rt ci` tries one by one. What
# was refused on this machine, and of which nothing changed since, isn't tried again, but with --anew (kept.py).
# RT_SAID names the file that has what `rt ci` says or said here: then each crate's are tried once those below it are
# proved, JOBS holds until `rt ci` has ended, whose cores are idle then, and the crate isn't checked as it stands.
# usage: tests/wrong_bodies/run.sh [--gate | --own] [--anew] [CRATE..]
set -euo pipefail
cd "$(dirname "$0")/../.."
. tests/needs python3
said=$(python3 -B tests/wrong_bodies/apply.py .) || { printf '%s\n' "$said" >&2; exit 1; }
exec python3 -B tests/wrong_bodies/try.py . "${JOBS:-$(nproc)}" "$@"
