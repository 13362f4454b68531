#!/usr/bin/env bash
# The tests of whole calls (tests/calls), over every crate but the program: compiled with checks and run, unproved.
# Each test of the sources must have run and passed. A server has two worker threads there, so that mailboxes share one;
# the program, with which all other tests are run, has one for each mailbox.
# usage: tests/calls.sh [TEXT]: with a text only the tests in whose path it stands, as `house` or `hostile`
set -euo pipefail
cd "$(dirname "$0")/.."
. tests/copies
expected=$(tests_in tests/calls/src)
crates=$(grep -oE '^[a-z0-9_]+' crates.txt | grep -vx lmtpd | tr '\n' ' ')
# shellcheck disable=SC2086
copy_crates sources $crates
threads='pub const WORKER_THREADS: u32 ='
sed -i "s/^$threads 256;/$threads 2;/" "$folder/crates/mail_post/src/kinds.rt"
grep -q "^$threads 2;" "$folder/crates/mail_post/src/kinds.rt" || { echo 'WORKER_THREADS stands elsewhere' >&2; exit 1; }
add_crate calls tests/calls "$crates log"

status=0
"$rt" try --test --seconds 2000 ${1:+-- "$1"} 2>&1 | tee "$folder/said" || status=$?
passed=$(passed_in "$folder/said")
[ "$status" = 0 ] || { echo "rt try ended with status $status" >&2; exit 1; }
[ "${passed:-0}" -gt 0 ] || { echo 'no test was run' >&2; exit 1; }
[ -n "${1:-}" ] || [ "$passed" = "$expected" ] || { echo "$passed of $expected tests passed" >&2; exit 1; }
