#!/usr/bin/env bash
# Holds the rehearsal of `make rehearse` where no program is proved yet: with checks, unproved, and of the sources those
# alone that a rehearsal runs, which is quicker than the whole program: `rt try` compiles all that it is given in one
# process and one thread. It takes the words of crates/lmtpd/args.
# usage: building/rehearse.sh < LETTER
set -euo pipefail
cd "$(dirname "$0")/.."
. tests/copies
[ "$(tr '\n' ' ' < crates/lmtpd/args)" = 'rehearse --host mx.example --time 0 anna ' ] ||
    { echo 'building/rehearse.sh: crates/lmtpd/args has other words than building/rehearsal' >&2; exit 1; }
copy_crates sources lmtpd_rehearse
add_crate rehearsal "$PWD/building/rehearsal" 'lmtp_text lmtpd_rehearse'
"$rt" try
