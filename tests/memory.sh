#!/usr/bin/env bash
# Only makers take memory: no call of a depot, and so of its arena, does once it is made (of a whole server:
# no_memory.sh and serve_memory.sh). The depot's scripts are run on one thread with one allocation refused in each test
# (tests/memory/refused.rt.in, beside the depot's tests in a copy of its crate): each of a maker's is answered
# AllocError, and the next one after these is the test's own, once the script has ended well. And the allocations of
# `run_house` and of `rehearse_run` are refused in turn (tests/memory/calls): each is answered Memory, or NoThread, with
# nobody asked and nothing read, and there are no more of them, with two letters stored. Compiled with checks.
set -euo pipefail
cd "$(dirname "$0")/.."
. tests/copies
refused=$PWD/tests/memory/refused.rt.in
copy_crates sources msg_depot lmtpd_rehearse
cp -a tests/memory/calls "$folder/called"
for call in house rehearsal; do
    file=$folder/called/src/$call.rt.in
    made=$(sed -nE 's/^const MADE: u32 = ([0-9]+);$/\1/p' "$file")
    for number in $(seq 0 $((made + 1))); do
        printf '\n#[test]\nfn number_%s(rt: HostRuntime) -> Result<(), Fail> {\n' "$number"
        printf '    refused(rt, rt.alloc(), %s)\n}\n' "$number"
    done >> "$file"
done
add_tests
mkdir -p "$folder/crates/msg_depot/src/tests"
cp "$refused" "$folder/crates/msg_depot/src/tests/refused.rt"
printf '\nmod refused;\n' >> "$folder/crates/msg_depot/src/tests.rt"
# refused SAID ONLY CRATE FILE..: in each test of these files of that crate, whose path has the text ONLY, the allocation
# of number REFUSED, which the first of the files names, is refused.
refused() {
    local said=$1 only=$2 crate=$3 number expected status=0
    shift 3
    cd "$folder/crates/$crate"
    number=$(sed -nE 's/^const REFUSED: u32 = ([0-9]+);$/\1/p' "$1")
    expected=$(cat "$@" | grep -cE '^#\[test\]')
    "$rt" try --test --fail-alloc "$number" ${only:+-- "$only"} > "$folder/said" 2>&1 || status=$?
    if [ "$status" != 0 ] || [ "$(passed_in "$folder/said")" != "$expected" ]; then
        cat "$folder/said"
        echo "FAILED: of $expected tests that have an allocation refused"
        exit 1
    fi
    echo "ok: in $expected tests $said"
}

refused 'makers alone take memory' refused msg_depot src/tests/refused.rt
(add_crate called "$folder/called" 'mail_world lmtp_text mbox_spool box_worker lmtp_house lmtpd_rehearse')
refused 'a server and a rehearsal answer for each allocation' '' called src/lib.rt src/house.rt src/rehearsal.rt
