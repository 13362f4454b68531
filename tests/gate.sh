#!/usr/bin/env bash
# The gate. First the program's version gets the name of the toolchain that proves it (`make toolchain`), which is said
# where it had another. Then `rt ci`: proves every crate and runs the program; and beside it, on the cores that it
# leaves idle, the scripts of tests/ that need the sources alone, and the wrong bodies that are tried at once, each
# crate's once those below it are proved, but those that were refused here before and stay as they were. Then, over what
# was built, the other scripts, side by side. A script that leaves something out, for want of something of the machine,
# says so and ends with status 77 (tests/counts). The last line but one says how much was left out, and why; with
# CI=true it fails for what tests/may_be_absent doesn't take. The last line counts all: 'N passed, M failed'. The
# benchmarks' programs are only compiled (tests/benchmarks.sh), and proved by `make benchmarks`.
# usage: tests/gate.sh [--scripts]: with the word only the scripts, on what stands built
set -uo pipefail
cd "$(dirname "$0")/.."
export LMTPD=$PWD/crates/lmtpd/out/lmtpd
. tests/counts

# play SCRIPT SECONDS: runs it, for that long at most, and keeps what it said and how it ended.
play() {
    local status=0
    timeout --kill-after=10 "$2" "$1" < /dev/null > "$said/$(basename "$1")" 2>&1 || status=$?
    echo "$status" > "$said/$(basename "$1").status"
}

# play_on_sources: plays those that need the sources alone, one after the other.
play_on_sources() {
    local script
    for script in tests/{calls,units,memory,benchmarks,wrong_bodies,told,left_out}.sh; do play "$script" 3600; done
}

# play_at_once: plays the wrong bodies that are tried at once, on half of the cores, on all once `rt ci` has ended, and
# at a lower priority.
play_at_once() {
    renice -n 15 "$BASHPID" > "$said/renice"
    JOBS=${JOBS:-$((($(nproc) + 1) / 2))} RT_SAID=$said/rt play tests/refused_at_once.sh 9000
}

# play_others: plays each script of tests/ that wasn't, as many at a time as there are cores but one; the wrong bodies
# may go on beside them.
play_others() {
    local script room=$(($(nproc) > 2 ? $(nproc) : 2))
    for script in tests/*.sh; do
        [ "$script" != tests/gate.sh ] && [ ! -e "$said/$(basename "$script").status" ] || continue
        while [ "$(jobs -rp | wc -l)" -ge "$room" ]; do wait -n; done
        play "$script" 1800 &
    done
    wait
}

# count_all: says what each script said, and adds how it ended.
count_all() {
    local script name
    for script in tests/*.sh; do
        [ "$script" != tests/gate.sh ] || continue
        name=$(basename "$script")
        echo "== $script"
        cat "$said/$name"
        count_script "$script" "$said/$name" "$(cat "$said/$name.status")"
    done
}

said=$(mktemp -d)
trap 'rm -rf "$said"' EXIT
if [ "${1:-}" != --scripts ]; then
    make -s toolchain || failed=$((failed + 1))
    touch "$said/rt" "$said/refused_at_once.sh.status"
    play_at_once &
    play_on_sources &
    sources=$!
    rt ci 2>&1 | tee "$said/rt"
    count_rt "$said/rt"
    wait "$sources"
fi
if [ -x "$LMTPD" ]; then
    play_others
    count_all
else
    echo 'FAILED: no program was built, so no script was run'
    failed=$((failed + 1))
fi
say_counts
