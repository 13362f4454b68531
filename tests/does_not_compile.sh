#!/usr/bin/env bash
# Wrong bodies that types alone refuse: tried on a copy of the crates, none compiles, and the compiler says why.
# - Only the keeper's module can make a NoRoom, so a depot can only hand on the keeper's.
# - A hold is split and released without the depot's lock: that asks for a runtime that may wait, and neither has one.
# - A worker thread tells a lane of a copy only once it has given the copy's hold back, and tells it then: a body that tells
#   first, one that sends a slip past `tell`, and one that doesn't tell.
set -euo pipefail
cd "$(dirname "$0")/.."
. tests/copies
copy_crates kept msg_depot box_worker

# refuses CRATE MODULE OLD NEW WHY: with NEW in the place of OLD the module doesn't compile, and the compiler says why.
refuses() {
    local file=$folder/crates/$1/src/$2.rt text rest
    text=$(< "$file")
    rest=${text#*"$3"}
    if [ "$rest" = "$text" ] || [[ $rest == *"$3"* ]]; then
        echo "$1/src/$2.rt doesn't have this once: $3" >&2
        exit 1
    fi
    printf '%s%s%s\n' "${text%%"$3"*}" "$4" "$rest" > "$file"
    if (cd "$folder/crates/$1" && rt check --only "$1::$2") > "$folder/log" 2>&1; then
        echo "no refusal: $4" >&2
        exit 1
    fi
    grep -m 1 -E "error.*($5)" "$folder/log" || { cat "$folder/log" >&2; exit 1; }
    printf '%s\n' "$text" > "$file"
}

own='Err(NoRoom { of: () })'
private='\bof\b.*private|private.*\bof\b'
refuses msg_depot depot 'self.keeper.lock(rt).draft(&self.board)' "$own" "$private"
refuses msg_depot depot 'self.keeper.lock(rt).put(&self.board, draft, piece)' "$own" "$private"

locked='let _keeper = self.keeper.lock(&());'
refuses msg_depot depot 'hold::split_one(&self.board, hold)' "$locked hold::split_one(&self.board, hold)" 'Wait'
refuses msg_depot depot 'hold::release(&self.board, hold)' "$locked hold::release(&self.board, hold)" 'Wait'

refuses box_worker kept 'release(rt, depot, txn, place, hold)' 'crate::release::Released { txn, place }' \
    'txn.*Released.*private'
told='slips.tell::<Brand, N, R>(rt, released, self.number, end.outcome(), receiver)'
refuses box_worker kept "$told" 'slips.senders.pop()' \
    'senders.*SlipSenders.*private'
refuses box_worker kept "$told;" '' 'released.*let go.*Drop'
