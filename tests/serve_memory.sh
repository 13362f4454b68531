#!/usr/bin/env bash
# From the first client taken until the last has left the process takes no memory. Starts `serve` with 4
# lanes, waits until all its threads wait, attaches `strace` for the calls that take memory, give it back or
# start a thread, and has bench/serve/load.rs deliver over 10,000 copies in about a thousand conversations, 4
# at once: 2 KiB to one mailbox, 20 KiB to ten, 1 MiB to one. strace may see none of these calls, and the size
# of the process must stay the same. What is resident grows where pages that were taken at the start are used
# for the first time: that may come to 256 KiB at most after the first copies of all sizes. Says what it
# counted. Where strace is not there, or may not look, that is said, sizes alone are compared, and the status is 77. LMTPD
# names a program that is built already.
# usage: tests/serve_memory.sh
set -euo pipefail
cd "$(dirname "$0")/.."
. tests/needs cc rustc
. tests/built_program
. tests/processes
# in memory, where there is such a file system: on a disk that others use a turn may take half a second, and then its
# mailbox is told as busy
folder=$(mktemp -d -p /dev/shm 2> /dev/null || mktemp -d)
server='' tracer='' status=0
trap 'kill $tracer $server 2> /dev/null || true; wait; rm -rf "$folder"' EXIT
LANES=4 BOXES=10

# strace looks at the server, or has ended.
has_begun() { grep -q "^TracerPid:	$tracer$" "/proc/$server/status" || ! kill -0 "$tracer" 2> /dev/null; }

# deliver CONVERSATIONS MESSAGES RECIPIENTS SIZE: on each of 4 connections that many conversations.
deliver() {
    timeout 120 "$folder/load" "$address" m 4 "$@" "$BOXES" > /dev/null || fail "a reply is wrong"
    conversations=$((conversations + 4 * $1))
    copies=$((copies + 4 * $1 * $2 * $3))
}

# take_turns SHARE: all sizes, that many times as often.
take_turns() {
    deliver $((8 * $1)) 5 1 2048
    deliver $((2 * $1)) 3 10 20480
}

# leave_out LACKING: the calls aren't looked at, for want of that.
leave_out() {
    echo "absent: the calls that take memory ($1)"
    tracer='' status=77
}

rustc -O -o "$folder/load" bench/serve/load.rs
conversations=0 copies=0
mapfile -t boxes < <(seq -f 'u%g' 0 $((BOXES - 1)))
"$LMTPD" serve --host mx.example --listen 127.0.0.1:0 --dir "$folder" --connections 1000000 --lanes $LANES \
    "${boxes[@]}" > "$folder/output" &
server=$!
until_holds 10 grep -qs '^listening on ' "$folder/output"
address=$(sed -n 's/^listening on //p' "$folder/output")
# the main one, the one that looks after a stop, the lanes, and a worker for each mailbox
until_holds 10 all_wait "$server" $((2 + LANES + BOXES))

if command -v strace > /dev/null; then
    calls=mmap,brk,munmap,mremap,clone,clone3
    strace -f -qq -e trace=$calls -e signal=none -o "$folder/trace" -p "$server" &
    tracer=$!
    until_holds 10 has_begun
    kill -0 "$tracer" 2> /dev/null || leave_out 'leave to look at another process'
else
    leave_out strace
fi
size=$(kilobytes "$server" VmSize) before=$(kilobytes "$server" VmRSS)
take_turns 1
deliver 1 3 1 1048576
early=$(kilobytes "$server" VmRSS) early_copies=$copies
take_turns 24
late=$(kilobytes "$server" VmRSS)
if [ -n "$tracer" ]; then
    # It writes what it saw when it leaves.
    kill "$tracer"
    wait "$tracer" || true
    tracer=''
    calls=$(wc -l < "$folder/trace")
    echo "calls that take or give back memory, or start a thread: $calls"
    [ "$calls" = 0 ] || fail "$(head -3 "$folder/trace")"
fi
stored=$(grep -hac '^Message-ID: <m[.]' "$folder"/*.mbox | awk '{ count += $1 } END { print count + 0 }')
echo "$conversations conversations, $copies copies, $stored in the mailboxes"
echo "size of the process: $size KiB before the first client, $(kilobytes "$server" VmSize) KiB at the end"
echo "resident: $before KiB before the first client, $early after $early_copies copies, $late at the end"
[ "$stored" = "$copies" ] || fail 'copies are missing'
[ "$(kilobytes "$server" VmSize)" = "$size" ] || fail 'the size of the process changed'
[ $((late - early)) -le 256 ] || fail 'what is resident grows'
exit $status
