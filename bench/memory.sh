#!/usr/bin/env bash
# What the program takes from the system, by its size: a table of the address space that it has and of what is
# resident, in KiB. Of `serve` once all its threads wait, then after 20 messages of 4 KiB for ten mailboxes on each
# of its lanes at once, and after as many again; of `rehearse` before its first byte of input, and after the reply
# to a message for all of its mailboxes. It fails where the address space of a server has grown since its start, or
# what is resident after the second half by more than 1 MiB. bench/serve/load.rs checks each reply.
# usage: bench/memory.sh --build or --try, which only builds, or bench/memory.sh
set -euo pipefail
cd "$(dirname "$0")/.."
. tests/needs cc rustc
[ "${1:-}" = --try ] || . tests/built_program
. tests/processes
folder=$(mktemp -d)
program=''
trap 'kill $program 2> /dev/null || true; wait; rm -rf "$folder"' EXIT
rustc -O -o "$folder/load" bench/serve/load.rs
case "${1:-}" in --build | --try) exit 0 ;; esac
failed=0

names() { seq -f 'u%.0f' 0 $(($1 - 1)); }

# serve LANES MAILBOXES BLOCKS
serve() {
    local lanes=$1 boxes=$2 blocks=$3 address size start first second
    mkdir "$folder/$lanes-$boxes-$blocks"
    : > "$folder/said"
    # shellcheck disable=SC2046
    "$LMTPD" serve --host mx.example --listen 127.0.0.1:0 --dir "$folder/$lanes-$boxes-$blocks" \
        --lanes "$lanes" --blocks "$blocks" --connections 1000000 $(names "$boxes") >> "$folder/said" &
    program=$!
    until grep -q listening "$folder/said"; do sleep 0.05; done
    address=$(sed 's/^listening on //' "$folder/said")
    until_holds 10 all_wait "$program" $((2 + lanes + boxes))
    size=$(kilobytes "$program" VmSize) start=$(kilobytes "$program" VmRSS)
    "$folder/load" "$address" m "$lanes" 1 20 $((boxes < 10 ? boxes : 10)) 4096 "$boxes" > /dev/null
    first=$(kilobytes "$program" VmRSS)
    "$folder/load" "$address" m "$lanes" 1 20 $((boxes < 10 ? boxes : 10)) 4096 "$boxes" > /dev/null
    second=$(kilobytes "$program" VmRSS)
    echo "| \`serve\` | $lanes | $boxes | $blocks | $size | $start | $first | $second |"
    if [ "$(kilobytes "$program" VmSize)" != "$size" ] || [ $((second - first)) -gt 1024 ]; then
        echo 'FAILED: it grows' >&2
        failed=1
    fi
    kill "$program"
    wait "$program" 2> /dev/null || true
    program=''
}

# rehearse MAILBOXES BLOCKS
rehearse() {
    local boxes=$1 blocks=$2 size start name
    mkfifo "$folder/input"
    : > "$folder/said"
    # shellcheck disable=SC2046
    "$LMTPD" rehearse --host mx.example --time 0 --blocks "$blocks" $(names "$boxes") < "$folder/input" \
        >> "$folder/said" &
    program=$!
    exec 3> "$folder/input"
    until_holds 10 all_wait "$program" $((2 + boxes))
    size=$(kilobytes "$program" VmSize) start=$(kilobytes "$program" VmRSS)
    {
        printf 'LHLO a\r\nMAIL FROM:<>\r\n'
        for name in $(names "$boxes"); do printf 'RCPT TO:<%s>\r\n' "$name"; done
        printf 'DATA\r\nhello\r\n.\r\n'
    } >&3
    until [ "$(grep -c Stored "$folder/said")" = "$boxes" ]; do sleep 0.05; done
    echo "| \`rehearse\` | 1 | $boxes | $blocks | $size | $start | $(kilobytes "$program" VmRSS) | |"
    exec 3>&-
    wait "$program"
    program=''
    rm "$folder/input"
}

echo '| Words | Lanes | Mailboxes | Blocks | Address space | At the start | After messages | After as many again |'
echo '|---|---|---|---|---|---|---|---|'
serve 1 1 256
serve 4 10 1024
serve 16 64 4096
serve 64 256 1024
serve 64 256 16384
serve 64 256 65536
rehearse 1 1024
rehearse 64 1024
rehearse 256 1024
exit "$failed"
