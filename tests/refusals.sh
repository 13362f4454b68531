#!/usr/bin/env bash
# What the program says to words that it can't use, and the status that it ends with. It prints one line a case,
# and fails where a case does. LMTPD names a program that is built already.
set -euo pipefail
cd "$(dirname "$0")/.."
. tests/built_program
failed=0

# try STATUS LINE WORD..: the status, the one line on standard error ('clap' for a text of clap's there,
# 'none' for nothing) and the words.
try() {
    local expected=$1 line=$2 status=0 said verdict=ok
    shift 2
    said=$("$LMTPD" "$@" 2>&1 >/dev/null < <(printf 'QUIT\r\n')) || status=$?
    [ "$status" = "$expected" ] || verdict=FAILED
    case $line in
    none) [ -z "$said" ] || verdict=FAILED ;;
    clap) [[ $said == error:* || $said == *Usage:* ]] || verdict=FAILED ;;
    *) [ "$said" = "$line" ] || verdict=FAILED ;;
    esac
    [ "$verdict" = ok ] || failed=1
    printf '%s: status %s, %s: %.70s\n' "$verdict" "$status" "${line/none/no line}" "$*"
}

good=(rehearse --host mx.example --time 0)
serve=(serve --host mx.example --listen 127.0.0.1:0 --connections 1)
many=()
for i in {1..257}; do many+=("box$i"); done
folder=$(mktemp -d)
trap 'rm -rf "$folder"' EXIT
missing=/nowhere/boxes

# lists TEXT: the path of a file with that text, in which \n and the like are read
lists() {
    printf "$1" > "$(mktemp -p "$folder" boxes.XXXX | tee "$folder/path")"
    cat "$folder/path"
}

try 2 'lmtpd: bad host' rehearse --host mx_example --time 0 anna
try 2 'lmtpd: bad host' rehearse --host mx_example --time 0 --domains a_b Anna
try 2 'lmtpd: bad domain' "${good[@]}" --domains a.example,b_c anna
try 2 'lmtpd: bad domain' "${good[@]}" --domains a.example, Anna
try 2 'lmtpd: bad box' "${good[@]}" Anna
try 2 'lmtpd: bad box' "${good[@]}" anna anna .ben
try 2 'lmtpd: bad box' "${good[@]}" "${many[@]:1}" Anna
try 2 'lmtpd: too many boxes' "${good[@]}" "${many[@]}"
try 2 'lmtpd: too many boxes' "${good[@]}" "${many[@]}" box1
try 2 'lmtpd: box named twice' "${good[@]}" anna anna
try 1 'lmtpd: size' "${good[@]}" --blocks 0 anna
try 1 'lmtpd: size' "${good[@]}" --blocks 65537 anna
try 2 clap "${good[@]}" --blocks 4294967296 anna
try 2 clap "${good[@]}" --blocks x anna
for limit in 65535 268435457 x '' 1e6; do try 2 clap "${good[@]}" --message-limit "$limit" anna; done
for what in '' Defer rejects defer,reject 'reject ' 552; do
    try 2 clap "${good[@]}" --over-quota="$what" anna
    try 2 clap "${serve[@]}" --dir "$folder" --over-quota="$what" anna
done
for what in defer reject; do
    try 0 none "${good[@]}" --over-quota "$what" anna
    try 0 none "${serve[@]}" --dir "$folder" --over-quota="$what" --check-words anna
done
try 2 clap "${good[@]}" --over-quota defer --over-quota reject anna
try 2 clap check --over-quota defer anna.mbox
for limit in 65535 268435457 x; do try 2 clap "${serve[@]}" --dir /nowhere --message-limit "$limit" anna; done
for byte in '' ++ x . _ @ '\' ' ' é; do try 2 clap "${good[@]}" --recipient-delimiter="$byte" anna; done
for byte in '' +- x; do try 2 clap "${serve[@]}" --dir /nowhere --recipient-delimiter="$byte" anna; done
for byte in + - = '#' '~'; do
    try 0 none "${good[@]}" --recipient-delimiter "$byte" anna
    try 0 none "${good[@]}" --recipient-delimiter="$byte" anna
    try 1 'lmtpd: cannot open anna.mbox' "${serve[@]}" --dir /nowhere --recipient-delimiter "$byte" anna
done
try 2 clap check --recipient-delimiter + anna.mbox
try 2 clap "${good[@]}" --quota -1 anna
try 2 clap "${good[@]}" --quota 18446744073709551616 anna
try 2 clap "${good[@]}" --quota 1k anna
try 2 clap "${good[@]}" --quota '' anna
try 2 clap rehearse --host mx.example anna
try 2 clap rehearse --host mx.example --time 4294967296 anna
try 2 clap rehearse --host mx.example --time x anna
try 2 clap rehearse --time 0 anna
try 2 'lmtpd: no box' "${good[@]}"
try 2 'lmtpd: no box' rehearse --host mx_example --time 0 --domains a_b
try 2 'lmtpd: no box' "${serve[@]}" --dir /nowhere
for text in '' '\n' '# nobody\n \t\r\n'; do
    try 2 'lmtpd: no box' "${good[@]}" --boxes "$(lists "$text")"
    try 2 'lmtpd: no box' "${serve[@]}" --dir /nowhere --boxes "$(lists "$text")"
    try 0 none "${good[@]}" --boxes "$(lists "$text")" anna
done
two=$(lists 'anna # the first\r\n\n  ben')
try 0 none "${good[@]}" --boxes "$two"
try 0 none "${good[@]}" --boxes="$two" carl
try 1 'lmtpd: cannot open anna.mbox' "${serve[@]}" --dir /nowhere --boxes "$two"
try 1 'lmtpd: cannot open carl.mbox' "${serve[@]}" --dir /nowhere --boxes "$two" carl
try 2 'lmtpd: bad host' rehearse --host mx_example --time 0 --boxes "$two"
long=$(printf '%010000d' 0)
for text in Anna 'anna ben' .anna anna,ben 'an\0na' 'anna\0' '\xef\xbb\xbfanna' 'anna;ben' '-- anna' '\xff' 'an\xffna' \
    "$long" anna@two.example @x anna@ a/b "$(printf '%065d' 0)"; do
    try 2 'lmtpd: bad box' "${good[@]}" --boxes "$(lists "ben\n$text\n")"
    try 2 'lmtpd: bad box' "${serve[@]}" --dir /nowhere --boxes "$(lists "ben\n$text\n")"
done
for name in "o'brien" anna+x a=b "$(printf '%033d' 0)" "$(printf '%064d' 0)"; do
    try 0 none "${good[@]}" --boxes "$(lists "$name")"
    try 0 none "${serve[@]}" --dir "$folder" --check-words --boxes "$(lists "$name")" anna
    try 2 'lmtpd: bad box' "${good[@]}" "$name"
    try 2 'lmtpd: bad box' "${good[@]}" --boxes "$(lists "$name")" "$name"
done
try 0 none "${good[@]}" --boxes "$(lists 'anna # \xff')"
try 2 'lmtpd: bad box' "${good[@]}" --boxes "$(lists 'anna\nanna\n')" Anna
try 2 'lmtpd: box named twice' "${good[@]}" --boxes "$(lists 'anna\nanna\n')"
try 2 'lmtpd: box named twice' "${good[@]}" --boxes "$two" ben
all=$(lists "$(printf '%s\\n' "${many[@]:1}")")
try 0 none "${good[@]}" --boxes "$all"
try 2 'lmtpd: too many boxes' "${good[@]}" --boxes "$all" box1
try 2 'lmtpd: too many boxes' "${good[@]}" --boxes "$(lists 'box1\n')" "${many[@]:1}"
all=$(lists "$(printf '%s\\n' "${many[@]}")")
try 2 'lmtpd: too many boxes' "${good[@]}" --boxes "$all"
try 1 'lmtpd: cannot open box1.mbox' "${serve[@]}" --dir /nowhere --boxes "$all"
try 1 'lmtpd: cannot open last.mbox' "${serve[@]}" --dir /nowhere --boxes "$all" last
try 2 'lmtpd: box named twice' "${serve[@]}" --dir /nowhere --boxes "$(lists 'box2\n')" "${many[@]:1}"
try 2 'lmtpd: too many boxes' "${serve[@]}" --dir /nowhere --boxes "$(lists 'box2\n')" "${many[@]}"
mkfifo "$folder/pipe"
large=$(lists 'anna\n')
truncate -s 16777216 "$large"
try 2 'lmtpd: bad box' "${good[@]}" --boxes "$large"
large=$(lists "anna #$(printf '%016777210d' 0)")
try 0 none "${good[@]}" --boxes "$large"
echo >> "$large"
for file in "$missing" '' / "$folder" "$folder/pipe" /dev/null /dev/zero "$large"; do
    try 1 "lmtpd: cannot read $file" "${good[@]}" --boxes "$file"
    try 1 "lmtpd: cannot read $file" "${serve[@]}" --dir /nowhere --boxes "$file" anna
done
try 1 "lmtpd: cannot read $missing" rehearse --host mx_example --time 0 --boxes "$missing" Anna
try 2 clap "${good[@]}" --boxes
try 2 clap "${good[@]}" --boxes "$two" --boxes "$two"
try 2 clap check --boxes "$two" anna.mbox
try 2 clap
try 2 clap receive
try 2 clap "${good[@]}" --shout anna
try 2 clap "${good[@]}" --host mx.example anna
try 2 clap "${good[@]}" $'\xff'
try 2 clap check
try 2 clap check --quota 1 anna.mbox
try 2 clap copy
try 2 clap copy anna.mbox
try 2 clap copy anna.mbox to more
try 2 clap copy --lock-wait 10 anna.mbox to
try 2 clap copy anna.mbox $'\xff'
try 1 'lmtpd: cannot read /nowhere/anna.mbox' copy /nowhere/anna.mbox "$folder/copy"
try 1 'lmtpd: cannot read /dev/null' copy /dev/null "$folder/copy"
try 2 clap "${good[@]}" --log info anna
try 2 clap check --log info anna.mbox
try 2 clap "${serve[@]}" --dir '' anna
try 2 clap "${serve[@]}" --dir= anna
try 1 'lmtpd: cannot open anna.mbox' "${serve[@]}" --dir /nowhere anna
try 2 clap "${good[@]}" --lock-wait 10 anna
try 2 clap check --lock-wait 10 anna.mbox
try 2 clap "${good[@]}" --mailbox-mode 0600 anna
long=$(printf '%033d' 0)
for text in "$long" / .mail/ ../x ' ' .mail, é $'a\n'; do
    try 2 clap "${serve[@]}" --dir /nowhere --mailbox-suffix "$text" anna
    try 2 clap "${serve[@]}" --dir /nowhere --mailbox-suffix="$text" anna
done
try 2 clap "${serve[@]}" --dir /nowhere --mailbox-suffix $'.\xff' anna
try 2 clap "${serve[@]}" --dir /nowhere --mailbox-suffix
try 2 clap "${serve[@]}" --dir /nowhere --mailbox-suffix .a --mailbox-suffix .a anna
for text in '' .mail .mbox x _ - .. .A-z_0.9 .lock.b lock "${long:1}"; do
    try 1 "lmtpd: cannot open anna$text" "${serve[@]}" --dir /nowhere --mailbox-suffix="$text" anna
done
try 1 'lmtpd: cannot open anna' "${serve[@]}" --dir /nowhere --mailbox-suffix '' anna
try 1 'lmtpd: cannot open a.lock.mbox' "${serve[@]}" --dir /nowhere a.lock
try 2 clap "${good[@]}" --mailbox-suffix .mail anna
try 2 clap check --mailbox-suffix .mail anna.mbox
try 0 none "${good[@]}" a.lock
# files that are called as lock files are, by name, suffix or both, come where other bad names do
while read -r name suffix; do
    try 2 'lmtpd: bad box' "${serve[@]}" --dir /nowhere --mailbox-suffix="$suffix" anna "$name"
    try 2 'lmtpd: bad box' "${serve[@]}" --dir /nowhere --mailbox-suffix="$suffix" anna anna "$name"
    try 2 'lmtpd: bad box' "${serve[@]}" --dir /nowhere --mailbox-suffix="$suffix" "${many[@]}" "$name"
    try 2 "[ERROR lmtpd] bad box name=$name"$'\nlmtpd: bad box' \
        "${serve[@]}" --dir /nowhere --mailbox-suffix="$suffix" --check-words anna "$name"
done <<'EOF'
a.lock
anna.source.lock
a.lo ck
a. lock
EOF
for suffix in .lock .source.lock ..lock; do
    try 2 $'[ERROR lmtpd] bad box name=anna\nlmtpd: bad box' \
        "${serve[@]}" --dir /nowhere --mailbox-suffix="$suffix" --check-words anna ben
done
for suffix in '' .mail lock; do
    try 0 none "${serve[@]}" --dir "$folder" --mailbox-suffix="$suffix" --check-words lock a.locks a.lock.b a-lock
done
for mode in 8 1000 +660 00660 x ''; do try 2 clap "${serve[@]}" --dir /nowhere --socket-mode "$mode" anna; done
for time in 0 86401 -1 x ''; do try 2 clap "${serve[@]}" --dir /nowhere --session-time "$time" anna; done
for number in 0 1000001 -1 x ''; do try 2 clap "${serve[@]}" --dir /nowhere --bad-commands "$number" anna; done
for number in 0 1000001 -1 x ''; do try 2 clap "${serve[@]:0:5}" --dir /nowhere --connections "$number" anna; done
try 2 clap "${serve[@]}" --dir /nowhere --stop-file '' anna
try 2 clap "${serve[@]}" --dir /nowhere --stop-file= anna
# a word that there was once
try 2 clap "${serve[@]}" --dir /nowhere --heal anna
try 2 clap "${serve[@]}" --dir /nowhere --start-anyway=yes anna
try 2 clap "${serve[@]}" --dir /nowhere --start-anyway --start-anyway anna
try 2 clap "${serve[@]}" --dir /nowhere --check-words=yes anna
try 2 clap "${serve[@]}" --dir /nowhere --check-words --check-words anna
try 2 clap "${good[@]}" --check-words anna
try 2 clap check --check-words anna.mbox
try 0 none "${serve[@]}" --dir "$folder" --check-words anna
try 0 none "${serve[@]}" --dir "$folder" --check-words --boxes "$two"
try 1 $'[ERROR lmtpd] a size is out of its limits word=--lanes has=100 least=1 most=64\nlmtpd: size' \
    "${serve[@]}" --dir "$folder" --check-words --lanes 100 anna
reason='No such file or directory (os error 2)'
try 1 "[ERROR lmtpd] cannot open mailbox=anna reason=$reason
[ERROR lmtpd] cannot read the folder folder=/nowhere reason=$reason
lmtpd: cannot open anna.mbox" "${serve[@]}" --dir /nowhere --check-words anna
try 1 "lmtpd: cannot read $missing" "${serve[@]}" --dir /nowhere --check-words --boxes "$missing" Anna
try 2 'lmtpd: no box' "${serve[@]}" --dir /nowhere --check-words
try 2 $'[ERROR lmtpd] bad box name=Anna\nlmtpd: bad box' "${serve[@]}" --dir /nowhere --check-words Anna
try 2 clap "${serve[@]}" --dir /nowhere --log-addresses=yes anna
try 2 clap "${serve[@]}" --dir /nowhere --log-addresses --log-addresses anna
for word in --start-anyway --log-addresses --stop-file=stop --socket-mode=0660 --session-time=9 --bad-commands=9 \
    --connections=9; do
    try 2 clap "${good[@]}" "$word" anna
    try 2 clap check "$word" anna.mbox
    try 1 'lmtpd: cannot open anna.mbox' "${serve[@]:0:5}" --dir /nowhere "$word" anna
done
try 1 'lmtpd: cannot open anna.mbox' "${serve[@]:0:5}" --dir /nowhere anna
try 2 clap check --mailbox-mode 0600 anna.mbox
try 2 clap rehearse --version
try 0 none --help
try 0 none --version
try 0 none -V
try 0 none help
try 0 none rehearse --help
try 0 none copy --help
try 0 none help copy
try 0 none serve --help
try 0 none check --help
try 0 none help serve
: > "$folder/empty.mbox"
try 0 none check "$folder/empty.mbox"
try 1 none check /nowhere/anna.mbox
try 0 none "${good[@]}" anna
try 0 none "${good[@]}" --quota 0 anna
try 0 none "${good[@]}" --domains a.example,b.example anna ben
try 0 none rehearse --host mx.example --time 4294967295 "${many[@]:1}"
exit $failed
