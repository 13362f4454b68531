#!/usr/bin/env bash
# How fast `serve` delivers, beside others on the same work, all in one run on one machine, over loopback:
#   floor      an append and an fdatasync for each delivery, with no protocol (bench/serve/floor.rs)
#   plain      a server in plain Rust that does no more than it must, with a thread for each connection, which
#              appends, syncs and answers (bench/serve/plain.rs)
#   smtp-sink  Postfix's `smtp-sink -L`: the protocol, and nothing is stored
#   dovecot    Dovecot's LMTP over mbox, mail_fsync=optimized, with a process for each connection
#   ours       `serve` with 4 lanes and its other numbers as they are without words
#   quota      the same with a quota that every letter fits; only where it is named
#   logged     the same as ours with a line of the log for each copy (--log info); only where it is named
#   renamed    the same as ours with the marks of each head renamed (--rename-marks); only where it is named
#   refusing   the same as ours where malformed messages are refused (--refuse-malformed); only where it is named
#   before, before-logged
#              an older program of ours, which LMTPD_BEFORE names, without and with a line of the log for each copy;
#              only where they are named
# The works, by bench/serve/load.rs, which checks each reply:
#   a, a1      4 connections, 2 KiB, one recipient: a mailbox each, and one for all
#   b, b10     4 connections, 20 KiB, ten recipients: of 40 mailboxes, and the same ten for all
#   c, c4      1 and 4 connections of 1 MiB, one recipient: a mailbox each
# usage: bench/serve.sh --build or --try, which only builds what it measures with, or
#        bench/serve.sh [--rounds N] [--times N | --together] [--works a,b,..] [--peers floor,ours,..]
#                       [--slow-sync] [--picture FILE.svg]
# 3 rounds, all works and all peers without the words. In each round each peer does each work with a fresh store. A work
# has several times as many messages for all but Dovecot; with --times N it is N times for each work: on an uneven disk
# many short rounds tell more than few long ones. With --together the servers of a work live side by side through five
# rounds, and in each round each has one burst of a tenth to a fifth of a second, in an order of chance: what is compared
# lies within a second, so that a disk or a machine which is slow for seconds is slow for all. With --slow-sync each
# fsync and fdatasync takes 2 ms more (bench/serve/slowsync.c). Peers that aren't installed are left out, and that is
# said; Dovecot needs root. Prints the medians, and of ours and of `plain` the medians of the ratios within a round,
# beside those that are asked of ours. "Uneven" is the slowest connection's time over the quickest's: all have the same
# to do, so where it is far above 1 one of them waited, on a busy machine for a core. --picture draws the medians. It
# fails where a reply is wrong, a copy isn't in its mailbox, or a ratio is below. LMTPD names a program that is built
# already. The stores are in a folder of mktemp, so TMPDIR says on which disk.
set -euo pipefail
cd "$(dirname "$0")/.."
. tests/needs cc rustc python3
[ "${1:-}" = --try ] || . tests/built_program
folder=$(mktemp -d)
trap 'rm -rf "$folder"' EXIT

rustc -O -o "$folder/load" bench/serve/load.rs
rustc -O -o "$folder/floor" bench/serve/floor.rs
rustc -O -o "$folder/plain" bench/serve/plain.rs
cc -O2 -shared -fPIC -o "$folder/slowsync.so" bench/serve/slowsync.c
case "${1:-}" in --build | --try) exit 0 ;; esac
python3 -B bench/serve/rounds.py "$folder" "$@"
