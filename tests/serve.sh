#!/usr/bin/env bash
# `serve` as it is built, over loopback: what it says to words that it can't use, real clients (Python's
# smtplib, and swaks and smtp-source where they are installed), clients at once, clients that go away or say
# nothing, and files that fail or are torn; and what users of the machine and senders do on purpose: leases on files
# of theirs, locks that are never given back, races with a mailbox, texts of lock files, floods (as root: other users'
# files). Mailboxes are read back by `git mailsplit --mboxrd` and Python's `mailbox`, which must agree. It prints one
# line a case (ok, FAILED, or absent for what this machine hasn't), and then their count; it fails where a case does.
# A case has 60 seconds, and some have more, three minutes at most. LMTPD names a program that is built already.
# RACE_SECONDS is how long a mailbox is raced with, 45 without it.
# usage: tests/serve.sh [NAME..]: the cases whose text has one of these words, or all
set -euo pipefail
cd "$(dirname "$0")/.."
. tests/needs git python3
. tests/built_program
exec python3 -B tests/serve/run.py "$@"
