#!/usr/bin/env bash
# Lack of memory and of threads is answered by its own line, and nothing is lost by it: refuses each allocation and each
# thread of a rehearsal for two recipients, of one for one recipient, of one whose second mailbox a file names, of a
# server of two lanes and two mailboxes, and of a check of files and a copy of one in turn (tests/memory/refuse.c,
# preloaded), once that one alone and once all later ones too, until a run ends well. A refused run says
# `lmtpd: memory`, or `lmtpd: no thread` where a thread or its start's memory was refused, and ends with status 1.
# Without memory a rehearsal has read nothing, a check has said nothing, a copy has made nothing; without memory or a
# thread a server has greeted no client, and no mailbox has a byte. One refusal alone may be made good: a list that may
# not grow by half asks for just what it needs, and a server goes on without the thread that says what a stop waits for.
# LMTPD names a program that is built already.
set -euo pipefail
cd "$(dirname "$0")/.."
. tests/needs cc python3
. tests/built_program
folder=$(mktemp -d)
trap 'rm -rf "$folder"' EXIT
cc -O2 -shared -fPIC -o "$folder/refuse.so" tests/memory/refuse.c
python3 -B tests/memory/programs.py "$folder/refuse.so"
