#!/usr/bin/env bash
# The server with the programs that a site has: relays that deliver to it (Postfix, Exim, OpenSMTPD) and readers of its
# mailboxes (git, Python, Perl, formail, mutt, Dovecot's IMAP), under systemd by the lines of docs/operating/SETUP.md,
# from its package on a plain Debian, and after the mailboxes of others. Each case starts what it needs in a folder of
# its own, on loopback, and ends it again. What isn't installed is fetched with apt-get where that may be (root,
# Debian), and else the case is left out, and that is said. It prints one line a case (ok, FAILED or absent) and their
# count, and fails where a case does; a case has a minute, and some have more, a quarter of an hour at most. It is no
# part of the gate, since it needs root and packages. Where SOAK_GRAPHS names a folder, the cases of a million
# deliveries draw the server's memory there; RESTARTS is how many restarts a server has beside clients, 100 without it,
# and POSTFIX_RESTARTS how many beside Postfix with letters of each size, 30 without it; READERS_SECONDS how long
# readers delete, 60 without it; LETTERS_UNDER_THE_UNIT how many letters come beside a Dovecot that takes the lock file,
# 3,000 without it; LONG_RUN_LETTERS how many letters come in a long run of three hosts, which isn't there without it
# (long_run.py has its other numbers). With DAMAGE=yes the cases of malformed letters run the server without
# --refuse-malformed, and each needs the harm to be done that the word is for.
#
# A case of what a service does runs the unit of `make deb` as it is installed, in a machine of its own whose first
# process is systemd (in_a_machine.py, service.py; debian.py; with `make install` those that type SETUP's ten lines).
# Those of several hosts have a machine for each, and a network of their own (hosts.py). By hand, as `lmtpd serve`, these
# run it:
# - those that look at what other programs make of a mailbox or a reply, whoever started the server: readers_agree,
#   other_mailboxes, postfix_delivers, exim_delivers, opensmtpd_delivers, odd_clients, marks_of_senders, malformed;
# - those that look at the process or at its disk from outside, while it runs: soak (its memory, by the second),
#   power_cut (copies of its disk), read_only (a mailbox on a file system of its own, which goes read-only),
#   torn_writes_read (a library that ends it within a write);
# - those of folders that two hosts share (shared_folders), and of a large map: no server at all;
# - those of what the unit never does: a Unix socket that the server makes itself (hundred_restarts), a server that is
#   root (mailbox_of_user), a folder of the case's own as /var/mail (lease_in_var_mail).
# usage: tests/real/run.sh [NAME..]: the cases whose text has one of these words, or all. LMTPD names a program that
# is built already.
set -euo pipefail
cd "$(dirname "$0")/../.."
. tests/needs git python3
. tests/built_program
export PYTHONPATH=$PWD/tests:$PWD/tests/serve
exec python3 -B tests/real/run.py "$@"
