#!/usr/bin/env bash
# The manual page, what bash completes and what `--help` says name the same words; the page's numbers are those of the
# help; `make install` puts each file in its place, with a unit that names what begins the program, which hands each
# word of the service on as it stands, and refuses what isn't understood in its files. What runs the server in a
# container stops it in order. What counts the log counts each line of a made-up journal once. What tries a folder that
# two hosts share says what that doesn't keep. The resource agent for Pacemaker removes lock files and starts only where
# the pair is fenced. The installed pages lead to pages and headings that are there. Where root runs it and
# `systemd-tmpfiles` is there, the folder of the mailboxes is made, and one that is there stays as it is. What looks at
# leases before the service begins says its line where they are on and others may write the folder. Where
# `systemd-analyze` and `groff` are there, they must find nothing wrong with unit and page. Where Debian's dpkg-dev is,
# the package of `make deb` has what was installed, is the same each time, and needs the packages of the program's
# libraries; lintian, where it is, finds no error but one (tests/packaging/deb.py). What can't be looked at is said, and
# the status is 77 then. LMTPD names a program that is built already.
set -euo pipefail
cd "$(dirname "$0")/.."
. tests/needs bash gzip make python3
. tests/built_program
absent=0
for part in run metrics two_hosts agent deb; do
    status=0
    python3 -B "tests/packaging/$part.py" || status=$?
    case $status in
    0) ;;
    77) absent=77 ;;
    *) exit "$status" ;;
    esac
done
exit $absent
