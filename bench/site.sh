#!/usr/bin/env bash
# How long a site takes, with 1 mailbox and with 65,536, of which the last is looked for:
#   name, detail, quoted, unknown   `Site::find` of 500,000 addresses: in capitals, with a detail, quoted with a
#                                   backslash, of no mailbox; by turns with as many of one unknown name
#   new                             `Site::new` of sites with 65,536 mailboxes in all
# Prints the least of RUNS times of each (5 if it isn't set), and the ratios. Fails where one with 65,536 takes
# more than twice as long as with 1.
# usage: bench/site.sh [--build | --try]: with a word it only makes its program, proved or unproved (bench/program)
set -euo pipefail
cd "$(dirname "$0")/.."
. tests/needs python3
. bench/program
make_program site_names site "mail_world lmtp_text anyhow" "${1:-}"

python3 -B - out/site_names "${RUNS:-5}" <<'PYTHON'
import sys

from turns import best, run

PROGRAM, RUNS = sys.argv[1], int(sys.argv[2])
MOST = 2.0

runs = [run(PROGRAM) for _ in range(RUNS)]
slow = False
for name in ["name", "detail", "quoted", "unknown", "new"]:
    few, many = (best(runs, f"{name}_{count}") / 1_000_000 for count in (1, 65_536))
    ratio = many / few
    print(f"{name}: {many:.4f} s with 65,536, {few:.4f} s with 1, ratio {ratio:.2f} (at most {MOST})")
    slow = slow or ratio > MOST
sys.exit(1 if slow else 0)
PYTHON
