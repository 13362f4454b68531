#!/usr/bin/env python3
"""Says which functions of the repository cost the prover most: checks each crate anew, over the libraries that stand
proved (make build) and over nothing that its own checks kept, by one process each, as many crates side by side as there
are cores (JOBS: how many). A function's seconds are those of processor time between the line that says that it is
checked and the line before: its own proof's, and those of lemmas that it is the first to cite. Each crate's seconds are
parted into those before its first function, those of its functions, and those after the last.
usage: building/dearest.py [--most COUNT] [CRATE..]: the COUNT dearest functions (40), of all crates or of these
"""

import concurrent.futures
import os
import pathlib
import re
import shutil
import subprocess
import sys

sys.path.insert(0, os.path.dirname(os.path.realpath(shutil.which("rt"))))
import rtlib

TOP = pathlib.Path(__file__).resolve().parent.parent
MOST = 40
CHECKED = re.compile(r"checked (.+), \d+ of \d+$")


class Measured:
    """What the check of one crate took, in seconds."""

    def __init__(self, name):
        self.name = name
        self.functions = []  # of each its seconds and its name
        self.before = self.after = 0.0
        self.is_proved = False

    def total(self):
        return self.before + self.after + sum(seconds for seconds, _ in self.functions)


def processor_time(pid):
    """The seconds that the process took so far, by all of its threads; the system has them until it is waited for."""
    fields = pathlib.Path(f"/proc/{pid}/stat").read_text().rpartition(")")[2].split()
    return sum(map(int, fields[11:13])) / os.sysconf("SC_CLK_TCK")


def measure(crate):
    """Checks the crate over its built libraries, and notes how far it was at each line."""
    found = Measured(crate.name)
    words = [rtlib.RATTLE, "check", *crate.words(["--jobs", "1"], keeps=False), "--progress"]
    ends = {"stdin": subprocess.DEVNULL, "stdout": subprocess.PIPE, "stderr": subprocess.STDOUT, "errors": "replace"}
    last = 0
    with subprocess.Popen(words, cwd=crate.folder, **ends) as check:
        for line in check.stdout:
            checked = CHECKED.match(line.rstrip())
            if not checked:
                continue
            now = processor_time(check.pid)
            if found.functions or found.before:
                found.functions.append((now - last, checked[1]))
            else:
                # what is read first and the first function can't be told from each other
                found.before = now - last
            last = now
        os.waitid(os.P_PID, check.pid, os.WEXITED | os.WNOWAIT)
        found.after = processor_time(check.pid) - last
    found.is_proved = check.returncode == 0
    return found


def main(words):
    most = int(words[words.index("--most") + 1]) if "--most" in words else MOST
    names = {it for it in words if not it.startswith("--") and not it.isdecimal()}
    # a build that goes on has copies of crates in folders of its own
    own = [it for it in rtlib.crates_below(str(TOP)) if pathlib.Path(it.folder).parent == TOP / "crates"]
    crates = [it for it in own if not names or it.name in names]
    # the largest first, so that the last ones are short
    crates.sort(key=lambda it: -it.count(rb"\n"))
    jobs = int(os.environ.get("JOBS", len(os.sched_getaffinity(0))))
    with concurrent.futures.ThreadPoolExecutor(jobs) as pool:
        measured = list(pool.map(measure, crates))
    functions = sorted(((seconds, it.name, name) for it in measured for seconds, name in it.functions), reverse=True)
    print("| Seconds | Crate | Function |\n|---|---|---|")
    for seconds, crate, name in functions[:most]:
        print(f"| {seconds:.1f} | `{crate}` | `{name}` |")
    print("\n| Crate | Seconds | Before its first function | Functions | After the last |\n|---|---|---|---|---|")
    for it in sorted(measured, key=Measured.total, reverse=True):
        own = sum(seconds for seconds, _ in it.functions)
        print(f"| `{it.name}` | {it.total():.0f} | {it.before:.0f} | {own:.0f} | {it.after:.0f} |")
    print(f"\n{sum(map(Measured.total, measured)):.0f} seconds of processor time in {len(measured)} crates")
    unproved = [it.name for it in measured if not it.is_proved]
    if unproved:
        print("not proved:", *unproved, file=sys.stderr)
    return 1 if unproved else 0


if __name__ == "__main__":
    sys.exit(main(sys.argv[1:]))
