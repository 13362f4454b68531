#!/usr/bin/env python3
"""Proves side by side each library that isn't proved as it stands, for `make build`.

`rt all check` gives each crate one process, and our crates are one long chain: most of the time it goes on with one or
two of them. Here no more processes go on than there are cores. The crate with the longest chain above it, by the
processor time that each took here last (out/seconds) or elsewhere (building/seconds), begins first, and where it is a
long one has the cores that no other crate which is ready waits for, up to four; each other one has one, at a lower
priority. Four processes take half as much processor time again as one, and more where cores are wanting. A library's
first check here makes one of statements alone, as `rt ci` does, and keeps nothing else: from nothing that takes least.
A later one keeps what it checked, so that the next has less to do. Each gets the stamp by which `rt run` takes it,
which proves the program itself. A crate that isn't proved ends this with status 1, and what it said is printed.
usage: building/prove.py, at the top of the repository
"""

import fcntl
import os
import pathlib
import shutil
import signal
import subprocess
import sys
import tempfile
import time

sys.path.insert(0, os.path.dirname(os.path.realpath(shutil.which("rt"))))
import rtlib
from hasten import hasten

CRATES = pathlib.Path("crates")
SECONDS = pathlib.Path("building/seconds")
PARTS = ["src", "specs", "proofs"]
MOST_JOBS = 4  # of the first check: more have nothing to do
LONG_SECONDS = 120  # a shorter check gets one process: mail_world's, of 58, was not over sooner by two
JOB_KIB = 2_500_000  # of memory that a process may take
LOWER = 10  # the niceness of those that fill what the first leaves


class Crate:
    def __init__(self, row, known):
        """The row is its line of crates.txt; `known` has each crate as rt knows it, by its name."""
        self.name = row.replace(":", " ").split()[0]
        self.known = known[self.name]
        self.folder = CRATES / self.name
        self.libraries = [it for it in row.partition(":")[2].split() if (CRATES / it).is_dir()]
        self.below = []
        self.cost = 0  # in seconds of processor time, as far as is known
        self.chain = 0  # the cost of the longest chain from this one upwards

    def seconds(self):
        """The seconds of processor time that its last check here took; None where it had none."""
        measured = self.folder / "out/seconds"
        return int(measured.read_text()) if measured.exists() else None

    def kept(self):
        """When its last check ended well; 0 where none did."""
        stamp = self.folder / "out/rlib/stamp"
        return stamp.stat().st_mtime if stamp.exists() else 0

    def changed(self):
        return max(path.stat().st_mtime for part in PARTS for path in self.folder.glob(f"{part}/**/*"))


def rows_of(path):
    """Its lines, without comments and empty ones."""
    return list(filter(None, (line.partition("#")[0].strip() for line in path.read_text().splitlines())))


def read_crates():
    """All libraries of crates.txt by name, each with all crates below it and its chain."""
    known = {it.name: it for it in rtlib.crates_below(str(CRATES.resolve()))}
    crates = {it.name: it for it in (Crate(row, known) for row in rows_of(pathlib.Path("crates.txt")))}
    crates = {name: it for name, it in crates.items() if not (it.folder / "src/main.rt").exists()}
    seconds = {name: int(count) for name, count in map(str.split, rows_of(SECONDS))}
    usual = sum(seconds.values()) // len(seconds)  # of a crate that has no row
    seconds |= {name: it.seconds() for name, it in crates.items() if it.seconds() is not None}

    def below(crate):
        found = {it.name: it for name in crate.libraries for it in [crates[name], *below(crates[name])]}
        return list(found.values())

    def chain(crate):
        if not crate.chain:
            above = [it for it in crates.values() if crate.name in it.libraries]
            crate.cost = seconds.get(crate.name, usual)
            crate.chain = crate.cost + max(map(chain, above), default=0)
        return crate.chain

    for crate in crates.values():
        crate.below = below(crate)
        chain(crate)
    return crates


class Check:
    """One crate's check, which makes its library."""

    def __init__(self, crate, jobs, niceness):
        self.crate, self.jobs, self.since, self.stamp = crate, jobs, time.monotonic(), crate.known.stamp()
        made = crate.folder / "out/rlib"
        is_first = not (made / "stamp").exists() and not crate.known.has_kept()
        shutil.rmtree(made, ignore_errors=True)
        made.mkdir(parents=True)
        self.said = tempfile.TemporaryFile("w+b")
        kept = ["--statements"] if is_first else rtlib.KEPT
        words = [rtlib.RATTLE, "build", *crate.known.words(["--jobs", str(jobs)]), *kept, "-o", crate.known.rlib]
        # a group of processes, and no session: the kernel weighs niceness within a session alone
        begin = lambda: (os.setpgrp(), os.nice(niceness))  # noqa: E731
        ends = {"stdin": subprocess.DEVNULL, "stdout": self.said, "stderr": subprocess.STDOUT}
        self.process = subprocess.Popen(words, cwd=crate.folder, preexec_fn=begin, **ends)
        self.seconds = 0  # of processor time, once it has ended

    def has_ended(self):
        """Whether it has, and then how much processor time it took, which the system knows until it is waited for."""
        if not os.waitid(os.P_PID, self.process.pid, os.WEXITED | os.WNOHANG | os.WNOWAIT):
            return False
        fields = pathlib.Path(f"/proc/{self.process.pid}/stat").read_text().rpartition(")")[2].split()
        # utime, stime, cutime and cstime, of which the latter two are its children's
        self.seconds = round(sum(map(int, fields[11:15])) / os.sysconf("SC_CLK_TCK"))
        return True

    def lead(self):
        """Takes the priority of the first, where this user may raise it."""
        try:
            os.setpriority(os.PRIO_PGRP, self.process.pid, 0)
        except OSError:  # it has ended, or only root may
            pass

    def finish(self):
        """Stamps the library that was made, and says whether the crate is proved."""
        if self.process.poll() is None:
            os.killpg(self.process.pid, signal.SIGKILL)
            self.process.wait()
        # after an edit meanwhile nobody can tell what was proved
        is_proved = self.process.returncode == 0 and self.stamp == self.crate.known.stamp()
        if is_proved:
            (self.crate.folder / "out/rlib/stamp").write_text(self.stamp)
            (self.crate.folder / "out/seconds").write_text(f"{self.seconds}\n")
            told = f"{time.monotonic() - self.since:.0f} s, {self.seconds} s of processor time"
            print(f"{self.crate.name} proved in {told}", flush=True)
        else:
            self.said.seek(0)
            sys.stdout.flush()
            sys.stdout.buffer.write(self.said.read())
            print(f"{self.crate.name} NOT PROVED", flush=True)
        return is_proved


def proved_as_they_stand(crates):
    """The names of those that were checked after they and all below them changed; rt itself looks closer."""
    found = set()
    for crate in sorted(crates.values(), key=lambda it: len(it.below)):
        newest = max([crate.changed(), *(it.kept() for it in crate.below)])
        if crate.kept() >= newest and all(it.name in found for it in crate.below):
            found.add(crate.name)
    return found


def memory():
    """KiB that are available."""
    for line in pathlib.Path("/proc/meminfo").read_text().splitlines():
        if line.startswith("MemAvailable:"):
            return int(line.split()[1])
    return 0


def next_check(left, proved, running):
    """Begins the ready crate with the longest chain, where cores and memory have room for it; None where not."""
    ready = [it for it in left if all(below.name in proved for below in it.below)]
    idle = len(os.sched_getaffinity(0)) - sum(it.jobs for it in running)
    if not ready or running and idle < 1:
        return None
    crate = max(ready, key=lambda it: it.chain)
    fits = memory() // JOB_KIB
    leads = all(it.crate.chain < crate.chain for it in running)
    if running and fits < 1:
        return None
    spare = idle - (len(ready) - 1) if leads and crate.cost >= LONG_SECONDS else 1
    left.remove(crate)
    return Check(crate, max(1, min(MOST_JOBS, spare, fits)), 0 if leads else LOWER)


def prove(crates):
    proved = proved_as_they_stand(crates)
    left = [it for it in crates.values() if it.name not in proved]
    running = []
    try:
        while left or running:
            while begun := next_check(left, proved, running):
                running.append(begun)
            if not running:
                return False
            time.sleep(0.2)
            for check in [it for it in running if it.has_ended()]:
                running.remove(check)
                if not check.finish():
                    return False
                proved.add(check.crate.name)
                if running:
                    max(running, key=lambda it: it.crate.chain).lead()
    finally:
        for check in running:
            check.finish()
    return True


def hold(crates):
    """Keeps each other rt out of the crates' folders, as rt itself does, until this program ends."""
    for crate in sorted(crates.values(), key=lambda it: it.folder):
        fcntl.flock(os.open(crate.folder, os.O_RDONLY), fcntl.LOCK_EX)


def main():
    signal.signal(signal.SIGTERM, lambda *_: sys.exit(1))
    hasten(rtlib)
    crates = read_crates()
    hold(crates)
    return 0 if prove(crates) else 1


if __name__ == "__main__":
    sys.exit(main())
