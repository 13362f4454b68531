"""usage: rounds.py FOLDER [--rounds N] [--times N | --together] [--works a,b,..] [--peers floor,ours,..] [--slow-sync]
                 [--picture FILE.svg]

The rounds and the table of bench/serve.sh, which built `load`, `floor`, `plain` and slowsync.so in FOLDER.
"""

import argparse
import contextlib
import os
import pathlib
import random
import shutil
import signal
import statistics
import subprocess
import sys
import time
from dataclasses import dataclass, field

import peers
import picture

PEERS = ["floor", "plain", "smtp-sink", "dovecot", "ours"]


@dataclass
class Work:
    connections: int
    messages: int  # on each connection
    recipients: int
    size: int
    boxes: int
    # Of all but Dovecot that many times as many messages, so that no run is too short to tell. A mailbox that
    # grows costs Dovecot time, so the smaller number is in its favour.
    times: int
    burst: int  # the messages on each connection of one burst, where servers live together
    # The least ratio of ours to a peer. `before` is a program that moves 512 bytes at a time (74e1518b).
    needed: dict = field(default_factory=dict)


WORKS = {
    "a": Work(4, 500, 1, 2048, 4, 5, 400, {"dovecot": 5, "smtp-sink": 0.8, "plain": 0.65, "before": 0.97}),
    "a1": Work(4, 500, 1, 2048, 1, 5, 400, {"dovecot": 8, "before": 0.97}),
    "b": Work(4, 100, 10, 20480, 40, 3, 60, {"dovecot": 5, "before": 0.97}),
    "b10": Work(4, 100, 10, 20480, 10, 3, 60, {"dovecot": 10, "before": 0.97}),
    "c": Work(1, 20, 1, 1048576, 1, 5, 50, {"dovecot": 2.5, "plain": 0.65, "before": 1.25}),
    "c4": Work(4, 10, 1, 1048576, 4, 3, 20, {"plain": 0.65, "before": 1.25}),
}
# The least ratio of ours with a word to ours without it, or to the older program with it.
NEEDED_WITH = {
    ("logged", "ours"): {"a": 0.9},
    ("logged", "before-logged"): dict.fromkeys(["a", "a1", "b", "b10"], 0.97),
    ("quota", "ours"): dict.fromkeys(WORKS, 0.95),
    ("renamed", "ours"): {"b": 0.95, "c": 0.95},
    ("refusing", "ours"): dict.fromkeys(WORKS, 0.95),
}
NEEDED_SLOW = {"a": {"floor": 0.9}}
# Of servers that live together: then all begin anew, since mailboxes of gigabytes take the memory that is free, and a
# mailbox of ours that is busy for 20 seconds is left alone for its readers.
ROUNDS_OF_A_STORE = 5


@dataclass
class Run:
    rate: float  # deliveries a second
    uneven: float  # the slowest connection's time over the quickest's
    p50: float
    p99: float


class Fault(Exception):
    pass


def main():
    options = argparse.ArgumentParser()
    options.add_argument("folder", type=pathlib.Path)
    options.add_argument("--rounds", type=int, default=3)
    lengths = options.add_mutually_exclusive_group()
    lengths.add_argument("--times", type=int)
    lengths.add_argument("--together", action="store_true")
    options.add_argument("--works", default=",".join(WORKS))
    options.add_argument("--peers", default=",".join(PEERS))
    options.add_argument("--slow-sync", action="store_true")
    options.add_argument("--picture", type=pathlib.Path)
    given = options.parse_args()
    signal.signal(signal.SIGTERM, lambda *_: sys.exit(143))
    # Dovecot's processes and smtp-sink aren't root's, and pass through the folder.
    given.folder.chmod(0o711)
    bench = Bench(given.folder, given.slow_sync, given.times)
    works, names = given.works.split(","), given.peers.split(",")
    if given.together and "floor" in names:
        options.error("floor is no server, and has no bursts")
    there = [name for name in names if name == "floor" or not say_absent(name)]
    say_machine(given)
    every_run = bench.bursts if given.together else bench.fresh_runs
    runs = {}
    for number, work, name, run in every_run(works, there, given.rounds):
        runs[work, name, number] = run
        say_run(number, work, name, run)
    if given.picture:
        given.picture.write_text(picture.drawn(works, there, medians(works, there, runs, given.rounds)))
    return print_tables(works, there, given, runs)


def medians(works, names, runs, rounds):
    """Deliveries a second, by work and peer."""
    pairs = [(work, name) for work in works for name in names]
    return {pair: statistics.median(runs[(*pair, number)].rate for number in range(rounds)) for pair in pairs}


def say_absent(name):
    why = peers.absent(name)
    if why:
        print(f"left out: {name}, {why}")
    return why


def say_machine(given):
    stat = subprocess.run(["stat", "-f", "-c", "%T", given.folder], capture_output=True, text=True)
    date = time.strftime("%Y-%m-%d %H:%M UTC", time.gmtime())
    slow = ", each sync 2 ms slower" if given.slow_sync else ""
    machine = f"{os.cpu_count()} cores, load {os.getloadavg()[0]:.1f}, {stat.stdout.strip()}"
    together = " of bursts" if given.together else ""
    print(f"{date}, {machine}, {given.rounds} rounds{together}{slow}", flush=True)


def say_run(number, work, name, run):
    text = f"{run.rate:,.0f}/s, 99 of 100 in {run.p99:.2f} ms, slowest connection {run.uneven:.2f}"
    load = os.getloadavg()[0]
    print(f"round {number + 1}, {work}, {name}: {text} of the quickest, load {load:.1f}", file=sys.stderr)


class Bench:
    def __init__(self, folder, is_slow, times):
        self.folder = folder
        self.times = times  # in place of the works' own; None where they stay
        self.preload = str(folder / "slowsync.so") if is_slow else None
        self.is_slow = is_slow

    def fresh_runs(self, works, names, rounds):
        """Each round's runs, one after the other, each with a fresh store."""
        for number in range(rounds):
            for work in works:
                # each round begins with another peer
                for name in names[number % len(names) :] + names[: number % len(names)]:
                    yield number, work, name, self.run(work, name)

    def bursts(self, works, names, rounds):
        """Of each work all rounds, in which servers that live together get a burst each, in an order of chance."""
        chance = random.Random(1)
        for work in works:
            for first in range(0, rounds, ROUNDS_OF_A_STORE):
                numbers = range(first, min(first + ROUNDS_OF_A_STORE, rounds))
                with contextlib.ExitStack() as stack:
                    servers = {name: stack.enter_context(self.living(WORKS[work], name)) for name in names}
                    for number in numbers:
                        for name in chance.sample(names, len(names)):
                            yield number, work, name, self.burst(servers[name], WORKS[work])
                    for name, server in servers.items():
                        self.check(server, name, WORKS[work], WORKS[work].burst * len(numbers))

    @contextlib.contextmanager
    def living(self, work, name):
        """A server with a store of its own, which is gone afterwards."""
        folder = self.folder / f"peer-{name}"
        folder.mkdir(mode=0o755)
        try:
            server = peers.Server(name, folder, self.preload)
            try:
                self.begin(server, work)
                yield server
            finally:
                server.end()
        finally:
            shutil.rmtree(folder)

    def burst(self, server, work):
        return self.load(server, "m", work, work.connections, work.burst, work.recipients)

    def run(self, name, peer):
        """One run of a work with a fresh store, which is gone afterwards."""
        work = WORKS[name]
        more = 1 if peer == "dovecot" or self.is_slow else self.times or work.times
        if peer != "floor":
            with self.living(work, peer) as server:
                run = self.load(server, "m", work, work.connections, work.messages * more, work.recipients)
                self.check(server, peer, work, work.messages * more)
            return run
        folder = self.folder / f"peer-{peer}"
        folder.mkdir()
        try:
            return self.floor(work, work.messages * more, folder)
        finally:
            shutil.rmtree(folder)

    def floor(self, work, messages, folder):
        words = [work.connections, messages, work.recipients, work.size, work.boxes]
        return self.measure([self.folder / "floor", folder, *words], preload=self.preload)

    def begin(self, server, work):
        """A message to all mailboxes, so that each is made, and some on as many connections."""
        self.load(server, "w", work, 1, 1, work.boxes)
        self.load(server, "w", work, work.connections, 2, work.recipients)

    def check(self, server, name, work, messages):
        """That all copies of the measured messages are in the mailboxes."""
        needed = work.connections * messages * work.recipients
        stored = count_copies(server.store)
        if name != "smtp-sink" and stored != needed:
            raise Fault(f"{name}: {stored} of {needed} copies are in the mailboxes")

    def load(self, server, tag, work, connections, messages, recipients):
        words = [server.address, tag, connections, 1, messages, recipients, work.size, work.boxes]
        return self.measure([self.folder / "load", *words])

    def measure(self, words, preload=None):
        environment = dict(os.environ, LD_PRELOAD=preload) if preload else None
        words = [str(word) for word in words]
        said = subprocess.run(words, capture_output=True, text=True, timeout=300, env=environment)
        if said.returncode != 0:
            raise Fault(f"{' '.join(words)}: {said.stderr.strip()}")
        found = {name: float(value) for name, value in (part.split("=") for part in said.stdout.split())}
        rate = found["deliveries"] / found["seconds"]
        return Run(rate, found["uneven"], found["p50_ms"], found["p99_ms"])


def count_copies(store):
    """The copies of the measured messages in all mailboxes of the store."""
    paths = list(store.rglob("*.mbox"))
    if not paths:
        return 0
    words = ["grep", "-hac", "^Message-ID: <m[.]", *paths]
    said = subprocess.run(words, capture_output=True, text=True, env=dict(os.environ, LC_ALL="C"))
    return sum(int(line) for line in said.stdout.split())


def print_tables(works, names, given, runs):
    columns = "deliveries a second (least to most) | median message, ms | 99 of 100, ms | uneven, most"
    print(f"\n| work | peer | {columns} |")
    print("|---|---|---|---|---|---|")
    for work in works:
        for name in names:
            all_of = [runs[work, name, number] for number in range(given.rounds)]
            rates = [run.rate for run in all_of]
            p50, p99 = (statistics.median(getattr(run, key) for run in all_of) for key in ("p50", "p99"))
            rate = f"{statistics.median(rates):,.0f} ({min(rates):,.0f} to {max(rates):,.0f})"
            uneven = max(run.uneven for run in all_of)
            print(f"| {work} | {name} | {rate} | {p50:.2f} | {p99:.2f} | {uneven:.2f} |")
    print("\n| work | | to | ratio (least to most) | target | |")
    print("|---|---|---|---|---|---|")
    missed = 0
    for work in works:
        needed = NEEDED_SLOW.get(work, {}) if given.slow_sync else WORKS[work].needed
        for name, other in [*NEEDED_WITH, *pairs_of(names)]:
            if not {name, other} <= {*names}:
                continue
            ratios = [runs[work, name, n].rate / runs[work, other, n].rate for n in range(given.rounds)]
            least = needed.get(other) if name == "ours" else NEEDED_WITH.get((name, other), {}).get(work)
            missed += print_ratio(work, name, other, ratios, least)
    return 1 if missed else 0


def pairs_of(names):
    """Ours and `plain`, each beside those that it is compared with, whose programs have no word more."""
    others = [name for name in names if name not in ("logged", "before-logged", "quota", "renamed", "refusing")]
    ours = [("ours", other) for other in others if other != "ours"]
    return ours + [("plain", other) for other in others if other not in ("plain", "ours", "before")]


def print_ratio(work, name, other, ratios, needed):
    """Whether the median is less than it is to be."""
    ratio = statistics.median(ratios)
    is_missed = needed is not None and ratio < needed
    verdict = "" if needed is None else "missed" if is_missed else "reached"
    found = f"{ratio:.2f} ({min(ratios):.2f} to {max(ratios):.2f})"
    print(f"| {work} | {name} | {other} | {found} | {needed or ''} | {verdict} |")
    return is_missed


if __name__ == "__main__":
    try:
        sys.exit(main())
    except (Fault, RuntimeError, subprocess.TimeoutExpired) as fault:
        sys.exit(f"bench/serve.sh: {fault}")
