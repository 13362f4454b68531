"""What the benchmarks of single parts share: a program and its peer, run by turns, so that a ratio means something on a
machine that does other work."""

import subprocess


def run(program, words=1):
    """What the program printed of each measurement, whose name has that many words: by name a number, microseconds in
    most, and the counts after it."""
    said = subprocess.run([program], check=True, capture_output=True, text=True).stdout
    rows = [line.split(" ", words + 1) for line in said.splitlines()]
    return {" ".join(row[:words]): (int(row[words]), "".join(row[words + 1 :])) for row in rows}


def by_turns(programs, times, words=1):
    """The runs of each of the programs."""
    runs = [[run(program, words) for program in programs] for _ in range(times)]
    return list(zip(*runs))


def best(runs, name):
    return min(one[name][0] for one in runs)
