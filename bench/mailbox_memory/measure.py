"""usage: measure.py FOLDER [MAILBOXES [FEW]]: the table of bench/mailbox_memory.sh, which built live.so in FOLDER."""

import os
import pathlib
import re
import statistics
import struct
import sys
import time

from clients import Client
from server import Server

STARTS = 5
LANES = 4
MOST = 1_024  # bytes of a mailbox


def started(folder, count, **how):
    """A server of that many mailboxes, once it greeted a client and all its threads wait."""
    boxes = folder / f"boxes{count}"
    boxes.write_text("".join(f"u{number:05}\n" for number in range(count)))
    mail = folder / "mail"
    mail.mkdir(exist_ok=True)
    server = Server(mail, [], 1_000_000, "--lanes", LANES, "--boxes", boxes, **how)
    with Client(server.address).greet() as client:
        client.quit()
    time.sleep(0.5)
    return server


def resident(folder, count):
    """In bytes: all, and what is no file's."""
    with started(folder, count) as server:
        status = pathlib.Path(f"/proc/{server.process.pid}/status").read_text()
    return [1024 * int(re.search(rf"{name}:\s+(\d+)", status)[1]) for name in ["VmRSS", "RssAnon", "VmSize"]]


def asked(folder, count):
    """Bytes that it asked for and has, the same with malloc's own, and the pieces."""
    told = folder / "live"
    told.unlink(missing_ok=True)
    how = {"env": dict(os.environ, LD_PRELOAD=str(folder / "live.so"), LIVE_BYTES=str(told))}
    with started(folder, count, **how):
        return struct.unpack("qqq", told.read_bytes())


def main(folder, many=65_536, few=256):
    folder = pathlib.Path(folder)
    more = many - few
    rows = {}
    for name, measure in [("resident", resident), ("asked", asked)]:
        runs = {count: [measure(folder, count) for _ in range(STARTS)] for count in [few, many]}
        rows[name] = {count: [min(column) for column in zip(*found)] for count, found in runs.items()}
        middle = {count: [statistics.median(column) for column in zip(*found)] for count, found in runs.items()}
        print(name, {count: [f"{int(one):,}" for one in found] for count, found in middle.items()}, "medians")
    names = ["resident", "resident, no file's", "address space", "asked of malloc", "with malloc's own", "pieces"]
    print(f"| of a server | {few} mailboxes | {many} | by mailbox |")
    print("|---|---|---|---|")
    kept = {}
    ones, others = [[number for row in rows.values() for number in row[count]] for count in [few, many]]
    for name, one, other in zip(names, ones, others, strict=True):
        kept[name] = (other - one) / more
        print(f"| {name} | {one:,} | {other:,} | {kept[name]:,.1f} |")
    bounded = ["resident", "asked of malloc", "with malloc's own"]
    too_many = {name: f"{kept[name]:.1f}" for name in bounded if kept[name] > MOST}
    sys.exit(f"above {MOST:,}: {too_many}" if too_many else 0)


main(sys.argv[1], *map(int, sys.argv[2:]))
