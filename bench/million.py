"""A million letters to a large site, for bench/million.sh."""

import collections
import multiprocessing
import os
import pathlib
import random
import re
import subprocess
import sys
import tempfile
import time

from clients import Client
from replies import BUSY, RECIPIENT_OK, not_stored, stored
from server import Server

LANES = 4
AT_ONCE = 64  # recipients of a message
MOST = float(os.environ.get("SECONDS_AT_MOST", "inf"))
SUBJECT = re.compile(rb"^Subject: (\d+)$", re.MULTILINE)


def messages_of(names, each):
    """The recipients of each message, its number its place: each name stands in that many, in an order of chance."""
    chance = random.Random(1)
    for _ in range(each):
        order = chance.sample(names, len(names))
        for first in range(0, len(order), AT_ONCE):
            yield order[first : first + AT_ONCE]


def deliver(address, messages, lane, until, counts, put_off):
    """Each fourth message by one connection, whose copies that are put off are sent again, as by a relay."""
    with Client(address).greet() as client:
        for number in range(lane, len(messages), LANES):
            if time.monotonic() > until:
                break
            left = messages[number]
            while left:
                left = deliver_once(client, number, left)
                put_off[lane] += len(left)
                time.sleep(0.1 if left else 0)
            counts[lane] += 1
        client.quit()


def deliver_once(client, number, names):
    """Whom it was put off for; the others were told 250."""
    asked, told = client.deliver_at_once(names, f"Subject: {number}", "", "hello")
    taken = [name for name, answer in zip(names, asked, strict=True) if answer == RECIPIENT_OK]
    assert all(answer in [RECIPIENT_OK, BUSY] for answer in asked), asked
    is_stored = {name for name, answer in zip(taken, told, strict=True) if answer == stored(name)}
    assert all(answer in [stored(name), not_stored(name)] for name, answer in zip(taken, told)), told
    return [name for name in names if name not in is_stored]


def kilobytes(server, name="VmRSS"):
    status = pathlib.Path(f"/proc/{server.process.pid}/status").read_text()
    return int(re.search(rf"{name}:\s+(\d+)", status)[1])


def look_at(folder, messages, counts):
    """Each mailbox has just the letters that were told 250, each once; how many there are."""
    due = collections.defaultdict(list)
    for lane, count in enumerate(counts):
        for number in range(lane, len(messages), LANES)[:count]:
            for name in messages[number]:
                due[name].append(number)
    there = {}
    for entry in (entry for entry in os.scandir(folder) if entry.name.endswith(".mbox")):
        with open(entry.path, "rb") as file:
            there[entry.name.removesuffix(".mbox")] = sorted(map(int, SUBJECT.findall(file.read())))
    for name in due.keys() | there.keys():
        assert there.get(name) == sorted(due[name]), (name, there.get(name), due[name])
    return sum(map(len, there.values())), len(there)


def main(each=16, count=65_536):
    names = [f"u{number}" for number in range(count)]
    messages = list(messages_of(names, each))
    with tempfile.TemporaryDirectory() as place:
        folder = pathlib.Path(place) / "mail"
        folder.mkdir()
        (folder.parent / "boxes").write_text("\n".join(names) + "\n")
        disk = subprocess.run(["stat", "-f", "-c", "%T", folder], capture_output=True, text=True).stdout.strip()
        words = ["--lanes", LANES, "--boxes", folder.parent / "boxes"]
        with Server(folder, [], 1_000_000, *words) as server:
            with Client(server.address).greet() as client:
                client.quit()
            before, size = kilobytes(server), kilobytes(server, "VmSize")
            counts, put_off = multiprocessing.Array("q", LANES), multiprocessing.Array("q", LANES)
            began = time.monotonic()
            given = [(server.address, messages, lane, began + MOST, counts, put_off) for lane in range(LANES)]
            clients = [multiprocessing.Process(target=deliver, args=one) for one in given]
            for client in clients:
                client.start()
            said = began
            while any(client.is_alive() for client in clients):
                time.sleep(0.2)
                if time.monotonic() - said > 30:
                    said = time.monotonic()
                    sent = sum(counts) * AT_ONCE
                    print(f"{said - began:.0f} s: {sent:,} letters, {kilobytes(server):,} KiB resident", flush=True)
            took = time.monotonic() - began
            after, size_after = kilobytes(server), kilobytes(server, "VmSize")
            assert all(client.exitcode == 0 for client in clients), [client.exitcode for client in clients]
            letters, mailboxes = look_at(folder, messages, list(counts))
            print(f"{disk}: {letters:,} letters to {mailboxes:,} mailboxes in {took:.0f} s,", end=" ")
            print(f"{letters / took:,.0f} a second,", end=" ")
            print(f"each once, {sum(put_off)} put off; resident {before:,} KiB before, {after:,} after;", end=" ")
            print(f"address space {size:,}, {size_after:,}")
            server.process.terminate()


if __name__ == "__main__":
    main(*map(int, sys.argv[1:]))
