"""A large site beside a small one, for bench/large_site.sh."""

import contextlib
import pathlib
import statistics
import sys
import tempfile
import threading
import time

from clients import Client
from replies import stored
from server import Server

LANES = 4
TEXT = "\r\n".join(["Subject: x", "", *["x" * 62] * 31])  # 2 KiB
FEW = 40  # mailboxes that get further letters
AGAIN = 800  # of these in a round
ROUNDS = 12


def resident(server):
    """In KiB."""
    status = pathlib.Path(f"/proc/{server.process.pid}/status").read_text()
    return int(next(line for line in status.splitlines() if line.startswith("VmRSS:")).split()[1])


def deliver(address, names):
    """A letter to each of these, by one connection; each must be told 250."""
    with Client(address).greet() as client:
        for name in names:
            [told] = client.deliver_at_once([name], TEXT)[1]
            assert told == stored(name), (name, told)
        client.quit()


def rate(address, shares):
    """Letters a second, where each share goes by a connection of its own."""
    threads = [threading.Thread(target=deliver, args=(address, share)) for share in shares]
    began = time.monotonic()
    for thread in threads:
        thread.start()
    for thread in threads:
        thread.join()
    return sum(map(len, shares)) / (time.monotonic() - began)


class Site:
    """A server of that many mailboxes, each with a first letter, and what that took."""

    def __init__(self, folder, count, left):
        self.count, self.names = count, [f"u{number}" for number in range(count)]
        self.few = self.names[:: max(1, count // FEW)][:FEW]
        self.rounds = []
        mail = folder / str(count)
        mail.mkdir()
        boxes = folder / f"boxes{count}"
        boxes.write_text("\n".join(self.names) + "\n")
        began = time.monotonic()
        self.server = left.enter_context(Server(mail, [], 1_000_000, "--lanes", LANES, "--boxes", boxes))
        with Client(self.server.address).greet() as client:
            start = time.monotonic() - began
            client.quit()
        first = resident(self.server)
        new = rate(self.server.address, [self.names[lane::LANES] for lane in range(LANES)])
        print(f"| {count} | {start:.2f} | {first} | {new:.0f} | {resident(self.server)} |", flush=True)

    def deliver_round(self):
        shares = [self.few[lane::LANES] * (AGAIN // FEW) for lane in range(LANES)]
        self.rounds.append(rate(self.server.address, shares))

    def check(self):
        """Each mailbox has just its letters."""
        more = len(self.rounds) * (AGAIN // FEW)
        wrong = [name for name in self.names if self.letters(name) != 1 + more * (name in self.few)]
        assert not wrong, wrong[:3]

    def letters(self, name):
        return self.server.mailbox(name).read_bytes().count(b"\nSubject: x\n")


def main(counts):
    print("| mailboxes | start, s | resident, KiB | first letters a second | resident then, KiB |")
    print("|---|---|---|---|---|")
    with tempfile.TemporaryDirectory() as folder, contextlib.ExitStack() as left:
        sites = [Site(pathlib.Path(folder), count, left) for count in counts]
        for number in range(ROUNDS):
            for site in sites if number % 2 else reversed(sites):
                site.deliver_round()
        for site in sites:
            site.check()
        for site in sites:
            beside = statistics.median(one / other for one, other in zip(site.rounds, sites[0].rounds))
            middle = statistics.median(site.rounds)
            print(f"{site.count} mailboxes: {middle:.0f} letters a second to {FEW} of them, {beside:.2f} of the first")


main([int(number) for number in sys.argv[1:]] or [256, 65_536])
