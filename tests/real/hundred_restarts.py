"""A hundred restarts under load, or as many as RESTARTS says."""

import os
import time

from cases import case, equal
from in_a_machine import in_a_machine
from restarts import MANY, Load, judge, restart_under_load
from server import Server
from service import Service

RESTARTS = int(os.environ.get("RESTARTS", "100"))
SECONDS_EACH = 4
# So long that systemd, which lets a service be started thirty times in twenty seconds, doesn't give it up.
SERVES = 0.7
# With all that systemd does meanwhile; how soon the server itself ends is looked at where it is its own server.
RESTARTED_WITHIN = 10


@case
@in_a_machine()
def restarts_of_the_service(folder):
    """a hundred times `systemctl restart lmtpd` beside three clients at its socket: each ends in its time, each
    numbered letter is there once, and no client is refused"""
    with Service(["anna"]) as service, Load(service.address) as load:
        longest = max(restarted(service) for _ in range(RESTARTS))
        load.is_over.set()
        load.join()
        equal(service.restarts(), 0)
        print(f"the longest restart took {longest:.2f} s", end=", ")
        equal(judge(load, service.mailbox("anna"), RESTARTS), 0)
        assert longest < RESTARTED_WITHIN, longest


def restarted(service):
    """How long that took."""
    time.sleep(SERVES)
    since = time.monotonic()
    service.restart()
    return time.monotonic() - since


@case
def restarts_over_a_unix_socket(folder):
    """a hundred orderly restarts beside three clients, each server with a Unix socket of its own: a client that is
    refused comes again, and each numbered letter is there once"""
    path = folder / "sock"

    def begin():
        return Server(folder, ["anna"], MANY, "--lanes", 1, "--stop-file", folder / "stop", listen=f"unix:{path}")

    restart_under_load(folder, begin, path, RESTARTS)


restarts_of_the_service.seconds = 120 + SECONDS_EACH * RESTARTS
restarts_over_a_unix_socket.seconds = 60 + SECONDS_EACH * RESTARTS
