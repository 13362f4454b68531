"""A server to which the system gives too few threads."""

import resource

from cases import case, equal
from clients import Client
from neighbours import Site

# A process, its mailboxes' threads, and two more: one that looks after a stop, and one lane.
THREADS, LANES = 6, 8


def with_few_threads():
    resource.setrlimit(resource.RLIMIT_NPROC, (THREADS, THREADS))


def greeting_of(address):
    """What a client hears first; nothing where the server is gone."""
    try:
        with Client(address) as client:
            return client.hear_or_end()
    except OSError:
        return ""


@case
def a_lane_without_a_thread(folder):
    """the system has no thread for some of eight lanes: the server ends at once with status 1 and `lmtpd: no thread`,
    and no client was greeted"""
    site = Site(folder)
    with site.serve("--lanes", LANES, preexec_fn=with_few_threads) as server:
        equal(greeting_of(server.address), "")
        ended = server.end()
        equal((ended.status, ended.said, ended.errors), (1, [], ["lmtpd: no thread"]))
