"""A moment in which the system gives the server no further descriptor, so that no client can be accepted."""

import resource
import time

from cases import case, equal
from clients import Client, deliver_one
from neighbours import MANY
from replies import stored
from server import Server

LANES = 4


@case
def a_moment_without_descriptors(folder):
    """for a second, as clients come, the server gets no further descriptor (EMFILE): they are served after it, on as
    many lanes at once as before"""
    with Server(folder, ["anna"], MANY, "--lanes", LANES) as server:
        equal(deliver_one(server.address, ["anna"], "before"), [stored("anna")])
        process = server.process.pid
        kept = [Client(server.address).greet() for _ in range(LANES)]
        soft, hard = resource.prlimit(process, resource.RLIMIT_NOFILE)
        resource.prlimit(process, resource.RLIMIT_NOFILE, (0, hard))
        for client in kept:
            client.quit()
        served = [Client(server.address) for _ in range(LANES)]
        time.sleep(1)
        resource.prlimit(process, resource.RLIMIT_NOFILE, (soft, hard))
        equal(server.process.poll(), None)
        for client in served:
            client.greet()
        for number, client in enumerate(served):
            equal(client.deliver(["anna"], f"after {number}")[1], [stored("anna")])
            client.quit()


a_moment_without_descriptors.seconds = 90
