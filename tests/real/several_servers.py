"""One Postfix and three instances of the installed service, with the recipients shared out among them."""

import time

from cases import case, equal
from in_a_machine import in_a_machine
from mail import equal_mailbox, message
from postfix import Postfix
from service import Service, systemctl

NAMES = ["anna", "ben", "carla"]
ROUNDS = 10


@case
@in_a_machine()
def recipients_are_shared_out(folder):
    """One Postfix and three instances of the service by transport_maps: one is stopped with its socket and started
    again, and killed; nothing is lost or comes twice"""
    services = {name: Service([name], name=name) for name in NAMES}
    (folder / "transport").write_text(
        "".join(f"{name}@mx.example lmtp:unix:{service.address}\n" for name, service in services.items())
    )
    maps = f"transport_maps = texthash:{folder}/transport"
    systemctl("disable", "--now", "lmtpd.socket", "lmtpd")
    # a server that is away is tried again at once, and not after minutes
    with Postfix(folder, maps, "lmtp_connection_cache_on_demand = no") as postfix:
        for service in services.values():
            service.__enter__()
        for number in range(ROUNDS):
            if number == 3:
                services["ben"].stop()
            if number == 6:
                services["ben"].__enter__()
            if number == 8:
                services["ben"].kill()
            postfix.send([f"{name}@mx.example" for name in NAMES], message(f"round{number}"))
            wait_for_tries(postfix, number + 1)
        until = time.monotonic() + 20
        while time.monotonic() < until and sent(postfix, "ben") < ROUNDS:
            postfix.flush()
            time.sleep(0.5)
        for name, service in services.items():
            equal((name, sent(postfix, name)), (name, ROUNDS))
            path = service.mailbox(name)
            if name != "ben":
                equal_mailbox(path, [f"round{number}" for number in range(ROUNDS)])
            service.stop()
        equal(sorted(subjects(services["ben"].mailbox("ben"))), sorted(f"round{n}" for n in range(ROUNDS)))


recipients_are_shared_out.seconds = 180


def wait_for_tries(postfix, count):
    for name in NAMES:
        postfix.fate(f"{name}@mx.example", count)


def sent(postfix, name):
    return sum(word == "sent" for word, _ in postfix.fates(f"{name}@mx.example"))


def subjects(path):
    return [line.split()[1] for line in path.read_text().splitlines() if line.startswith("Subject: ")]
