"""The journal of the service as it is installed, under journald's own limits: each line is there, at facility mail."""

import concurrent.futures
import pathlib
import re
import subprocess
import time

from cases import case, equal
from clients import Client
from in_a_machine import in_a_machine
from replies import stored
from service import Service, systemctl

UNIT = "/usr/lib/systemd/system/lmtpd.service"
LETTERS = 45_000
NAMES = ["anna", "ben", "carla", "dora"]  # a client and a lane for each
COPY = re.compile(r"\[INFO  lmtpd\] copy answered id=(\S+) mailbox=(\w+) outcome=stored code=250 ")


@case
@in_a_machine()
def each_letter_has_a_line(_folder):
    """45,000 letters in a burst, and journald with its own limits: the journal has a line for each of them"""
    with Service(NAMES) as service:
        with concurrent.futures.ThreadPoolExecutor(len(NAMES)) as pool:
            each = LETTERS // len(NAMES)
            list(pool.map(lambda name: deliver(service.address, name, each), NAMES))
        found = [COPY.search(line) for line in service.lines()]
        copies = [line.groups() for line in found if line]
        equal({name: [box for _, box in copies].count(name) for name in NAMES}, dict.fromkeys(NAMES, each))
        equal(len({number for number, _ in copies}), LETTERS)
        words = ["journalctl", "-u", service.unit, "--facility", "mail", "--grep", "copy answered ", "-o", "cat"]
        said = subprocess.run([*words, "--no-pager"], check=True, capture_output=True, text=True).stdout
        equal(len(said.splitlines()), LETTERS)


each_letter_has_a_line.seconds = 420


@case
@in_a_machine(("rsyslogd", "rsyslog"))
def a_syslog_beside_it(_folder):
    """45,000 lines in a burst, as the unit logs, and rsyslog beside journald: the journal has each, /var/log/mail.log
    has no more than that"""
    log = pathlib.Path("/var/log/mail.log")
    given = [f"-p{line}" for line in pathlib.Path(UNIT).read_text().splitlines() if line.startswith(("Log", "Syslog"))]
    systemctl("start", "syslog.socket", "rsyslog")
    lines = ["seq", "-f", "copy answered id=%.0f", str(LETTERS)]
    subprocess.run(["systemd-run", "--quiet", "--wait", "--unit=burst", *given, *lines], check=True)
    subprocess.run(["journalctl", "--sync"], check=True)
    time.sleep(5)
    kept = subprocess.run(["journalctl", "-u", "burst", "-o", "cat", "--no-pager"], capture_output=True, text=True)
    counts = [len(re.findall(r"copy answered id=\d", text)) for text in [kept.stdout, log.read_text()]]
    equal((counts[0], counts[1] <= LETTERS, counts[1] > 0), (LETTERS, True, True))
    print(f"of {LETTERS} lines {counts[1]} in {log}", end="; ")


a_syslog_beside_it.seconds = 180


def deliver(address, name, count):
    with Client(address).greet() as client:
        for number in range(count):
            equal(client.deliver_at_once([name], f"Subject: {number}", "", "hello")[1], [stored(name)])
        client.quit()
