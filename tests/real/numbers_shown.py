"""The numbers that lmtpd-metrics makes of the journal, as Debian's prometheus-node-exporter shows them."""

import pathlib
import re
import subprocess
import time
import urllib.request

from cases import case, equal
from clients import Client, deliver_one
from in_a_machine import in_a_machine
from pages import lines_of, type_lines
from replies import stored
from service import Service, systemctl

COUNTS = pathlib.Path("/var/lib/lmtpd/metrics")
PORT = 9100
LETTERS = 20


@case
@in_a_machine(("prometheus-node-exporter", "prometheus-node-exporter"))
def numbers_for_prometheus(_folder):
    """lmtpd-metrics by the typed line of docs/operating/LOG.md, under its unit, beside the installed service and an
    instance: prometheus-node-exporter shows what was answered; restarts, a counting twice at once and a place that the
    journal lost double nothing"""
    with Service(["anna", "ben"]) as service, Service(["carla"], name="a") as other:
        systemctl("start", "prometheus-node-exporter")
        deliver_one(service.address, ["anna"], "before anybody counts")
        type_lines(lines_of("LOG.md", "### Numbers to look at").splitlines()[1])
        wait_for("starts_total", 0)
        for number in range(LETTERS):
            equal(deliver_one(service.address, ["anna", "ben"], f"letter {number}"), [stored("anna"), stored("ben")])
        equal(deliver_one(other.address, ["carla"], "hello"), [stored("carla")])
        with Client(service.address).greet() as client:
            for line in ["MAIL FROM:<carl@a.example>", "RCPT TO:<nobody@mx.example>", "EXPN anna"]:
                client.ask(line)
        service.restart()
        count()
        expected = {'letters_total{outcome="stored"}': 2 * LETTERS + 1, "seconds_count": 2 * LETTERS + 1}
        expected |= {"starts_total": 1, "refused_commands_total": 1, 'mailboxes{state="failed"}': 0}
        for name, number in expected.items():
            wait_for(name, number)
        found = shown()
        equal(sum(found[name] for name in found if name.startswith("refused_recipients_total")), 1)
        twice = [subprocess.Popen(["/usr/sbin/lmtpd-metrics"]) for _ in range(4)]
        equal([one.wait() for one in twice], [0] * 4)
        equal({name: shown()[name] for name in expected}, expected)
        # the journal has it no more, and what comes then is counted
        COUNTS.write_text(re.sub("(?m)^place .*$", "place s=0;i=1;b=0;m=1;t=1;x=1", COUNTS.read_text()))
        count()
        said = subprocess.run(["journalctl", "-u", "lmtpd-metrics", "-o", "cat"], capture_output=True, text=True)
        assert "what is counted begins now" in said.stdout.splitlines()[-3], said.stdout
        equal(deliver_one(other.address, ["carla"], "hello"), [stored("carla")])
        count()
        wait_for('letters_total{outcome="stored"}', 2 * LETTERS + 2)
        equal(shown(whose="node_textfile_")["scrape_error"], 0)


numbers_for_prometheus.seconds = 240


def count():
    """What the journal has by now; the unit says that it succeeded."""
    subprocess.run(["journalctl", "--sync"], check=True)
    systemctl("start", "lmtpd-metrics.service")


def said():
    """What lmtpd-metrics and the exporter said in the end."""
    words = ["journalctl", "-u", "lmtpd-metrics", "-u", "prometheus-node-exporter", "-n", "9", "-o", "cat"]
    return subprocess.run(words, capture_output=True, text=True).stdout


def shown(whose="lmtpd_"):
    """What the exporter shows, by name."""
    with urllib.request.urlopen(f"http://127.0.0.1:{PORT}/metrics", timeout=20) as page:
        lines = page.read().decode().splitlines()
    found = [line.rsplit(" ", 1) for line in lines if line.startswith(whose)]
    return {name.removeprefix(whose): float(number) for name, number in found}


def wait_for(name, number):
    until = time.monotonic() + 40
    while True:
        try:
            if (found := shown()).get(name) == number:
                return
        except OSError as fault:  # it doesn't listen yet
            found = fault
        assert time.monotonic() < until, (name, number, found, said())
        time.sleep(0.5)
