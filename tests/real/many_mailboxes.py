"""Several servers on one machine: the recipe of docs/operating/SETUP.md, where the first process is systemd."""

import re
import time

from cases import case, equal
from ten_lines import ROOT, checked, machine, type_lines

HEADING = "## Several servers"
SEND = "printf 'Subject: {}\\n\\nhello\\n' | sendmail {}"


@case
def instances_of_the_service(folder):
    """the recipe of docs/operating/SETUP.md, typed as it stands: 512 mailboxes on two servers; typed again with a third
    server and a new name in one that runs, whose letters come at once, while the other goes on; with a name that can't
    be used it stops there"""
    names = {part: [f"{part}{number}" for number in range(256)] for part in "ab"}
    with machine(folder) as there:
        type_lines(there)
        equal(there.run("mkdir /etc/lmtpd"), (0, ""))
        for part in names:
            line = f"for number in $(seq 0 255); do echo {part}$number; done > /etc/lmtpd/{part}.boxes"
            equal(there.run(line), (0, ""))
        for line in recipe():
            equal((line, there.run(line)[0]), (line, 0))
        equal(there.run("wc -l < /etc/postfix/transport"), (0, "512\n"))
        tried = [name for part in names.values() for name in [part[0], part[255]]]
        deliver(there, "first", tried)
        # which came with their first letters, and count as active after a second
        equal(there.run("systemctl start lmtpd@a lmtpd@b"), (0, ""))
        equal(there.run("systemctl is-active lmtpd lmtpd@a lmtpd@b")[1], "inactive\nactive\nactive\n")
        owners = there.run("stat -c '%U %a' /var/spool/postfix/private/lmtpd-a /var/spool/postfix/private/lmtpd-b")
        equal(owners, (0, "postfix 600\npostfix 600\n"))
        before = processes(there, "a", "b")
        # a new user in another one's place, and a user of a third server
        equal(there.run("sed -i 's/^b255$/frieda # new/' /etc/lmtpd/b.boxes; echo carla > /etc/lmtpd/c.boxes"), (0, ""))
        for line in recipe():
            equal((line, there.run(line)[0]), (line, 0))
        after = processes(there, "a", "b")
        equal((after[0] == before[0], after[1] == before[1]), (True, False))
        deliver(there, "second", ["frieda", "carla"])
        equal(there.run("postqueue -p")[1], "Mail queue is empty\n")
        look_at_all(there)
        look_at_faults(there)
        log = there.run("journalctl -u lmtpd@b --no-pager")[1]
        equal(("b0 stored 1" in log, "a0 stored" in log), (True, False))


instances_of_the_service.seconds = 240


def look_at_faults(there):
    """Where a name can't be used, of a server that runs or of a new one, the recipe stops there: the servers and
    Postfix's map are as they were; with the name mended it goes on."""
    before = processes(there, "a", "b", "c")
    there.run("sed -i s/b254/bert/ /etc/lmtpd/b.boxes; cp /etc/postfix/transport /tmp")
    for part in "cd":
        there.run(f"cp /etc/lmtpd/{part}.boxes /tmp; echo Dora > /etc/lmtpd/{part}.boxes")
        equal((part, there.run(recipe()[0])[0]), (part, 1))
        equal(there.run("cmp /etc/postfix/transport /tmp/transport"), (0, ""))
        equal(there.run(f"cp /tmp/{part}.boxes /etc/lmtpd/ || echo dora > /etc/lmtpd/{part}.boxes")[0], 0)
    equal(there.run(recipe()[0])[0], 0)
    after = processes(there, "a", "b", "c")
    equal([one == other for one, other in zip(before, after)], [True, False, False])
    deliver(there, "third", ["bert", "dora"])


def processes(there, *parts):
    return [there.run(f"systemctl show -p MainPID --value lmtpd@{part}")[1] for part in parts]


def look_at_all(there):
    """What docs/operating/TROUBLE.md has in the place of one server's unit and socket."""
    unit, socket = re.findall(r"`(-u 'lmtpd@\*')`.*`('/\S+\*')`", (ROOT / "docs/operating/TROUBLE.md").read_text())[0]
    for name in ["a0", "carla"]:
        said = there.run(f"journalctl {unit} --no-pager -g 'copy answered.* mailbox={name} '")
        equal((name, said[0], said[1].count("copy answered")), (name, 0, 1))
    equal(len(there.run(f"ss -Hxl src {socket}")[1].splitlines()), 3)


def recipe():
    """All its lines, which are one command."""
    return [(ROOT / "docs/operating/SETUP.md").read_text().split(HEADING)[1].split("```\n")[1].strip()]


def deliver(there, subject, names):
    """Has Postfix send one letter to these, and waits until each has it, as its first."""
    equal(there.run(SEND.format(subject, " ".join(f"{name}@mx.example" for name in names)))[0], 0)
    paths = " ".join(f"/var/mail/lmtpd/{name}.mbox" for name in names)
    until = time.monotonic() + 60
    while there.run(f"lmtpd check {paths}") != (0, checked(**{name: 1 for name in names})):
        assert time.monotonic() < until, there.run("postqueue -p; journalctl -n 30 --no-pager")[1][-1500:]
        time.sleep(0.5)
