"""A relay and three hosts, each a machine of its own with the package installed, on one network, by the lines of
docs/operating/CLUSTER.md; and a client that hands the relay letters."""

import collections
import contextlib
import os
import re
import subprocess
import sys
import tempfile
import time

import letters
from cases import Absent, equal
from in_a_machine import installed
from packages import install, program
from pages import PAGES

RELAY = 10  # the last number of its address
HOSTS = {"anna": 11, "ben": 12, "carla": 13}  # the host of each user of the page
MAP = "/etc/postfix/hosts"
# Hands over so many letters, to each of these users in turn, and says the user and the name of each that was taken, and
# how often it was put off before: it tries again after so many seconds, by a new connection, where these aren't 0.
CLIENT = r"""
import smtplib, sys, time
first, count, pause, again, *users = sys.argv[1:]
client = None
for number in range(int(count)):
    user, name, put_off = users[number % len(users)], f"{first}-{number}", 0
    head = f"Subject: {name}\r\nMessage-ID: <{name}@a.example>\r\n\r\n"
    text = "".join(f"{name} line {line}\r\n" for line in range(number % 50))
    letter = f"{head}{text}end of {name}\r\n".encode()
    while True:
        client = client or smtplib.SMTP("127.0.0.1", 25, local_hostname="client.example", timeout=60)
        try:
            client.sendmail("carl@a.example", [f"{user}@mx.example"], letter)
            break
        except smtplib.SMTPRecipientsRefused as refused:
            if not float(again) or any(code != 451 for code, _ in refused.recipients.values()):
                raise
            client.close()
            client, put_off = None, put_off + 1
            time.sleep(float(again))
    print(user, name, put_off)
    time.sleep(float(pause))
client.quit()
"""

# Says what the relay answers to a recipient.
RECIPIENT = """
import smtplib, sys
with smtplib.SMTP("127.0.0.1", 25, local_hostname="client.example", timeout=60) as client:
    client.ehlo()
    client.mail("carl@a.example")
    print(client.rcpt(f"{sys.argv[1]}@mx.example")[0])
"""


def blocks(heading):
    """The lines of the page that are typed, below that heading."""
    section = (PAGES / "CLUSTER.md").read_text().split(f"\n{heading}\n")[1].split("\n## ")[0]
    return section.split("```\n")[1::2]


def ip(*words):
    subprocess.run([program("ip", "iproute2"), *map(str, words)], check=True, capture_output=True)


class Network:
    """Machines are joined to it by the last number of their address."""

    def __init__(self):
        self.name = f"lmtpd-test-{os.getpid()}"

    def __enter__(self):
        ip("netns", "add", self.name)
        ip("-n", self.name, "link", "add", "bridge", "type", "bridge")
        ip("-n", self.name, "link", "set", "bridge", "up")
        return self

    def __exit__(self, *_):
        ip("netns", "delete", self.name)

    def join(self, machine, number):
        peer = ["peer", "name", "eth0", "netns", machine.first()]
        ip("-n", self.name, "link", "add", f"to{number}", "type", "veth", *peer)
        self.mend(number)
        typed(machine, f"ip address add 192.0.2.{number}/24 dev eth0; ip link set eth0 up")

    def cut(self, number):
        """What is sent there vanishes."""
        ip("-n", self.name, "link", "set", f"to{number}", "nomaster")

    def mend(self, number):
        ip("-n", self.name, "link", "set", f"to{number}", "master", "bridge", "up")


def typed(machine, lines, seconds=60):
    """Lines by root there, of which each ends with status 0."""
    status, said = machine.run(f"set -e\n{lines}", seconds)
    equal((lines, status, said if status else ""), (lines, 0, ""))
    return said


class Site:
    """The machines, by the last numbers of their addresses; letters that the relay took are `told`, as pairs of a user
    and a name; `put_off` is how often one was before."""

    def __init__(self, network, machines):
        self.network, self.machines, self.told, self.put_off = network, machines, [], 0
        self.relay = machines[RELAY]
        for number in HOSTS.values():
            [host, relay] = blocks("## Which host")
            self.type(number, host.replace("192.0.2.11", f"192.0.2.{number}"))
        self.type(RELAY, relay)

    def type(self, number, lines, seconds=60):
        return typed(self.machines[number], lines, seconds)

    def log(self):
        """What Postfix logged."""
        return self.type(RELAY, "journalctl --facility mail -o cat --no-pager")

    def wait(self, is_so, seconds=60):
        until = time.monotonic() + seconds
        while not is_so():
            assert time.monotonic() < until, (self.type(RELAY, "postqueue -p")[-400:], self.log()[-800:])
            time.sleep(0.2)

    def put(self, text):
        """The map of that text in the page's place."""
        self.type(RELAY, f"cat > {MAP} << 'END'\n{text}END\npostmap lmdb:{MAP}; postfix reload")

    @contextlib.contextmanager
    def client(self, first, count, pause, users=tuple(HOSTS), again=0, seconds=120):
        """Hands over letters until the end of a `with`, which waits for the last one."""
        words = [sys.executable, "-c", CLIENT, first, str(count), str(pause), str(again), *users]
        with tempfile.TemporaryFile("w+") as said:  # a pipe that nobody reads holds it up once it is full
            process = self.relay.begin(words, stdout=said, stderr=subprocess.STDOUT)
            try:
                yield
            finally:
                ended = process.wait(timeout=seconds)
                said.seek(0)
                lines = said.read().splitlines()
        equal((ended, len(lines), lines[-1:] if ended else []), (0, count, []))
        taken = [line.split() for line in lines]
        self.told += [(user, name) for user, name, _ in taken]
        self.put_off += sum(int(times) for _, _, times in taken)

    def send(self, first, count, users=tuple(HOSTS)):
        """So many letters, at once."""
        with self.client(first, count, 0, users):
            pass

    def is_sent(self, users=tuple(HOSTS)):
        """Whether each letter told of these users was handed over."""
        sent = collections.Counter(re.findall(r"to=<(\w+)@mx\.example>.* status=sent ", self.log()))
        told = collections.Counter(user for user, _ in self.told)
        return all(sent[user] == told[user] for user in users)

    def found(self, user, number, file="mbox"):
        """How often each letter stands there, whole, in that user's mailbox."""
        path = f"/proc/{self.machines[number].first()}/root/var/mail/lmtpd/{user}.{file}"
        names = collections.Counter()
        for text in letters.by_git(path):
            [name] = re.findall(rb"^Subject: (\S+)$", text, re.MULTILINE)
            assert text.endswith(b"\nend of " + name + b"\n"), text[-200:]
            names[name.decode()] += 1
        return names

    def may_be_twice(self):
        """How often each letter was told to nobody, though it may have been stored."""
        log = self.log()
        names = dict(re.findall(r"(\w+): message-id=<(\S+)@a\.example>", log))
        unsure = re.findall(r"(\w+): to=<\S+>.* message may be sent more than once", log)
        return collections.Counter(names[it] for it in unsure)

    def equal_all(self, hosts):
        """Each letter that was told is in its user's mailbox on that host, once, or more often where it may be; nothing
        bounced, and the queue is empty."""
        self.wait(lambda: self.type(RELAY, "postqueue -p") == "Mail queue is empty\n")
        unsure, all_told = self.may_be_twice(), collections.defaultdict(set)
        equal("status=bounced" in self.log(), False)
        for user, name in self.told:
            all_told[user].add(name)
        twice = 0
        for user, number in hosts.items():
            found, told = self.found(user, number), all_told[user]
            equal((user, sorted(set(found) - told), sorted(told - set(found))), (user, [], []))
            equal((user, [it for it in found if found[it] > 1 + unsure[it]]), (user, []))
            twice += sum(found.values()) - len(told)
        for number in set(hosts.values()):
            boxes = " ".join(f"{user}.mbox" for user in hosts if hosts[user] == number)
            self.type(number, f"cd /var/mail/lmtpd; lmtpd check {boxes}")
        return f"{len(self.told)} letters, {twice} twice of {sum(unsure.values())} that may be"

    def open_ssh(self, source, target):
        """Has root on one host copy files to another one."""
        home = "/root/.ssh"
        self.type(source, f"mkdir -p {home}; ssh-keygen -q -t ed25519 -N '' -f {home}/id_ed25519")
        self.type(source, f"echo 'StrictHostKeyChecking no' > {home}/config")
        key = self.type(source, f"cat {home}/id_ed25519.pub")
        self.type(target, f"mkdir -p -m 700 {home} /etc/dropbear; echo '{key.strip()}' > {home}/authorized_keys")
        self.type(target, "dropbear -R -s")


def known(there, user):
    """The relay's answer to that recipient."""
    words = [sys.executable, "-c", RECIPIENT, user]
    with there.relay.begin(words, stdout=subprocess.PIPE, text=True) as process:
        return int(process.communicate(timeout=60)[0])


def need_maps(kind):
    """Postfix's maps of that kind, from their package."""
    install(f"postfix-{kind}")
    said = subprocess.run([program("postconf", "postfix"), "-m"], check=True, capture_output=True, text=True)
    if kind not in said.stdout.split():
        raise Absent(f"Postfix has no maps by {kind} (package postfix-{kind})")


@contextlib.contextmanager
def site(folder, *more):
    """It is made, and its users are known where the page has them; a machine for each further number has none."""
    need_maps("lmdb")
    program("dropbear", "dropbear-bin")
    install("openssh-sftp-server")
    with contextlib.ExitStack() as stack:
        network = stack.enter_context(Network())
        machines = {}
        for number in [RELAY, *HOSTS.values(), *more]:
            place = folder / str(number)
            place.mkdir()
            machines[number] = machine = stack.enter_context(installed(place))
            network.join(machine, number)
            typed(machine, f"hostname host{number}")
        for user, number in HOSTS.items():
            typed(machines[number], f"printf '{user}\\nother\\n' > /etc/lmtpd.boxes")
        typed(machines[RELAY], "systemctl start postfix")
        yield Site(network, machines)
