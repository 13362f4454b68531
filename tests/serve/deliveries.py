"""Real clients deliver, and other programs read what is in the mailboxes."""

import calendar
import os
import re
import shutil
import smtplib
import socket
import stat
import subprocess
import time
from concurrent.futures import ThreadPoolExecutor

import letters
from cases import Absent, case, equal
from clients import Client, deliver_one
from replies import over_quota, stored
from server import Server

HARD_LINES = ["Subject: hard lines", "", "From here on", ">From there", "..a dot", "", "\ta tab", "end", ""]


def installed(name):
    path = shutil.which(name, path=f"{os.environ['PATH']}:/usr/sbin")
    if path is None:
        raise Absent(name)
    return path


def tool(*given, text=None):
    both = {"stdout": subprocess.PIPE, "stderr": subprocess.STDOUT}
    said = subprocess.run(given, input=text or "", text=True, timeout=30, **both)
    return said.returncode, said.stdout


@case
def smtplib_delivers(folder):
    """Python's smtplib.LMTP delivers to a known and an unknown mailbox; both readers find the letter"""
    with Server(folder, ["anna", "ben"], 1, "--lanes", 1) as server:
        with smtplib.LMTP(*server.address, local_hostname="relay.example", timeout=20) as client:
            for name in ["anna", "ben"]:
                recipients = [f"{name}@mx.example", "nobody@mx.example"]
                # it stuffs the dots of the message itself
                refused = client.sendmail("carl@a.example", recipients, "\r\n".join([*HARD_LINES, name, ""]))
                code, text = refused.pop("nobody@mx.example")
                equal((code, refused), (550, {}))
        equal(vars(server.end()), {"status": 0, "said": ["anna stored 1", "ben stored 1"], "errors": []})
        for name in ["anna", "ben"]:
            sent = "\n".join([*HARD_LINES, name, ""]).encode()
            equal(letters.read(server.mailbox(name)), [("carl@a.example", "relay.example", sent)])


@case
def swaks_delivers(folder):
    """swaks delivers to two mailboxes beside an unknown one; both readers find the letters"""
    path = installed("swaks")
    with Server(folder, ["anna", "ben"], 1, "--lanes", 1) as server:
        swaks_sends(path, server, "--server", server.text)


@case
def swaks_delivers_over_a_unix_socket(folder):
    """swaks --socket delivers to two mailboxes beside an unknown one; both readers find the letters"""
    path = installed("swaks")
    with Server(folder, ["anna", "ben"], 1, "--lanes", 1, listen=f"unix:{folder}/sock") as server:
        swaks_sends(path, server, "--socket", server.address)


def swaks_sends(path, server, *where):
    message = "\n".join(HARD_LINES)
    given = ["--protocol", "LMTP", *where, "--from", "carl@a.example", "--helo", "relay.example"]
    to = "anna@mx.example,nobody@mx.example,ben@mx.example"
    _, said = tool(path, *given, "--to", to, "--data", "-", text=message)
    assert "<** 550 " in said and stored("ben") in said, said
    equal(vars(server.end()), {"status": 0, "said": ["anna stored 1", "ben stored 1"], "errors": []})
    for name in ["anna", "ben"]:
        [letter] = letters.read(server.mailbox(name))
        equal((letter.sender, letter.client), ("carl@a.example", "relay.example"))
        equal(letter.message.strip(b"\n"), message.strip("\n").encode())


@case
def smtp_source_delivers(folder):
    """smtp-source -L delivers twenty messages to two mailboxes each; both readers find the letters"""
    path = installed("smtp-source")
    with Server(folder, ["anna", "2anna"], 20, "--lanes", 4) as server:
        given = ["-L", "-m", "20", "-s", "4", "-r", "2", "-l", "2048"]
        given += ["-M", "relay.example", "-f", "carl@a.example"]
        status, said = tool(path, *given, "-t", "anna@mx.example", server.text)
        equal((status, said), (0, ""))
        equal(vars(server.end()), {"status": 0, "said": ["anna stored 20", "2anna stored 20"], "errors": []})
        for name in ["anna", "2anna"]:
            found = letters.read(server.mailbox(name))
            equal({(letter.sender, letter.client) for letter in found}, {("carl@a.example", "relay.example")})
            equal([letter.message.count(b"X") > 1000 for letter in found], [True] * 20)


@case
def the_port_that_it_got(folder):
    """port 0: the line tells the port that it got, and a client is served there"""
    with Server(folder, ["anna"], 1, "--lanes", 1) as server:
        host, port = server.address
        equal((host, server.first, port > 0), ("127.0.0.1", f"listening on 127.0.0.1:{port}\n", True))
        equal(deliver_one(server.address, ["anna"], "hello"), [stored("anna")])


@case
def an_ipv6_address(folder):
    """an IPv6 address in brackets"""
    try:
        socket.create_server(("::1", 0), family=socket.AF_INET6).close()
    except OSError:
        raise Absent("::1 on loopback") from None
    with Server(folder, ["anna"], 1, "--lanes", 1, listen="[::1]:0") as server:
        host, port = server.address
        equal((host, server.first), ("::1", f"listening on [::1]:{port}\n"))
        equal(deliver_one(server.address, ["anna"], "hello"), [stored("anna")])


@case
def a_second_run(folder):
    """two letters, and a second run on the same folder leaves four; a mailbox's file has mode 0600"""
    for count in [2, 4]:
        with Server(folder, ["anna"], 2, "--lanes", 2) as server:
            for number in [1, 2]:
                finals = deliver_one(server.address, ["anna"], f"{count} {number}")
                equal(finals, [stored("anna")])
            equal(vars(server.end()), {"status": 0, "said": ["anna stored 2"], "errors": []})
            equal(len(letters.read(server.mailbox("anna"))), count)
    equal(letters.messages(server.mailbox("anna")), [b"2 1\n", b"2 2\n", b"4 1\n", b"4 2\n"])
    equal(oct(stat.S_IMODE(server.mailbox("anna").stat().st_mode)), oct(0o600))


@case
def more_domains(folder):
    """further domains are served, and no others"""
    with Server(folder, ["anna"], 1, "--lanes", 1, "--domains", "a.example,b.example") as server:
        with smtplib.LMTP(*server.address, local_hostname="relay.example", timeout=20) as client:
            client.ehlo()
            served = [("a.example", 250), ("b.example", 250), ("mx.example", 250), ("c.example", 550)]
            for domain, code in served:
                client.mail("carl@a.example")
                equal((domain, client.rcpt(f"anna@{domain}")[0]), (domain, code))
                client.rset()


@case
def a_quota_is_kept(folder):
    """--quota: the letter that fits to the byte is stored, the next one is refused, also once the server was
    restarted"""
    told, over = stored("anna"), over_quota("anna")
    lines = ["Subject: hi", "", "hello"]
    with Server(folder, ["anna"], 1, "--lanes", 1) as server:
        equal(deliver_one(server.address, ["anna"], *lines), [told])
        server.end()
    mailbox = folder / "anna.mbox"
    size = len(mailbox.read_bytes())
    with Server(folder, ["anna", "ben"], 1, "--lanes", 1, "--quota", 2 * size) as server:
        with Client(server.address).greet() as client:
            finals = [client.deliver(["anna"], *lines)[1] for _ in range(2)]
            equal(finals, [[told], [over]])
            equal(client.deliver(["anna", "ben"], *lines)[1], [over, stored("ben")])
            client.quit()
        errors = ["lmtpd: anna over quota 2"]
        equal(vars(server.end()), {"status": 0, "said": ["anna stored 1", "ben stored 1"], "errors": errors})
    equal(len(mailbox.read_bytes()), 2 * size)
    for quota in [2 * size, 3 * size - 1, size, 0]:
        with Server(folder, ["anna"], 1, "--lanes", 1, "--quota", quota) as server:
            equal(deliver_one(server.address, ["anna"], *lines), [over])
            errors = ["lmtpd: anna over quota 1"]
            equal(vars(server.end()), {"status": 0, "said": ["anna stored 0"], "errors": errors})
    equal(len(mailbox.read_bytes()), 2 * size)
    equal(len(letters.read(mailbox)), 2)


@case
def each_mailbox_over_its_quota(folder):
    """mailboxes over their quota: standard error has a line for each with its count, in the order of the site"""
    names, lines = ["ben", "anna", "carla"], ["Subject: hi", "", "hello"]
    (folder / "anna.mbox").write_bytes(b"x" * 998 + b"\n\n")
    with Server(folder, names, 1, "--lanes", 1, "--quota", 1000) as server:
        with Client(server.address).greet() as client:
            # too large for any of them
            client.deliver(["carla", "ben"], "", *["x" * 100] * 10)
            for to in [["anna", "carla"], ["anna"], ["ben", "anna"]]:
                client.deliver(to, *lines)
            client.quit()
        said = ["ben stored 1", "anna stored 0", "carla stored 1"]
        errors = ["lmtpd: ben over quota 1", "lmtpd: anna over quota 3", "lmtpd: carla over quota 1"]
        equal(vars(server.end()), {"status": 0, "said": said, "errors": errors})
    with Server(folder, names, 1, "--lanes", 1, "--quota", 1000) as server:
        # of the second letter anna alone is over
        with Client(server.address).greet() as client:
            for to in [["ben"], ["anna", "carla"]]:
                client.deliver(to, *lines)
            client.quit()
        said = ["ben stored 1", "anna stored 0", "carla stored 1"]
        equal(vars(server.end()), {"status": 0, "said": said, "errors": ["lmtpd: anna over quota 1"]})


@case
def lanes_share_a_quota(folder):
    """two lanes at one mailbox whose quota lets half of their letters in: as many are told Stored as are read back"""
    lines, count = ["Subject: hi", "", "hello"], 8
    with Server(folder, ["anna"], 1, "--lanes", 1) as server:
        deliver_one(server.address, ["anna"], *lines)
        server.end()
    mailbox = folder / "anna.mbox"
    size = len(mailbox.read_bytes())
    mailbox.write_bytes(b"")

    def deliver_all(address):
        with Client(address).greet() as client:
            finals = [client.deliver(["anna"], *lines)[1] for _ in range(count)]
            client.quit()
        return sum(finals, [])

    with Server(folder, ["anna"], 2, "--lanes", 2, "--quota", count * size) as server:
        with ThreadPoolExecutor(2) as pool:
            told = sum(pool.map(deliver_all, [server.address] * 2), [])
        errors = [f"lmtpd: anna over quota {count}"]
        equal(vars(server.end()), {"status": 0, "said": [f"anna stored {count}"], "errors": errors})
    told_stored = told.count(stored("anna"))
    equal((told_stored, told.count(over_quota("anna"))), (count, count))
    equal((len(letters.read(mailbox)), len(mailbox.read_bytes())), (count, count * size))


@case
def dated_by_the_clock(folder):
    """a letter's From line and its Received line have the moment of the system's clock as it was delivered"""
    with Server(folder, ["anna"], 1) as server:
        before = int(time.time())
        equal(deliver_one(server.address, ["anna"], "hello"), [stored("anna")])
        after = int(time.time())
        server.end()
        text = server.mailbox("anna").read_text()
    from_line = text.splitlines()[0].removeprefix("From carl@a.example ")
    received = re.search(r"^\t(.*) \+0000$", text, re.MULTILINE)[1]
    for shown, form in [(from_line, "%a %b %d %H:%M:%S %Y"), (received, "%a, %d %b %Y %H:%M:%S")]:
        moment = calendar.timegm(time.strptime(shown, form))
        equal((shown, before <= moment <= after), (shown, True))
