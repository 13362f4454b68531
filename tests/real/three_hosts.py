"""One relay and three hosts, each with some of the users, by the lines of docs/operating/CLUSTER.md as they stand."""

import re
import subprocess
import time

from cases import case, equal
from hosts import HOSTS, MAP, RELAY, blocks, known, need_maps, site
from packages import program

# Lines of the map: anna's with any hosts, and the other two's as the page has them.
ANNA = "anna@mx.example {}\n"
BEN = "ben@mx.example lmtp:inet:192.0.2.12:2003\n"
CARLA = "carla@mx.example lmtp:inet:192.0.2.{}:2003\n"
SILENT = 30  # seconds that a host is so
KILLS = 5
LOOKUPS = 10_000  # in a large map
KILL = "systemctl kill --kill-who=main --signal=KILL lmtpd"
OWN = ANNA.format("lmtp:inet:192.0.2.11:2003")


@case
def which_host(folder):
    """three hosts behind one Postfix, by the typed lines of 'Which host': a letter for each; a map that names a host
    that doesn't know the user, and one that there isn't: these wait, and come once the map is mended; a user whom two
    hosts know, and whom the map has twice: postmap says so, and one host has the letters; a second host where the first
    is away; and `retry:`, by which Postfix refuses a user"""
    with site(folder) as there:
        there.send("first", 3)
        there.wait(there.is_sent)
        mistaken_map(there)
        equal([known(there, user) for user in ["anna", "dora"]], [250, 550])
        user_at_two_hosts(there)
        there.put(ANNA.format("lmtp:inet:192.0.2.99:2003,192.0.2.11:2003") + BEN + CARLA.format(13))
        there.send("fourth", 3)
        there.wait(there.is_sent)
        there.put(ANNA.format("retry:") + BEN + CARLA.format(13))
        equal([known(there, user) for user in ["anna", "ben"]], [450, 250])
        return there.equal_all(HOSTS)


def mistaken_map(there):
    """anna is at ben's host, and carla where there is none."""
    there.put(ANNA.format("lmtp:inet:192.0.2.12:2003") + BEN + CARLA.format(99))
    there.send("second", 3)
    there.wait(lambda: there.is_sent(["ben"]))
    for pattern in [
        r"to=<anna@.* status=deferred .*450 4\.1\.1 No such mailbox",
        r"to=<carla@.* status=deferred \(connect to 192\.0\.2\.99",
    ]:
        there.wait(lambda pattern=pattern: re.search(pattern, there.log()))
    there.put(OWN + BEN + CARLA.format(13))
    there.type(RELAY, "postqueue -f")
    there.wait(there.is_sent)


def user_at_two_hosts(there):
    """anna is on the lists of two hosts, and in the map with both."""
    there.type(12, "echo anna >> /etc/lmtpd.boxes; systemctl reload lmtpd")
    double = OWN + BEN + CARLA.format(13) + ANNA.format("lmtp:inet:192.0.2.12:2003")
    said = there.type(RELAY, f"cat > {MAP} << 'END'\n{double}END\npostmap lmdb:{MAP} 2>&1")
    assert re.search(r"duplicate entry: .?anna@mx\.example", said), said
    there.send("third", 30, ["anna"])
    there.wait(there.is_sent)
    equal(there.type(12, "ls /var/mail/lmtpd | grep anna || true"), "")


@case
def silent_and_killed_hosts(folder):
    """three hosts behind one Postfix: one drops all packets for a while, and its users' letters wait while others' are
    sent; a server is killed five times under load; each letter is there, and none bounced"""
    with site(folder) as there:
        quiet = others_sent(there, "quiet")
        there.wait(there.is_sent)
        there.network.cut(12)
        silent = others_sent(there, "silent")
        time.sleep(SILENT)
        later = others_sent(there, "later")
        equal(there.is_sent(["ben"]), False)
        there.network.mend(12)
        there.type(RELAY, "postqueue -f")
        since = time.monotonic()
        there.wait(there.is_sent)
        after = time.monotonic() - since
        with there.client("killed", 4_000, 0.003, ["carla"]):
            for _ in range(KILLS):
                # it begins again after five seconds, with the letters that came meanwhile; systemd may not know yet that
                # the one before is gone
                there.type(13, f"until systemctl is-active --quiet lmtpd && sleep 0.3 && {KILL}; do sleep 0.1; done")
        there.type(RELAY, "postqueue -f")
        there.wait(there.is_sent)
        found = there.equal_all(HOSTS)
    rates = f"others' letters took {quiet:.1f} s, and {silent:.1f} and {later:.1f} s beside a silent host"
    return f"{rates}, whose own came {after:.1f} s after; {found}"


def others_sent(there, first):
    """The seconds until those of two hosts were sent, of letters for three."""
    since = time.monotonic()
    there.send(first, 900)
    there.wait(lambda: there.is_sent(["anna", "carla"]))
    return time.monotonic() - since


@case
def a_user_moves(folder):
    """three hosts behind one Postfix: a user moves by the typed lines of 'A user moves' under load: each letter is on
    the new host, once and after those of before; a step that is typed again, or a move that is begun twice, stops and
    changes nothing"""
    begin, hold, copy, place, go_on, end = blocks("## A user moves")
    with site(folder) as there:
        there.open_ssh(11, 12)
        there.send("before", 30)
        with there.client("meanwhile", 900, 0.01):
            there.type(12, begin)
            stops(there, 12, begin)
            there.type(RELAY, hold)
            there.type(11, copy)
            stops(there, 11, copy)
            there.type(12, place)
            there.type(RELAY, go_on)
            there.wait(lambda: there.found("anna", 12)["meanwhile-0"])
            # again, with an older copy
            there.type(11, "scp -q /var/mail/lmtpd/anna.moving 192.0.2.12:/var/mail/lmtpd/")
            stops(there, 12, place)
            there.type(12, "rm /var/mail/lmtpd/anna.moving")
            there.type(11, end)
        there.wait(there.is_sent)
        stops(there, 11, copy)
        stops(there, 12, begin)
        equal(there.type(11, "ls /var/mail/lmtpd; cat /etc/lmtpd.boxes"), "anna.mbox.moved\nother\n")
        old, new = [mailbox(there, *it) for it in [(11, "anna.mbox.moved"), (12, "anna.mbox")]]
        equal((new.startswith(old), len(new) > len(old) > 0), (True, True))
        return there.equal_all(HOSTS | {"anna": 12})


def stops(there, number, lines):
    """These lines fail there, and the mailbox and the list are as they were."""
    look = "cat /etc/lmtpd.boxes; ls /var/mail/lmtpd | grep -v lock"
    before = there.type(number, look)
    status, said = there.machines[number].run(lines)
    equal((lines, status != 0, there.type(number, look)), (lines, True, before))
    return said


def mailbox(there, number, name):
    with open(f"/proc/{there.machines[number].first()}/root/var/mail/lmtpd/{name}", "rb") as file:
        return file.read()


@case
def a_large_map(folder):
    """a map of 1,000,000 users for three hosts: postmap makes it within 60 seconds, and Postfix finds each of 10,000,
    and no other one"""
    need_maps("lmdb")
    users, path = 1_000_000, folder / "hosts"
    lines = [f"user{it}@mx.example\tlmtp:inet:192.0.2.{11 + it % 3}:2003\n" for it in range(users)]
    path.write_text("".join(lines))
    postmap = program("postmap", "postfix")
    since = time.monotonic()
    subprocess.run([postmap, f"lmdb:{path}"], check=True)
    took = time.monotonic() - since
    some = lines[:: users // LOOKUPS]
    keys = "".join(["nobody@mx.example\n", *(line.split("\t")[0] + "\n" for line in some)])
    since = time.monotonic()
    found = subprocess.run([postmap, "-q", "-", f"lmdb:{path}"], input=keys, capture_output=True, text=True, check=True)
    looked = (time.monotonic() - since) / len(some)
    equal(found.stdout.splitlines(keepends=True), some)
    equal((took < 60, took), (True, took))
    size = path.with_suffix(".lmdb").stat().st_size
    return f"{took:.1f} s, {looked * 1e6:.0f} microseconds a lookup, a file of {size / 1e6:.0f} MB"


a_large_map.seconds = 120

for one in [which_host, silent_and_killed_hosts, a_user_moves]:
    one.seconds = 300
