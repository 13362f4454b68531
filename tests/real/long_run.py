"""A long run: one relay and three hosts of many users each, by the lines of docs/operating/CLUSTER.md. One host goes
silent, one is killed again and again, and of one some users move. These cases take long, and are there only where
LONG_RUN_LETTERS says how many letters come."""

import contextlib
import os
import pathlib
import re
import time

from cases import case, equal
from hosts import HOSTS, MAP, RELAY, blocks, site

LETTERS = int(os.environ.get("LONG_RUN_LETTERS", "0"))
KILLS = int(os.environ.get("LONG_RUN_KILLS", "10"))
MOVES = int(os.environ.get("LONG_RUN_MOVES", "10"))
SILENT = int(os.environ.get("LONG_RUN_SILENT", "60"))  # seconds
PAIRS = 3
EACH = int(os.environ.get("LONG_RUN_EACH", "6000"))  # letters of a run beside a silent host, and of one without
CLIENTS = 4
MOVED_FROM, QUIET, KILLED = HOSTS.values()
PORTS = [2003, 2004, 2005, 2006]  # of a host's servers
COUNT = int(os.environ.get("LONG_RUN_USERS", "3000"))
USERS = {f"u{it}": (list(HOSTS.values())[it % 3], PORTS[it // 3 % len(PORTS)]) for it in range(COUNT)}
SERVERS = " ".join(f"lmtpd@{port}" for port in PORTS)
SOCKETS = " ".join(f"lmtpd@{port}.socket" for port in PORTS)
# No line of Postfix's is left out.
ALL_LINES = """
printf '[Journal]\\nRateLimitBurst=0\\n' > /run/systemd/journald.conf.d/all.conf
systemctl restart systemd-journald
postconf -e enable_long_queue_ids=yes
systemctl restart postfix
"""
IS_EMPTY = "test -z \"$(find {} -type f -print -quit)\"".format(
    " ".join(f"/var/spool/postfix/{it}" for it in ["maildrop", "incoming", "active", "deferred"])
)


@contextlib.contextmanager
def large_site(folder):
    """Each host has several servers, by what the page says of several servers."""
    with site(folder) as there:
        [host, _] = blocks("## Which host")
        for number in HOSTS.values():
            for port in PORTS:
                names = [user for user, place in USERS.items() if place == (number, port)]
                write(there, number, f"/etc/lmtpd/{port}.boxes", names)
            lines = host.replace("192.0.2.11", f"192.0.2.{number}").replace("lmtpd.", "lmtpd@.").replace(":2003", ":%i")
            there.type(number, "systemctl disable --now lmtpd.socket lmtpd")
            there.type(number, re.sub(r"lmtpd@\.socket(?!\.d)", SOCKETS, lines))
            there.type(number, f"systemctl start {SERVERS}")
        write(there, RELAY, MAP, [f"{user}@mx.example lmtp:inet:192.0.2.{it[0]}:{it[1]}" for user, it in USERS.items()])
        there.type(RELAY, f"postmap lmdb:{MAP}\n{ALL_LINES}")
        yield there


def write(there, number, path, lines):
    path = pathlib.Path(f"/proc/{there.machines[number].first()}/root{path}")
    path.parent.mkdir(exist_ok=True)
    path.write_text("".join(f"{line}\n" for line in lines))


@contextlib.contextmanager
def clients(there, first, count, pause=0.0):
    """So many letters by several clients, to all users in turn, with a pause after each letter on the whole."""
    with contextlib.ExitStack() as stack:
        for number in range(CLIENTS):
            users = list(USERS)[number::CLIENTS]
            words = [f"{first}{number}", count // CLIENTS, pause * CLIENTS, users]
            stack.enter_context(there.client(*words, seconds=3_000))
        yield


def long_run(folder):
    """a long run: letters for 3,000 users on three hosts, one of which is silent for a minute, one is killed ten times,
    and ten users of one move, while letters come: each is there, and none bounced"""
    with large_site(folder) as there:
        there.open_ssh(MOVED_FROM, QUIET)
        since = time.monotonic()
        # about as long as what comes to pass meanwhile takes
        with clients(there, "c", LETTERS, (SILENT + 8 * KILLS + 8 * MOVES) / LETTERS):
            silence(there)
            kill(there)
            moved = move(there)
            happened = time.monotonic() - since
        handed_in = time.monotonic() - since
        wait_until_empty(there)
        took = time.monotonic() - since
        found = there.equal_all(hosts_of(there) | moved)
    times = f"all that happened took {happened:.0f} s, handing in {handed_in:.0f} s, all {took:.0f} s"
    return f"{found}; 0 lost, 0 bounced; {KILLS} kills, {len(moved)} moves; {times}, {LETTERS / took:.0f} a second"


def hosts_of(there):
    """Of all users who had letters."""
    return {user: USERS[user][0] for user in sorted({user for user, _ in there.told})}


def silence(there):
    there.network.cut(QUIET)
    time.sleep(SILENT)
    there.network.mend(QUIET)
    there.type(RELAY, "postqueue -f")


def kill(there):
    """All servers of a host; each begins again after five seconds, with the letters that came meanwhile."""
    signal = "systemctl kill --kill-who=main --signal=KILL"
    for _ in range(KILLS):
        for it in SERVERS.split():
            begun = f"systemctl is-active --quiet {it} && sleep 0.3"
            there.type(KILLED, f"until {begun} && {signal} {it}; do sleep 0.1; done")
    for it in SERVERS.split():
        there.type(KILLED, f"until systemctl is-active --quiet {it}; do sleep 0.1; done")
        equal((it, there.type(KILLED, f"systemctl show -p NRestarts --value {it}")), (it, f"{KILLS}\n"))


def move(there):
    """Users of a host to another one, by the lines of the page; where they are then."""
    moved = {}
    for user in [it for it, place in USERS.items() if place[0] == MOVED_FROM][:MOVES]:
        places = [QUIET, RELAY, MOVED_FROM, QUIET, RELAY, MOVED_FROM]
        for number, lines in zip(places, blocks("## A user moves"), strict=True):
            there.type(number, lines_for(user, lines))
        moved[user] = QUIET
    return moved


def lines_for(user, lines):
    """Those of a move for that user, whose server is one of several."""
    port = USERS[user][1]
    for old, new in [
        ("/etc/lmtpd.boxes", f"/etc/lmtpd/{port}.boxes"),
        ("reload lmtpd", f"reload lmtpd@{port}"),
        (":2003", f":{port}"),
        ("anna", user),
    ]:
        lines = lines.replace(old, new)
    return lines


def wait_until_empty(there):
    """All letters went on; those that wait are tried again."""
    until = time.monotonic() + 900
    while there.relay.run(IS_EMPTY)[0]:
        assert time.monotonic() < until, there.type(RELAY, "postqueue -p | tail -n 20")
        there.type(RELAY, "postqueue -f")
        time.sleep(2)


def beside_a_silent_host(folder):
    """others' letters beside a silent host, of three hosts with 3,000 users: three runs without and three with it, in
    turn; the letters a second for the users of the other two"""
    rates = []
    with large_site(folder) as there:
        for pair in range(PAIRS):
            quiet = others_rate(there, f"a{pair}-")
            wait_until_empty(there)
            there.network.cut(QUIET)
            silent = others_rate(there, f"b{pair}-")
            there.network.mend(QUIET)
            wait_until_empty(there)
            rates.append((quiet, silent))
        found = there.equal_all(hosts_of(there))
    shown = "; ".join(f"{quiet:.0f} and {silent:.0f}, {silent / quiet:.2f}" for quiet, silent in rates)
    middle = sorted(silent / quiet for quiet, silent in rates)[PAIRS // 2]
    return f"{shown}; the ratio in the middle {middle:.2f}; {found}"


def others_rate(there, first):
    """Their letters a second, from the first one that is handed in to the last one that is sent, as Postfix's log has
    it."""
    since, others = time.time(), {user for user, place in USERS.items() if place[0] != QUIET}
    with clients(there, first, EACH):
        pass
    expected = sum(user in others and name.startswith(first) for user, name in there.told)
    sent, until = [], time.monotonic() + 300
    while len(sent) < expected:
        assert time.monotonic() < until, (len(sent), expected)
        time.sleep(1)
        log = there.type(RELAY, f"journalctl --facility mail -o short-unix --no-pager --since @{since:.3f}")
        found = re.findall(r"(?m)^(\d+\.\d+) .* to=<(\w+)@mx\.example>.* status=sent ", log)
        sent = [float(stamp) for stamp, user in found if user in others]
    equal(len(sent), expected)
    return expected / (max(sent) - since)


if LETTERS:
    for one in [long_run, beside_a_silent_host]:
        one.seconds = 3_600
        case(one)
