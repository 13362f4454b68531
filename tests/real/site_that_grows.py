"""A site of 300 users that grows to 3,000, by the recipe of docs/operating/SETUP.md for several servers."""

import time

from cases import case, equal
from many_mailboxes import recipe
from ten_lines import machine, type_lines

FIRST, ALL = 300, 3_000  # users
PART = 250  # of them in the file of a server
AT_ONCE = 100  # recipients of a letter
WITHIN = 240  # seconds


@case
def three_hundred_users_and_three_thousand(folder):
    """the recipe of docs/operating/SETUP.md with 300 users on two servers, and again with 3,000 on twelve: a letter for
    each user is there once, after each of the two, and none was put off"""
    with machine(folder) as there:
        type_lines(there)
        equal(there.run("mkdir /etc/lmtpd"), (0, ""))
        took = [grow(there, "first", FIRST), grow(there, "second", ALL)]
        there.run("lmtpd check /var/mail/lmtpd/user*.mbox > /tmp/checked")
        counted = there.run("cut -d ' ' -f 2- /tmp/checked | sort | uniq -c | sed 's/^ *//'")
        equal(counted, (0, f"{ALL - FIRST} letters 1\n{FIRST} letters 2\n"))
        equal(there.run("journalctl --no-pager | grep -c 'status=deferred'")[1], "0\n")
        memory = [int(size) for size in there.run("ps -C lmtpd -o rss=")[1].split()]
        print(f"{FIRST} users {took[0]:.0f} s, {ALL} users {took[1]:.0f} s, from their names to their letters;")
        print(f"{len(memory)} servers with at most {max(memory)} KiB each", end="; ")


three_hundred_users_and_three_thousand.seconds = 900


def grow(there, subject, users):
    """Has that many users by the recipe, and sends each a letter: how long that took, until each was there."""
    begun = time.monotonic()
    for first in range(0, users, PART):
        last = min(first + PART, users) - 1
        path = f"/etc/lmtpd/s{first // PART}.boxes"
        equal(there.run(f"for number in $(seq {first} {last}); do echo user$number; done > {path}"), (0, ""))
    for line in recipe():
        equal((line, there.run(line, WITHIN)[0]), (line, 0))
    for first in range(0, users, AT_ONCE):
        names = " ".join(f"user{number}@mx.example" for number in range(first, first + AT_ONCE))
        equal(there.run(f"printf 'Subject: {subject}\\n\\nhello\\n' | sendmail {names}")[0], 0)
    until = time.monotonic() + WITHIN
    while there.run(f"cat /var/mail/lmtpd/user*.mbox | grep -c '^Subject: {subject}$'")[1] != f"{users}\n":
        assert time.monotonic() < until, there.run("postqueue -p; journalctl -n 30 --no-pager")[1][-1500:]
        time.sleep(1)
    # Postfix hears of the last ones a moment later
    while (waiting := there.run("postqueue -p")[1]) != "Mail queue is empty\n":
        assert time.monotonic() < until, waiting[-1500:]
        time.sleep(0.2)
    return time.monotonic() - begun
