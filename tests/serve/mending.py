"""What mends a mailbox whose bytes end so, as the tests expect it: written down here by the rule that
docs/operating/MAILBOXES.md has, and not taken from the program.

A record may follow once an empty line ends what stands there. So the fewest LFs mend it; but a From line that breaks
off where a letter may begin is filled up first, so that it is a letter of its own, with a date as ctime has it."""

import re

MOST_LINE = 4_094  # bytes that a line has once it is filled up: one that would be longer is ended where it breaks off
FROM, NOBODY, DATE = b"From ", b"MAILER-DAEMON", b"Thu Jan  1 00:00:00 1970"
# Of two names that begin alike the first one is filled in.
DAYS = [b"Thu", b"Mon", b"Tue", b"Wed", b"Fri", b"Sat", b"Sun"]
MONTHS = [b"Jan", b"Feb", b"Mar", b"Apr", b"May", b"Jun", b"Jul", b"Aug", b"Sep", b"Oct", b"Nov", b"Dec"]
CTIME = re.compile(rb"[A-Z][a-z]{2} [A-Z][a-z]{2} (?: \d|[123]\d) \d\d:\d\d:\d\d \d{4}")


def mends(old):
    line = old.rpartition(b"\n")[2]
    if not line:
        return b"\n" * (0 if old == b"" or old.endswith(b"\n\n") else 1)
    before = old[: len(old) - len(line)]
    filling = missing_of(line) if before == b"" or before.endswith(b"\n\n") else b""
    return (filling if len(line) + len(filling) <= MOST_LINE else b"") + b"\n\n"


def missing_of(line):
    """What is missing of a From line; of another line nothing."""
    if FROM.startswith(line):
        return FROM[len(line) :] + NOBODY + b" " + DATE
    if not line.startswith(FROM):
        return b""
    sender = line.removeprefix(FROM)
    if NOBODY.startswith(sender):
        return NOBODY[len(sender) :] + b" " + DATE
    begun = [sender[at.end() :] for at in re.finditer(b" ", sender)]
    dates = [date for date in begun if len(date) <= len(DATE) and CTIME.fullmatch(date + missing_of_date(date))]
    return missing_of_date(dates[0]) if dates else b" " + DATE


def missing_of_date(begun):
    """What is missing of a date that begins so."""
    day = next((name for name in DAYS if name.startswith(begun[:3])), b"")
    month = next((name for name in MONTHS if name.startswith(begun[4:7])), b"")
    number = begun[8:9] + b"0" if begun[8:9].isdigit() else b" 1"
    whole = b"%s %s %s%s" % (day, month, number, DATE[10:])
    return whole[len(begun) :]
