"""Runs of `lmtpd rehearse` whose mailboxes stand in a file, as those of rows.py."""

from replies import CLOSING, GO_AHEAD, RECIPIENT_OK, over_quota, stored
from rows import HELLO, HELLO_STORED, OPENED, PROLOGUE, TO_ANNA, Row, record

# names that the words may not have
LONGER = ["o'brien", "anna+x", "a=b", "c" * 33, "d" * 64]


def rows():
    yield from names()
    yield quotas()


def names():
    """Mailboxes of the words, and then those of a file; mail for postmaster is the first one's."""
    for name, text, words, names in [
        ("a file of mailboxes", b"anna\nben\n", [], ["anna", "ben"]),
        ("a file of mailboxes with CRLF, comments and spaces", b"# a\r\n\r\n anna\t# b\r\nben #", [], ["anna", "ben"]),
        ("mailboxes of the words come before those of a file", b"ben\ncarl\n", ["anna"], ["anna", "ben", "carl"]),
        ("the order of a file", b"carl\n0\nanna\n", ["ben"], ["ben", "carl", "0", "anna"]),
        ("an empty file of mailboxes", b"", ["anna"], ["anna"]),
        ("names that only a file may have", "\n".join(LONGER).encode(), ["anna"], ["anna", *LONGER]),
    ]:
        row = Row(
            name,
            [*PROLOGUE, TO_ANNA, b"RCPT TO:<postmaster>", b"DATA", *HELLO, b"QUIT"],
            [*OPENED, RECIPIENT_OK, RECIPIENT_OK, GO_AHEAD, stored("anna"), stored(names[0]), CLOSING],
            {box: b"" for box in names},
        )
        for box in ["anna", names[0]]:
            row.mailboxes[box] += record(HELLO_STORED)
        row.boxes, row.named = text, words
        yield row


def quotas():
    """The record of the message has 189 bytes: what fits by a mailbox's own quota, or where it has none by --quota."""
    names = ["anna", "anna", "ben", "ben", "carl", "dora", "emil", "frieda"]
    fitting = ["anna", "ben", "ben", "frieda"]
    finals = [stored("anna"), over_quota("anna"), stored("ben"), stored("ben")]
    finals += [*map(over_quota, ["carl", "dora", "emil"]), stored("frieda")]
    return Row(
        "mailboxes with quotas of their own",
        [*PROLOGUE, *[b"RCPT TO:<%s>" % name.encode() for name in names], b"DATA", *HELLO, b"QUIT"],
        [*OPENED, *[RECIPIENT_OK] * len(names), GO_AHEAD, *finals, CLOSING],
        {box: record(HELLO_STORED) * fitting.count(box) for box in ["emil", "anna", "ben", "carl", "dora", "frieda"]},
        ["--quota", "188"],
        boxes=b"anna 189\nben\t - # none\r\ncarl\ndora 0\nfrieda 1K",
        named=["emil"],
    )
