"""Lists of as many mailboxes as there may be, and what in them can't be used: its line, and how long that takes."""

import time

from cases import case, equal
from server import run, words

MOST = 65_536  # mailboxes
BAD_AT = 65_000  # the line
LARGEST = 16 * 2**20  # bytes of a list
# What may stand after a name, and is no quota.
NO_QUOTAS = [
    "x",
    "12a",
    "-5",
    "+5",
    "18446744073709551616",
    "17179869184G",
    "5KM",
    "5KK",
    "K",
    "5k",
    "5 6",
    "5K -",
]
SECONDS = 2  # in which all is said, on a busy machine too


def lines(count):
    return [f"box{number}" for number in range(count)]


def said(folder, text, *more):
    """How it ends with that list, and after how many seconds, the quickest of three."""
    boxes = folder / "boxes"
    boxes.write_bytes(text)
    took = []
    for _ in range(3):
        began = time.monotonic()
        ended = run(words(folder, [], 1, "--boxes", boxes, *more))
        took.append(time.monotonic() - began)
    assert min(took) < SECONDS, took
    return ended, min(took)


def text_of(names):
    return ("\n".join(names) + "\n").encode()


@case
def no_quota_at_line_65_000(folder):
    """of 65,536 mailboxes the one of line 65,000 has after its name what is no quota: the log has the line, and status
    2 follows"""
    seconds = []
    for quota in NO_QUOTAS:
        names = lines(MOST)
        names[BAD_AT - 1] += f" {quota}"
        for more in [["--check-words"], ["--log", "error"]]:
            ended, took = said(folder, text_of(names), *more)
            shown = f"box{BAD_AT - 1} {quota}"
            line = f"[ERROR lmtpd] bad box name={shown} file={folder}/boxes line={BAD_AT}"
            equal(vars(ended), {"status": 2, "said": [], "errors": [line, "lmtpd: bad box"]})
            seconds.append(took)
    return f"{min(seconds):.3f} to {max(seconds):.3f} s"


@case
def named_twice_65_000_lines_apart(folder):
    """of 65,536 mailboxes that of line 500 stands again 65,000 lines later, with a quota of its own: the log has the
    second one's line"""
    names = [f"{name} {number}K" for number, name in enumerate(lines(MOST))]
    names[65_499] = "box499 -"
    ended, took = said(folder, text_of(names), "--check-words")
    line = f"[ERROR lmtpd] box named twice name=box499 file={folder}/boxes line=65500"
    equal(vars(ended), {"status": 2, "said": [], "errors": [line, "lmtpd: box named twice"]})
    return f"{took:.3f} s"


@case
def as_many_with_a_quota_each(folder):
    """65,536 mailboxes, each with a quota of its own: all is in order; one more, and the log has its line"""
    names = [f"{name} {number}{'KMG'[number % 3]}" for number, name in enumerate(lines(MOST + 1))]
    ended, took = said(folder, text_of(names[:-1]), "--check-words")
    equal(vars(ended), {"status": 0, "said": [], "errors": []})
    more, took_more = said(folder, text_of(names), "--check-words")
    name = names[-1].split()[0]
    line = f"[ERROR lmtpd] too many boxes name={name} file={folder}/boxes line={MOST + 1}"
    equal(vars(more), {"status": 2, "said": [], "errors": [line, "lmtpd: too many boxes"]})
    return f"{took:.3f} and {took_more:.3f} s"


@case
def the_largest_list(folder):
    """a list of 16 MiB, most of it what follows #, is read; of one a byte longer the line is cannot read FILE, status
    1"""
    text = text_of(lines(MOST))
    comment = b"# " + b"x" * 1_021 + b"\n"
    text += comment * ((LARGEST - len(text)) // len(comment))
    text += b"#" * (LARGEST - len(text) - 1) + b"\n"
    equal(len(text), LARGEST)
    ended, took = said(folder, text, "--check-words")
    equal(vars(ended), {"status": 0, "said": [], "errors": []})
    longer, took_longer = said(folder, text + b"\n", "--check-words")
    equal(vars(longer), {"status": 1, "said": [], "errors": [f"lmtpd: cannot read {folder}/boxes"]})
    return f"{took:.3f} and {took_longer:.3f} s"
