"""What mends a mailbox whose last letter broke off, before the next one: each row of bytes on the built program."""

import letters
from cases import case, equal
from clients import Client
from mending import MOST_LINE, mends
from replies import stored
from server import Server, run

OLD = b"From carl@a.example Fri Nov 27 09:10:11 2026\nx\n\n"
DATE = b"Thu Jan  1 00:00:00 1970"
# What stands in a mailbox, and what comes between that and the next record.
ROWS = [
    (b"", b""),
    (OLD, b""),
    (b"abc\n\n", b""),
    (b"\n\n", b""),
    (b"\n", b"\n"),
    (b"abc\n", b"\n"),
    (b"abc", b"\n\n"),
    (b"x", b"\n\n"),
    (OLD[:-1], b"\n"),
    (OLD[:-2], b"\n\n"),
    # no letter begins there
    (OLD + b">From a", b"\n\n"),
    (OLD[:-1] + b"From a", b"\n\n"),
    (OLD[:-1] + b"F", b"\n\n"),
    (b"\nF", b"\n\n"),
    (b"\nFrom c@a", b"\n\n"),
    (OLD + b"f", b"\n\n"),
    (OLD + b"Fo", b"\n\n"),
    (OLD + b"From:", b"\n\n"),
    (OLD + b" From a", b"\n\n"),
    (OLD + b"Frox", b"\n\n"),
    # a part of `From `
    (b"F", b"rom MAILER-DAEMON Thu Jan  1 00:00:00 1970\n\n"),
    (b"Fr", b"om MAILER-DAEMON Thu Jan  1 00:00:00 1970\n\n"),
    (b"From", b" MAILER-DAEMON Thu Jan  1 00:00:00 1970\n\n"),
    (b"\n\nF", b"rom MAILER-DAEMON Thu Jan  1 00:00:00 1970\n\n"),
    (OLD + b"F", b"rom MAILER-DAEMON Thu Jan  1 00:00:00 1970\n\n"),
    (OLD + b"Fr", b"om MAILER-DAEMON Thu Jan  1 00:00:00 1970\n\n"),
    (OLD + b"Fro", b"m MAILER-DAEMON Thu Jan  1 00:00:00 1970\n\n"),
    (OLD + b"From", b" MAILER-DAEMON Thu Jan  1 00:00:00 1970\n\n"),
    (OLD + b"\n\nF", b"rom MAILER-DAEMON Thu Jan  1 00:00:00 1970\n\n"),
    # the sender
    (b"From ", b"MAILER-DAEMON Thu Jan  1 00:00:00 1970\n\n"),
    (OLD + b"From ", b"MAILER-DAEMON Thu Jan  1 00:00:00 1970\n\n"),
    (OLD + b"From M", b"AILER-DAEMON Thu Jan  1 00:00:00 1970\n\n"),
    (OLD + b"From MAILER-DAEMON", b" Thu Jan  1 00:00:00 1970\n\n"),
    (OLD + b"From MAILER-DAEMON Th", b"u Jan  1 00:00:00 1970\n\n"),
    (OLD + b"From Ma", b" Thu Jan  1 00:00:00 1970\n\n"),
    (b"From c@a", b" Thu Jan  1 00:00:00 1970\n\n"),
    (OLD + b"From c@a", b" Thu Jan  1 00:00:00 1970\n\n"),
    (OLD + b"From c@a ", b"Thu Jan  1 00:00:00 1970\n\n"),
    (OLD + b'From "a b"@c', b" Thu Jan  1 00:00:00 1970\n\n"),
    # the date
    (OLD + b"From c@a Thu Ja", b"n  1 00:00:00 1970\n\n"),
    (OLD + b"From c@a T", b"hu Jan  1 00:00:00 1970\n\n"),
    (OLD + b"From c@a Tu", b"e Jan  1 00:00:00 1970\n\n"),
    (OLD + b"From c@a Su", b"n Jan  1 00:00:00 1970\n\n"),
    (OLD + b"From c@a Tue Ju", b"n  1 00:00:00 1970\n\n"),
    (OLD + b"From c@a Tue Jul", b"  1 00:00:00 1970\n\n"),
    (OLD + b"From c@a Tue Ma", b"r  1 00:00:00 1970\n\n"),
    (OLD + b"From c@a Tue May", b"  1 00:00:00 1970\n\n"),
    (OLD + b"From c@a Tue Au", b"g  1 00:00:00 1970\n\n"),
    (OLD + b"From c@a Tue Feb 2", b"0 00:00:00 1970\n\n"),
    (OLD + b"From c@a Tue Feb 28", b" 00:00:00 1970\n\n"),
    (OLD + b"From c@a Tue Feb  ", b"1 00:00:00 1970\n\n"),
    (OLD + b"From c@a Tue Feb  7", b" 00:00:00 1970\n\n"),
    (OLD + b"From c@a Tue Feb 28 17:0", b"0:00 1970\n\n"),
    (OLD + b"From c@a Tue Feb 28 17:01:59 20", b"70\n\n"),
    (OLD + b"From c@a " + DATE, b"\n\n"),
    (OLD + b"From c@a " + DATE + b"\n", b"\n"),
    # a line of another program's, which had no end: it is a letter of its own then
    (OLD + b"From here on", b" Thu Jan  1 00:00:00 1970\n\n"),
]
# Of a From line that would be longer than this no filling is begun, so that none is given up when it is cut off.
FRONTS = [b"", OLD, b"x" * 9000 + b"\n\n"]
DELIVERED = b"Subject: then\n\nhello\n"


def of_length(length, text=b"From c@a"):
    return text + b"c" * (length - len(text))


def long_rows():
    """From lines at the length from which none is filled up, and lines longer than what is read back."""
    end = b" " + DATE
    for front in FRONTS:
        yield front + of_length(MOST_LINE - len(end)), end + b"\n\n"
        yield front + of_length(MOST_LINE - len(end) + 1), b"\n\n"
        yield front + of_length(MOST_LINE - len(end)) + end[:-1], b"0\n\n"
        yield front + of_length(MOST_LINE - len(end) + 1) + end[:-1], b"\n\n"
        yield front + of_length(MOST_LINE - len(end)) + end, b"\n\n"
        for length in [*range(MOST_LINE - 1, MOST_LINE + 5), 5_000, 9_000, 70_000]:
            yield front + of_length(length), b"\n\n"
            yield front + of_length(length, b"x"), b"\n\n"
    yield b"x" * 5_000, b"\n\n"
    yield b"x" * 5_000 + b"\nFrom c@a", b"\n\n"
    yield b"x" * 5_000 + b"\n\nFro", b"m MAILER-DAEMON Thu Jan  1 00:00:00 1970\n\n"


def deliver_to_all(folder, rows):
    """Each mailbox has the bytes of its row, and then one server delivers a letter to all of them: what each has."""
    boxes = [f"row{number}" for number in range(len(rows))]
    paths = [folder / f"{box}.mbox" for box in boxes]
    for path, (old, _) in zip(paths, rows):
        path.write_bytes(old)
    with Server(folder, boxes, 1, "--lanes", 1) as server:
        # the start alone changes nothing
        equal([path.read_bytes() == old for path, (old, _) in zip(paths, rows)], [True] * len(rows))
        with Client(server.address).greet() as client:
            finals = client.deliver_at_once(boxes, "Subject: then", "", "hello")[1]
            equal(finals, [stored(box) for box in boxes])
            client.quit()
        equal(vars(server.end()), {"status": 0, "said": [f"{box} stored 1" for box in boxes], "errors": []})
    return [path.read_bytes() for path in paths]


@case
def torn_tails_are_mended(folder):
    """what stands in a mailbox, what mends it, and the next record: bytes row by row, none of which is lost; a From
    line that breaks off where a letter may begin is filled up to a whole one, and all else gets the fewest LFs"""
    rows = ROWS + list(long_rows())
    equal([old for old, mending in rows if mends(old) != mending], [])
    wrong = []
    for (old, mending), found in zip(rows, deliver_to_all(folder, rows)):
        between, begins, record = found.removeprefix(old).partition(b"From carl@a.example ")
        is_whole = letters.letter_of(begins[5:] + record).message == DELIVERED + b"\n"
        if not found.startswith(old) or between != mending or not is_whole:
            wrong.append((old[-60:], between, mending))
    equal(wrong, [])


@case
def filled_lines_are_letters(folder):
    """a From line that was filled up is a letter of its own for git, Python and the check: the one before it is as it
    was, and the one that is delivered then is whole"""
    rows = [(old, mending) for old, mending in ROWS if old.startswith(OLD + b"F") and len(mending) > 2]
    deliver_to_all(folder, rows)
    for number, (old, mending) in enumerate(rows):
        path = folder / f"row{number}.mbox"
        filled = (old + mending).removeprefix(OLD)
        for reader in [letters.by_git, letters.by_python]:
            *texts, last = reader(path)
            equal((old, texts), (old, [OLD[5:-1], filled[5:-1]]))
            equal((old, letters.letter_of(last).message), (old, DELIVERED))
        equal(run(["check", path]).said, [f"{path} letters 3"])
