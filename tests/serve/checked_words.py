"""--check-words looks at all that the server looks at before it listens: its sizes and the folder of its mailboxes too.
What it refuses a start would refuse, by the same lines."""

import os

from cases import case, equal
from server import run, taken_port, words
from unopened import ANYWAY, PERMISSION_DENIED, REFUSED, as_nobody, run_with

CHECK = "--check-words"
# The word, numbers that it can't have, and the most that it may have.
SIZES = [
    ("--lanes", [0, 65, 100], 64),
    ("--blocks", [0, 65_537, 100_000], 65_536),
    ("--capacity", [0, 1_025, 5_000], 1_024),
]
SHORT = "[ERROR lmtpd] a largest message has no room room=0 limit=1048576"
LEVELS = [["--log", "error"], ["--log", "info"]]
NO_FILE = "No such file or directory (os error 2)"
NO_FOLDER = "Not a directory (os error 20)"


@case
def sizes_out_of_their_limits(folder):
    """a size that can't be had: --check-words ends with `size` and status 1, as a start does, and the log has the word,
    its number and its limits, always with --check-words, else where errors are logged; nothing is made"""
    for word, numbers, most in SIZES:
        for number in numbers:
            line = f"[ERROR lmtpd] a size is out of its limits word={word} has={number} least=1 most={most}"
            lines = [*([SHORT] if (word, number) == ("--blocks", 0) else []), line, "lmtpd: size"]
            for more in [[CHECK], [CHECK, *LEVELS[0]], [CHECK, "--log", "off"], *LEVELS]:
                ended = run(words(folder, ["anna"], 1, word, number, *more))
                expected = {"status": 1, "said": [], "errors": lines}
                equal((word, number, more, vars(ended)), (word, number, more, expected))
            ended = run(words(folder, ["anna"], 1, word, number))
            equal(vars(ended), {"status": 1, "said": [], "errors": ["lmtpd: size"]})
    equal(list(folder.iterdir()), [])
    several = ["--capacity", 0, "--blocks", 0, "--lanes", 0, CHECK]
    line = "[ERROR lmtpd] a size is out of its limits word=--lanes has=0 least=1 most=64"
    equal(run(words(folder, ["anna"], 1, *several)).errors, [SHORT, line, "lmtpd: size"])


@case
def the_folder(folder):
    """a folder that isn't there, a file in its place, one that can't be read: --check-words ends with `cannot open` of
    the first mailbox and status 1, as a start does, and the log has the folder and why; before a size"""
    file, hidden = folder / "file", folder / "hid den"
    file.touch()
    hidden.mkdir()
    how = as_nobody(hidden)
    hidden.chmod(0)
    for place, reason in [(folder / "none", NO_FILE), (file, NO_FOLDER), (hidden, PERMISSION_DENIED)]:
        lines = [f"[ERROR lmtpd] cannot open mailbox=anna reason={reason}"]
        lines += [f"[ERROR lmtpd] cannot read the folder folder={place} reason={reason}", REFUSED]
        for anyway in [[], [ANYWAY]]:
            for more in [[CHECK], [CHECK, "--lanes", 65], *LEVELS]:
                ended = run_with(words(place, ["anna", "ben"], 1, *anyway, *more), **how)
                expected = {"status": 1, "said": [], "errors": lines}
                equal((place.name, anyway, more, ended), (place.name, anyway, more, expected))
    hidden.chmod(0o700)
    equal((list(hidden.iterdir()), file.read_bytes()), ([], b""))


@case
def nothing_is_made(folder):
    """words that a server can begin with: status 0 and no line, whoever has the port; no mailbox is made or opened and no
    lock file is made, and what is there stays as it is"""
    (folder / "ben.mbox").write_bytes(b"no mailbox")
    (folder / "ben.mbox.lock").write_text("1")
    os.mkfifo(folder / "fifo")
    before = sorted((path.name, path.lstat().st_mtime_ns, path.lstat().st_atime_ns) for path in folder.iterdir())
    listener, port = taken_port()
    with listener:
        for listen in ["127.0.0.1:0", f"127.0.0.1:{port}", f"unix:{folder}/none/socket", "inherited"]:
            ended = run(words(folder, ["anna", "ben"], 1, CHECK, listen=listen))
            equal((listen, vars(ended)), (listen, {"status": 0, "said": [], "errors": []}))
    after = sorted((path.name, path.lstat().st_mtime_ns, path.lstat().st_atime_ns) for path in folder.iterdir())
    equal(after, before)


@case
def a_mailbox_that_is_not_plain(folder):
    """a folder in a mailbox's place: with --start-anyway --check-words says so and ends with status 0, as the server
    starts; without it `cannot open`, status 1"""
    (folder / "anna.mbox").mkdir()
    line = "[ERROR lmtpd] cannot open mailbox=anna reason=not plain"
    for more, status, lines in [([ANYWAY], 0, [line]), ([], 1, [line, REFUSED])]:
        ended = run(words(folder, ["anna", "ben"], 1, CHECK, *more))
        equal((more, vars(ended)), (more, {"status": status, "said": [], "errors": lines}))
    equal(sorted(path.name for path in folder.iterdir()), ["anna.mbox"])
