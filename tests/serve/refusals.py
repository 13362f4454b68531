"""What the program says to words that it can't use, and the status that it ends with."""

import subprocess

from cases import case, equal
from server import run, taken_port, words

MANY = [f"box{number}" for number in range(257)]
# how many mailboxes a file may list
MOST = 65_536
GOOD, BAD = "127.0.0.1:0", "127.0.0.1"
# Each row breaks the rule that is named, keeps those above it, and where it can breaks some below it:
# the status, the line, the host, what to listen on, further words, the mailboxes.
ROWS = [
    (2, "bad address", "mx_example", BAD, [], ["Anna"]),
    (2, "bad address", "mx.example", "localhost:24", [], ["anna"]),
    (2, "bad address", "mx.example", "127.0.0.1:65536", [], ["anna"]),
    (2, "bad address", "mx.example", "::1:24", [], ["anna"]),
    (2, "port 25", "mx_example", "127.0.0.1:25", [], ["Anna"]),
    (2, "port 25", "mx.example", "[::1]:25", [], ["anna"]),
    (2, "bad address", "mx_example", BAD, [], []),
    (2, "port 25", "mx_example", "127.0.0.1:25", [], []),
    (2, "no box", "mx_example", GOOD, ["--domains", "a_b"], []),
    (2, "bad host", "mx_example", GOOD, ["--domains", "a_b"], ["Anna"]),
    (2, "bad domain", "mx.example", GOOD, ["--domains", "a.example,b_c"], ["Anna"]),
    (2, "bad box", "mx.example", GOOD, [], ["anna", "anna", ".ben"]),
    (2, "bad box", "mx.example", GOOD, [], [*MANY[1:], "Anna"]),
    (2, "bad box", "mx.example", GOOD, ["--mailbox-suffix", "ck"], ["anna", "anna", "a.lo"]),
    (2, "bad box", "mx.example", GOOD, ["--mailbox-suffix="], [*MANY, "a.lock"]),
    (2, "bad domain", "mx.example", GOOD, ["--domains", "b_c", "--mailbox-suffix="], ["a.lock"]),
    (2, "too many boxes", "mx.example", GOOD, ["--mailbox-suffix="], MANY),
    (2, "box named twice", "mx.example", GOOD, ["--mailbox-suffix", ".x"], ["a.lock", "a.lock"]),
    (2, "too many boxes", "mx.example", GOOD, [], MANY),
    (2, "too many boxes", "mx.example", GOOD, [], [*MANY, "box1"]),
    (2, "box named twice", "mx.example", GOOD, ["--lanes", 65], ["anna", "ben", "anna"]),
]
# Where the folder has folders in anna's and dora's place, under these suffixes too, and PORT is taken.
LATER_ROWS = [
    ("cannot open anna.mbox", "PORT", ["--lanes", 65], ["ben", "anna", "carl"]),
    ("cannot open dora.mbox", "PORT", ["--lanes", 65], ["ben", "dora", "anna"]),
    ("cannot open anna.mail", "PORT", ["--mailbox-suffix", ".mail", "--lanes", 65], ["ben", "anna"]),
    ("cannot open dora", "PORT", ["--mailbox-suffix=", "--lanes", 65], ["dora", "anna"]),
    ("cannot listen", "PORT", ["--lanes", 65], ["ben"]),
    ("size", GOOD, ["--lanes", 65], ["ben"]),
    ("size", GOOD, ["--lanes", 0], ["ben"]),
    ("size", GOOD, ["--blocks", 0], ["ben"]),
    ("size", GOOD, ["--blocks", 65537], ["ben"]),
    ("size", GOOD, ["--capacity", 0], ["ben"]),
    ("size", GOOD, ["--capacity", 1025], ["ben"]),
]
# Numbers and levels, and words that are missing or unknown: a text of clap's form.
NUMBERS = [
    ("--connections", 0),
    ("--connections", 1_000_001),
    ("--connections", "x"),
    ("--reads", 0),
    ("--reads", 4_294_967_295),
    ("--timeout", 0),
    ("--timeout", 86_401),
    ("--session-time", 0),
    ("--session-time", 86_401),
    ("--session-time", "1h"),
    ("--session-time", ""),
    ("--bad-commands", 0),
    ("--bad-commands", 1_000_001),
    ("--bad-commands", "x"),
    ("--bad-commands", ""),
    ("--lanes", "-1"),
    ("--quota", "-1"),
    ("--quota", 18_446_744_073_709_551_616),
    ("--quota", "1k"),
    ("--quota", ""),
    ("--lock-wait", "-1"),
    ("--lock-wait", 3601),
    ("--lock-wait", "x"),
    ("--mailbox-mode", "8"),
    ("--mailbox-mode", "x"),
    ("--mailbox-mode", ""),
    ("--log", ""),
    ("--log", "debug"),
    ("--log", "trace"),
    ("--log", "warn"),
    ("--log", "INFO?"),
    ("--log", "info "),
    ("--log", "lmtpd=info"),
    ("--log", "3"),
    ("--lock-wait", "-1"),
    ("--lock-wait", 3_601),
    ("--lock-wait", "1s"),
    ("--lock-wait", ""),
    ("--mailbox-mode", ""),
    ("--mailbox-mode", "800"),
    ("--mailbox-mode", "0o600"),
    ("--mailbox-mode", "+600"),
    ("--mailbox-mode", "-600"),
    ("--mailbox-mode", "01777"),
    ("--mailbox-mode", "1000"),
    ("--mailbox-mode", "00600"),
    ("--mailbox-mode", " 600"),
    ("--mailbox-mode", "u=rw"),
    ("--mailbox-suffix", "x" * 33),
    ("--mailbox-suffix", "/"),
    ("--mailbox-suffix", ".mail/"),
    ("--mailbox-suffix", " "),
    ("--mailbox-suffix", ".mä"),
    ("--mailbox-suffix", ".mail\n"),
    ("--mailbox-suffix", "%"),
    ("--socket-mode", ""),
    ("--socket-mode", "8"),
    ("--socket-mode", "+660"),
    ("--socket-mode", "1000"),
    ("--socket-mode", "00660"),
    ("--socket-mode", "u=rw"),
    ("--stop-file", ""),
    ("--shout", 1),
]


def expects(given, status, line):
    ended = run(given)
    equal((ended.status, ended.errors, ended.said), (status, [f"lmtpd: {line}"], []))


@case
def the_words_in_order(folder):
    """words that can't be used: one line, in the order of the tests, status 2, and no mailbox is made"""
    for status, line, host, listen, more, boxes in ROWS:
        expects(words(folder, boxes, 1, *more, listen=listen, host=host), status, line)
    equal(list(folder.iterdir()), [])


@case
def a_file_of_mailboxes(folder):
    """a file of mailboxes that can't be read, before all that is wrong with words: one line, status 1; or bad names"""
    boxes = folder / "boxes"
    for host, listen, names in [("mx_example", BAD, []), ("mx_example", GOOD, ["Anna"]), ("a.example", GOOD, ["anna"])]:
        expects(words(folder, names, 1, "--boxes", boxes, listen=listen, host=host), 1, f"cannot read {boxes}")
    for text, line in [
        ("", "no box"),
        ("# anna\n", "no box"),
        ("anna\nBen\n", "bad box"),
        ("anna ben\n", "bad box"),
        (lines(MOST + 1).decode(), "too many boxes"),
        ("anna\nben\nanna\n", "box named twice"),
    ]:
        boxes.write_text(text)
        expects(words(folder, [], 1, "--boxes", boxes), 2, line)
    boxes.write_text("anna\n")
    expects(words(folder, ["anna"], 1, "--boxes", boxes), 2, "box named twice")
    expects(words(folder, [], 1, "--boxes", boxes, listen=BAD), 2, "bad address")
    equal([path.name for path in folder.iterdir()], ["boxes"])


def lines(count):
    """The text of a file of that many mailboxes, the first of which is box0."""
    return "".join(f"box{number}\n" for number in range(count)).encode()


# What a file of mailboxes has, the names among the words before it, and what is said of the name: {} stands for the
# file's path and the line that follows. A word that begins with - is one of the program, and comes before the names.
NAMES = [
    (None, ["anna", "Frieda"], "bad box name=Frieda"),
    (b"Anna\n", ["anna", "Frieda"], "bad box name=Frieda"),
    (b"anna\n# users\n\n \t\nFrieda # the fifth\n", [], "bad box name=Frieda file={} line=5"),
    (b"anna\r\n\r\nBen\r\n", ["carl"], "bad box name=Ben file={} line=3"),
    (b"# users\nBen", ["anna"], "bad box name=Ben file={} line=2"),
    (b"anna\nben\nanna ben\n", [], "bad box name=anna ben file={} line=3"),
    (b"anna 5K\nben 5k # small\n", [], "bad box name=ben 5k file={} line=2"),
    (b"anna\t+5\n", ["ben"], "bad box name=anna%09+5 file={} line=1"),
    (b"anna -5\n", [], "bad box name=anna -5 file={} line=1"),
    (b"anna K\n", [], "bad box name=anna K file={} line=1"),
    (b"anna 5KK\n", [], "bad box name=anna 5KK file={} line=1"),
    (b"anna 5 6\n", [], "bad box name=anna 5 6 file={} line=1"),
    (b"anna 18446744073709551615\nben 18446744073709551616\n", [], "bad box name=ben 18446744073709551616 file={} line=2"),
    (b"anna 17179869183G\nben 17179869184G\n", [], "bad box name=ben 17179869184G file={} line=2"),
    (b"anna 0\nFrieda 5\nben 5x\n", [], "bad box name=Frieda file={} line=2"),
    (b"anna 0\nben 5x\nFrieda 5\n", [], "bad box name=ben 5x file={} line=2"),
    (b"anna 0\nanna -\n", [], "box named twice name=anna file={} line=2"),
    (b"an\0na\n", [], "bad box name=an%00na file={} line=1"),
    (b"ben\nj\xf6rg\n", [], "bad box name=j%F6rg file={} line=2"),
    ("ben\njörg\n".encode(), [], "bad box name=j%C3%B6rg file={} line=2"),
    (b"a" * 65, [], f"bad box name={'a' * 60}.. file={{}} line=1"),
    (b"B" + b"a" * 59, [], f"bad box name=B{'a' * 59} file={{}} line=1"),
    (b"B" + b"a" * 60, [], f"bad box name=B{'a' * 59}.. file={{}} line=1"),
    (None, ["a" * 32, "b" * 33], f"bad box name={'b' * 33}"),
    (None, ["anna", "o'brien"], "bad box name=o'brien"),
    (None, ["anna+x"], "bad box name=anna+x"),
    (None, ["a=b"], "bad box name=a=b"),
    (b"o'brien\n", ["anna+x"], "bad box name=anna+x"),
    (b"o'brien\nanna+x\n.a\n", ["anna"], "bad box name=.a file={} line=3"),
    (b"o'brien\nO'Brien\n", [], "bad box name=O'Brien file={} line=2"),
    (b"a/b\n", ["anna"], "bad box name=a/b file={} line=1"),
    (b"ben\nanna@two.example\nBen\n", ["anna"], "bad box name=anna@two.example file={} line=2"),
    (b"@x\n", [], "bad box name=@x file={} line=1"),
    (b"anna@\n", [], "bad box name=anna@ file={} line=1"),
    (b"anna+x.lock\n", ["--mailbox-suffix="], "bad box name=anna+x.lock file={} line=1"),
    (b"anna+x\nanna+x\n", [], "box named twice name=anna+x file={} line=2"),
    (b"ben\n" + b"a" * 10_000 + b"\n", [], f"bad box name={'a' * 60}.. file={{}} line=2"),
    (b"\xff" * 61, [], f"bad box name={'%FF' * 60}.. file={{}} line=1"),
    (None, ["--mailbox-suffix=", "anna", "a.lock"], "bad box name=a.lock"),
    (None, ["--mailbox-suffix=ck", "anna", "a.lock", "a.lo", "b.lo"], "bad box name=a.lo"),
    (b"anna\nben\n", ["--mailbox-suffix=.lock"], "bad box name=anna file={} line=1"),
    (b"anna\nben.source.lock # no\n", ["--mailbox-suffix=", "carl"], "bad box name=ben.source.lock file={} line=2"),
    (b"b.lock\nBen\na.lock\n", ["--mailbox-suffix=.x"], "bad box name=Ben file={} line=2"),
    (b"b.lock\nanna\nb.lock\n", [], "box named twice name=b.lock file={} line=3"),
    (b"anna\nanna\n" + "\n".join(MANY).encode() + b"\nAnna\n", [], "bad box name=Anna file={} line=260"),
    (None, MANY, "too many boxes name=box256"),
    (b"anna\nanna\n", MANY, "too many boxes name=box256"),
    (b"# all\n" + lines(MOST) + b"last", [], "too many boxes name=last file={} line=65538"),
    (lines(MOST), ["anna"], "too many boxes name=box65535 file={} line=65536"),
    (b"anna\n" + lines(MOST), ["ben"], "too many boxes name=box65534 file={} line=65536"),
    (lines(MOST - 1) + b"box500\n", [], "box named twice name=box500 file={} line=65536"),
    (lines(MOST) + b"box500\n", [], "too many boxes name=box500 file={} line=65537"),
    (lines(MOST) + b"Anna\n", [], "bad box name=Anna file={} line=65537"),
    (b"\nbox1\ncarl\n", MANY[1:], "box named twice name=box1 file={} line=2"),
    (None, ["anna", "ben", "anna"], "box named twice name=anna"),
    (b"ben\nanna\n", ["anna"], "box named twice name=anna file={} line=2"),
    (b"anna\nben\n# ben\nben\nanna\n", [], "box named twice name=ben file={} line=4"),
]


@case
def names_that_cannot_be_used_are_said(folder):
    """a name that can't be used: with --log error or info and with --check-words a line of the log says which, where it
    stands and at most 60 bytes of it, before the line that was there; without these words no such line"""
    boxes = folder / "böxes"
    shown = str(boxes).replace("ö", "%C3%B6")
    for text, names, said in NAMES:
        boxes.write_bytes(text or b"")
        more = ["--boxes", boxes] if text is not None else []
        more += [name for name in names if name.startswith("-")]
        names = [name for name in names if not name.startswith("-")]
        line = f"lmtpd: {said.split(' name=')[0]}"
        named = f"[ERROR lmtpd] {said.format(shown)}"
        for word in [["--log", "error"], ["--log", "info"], ["--check-words"], ["--check-words", "--log", "off"]]:
            ended = run(words(folder, names, 1, *more, *word))
            equal((word, ended.status, ended.errors, ended.said), (word, 2, [named, line], []))
        for word in [[], ["--log", "off"]]:
            ended = run(words(folder, names, 1, *more, *word))
            equal((word, ended.status, ended.errors, ended.said), (word, 2, [line], []))
    equal([path.name for path in folder.iterdir()], ["böxes"])


@case
def the_words_alone_are_checked(folder):
    """--check-words: status 0 and no line where each word can be used, whoever has the port; else the line and the
    status that the server ends with; no file is made, and none of the socket's"""
    boxes = folder / "boxes"
    listener, port = taken_port()
    with listener:
        for listen in [GOOD, f"127.0.0.1:{port}", f"unix:{folder}/socket", "inherited"]:
            for more in [[], ["--lanes", 64], ["--log", "info"], ["--stop-file", boxes, "--start-anyway"]]:
                ended = run(words(folder, ["anna"], 1, *more, "--check-words", listen=listen))
                equal(vars(ended), {"status": 0, "said": [], "errors": []})
    for status, line, host, listen, more, names in ROWS:
        ended = run(words(folder, names, 1, *more, "--check-words", listen=listen, host=host))
        equal((ended.status, ended.errors[-1:], ended.said), (status, [f"lmtpd: {line}"], []))
    expects(words(folder, ["Anna"], 1, "--boxes", boxes, "--check-words"), 1, f"cannot read {boxes}")
    boxes.write_text("anna # the first\nben\n")
    ended = run(words(folder, [], 1, "--boxes", boxes, "--check-words"))
    equal(vars(ended), {"status": 0, "said": [], "errors": []})
    equal([path.name for path in folder.iterdir()], ["boxes"])


@case
def what_the_machine_refuses(folder):
    """a file, then the port, then a size that can't be used: one line, status 1"""
    (folder / "anna.mbox").mkdir()
    (folder / "dora.mbox").mkdir()
    (folder / "anna.mail").mkdir()
    (folder / "dora").mkdir()
    listener, port = taken_port()
    with listener:
        for line, listen, more, boxes in LATER_ROWS:
            expects(words(folder, boxes, 1, *more, listen=listen.replace("PORT", f"127.0.0.1:{port}")), 1, line)
    # no mailbox is made
    equal(sorted(path.name for path in folder.iterdir()), ["anna.mail", "anna.mbox", "dora", "dora.mbox"])


@case
def no_folder(folder):
    """a folder that isn't there: the first mailbox can't be opened, status 1"""
    expects(words(folder / "none", ["anna"], 1), 1, "cannot open anna.mbox")


@case
def numbers_out_of_range(folder):
    """numbers, levels, a folder and words that are refused as clap does: its form, status 2, and no mailbox is made"""
    good = words(folder, ["anna"], 1)
    for name, value in NUMBERS:
        given = good + [name, str(value)]
        if name == "--connections":
            given = words(folder, ["anna"], value)
        ended = run(given)
        equal((name, value, ended.status, ended.said), (name, value, 2, []))
        assert ended.errors[0].startswith("error:"), ended.errors
    for missing in ["--host", "--listen", "--dir"]:
        at = good.index(missing)
        equal((missing, run(good[:at] + good[at + 2 :]).status), (missing, 2))
    expects(good[:-1], 2, "no box")
    ended = run([*good, "--log", "off", "--log", "info"])
    equal((ended.status, ended.errors[0].split("'")[0]), (2, "error: the argument "))
    equal(run([*good, "--log", "warn"]).errors[0], "error: invalid value for '--log <LEVEL>': it is off, error or info")
    folders = "error: invalid value for '--dir <FOLDER>': it is the path of a folder, and not empty"
    at = good.index("--dir") + 1
    ended = run([*good[:at], "", *good[at + 1 :], "--log", "warn"])
    equal((ended.status, ended.said, ended.errors[0]), (2, [], folders))
    stop = "error: invalid value for '--stop-file <PATH>': it is the path of a file, and not empty"
    equal(run([*good, "--log", "warn", "--stop-file", ""]).errors[0], stop)
    for name in ["--mailbox-mode", "--socket-mode"]:
        mode = f"error: invalid value for '{name} <MODE>': it is 1 to 4 octal digits, 0777 at most"
        equal(run([*good, name, "1777"]).errors[0], mode)
    suffix = "error: invalid value for '--mailbox-suffix <SUFFIX>': it is at most 32 letters, digits, ., _ and -"
    equal(run([*good, "--mailbox-suffix", "/"]).errors[0], suffix)
    equal(list(folder.iterdir()), [])


@case
def the_ends_of_what_a_lock_is_waited_for_and_of_a_mode(folder):
    """the least, the most and texts between: the words are taken, and what is told is the next thing that is wrong"""
    taken = [("--lock-wait", value) for value in [0, 10, 3_600]]
    taken += [("--session-time", value) for value in [1, 3_600, 86_400]]
    taken += [("--bad-commands", value) for value in [1, 200, 1_000_000]]
    taken += [("--stop-file", "0"), ("--socket-mode", "0600"), ("--socket-mode", "0777")]
    taken += [("--mailbox-mode", value) for value in ["0", "7", "600", "0600", "0777", "777", "0000", "660"]]
    suffixes = ["", ".", "x", "-", "_", "x" * 32, ".A-z_0.9", ".lock.x", ".mbox"]
    taken += [("--mailbox-suffix", value) for value in suffixes]
    for name, value in taken:
        expects(words(folder, ["anna"], 1, name, value, listen=BAD), 2, "bad address")


@case
def the_levels(folder):
    """each level, in any case: the words are taken, and what is told is the next thing that is wrong"""
    for level in ["off", "error", "info", "OFF", "Error", "iNFO"]:
        expects(words(folder, ["anna"], 1, "--log", level, listen=BAD), 2, "bad address")


@case
def help_is_no_refusal(_folder):
    """--help, and help: status 0, nothing on standard error, and each limit and each usual value"""
    for asked in [["serve", "--help"], ["serve", "-h"], ["help", "serve"]]:
        ended = run(asked)
        equal((ended.status, ended.errors), (0, []))
        told = "\n".join(ended.said)
        for text in [
            "1 to 64 [default: 4]",
            "off, error or info [default: off]",
            "0 to 3600 [default: 10]",
            "0 to 0777 [default: 0600]",
            "0 to 0777 [default: 0660]",
            "[default: .mbox]",
            "1 to 86400 [default: 3600]",
            "lmtpd serve --host",
            "Exit status:",
        ]:
            assert text in told, (asked, text)


@case
def version_is_no_refusal(_folder):
    """--version: status 0, one line that names program, version and toolchain, and nothing on standard error"""
    ended = run(["--version"])
    equal((ended.status, ended.errors), (0, []))
    kit = subprocess.run(["rt", "version"], capture_output=True, check=True, text=True).stdout.split()
    equal(ended.said, [f"lmtpd 0.1.0 ({kit[0]}, {kit[1]} {kit[2]})"])
