"""Servers that are killed within a write to a mailbox, and what stands there once the next one has delivered."""

import os
import pathlib
import re
import shutil
import signal
import subprocess
import time
from collections.abc import Callable
from typing import NamedTuple

import letters
from cases import Absent, equal
from clients import Client, deliver_one
from mending import mends
from replies import stored
from server import Server, run

LIBRARY = pathlib.Path(__file__).parent / "stop_in_write.c"
TOLD = ["Subject: told", "", "From here on", ">From there", "", "end"]
TORN = ["Subject: torn", "", "From here on", "", "end"]
THEN = ["Subject: then", "", "bye"]
MOST_TORN = 2  # letters that nobody was told of, which one torn record may be read as


class Cut(NamedTuple):
    """A mailbox in which a record was cut off."""

    path: pathlib.Path
    place: int  # how many bytes of what was to be written stand there
    before: bytes  # what stood there when the last letter was told, or nothing
    torn: bytes  # what the kill left
    is_spoilt: bool = False  # bytes that nobody wrote may stand behind the last told letter, as lines of it

    @property
    def told(self):
        """The letters that were told 250 by then."""
        return [text_of(record) for record in re.split(rb"(?<=\n\n)(?=From )", self.before) if record]

    @property
    def found(self):
        """What stands there now, or nothing where there is no file."""
        return self.path.read_bytes() if self.path.exists() else b""


class Reader(NamedTuple):
    """A program that reads mailboxes."""

    letters_of: Callable  # those that it finds at a path
    shown: Callable = bytes  # what it shows of a letter
    joins: bool = False  # takes what is torn for lines of the letter before it


READERS = {"git": Reader(letters.by_git), "Python": Reader(letters.by_python)}


class Killer:
    """Kills a server within its writes, by a library that it is started with."""

    def __init__(self, folder):
        if shutil.which("cc") is None:
            raise Absent("cc")
        self.folder, self.library = folder, folder / "stop_in_write.so"
        subprocess.run(["cc", "-O2", "-shared", "-fPIC", "-o", self.library, LIBRARY], check=True)

    def cut(self, boxes, told=()):
        """One server with these mailboxes, each with the place at which what it writes there is cut off: it tells a
        letter to all of them, where there is one, and is killed within the writes of the next one."""
        paths = [self.folder / f"{box}.mbox" for box, _ in boxes]
        names = [box for box, _ in boxes]
        environment = os.environ | {"LD_PRELOAD": str(self.library)}
        with Server(self.folder, names, 1, "--lanes", 1, env=environment) as server:
            with Client(server.address).greet() as client:
                if told:
                    equal(client.deliver_at_once(names, *told)[1], [stored(name) for name in names])
                before = [path.read_bytes() if path.exists() else b"" for path in paths]
                for path, old, (_, place) in zip(paths, before, boxes, strict=True):
                    path.with_name(f"{path.name}.cut").write_text(str(len(old) + place))
                client.send("MAIL FROM:<carl@a.example>", *(f"RCPT TO:<{name}@mx.example>" for name in names), "DATA")
                for _ in range(len(names) + 2):
                    client.hear()
                client.send(*TORN, ".")
                self.wait_for_cuts()
                server.process.kill()
            equal(server.process.wait(20), -signal.SIGKILL)
        found = [path.read_bytes() for path in paths]
        cuts = [Cut(path, place, *both) for path, (_, place), *both in zip(paths, boxes, before, found, strict=True)]
        equal([cut.place for cut in cuts if cut.torn[: -cut.place or None] != cut.before], [])
        return cuts

    def wait_for_cuts(self):
        """Until the server stands still in each of its writes."""
        until = time.monotonic() + 60
        while left := list(self.folder.glob("*.cut")):
            assert time.monotonic() < until, left
            time.sleep(0.01)

    def length_of_record(self):
        """Of the record that is cut off, and of its From line."""
        with Server(self.folder, ["whole"], 1, "--lanes", 1) as server:
            equal(deliver_one(server.address, ["whole"], *TORN), [stored("whole")])
        record = (self.folder / "whole.mbox").read_bytes()
        equal(letters.letter_of(text_of(record)).message, message_of(TORN))
        return len(record), record.find(b"\n") + 1


def deliver_after(folder, cuts):
    """One server delivers to all these mailboxes: what the check says of each then, in lines."""
    boxes = [cut.path.stem for cut in cuts]
    with Server(folder, boxes, 1, "--lanes", 1) as server, Client(server.address).greet() as client:
        # the start alone changes nothing
        equal([cut.place for cut in cuts if cut.found != cut.torn], [])
        equal(client.deliver_at_once(boxes, *THEN)[1], [stored(box) for box in boxes])
        client.quit()
        equal(vars(server.end()), {"status": 0, "said": [f"{box} stored 1" for box in boxes], "errors": []})
    paths = [cut.path for cut in cuts]
    said = run(["check", *paths]).said
    return [[line.removeprefix(f"{path} ") for line in said if line.startswith(f"{path} ")] for path in paths]


def faults_of(cut, said, readers):
    """Who finds a fault in that mailbox after the next letter, of which the check said these lines."""
    found = cut.path.read_bytes()
    if not found.startswith(cut.torn + mends(cut.torn)):
        yield "what mends"
    at = found.rfind(b"\n\nFrom ") + 2 if cut.torn else 0
    then = text_of(found[at:])
    if letters.letter_of(then).message != message_of(THEN):
        yield "the next letter"
    for name, reader in readers.items():
        # to one that joins them a From line alone is no letter
        told = [reader.shown(text) for text in cut.told if not reader.joins or text.partition(b"\n")[2]]
        gaining = len(told) if reader.joins else int(cut.is_spoilt)
        if not is_right(read_by(reader, cut.path), told, reader.shown(then), gaining):
            yield name
    count, nul = said[0].removeprefix("letters "), found.find(b"\0")
    if not count.isdigit() or not 1 <= int(count) - len(cut.told) <= 1 + MOST_TORN:
        yield "check"
    if [line.partition(" in letter ")[0] for line in said[1:]] != ([f"NUL at {nul}"] if nul >= 0 else []):
        yield "check of NULs"


def read_by(reader, path):
    """The letters that it finds; none where it takes the file for no mailbox."""
    try:
        return list(reader.letters_of(path))
    except subprocess.CalledProcessError:
        return []


def is_right(texts, told, then, gaining):
    """Whether a reader finds what was told, of which so many of the last may have gained lines, then what is torn, and
    then the next one."""
    count = len(texts) - len(told) - 1
    if not 0 <= count <= MOST_TORN or texts[-1] != then:
        return False
    sure = max(len(told) - gaining, 0)
    return texts[:sure] == told[:sure] and all(map(begins_so, texts[sure : len(told)], told[sure:]))


def begins_so(text, lines):
    """Whether a text begins with these lines."""
    return (text + b"\n").startswith(lines)


def judge(cuts, said, readers):
    """Each told letter is unchanged, but for lines that the last one gained where the mailbox is spoilt, and the next
    one whole, for each reader, and no byte is lost."""
    wrong = {}
    for cut, lines in zip(cuts, said, strict=True):
        for name in faults_of(cut, lines, readers):
            wrong.setdefault(name, []).append(cut.place)
    equal({name: spans(places) for name, places in wrong.items()}, {})


def spans(places):
    """As a text, where some that follow one another are told by the first and the last."""
    first = [place for place in places if place - 1 not in places]
    last = [place for place in places if place + 1 not in places]
    return ", ".join(str(one) if one == other else f"{one} to {other}" for one, other in zip(first, last))


def text_of(record):
    """The letter of a record, as readers have it who undo the quoting."""
    return letters.unquoted(record.removeprefix(b"From ").removesuffix(b"\n"))


def message_of(lines):
    return "".join(f"{line}\n" for line in lines).encode()
