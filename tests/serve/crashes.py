"""Every state in which a crash may leave a mailbox, while a turn goes on and after it: the calls of a turn, as strace has
them, are replayed on a disk that keeps what ext4 with data=ordered keeps of them. On each state a server begins, a
letter is delivered, and readers look for what was told.

Of a file's bytes those that were synced are there, and any prefix of what was appended since. A cut that wasn't synced
may not be there. Which file a path names is sure once the folder was synced after it; until then the path may name what
it named before, or nothing. A lock file may be there or not.

One more thing was seen on that file system, and stands in a case of its own: a file that grew may be as long as it was
to be, and NULs stand in place of what wasn't written, up to the end of a block or of the file."""

import contextlib
import os
import re
import shutil
import socket
import subprocess
import time
from typing import NamedTuple

from cases import Absent, equal
from clients import Client
from cut_writes import TOLD, TORN, Cut, deliver_after, judge
from replies import not_stored, stored
from server import Server
from written import until_it_looks

CALLS = "openat,write,ftruncate,fdatasync,fsync,link,linkat,unlink,unlinkat,rename,renameat"
LINE = re.compile(r"(\w+)\((.*)\)\s+= (-?\d+)(?:<.*>)?(?: E.*| \(INJECTED\))?")
AT_ONCE = 250  # mailboxes of one server
BLOCK = 4_096  # bytes of a block of ext4 and xfs
OLD = 301  # seconds after which a lock file goes that names no process
LOCK = b"%d:" + socket.gethostname().encode()  # a lock file names its process and host


class Call(NamedTuple):
    name: str
    words: str
    answer: int  # below 0: it failed

    @classmethod
    def of(cls, line):
        name, words, answer = LINE.fullmatch(line).groups()
        return cls(name, words, int(answer))

    def is_at(self, path):
        """Whether it has that file open, or that folder."""
        return f"<{path}>" in self.words

    @property
    def bytes(self):
        """What a write took of what it was asked to write."""
        text = re.search(r'"((?:\\.|[^"\\])*)", \d+$', self.words)[1]
        return text.encode().decode("unicode_escape").encode("latin-1")[: max(self.answer, 0)]

    @property
    def number(self):
        return int(self.words.rpartition(", ")[2])


class Disk:
    """A mailbox on a disk: what it holds, what of that is sure to be there after a crash, and what the path may name in
    its place: another file's bytes, or nothing."""

    def __init__(self, path, held, *other):
        self.path, self.held, self.sure = path, held, held
        self.others = set(other)  # while the folder wasn't synced
        self.cut = set()  # what stood there before a cut that wasn't synced

    def takes(self, call):
        if call.answer < 0:
            return
        if call.name == "write" and call.is_at(self.path):
            self.held += call.bytes
        elif call.name == "ftruncate" and call.is_at(self.path):
            self.cut |= set(self.prefixes())
            self.held = self.held[: call.number]
            self.sure = self.sure[: call.number]
        elif call.name in ("fdatasync", "fsync") and call.is_at(self.path):
            self.sure, self.cut = self.held, set()
        elif call.name == "fsync" and call.is_at(self.path.parent):
            self.others = set()

    def prefixes(self):
        return (self.held[:size] for size in range(len(self.sure), len(self.held) + 1))

    def states(self):
        """What a reader may find at the path after a crash now; None: no file."""
        return {*self.prefixes(), *self.cut, *self.others}


@contextlib.contextmanager
def calls_of(server, path, *words):
    """The calls of the mailbox's worker meanwhile, which are there at the end."""
    if shutil.which("strace") is None:
        raise Absent("strace")
    place = server.folder / "calls"
    looks = ["strace", "-ff", "-qq", "-y", "-s", "1000000", "-e", f"trace={CALLS}", "-e", "signal=none", *words]
    for it in (path, path.parent, f"{path}.lock", f"{path}.source.lock"):
        looks += ["-P", str(it)]
    looks += ["-o", str(place), "-p", str(server.process.pid)]
    calls = []
    with subprocess.Popen(looks, stdin=subprocess.DEVNULL, stderr=subprocess.DEVNULL) as tracer:
        try:
            until_it_looks(tracer, server)
            yield calls
            tracer.wait(20)
        finally:
            tracer.kill()
    told = [it.read_text() for it in place.parent.glob("calls.*")]
    (text,) = filter(lambda it: "write(" in it, told)
    calls += [Call.of(line) for line in text.splitlines() if " = ? " not in line]


def states_of(disk, calls, told, kept):
    """Each state after each call, with what was told 250 by then: `told`, and once all is synced what the disk holds,
    where the turn is one that keeps."""
    found = {(state, told) for state in disk.states()}
    has_written = False  # a mailbox's first turn has the file synced before it writes
    for call in calls:
        disk.takes(call)
        has_written |= call.name == "write" and call.is_at(disk.path)
        if kept and has_written and call.name == "fdatasync" and call.is_at(disk.path) and call.answer == 0:
            told = disk.held
        found |= {(state, told) for state in disk.states()}
    return sorted(found, key=lambda it: (it[1], it[0] is not None, it[0] or b""))


def mended_and_read(folder, states, lock, readers, is_spoilt=False):
    """A server begins on each of these states, every second one with the lock file of one that is gone."""
    for first in range(0, len(states), AT_ONCE):
        here = folder / f"states{first}"
        here.mkdir()
        cuts = []
        for place, (state, told) in enumerate(states[first : first + AT_ONCE], first):
            path = here / f"state{place}.mbox"
            if state is not None:
                path.write_bytes(state)
            if place % 2:
                leave_lock(path.with_name(f"{path.name}.lock"), lock)
            cuts.append(Cut(path, place, told, state or b"", is_spoilt))
        judge(cuts, deliver_after(here, cuts), readers)


def leave_lock(path, text):
    path.write_bytes(text)
    if not text:
        then = time.time() - OLD
        os.utime(path, (then, then))


def crashed_everywhere(folder, readers, begun, *words, answer=stored, other=(), told=b"", kept=True, put=None):
    """One turn at a mailbox that began so, or where another program put a file that holds this in its place, and each
    state of it."""
    path = (folder / "anna.mbox").resolve()
    if begun is not None:
        path.write_bytes(begun)
    with Server(path.parent, ["anna"], 1, "--lanes", 1) as server:
        lock = LOCK % server.process.pid
        with Client(server.address).greet() as client:
            if put is not None:
                path.with_name("new").write_bytes(put)
                path.with_name("new").rename(path)
            with calls_of(server, path, *words) as calls:
                equal(client.deliver(["anna"], *TORN)[1], [answer("anna")])
                client.quit()
                server.process.wait(20)
            server.end()
    disk = Disk(path, (begun or b"") if put is None else put, *other)
    states = states_of(disk, calls, told, kept)
    # the replay comes to what stands there
    equal(disk.held == path.read_bytes(), True)
    mended_and_read(folder, states, lock, readers)


def record(folder, lines):
    """A record of this server's, in a folder of its own."""
    here = folder / "record"
    here.mkdir()
    with Server(here, ["anna"], 1, "--lanes", 1) as server, Client(server.address).greet() as client:
        equal(client.deliver(["anna"], *lines)[1], [stored("anna")])
        client.quit()
        server.end()
    text = (here / "anna.mbox").read_bytes()
    shutil.rmtree(here)
    return text


def in_a_new_mailbox(folder, readers):
    crashed_everywhere(folder, readers, None, other=[None])


def after_a_told_letter(folder, readers):
    old = record(folder, TOLD)
    crashed_everywhere(folder, readers, old, told=old)


def after_a_torn_tail(folder, readers):
    old = record(folder, TOLD)
    crashed_everywhere(folder, readers, old + b"From carl@a.example Thu J", told=old)


def in_a_turn_that_breaks(folder, readers):
    old, fault = record(folder, TOLD), ["-e", "inject=fdatasync:error=EIO:when=2"]
    crashed_everywhere(folder, readers, old, *fault, answer=not_stored, told=old, kept=False)


def after_a_rename(folder, readers):
    first, old = record(folder, ["Subject: first", "", "a"]), record(folder, TOLD)
    crashed_everywhere(folder, readers, old + first, other=[old + first], told=old, put=old)


def with_bytes_unwritten(folder, readers):
    old = record(folder, ["Subject: first", "", "a"]) + record(folder, TOLD)
    states = sorted(set(spoilt_states(old, record(folder, TORN))))
    mended_and_read(folder, [(state, old) for state in states], b"", readers, is_spoilt=True)


def spoilt_states(old, text):
    """What a file may hold that grew by this record, of which not each byte was written: some of it was kept, NULs
    follow, and then there is nothing more, or some of what a later block was to hold, wherever that begins."""
    places = range(len(text) + 1)
    head = text.find(b"\n") + 1
    for kept in places:
        yield old + text[:kept].ljust(len(text), b"\0")
        yield (old + text[:kept]).ljust(2 * BLOCK, b"\0")
    for kept in [0, 1, 5, len(b"From carl@a.ex"), head, len(text) // 2]:
        for begin in range(kept + 1, len(text), 7):
            for end in [begin + 1, begin + 20, len(text)]:
                yield old + text[:kept].ljust(begin, b"\0") + text[begin:end]
