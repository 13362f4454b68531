"""What the system is asked to write to a mailbox, call by call, as strace has it, since no clause ties what std's file
tells to its calls. What the calls took is what stands there, each byte once, also after a short write, a signal and a
fault."""

import contextlib
import pathlib
import re
import shutil
import subprocess
import time
from typing import NamedTuple

import letters
from cases import Absent, case, equal
from clients import Client
from files import of_size
from replies import not_stored, stored
from server import Server

CALLS = "write,writev,pwrite64,pwritev,pwritev2,sendfile,splice,copy_file_range,ftruncate,fallocate,fdatasync,fsync"
LINE = re.compile(r"(\w+)\((.*)\)\s+= (-?\d+)(?: E.*)?")
WRITE = re.compile(r'\d+, "((?:\\x[0-9a-f]{2})*)", (\d+)')
OLD = b"From old@a.example Thu Jan  1 00:00:00 1970\n\nold\n"
FIRST = ["fdatasync"]  # a mailbox's first turn has the file kept before it writes
SIZES = [1, 100, 5_000, 200_000]  # of the letters, in bytes or more


class Call(NamedTuple):
    name: str
    asked: bytes  # what a write was asked to write
    size: int  # that a cut leaves, or that are begun to be written back
    answer: int  # below 0: it failed
    at: int = 0  # where these begin

    @classmethod
    def of(cls, line):
        name, words, answer = LINE.fullmatch(line).groups()
        if name == "write":
            text, count = WRITE.fullmatch(words).groups()
            asked = bytes.fromhex(text.replace("\\x", ""))
            equal(len(asked), int(count))
            return cls(name, asked, 0, int(answer))
        if name == "fadvise64":
            _, at, size, advice = words.split(", ")
            equal(advice, "POSIX_FADV_DONTNEED")
            return cls(name, b"", int(size), int(answer), int(at))
        assert name in ("ftruncate", "fdatasync"), line
        return cls(name, b"", int(words.partition(", ")[2] or 0), int(answer))


@contextlib.contextmanager
def calls_at(server, path, *words, traced=CALLS):
    """The calls that the server makes at that path meanwhile, which are there at the end."""
    if shutil.which("strace") is None:
        raise Absent("strace")
    place = pathlib.Path(server.folder / "calls")
    looks = ["strace", "-ff", "-qq", "-xx", "-s", "1000000", "-e", f"trace={traced}", "-e", "signal=none", *words]
    looks += ["-P", str(path), "-o", str(place), "-p", str(server.process.pid)]
    calls = []
    with subprocess.Popen(looks, stdin=subprocess.DEVNULL, stderr=subprocess.DEVNULL) as tracer:
        try:
            until_it_looks(tracer, server)
            yield calls
            # it ends with the server
            tracer.wait(20)
        finally:
            tracer.kill()
    # a mailbox is written by one thread
    told = [it.read_text() for it in place.parent.glob("calls.*")]
    (text,) = filter(None, told)
    calls += map(Call.of, text.splitlines())


def until_it_looks(tracer, server):
    """Until strace looks at each thread."""
    until = time.monotonic() + 20
    threads = pathlib.Path(f"/proc/{server.process.pid}/task")
    while not all(f"TracerPid:\t{tracer.pid}\n" in (it / "status").read_text() for it in threads.iterdir()):
        if tracer.poll() is not None:
            raise Absent("leave to look at another process")
        assert time.monotonic() < until
        time.sleep(0.02)


def replayed(calls, old):
    """What stands in a mailbox after these calls. What a short or an interrupted write left is asked for again, and
    nothing else is."""
    held, left = old, b""
    for call in calls:
        if call.name == "write":
            equal(left in (b"", call.asked), True)
            taken = max(call.answer, 0)
            held += call.asked[:taken]
            left = call.asked[taken:]
        else:
            left = b""
        if call.name == "ftruncate" and call.answer == 0:
            held = held[: call.size]
    return held


def names(calls):
    """The calls' names, each once where several follow one another."""
    return [it.name for it, before in zip(calls, [None, *calls]) if before is None or it.name != before.name]


def body_of(size):
    """Lines of that many bytes in all or more, some of which are quoted."""
    return ["From here", ">From there"] + ["x" * 60] * (size // 61)


@case
def what_is_asked_is_what_stands_there(folder):
    """each byte of a mailbox was asked of the system by one write, in order, and is synced before its 250"""
    path = folder / "anna.mbox"
    with Server(folder, ["anna"], 1, "--lanes", 1) as server:
        with calls_at(server, path) as calls:
            with Client(server.address).greet() as client:
                for size in SIZES:
                    equal(client.deliver(["anna"], *body_of(size))[1], [stored("anna")])
                client.quit()
            equal(server.end().status, 0)
    equal(path.read_bytes() == replayed(calls, b""), True)
    equal(names(calls), FIRST + ["write", "fdatasync"] * len(SIZES))
    sent = ["".join(f"{line}\n" for line in body_of(size)).encode() for size in SIZES]
    equal(letters.messages(path) == sent, True)


@case
def a_large_letter_is_written_back_while_it_comes(folder):
    """the system is told of each piece of a large letter, as it is written, that its disk may begin to write just that;
    of the last one it isn't, which a sync follows, nor of a small letter"""
    path = folder / "anna.mbox"
    with Server(folder, ["anna"], 1, "--lanes", 1) as server:
        with calls_at(server, path, traced=f"{CALLS},fadvise64") as calls:
            with Client(server.address).greet() as client:
                for size in [100, 1_000_000]:
                    equal(client.deliver(["anna"], *body_of(size))[1], [stored("anna")])
                client.quit()
            equal(server.end().status, 0)
    stored_at_once, piece = ["write", "fdatasync"], ["write", "fadvise64"]
    equal([it.name for it in calls], FIRST + stored_at_once + piece * 3 + stored_at_once)
    writes = [it.answer for it in calls if it.name == "write"]
    told = [(it.at, it.size) for it in calls if it.name == "fadvise64"]
    equal(told, [(sum(writes[:place]), writes[place]) for place in (1, 2, 3)])


@case
def what_is_asked_after_a_short_write(folder):
    """where a mailbox may grow no more a write takes a part, and then none: what it took is cut off again"""
    path = folder / "anna.mbox"
    path.write_bytes(OLD)
    with Server(folder, ["anna"], 1, "--lanes", 1, **of_size(10_000)) as server:
        with calls_at(server, path) as calls:
            with Client(server.address).greet() as client:
                finals = [client.deliver(["anna"], *body_of(size))[1] for size in (5_000, 9_000, 5_000, 1)]
                equal(finals, [[stored("anna")], [not_stored("anna")], [not_stored("anna")], [stored("anna")]])
                client.quit()
            server.end()
    equal(path.read_bytes() == replayed(calls, OLD), True)
    writes = [it for it in calls if it.name == "write"]
    equal(any(0 < it.answer < len(it.asked) for it in writes), True)
    equal(any(it.answer < 0 for it in writes), True)
    broken = ["write", "ftruncate", "fdatasync"]
    equal(names(calls), FIRST + ["write", "fdatasync"] + broken * 2 + ["write", "fdatasync"])


@case
def what_is_asked_after_a_signal(folder):
    """a write that a signal interrupted is asked for again, and each byte stands there once"""
    path = folder / "anna.mbox"
    path.write_bytes(OLD)
    with Server(folder, ["anna"], 1, "--lanes", 1) as server:
        with calls_at(server, path, "-e", "inject=write:error=EINTR:when=1+2") as calls:
            with Client(server.address).greet() as client:
                for size in SIZES:
                    equal(client.deliver(["anna"], *body_of(size))[1], [stored("anna")])
                client.quit()
            equal(server.end().status, 0)
    equal(path.read_bytes() == replayed(calls, OLD), True)
    equal(any(it.name == "write" and it.answer < 0 for it in calls), True)
