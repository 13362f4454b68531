"""Refuses each allocation and each thread of a rehearsal, a server, a check and a copy in turn, for tests/no_memory.sh."""

import os
import pathlib
import socket
import subprocess
import sys
import tempfile

from cases import sum_up, tell
from replies import CLOSING, as_bytes, stored

LMTPD, LIBRARY = os.environ["LMTPD"], sys.argv[1]
SECONDS = 20  # that a run may take
MOST = 2000  # calls of a run
MEMORY, NO_THREAD = b"lmtpd: memory\n", b"lmtpd: no thread\n"
COMMANDS = b"LHLO relay.example\r\nMAIL FROM:<carl@a.example>\r\nRCPT TO:<anna>\r\nRCPT TO:<ben>\r\nDATA\r\n"
GIVEN = COMMANDS + b"Subject: hi\r\n\r\nhello\r\n.\r\nQUIT\r\n"
STORED = as_bytes([stored("anna"), stored("ben"), CLOSING])
# the first worked example: one recipient
ONE_GIVEN = GIVEN.replace(b"<anna>", b"<anna@mx.example>").replace(b"RCPT TO:<ben>\r\n", b"")
ONE_STORED = as_bytes([stored("anna"), CLOSING])
COUNTED = b"anna stored 2\nben stored 2\n"


class Wrong(Exception):
    pass


class Refusing:
    """A run in which one call is refused, or that one and all later ones."""

    def __init__(self, number, is_all):
        self.is_all = is_all
        self.told, self.writer = os.pipe()
        os.set_inheritable(self.writer, True)
        self.given = {"LD_PRELOAD": LIBRARY, "REFUSE": str(number), "REFUSE_TOLD": str(self.writer)}
        if is_all:
            self.given["REFUSE_ALL"] = "1"

    def start(self, words, given=subprocess.PIPE):
        ends = {"stdin": given, "stdout": subprocess.PIPE, "stderr": subprocess.PIPE}
        return subprocess.Popen([LMTPD, *words], pass_fds=[self.writer], env={**os.environ, **self.given}, **ends)

    def refused(self):
        """What was refused: nothing, b'r' for memory, b't' for a thread."""
        os.close(self.writer)
        with os.fdopen(self.told, "rb") as told:
            return told.read()


def is_refused(what, ended, is_all):
    """Something was refused, and the run didn't end well all the same: a list whose growth by half was refused asks for
    just what it needs. Once all later calls are refused no run ends well."""
    return what and (is_all or ended[0] != 0)


def check_refused(what, ended, said, is_spare=False):
    """The program says just why, and nothing but what it had said before. A thread's start takes memory, too; a thread
    that is spare, as a server's that says what a stop waits for, may be followed by lack of memory."""
    status, output, errors = ended
    lines = [NO_THREAD] if what == b"t" and not is_spare else [MEMORY, NO_THREAD]
    if status != 1 or errors not in lines or output not in said:
        raise Wrong(f"refused {what!r}: status {status}, {output!r:.200}, {errors!r:.200}")


def rehearse_one(refusing):
    return rehearse(refusing, ONE_GIVEN, ONE_STORED)


def rehearse_listed(refusing):
    """The second mailbox is that of a file."""
    with tempfile.NamedTemporaryFile() as boxes:
        boxes.write(b"# one more\nben\n")
        boxes.flush()
        return rehearse(refusing, names=["--boxes", boxes.name, "anna"])


def rehearse(refusing, says=GIVEN, stored=STORED, names=("anna", "ben")):
    with tempfile.TemporaryFile() as given:
        given.write(says)
        given.seek(0)
        process = refusing.start(["rehearse", "--host", "mx.example", "--time", "0", *names], given)
        output, errors = process.communicate(timeout=SECONDS)
        read = os.lseek(given.fileno(), 0, os.SEEK_CUR)
    ended, what = (process.returncode, output, errors), refusing.refused()
    if is_refused(what, ended, refusing.is_all):
        check_refused(what, ended, [b""])
        if errors == MEMORY and read:
            raise Wrong(f"lack of memory, and yet {read} bytes were read")
    elif ended[0] != 0 or errors or stored not in output:
        raise Wrong(f"not refused: {ended!r:.300}")
    return what


def serve_anyway(refusing):
    """A third mailbox can't be opened, and keeps the server from nothing."""
    return serve(refusing, ["--start-anyway", "anna", "ben", "carla"], COUNTED + b"carla stored 0\n")


def serve(refusing, more=("anna", "ben"), counted=COUNTED):
    with tempfile.TemporaryDirectory() as folder:
        pathlib.Path(folder, "carla.mbox").mkdir()
        place = ["--host", "mx.example", "--listen", "127.0.0.1:0", "--dir", folder]
        process = refusing.start(["serve", *place, "--connections", "2", "--lanes", "2", *more])
        first = process.stdout.readline()
        heard = [converse(first), converse(first)]
        output, errors = process.communicate(timeout=SECONDS)
        files = [path.read_bytes() for path in sorted(pathlib.Path(folder).iterdir()) if path.is_file()]
    ended, what = (process.returncode, first + output, errors), refusing.refused()
    if is_refused(what, ended, refusing.is_all):
        check_refused(what, ended, [b"", first], refusing.is_all)
        check_untouched(heard, files)
    elif ended[0] != 0 or errors or output != counted or any(STORED not in text for text in heard):
        raise Wrong(f"not refused: {ended!r:.300}, {heard!r:.300}")
    return what


def check_words(refusing):
    """A name of the file can't be used, and a line says which."""
    with tempfile.NamedTemporaryFile() as boxes:
        boxes.write(b"# one more\nAnna\n")
        boxes.flush()
        words = ["serve", "--host", "mx.example", "--listen", "127.0.0.1:0", "--dir", "/nowhere", "--check-words"]
        process = refusing.start([*words, "--boxes", boxes.name, "ben"])
        output, errors = process.communicate(timeout=SECONDS)
    ended, what = (process.returncode, output, errors), refusing.refused()
    said = f"[ERROR lmtpd] bad box name=Anna file={boxes.name} line=2\nlmtpd: bad box\n".encode()
    if what and (refusing.is_all or ended[0] != 2):
        check_refused(what, ended, [b""])
    elif ended != (2, b"", said):
        raise Wrong(f"not refused: {ended!r:.300}")
    return what


def check(refusing):
    with tempfile.TemporaryDirectory() as folder:
        mailbox = pathlib.Path(folder, "anna.mbox")
        mailbox.write_bytes(b"From a\n\n")
        process = refusing.start(["check", str(mailbox), str(mailbox)])
        output, errors = process.communicate(timeout=SECONDS)
    ended, what = (process.returncode, output, errors), refusing.refused()
    if is_refused(what, ended, refusing.is_all):
        check_refused(what, ended, [b""])
    elif ended != (0, f"{mailbox} letters 1\n".encode() * 2, b""):
        raise Wrong(f"not refused: {ended!r:.300}")
    return what


def copy(refusing):
    with tempfile.TemporaryDirectory() as folder:
        mailbox, to = pathlib.Path(folder, "anna.mbox"), pathlib.Path(folder, "copy")
        mailbox.write_bytes(b"From a\n\n")
        process = refusing.start(["copy", str(mailbox), str(to)])
        output, errors = process.communicate(timeout=SECONDS)
        names = sorted(path.name for path in pathlib.Path(folder).iterdir())
    ended, what = (process.returncode, output, errors), refusing.refused()
    if is_refused(what, ended, refusing.is_all):
        check_refused(what, ended, [b""])
        if names != ["anna.mbox"]:
            raise Wrong(f"lack of memory, and yet {names}")
    elif ended != (0, b"", b"") or names != ["anna.mbox", "copy"]:
        raise Wrong(f"not refused: {ended!r:.300}, {names}")
    return what


def check_untouched(heard, files):
    """No client was greeted, and no mailbox has a byte."""
    if any(heard) or any(files):
        raise Wrong(f"lack of memory or of a thread, and yet {heard!r:.300}, {files!r:.300}")


def converse(first):
    """What a client hears of a server that said where it listens, up to the end; nothing where it is gone."""
    if not first.startswith(b"listening on "):
        return b""
    host, port = first.decode().removeprefix("listening on ").strip().rsplit(":", 1)
    heard = b""
    try:
        with socket.create_connection((host, int(port)), timeout=SECONDS) as client:
            client.sendall(GIVEN)
            while piece := client.recv(65536):
                heard += piece
    except OSError:
        pass
    return heard


def in_turn(name, run, is_all):
    counts = {b"r": 0, b"t": 0}
    for number in range(1, MOST):
        try:
            what = run(Refusing(number, is_all))
        except Wrong as wrong:
            raise Wrong(f"{name}, call {number}{' and all later ones' if is_all else ''}: {wrong}") from None
        if not what:
            later = " and all later ones" if is_all else ""
            tell(f"{name}: each of {counts[b'r']} allocations and {counts[b't']} threads refused in turn{later}")
            return
        counts[what[:1]] += 1
    raise Wrong(f"{name}: no end after {MOST} calls")


try:
    for is_all in [False, True]:
        in_turn("rehearse", rehearse, is_all)
        in_turn("rehearse, one recipient", rehearse_one, is_all)
        in_turn("rehearse, a mailbox of a file", rehearse_listed, is_all)
        in_turn("serve", serve, is_all)
        in_turn("serve, a mailbox that can't be opened", serve_anyway, is_all)
        in_turn("serve, a name that can't be used", check_words, is_all)
        in_turn("check", check, is_all)
        in_turn("copy", copy, is_all)
except Wrong as wrong:
    tell("refused in turn", "FAILED", str(wrong))
sys.exit(sum_up())
