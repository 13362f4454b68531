"""Plays the worked examples on the built program, for tests/runs.sh: whole at once, and in pieces."""

import os
import pathlib
import resource
import socket
import subprocess
import sys
import tempfile

import answers
import listed
import replies
import rows
import utf8
from cases import compare, sum_up

LMTPD = os.path.abspath(os.environ["LMTPD"])
SECONDS = 60  # that a run may take
FEW_SECONDS = 10  # that one may take which waits for nothing
ROOM = tempfile.TemporaryDirectory()  # for a file of mailboxes


def words(row):
    given = [LMTPD, "rehearse", "--host", "mx.example", "--time", str(row.time), *row.words]
    if row.boxes is not None:
        path = pathlib.Path(ROOM.name, "boxes")
        path.write_bytes(row.boxes)
        given += ["--boxes", str(path)]
    return [*given, *(row.mailboxes if row.named is None else row.named)]


def play(row):
    ended = subprocess.run(words(row), input=row.input(), capture_output=True, timeout=SECONDS)
    return ended.returncode, ended.stdout, ended.stderr


def play_in_pieces(row):
    """The input byte by byte, where it is short."""
    pipes = {"stdin": subprocess.PIPE, "stdout": subprocess.PIPE, "stderr": subprocess.PIPE}
    process = subprocess.Popen(words(row), bufsize=0, **pipes)
    try:
        for byte in row.input():
            process.stdin.write(bytes([byte]))
        said, errors = process.communicate(timeout=SECONDS)
    finally:
        process.kill()
    return process.returncode, said, errors


def play_on_full(row):
    """Standard output is a device that is full."""
    with open("/dev/full", "wb", buffering=0) as full:
        ended = subprocess.run(words(row), input=row.input(), stdout=full, stderr=subprocess.PIPE, timeout=SECONDS)
    return ended.returncode, b"", ended.stderr


def play_with_blocks(row, blocks):
    """With that many blocks; at the end, how much of the input was read."""
    with tempfile.TemporaryFile() as given:
        given.write(row.input())
        given.seek(0)
        ended = subprocess.run(
            [*words(row), "--blocks", str(blocks)], stdin=given, capture_output=True, timeout=SECONDS
        )
        read = os.lseek(given.fileno(), 0, os.SEEK_CUR)
    return ended.returncode, ended.stdout, ended.stderr, read


def play_largest():
    """A message of 200 MiB where one may have 256: whether it is stored byte for byte."""
    limit, count = 268_435_456, 3_276_800
    row = rows.message("", [bytearray((rows.LINE + rows.CRLF) * count), b"."], (rows.LINE + b"\n") * count)
    row.words = ["--message-limit", str(limit)]
    row.replies[rows.PLACE_OF_OFFER] = replies.offer(limit=limit)
    return play(row) == (0, row.output(), b"")


def check(row, said=subprocess.PIPE):
    """Checks the files of the row, in a folder of their own, with twenty open files at most."""
    with tempfile.TemporaryDirectory() as folder:
        texts = {pathlib.Path(folder, name): text for name, text, _ in row.files if text is not None}
        for path, text in texts.items():
            path.write_bytes(text)
        ended = subprocess.run(
            [LMTPD, "check", *(name for name, _, _ in row.files)],
            cwd=folder,
            stdout=said,
            stderr=subprocess.PIPE,
            preexec_fn=lambda: resource.setrlimit(resource.RLIMIT_NOFILE, (20, 20)),
            timeout=SECONDS,
        )
        changed = [path.name for path, text in texts.items() if path.read_bytes() != text]
    assert not changed, changed
    return ended.returncode, ended.stdout, ended.stderr


def check_on_full(row):
    """Standard output is a device that is full."""
    with open("/dev/full", "wb", buffering=0) as full:
        return check(row, full)


def check_others():
    """What is no plain file, each alone: it isn't opened, so that none is waited for; then all before a mailbox."""
    with tempfile.TemporaryDirectory() as folder:
        place = pathlib.Path(folder)
        place.joinpath("mailbox").write_bytes(b"From a\n\n")
        place.joinpath("second").hardlink_to(place / "mailbox")
        place.joinpath("folder").mkdir()
        place.joinpath("link").symlink_to("mailbox")
        place.joinpath("dangling").symlink_to("nowhere")
        os.mkfifo(place / "fifo")
        with socket.socket(socket.AF_UNIX) as listener:
            listener.bind(str(place / "socket"))
            others = ["/", "folder", "link", "dangling", "fifo", "socket", "/dev/null", "/dev/zero", "/dev/full"]
            for names in [*([name] for name in others), [*others, "second"]]:
                ended = subprocess.run([LMTPD, "check", *names], cwd=folder, capture_output=True, timeout=FEW_SECONDS)
                yield names, (ended.returncode, ended.stdout, ended.stderr)


# Locks a file by fcntl as mail programs do, says so, and lets go once nobody writes to it or the seconds are over.
HOLDER = """
import fcntl, select, sys
file = open(sys.argv[1], "r+b")
fcntl.lockf(file, getattr(fcntl, sys.argv[2]))
print("held", flush=True)
select.select([sys.stdin], [], [], float(sys.argv[3]))
"""


def check_beside(folder, kind, seconds, locked):
    """Checks three files while another program has a lock of that kind on one of them, or on more, for as long."""
    pathlib.Path(folder, "anna.mbox").write_bytes(b"From a\n\n")
    pathlib.Path(folder, "ben.mbox").write_bytes(b"hello\n")
    pathlib.Path(folder, "carla.mbox").write_bytes(b"From a\n\nFrom b\n\n")
    pipes = {"stdin": subprocess.PIPE, "stdout": subprocess.PIPE, "cwd": folder}
    holders = [
        subprocess.Popen([sys.executable, "-c", HOLDER, name, kind, str(seconds)], **pipes) for name in locked
    ]
    try:
        for holder in holders:
            assert holder.stdout.readline() == b"held\n"
        words = [LMTPD, "check", "anna.mbox", "ben.mbox", "carla.mbox"]
        ended = subprocess.run(words, cwd=folder, capture_output=True, timeout=SECONDS)
    finally:
        for holder in holders:
            holder.communicate()
    return ended.returncode, ended.stdout, ended.stderr


def compare_locks():
    """A file that another program has locked to write is waited for, and then read all the same, with a line."""
    said = b"anna.mbox letters 1\nben.mbox no From line at 0\ncarla.mbox letters 2\n"
    beside = [
        ("LOCK_EX", SECONDS, ["anna.mbox"]),
        ("LOCK_EX", SECONDS, ["carla.mbox", "ben.mbox"]),
        ("LOCK_SH", SECONDS, ["anna.mbox", "ben.mbox", "carla.mbox"]),
        ("LOCK_EX", 0.3, ["anna.mbox"]),
    ]
    for kind, seconds, locked in beside:
        is_held = kind == "LOCK_EX" and seconds == SECONDS
        told = "".join(f"lmtpd: {name} read without its lock\n" for name in sorted(locked) if is_held).encode()
        with tempfile.TemporaryDirectory() as folder:
            found = check_beside(folder, kind, seconds, locked)
        compare(f"check: {kind} of {' and '.join(locked)} for {seconds} s", found, (1, said, told))


def wrong_quotas():
    """The quotas from 0 to all that two records take under which a run isn't as the rule of quotas says."""
    for quota in range(379):
        row = rows.twice_under(quota)
        found = play(row)
        if found != (0, row.output(), b""):
            yield quota, found


def compare_all():
    for row in [*rows.rows(), *listed.rows(), *utf8.rows()]:
        expected = (0, row.output(), b"")
        compare(row.name, play(row), expected)
        if len(row.input()) < 400:
            compare(f"{row.name}, byte by byte", play_in_pieces(row), expected)
    compare("one mailbox twice and each quota from 0 to 378", list(wrong_quotas()), [])
    compare("a message of 200 MiB, byte for byte", play_largest(), True)
    first = next(rows.rows())
    compare("standard output is full", play_on_full(first), (1, b"", b"lmtpd: device fault\n"))
    for blocks in [0, 65_537]:
        found = play_with_blocks(first, blocks)
        compare(f"{blocks} blocks: nothing is read or written", found, (1, b"", b"lmtpd: size\n", 0))
    for row in rows.checks():
        compare(f"check: {row.name}", check(row), (row.status(), row.output(), b""))
        found = check_on_full(row)
        compare(f"check: {row.name}, standard output is full", found, (1, None, b"lmtpd: device fault\n"))
    for names, found in check_others():
        said = "".join(f"{name} {'letters 1' if name == 'second' else 'cannot read'}\n" for name in names)
        compare(f"check: {' '.join(names)}", found, (1, said.encode(), b""))
    compare_locks()
    compare_answers()


def compare_answers():
    """Each answer of a check has its line in TROUBLE.md. (What the last one is said for tests/no_memory.sh tries.)"""
    said = {line for row in rows.checks() for line in row.output().decode().splitlines()}
    said |= {"lmtpd: anna.mbox read without its lock", "lmtpd: device fault", "lmtpd: memory"}
    compare("what TROUBLE.md has of a check", answers.untold(said), ([], []))
    with tempfile.TemporaryDirectory() as folder:
        text = answers.BROKEN + b"\nFrom c\n\n"
        compare("what is typed mends it", answers.mended(folder, LMTPD), (0, "carla.new letters 4\n", "", text))
        whole, following = b"From a\n\n" * 3, b"From b\n\n"
        once = "emil.new letters 3\n"
        for spoilt in [b"\0" * 9 + b"\n\n", b"\0" * 9 + b"x\n\n"]:
            found = answers.cut_out(folder, LMTPD, whole, spoilt, following)
            compare(f"what is typed takes {spoilt!r} out", found, (0, f"{once}emil.new letters 4\n", "", whole + following))
        found = answers.cut_out(folder, LMTPD, whole, b"\0", b"")
        compare("what is typed takes a NUL at the end out", found, (0, once * 2, "", whole))
        torn = (whole + b"From c\nx", b"\0\n\n", following)
        said = "emil.new no empty line at 32 in letter 4 at 24\n"
        found = answers.cut_out(folder, LMTPD, *torn)
        compare("what is typed leaves a torn record", found, (1, said * 2, "", b"".join(torn)))


compare_all()
sys.exit(sum_up())
