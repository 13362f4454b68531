"""Plays random conversations on the built program, for tests/fuzz.sh."""

import concurrent.futures
import mailbox
import os
import pathlib
import random
import re
import subprocess
import sys
import tempfile
import time

import conversations
import replies
from cases import sum_up, tell

LMTPD = os.environ["LMTPD"]
BOXES = ["anna", "ben"]
WORDS = [LMTPD, "rehearse", "--host", "mx.example", "--time", "0", *BOXES]
FLAGS = ["--smtputf8", "--rename-marks", "--refuse-malformed"]  # each of which a case has or not
SECONDS = 20  # that a case may take
BATCH = 250  # cases whose mailboxes are read back together
MOST_SECONDS = 400  # for all cases

OFFERS = ["\r\n".join(replies.offer(utf8=utf8)).encode() for utf8 in (False, True)]
REPLIES = {
    reply.encode()
    for reply in [
        *[replies.GREETING, replies.SENDER_OK, replies.RECIPIENT_OK, replies.GO_AHEAD, replies.CLOSING],
        *[replies.RESET_OK, replies.NOOP_OK, replies.NOT_CHECKED, replies.HELP_TEXT, replies.NO_SUCH_BOX],
        *[replies.TOO_MANY, replies.OUT_OF_ORDER, replies.LINE_TOO_LONG, replies.UNKNOWN_COMMAND, replies.USE_LHLO],
        *[replies.NOT_OFFERED, replies.BAD_ARGUMENTS, replies.BAD_SENDER, replies.BAD_RECIPIENT],
        *[replies.UNKNOWN_PARAMETER, replies.MESSAGE_TOO_LARGE, replies.BAD_CLIENT_NAME],
        *[told(box) for box in BOXES for told in [replies.stored, replies.too_large, replies.malformed]],
    ]
}


class Wrong(Exception):
    pass


def run(seed, number):
    """One case: how often each mailbox was told Stored, and its bytes."""
    chance = random.Random(f"{seed} {number}")
    given = conversations.conversation(chance)
    pipes = {"stdin": subprocess.PIPE, "stdout": subprocess.PIPE, "stderr": subprocess.PIPE}
    words = [*WORDS, *(word for word in FLAGS if chance.random() < 0.5)]
    with subprocess.Popen(words, bufsize=0, **pipes) as process:
        try:
            for piece in conversations.pieces(chance, given):
                process.stdin.write(piece)
        except BrokenPipeError:
            pass  # it doesn't read after QUIT
        try:
            said, errors = process.communicate(timeout=SECONDS)
        finally:
            process.kill()
    try:
        if process.returncode != 0 or errors:
            raise Wrong(f"status {process.returncode}, {errors!r}")
        return checked(said)
    except Wrong as wrong:
        raise Wrong(f"case {number}: {wrong}\n  given {given!r}\n  said {said!r:.3000}") from None


def checked(said):
    at = said.index(b"\r\nmailbox %s " % BOXES[0].encode()) + 2
    replied = said[:at]
    for offer in OFFERS:
        replied = replied.replace(offer, b"OFFER")
    answers = re.sub(rb"\r\n(?!\Z)", b"\n", replied).removesuffix(b"\r\n").split(b"\n")
    for reply in answers:
        if reply != b"OFFER" and reply not in REPLIES:
            raise Wrong(f"the reply {reply!r}")
    told, texts = {}, {}
    for box in BOXES:
        line = re.compile(rb"mailbox %s (\d+)\n" % box.encode()).match(said, at)
        at = line.end() + int(line[1])
        texts[box] = said[line.end() : at]
        told[box] = answers.count(replies.stored(box).encode())
    if at != len(said):
        raise Wrong("bytes after the mailboxes")
    return told, texts


def letters_by_git(path):
    with tempfile.TemporaryDirectory() as folder:
        words = ["git", "mailsplit", "--mboxrd", "--keep-cr", "-d8", f"-o{folder}", path]
        subprocess.run(words, stdout=subprocess.DEVNULL, check=True)
        return len(os.listdir(folder))


def letters_by_python(path):
    box = mailbox.mbox(path, create=False)
    count = len(box)
    box.close()
    return count


def read_back(folder, found):
    """Both readers find as many letters as were told Stored."""
    path = pathlib.Path(folder, "letters")
    for box in BOXES:
        path.write_bytes(b"".join(texts[box] for _, texts in found))
        told = sum(counts[box] for counts, _ in found)
        if not (told == letters_by_git(path) == letters_by_python(path)):
            return False
    return True


def main(cases, seed):
    print(f"{cases} cases, seed {seed}", flush=True)
    began, stored, done = time.monotonic(), 0, 0
    with concurrent.futures.ThreadPoolExecutor(2 * os.cpu_count()) as pool, tempfile.TemporaryDirectory() as folder:
        for first in range(0, cases, BATCH):
            numbers = range(first, min(first + BATCH, cases))
            found = list(pool.map(lambda number: run(seed, number), numbers))
            if not read_back(folder, found):
                wrong = [number for number, one in zip(numbers, found) if not read_back(folder, [one])]
                raise Wrong(f"cases {wrong}: letters aren't read back as often as they were told Stored")
            stored += sum(sum(counts.values()) for counts, _ in found)
            done += len(found)
            if time.monotonic() - began > MOST_SECONDS:
                break
    took = time.monotonic() - began
    tell(f"{done} conversations, {stored} letters told Stored and read back as often, in {took:.0f} s")
    if done < cases:
        tell(f"{cases - done} conversations", "absent", "time for all conversations")
    return sum_up()


try:
    sys.exit(main(int(sys.argv[1]), sys.argv[2]))
except Wrong as wrong:
    print(f"FAILED: {wrong}")
    sys.exit(1)
