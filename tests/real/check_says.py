"""What docs/operating/TROUBLE.md has one do after each answer of `lmtpd check`, done to mailboxes of the service as it
is installed, with the lines of that page as they stand."""

import fcntl
import os
import re
import subprocess

from cases import case, equal
from clients import deliver_one
from in_a_machine import PROGRAM, in_a_machine
from pages import PAGES, type_lines
from replies import stored
from service import FOLDER, Service

HEADING = "## What a check says"
PUT_IN = "To put the empty line in, with PLACE - 4 in the place of 20476 (`tests/runs.sh` types it):"


@case
@in_a_machine()
def each_answer_has_a_way_on(_folder):
    """what docs/operating/TROUBLE.md has one do for each answer of `lmtpd check`, typed as it stands, on mailboxes of
    the installed service: each is in order then, of the same owner and mode, and takes the next letter"""
    with Service(["anna", "ben", "carla", "dora"]) as service:
        for name in ["anna", "ben", "carla"]:
            for number in range(3):
                equal(deliver_one(service.address, [name], f"letter {number}"), [stored(name)])
        equal(said("anna"), (0, row("letters COUNT", COUNT="3")))
        type_lines("systemctl stop lmtpd.socket lmtpd")
        before = [owner_and_mode(service.mailbox(name)) for name in ["ben", "carla"]]
        starts_late(service.mailbox("ben"))
        lacks_an_empty_line(service.mailbox("carla"))
        spoilt_by_a_power_cut(service.mailbox("carla"))
        equal([owner_and_mode(service.mailbox(name)) for name in ["ben", "carla"]], before)
        torn = torn_at_its_end(service.mailbox("anna"))
        nothing_to_read(service.mailbox("dora"))
        held_by_another(service.mailbox("ben"))
        full = subprocess.run(f"{PROGRAM} check {service.mailbox('ben')} > /dev/full", **SHELL)
        equal((full.returncode, full.stderr), (1, "lmtpd: device fault\n"))
        type_lines("systemctl start lmtpd.socket")
        for name in ["anna", "ben", "carla", "dora"]:
            equal(deliver_one(service.address, [name], "the next one"), [stored(name)])
        equal([said(name)[1] for name in ["ben", "carla", "dora"]], [letters(4), letters(4), letters(1)])
        # the torn letter is one, and all of the others are whole
        equal((said("anna"), torn in service.mailbox("anna").read_bytes()), ((0, letters(4)), True))


each_answer_has_a_way_on.seconds = 120
SHELL = {"shell": True, "stdout": subprocess.PIPE, "stderr": subprocess.PIPE, "text": True}


def row(answer, **given):
    """That answer, which is a row of the page's table, with numbers in the place of its words."""
    assert f"\n| `FILE {answer}` | " in (PAGES / "TROUBLE.md").read_text().split(f"\n{HEADING}\n")[1], answer
    for word, number in given.items():
        answer = answer.replace(word, number)
    return answer


def said(name):
    """Status and answer of a check, without the file's name."""
    path = FOLDER / f"{name}.mbox"
    found = subprocess.run([PROGRAM, "check", path], stdout=subprocess.PIPE, text=True)
    return found.returncode, found.stdout.removeprefix(f"{path} ").removesuffix("\n")


def owner_and_mode(path):
    seen = path.stat()
    return seen.st_uid, seen.st_gid, seen.st_mode


def letters(count):
    return row("letters COUNT", COUNT=str(count))


def starts_late(path):
    """Its start was overwritten, within its first letter: the row's command has the place of the next one."""
    text = path.read_bytes()
    path.write_bytes(b"X" + text[1:])
    equal(said("ben"), (1, row("no From line at PLACE", PLACE="0")))
    [command] = re.findall(r"`(grep -abm 1 [^`]*)`", (PAGES / "TROUBLE.md").read_text())
    place = int(subprocess.run(command.replace("FILE", str(path)), check=True, **SHELL).stdout.partition(":")[0])
    equal(text[place - 1 : place + 5], b"\nFrom ")
    type_lines(f"tail -c +{place + 1} {path} > /tmp/rest; cat /tmp/rest > {path}")
    equal(said("ben"), (0, letters(2)))
    path.write_bytes(text)


def lacks_an_empty_line(path):
    """Another program took it away before the third letter; the typed lines put it in again."""
    text = path.read_bytes()
    third = text.rindex(b"\n\nFrom ") + 1
    path.write_bytes(text[:third] + text[third + 1 :])
    second = text.index(b"\n\nFrom ") + 2
    answer = "no empty line at PLACE in letter NUMBER at START"
    equal(said("carla"), (1, row(answer, PLACE=str(third + 4), NUMBER="2", START=str(second))))
    lines = (PAGES / "TROUBLE.md").read_text().split(f"\n{PUT_IN}\n")[1].split("```\n")[1]
    type_lines(f"cd {path.parent}\n{lines.replace('20476', str(third)).replace('20477', str(third + 1))}")
    equal(path.read_bytes(), text)
    (path.parent / "carla.new").unlink()


def spoilt_by_a_power_cut(path):
    """NULs stand after its second letter, which the next letter ended; the typed lines take them out."""
    text = path.read_bytes()
    second, third = text.index(b"\n\nFrom ") + 2, text.rindex(b"\n\nFrom ") + 2
    spoilt = b"\0" * 100 + b"\n\n"
    path.write_bytes(text[:third] + spoilt + text[third:])
    told = row("NUL at PLACE in letter NUMBER at START", PLACE=str(third), NUMBER="2", START=str(second))
    equal(said("carla"), (0, f"{letters(3)}\n{path} {told}"))
    lines = (PAGES / "TROUBLE.md").read_text().split(f"\n{HEADING}\n")[1].split("```\n")[3]
    following = third + len(spoilt) + 1
    lines = lines.replace("emil", "carla").replace("12288", str(third)).replace("16387", str(following))
    type_lines(f"cd {path.parent}\n{lines}")
    equal(path.read_bytes(), text)
    (path.parent / "carla.new").unlink()


def torn_at_its_end(path):
    """It ends within its last letter, at the place that the answer has, which the next letter mends."""
    text = path.read_bytes()[:-5]
    path.write_bytes(text)
    third = text.rindex(b"\n\nFrom ") + 2
    answer = "no empty line at PLACE in letter NUMBER at START"
    equal(said("anna"), (1, row(answer, PLACE=str(len(text)), NUMBER="3", START=str(third))))
    return text


def nothing_to_read(path):
    """Nothing, a link, a folder or a FIFO stands there, which isn't opened."""
    equal(said("dora"), (1, row("cannot read")))
    for make, remove in [
        (lambda: path.symlink_to("/etc/passwd"), path.unlink),
        (path.mkdir, path.rmdir),
        (lambda: os.mkfifo(path), path.unlink),
    ]:
        make()
        equal(said("dora"), (1, row("cannot read")))
        remove()


def held_by_another(path):
    """A program has it locked: it is read all the same, and standard error says so."""
    with path.open("r+b") as file:
        fcntl.lockf(file, fcntl.LOCK_EX)
        found = subprocess.run([PROGRAM, "check", path], stdout=subprocess.PIPE, stderr=subprocess.PIPE, text=True)
    equal((found.returncode, found.stdout), (0, f"{path} {letters(3)}\n"))
    equal(found.stderr, f"lmtpd: {path} read without its lock\n")
