"""What the server does where a mailbox can't be opened as it starts, with --start-anyway and without."""

import os
import shutil

import letters
from cases import Absent, case, equal
from clients import Client
from replies import not_stored, stored
from server import Ended, Server, start, words

NOBODY = 65_534
PERMISSION_DENIED = "Permission denied (os error 13)"
ANYWAY = "--start-anyway"
REFUSED = "lmtpd: cannot open anna.mbox"


def second_link(path):
    path.touch()
    path.with_name("other").hardlink_to(path)


def remove_second_link(path):
    path.with_name("other").unlink()


def symbolic_link(path):
    path.with_name("other").touch()
    path.symlink_to("other")


def remove_symbolic_link(path):
    path.with_name("other").unlink()
    path.unlink()


def no_right(path):
    path.touch()
    path.chmod(0)
    if os.geteuid() == 0:
        os.chown(path, NOBODY, NOBODY)


def give_right(path):
    path.chmod(0o600)


def another_owner(path):
    path.touch()
    os.chown(path, NOBODY, -1)


def own_again(path):
    os.chown(path, 0, -1)


# What stands in anna's place, how it gets in order, and the reason that the log has.
NOT_PLAIN = [
    (second_link, remove_second_link, "not plain"),
    (symbolic_link, remove_symbolic_link, "not plain"),
    (os.mkdir, os.rmdir, "not plain"),
]


def run_with(given, **how):
    """How the program ends with these words, where it ends at once."""
    process = start(given, **how)
    try:
        said, errors = process.communicate(timeout=20)
    finally:
        process.kill()
    return vars(Ended(process.returncode, said.splitlines(), errors.splitlines()))


def starts_anyway(folder, break_file, mend, reason, **how):
    """Without the word the mailbox keeps the server from starting. With it each copy for it is told 451 and the other
    mailbox's 250, `in use` counts them, and the first turn that finds it in order stores."""
    break_file(folder / "anna.mbox")
    logged = f"[ERROR lmtpd] cannot open mailbox=anna reason={reason}"
    given = words(folder, ["anna", "ben"], 1, "--lanes", 1, "--log", "error")
    equal(run_with(given, **how), {"status": 1, "said": [], "errors": [logged, REFUSED]})
    serves_meanwhile(folder, mend, reason, [logged], ANYWAY, **how)


def serves_meanwhile(folder, mend, reason, logged, *more, **how):
    """A server starts, after it logged that. Each copy for anna is told 451 and the other mailbox's 250, `in use`
    counts them, and the first turn that finds anna's mailbox in order stores."""
    with Server(folder, ["anna", "ben"], 1, "--lanes", 1, "--log", "error", *more, **how) as server:
        with Client(server.address).greet() as client:
            for _ in range(2):
                equal(client.deliver(["anna", "ben"], "one")[1], [not_stored("anna"), stored("ben")])
            mend(folder / "anna.mbox")
            for _ in range(2):
                equal(client.deliver(["anna", "ben"], "two")[1], [stored("anna"), stored("ben")])
            equal((folder / "anna.mbox.source.lock").exists(), True)
            client.quit()
        ended = vars(server.end())
    in_use = f"[ERROR lmtpd] mailbox in use mailbox=anna reason={reason}"
    errors = [*logged, in_use, "[ERROR lmtpd] mailbox free again mailbox=anna", "lmtpd: anna in use 2"]
    equal(ended, {"status": 0, "said": ["anna stored 2", "ben stored 4"], "errors": errors})
    equal(letters.messages(folder / "anna.mbox"), [b"two\n"] * 2)
    equal(letters.messages(folder / "ben.mbox"), [b"one\n"] * 2 + [b"two\n"] * 2)
    equal(sorted(path.name for path in folder.iterdir()), ["anna.mbox", "ben.mbox"])


@case
def no_plain_file_is_no_hindrance(folder):
    """--start-anyway: a second link, a symbolic link or a folder in a mailbox's place: 451 for it and 250 for the other
    one, and 250 once it is in order; without the word cannot open, status 1"""
    for break_file, mend, reason in NOT_PLAIN:
        place = folder / break_file.__name__
        place.mkdir()
        starts_anyway(place, break_file, mend, reason)


def as_nobody(folder):
    """How a server is started as a user who isn't root and whose folder that is."""
    if os.geteuid() != 0:
        return {}
    program = folder.parent / "lmtpd"
    shutil.copy(os.environ["LMTPD"], program)
    for path in [folder.parent, folder]:
        path.chmod(0o755)
        os.chown(path, NOBODY, NOBODY)
    return {"user": NOBODY, "group": NOBODY, "extra_groups": [], "executable": program}


@case
def a_missing_right_is_a_missed_turn(folder):
    """as a user who isn't root, with --start-anyway and without: no mailbox is opened at the start, so that one of mode
    0000 is told 451 at its turns, the other one 250, and 250 once it may be read and written"""
    for more in [], [ANYWAY]:
        place = folder / f"mail{len(more)}"
        place.mkdir()
        how = as_nobody(place)
        no_right(place / "anna.mbox")
        serves_meanwhile(place, give_right, PERMISSION_DENIED, [], *more, **how)


@case
def nothing_is_made_before_a_letter(folder):
    """a server starts and ends without a letter: its folder is empty, as it was, also as the mailboxes that are there
    are"""
    (folder / "ben.mbox").write_bytes(b"From a\n\n")
    before = (folder / "ben.mbox").stat()
    with Server(folder, ["anna", "ben"], 1, "--lanes", 1) as server:
        with Client(server.address).greet() as client:
            client.quit()
        equal([path.name for path in folder.iterdir()], ["ben.mbox"])
        equal(server.end().status, 0)
    equal([path.name for path in folder.iterdir()], ["ben.mbox"])
    equal((folder / "ben.mbox").stat().st_atime_ns, before.st_atime_ns)


@case
def another_owner_is_no_hindrance(folder):
    """--start-anyway, as root: a mailbox of another owner is told 451, the other one 250, and 250 once it is root's;
    without the word cannot open, status 1"""
    if os.geteuid() != 0:
        raise Absent("root")
    starts_anyway(folder, another_owner, own_again, "not plain")


@case
def a_folder_that_cannot_be_read_is_one(folder):
    """--start-anyway and without: a folder that isn't there, a file in its place, one that can't be read: cannot open
    the first mailbox, status 1, and nothing is made"""
    file, hidden = folder / "file", folder / "hidden"
    file.touch()
    hidden.mkdir()
    how = as_nobody(hidden)
    hidden.chmod(0)
    for place in [folder / "none", file, hidden]:
        for more in [], [ANYWAY]:
            ended = run_with(words(place, ["anna", "ben"], 1, *more), **how)
            equal((place.name, more, ended), (place.name, more, {"status": 1, "said": [], "errors": [REFUSED]}))
    hidden.chmod(0o700)
    equal((list(hidden.iterdir()), file.read_bytes()), ([], b""))


@case
def a_folder_that_cannot_be_written_is_none(folder):
    """as a user who isn't root: of a folder without the right to write the log has one line at the start, and why; the
    mailbox that is there is told 451, and 250 once the right is given"""
    place = folder / "mail"
    place.mkdir()
    how = as_nobody(place)
    (place / "anna.mbox").touch()
    if how:
        os.chown(place / "anna.mbox", NOBODY, NOBODY)
    place.chmod(0o555)
    written = f"[ERROR lmtpd] cannot write the folder folder={place} reason={PERMISSION_DENIED}"
    in_use = f"[ERROR lmtpd] mailbox in use mailbox=anna reason={PERMISSION_DENIED}"
    with Server(place, ["anna"], 1, "--lanes", 1, "--log", "error", **how) as server:
        with Client(server.address).greet() as client:
            equal(client.deliver(["anna"], "one")[1], [not_stored("anna")])
            place.chmod(0o755)
            equal(client.deliver(["anna"], "two")[1], [stored("anna")])
            client.quit()
        ended = vars(server.end())
    errors = [written, in_use, "[ERROR lmtpd] mailbox free again mailbox=anna", "lmtpd: anna in use 1"]
    equal(ended, {"status": 0, "said": ["anna stored 1"], "errors": errors})
    equal(letters.messages(place / "anna.mbox"), [b"two\n"])


@case
def what_is_no_plain_file_hinders_that_mailbox_alone(folder):
    """--start-anyway: a folder, a FIFO, a file with a second link, a symbolic link and, as root, another owner's file in
    mailboxes' places: a line for each at the start, in the words' order; those are told 451, and the others 250"""
    broken = {"carl": os.mkdir, "dora": os.mkfifo, "emil": second_link, "finn": symbolic_link}
    if os.geteuid() == 0:
        broken["gerd"] = another_owner
    for name, break_file in broken.items():
        break_file(folder / f"{name}.mbox")
    names = ["anna", *broken, "ben"]
    logged = [f"[ERROR lmtpd] cannot open mailbox={name} reason=not plain" for name in broken]
    told = [not_stored(name) if name in broken else stored(name) for name in names]
    with Server(folder, names, 1, "--lanes", 1, "--log", "error", ANYWAY) as server:
        with Client(server.address).greet() as client:
            equal([client.deliver(names, text)[1] for text in ["one", "two"]], [told] * 2)
            client.quit()
        ended = server.end()
    equal(ended.errors[: len(broken)], logged)
    in_use = [f"[ERROR lmtpd] mailbox in use mailbox={name} reason=not plain" for name in broken]
    equal(sorted(ended.errors[len(broken) :]), sorted([*in_use, *[f"lmtpd: {name} in use 2" for name in broken]]))
    for name in ["anna", "ben"]:
        equal(letters.messages(folder / f"{name}.mbox"), [b"one\n", b"two\n"])


@case
def a_folder_of_a_thousand_that_cannot_be_written(folder):
    """as a user who isn't root, with 1,000 mailboxes of a file, each there already: of a folder without the right to
    write the log has one line at the start, each mailbox is told 451 with its own line, and 250 once the right is
    given"""
    place = folder / "mail"
    place.mkdir()
    how = as_nobody(place)
    names = [f"u{number}" for number in range(1_000)]
    (folder / "boxes").write_text("\n".join(names) + "\n")
    for name in names:
        (place / f"{name}.mbox").touch()
        if how:
            os.chown(place / f"{name}.mbox", NOBODY, NOBODY)
    place.chmod(0o555)
    log = folder / "log"  # a pipe has no room for so many lines
    words = ["--log", "error", "--boxes", folder / "boxes"]
    with log.open("w") as file, Server(place, [], 1, *words, errors=file, **how) as server:
        with Client(server.address).greet() as client:
            equal(client.deliver(names, "one")[1], [not_stored(name) for name in names])
            place.chmod(0o755)
            equal(client.deliver(names, "two")[1], [stored(name) for name in names])
            client.quit()
        equal(server.end().status, 0)
    errors = log.read_text().splitlines()
    equal(errors[0], f"[ERROR lmtpd] cannot write the folder folder={place} reason={PERMISSION_DENIED}")
    equal(sum("cannot write the folder" in line for line in errors), 1)
    in_use = [f"[ERROR lmtpd] mailbox in use mailbox={name} reason={PERMISSION_DENIED}" for name in names]
    equal(sorted(line for line in errors if "mailbox in use" in line), sorted(in_use))
    equal(all(letters.messages(place / f"{name}.mbox") == [b"two\n"] for name in names), True)


a_folder_of_a_thousand_that_cannot_be_written.seconds = 120
