"""Others rename, remove, empty, tear and write a mailbox between two letters, and what stands in its place."""

import concurrent.futures
import mailbox
import os
import socket
import stat

import letters
from cases import case, equal
from clients import Client, deliver_one
from readers import both_held
from replies import not_stored, over_quota, stored
from server import Server, run, words

LETTER = b"hello\n"


def rename(path):
    path.rename(path.with_name("anna.old"))


def remove(path):
    path.unlink()


def empty(path):
    os.truncate(path, 0)


def tear(path):
    """Ends in mid-letter."""
    os.truncate(path, path.stat().st_size - len(b"llo\n\n"))


def lose_a_line_end(path):
    os.truncate(path, path.stat().st_size - 1)


def put_another_in_its_place(path):
    other = path.with_name("other")
    other.write_bytes(path.read_bytes().replace(LETTER, b"other\n"))
    other.rename(path)


def write_over(path):
    """As `cat >` does, with less than there was."""
    found = path.read_bytes()
    path.write_bytes(found[found.rindex(b"\n\nFrom ") + 2 :])


# What others do with a mailbox of two letters, and which stand in the file of that path after one more.
CHANGES = {
    rename: [LETTER],
    remove: [LETTER],
    empty: [LETTER],
    tear: [LETTER, b"he\n", LETTER],
    lose_a_line_end: [LETTER] * 3,
    put_another_in_its_place: [b"other\n", b"other\n", LETTER],
    write_over: [LETTER] * 2,
}


@case
def it_goes_on_in_the_right_file(folder):
    """a mailbox renamed, removed, emptied, torn, replaced, rewritten: the next letter is in the file that the path
    names, after what stands there, and all older ones where they were moved to"""
    for change, expected in CHANGES.items():
        place = folder / change.__name__
        place.mkdir()
        with Server(place, ["anna"], 1, "--lanes", 1) as server, Client(server.address).greet() as client:
            path = server.mailbox("anna")
            for _ in range(2):
                equal(client.deliver(["anna"], "hello")[1], [stored("anna")])
            with both_held(path):
                change(path)
            equal(client.deliver(["anna"], "hello")[1], [stored("anna")])
            client.quit()
            equal(vars(server.end()), {"status": 0, "said": ["anna stored 3"], "errors": []})
        equal((change.__name__, letters.messages(path)), (change.__name__, expected))
        if change in [rename, remove]:
            equal(oct(stat.S_IMODE(path.stat().st_mode)), oct(0o600))
        if change == rename:
            equal(letters.messages(place / "anna.old"), [LETTER] * 2)
        equal(run(["check", path]).status, 0)


@case
def python_removes(folder):
    """Python's mailbox locks, removes a letter and flushes, which renames: the next letter is in the new file"""
    with Server(folder, ["anna"], 1, "--lanes", 1) as server, Client(server.address).greet() as client:
        for number in range(10):
            equal(client.deliver(["anna"], f"letter {number}")[1], [stored("anna")])
            if number % 3 == 2:
                box = mailbox.mbox(server.mailbox("anna"))
                box.lock()
                box.remove(box.keys()[0])
                box.flush()
                box.close()
        client.quit()
        equal(vars(server.end()), {"status": 0, "said": ["anna stored 10"], "errors": []})
    equal(letters.messages(server.mailbox("anna")), [b"letter %d\n" % number for number in range(3, 10)])


@case
def the_quota_follows(folder):
    """a mailbox over its quota takes letters again once others took some away, and counts what others wrote"""
    over = over_quota("anna")
    with Server(folder, ["anna"], 1, "--lanes", 1, "--quota", 1000) as server:
        path = server.mailbox("anna")
        with Client(server.address).greet() as client:
            equal(client.deliver(["anna"], "hello")[1], [stored("anna")])
            size = path.stat().st_size
            for _ in range(2):
                with both_held(path):
                    path.write_bytes(b"x" * (1000 - size - 1) + b"\n\n")
                equal(client.deliver(["anna"], "hello")[1], [over])
                with both_held(path):
                    path.write_bytes(b"x" * (1000 - size - 2) + b"\n\n")
                equal(client.deliver(["anna"], "hello")[1], [stored("anna")])
                equal(path.stat().st_size, 1000)
                equal(client.deliver(["anna"], "hello")[1], [over])
                # what mends counts as well
                with both_held(path):
                    path.write_bytes(b"x" * (1000 - size - 1))
                equal(client.deliver(["anna"], "hello")[1], [over])
                equal(path.read_bytes(), b"x" * (1000 - size - 1))
                with both_held(path):
                    path.write_bytes(b"")
                equal(client.deliver(["anna"], "hello")[1], [stored("anna")])
            client.quit()
        equal(vars(server.end()), {"status": 0, "said": ["anna stored 5"], "errors": ["lmtpd: anna over quota 6"]})


def link(path):
    path.symlink_to("target")


def link_to_nothing(path):
    path.symlink_to("nothing")


def hard_link(path):
    path.hardlink_to(path.with_name("target"))


def pipe(path):
    os.mkfifo(path)


def link_to_folder(path):
    path.symlink_to(path.parent)


def link_to_itself(path):
    path.symlink_to(path)


def folder_with_a_file(path):
    path.mkdir()
    (path / "kept").write_bytes(b"abc")


def unix_socket(path):
    with socket.socket(socket.AF_UNIX) as made:
        made.bind(str(path))


NOT_PLAIN = [link, link_to_nothing, hard_link, pipe]
NOT_PLAIN_EITHER = [link_to_folder, link_to_itself, folder_with_a_file, unix_socket]


@case
def not_plain_at_the_start(folder):
    """a symbolic link, one to nothing, to a folder and to itself, a hard link, a pipe, a folder and a socket in place
    of a mailbox: cannot open, status 1, and it and what it names are as they were"""
    for make in [*NOT_PLAIN, *NOT_PLAIN_EITHER]:
        place = folder / make.__name__
        place.mkdir()
        (place / "target").write_bytes(b"abc")
        path = place / "anna.mbox"
        make(path)
        before, names = path.lstat(), sorted(place.rglob("*"))
        expected = {"status": 1, "said": [], "errors": ["lmtpd: cannot open anna.mbox"]}
        equal((make.__name__, vars(run(words(place, ["anna"], 1)))), (make.__name__, expected))
        after = path.lstat()
        equal((make.__name__, after.st_ino, after.st_mode), (make.__name__, before.st_ino, before.st_mode))
        equal((make.__name__, (place / "target").read_bytes()), (make.__name__, b"abc"))
        equal((make.__name__, sorted(place.rglob("*"))), (make.__name__, names))


@case
def not_plain_in_a_turn(folder):
    """one of these put in a mailbox's place while the server runs: 451, what it names is as it was, and 250 once a
    plain file is there again"""
    for make in NOT_PLAIN:
        place = folder / make.__name__
        place.mkdir()
        (place / "target").write_bytes(b"abc")
        with Server(place, ["anna", "ben"], 1, "--lanes", 1) as server, Client(server.address).greet() as client:
            path, own = server.mailbox("anna"), place / "own"
            equal(client.deliver(["anna"], "one")[1], [stored("anna")])
            path.rename(own)
            make(path)
            for _ in range(2):
                equal(client.deliver(["anna", "ben"], "two")[1], [not_stored("anna"), stored("ben")])
            equal(((place / "target").read_bytes(), (place / "nothing").exists()), (b"abc", False))
            path.unlink()
            own.rename(path)
            equal(client.deliver(["anna"], "three")[1], [stored("anna")])
            client.quit()
            said, errors = ["anna stored 2", "ben stored 2"], ["lmtpd: anna in use 2"]
            equal(vars(server.end()), {"status": 0, "said": said, "errors": errors})
        equal(letters.messages(path), [b"one\n", b"three\n"])
        equal(server.lock_file("anna").exists(), False)


@case
def two_servers(folder):
    """two servers on one folder, two clients at each: all is told 250, and each letter is there once"""
    count = 25

    def deliver(address, who):
        with Client(address).greet() as client:
            for number in range(count):
                equal(client.deliver(["anna"], f"{who} {number}")[1], [stored("anna")])
            client.quit()

    with Server(folder, ["anna"], 2, "--lanes", 2) as one, Server(folder, ["anna"], 2, "--lanes", 2) as other:
        with concurrent.futures.ThreadPoolExecutor(4) as pool:
            addresses = [one.address, other.address] * 2
            for job in [pool.submit(deliver, address, who) for who, address in enumerate(addresses)]:
                job.result()
        for server in [one, other]:
            equal(vars(server.end()), {"status": 0, "said": [f"anna stored {2 * count}"], "errors": []})
    found = letters.messages(one.mailbox("anna"))
    for who in range(4):
        expected = [b"%d %d\n" % (who, number) for number in range(count)]
        equal([letter for letter in found if letter.startswith(b"%d " % who)], expected)
    equal(len(found), 4 * count)


@case
def the_mode_of_a_file_that_is_made(folder):
    """--mailbox-mode: a mailbox that is made, at its first letter and at a later one, has just that mode, and 0600
    without the word; one that is there keeps its own"""
    for given, mode in [([], 0o600), (["--mailbox-mode", "0660"], 0o660), (["--mailbox-mode", "640"], 0o640)]:
        place = folder / oct(mode)
        place.mkdir()
        (place / "ben.mbox").touch()
        (place / "ben.mbox").chmod(0o644)
        hidden = {"preexec_fn": lambda: os.umask(0o077)}
        with Server(place, ["anna", "ben"], 2, "--lanes", 1, *given, **hidden) as server:
            equal(deliver_one(server.address, ["anna"], "hello"), [stored("anna")])
            modes = [mode_of(server.mailbox("anna"))]
            server.mailbox("anna").unlink()
            equal(deliver_one(server.address, ["anna", "ben"], "hello"), [stored("anna"), stored("ben")])
            modes.append(mode_of(server.mailbox("anna")))
            equal((modes, mode_of(server.mailbox("ben"))), ([oct(mode)] * 2, oct(0o644)))
            equal(server.end().status, 0)


def mode_of(path):
    return oct(stat.S_IMODE(path.stat().st_mode))
