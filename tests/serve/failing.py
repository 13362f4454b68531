"""What the server does where a call on a mailbox's file or on a socket fails."""

import concurrent.futures
import os
import pathlib
import shutil
import subprocess

import letters
from cases import Absent, case, equal
from clients import Client, deliver_one
from replies import not_stored, stored
from server import Server

LIBRARY = pathlib.Path(__file__).parent / "fail_calls.c"
OLD = b"abc"
CLOSED = b"abc\n\n"
STORED, NOT_STORED = stored("anna"), not_stored("anna")
LETTERS = 3
# These on the mailbox change what stands in it, or are to keep it: a fault of one breaks the turn.
BREAKING = ["write mailbox", "fdatasync mailbox"]
CUTTING = ["ftruncate mailbox", "fdatasync mailbox"]
GIVING_BACK = ["fcntl mailbox", "unlink lock"]
# This costs no copy: a lock file that stays is removed by the next turn.
HARMLESS = ["unlink lock"]
# These may cost that copy alone, or none: without a link the lock file is made, as it is before a mailbox is open, and
# what is looked at may be let go.
LENIENT = ["statx lock", "link lock", "write lock", "open source", "write source", "statx source", "futimens source"]
LENIENT += ["fdatasync source"]
MOST_CALLS = 200
BOXES = ["anna", "ben", "carla"]


@case
def one_call_fails(folder):
    """each call on a mailbox and its lock file fails in turn: that copy alone is told 451, where the lock file isn't
    written or removed none, and nothing of it is left; the other mailbox 250; a device fault where the last turn
    broke"""
    fail_in_turn(folder, {}, {"refused", "in use", "broken", "harmless", "well"})


@case
def all_later_calls_fail(folder):
    """each call on a mailbox and its lock file fails in turn, and all later ones: 451 from then on, the other 250"""
    fail_in_turn(folder, {"FAIL_ALL": "1"}, {"refused", "in use", "broken", "harmless", "well"})


@case
def one_call_fails_anyway(folder):
    """the same of one call with --start-anyway: the server starts whichever fails, and one at the start costs no
    copy"""
    fail_in_turn(folder, {}, {"in use", "broken", "harmless", "well"}, "--start-anyway")


@case
def all_later_calls_fail_anyway(folder):
    """the same of all later ones with --start-anyway: the server starts, 451 from then on, the other 250"""
    fail_in_turn(folder, {"FAIL_ALL": "1"}, {"in use", "broken", "harmless", "well"}, "--start-anyway")


for one in [one_call_fails, all_later_calls_fail, one_call_fails_anyway, all_later_calls_fail_anyway]:
    one.seconds = 120


def fail_in_turn(folder, more, needed, *words):
    library = built(folder)
    seen = set()
    for number in range(1, MOST_CALLS):
        place = folder / str(number)
        place.mkdir()
        told, log = place / "told", place / "log"
        given = {"LD_PRELOAD": library, "FAIL_FILE": "/anna.mbox", "FAIL_CALL": number, "FAIL_TOLD": told}
        given |= {"FAIL_LOG": log, **more}
        try:
            seen.add(deliver_a_few(place, {name: str(value) for name, value in given.items()}, words))
        except AssertionError as fault:
            raise AssertionError(f"call {number}, {called(place)[number - 1 : number]}: {fault}") from fault
        if not told.exists():
            # all calls of a run that ends well have failed
            equal(seen, needed)
            return
    raise AssertionError(f"no end after {MOST_CALLS} calls")


def built(folder):
    if shutil.which("cc") is None:
        raise Absent("cc")
    library = folder / "fail_calls.so"
    subprocess.run(["cc", "-O2", "-shared", "-fPIC", "-o", library, LIBRARY], check=True)
    return library


def with_calls(library, folder, fails=0):
    """What a server is started with that notes its calls on anna's mailbox in that folder, of which that one fails."""
    given = {"LD_PRELOAD": library, "FAIL_FILE": "/anna.mbox", "FAIL_LOG": folder / "log", "FAIL_CALL": fails}
    return {name: str(value) for name, value in given.items()}


def called(folder):
    """The calls so far, each with its place."""
    log = folder / "log"
    return log.read_text().splitlines() if log.exists() else []


def deliver_a_few(folder, given, words):
    """Conversations with a letter for both mailboxes each: what the call that failed came to."""
    (folder / "anna.mbox").write_bytes(OLD)
    with environment(given):
        server = Server(folder, ["anna", "ben"], LETTERS, "--lanes", 1, *words)
    with server:
        if not server.first:
            equal(vars(server.end()), {"status": 1, "said": [], "errors": ["lmtpd: cannot open anna.mbox"]})
            equal((folder / "anna.mbox").read_bytes(), OLD)
            return "refused"
        turns = [turn_of(folder, server, number, given) for number in range(LETTERS)]
        ended = server.end()
    came_to = next((turn for turn, _, _ in turns if turn != "well"), "well")
    check_turns(turns, came_to, "FAIL_ALL" in given)
    count = sum(is_stored for _, is_stored, _ in turns)
    equal(ended.said, [f"anna stored {count}", f"ben stored {LETTERS}"])
    equal((ended.status, ended.errors), how_it_ends(turns))
    equal(letters.messages(server.mailbox("ben")), [b"letter %d\n" % number for number in range(LETTERS)])
    whole = [b"letter %d\n" % number for number, (_, is_stored, _) in enumerate(turns) if is_stored]
    check_mailbox(server.mailbox("anna"), whole, is_cut="FAIL_ALL" not in given)
    return came_to


def turn_of(folder, server, number, given):
    """Delivers a letter: what a call that failed in its turn came to, whether it was stored, whether a lock is left."""
    before = len(called(folder))
    answer, other = deliver_one(server.address, ["anna", "ben"], f"letter {number}")
    equal((answer in [STORED, NOT_STORED], other), (True, stored("ben")))
    is_left = (folder / "anna.mbox.lock").exists()
    turn = called(folder)[before:]
    failing = int(given["FAIL_CALL"]) - 1 - before
    if failing < 0 and "FAIL_ALL" in given:
        # the first call that failed is an earlier one, maybe one of the start that costs no mailbox
        return "in use", answer == STORED, is_left
    if not 0 <= failing < len(turn):
        return "well", answer == STORED, is_left
    kept = is_kept(turn[:failing])
    if turn[failing] in BREAKING and not kept:
        return "broken", answer == STORED, is_left
    is_harmless = kept or turn[failing] in HARMLESS and "FAIL_ALL" not in given
    is_harmless = is_harmless or turn[failing] in LENIENT and answer == STORED
    return "harmless" if is_harmless else "in use", answer == STORED, is_left


def is_kept(calls):
    """Whether what was written is synced. A mailbox's first turn has the file synced before it writes."""
    return "write mailbox" in calls and "fdatasync mailbox" in calls[calls.index("write mailbox") :]


def check_turns(turns, came_to, is_for_good):
    """What is stored, and where a lock file is left, as the call that failed says."""
    at = next((number for number, (turn, _, _) in enumerate(turns) if turn != "well"), LETTERS)
    for number, (turn, is_stored, is_left) in enumerate(turns):
        is_needed = turn in ["well", "harmless"] and not (is_for_good and number > at)
        equal((number, is_stored), (number, is_needed))
        may_be_left = is_for_good and number >= at or number == at and came_to == "harmless" and is_stored
        assert may_be_left or not is_left, f"a lock file is left after letter {number}"


def how_it_ends(turns):
    """The status and the lines on standard error: how many turns were missed, and whether the last one had broke."""
    had = [turn for turn, is_stored, _ in turns if is_stored or turn == "broken"]
    missed, broke = len(turns) - len(had), had[-1:] == ["broken"]
    return int(broke), [f"lmtpd: anna in use {missed}"] * (missed > 0) + ["lmtpd: device fault"] * broke


def check_mailbox(path, whole, is_cut):
    """The letters that were told stored, and, where it couldn't be cut back, after them at most a prefix of a next."""
    found = path.read_bytes()
    if is_cut and not whole:
        equal(found, OLD)
        return
    if not found.startswith(CLOSED):
        equal((CLOSED.startswith(found), whole), (True, []))
        return
    records = found.removeprefix(CLOSED)
    path.write_bytes(records if is_cut else records[: records.rfind(b"\n\n") + 2] if b"\n\n" in records else b"")
    read = letters.messages(path)
    equal(read[: len(whole)], whole)
    assert len(read) <= len(whole) + (not is_cut), read


@case
def one_sync_before_each_250(folder):
    """before each 250 there is just one fdatasync, after the last byte of its record, also of a long one; and one more
    before the first byte of all"""
    log = folder / "log"
    given = {"LD_PRELOAD": str(built(folder)), "FAIL_FILE": "/anna.mbox", "FAIL_LOG": str(log)}
    lines = [1, 1, 2000, 1, 9000]
    with environment(given):
        server = Server(folder, ["anna"], 1, "--lanes", 1)
    with server, Client(server.address).greet() as client:
        for place, count in enumerate(lines):
            before = len(called(folder))
            equal(client.deliver(["anna"], *["x" * 100] * count)[1], [STORED])
            kept = [call for call in called(folder)[before:] if call in BREAKING]
            if place == 0:
                equal(kept.pop(0), "fdatasync mailbox")
            equal((kept.count("fdatasync mailbox"), kept[-1]), (1, "fdatasync mailbox"))
            assert "write mailbox" in kept, kept
        client.quit()
        equal(server.end().said, [f"anna stored {len(lines)}"])
    equal(len(letters.messages(server.mailbox("anna"))), len(lines))


@case
def it_is_cut_under_both_locks(folder):
    """where a write or the sync of a record fails, the mailbox is cut back, and that is synced, before either lock is
    given back, and after the lock file was looked at"""
    library, trial = built(folder), folder / "trial"
    first = calls_of_a_turn(library, trial, 0)
    for breaking in BREAKING:
        last = max(number for number, call in enumerate(first, 1) if call == breaking)
        turn = calls_of_a_turn(library, folder / breaking.split()[0], last)
        equal(turn[last - 1], breaking)
        rest = turn[last:]
        seen = [call for call in rest if call in [*CUTTING, *GIVING_BACK]]
        equal((breaking, seen[:2], sorted(seen[2:])), (breaking, CUTTING, GIVING_BACK))
        equal("statx lock" in rest[: rest.index("ftruncate mailbox")], True)


def calls_of_a_turn(library, folder, fails):
    """The calls on a mailbox of a server that is told one letter, from its start, of which that one fails."""
    folder.mkdir()
    with environment(with_calls(library, folder, fails)), Server(folder, ["anna"], 1, "--lanes", 1) as server:
        equal(deliver_one(server.address, ["anna"], "hello"), [NOT_STORED if fails else STORED])
        turn = called(folder)
        server.end()
    return turn


@case
def one_call_on_a_socket_fails(folder):
    """each call on a socket fails in turn, two lanes, three mailboxes: what is told 250 is whole, the server ends"""
    fail_sockets_in_turn(folder, {})


one_call_on_a_socket_fails.seconds = 180


@case
def all_later_calls_on_sockets_fail(folder):
    """each call on a socket fails in turn, and all later ones: the same"""
    fail_sockets_in_turn(folder, {"FAIL_ALL": "1"})


# where each accept fails no client hears anything
all_later_calls_on_sockets_fail.seconds = 300


def fail_sockets_in_turn(folder, more):
    library = built(folder)
    seen = set()
    for number in range(1, MOST_CALLS):
        place = folder / str(number)
        place.mkdir()
        told = place / "told"
        given = {"LD_PRELOAD": library, "FAIL_SOCKETS": 1, "FAIL_CALL": number, "FAIL_TOLD": told, **more}
        with environment({name: str(value) for name, value in given.items()}):
            server = Server(place, BOXES, 2, "--lanes", 2, "--timeout", 2, "--stop-file", place / "stop")
        seen.add(deliver_side_by_side(server))
        if not told.exists():
            equal(seen >= {"cannot listen", "served"}, True)
            return
    raise AssertionError(f"no end after {MOST_CALLS} calls")


def deliver_side_by_side(server):
    """Two clients at once, each with a letter for two of three mailboxes: how the server ended."""
    with server:
        if not server.first:
            equal(vars(server.end()), {"status": 1, "said": [], "errors": ["lmtpd: cannot listen"]})
            return "cannot listen"
        with concurrent.futures.ThreadPoolExecutor(2) as pool:
            jobs = [pool.submit(try_to_deliver, server.address, names) for names in [BOXES[:2], BOXES[1:]]]
            told = [name for job in jobs for name in job.result()]
            # a client who was never accepted, or whose stream took no time, is no conversation
            (server.folder / "stop").touch()
            ended = server.end()
    equal((ended.status, ended.errors) in [(0, []), (1, ["lmtpd: cannot listen"])], True)
    for name, line in zip(BOXES, ended.said):
        path = server.mailbox(name)
        found = letters.messages(path) if path.exists() else []  # its first letter makes it
        equal(line, f"{name} stored {len(found)}")
        equal(set(found) <= {b"hello\n"}, True)
        assert told.count(name) <= len(found), (name, told, found)
    return "served"


def try_to_deliver(address, names):
    """The mailboxes for which a letter was told 250."""
    told = []
    try:
        with Client(address) as client:
            client.socket.settimeout(2)
            client.greet()
            finals = client.deliver(names, "hello")[1]
            told = [name for name, final in zip(names, finals) if final == stored(name)]
            client.quit()
    except (OSError, AssertionError):
        pass
    return told


class environment:
    """Words of the environment for the programs that are started within."""

    def __init__(self, given):
        self.given = given

    def __enter__(self):
        self.before = {name: os.environ.get(name) for name in self.given}
        os.environ.update(self.given)

    def __exit__(self, *_):
        for name, value in self.before.items():
            if value is None:
                del os.environ[name]
            else:
                os.environ[name] = value
