"""What the server logs on standard error."""

import os
import re
import socket
import time

import failing
import letters
from cases import case, equal
from clients import Client, deliver_one
from files import give_room, of_size
from replies import CLOSING, GO_AHEAD, GREETING, OFFER, RECIPIENT_OK, SENDER_OK, as_bytes
from replies import no_room, not_stored, over_quota, stored, too_large
from server import Server, run, start, words

LINE = re.compile(
    r"\[INFO  lmtpd\] conversation ended"
    r" lane=(\d+) client=(\S+) cause=(\S+) read=(\d+) written=(\d+) seconds=(\d+\.\d{3})"
)
ANSWER = re.compile(
    r"\[INFO  lmtpd\] copy answered id=(\d{16})-(\d+-\d+) mailbox=(\S+) outcome=(\S+) code=(\d{3})"
    r" bytes=(\d+) seconds=(\d+\.\d{3}) client=(\S+)"
)
REFUSAL = re.compile(r"\[INFO  lmtpd\] command refused lane=(\d+) verb=(\S+) code=(\d{3})(?: reason=(?:domain|mailbox))?")
LETTER = ["Subject: a secret", "", "hello"]
# the bytes of that letter
SIZE = sum(len(line) + 2 for line in LETTER)
# what the client of `deliver_one` says and hears
SAID = (
    "LHLO relay.example\r\nMAIL FROM:<carl@a.example>\r\nRCPT TO:<anna@mx.example>\r\nDATA\r\n"
    "Subject: a secret\r\n\r\nhello\r\n.\r\nQUIT\r\n"
)
HEARD = as_bytes([GREETING, *OFFER, SENDER_OK, RECIPIENT_OK, GO_AHEAD, stored("anna"), CLOSING])
# What could begin a new line of a log, or end one, or tell a terminal something.
CONTROLS = [b"\n", b"\r", b"\n\r", b"\0", b"\b", b"\t", b"\v", b"\f", b"\x1b[2K\x1b[1G", b"\x1c", b"\x7f", b"\x85"]
CONTROLS += [b"\xff", "\u2028".encode(), "\u202e".encode(), b"\\n", b"%0a"]
FORGED = b"[ERROR lmtpd] mailbox failed mailbox=anna"
# What the system says of EIO, of ENOENT and of EFBIG (strerror(3)), and the number of each.
NO_INPUT_OUTPUT = "Input/output error (os error 5)"
NO_FILE = "No such file or directory (os error 2)"
TOO_LARGE = "File too large (os error 27)"
# Where a client may put a name.
PLACES = [b"LHLO %b", b"EHLO %b", b"MAIL FROM:<%b@a.example>", b"RCPT TO:<%b@mx.example>", b"RCPT TO:<anna@%b>"]
PLACES += [b'RCPT TO:<"%b"@mx.example>', b"VRFY %b", b"NOOP %b", b"HELP %b", b"%b"]


def conversation(line):
    """Lane, client, cause, bytes read and written, and seconds, of a line of the log."""
    found = LINE.fullmatch(line)
    assert found, line
    lane, client, cause, read, written, seconds = found.groups()
    return int(lane), client, cause, int(read), int(written), float(seconds)


def answer(line):
    """The id after its microseconds, the mailbox, outcome, code, bytes and client of a copy's line, and its seconds."""
    found = ANSWER.fullmatch(line)
    assert found, line
    _, number, mailbox, outcome, code, size, seconds, client = found.groups()
    return (number, mailbox, outcome, code, int(size), client), float(seconds)


def one_conversation(folder, hold, *more, listen="127.0.0.1:0", copies=0):
    """What is logged of the end of a conversation that the client holds so, on one lane, after as many copies."""
    with Server(folder, ["anna"], 1, "--lanes", 1, "--log", "info", *more, listen=listen) as server:
        hold(server.address)
        ended = server.end()
    equal((ended.status, len(ended.errors)), (0, copies + 1))
    for line in ended.errors[:-1]:
        assert ANSWER.fullmatch(line), line
    return conversation(ended.errors[-1])


@case
def nothing_is_logged_unless_asked(folder):
    """without --log, with off and with error nothing is logged of a conversation"""
    for more in [], ["--log", "off"], ["--log", "error"]:
        with Server(folder, ["anna"], 1, *more) as server:
            deliver_one(server.address, ["anna"], *LETTER)
            equal(server.end().errors, [])


@case
def conversations_are_logged(folder):
    """a conversation that ended is logged with its lane, client, cause and bytes, and with no address and no subject"""
    logged = one_conversation(folder, lambda address: deliver_one(address, ["anna"], *LETTER), copies=1)
    equal(logged[:5], (0, "127.0.0.1", "quit", len(SAID), len(HEARD)))
    assert 0 <= logged[5] < 5, logged


@case
def a_conversation_names_its_client(folder):
    """a conversation's line has the address that the client comes from, and not the server's"""

    def hold(address):
        with socket.create_connection(address, timeout=20, source_address=("127.0.0.9", 0)) as client:
            client.sendall(b"QUIT\r\n")
            while client.recv(4_096):
                pass

    equal(one_conversation(folder, hold)[1], "127.0.0.9")


@case
def ids_begin_with_the_start(folder):
    """the id of a copy's line begins with the microsecond in which the server began"""
    before = time.time_ns() // 1_000
    with Server(folder, ["anna"], 1, "--lanes", 1, "--log", "info") as server:
        after = time.time_ns() // 1_000
        deliver_one(server.address, ["anna"], *LETTER)
        found = ANSWER.fullmatch(server.end().errors[0])
    assert before <= int(found[1]) <= after, (before, found[1], after)


@case
def copies_are_logged_as_they_are_answered(folder):
    """each copy has its line before the conversation ends: the id of its Received line, the mailbox, the outcome, the
    code, the bytes, the seconds since its data had ended, and the client's name; without an address and a subject"""
    log, more = folder / "log", ["--lanes", 1, "--quota", 300, "--log", "info"]
    with log.open("wb") as errors, Server(folder, ["anna", "ben"], 2, *more, errors=errors) as server:
        with Client(server.address).greet() as client:
            equal(client.deliver(["anna", "ben"], *LETTER)[1], [stored("anna"), stored("ben")])
            equal(client.deliver(["anna"], *LETTER)[1], [over_quota("anna")])
            until = time.monotonic() + 10
            while log.read_text().count("\n") < 3 and time.monotonic() < until:
                time.sleep(0.01)
            equal(log.read_text().count("copy answered"), 3)
            client.quit()
        deliver_one(server.address, ["ben"], "Subject: b", "")
        equal(server.end().status, 0)
    logged = log.read_text().splitlines()
    lines = [answer(line) for line in logged if "copy answered" in line]
    first, small = (SIZE, "relay.example"), (len("Subject: b\r\n\r\n"), "relay.example")
    expected = [("0-1", "anna", "stored", "250", *first), ("0-1", "ben", "stored", "250", *first)]
    expected += [("0-2", "anna", "over-quota", "452", *first), ("0-3", "ben", "over-quota", "452", *small)]
    equal([line for line, _ in lines], expected)
    assert all(seconds < 5 for _, seconds in lines), lines
    assert "secret" not in str(logged) and "@" not in str(logged), logged
    assert b" id 0-1;" in server.mailbox("anna").read_bytes()


@case
def refused_commands_are_logged(folder):
    """a command that is refused has its line, with its verb and the code, and one that is taken has none"""
    said = [
        ("RCPT TO:<anna@mx.example>", ("RCPT", "503")),
        ("mail FROM:<carl@a.example> SIZE=1048577", ("MAIL", "552")),
        ("MAIL FROM:<carl@a.example>", None),
        ("RCPT TO:<nobody@mx.example>", ("RCPT", "550")),
        ("RCPT TO:<anna@mx.example", ("RCPT", "501")),
        ("RCPT TO:<anna@mx.example>", None),
        ("EHLO relay.example", ("EHLO", "500")),
        ("EXPN anna", ("EXPN", "502")),
        ("FOO bar", ("other", "500")),
        ("x" * 2_000, ("long", "500")),
        ("NOOP", None),
    ]
    with Server(folder, ["anna"], 1, "--lanes", 1, "--log", "info") as server:
        with Client(server.address).greet() as client:
            heard = [client.ask(line) for line, _ in said]
            client.quit()
        ended = server.end()
    refused = [code[:3] for code in heard if code[0] in "45"]
    lines = [REFUSAL.fullmatch(line) for line in ended.errors[:-1]]
    assert all(lines), ended.errors
    reasons = [line for line in ended.errors if " reason=" in line]
    equal(reasons, ["[INFO  lmtpd] command refused lane=0 verb=RCPT code=550 reason=mailbox"])
    expected = [("0", *logged) for _, logged in said if logged]
    equal(([line.groups() for line in lines], [line[3] for line in lines]), (expected, refused))


# The head of a letter, and how the line of its copy ends.
HEADS = [
    (["Message-ID: <1@a.example>", "Subject: a secret"], " message-id=<1@a.example>"),
    (["Subject: a secret"], ""),
    (["Subject: a secret", "message-id :\t<1@a.example> "], " message-id=<1@a.example>"),
    (["Message-ID:", " <1@a.", "\texample>", "Subject: a secret"], " message-id=<1@a.example>"),
    (["Message-ID: <1@a.example>", "Message-ID: <2@a.example>"], " message-id=<1@a.example>"),
    (["Message-ID: <1@a.example> code=250 mailbox=ben"], " message-id=<1@a.example>%20code=250%20mailbox=ben"),
    (["Message-ID: \x1b[2K<ü@a.example>"], " message-id=%1B[2K<%C3%BC@a.example>"),
    (["Message-ID: <100%20%@a=b.example>"], " message-id=<100%2520%25@a=b.example>"),
    (["Message-ID: " + "x" * 300], " message-id=" + "x" * 250),
    (["Message-ID: " + "ü" * 150], " message-id=" + "%C3%BC" * 125),
    (["Message-ID:"], " message-id="),
    (["X-Message-ID: <1@a.example>", "Message-IDs: <2@a.example>"], ""),
    (["Subject: a secret", " Message-ID: <1@a.example>"], ""),
    (["Subject: a secret", "", "Message-ID: <1@a.example>"], ""),
    (["", "Message-ID: <1@a.example>"], ""),
    # the first line has 3,911 bytes, and the name of the second 12, which leaves 173 of 4,096
    (["Subject: " + "x" * 3_900, "Message-ID: <" + "x" * 200 + ">"], " message-id=<" + "x" * 172),
    (["Subject: " + "x" * 900] * 5 + ["Message-ID: <1@a.example>"], ""),
]


@case
def message_ids_are_logged(folder):
    """a copy's line ends with the letter's Message-ID, where its head has one: the first such field of the first 4,096
    bytes, in any case of its name, without line ends and blanks around it, as one word of 250 bytes at most"""
    with Server(folder, ["anna"], 1, "--lanes", 1, "--log", "info") as server:
        with Client(server.address).greet() as client:
            for head, _ in HEADS:
                equal(client.deliver(["anna"], *head, "", "Message-ID: <body@a.example>")[1], [stored("anna")])
            client.quit()
        ended = server.end()
    logged = [line.split(" client=relay.example")[1] for line in ended.errors[:-1]]
    equal(logged, [ends for _, ends in HEADS])


@case
def names_of_clients_are_logged(folder):
    """a copy's line has the name that the client gave itself, with an escape for a percent sign"""
    with Server(folder, ["anna"], 1, "--lanes", 1, "--log", "info") as server:
        with Client(server.address).greet() as client:
            equal(client.ask("LHLO [x:%20=]")[:3], "250")
            equal(client.deliver(["anna"], "Subject: a", "")[1], [stored("anna")])
            client.quit()
        logged = server.end().errors[0]
    equal(logged.split(" client=")[1], "[x:%2520=]")


@case
def message_ids_of_refused_copies_are_logged(folder):
    """a letter that is too large, over the quota, or has no room, and one for two mailboxes have their Message-ID in
    each line, before the addresses where these are shown"""
    given = ["--lanes", 1, "--message-limit", 65_536, "--blocks", 8, "--quota", 9_000, "--log", "info"]
    with Server(folder, ["anna", "ben"], 1, *given, "--log-addresses") as server:
        with Client(server.address).greet() as client:
            said = [("large", 70_000, too_large), ("waits", 40_000, no_room), ("much", 10_000, over_quota)]
            for name, size, reply in [*said, ("both", 10, stored)]:
                head = [f"Message-ID: <{name}@a.example>", ""]
                recipients = ["anna", "ben"] if reply == stored else ["anna"]
                # in lines that a message may have
                lines = ["x" * 990] * (size // 992) + ["x" * (size % 992)]
                equal(client.deliver(recipients, *head, *lines)[1], [reply(name) for name in recipients])
            client.quit()
        ended = server.end()
    copies = [line for line in ended.errors if "copy answered" in line]
    expected = [("large", "anna"), ("waits", "anna"), ("much", "anna"), ("both", "anna"), ("both", "ben")]
    expected = [(f"<{name}@a.example>", f"<{box}@mx.example>") for name, box in expected]
    shown = [re.search(r" message-id=(\S+) sender=<carl@a\.example> recipient=(\S+)$", line) for line in copies]
    equal([found and found.groups() for found in shown], expected)


@case
def no_name_forges_a_line(folder):
    """a client puts line ends and other control bytes into its name, a sender, a mailbox and commands: the log has
    lines of refused commands, of the one copy and of the conversation alone, and the mailbox the one letter that
    follows; so with addresses in the lines"""
    for listen, more in ("127.0.0.1:0", []), (f"unix:{folder}/sock", []), ("127.0.0.1:0", ["--log-addresses"]):
        place = folder / f"{listen[:4]}{len(more)}"
        place.mkdir()
        with Server(place, ["anna"], 1, "--lanes", 1, "--log", "info", *more, listen=listen) as server:
            with Client(server.address) as client:
                equal(client.hear(), GREETING)
                for control in CONTROLS:
                    for named in PLACES:
                        client.socket.sendall(named % (b"x" + control + FORGED + control + b"x") + b"\r\n")
                    client.send("LHLO relay.example")
                    while client.hear() != OFFER[-1]:
                        pass
                equal(client.deliver(["anna"], *LETTER)[1], [stored("anna")])
                equal(client.quit(), CLOSING)
            ended = server.end()
        equal((ended.status, ended.said), (0, ["anna stored 1"]))
        *refused, copy, last = ended.errors
        shown = rf"({REFUSAL.pattern})( (sender|recipient)=<[!-~]*>)?" if more else REFUSAL.pattern
        assert refused and all(re.fullmatch(shown, line) for line in refused), refused
        copy, *named = copy.split(" sender=")
        equal(named, ["<carl@a.example> recipient=<anna@mx.example>"] * len(more))
        equal(answer(copy)[0][1:], ("anna", "stored", "250", SIZE, "relay.example"))
        equal(conversation(last)[:3], (0, "unix" if "unix" in listen else "127.0.0.1", "quit"))
        stands = ("carl@a.example", "relay.example", b"Subject: a secret\n\nhello\n")
        equal(letters.read(server.mailbox("anna")), [stands])


@case
def clients_of_the_other_version(folder):
    """a client over IPv6 is logged by its address"""

    def deliver(address):
        return deliver_one(address, ["anna"], *LETTER)

    logged = one_conversation(folder, deliver, listen="[::1]:0", copies=1)
    equal(logged[1], "::1")


@case
def each_lane_logs(folder):
    """two conversations at once are logged with the numbers of their lanes, and each once"""
    with Server(folder, ["anna"], 2, "--lanes", 2, "--log", "info") as server:
        with Client(server.address).greet() as one, Client(server.address).greet() as other:
            other.quit()
            one.quit()
        ended = server.end()
    equal(sorted(conversation(line)[0] for line in ended.errors), [0, 1])


@case
def an_end_of_input_is_logged(folder):
    """a client that goes away in mid-message is logged as end-of-input"""

    def leave(address):
        with Client(address).greet() as client:
            client.start_message("anna", "half a line")

    equal(one_conversation(folder, leave)[2], "end-of-input")


@case
def a_fault_is_logged(folder):
    """a client that resets the connection is logged as read-fault or write-fault"""

    def reset(address):
        client = Client(address).greet()
        client.start_message("anna", "half a line")
        client.reset()

    cause = one_conversation(folder, reset)[2]
    assert cause in ["read-fault", "write-fault"], cause


@case
def a_silent_client_is_logged(folder):
    """a client that says nothing for its time is logged as stopped, with that time"""

    def be_silent(address):
        with Client(address).greet() as client:
            assert client.hear().startswith("421 ")

    logged = one_conversation(folder, be_silent, "--timeout", 1)
    equal(logged[2], "stopped")
    assert 1 <= logged[5] < 10, logged


@case
def too_many_reads_are_logged(folder):
    """a client that was read as often as it may be is logged as stopped"""

    def talk(address):
        with Client(address).greet() as client:
            assert client.ask("NOOP").startswith("250 ")
            client.send("NOOP")
            assert client.hear().startswith("421 ")

    equal(one_conversation(folder, talk, "--reads", 2)[2], "stopped")


@case
def a_mailbox_that_fails_is_logged_once(folder):
    """a mailbox whose calls all fail from some letter on is logged as failed once, and in the next turn, in which its
    file can't be opened, as in use, each with the system's reason, at error and info"""
    library = failing.built(folder)
    # two conversations, each of a copy for two mailboxes
    for level, others in ("error", 0), ("info", 2 + 4):
        answers, ended = next(filter(None, (failed_run(folder, library, level, call) for call in range(1, 30))))
        assert answers[1] == [not_stored("anna"), stored("ben")], answers
        errors = [line for line in ended.errors if not line.startswith("[INFO ")]
        named = f"mailbox=anna reason={NO_INPUT_OUTPUT}"
        logged = [f"[ERROR lmtpd] mailbox {what} {named}" for what in ["failed", "in use"]]
        equal(errors, [*logged, "lmtpd: anna in use 1", "lmtpd: device fault"])
        equal(len(ended.errors) - len(errors), others)


@case
def a_mailbox_that_stores_again_is_logged(folder):
    """a mailbox without room is logged as failed by the first of its turns, and as it stores again; so each time"""
    (folder / "anna.mbox").write_bytes(b"x" * 998 + b"\n\n")
    with Server(folder, ["anna"], 8, "--lanes", 1, "--log", "error", **of_size(1_000)) as server:
        for _ in range(2):
            give_room(server.process.pid, server.mailbox("anna").stat().st_size + 10)
            equal([deliver_one(server.address, ["anna"], *LETTER) for _ in range(2)], [[not_stored("anna")]] * 2)
            give_room(server.process.pid, 100_000)
            equal([deliver_one(server.address, ["anna"], *LETTER) for _ in range(2)], [[stored("anna")]] * 2)
        ended = server.end()
    failed = f"[ERROR lmtpd] mailbox failed mailbox=anna reason={TOO_LARGE}"
    equal((ended.status, ended.errors), (0, [failed, "[ERROR lmtpd] mailbox stores again mailbox=anna"] * 2))


def failed_run(folder, library, level, call):
    """What two conversations were told, and how the server ended whose calls on a mailbox fail from this one on; none
    where the mailbox couldn't be opened, or never failed."""
    place = folder / f"{level}{call}"
    place.mkdir()
    given = {"LD_PRELOAD": library, "FAIL_FILE": "/anna.mbox", "FAIL_CALL": call, "FAIL_ALL": 1}
    with failing.environment({name: str(value) for name, value in given.items()}):
        server = Server(place, ["anna", "ben"], 2, "--lanes", 1, "--log", level)
    with server:
        if not server.first:
            return None
        answers = [deliver_one(server.address, ["anna", "ben"], *LETTER) for _ in range(2)]
        ended = server.end()
    return (answers, ended) if ended.status else None


@case
def a_mailbox_that_cannot_be_opened_is_logged(folder):
    """before `cannot open` the log has a line with the system's reason, at error and at info, and none without"""
    (folder / "linked").mkdir()
    (folder / "linked" / "anna.mbox").symlink_to(folder / "other")
    for place, reason in (folder / "none", NO_FILE), (folder / "linked", "not plain"):
        for level in "error", "info", "off":
            ended = run(words(place, ["anna"], 1, "--log", level))
            logged = [f"[ERROR lmtpd] cannot open mailbox=anna reason={reason}"]
            if reason == NO_FILE:
                logged += [f"[ERROR lmtpd] cannot read the folder folder={place} reason={reason}"]
            logged *= level != "off"
            equal(vars(ended), {"status": 1, "said": [], "errors": [*logged, "lmtpd: cannot open anna.mbox"]})


@case
def the_journal_is_told_priorities(folder):
    """where JOURNAL_STREAM names standard error the lines of the log have <3> or <6> before them, and what ends the
    program with status 1 or 2 has <3>, each line of clap's too; else nothing has"""
    refusal = [f"[ERROR lmtpd] cannot open mailbox=anna reason={NO_FILE}"]
    refusal += [f"[ERROR lmtpd] cannot read the folder folder={folder / 'none'} reason={NO_FILE}"]
    ends = socket.socketpair()
    with ends[0], ends[1]:
        seen = os.fstat(ends[1].fileno())
        device, inode = seen.st_dev, seen.st_ino
        own = f"{device}:{inode}"
        others = [None, "", ":", f"{device}:{inode + 1}", f"{device + 1}:{inode}", f"{inode}:{device}", f"{own} "]
        others += [f"0{own}", f"+{own}", f"{own}:", own + "0" * 50, str(inode)]
        for name in [own, *others]:
            is_own = name == own
            logged = journal_lines(folder, ends, name, is_served=True)
            equal(len(logged), 2)
            for line, told in zip(logged, ["copy answered", "conversation ended"]):
                assert re.fullmatch(rf"{'<6>' * is_own}\[INFO  lmtpd\] {told} .*", line), line
            logged = journal_lines(folder / "none", ends, name, is_served=False)
            equal(logged, ["<3>" * is_own + line for line in [*refusal, "lmtpd: cannot open anna.mbox"]])
            logged = refusal_lines(ends, name, ["serve", "--check-words", *words(folder, ["Anna"], 1)[1:]])
            told = ["[ERROR lmtpd] bad box name=Anna", "lmtpd: bad box"]
            equal(logged, ["<3>" * is_own + line for line in told])
            logged = refusal_lines(ends, name, ["serve", "--shout"])
            assert len(logged) > 2 and "error: unexpected argument '--shout' found" in logged[0], logged
            equal([line.startswith("<3>") for line in logged], [is_own] * len(logged))
            logged = refusal_lines(ends, name, [b"\xff"])
            equal([line.startswith("<3>") for line in logged], [is_own] * len(logged))


def environment(name):
    """The environment where JOURNAL_STREAM is that."""
    given = {word: value for word, value in os.environ.items() if word != "JOURNAL_STREAM"}
    return given | ({"JOURNAL_STREAM": name} if name is not None else {})


def refusal_lines(ends, name, given):
    """What the program says of words that it can't use on the second end of these sockets."""
    reader, writer = ends
    process = start(given, writer, env=environment(name))
    process.communicate(timeout=20)
    equal(process.returncode, 2)
    return reader.recv(65_536).decode().splitlines()


def journal_lines(folder, ends, name, is_served):
    """What a server says on the second end of these sockets, where JOURNAL_STREAM is that."""
    given = environment(name)
    reader, writer = ends
    if is_served:
        with Server(folder, ["anna"], 1, "--log", "info", errors=writer, env=given) as server:
            deliver_one(server.address, ["anna"], *LETTER)
            equal(server.end().status, 0)
    else:
        process = start(words(folder, ["anna"], 1, "--log", "info"), writer, env=given)
        process.communicate(timeout=20)
        equal(process.returncode, 1)
    return reader.recv(65_536).decode().splitlines()


@case
def other_levels_are_refused(folder):
    """a level that isn't off, error or info is refused, and nothing is opened"""
    for level in ["", "warn", "debug", "trace", "on", "1"]:
        ended = run(words(folder, ["anna"], 1, "--log", level))
        equal((ended.status, ended.said), (2, []))
    equal(list(folder.iterdir()), [])
