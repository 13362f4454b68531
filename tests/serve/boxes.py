"""Mailboxes from a file."""

import letters
from cases import case, equal
from clients import Client
from replies import NO_SUCH_BOX, RECIPIENT_OK, over_quota, stored
from server import Server

LISTS = "# users\r\nben  # the second\r\n\r\n\tcarl\n#dora\nemil"


def delivered(server, names):
    """What is told of each of these, and of the letter for those that there are."""
    with Client(server.address).greet() as client:
        told = client.deliver(names, "Subject: hi", "", "hello")
        client.quit()
    return told


@case
def names_of_a_file(folder):
    """mailboxes of the words and then of a file: each name gets its letter, and what follows # is no mailbox"""
    (folder / "boxes").write_bytes(LISTS.encode())
    with Server(folder, ["anna"], 1, "--boxes", folder / "boxes") as server:
        names = ["emil", "carl", "dora", "ben", "anna", "users"]
        known, finals = delivered(server, names)
        equal(known, [NO_SUCH_BOX if name in ["dora", "users"] else RECIPIENT_OK for name in names])
        equal(finals, [stored(name) for name in ["emil", "carl", "ben", "anna"]])
        ended = server.end()
    said = [f"{name} stored 1" for name in ["anna", "ben", "carl", "emil"]]
    equal(vars(ended), {"status": 0, "said": said, "errors": []})
    for name in ["anna", "ben", "carl", "emil"]:
        equal([letter.message for letter in letters.read(server.mailbox(name))], [b"Subject: hi\n\nhello\n"])


@case
def no_name_but_those_of_a_file(folder):
    """no mailbox in the words: mail for postmaster goes to the first one of the file"""
    (folder / "boxes").write_bytes(LISTS.encode())
    with Server(folder, [], 1, "--boxes", folder / "boxes") as server:
        equal(delivered(server, ["postmaster"])[1], [stored("ben")])
        equal(server.end().said, ["ben stored 1", "carl stored 0", "emil stored 0"])


@case
def more_than_each_has_a_thread(folder):
    """300 mailboxes of a file: a letter for the first, for two that share a thread and for the last; postmaster's goes
    to the first; at the end it is said of these alone what was stored"""
    names = [f"u{number}" for number in range(300)]
    (folder / "boxes").write_text("".join(f"{name}\n" for name in names))
    with Server(folder, [], 1, "--boxes", folder / "boxes") as server:
        known, finals = delivered(server, ["u0", "u255", "u256", "u299", "u300", "postmaster"])
        equal(known, [RECIPIENT_OK] * 4 + [NO_SUCH_BOX, RECIPIENT_OK])
        equal(finals, [stored(name) for name in ["u0", "u255", "u256", "u299", "u0"]])
        ended = server.end()
    said = ["u0 stored 2", "u255 stored 1", "u256 stored 1", "u299 stored 1"]
    equal(vars(ended), {"status": 0, "said": said, "errors": []})
    for name, count in [("u0", 2), ("u255", 1), ("u256", 1), ("u299", 1)]:
        equal([letter.message for letter in letters.read(server.mailbox(name))], [b"Subject: hi\n\nhello\n"] * count)
    equal(sorted(path.name for path in folder.glob("*.mbox")), ["u0.mbox", "u255.mbox", "u256.mbox", "u299.mbox"])


@case
def as_many_as_have_a_line(folder):
    """256 mailboxes of a file: at the end each has its line, also where nothing came"""
    names = [f"u{number}" for number in range(256)]
    (folder / "boxes").write_text("".join(f"{name}\n" for name in names))
    with Server(folder, [], 1, "--boxes", folder / "boxes") as server:
        equal(delivered(server, ["u255"])[1], [stored("u255")])
        equal(server.end().said, [f"{name} stored {int(name == 'u255')}" for name in names])


@case
def a_line_more(folder):
    """one more line in the file: the running server doesn't know the name, and the next one does"""
    (folder / "boxes").write_bytes(b"ben\n")
    with Server(folder, [], 1, "--boxes", folder / "boxes") as server:
        (folder / "boxes").write_bytes(b"ben\nfrieda\n")
        equal(delivered(server, ["frieda", "ben"]), ([NO_SUCH_BOX, RECIPIENT_OK], [stored("ben")]))
        equal(server.end().said, ["ben stored 1"])
    with Server(folder, [], 1, "--boxes", folder / "boxes") as server:
        equal(delivered(server, ["frieda"])[1], [stored("frieda")])
        equal(server.end().said, ["ben stored 0", "frieda stored 1"])


@case
def a_file_by_a_link(folder):
    """the file may be named by a link, and be gone or changed once the server listens"""
    (folder / "of_site").write_bytes(b"ben\n")
    (folder / "boxes").symlink_to("of_site")
    with Server(folder, [], 1, "--boxes", folder / "boxes") as server:
        equal(server.first.startswith("listening on "), True)
        (folder / "of_site").unlink()
        equal(delivered(server, ["ben"])[1], [stored("ben")])
        equal(server.end().status, 0)


@case
def quotas_of_their_own(folder):
    """mailboxes with quotas of their own under --quota: each takes what fits by its own, - is none, and where nothing
    is said --quota counts"""
    (folder / "boxes").write_bytes(b"anna 1K\nben\t-  # none\r\ncarl\ndora 0\n")
    names = ["anna", "ben", "carl", "dora", "emil"]
    told = []
    with Server(folder, ["emil"], 1, "--quota", 100, "--boxes", folder / "boxes") as server:
        with Client(server.address).greet() as client:
            for _ in range(2):
                told.append(client.deliver(names, "Subject: hi", "", "x" * 400)[1])
            client.quit()
        ended = server.end()
    over = [over_quota(name) for name in ["carl", "dora", "emil"]]
    equal(told, [[stored("anna"), stored("ben"), *over], [over_quota("anna"), stored("ben"), *over]])
    counts = {"emil": 0, "anna": 1, "ben": 2, "carl": 0, "dora": 0}
    said = [f"{name} stored {count}" for name, count in counts.items()]
    errors = [f"lmtpd: {name} over quota {2 - count}" for name, count in counts.items() if count < 2]
    equal(vars(ended), {"status": 0, "said": said, "errors": errors})
    equal([len(letters.read(server.mailbox(name))) for name in counts], [*counts.values()])
    equal(400 < server.mailbox("anna").stat().st_size <= 1_024, True)


# Names that a file may have and the words may not, and local parts that mean none of them.
LONG, LONGEST = "a" * 33, "b" * 64
OF_A_FILE = ["o'brien", "anna+x", "a=b", LONG, LONGEST]
OF_NOBODY = ["o", "anna", "anna+y", "b" * 63]


@case
def names_that_only_a_file_may_have(folder):
    """a name with ', + or =, and one of 33 and of 64 bytes: RCPT finds it in any letter case, and the letter is in
    NAME.mbox; what is no name is refused"""
    (folder / "boxes").write_text("".join(f"{name}\n" for name in OF_A_FILE))
    with Server(folder, ["carl"], 1, "--boxes", folder / "boxes") as server:
        known, finals = delivered(server, [*OF_NOBODY, *(name.upper() for name in OF_A_FILE)])
        equal(known, [NO_SUCH_BOX] * len(OF_NOBODY) + [RECIPIENT_OK] * len(OF_A_FILE))
        equal(finals, [stored(name) for name in OF_A_FILE])
        ended = server.end()
    said = ["carl stored 0", *(f"{name} stored 1" for name in OF_A_FILE)]
    equal(vars(ended), {"status": 0, "said": said, "errors": []})
    equal({path.name for path in folder.glob("*.mbox")}, {f"{name}.mbox" for name in OF_A_FILE})
    for name in OF_A_FILE:
        equal([letter.message for letter in letters.read(server.mailbox(name))], [b"Subject: hi\n\nhello\n"])


@case
def a_listed_name_comes_before_its_user(folder):
    """--recipient-delimiter +: anna+x of the file has its own letters, and anna those of anna+y"""
    (folder / "boxes").write_text("anna+x\n")
    with Server(folder, ["anna"], 1, "--recipient-delimiter", "+", "--boxes", folder / "boxes") as server:
        equal(delivered(server, ["anna+x", "anna+y"])[1], [stored("anna+x"), stored("anna")])
        equal(server.end().said, ["anna stored 1", "anna+x stored 1"])
