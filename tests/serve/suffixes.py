"""How the files of mailboxes are called."""

import letters
from cases import case, equal
from clients import Client, deliver_one
from replies import not_stored, stored
from server import Server

# What is given, and what comes after a mailbox's name.
SUFFIXES = [
    ([], ".mbox"),
    (["--mailbox-suffix", ".mbox"], ".mbox"),
    (["--mailbox-suffix="], ""),
    (["--mailbox-suffix", ""], ""),
    (["--mailbox-suffix", ".Mail_1-"], ".Mail_1-"),
    (["--mailbox-suffix", "x" * 32], "x" * 32),
    (["--mailbox-suffix", ".."], ".."),
]


@case
def files_are_called_by_the_suffix(folder):
    """--mailbox-suffix: the file of anna is FOLDER/anna and that text, an empty one too, and so is what its lock file
    is linked from; two letters are read there, and no other file is made"""
    for number, (given, suffix) in enumerate(SUFFIXES):
        place = folder / str(number)
        place.mkdir()
        with Server(place, ["anna", "ben.lo"], 1, "--lanes", 1, *given) as server:
            files = {f"{name}{suffix}{end}" for name in ["anna", "ben.lo"] for end in ["", ".source.lock"]}
            equal((given, names_in(place)), (given, set()))
            with Client(server.address) as client:
                client.greet()
                equal(client.deliver(["anna", "ben.lo"], "one")[1], [stored("anna"), stored("ben.lo")])
                equal((given, names_in(place)), (given, files))
                equal(client.deliver(["anna"], "two")[1], [stored("anna")])
                client.quit()
            said = ["anna stored 2", "ben.lo stored 1"]
            equal(vars(server.end()), {"status": 0, "said": said, "errors": []})
        equal(letters.messages(place / f"anna{suffix}"), [b"one\n", b"two\n"])
        equal(names_in(place), {f"anna{suffix}", f"ben.lo{suffix}"})


@case
def the_lock_file_of_a_file_without_suffix(folder):
    """--mailbox-suffix with an empty text: where another program has FOLDER/anna.lock, anna's copy is told 451, a file
    anna.mbox.lock holds up nothing, and anna.mbox is left alone"""
    for name in ["anna.lock", "ben.mbox.lock", "anna.mbox"]:
        (folder / name).write_text("")
    with Server(folder, ["anna", "ben"], 1, "--lanes", 1, "--lock-wait", 0, "--mailbox-suffix=") as server:
        finals = deliver_one(server.address, ["anna", "ben"], "hello")
        equal(finals, [not_stored("anna"), stored("ben")])
        equal(server.end().status, 0)
    equal([(folder / name).read_text() for name in ["anna.mbox", "anna.lock"]], ["", ""])
    equal((folder / "anna").exists(), False)  # its first letter would make it
    equal(letters.messages(folder / "ben"), [b"hello\n"])


@case
def a_file_that_cannot_be_opened_is_said_by_its_name(folder):
    """--mailbox-suffix: the line on a file that can't be opened, or whose folder isn't there, has the file's name; the
    log's line has the mailbox's"""
    for given, suffix in SUFFIXES:
        (folder / f"anna{suffix}").mkdir(exist_ok=True)
        for place, more in [(folder, []), (folder / "none", []), (folder / "none", ["--start-anyway"])]:
            with Server(place, ["anna"], 1, *given, *more, "--log", "error") as server:
                ended = server.end()
            equal((given, ended.status, ended.errors[-1]), (given, 1, f"lmtpd: cannot open anna{suffix}"))
            assert ended.errors[0].startswith("[ERROR lmtpd] cannot open mailbox=anna reason="), ended.errors


def names_in(folder):
    return {path.name for path in folder.iterdir()}
