"""A mailbox of the installed service over its quota: a user deletes letters from it, or its senders hear of it."""

from beside import Beside
from cases import case, equal
from clients import Client, deliver_one
from in_a_machine import in_a_machine
from mutt import Mutt
from pages import lines_of, type_lines
from readers_delete import FORMAIL, MUTT, ByFormail
from replies import over_quota, stored
from server import run
from service import Service
from with_postfix import SITE, lines_in, send, subjects, wait_for

QUOTA = 10_000
LINES = ["x" * 70] * 10
STORED, OVER = stored("anna"), over_quota("anna")


@case
@in_a_machine(*MUTT, *FORMAIL)
def room_again(folder):
    """a quota that was reached: as many letters are taken again as fit once mutt, and then a script with formail,
    deleted some, with no restart"""
    beside = Beside(folder, "--quota", QUOTA)
    mutt = Mutt(beside.home, beside.how)
    formail = ByFormail(beside, "formail")
    refused = kept = number = 0
    with beside.service(1) as service, Client(service.address).greet() as client:
        for delete in [None, "mutt", "formail", None]:
            if delete == "mutt":
                equal(mutt.delete(beside.path, "~s 0-[0-3]$").count(b"\nSubject: "), 4)
            if delete == "formail":
                there = beside.path.read_bytes().count(b"\nSubject: ")
                equal(len(formail("formail")), there)
            fitting = 0
            while True:
                before, number = size_of(beside.path), number + 1
                lines = [f"Subject: for-formail 0-{number - 1}", "", *LINES]
                [final] = client.deliver(["anna"], *lines)[1]
                if final != STORED:
                    break
                fitting, length = fitting + 1, size_of(beside.path) - before
            equal((final, before <= QUOTA < before + length), (OVER, True))
            equal((delete, fitting > 0), (delete, delete is not None or kept == 0))
            kept, refused = kept + fitting, refused + 1
        client.quit()
        said, errors = [f"anna stored {kept}"], [f"lmtpd: anna over quota {refused}"]
        equal(vars(service.end()), {"status": 0, "said": said, "errors": errors})
    equal(run(["check", beside.path]).status, 0)


@case
@in_a_machine()
def its_senders_hear_of_it(_folder):
    """the installed service behind Postfix, its quota by the typed lines of docs/operating/MAILBOXES.md: a letter over
    it waits in the queue; with --over-quota reject it goes back to its sender at once, and a shorter one is stored"""
    text = f"{'x' * 70}\n" * 200
    with Service(["anna", "ben"]) as service:
        type_lines(lines_of("MAILBOXES.md", "## Quota").replace("1000000000", "20000"))
        type_lines(SITE)
        send("anna@mx.example", subject="before", text=text)
        equal(subjects(service, "anna", 1), ["before"])
        send("anna@mx.example", subject="put off", text=text)
        wait_for(r"to=<anna@mx\.example>.* status=deferred .*452 4\.2\.2 Over quota for anna")
        type_lines("postsuper -d ALL deferred")
        type_lines("sed -i 's/^OPTIONS=.*/& --over-quota reject/' /etc/lmtpd.conf; systemctl reload lmtpd")
        send("anna@mx.example", subject="for good", text=text, sender="ben@mx.example")
        wait_for(r"to=<anna@mx\.example>.* status=bounced .*552 5\.2\.2 Over quota for anna")
        equal(subjects(service, "ben", 1)[0], "Undelivered Mail Returned to Sender")
        assert any("552 5.2.2 Over quota for anna" in line for line in lines_in(service, "ben"))
        send("anna@mx.example", subject="short")
        equal(subjects(service, "anna", 2), ["before", "short"])
        codes = [line.partition(" code=")[2][:3] for line in service.lines() if " outcome=over-quota " in line]
        equal(codes, ["452", "552"])


@case
@in_a_machine()
def a_quota_of_her_own(_folder):
    """a quota for all, and one of her own for anna, by the typed lines of docs/operating/MAILBOXES.md: what is over the
    one for all is stored for her alone"""
    letter = ["Subject: large", "", *["x" * 70] * 200]
    with Service(["anna", "ben"]) as service:
        service.set("BOXES", "/etc/lmtpd.boxes")
        type_lines(lines_of("MAILBOXES.md", "## Quota").replace("1000000000", "20000"))
        type_lines(lines_of("MAILBOXES.md", "## Quota", 2))
        for both in [[stored("anna"), stored("ben")], [stored("anna"), over_quota("ben")]]:
            equal(deliver_one(service.address, ["anna", "ben"], *letter), both)


for one in [room_again, its_senders_hear_of_it, a_quota_of_her_own]:
    one.seconds = 180


def size_of(path):
    """The server makes it with its first letter."""
    return path.stat().st_size if path.exists() else 0
