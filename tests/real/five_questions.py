"""The five questions with which docs/operating/TROUBLE.md begins, asked of the service and Postfix under systemd."""

import re
import shlex
import time

from cases import case, equal
from clients import Client
from pages import lines_of
from replies import NO_SUCH_BOX, not_stored
from ten_lines import ROOT, machine, type_lines

HEADING = "## Five questions"
MAIL = "/var/mail/lmtpd"
SOCKET = "/var/spool/postfix/private/lmtpd"
SEND = "printf 'Subject: {}\\n\\nhello\\n' | sendmail -f carl@a.example anna@mx.example"
# Holds the bytes of anna's mailbox as mutt and Dovecot do, until there is a file /run/go.
HOLD = (
    "use Fcntl; open(my $f, '+<', 'anna.mbox') or die; my $lock = pack('s s x4 q q l x4', F_WRLCK, 0, 0, 0, 0); "
    "fcntl($f, F_SETLK, $lock) or die; sleep 1 until -e '/run/go';"
)
LANES = 4
# As many clients as there are lanes, and two more, until there is a file /run/free.
CONNECT = (
    f"use IO::Socket::UNIX; my @held = map {{ IO::Socket::UNIX->new(Peer => '{SOCKET}') or die }} 1 .. {LANES + 2}; "
    "sleep 1 until -e '/run/free';"
)


@case
def five_questions(folder):
    """the commands of docs/operating/TROUBLE.md that answer its five questions, typed as they stand, under systemd"""
    with machine(folder) as there:
        type_lines(there)
        it_arrived(there)
        it_was_refused(there)
        lanes_are_held(there)
        mailbox_is_held(there)
        addresses_are_shown(there)


five_questions.seconds = 240


def commands(question):
    """The commands of a question's row, in their order."""
    rows = (ROOT / "docs/operating/TROUBLE.md").read_text().split(HEADING)[1].split("\n## ")[0].splitlines()
    (row,) = [row for row in rows if row.startswith(f"| {question} |")]
    names = ("journalctl ", "grep ", "mailq", "ss ", "ls ", "cat ", "lslocks ")
    # a table has its bars escaped
    texts = [text.replace(r"\|", "|") for text in re.findall(r"`([^`]*)`", row)]
    return [text for text in texts if text.startswith(names)]


def said(there, command):
    """What a command says in the mailboxes' folder, once the journal has all lines."""
    status, text = there.run(f"journalctl --sync; cd {MAIL} && {command}")
    equal((command, status, text if status else ""), (command, 0, ""))
    return text


def it_arrived(there):
    """The letter of the ten lines, in the server's log, in the mailbox, and by its Message-ID in both logs."""
    logged, found, in_both = commands("Did it arrive?")
    (line,) = [line for line in said(there, logged).splitlines() if "copy answered" in line]
    number = re.search(r" id=\d{16}-(\d+-\d+) mailbox=anna outcome=stored code=250 bytes=\d+ ", line)[1]
    assert re.fullmatch(rf"\d+:\s+by mx\.example with LMTP id {number};\n", said(there, found.replace("2-17", number)))
    name = re.search(r" message-id=(<\S+>)$", line)[1]
    lines = said(there, re.sub("<.*>", lambda _: re.escape(name), in_both)).splitlines()
    assert any("postfix/cleanup" in line for line in lines) and any("copy answered" in line for line in lines), lines


def it_was_refused(there):
    with client(there) as one:
        equal(one.ask("MAIL FROM:<carl@a.example>")[:3], "250")
        equal(one.ask("RCPT TO:<nobody@mx.example>"), NO_SUCH_BOX)
        one.quit()
    time.sleep(2)  # the conversation's line comes once the connection is closed
    (line,) = [line for line in said(there, commands("Why was it refused?")[0]).splitlines() if "refused" in line]
    lane = re.search(r"command refused lane=(\d) verb=RCPT code=550 reason=mailbox$", line)[1]
    ends = said(there, f"journalctl -u lmtpd -g 'conversation ended lane={lane} '")
    assert " client=unix cause=quit " in ends, ends


def lanes_are_held(there):
    """As many clients as there are lanes hold them, and two more wait."""
    held, waiting, over_tcp = commands("Who holds a lane?")
    begin(there, CONNECT)
    wait_for(there, f"{waiting} | cut -c1-20", "^u_str LISTEN 2 ")
    lines = said(there, held).splitlines()
    equal((len(lines), all('users:(("' in line for line in lines)), (LANES, True))
    equal(said(there, over_tcp), "")
    said(there, "touch /run/free")


def mailbox_is_held(there):
    """Another program has its bytes locked for as long as a letter is late; then it comes."""
    whose, text, locks = commands("Who holds a mailbox?")
    begin(there, HOLD)
    wait_for(there, locks, r"^ *\d+ perl +WRITE +/var/mail/lmtpd/anna\.mbox$")
    said(there, SEND.format("late"))
    queue, faults = commands("Why is it late?")
    wait_for(there, queue, re.escape(not_stored("anna")))
    assert re.search(r" mailbox in use mailbox=anna reason=\S", said(there, faults)), said(there, faults)
    said(there, "touch /run/go")
    wait_for(there, "postqueue -f; grep ^Subject: anna.mbox || true", "^Subject: late$")
    assert "mailbox free again mailbox=anna" in said(there, faults)
    said(there, "dotlock=anna.mbox; mutt_dotlock $dotlock 2> /dev/null || touch $dotlock.lock")
    assert re.search(r" root .* anna\.mbox\.lock$", said(there, whose))
    equal(said(there, text), "")
    said(there, "rm anna.mbox.lock")


def addresses_are_shown(there):
    """With the word that LOG.md has the service take."""
    said(there, lines_of("LOG.md", "### Addresses"))
    said(there, SEND.format("named"))
    named = commands("Why was it refused?")[1]
    wait_for(there, f"{named} || true", r" code=250 .* sender=<carl@a\.example> recipient=<anna@mx\.example>$")


def begin(there, program):
    """Begins a program of Perl in the mailboxes' folder, which goes on by itself."""
    there.run(f"cd {MAIL}; perl -e {shlex.quote(program)} > /run/begun 2>&1 &")


def wait_for(there, command, pattern):
    until = time.monotonic() + 40
    while not re.search(pattern, said(there, command), re.MULTILINE):
        assert time.monotonic() < until, (command, said(there, command)[-400:])
        time.sleep(0.5)


def client(there):
    return Client(f"/proc/{there.first()}/root{SOCKET}").greet()
