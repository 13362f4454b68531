"""The service under systemd with a folder and mailboxes as a site and its users made them."""

import shlex
import time

from cases import case, equal
from debian import EDITED, LETTER, site_with_package
from machine import Machine
from packages import program
from replies import stored
from ten_lines import checked, machine, type_lines

FOLDER = "/var/mail/lmtpd"
WHOSE = f"stat -c '%n %U:%G %a' {FOLDER} {FOLDER}/anna.mbox"
AS_MADE = f"{FOLDER} root:mail 2775\n{FOLDER}/anna.mbox anna:mail 660\n"
# As Debian has /var/mail: the folder is of group mail, and so is the service's user.
MADE_BY_SITE = [
    "useradd --create-home anna && usermod --append --groups mail lmtpd",
    f"chown root:mail {FOLDER} && chmod 2775 {FOLDER}",
    f"install -o anna -g mail -m 660 /dev/null {FOLDER}/anna.mbox",
    "sed -i 's|^OPTIONS=.*|OPTIONS=--mailbox-mode 0660|' /etc/lmtpd.conf",
    f"{EDITED}; systemctl daemon-reload; systemctl enable --now lmtpd.socket",
]
# Deletes the first letter and leaves; its lock file is made by Debian's mutt_dotlock, which is of group mail.
MUTT = (
    "mutt -n -F /dev/null -e 'set delete=yes move=no quit=yes confirmappend=no' "
    f"-e 'push 1<enter><delete-message><sync-mailbox><exit>' -f {FOLDER}/anna.mbox"
)
# What a user does to ben's mailbox, and what has it in order again.
WAYS = [
    ("chmod 0 ben.mbox", "chmod 600 ben.mbox"),
    ("chown root: ben.mbox", "chown lmtpd: ben.mbox"),
    ("ln ben.mbox kept", "rm kept"),
    ("mv ben.mbox kept; ln -s kept ben.mbox", "mv kept ben.mbox"),
    ("mv ben.mbox kept; mkdir ben.mbox", "rmdir ben.mbox; mv kept ben.mbox"),
]


@case
def a_folder_stays_as_the_site_made_it(folder):
    """the package makes a folder of mailboxes that is missing; one that is root:mail, 2775, with anna's own file is so
    after an upgrade and a boot too, the service delivers there, and mutt as anna deletes"""
    program("mutt", "mutt")
    with Machine(folder, site_with_package(folder)) as there:
        equal(there.run("dpkg -i lmtpd_*_amd64.deb")[0], 0)
        equal(there.run(f"stat -c '%U:%G %a' {FOLDER}"), (0, "lmtpd:lmtpd 700\n"))
        types(there, MADE_BY_SITE)
        deliver(there, 1)
        equal(there.run(WHOSE), (0, AS_MADE))
        types(there, ["dpkg -i lmtpd_*_amd64.deb"])
        equal(there.run(WHOSE), (0, AS_MADE))
        types(there, ["systemd-tmpfiles --create --boot"])
        equal(there.run(WHOSE), (0, AS_MADE))
        deliver(there, 2)
        status, said = there.run(f"su anna -c {shlex.quote(f'TERM=xterm script -qec {shlex.quote(MUTT)} /dev/null')}")
        equal((status, there.run(f"lmtpd check {FOLDER}/anna.mbox")), (0, (0, checked(anna=1))))
        deliver(there, 2)
        equal(there.run(WHOSE), (0, AS_MADE))


a_folder_stays_as_the_site_made_it.seconds = 240


def types(there, lines):
    for line in lines:
        status, said = there.run(line)
        equal((line, status, said[-300:] if status else ""), (line, 0, ""))


def deliver(there, count):
    """A letter to anna, who has that many then."""
    status, said = there.run(f"bash -c {shlex.quote(LETTER)}")
    equal((status, f"{stored('anna')}\r\n" in said, said[-200:]), (0, True, said[-200:]))
    equal(there.run(f"lmtpd check {FOLDER}/anna.mbox"), (0, checked(anna=count)))


@case
def one_mailbox_holds_up_its_own_mail_alone(folder):
    """under systemd, with Postfix: a mailbox that can't be opened at a start, without right, another's, with a second
    link, a link or a folder in its place, has the others' mail come, and its own once it is in order, without a
    restart"""
    with machine(folder) as there:
        type_lines(there)
        # the server makes none before its first letter
        types(there, [f"install -o lmtpd -g lmtpd -m 600 /dev/null {FOLDER}/ben.mbox"])
        for number, (break_file, mend) in enumerate(WAYS):
            there.run(f"cd {FOLDER}; {break_file}; systemctl restart lmtpd")
            equal(there.run("printf 'Subject: two\n\nhello\n' | sendmail anna@mx.example ben@mx.example")[0], 0)
            # the letter of the ten lines is anna's
            wait_until(there, checked(anna=number + 2), f"lmtpd check {FOLDER}/anna.mbox")
            lines = "journalctl -u lmtpd --no-pager | grep -c 'mailbox in use mailbox=ben '"
            wait_until(there, f"{number + 1}\n", lines)
            process = there.run("systemctl show -p MainPID --value lmtpd")
            there.run(f"cd {FOLDER}; {mend}")
            wait_until(there, checked(ben=number + 1), f"postqueue -f; lmtpd check {FOLDER}/ben.mbox")
            equal(there.run("systemctl show -p MainPID --value lmtpd"), process)


one_mailbox_holds_up_its_own_mail_alone.seconds = 240


def wait_until(there, expected, line):
    until = time.monotonic() + 40
    while (said := there.run(line)[1]) != expected:
        assert time.monotonic() < until, (line, said, there.run("postqueue -p; systemctl status lmtpd --no-pager")[1])
        time.sleep(0.5)
