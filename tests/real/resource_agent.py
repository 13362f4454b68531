"""The resource agent of the package, by Pacemaker's and DRBD's own programs, with no cluster and no device."""

import os
import pathlib
import subprocess

from cases import case, equal
from clients import deliver_one
from hosts import blocks
from in_a_machine import in_a_machine
from replies import stored
from service import FOLDER

AGENT = "/usr/lib/ocf/resource.d/sentzopar/lmtpd"
SOCKET = "/var/spool/postfix/private/lmtpd"
# By OCF's own list (resource agent API 1.0).
SUCCESS, CONFIGURED, NOT_RUNNING = 0, 6, 7
NEEDS = [
    ("ocf-tester", "resource-agents"),
    ("xmllint", "libxml2-utils"),
    ("crm", "crmsh"),
    ("crm_attribute", "pacemaker-cli-utils"),
    ("drbdadm", "drbd-utils"),
]
DRBD = """
resource mail {{
    device /dev/drbd0;
    disk /dev/vg/mail;
    meta-disk internal;
    net {{ protocol C; {fencing} }}
    on {host} {{ address 127.0.0.1:7789; }}
    on other {{ address 192.0.2.22:7789; }}
}}
"""
FENCED = "fencing resource-and-stonith;"
# A DRBD device that is mounted; the file system is another one.
MOUNT = f"mount -t tmpfs -o mode=700,uid=lmtpd,gid=lmtpd /dev/drbd0 {FOLDER}"


def act(*words, **more):
    """The status of the agent, or of what tries it, and what is said; the cluster's configuration is a file."""
    given = {"CIB_file": "/tmp/case/cib.xml", "OCF_ROOT": "/usr/lib/ocf", "OCF_RESKEY_drbd_resource": "mail"}
    ends = {"stdout": subprocess.PIPE, "stderr": subprocess.STDOUT, "text": True}
    said = subprocess.run(words, env=os.environ | given, **ends, **more)
    return said.returncode, said.stdout


def told(*words, **more):
    status, said = act(*words, **more)
    equal((words, status, said if status else ""), (words, 0, ""))
    return said


def describe(fencing):
    pathlib.Path("/etc/drbd.d/mail.res").write_text(DRBD.format(fencing=fencing, host=os.uname().nodename))


def leave_locks():
    """As a host leaves them that went away in its turns; and mailboxes."""
    for name in ["anna", "ben"]:
        for kind in ["lock", "source.lock"]:
            (FOLDER / f"{name}.mbox.{kind}").write_text("4711:other")


def locks():
    return sorted(it.name for it in FOLDER.glob("*.lock"))


@case
@in_a_machine(*NEEDS)
def resource_agent(folder):
    """the resource agent with Pacemaker's, DRBD's and systemd's own programs, by the typed lines of 'A pair': without a
    fence its start is refused, and each lock file stays; with one it removes those that the other host left, and the
    next letter is stored at once; ocf-tester finds no fault in it"""
    (folder / "cib.xml").write_text(told("cibadmin", "--empty"))
    told("sh", "-ec", MOUNT)
    leave_locks()
    there = locks()
    # the site's fence, without which Pacemaker takes no such lines
    told("crm", "configure", "primitive", "fence", "stonith:null", "params", "hostlist=one two")
    told("sh", "-e", input=blocks("## A pair")[0])
    told("crm_verify", "--xml-file", f"{folder}/cib.xml")
    for stonith, fencing, why in [
        ("true", "", "fencing of mail is not set, not resource-and-stonith"),
        ("true", "fencing resource-only;", "fencing of mail is resource-only, not resource-and-stonith"),
        ("false", FENCED, "stonith-enabled is not true"),
    ]:
        describe(fencing)
        told("crm_attribute", "--type", "crm_config", "--name", "stonith-enabled", "--update", stonith)
        status, said = act(AGENT, "start")
        equal((status, said.splitlines()[-1]), (CONFIGURED, f"ocf-exit-reason:{why}"))
        equal(act(AGENT, "monitor")[0], NOT_RUNNING)
    equal(locks(), there)
    told("crm_attribute", "--type", "crm_config", "--name", "stonith-enabled", "--update", "true")
    equal(act(AGENT, "start")[0], SUCCESS)
    equal(locks(), [])
    equal(deliver_one(SOCKET, ["anna", "ben"], "hello"), [stored("anna"), stored("ben")])
    equal(act(AGENT, "stop")[0], SUCCESS)
    # without a value of its own the cluster fences
    told("crm_attribute", "--type", "crm_config", "--name", "stonith-enabled", "--delete")
    said = told("ocf-tester", "-n", "mail", "-o", "drbd_resource=mail", AGENT)
    equal(said.splitlines()[-1], f"{AGENT} passed all tests")
    told("umount", FOLDER)
    equal("is not on the device of mail" in act(AGENT, "start")[1], True)


resource_agent.seconds = 180
