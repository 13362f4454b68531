"""The resource agent for Pacemaker (packaging/lmtpd.agent), for tests/packaging.sh, with programs of this test in the
place of systemd's, Pacemaker's, DRBD's and findmnt."""

import os
import pathlib
import subprocess
import sys
import xml.etree.ElementTree as xml

from cases import case, equal, run_all

AGENT = pathlib.Path("packaging/lmtpd.agent").resolve()
# By OCF's own list (resource agent API 1.0).
SUCCESS, GENERIC, UNIMPLEMENTED, INSTALLED, CONFIGURED, NOT_RUNNING = 0, 1, 3, 5, 6, 7
# Units that run are files of `units`; each call is a line of `calls`, a start with the lock files that it finds.
PROGRAMS = {
    "systemctl": """
        verb=$1; shift
        echo "$verb $*$([ "$verb" = start ] && find $SITE/mail -type f -name '*.lock')" >> $SITE/calls
        case $verb in
        is-active) cat $SITE/units/$1 2> /dev/null || echo inactive ;;
        start) [ -z "$FAILS" ] && for unit; do echo active > $SITE/units/$unit; done ;;
        stop) for unit; do rm -f $SITE/units/$unit; done ;;
        esac""",
    "crm_attribute": """
        [ "$*" = "--type crm_config --name stonith-enabled --query --quiet --default true" ] && echo $STONITH""",
    # as drbd-utils 9.22 prints what it would do
    "drbdadm": """
        case $* in
        '--dry-run up r0')
            echo 'drbdsetup new-resource r0 0'
            echo "drbdsetup new-peer r0 1 --_name=two${FENCING:+ --fencing=$FENCING} --protocol=C"
            echo 'drbdsetup attach 0 /dev/sda1 /dev/sda1 internal' ;;
        'sh-dev r0') echo $SITE/drbd0 ;;
        *) echo "'r1' not defined in your config (for this host)." >&2; exit 1 ;;
        esac""",
    "findmnt": """[ "$*" = "-n -o SOURCE --target $SITE/mail" ] && echo $SITE/$MOUNTED""",
}
FENCED = {"STONITH": "true", "FENCING": "resource-and-stonith", "MOUNTED": "drbd0", "FAILS": ""}
UNITS = ["lmtpd.socket", "lmtpd.service"]


class Site:
    """A folder of mailboxes with lock files that were left, and the programs."""

    def __init__(self, folder):
        self.folder, self.mail = folder, folder / "mail"
        for name in ["bin", "units", "mail/below"]:
            (folder / name).mkdir(parents=True)
        for name, text in PROGRAMS.items():
            self.put(f"bin/{name}", f"#!/bin/sh\n{text}\n").chmod(0o755)
        self.put("drbd0", "")
        self.leave_locks()
        self.given = {"drbd_resource": "r0", "folder": str(self.mail)}

    def put(self, name, text):
        (self.folder / name).write_text(text)
        return self.folder / name

    def leave_locks(self):
        for name in ["anna.mbox", "anna.mbox.lock", "anna.mbox.source.lock", "below/.lock", "locks", "a.lock.mbox"]:
            self.put(f"mail/{name}", "text")
        (self.mail / "folder.lock").mkdir(exist_ok=True)

    def files(self):
        return sorted(str(it.relative_to(self.mail)) for it in self.mail.rglob("*"))

    def locks(self):
        return [it for it in self.files() if it.endswith(".lock") and (self.mail / it).is_file()]

    def act(self, action, **changed):
        """The agent's status and the reason that it gives."""
        words = {f"OCF_RESKEY_{name}": text for name, text in self.given.items() if text is not None}
        path = f"{self.folder}/bin:{os.environ['PATH']}"
        given = {"PATH": path, "SITE": str(self.folder), **FENCED, **words, **changed}
        said = subprocess.run(["sh", AGENT, action], env=given, capture_output=True, text=True, timeout=20)
        return said.returncode, said.stderr.removeprefix("ocf-exit-reason:").strip()

    def calls(self, *verbs):
        """What systemctl was told with these verbs, since this was asked."""
        found = (self.folder / "calls").read_text().splitlines() if (self.folder / "calls").exists() else []
        self.put("calls", "")
        return [it for it in found if it.split()[0] in verbs]


@case
def what_the_agent_says_of_itself(_folder):
    """the resource agent's meta-data: the actions and parameters that Pacemaker reads, and none else"""
    said = subprocess.run(["sh", AGENT, "meta-data"], capture_output=True, text=True, check=True).stdout
    root = xml.fromstring(said)
    actions = [it.get("name") for it in root.iter("action")]
    equal(sorted(actions), ["meta-data", "monitor", "start", "stop", "validate-all"])
    found = root.iter("parameter")
    parameters = {it.get("name"): (it.get("required"), it.find("content").get("default")) for it in found}
    units = "lmtpd.socket lmtpd.service"
    equal(parameters, {"drbd_resource": ("1", None), "folder": ("0", "/var/mail/lmtpd"), "units": ("0", units)})


@case
def a_takeover_with_a_fence(folder):
    """the resource agent on a pair that is fenced: it removes the lock files that were left, and nothing else, before
    it starts the units; started again it removes none; stopped twice"""
    site = Site(folder)
    kept = sorted(set(site.files()) - set(site.locks()))
    equal(site.act("monitor"), (NOT_RUNNING, ""))
    equal(site.act("validate-all"), (SUCCESS, ""))
    equal((site.act("start"), site.locks()), ((SUCCESS, ""), []))
    equal(site.calls("start", "stop"), [f"start {' '.join(UNITS)}"])
    equal(site.files(), kept)
    equal(site.act("monitor"), (SUCCESS, ""))
    site.leave_locks()
    there = site.locks()
    equal((site.act("start"), site.locks(), site.calls("start", "stop")), ((SUCCESS, ""), there, []))
    equal([site.act("stop"), site.act("stop"), site.act("monitor")], [(SUCCESS, ""), (SUCCESS, ""), (NOT_RUNNING, "")])


@case
def a_takeover_without_a_fence(folder):
    """the resource agent where two hosts may believe that they are first, where the device isn't mounted, and where a
    program or a parameter lacks: its start says so, starts nothing, and leaves each lock file"""
    site = Site(folder)
    there = site.locks()
    stonith, fencing = "stonith-enabled is not true", "fencing of r0 is {}, not resource-and-stonith"
    for changed, expected in [
        ({"STONITH": "false"}, (CONFIGURED, stonith)),
        ({"STONITH": "off"}, (CONFIGURED, stonith)),
        ({"STONITH": ""}, (CONFIGURED, stonith)),
        ({"FENCING": ""}, (CONFIGURED, fencing.format("not set"))),
        ({"FENCING": "dont-care"}, (CONFIGURED, fencing.format("dont-care"))),
        ({"FENCING": "resource-only"}, (CONFIGURED, fencing.format("resource-only"))),
        ({"OCF_RESKEY_drbd_resource": ""}, (CONFIGURED, "drbd_resource is not set")),
        ({"MOUNTED": "sda1"}, (GENERIC, f"{site.mail} is not on the device of r0, which is to be mounted before")),
    ]:
        equal((changed, site.act("start", **changed)), (changed, expected))
        if expected[0] == CONFIGURED:
            equal((changed, site.act("validate-all", **changed)), (changed, expected))
    status, why = site.act("start", OCF_RESKEY_drbd_resource="r1")
    equal((status, why.splitlines()[-1]), (CONFIGURED, "ocf-exit-reason:drbdadm knows no resource r1"))
    (folder / "bin/drbdadm").unlink()
    equal(site.act("start", PATH=f"{folder}/bin:/usr/bin:/bin"), (INSTALLED, "drbdadm is not installed"))
    equal((site.locks(), site.calls("start", "stop")), (there, []))


@case
def units_that_do_not_all_run(folder):
    """the resource agent with several units of which some run, or whose start fails, and with an action that there
    isn't"""
    site = Site(folder)
    units = ["lmtpd@a.socket", "lmtpd@b.socket", "lmtpd@a", "lmtpd@b"]
    site.given |= {"units": " ".join(units)}
    equal(site.act("start"), (SUCCESS, ""))
    equal(site.calls("start", "stop"), [f"start {' '.join(units)}"])
    for state, expected in [
        ("activating", (SUCCESS, "")),
        ("failed", (GENERIC, "3 of 4 units run")),
        ("inactive", (GENERIC, "3 of 4 units run")),
    ]:
        site.put("units/lmtpd@b", f"{state}\n")
        equal((state, site.act("monitor")), (state, expected))
    site.leave_locks()
    equal((site.act("start"), site.locks()), ((SUCCESS, ""), []))
    equal(site.calls("start", "stop"), [f"stop {' '.join(units)}", f"start {' '.join(units)}"])
    equal(site.act("stop"), (SUCCESS, ""))
    equal(site.act("start", FAILS="yes"), (GENERIC, "the units do not start"))
    equal(site.act("promote")[0], UNIMPLEMENTED)


sys.exit(run_all(sys.argv[1:]))
