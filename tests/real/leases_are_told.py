"""What the unit of the installed service says of leases before each start."""

import pathlib

from cases import Absent, case, equal
from clients import deliver_one
from in_a_machine import in_a_machine
from replies import stored
from service import FOLDER, Service

SETTING = pathlib.Path("/proc/sys/fs/leases-enable")
# Modes of the folder, and whether a line comes at the next start.
MODES = {0o700: False, 0o3777: True, 0o2775: True, 0o755: False}


@case
@in_a_machine()
def leases_are_told(_folder):
    """systemd, leases are on: where the folder's mode lets others write the journal has a line at `err` before each
    start, and else none; the service starts, and sees nothing of that setting itself"""
    if SETTING.read_text().strip() == "0":
        raise Absent("leases (fs.leases-enable)")
    with Service(["anna"]) as service:
        equal(pathlib.Path("/proc", service.told("MainPID"), "root/proc/sys").exists(), False)
        expected = []
        for mode, is_told in MODES.items():
            FOLDER.chmod(mode)
            service.restart()
            equal(deliver_one(service.address, ["anna"], "hello"), [stored("anna")])
            line = f"leases are on and others may write the folder folder={FOLDER} mode={mode:o}"
            expected += [line] * is_told
            equal([said for said in service.lines("err") if "leases" in said], expected)
