"""Cases that run in a machine of their own, whose first process is systemd, with the package of `make deb` installed.

A case that is made `in_a_machine` is run there, as root, by a process of its own: what it starts (readers, relays,
clients) sees the processes, files and sockets that the service sees. It is given a folder there.
"""

import contextlib
import functools
import importlib
import os
import pathlib
import shutil
import signal
import sys
import tempfile

from cases import Absent, equal
from debian import FOLDERS, ROOT, site_with_package
from machine import PATH, Machine
from packages import program

INSIDE = "LMTPD_IN_A_MACHINE"
PROGRAM = "/usr/sbin/lmtpd"
ABSENT = 77
MADE_WITHIN = 600  # seconds
JOURNAL = "/run/systemd/journald.conf.d"
BEFORE = [
    # the journal has room for each line that a case looks for; how many may come in a second the unit says
    f"mkdir -p {JOURNAL}; printf '[Journal]\\nRuntimeMaxUse=1G\\n' > {JOURNAL}/room.conf",
    "systemctl restart systemd-journald",
    # users run scripts of these folders, and Python, where that is in root's home too
    "chmod 711 /root",
    "dpkg -i lmtpd_*_amd64.deb",
]
# The server of plain_server.py in the program's place.
PLAIN = [f"cp tests/real/plain_server.py {PROGRAM}"] if os.environ.get("PLAIN_SERVER") else []


@functools.lru_cache(None)
def package():
    """A folder with the package, which is made once for all cases."""
    FOLDERS.append(tempfile.TemporaryDirectory())
    return site_with_package(pathlib.Path(FOLDERS[-1].name))


@contextlib.contextmanager
def installed(folder):
    """A machine where the package was installed, and nothing was started; that isn't of the seconds that a case has."""
    left = signal.alarm(MADE_WITHIN)
    program("postfix", "postfix")
    site = folder / "site"
    shutil.copytree(package(), site)
    for name in ["tests", "docs"]:
        shutil.copytree(ROOT / name, site / name)
    with Machine(folder, site) as there:
        for line in [*BEFORE, *PLAIN]:
            status, said = there.run(line, MADE_WITHIN)
            equal((line, status, said if status else ""), (line, 0, ""))
        signal.alarm(left)
        yield there


def in_a_machine(*needs):
    """What makes a case one of these; it needs programs of packages, which are installed here before, since the machine
    has no network."""

    def make(function):
        if INSIDE in os.environ:
            return function

        @functools.wraps(function)
        def run_there(folder):
            for needed in needs:
                program(*needed)
            with installed(folder) as there:
                run_in(there, function, folder / "fault")

        return run_there

    return make


def run_in(there, function, fault):
    """Runs the case there; it fails as it did there."""
    module = pathlib.Path(function.__code__.co_filename).stem
    words = [sys.executable, "-B", "tests/real/in_a_machine.py", module, function.__name__]
    with fault.open("w+b") as errors:
        ended = there.begin(words, stderr=errors, env=environment()).wait()
        errors.seek(0)
        text = errors.read().decode(errors="replace").strip()
    if ended == ABSENT:
        raise Absent(text)
    if ended != 0:
        raise AssertionError(text[-1500:])


def environment():
    """What a case there finds: what it finds here, but for the places of this machine."""
    site = pathlib.Path("/root/site/tests")
    given = {name: value for name, value in os.environ.items() if name != "TMPDIR"}
    paths = [str(site), str(site / "serve")]
    return given | {"PATH": PATH, "HOME": "/root", "LMTPD": PROGRAM, "PYTHONPATH": ":".join(paths), INSIDE: "yes"}


def run_here(module, name):
    """Runs the case, in the machine that was made for it."""
    place = pathlib.Path("/tmp/case")
    place.mkdir()
    try:
        getattr(importlib.import_module(module), name)(place)
    except Absent as absent:
        print(absent, file=sys.stderr)
        return ABSENT
    return 0


if __name__ == "__main__":
    sys.exit(run_here(*sys.argv[1:]))
