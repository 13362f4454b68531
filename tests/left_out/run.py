"""Plays the gate over made-up scripts, for tests/left_out.sh."""

import os
import pathlib
import re
import shutil
import subprocess
import sys
import time

from cases import case, equal, run_all

LISTED = """# a comment
cc | apt | it compiles
strace | apt | it looks
root | user | it may do all
time | always | machines differ
without a reason | always |
some | day | no such kind
"""
HOLDS = "echo 'ok: all'"
LEAVES_OUT = "echo 'absent: {0} ({1})'; exit 77"


def gate(folder, scripts, **given):
    """The status of a gate over these scripts, by their names, and its lines; the environment has what is given."""
    tests, program = folder / "tests", folder / "crates/lmtpd/out/lmtpd"
    for path in [tests, program.parent]:
        path.mkdir(parents=True)
    for name in ["gate.sh", "counts"]:
        shutil.copy(f"tests/{name}", tests)
    (tests / "may_be_absent").write_text(LISTED)
    for path, text in [(program, HOLDS), *((tests / f"{name}.sh", text) for name, text in scripts.items())]:
        path.write_text(f"#!/bin/sh\n{text}\n")
        path.chmod(0o755)
    environment = {name: value for name, value in os.environ.items() if name not in ("CI", "NOT_INSTALLED")}
    ran = subprocess.run(
        [tests / "gate.sh", "--scripts"], env=environment | given, capture_output=True, text=True, timeout=30
    )
    shutil.rmtree(tests.parent / "crates")
    shutil.rmtree(tests)
    return ran.returncode, ran.stdout.splitlines()


def ends(folder, scripts, **given):
    """The status of that gate, and its two last lines."""
    status, lines = gate(folder, scripts, **given)
    return status, lines[-2:]


@case
def nothing_is_left_out(folder):
    """a gate in which nothing is left out says so, and counts its scripts"""
    equal(ends(folder, {"a": HOLDS, "b": HOLDS}), (0, ["0 left out", "2 passed, 0 failed"]))
    equal(ends(folder, {"a": HOLDS, "b": "exit 1"}, CI="true"), (1, ["0 left out", "1 passed, 1 failed"]))


@case
def what_is_left_out_is_counted(folder):
    """what is left out is counted by what is lacking, and its script isn't passed; also where it says nothing of it, or
    ends as if all of it had held"""
    some = f"{HOLDS}; echo 'absent: one (there) (cc)'; echo 'absent: two (cc)'; {LEAVES_OUT.format('three', 'strace')}"
    said = "5 left out: 2 for want of cc; 1 for want of cc and strace; 1 for want of strace; 1 for want of time"
    scripts = {
        "a": some,
        "b": HOLDS,
        "c": LEAVES_OUT.format("all", "cc, strace"),
        "d": "echo 'absent: some (time)'",
    }
    equal(ends(folder, scripts), (0, [said, "1 passed, 0 failed"]))
    said = "1 left out: 1 for want of what it does not say"
    equal(ends(folder, {"a": "exit 77"}), (0, [said, "0 passed, 0 failed"]))
    equal(ends(folder, {"a": "exit 77"}, CI="true"), (1, [said, "0 passed, 1 failed"]))


@case
def unlisted_absences_fail(folder):
    """with CI=true each absence fails that isn't listed: of one thing, of two of which one is listed, without a reason,
    with a reason that is no kind of reason, part of a listed name, and a pattern"""
    for lacking in ["swaks", "time, swaks", "without a reason", "some", "tim", "ti*", "*", "# a comment", ""]:
        text = LEAVES_OUT.format("one", lacking)
        status, lines = gate(folder, {"a": text}, CI="true", NOT_INSTALLED="cc strace")
        equal((lacking, status, lines[-1]), (lacking, 1, "0 passed, 1 failed"))
        (told,) = [line for line in lines if line.startswith("FAILED: tests/a.sh left something out for want of ")]
        equal(told.endswith(", which tests/may_be_absent doesn't take here"), True)
        equal(ends(folder, {"a": text}, CI="false")[0], 0)
    both = f"echo 'absent: one (swaks)'; {LEAVES_OUT.format('two', 'swaks')}"
    equal(ends(folder, {"a": both, "b": HOLDS}, CI="true")[1][1], "1 passed, 2 failed")


@case
def listed_absences_do_not(folder):
    """with CI=true an absence that is listed doesn't fail; one that apt's silence excuses, only where the program
    couldn't be installed; one that is a user's, only where it isn't root"""
    is_root = os.geteuid() == 0
    for lacking, left, is_taken in [
        ("time", "", True),
        ("strace", "", False),
        ("strace", "cc", False),
        ("strace", "straces", False),
        ("strace", "strace", True),
        ("cc, strace", "cc", False),
        ("cc, strace", "cc swaks strace", True),
        ("swaks", "swaks", False),
        ("root", "", not is_root),
    ]:
        text = LEAVES_OUT.format("one", lacking)
        status, told = ends(folder, {"a": text, "b": HOLDS}, CI="true", NOT_INSTALLED=left)
        equal((lacking, left, status, told[1]), (lacking, left, 1 - is_taken, f"1 passed, {1 - is_taken} failed"))


@case
def a_script_lacks_a_program(folder):
    """a script that names what it needs leaves all of itself out where some of that is missing, and says what"""
    script = folder / "one.sh"
    script.write_text(f". {os.getcwd()}/tests/needs sh no-such-program sed neither-this\necho goes on\n")
    ran = subprocess.run(["bash", script], capture_output=True, text=True, timeout=30)
    equal((ran.returncode, ran.stdout), (77, "absent: one.sh (no-such-program, neither-this)\n"))
    script.write_text(f". {os.getcwd()}/tests/needs sh sed\necho goes on\n")
    equal(subprocess.check_output(["bash", script], text=True, timeout=30), "goes on\n")


@case
def a_test_lacks_something(folder):
    """a test in Python in which a case is left out ends with 77, and with 1 where one fails too"""
    for told, status, last in [
        ("tell('a')", 0, "1 of 1 cases hold, 0 fail, 0 left out"),
        ("tell('a'); tell('b (c)', 'absent', 'cc')", 77, "1 of 2 cases hold, 0 fail, 1 left out"),
        ("tell('a', 'FAILED'); tell('b', 'absent', 'cc')", 1, "0 of 2 cases hold, 1 fail, 1 left out"),
    ]:
        words = [sys.executable, "-B", "-c", f"from cases import *\n{told}\nraise SystemExit(sum_up())"]
        ran = subprocess.run(words, capture_output=True, text=True, timeout=30)
        equal((ran.returncode, ran.stdout.splitlines()[-1]), (status, last))
    equal("absent: b (c) (cc)" in ran.stdout, False)


# What the made-up apt-get does when it is asked to install: its packages' names are those of its programs.
APT = """#!/bin/sh
echo "$*" >> {folder}/asked
{folder}/policy; echo "$?" >> {folder}/asked
for word in "$@"; do shift; [ "$word" != {verb} ] || break; done
{does}
"""
BRINGS = 'for word in "$@"; do [ ! -e {folder}/has/$word ] || ln -sf /bin/true {folder}/bin/$word; done'


def installed(folder, does, seconds="20", script="install"):
    """What .ci/install says is missing in the end, of `one`, `two` and `sh`, its errors, and how long it took."""
    site, tools = folder / "site", folder / "bin"
    for path in [site / ".ci", site / "tests", tools, folder / "has"]:
        path.mkdir(parents=True, exist_ok=True)
    (folder / "has/one").touch()
    for name in ["install", "run"]:
        shutil.copy(f".ci/{name}", site / ".ci")
    (site / "tests/packages").write_text("# a comment\none: one\ntwo: two\nsh: dash\n")
    apt = APT.format(folder=folder, verb="install", does=does.format(folder=folder))
    for name, text in [("apt-get", apt), ("make", '#!/bin/sh\necho "$1, CI=$CI, not installed: $NOT_INSTALLED"\n')]:
        (tools / name).write_text(text)
        (tools / name).chmod(0o755)
    began = time.monotonic()
    given = {"PATH": f"{tools}:{os.environ['PATH']}", "INSTALL_SECONDS": seconds, "SERVICE_POLICY": f"{folder}/policy"}
    ran = subprocess.run(
        [site / f".ci/{script}"], env=os.environ | given, capture_output=True, text=True, timeout=60
    )
    equal((ran.returncode, (folder / "policy").exists()), (0, False))
    return ran.stdout, ran.stderr, time.monotonic() - began


@case
def what_ci_installs(folder):
    """what CI lacks is installed: a package that isn't there, an apt-get that fails and one that never ends leave
    programs missing, which is said, and nothing stops; no service may start meanwhile; where nothing is missing, or
    there is no time, nothing is asked for"""
    if os.geteuid() != 0:
        equal(installed(folder, BRINGS)[0], "one two\n")
        return
    for does in ["exit 100", "sleep 60"]:
        said, errors, took = installed(folder, does, "2")
        equal((does, said, took < 40), (does, "one two\n", True))
        assert "not installed: one two" in errors and "ended with status" in errors, errors
    equal(installed(folder, "exit 1", "0")[0], "one two\n")
    said, errors, _ = installed(folder, BRINGS)
    equal(said, "two\n")
    assert "installed: one\n" in errors and "not installed: two\n" in errors, errors
    equal(set((folder / "asked").read_text().splitlines()[1::2]), {"101"})
    (folder / "has/two").touch()
    equal(installed(folder, BRINGS)[0], "\n")
    (folder / "asked").unlink()
    equal((installed(folder, BRINGS)[:2], (folder / "asked").exists()), (("\n", ""), False))


what_ci_installs.seconds = 120


@case
def what_ci_runs(folder):
    """CI runs the gate with CI=true, also where nothing can be installed, and tells it what is missing"""
    for does, left in [("exit 100", "one two"), (BRINGS, "two" if os.geteuid() == 0 else "one two")]:
        equal(installed(folder, does, script="run")[0], f"test, CI=true, not installed: {left}\n")


@case
def the_list_itself(folder):
    """each line of tests/may_be_absent has a name, a kind and a reason; what apt's silence excuses CI installs"""
    rows = [line.split("|") for line in pathlib.Path("tests/may_be_absent").read_text().splitlines() if line[:1] != "#"]
    equal([row for row in rows if len(row) != 3 or not all(part.strip() for part in row)], [])
    equal({row[1] for row in rows} - {" apt ", " user ", " always "}, set())
    packages = re.findall("^([a-z0-9-]+): [a-z]", pathlib.Path("tests/packages").read_text(), re.MULTILINE)
    equal({name.strip() for name, when, _ in rows if when == " apt "} - set(packages), set())
    equal([name for name, *_ in rows if re.search(r"[*?\[]", name)], [])


sys.exit(run_all(sys.argv[1:]))
