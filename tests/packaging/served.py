"""What a reload goes back to where the new server can't begin, for run.py: the script, with a program in the server's
place."""

import os
import pathlib
import subprocess

# What stands for the server: it says its words, and the list where one is named, and ends as STATUS says, at once; with
# no STATUS it goes on for SECONDS. Words of before have --old among them.
SERVER = """#!/bin/sh
for word; do
    case $word in --old) STATUS=${OLD_STATUS-} ;; */list) cat "$word" ;; esac
done
printf '%s\\n' "$0" "$@"
echo "passed ${LISTEN_PID-none} $$ ${NOTIFY_SOCKET-unset}"
[ -n "$STATUS" ] || exec sleep "$SECONDS"
exit "$STATUS"
"""
NOTIFY = """#!/bin/sh
echo "notify $$" "$@"
"""
GOES_BACK = "<3>the server can't begin with the new words, and goes on with those before status="


class Site:
    """The script as it is installed in a folder of its own, and the service's folder in /run."""

    def __init__(self, folder):
        folder.mkdir()
        self.run, self.list = folder / "run", folder / "boxes"
        self.run.mkdir()
        self.program = folder / "sbin/lmtpd"
        self.program.parent.mkdir()
        self.script = folder / "served"
        text = pathlib.Path("packaging/lmtpd.served").read_text()
        self.script.write_text(text.replace("@PREFIX@", str(folder)))
        for path, said in [(self.program, SERVER), (folder / "sbin/systemd-notify", NOTIFY)]:
            path.write_text(said)
            path.chmod(0o755)
        path = f"{folder / 'sbin'}:{os.environ['PATH']}"
        self.environment = {"PATH": path, "RUNTIME_DIRECTORY": f"{self.run}:/run/other", "NOTIFY_SOCKET": "/none"}

    def say(self, *words, **more):
        """The status and what is said."""
        given = self.environment | more
        ends = {"stdout": subprocess.PIPE, "stderr": subprocess.STDOUT, "text": True}
        with subprocess.Popen(["sh", str(self.script), *words], env=given, **ends) as process:
            said = process.stdout.read()
        return process.returncode, said.splitlines(), process.pid

    def marked(self):
        return (self.run / "served/mark").exists()


def check_served(folder):
    """A start with the mark that ends with status 1 or 2 is followed by one with the words and the list of before; one
    that goes on is the service's main process; and any other end is the start's own."""
    site = Site(folder)
    old = ["--host", "mx.example", "--quota", "", "--boxes", str(site.list), "--old", "a b"]
    new = ["--boxes", str(site.list), "anna"]
    kept = [word.replace(str(site.list), f"{site.run}/list") for word in old]
    for status in ["1", "2"]:
        for old_status in ["0", "1"]:
            site.list.write_text("anna\nben\n")
            assert site.say("note", *old)[:2] == (0, [])
            site.list.write_text("anna\nFrieda\n")
            assert site.say("keep")[:2] == (0, []) and site.marked()
            assert site.say("note", *new)[:2] == (0, [])
            ended, said, process = site.say("begin", *new, STATUS=status, OLD_STATUS=old_status)
            first = [str(site.program), "serve", *new]
            then = ["anna", "ben", str(site.program), "serve", *kept]
            assert ended == int(old_status), (status, ended)
            assert said[: len(first)] == first and said[len(first)].endswith(" unset"), said
            passed = said[len(first)].split()
            assert passed[1] == passed[2] != str(process), passed
            rest = [GOES_BACK + status, *then, f"passed none {process} /none"]
            assert said[len(first) + 1 :] == rest, (said, rest)
            # what the next reload would keep
            assert (site.run / "words").read_text().splitlines() == kept
            assert (site.run / "list").read_text() == "anna\nben\n"
    for status in ["0", "3", "143"]:
        ended, said, _ = site.say("begin", *new, STATUS=status)
        assert (ended, len(said)) == (int(status), len(new) + 3), (status, said)
    ended, said, process = site.say("begin", *new, STATUS="", SECONDS="2")
    server = said[len(new) + 2].split()[2]
    assert (ended, said[-1]) == (0, f"notify {process} --ready --pid={server}"), said
    check_kept(site)


def check_kept(site):
    """A list that isn't there or is no file is left out, words as --boxes=FILE are kept too, and nothing is kept of words
    with a line end."""
    for words in [["--boxes", f"{site.run}/none"], ["--boxes", str(site.run)], ["--boxes"], ["anna"]]:
        assert site.say("note", *words)[:2] == (0, []) and not (site.run / "list").exists(), words
    assert site.say("note", f"--boxes={site.list}", "anna")[:2] == (0, []) and (site.run / "list").exists()
    assert site.say("keep")[:2] == (0, []) and site.marked()
    words = (site.run / "served/words").read_text().splitlines()
    assert words == [f"--boxes={site.run}/list", "anna"], words
    assert site.say("note", "--dir", "/a\nb", "anna")[:2] == (0, [])
    assert site.say("keep")[0] != 0 and not site.marked()
