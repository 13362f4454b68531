"""What counts the log into numbers for Prometheus, on a journal of made-up lines, for tests/packaging.sh."""

import concurrent.futures
import os
import pathlib
import re
import subprocess
import tempfile

SCRIPT = "packaging/lmtpd.metrics"
BEGINS = "<4>no place in the journal to go on from: what is counted begins now\n"
# A journal of a file of lines, the first of which says how many are gone; each one's cursor is its number. As systemd
# 252 it leaves out the first line of these units that stands at --after-cursor or behind it, and has status 1 where it
# shows none.
JOURNALCTL = """#!/usr/bin/env python3
import sys
gone, *lines = open({path!r}).read().splitlines()
given = dict(word.split("=", 1) for word in sys.argv if word.startswith("--") and "=" in word)
assert sys.argv[sys.argv.index("-u") :][:4] == ["-u", "lmtpd", "-u", "lmtpd@*"], sys.argv
ours = [(at, line) for at, line in enumerate(lines, int(gone) + 1) if not line.endswith(" other")]
if "export" in sys.argv:
    behind = [at for at, _ in ours if at >= int(given.get("--cursor", 0))]
    print(*(f"__CURSOR={{at}}" for at in (behind[:1] if "--cursor" in given else behind[-1:])))
elif {status}:
    sys.exit("Failed to open the journal" if {status} == 1 else {status})
else:
    if "--after-cursor" in given:
        ours = [(at, line) for at, line in ours if at >= int(given["--after-cursor"])][1:]
    for _, line in ours:
        print(line)
    if not ours:
        sys.exit(1)
    print(f"-- cursor: {{ours[-1][0]}}")
"""
COPY = "[INFO  lmtpd] copy answered id=17-2-{} mailbox={} outcome={} code=250 bytes={} seconds={} client=a.example"
LINES = [
    "lmtpd[7]: listening on inherited",
    f"lmtpd[7]: {COPY.format(1, 'anna', 'stored', 2048, '0.010')} message-id=<outcome=malformed>",
    f"lmtpd@a[7]: {COPY.format(2, 'ben', 'not-stored', 100, '12.500')}",
    f"lmtpd@a[7]: {COPY.format(3, 'ben', 'stored', 52, '0.011')} message-id=bytes=9",
    f"lmtpd@a[7]: {COPY.format(3, 'ben', 'st0red', 0, '90.000')}",
    "lmtpd@a[7]: [ERROR lmtpd] mailbox in use mailbox=ben reason=other programs have it locked",
    "lmtpd[7]: [ERROR lmtpd] mailbox failed mailbox=anna reason=No space left on device (os error 28)",
    "lmtpd[7]: [INFO  lmtpd] command refused lane=2 verb=RCPT code=550",
    "lmtpd[7]: [INFO  lmtpd] command refused lane=2 verb=RCPT code=550 reason=domain",
    "lmtpd[7]: [INFO  lmtpd] command refused lane=2 verb=other code=500",
    "lmtpd[7]: [INFO  lmtpd] conversation ended lane=2 client=unix cause=quit read=1234 written=567 seconds=0.012",
    "lmtpd[7]: lmtpd: ben in use 7",
    "systemd[1]: Started lmtpd.service - LMTP delivery into mailboxes.",
]
EXPECTED = {
    'letters_total{outcome="stored"}': 2,
    'letters_total{outcome="not-stored"}': 1,
    'letters_total{outcome="other"}': 1,
    'letters_total{outcome="malformed"}': 0,
    'bytes_total{outcome="stored"}': 2100,
    'seconds_bucket{le="0.01"}': 1,
    'seconds_bucket{le="0.05"}': 2,
    'seconds_bucket{le="10"}': 2,
    'seconds_bucket{le="60"}': 3,
    'seconds_bucket{le="+Inf"}': 4,
    "seconds_sum": 102.521,
    "seconds_count": 4,
    'refused_recipients_total{reason="none"}': 1,
    'refused_recipients_total{reason="domain"}': 1,
    "refused_commands_total": 1,
    'connections_total{cause="quit"}': 1,
    "starts_total": 1,
    "errors_total": 2,
    'mailboxes{state="in-use"}': 1,
    'mailboxes{state="failed"}': 1,
}


class Journal:
    def __init__(self, folder):
        self.folder, self.lines, self.gone = folder, ["x[1]: other"], 0
        self.out = folder / "lmtpd.prom"
        (folder / "bin").mkdir()
        self.answers(0)

    def answers(self, status):
        program = self.folder / "bin/journalctl"
        program.write_text(JOURNALCTL.format(path=str(self.folder / "journal"), status=status))
        program.chmod(0o755)

    def count(self):
        """Status and text of the script on the journal as it is."""
        lines = [f"Nov 29 22:15:00 {line}" for line in self.lines[self.gone :]]
        (self.folder / "journal").write_text("\n".join([str(self.gone), *lines, ""]))
        return self.run()

    def run(self):
        own = dict(os.environ, PATH=f"{self.folder}/bin:{os.environ['PATH']}")
        ends = {"stdout": subprocess.PIPE, "stderr": subprocess.STDOUT, "text": True, "env": own}
        said = subprocess.run(["sh", SCRIPT, str(self.out), str(self.folder)], timeout=300, **ends)
        return said.returncode, said.stdout

    def numbers(self):
        text = self.out.read_text()
        for name, kind in re.findall("^# TYPE (\\S+) (\\S+)$", text, re.MULTILINE):
            assert kind != "counter" or name.endswith("_total"), name
        found = [line.rsplit(" ", 1) for line in text.splitlines() if not line.startswith("#")]
        assert all(re.fullmatch(r'lmtpd_[a-z_]+(\{[a-z]+="[^"]*"\})?', name) for name, _ in found), found
        return {name.removeprefix("lmtpd_"): float(number) for name, number in found}

    def check(self, expected):
        found = self.numbers()
        for name, number in expected.items():
            assert found[name] == number, (name, found[name], number)


def check_counts(journal):
    """It begins at now, and says so; then each line counts once, whoever runs it, and however often."""
    assert journal.count() == (0, BEGINS)
    journal.check({name: 0 for name in EXPECTED if "other" not in name})
    assert journal.count() == (0, "")
    journal.lines += LINES
    assert journal.count() == (0, "")
    journal.check(EXPECTED)
    for more in [[], ["x[1]: other"]]:
        journal.lines += more
        assert journal.count() == (0, "")
        journal.check(EXPECTED)
    # a reader of the journal that fails changes nothing, and what came is counted then
    journal.lines += LINES[1:2]
    for status in [1, 137]:
        journal.answers(status)
        assert journal.count()[0] != 0
        journal.check(EXPECTED)
    journal.answers(0)
    # many at once
    journal.count()
    with concurrent.futures.ThreadPoolExecutor(6) as pool:
        assert set(pool.map(lambda _: journal.run(), range(12))) == {(0, "")}
    journal.check({'letters_total{outcome="stored"}': 3, "starts_total": 1})


def check_mailboxes(journal):
    """A mailbox is in use or failed until the line that ends it, or until its own server begins again."""
    for line, in_use, failed in [
        ("lmtpd[7]: [ERROR lmtpd] mailbox in use mailbox=anna reason=x", 2, 1),
        ("lmtpd[7]: [ERROR lmtpd] mailbox in use mailbox=anna reason=x", 2, 1),
        ("lmtpd[7]: [ERROR lmtpd] mailbox stores again mailbox=anna", 2, 0),
        ("lmtpd[7]: [ERROR lmtpd] mailbox free again mailbox=carla", 2, 0),
        ("lmtpd[8]: listening on inherited", 1, 0),
        ("lmtpd@a[7]: [ERROR lmtpd] mailbox free again mailbox=ben", 0, 0),
    ]:
        journal.lines.append(line)
        assert journal.count() == (0, "")
        journal.check({'mailboxes{state="in-use"}': in_use, 'mailboxes{state="failed"}': failed})


def check_lost_place(journal):
    """Where the place isn't in the journal any more, or the counts are gone, it goes on from now, and says so; what was
    counted stays, where that is there."""
    before = journal.numbers()
    journal.lines += LINES
    journal.gone = len(journal.lines) - 3
    assert journal.count() == (0, BEGINS)
    assert journal.numbers() == before
    journal.lines += LINES[1:2]
    assert journal.count() == (0, "")
    journal.check({'letters_total{outcome="stored"}': before['letters_total{outcome="stored"}'] + 1})
    (journal.folder / "metrics").unlink()
    journal.lines += LINES
    assert journal.count() == (0, BEGINS)
    journal.check({'letters_total{outcome="stored"}': 0})
    journal.lines += ["x[1]: other", LINES[1], "x[1]: other"]
    assert journal.count() == (0, "")
    journal.check({'letters_total{outcome="stored"}': 1})


def check_many(journal):
    """Letters to 65,536 mailboxes, each of which is in use: totals alone, in a file of the same size."""
    before, size = journal.numbers(), len(journal.out.read_text().splitlines())
    names = [f"user{number}" for number in range(65_536)]
    journal.lines += [f"lmtpd[7]: {COPY.format(1, name, 'stored', 1000, '0.004')}" for name in names]
    journal.lines += [f"lmtpd[7]: [ERROR lmtpd] mailbox in use mailbox={name} reason=x" for name in names]
    assert journal.count() == (0, "")
    assert len(journal.out.read_text().splitlines()) == size and "user" not in journal.out.read_text()
    expected = {
        'letters_total{outcome="stored"}': before['letters_total{outcome="stored"}'] + 65_536,
        'bytes_total{outcome="stored"}': before['bytes_total{outcome="stored"}'] + 65_536_000,
    }
    journal.check({**expected, 'mailboxes{state="in-use"}': 65_536})
    journal.lines.append("lmtpd[8]: listening on inherited")
    assert journal.count() == (0, "")
    journal.check({**expected, 'mailboxes{state="in-use"}': 0})


with tempfile.TemporaryDirectory() as room:
    journal = Journal(pathlib.Path(room))
    for check in [check_counts, check_mailboxes, check_lost_place, check_many]:
        check(journal)
print("ok: metrics")
