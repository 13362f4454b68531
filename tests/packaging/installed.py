"""What `make install PREFIX=/usr` puts in its place, and what a command says."""

import pathlib
import subprocess

DOCS = pathlib.Path("docs")
# The pages for administrators, and what they lead to.
PAGES = sorted(
    str(path.relative_to(DOCS))
    for path in [DOCS / "OPERATING.md", DOCS / "BENCHMARKS.md", *DOCS.glob("*.svg"), *DOCS.glob("operating/*.md")]
)
INSTALLED = [
    "etc/lmtpd.boxes",
    "etc/lmtpd.conf",
    "usr/lib/lmtpd/instance.conf",
    "usr/lib/lmtpd/keys",
    "usr/lib/lmtpd/leases",
    "usr/lib/lmtpd/served",
    "usr/lib/lmtpd/start",
    "usr/lib/ocf/resource.d/sentzopar/lmtpd",
    "usr/lib/systemd/system/lmtpd-metrics.service",
    "usr/lib/systemd/system/lmtpd-metrics.timer",
    "usr/lib/systemd/system/lmtpd.service",
    "usr/lib/systemd/system/lmtpd.socket",
    "usr/lib/systemd/system/lmtpd@.service",
    "usr/lib/systemd/system/lmtpd@.socket",
    "usr/lib/sysusers.d/lmtpd.conf",
    "usr/lib/tmpfiles.d/lmtpd.conf",
    "usr/sbin/lmtpd",
    "usr/sbin/lmtpd-metrics",
    "usr/sbin/lmtpd-run",
    "usr/sbin/lmtpd-two-hosts",
    "usr/share/bash-completion/completions/lmtpd",
    *(f"usr/share/doc/lmtpd/{name}" for name in PAGES),
    "usr/share/man/man8/lmtpd.8.gz",
]


def said_by(*words, **more):
    """The status of a command, and what it says on both streams."""
    ends = {"stdout": subprocess.PIPE, "stderr": subprocess.STDOUT, **more}
    said = subprocess.run(words, text=True, timeout=120, **ends)
    return said.returncode, said.stdout
