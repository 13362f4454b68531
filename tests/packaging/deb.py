"""Looks at the package that `make deb` makes, for tests/packaging.sh."""

import gzip
import hashlib
import os
import pathlib
import re
import shutil
import sys
import tempfile

from cases import sum_up, tell
from installed import INSTALLED, said_by

LMTPD = os.environ["LMTPD"]
TOOLS = ["dpkg-deb", "dpkg-shlibdeps", "dpkg-gencontrol", "dpkg-parsechangelog", "strip"]
# The list of mailboxes is no file of the package, which makes it where none is.
LIST = {"etc/lmtpd.boxes": "usr/share/lmtpd/lmtpd.boxes"}
FILES = sorted([*(LIST.get(it, it) for it in INSTALLED), "usr/share/doc/lmtpd/changelog.gz"])
WORDS = {
    "HOST": "mx.example",
    "DOMAINS": "",
    "MESSAGE_LIMIT": str(25 * 2**20),
    "DELIMITER": "+",
    "BOXES": "/etc/lmtpd.boxes",
    "FOLDER": "/var/mail/lmtpd",
    "OPTIONS": "",
}
# The owner has not said which licence the sources have, so the package has no file that says it.
LACKING = ["E: lmtpd: no-copyright-file"]


def told(*words, **more):
    status, said = said_by(*words, **more)
    assert status == 0, (words, said)
    return said


def made_in(folder):
    """The package, made from the start in that folder."""
    folder.mkdir()
    path = told("make", "-s", "deb", f"PROGRAM={LMTPD}", f"FOLDER={folder}").strip()
    assert [path] == [str(it) for it in folder.iterdir()], path
    return pathlib.Path(path)


def field(package, name):
    return told("dpkg-deb", "-f", str(package), name).strip()


def check_names(package):
    """Version, toolchain and name are those that the program says."""
    version, toolchain = re.fullmatch(r"lmtpd ([0-9.]+) \((.*)\)\n", told(LMTPD, "--version")).groups()
    assert package.name == f"lmtpd_{version}_amd64.deb", package
    assert [field(package, it) for it in ["Package", "Version", "Architecture"]] == ["lmtpd", version, "amd64"]
    assert toolchain in field(package, "Description"), toolchain
    return version


def check_files(package, root, version):
    """What it installs is all there, root's own, and as its sums say; the program is stripped and runs."""
    told("dpkg-deb", "-R", str(package), str(root))
    found = sorted(str(it.relative_to(root)) for it in root.rglob("*") if it.is_file())
    assert [it for it in found if not it.startswith("DEBIAN/")] == FILES, found
    owners = {line.split()[1] for line in told("dpkg-deb", "-c", str(package)).splitlines()}
    assert owners == {"root/root"}, owners
    assert (root / "DEBIAN/conffiles").read_text() == "/etc/lmtpd.conf\n"
    assert dict(re.findall(r"^([A-Z_]+)=(.*)$", (root / "etc/lmtpd.conf").read_text(), re.MULTILINE)) == WORDS
    for line in (root / "DEBIAN/md5sums").read_text().splitlines():
        total, path = line.split("  ")
        assert hashlib.md5((root / path).read_bytes()).hexdigest() == total, path
    program = root / "usr/sbin/lmtpd"
    assert b"\0.symtab\0" not in program.read_bytes()
    assert told(str(program), "--version") == told(LMTPD, "--version")
    changelog = gzip.decompress((root / "usr/share/doc/lmtpd/changelog.gz").read_bytes()).decode()
    assert changelog.startswith(f"lmtpd ({version}) "), changelog
    begins = "ExecStart=/usr/lib/lmtpd/start --rename-marks\n"
    assert begins in (root / "usr/lib/systemd/system/lmtpd.service").read_text()
    assert 'exec /usr/sbin/lmtpd serve "$@"\n' in (root / "usr/lib/lmtpd/start").read_text()


def check_dependencies(package):
    """Each library that the program loads is of a package that this one depends on, with a version."""
    depends = field(package, "Depends")
    for path in re.findall(r"=> (/\S+)", said_by("ldd", LMTPD)[1]):
        places = [path, path.removeprefix("/usr"), str(pathlib.Path(path).resolve())]
        owners = re.findall(r"^([a-z0-9.+-]+)(?::\w+)?: /", said_by("dpkg-query", "-S", *places)[1], re.MULTILINE)
        assert any(re.search(rf"\b{re.escape(owner)} \(>= [^)]+\)", depends) for owner in owners), (path, depends)
    assert "systemd" in depends, depends


def check_refusals(folder):
    """A rule that can't do its work says why: a tool that is lacking, no program, one of another version."""
    tools = folder / "tools"
    tools.mkdir()
    for place in ["/usr/sbin", "/usr/bin", "/bin"]:
        for path in pathlib.Path(place).iterdir():
            if path.name != "dpkg-shlibdeps" and not (tools / path.name).exists():
                (tools / path.name).symlink_to(path)
    other = folder / "other"
    other.write_text("#!/bin/sh\necho 'lmtpd 77.0 (none, logic 0)'\n")
    other.chmod(0o755)
    for program, path, expected in [
        (LMTPD, str(tools), "dpkg-shlibdeps isn't installed (Debian's packages dpkg-dev and binutils"),
        (f"{folder}/none", os.environ["PATH"], "no proved program is built yet (make build)"),
        (other, os.environ["PATH"], "says '77.0 (none, logic 0)', and crates/lmtpd_words/src/texts.rt another version"),
    ]:
        words = ["packaging/debian/make.sh", str(program), str(folder)]
        status, said = said_by(*words, env=dict(os.environ, PATH=path))
        assert status == 1 and expected in said, said
    assert not list(folder.glob("*.deb"))


def check_by_lintian(package):
    if shutil.which("lintian") is None:
        tell("what lintian says of the package", "absent", "lintian")
        return
    _, said = said_by("lintian", str(package))
    errors = [line for line in said.splitlines() if line.startswith("E:")]
    assert errors == LACKING, errors


def check_package(folder):
    package = made_in(folder / "one")
    assert package.read_bytes() == made_in(folder / "two").read_bytes(), "two packages of one program differ"
    check_files(package, folder / "root", check_names(package))
    check_dependencies(package)
    check_refusals(folder)
    check_by_lintian(package)
    tell("package")


lacking = [name for name in TOOLS if shutil.which(name) is None]
if lacking:
    tell("package", "absent", ", ".join(lacking))
else:
    with tempfile.TemporaryDirectory() as room:
        check_package(pathlib.Path(room))
sys.exit(sum_up())
