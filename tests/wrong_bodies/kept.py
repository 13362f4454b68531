"""Verdicts on wrong bodies, kept on this machine: one that a goal of its function refused isn't tried again while all
stands that decided so. That is the wrong body itself, its crate's sources, definitions and proofs, the contracts,
definitions and proofs that the crates below hand on, the judge, and the toolchain. Other verdicts aren't kept."""
import functools
import hashlib
import os
import pathlib
import subprocess

JUDGE = ["apply.py", "kept.py", "place.py", "stamps.py", "told.py", "try.py"]
PARTS = ["src", "specs", "proofs"]
# of a library that was made: what those above it see
SEEN = ["interface/lang", "lang"]


def files_of(folders):
    """All files below these folders, each with the name by which it is known there."""
    for folder in folders:
        for path in sorted(it for it in folder.rglob("*") if it.is_file()):
            yield f"{folder.name}/{path.relative_to(folder)}", path


def sum_of(named):
    """The sum of these files' names and bytes."""
    total = hashlib.sha256()
    for name, path in named:
        total.update(f"{name} {hashlib.sha256(path.read_bytes()).hexdigest()}\n".encode())
    return total.hexdigest()


class Verdicts:
    """The verdicts that are kept in a folder, on the crates of the repository at `root`, each below others as in
    `crates`: its line of crates.txt and the names of those below it, by its name."""

    def __init__(self, root, crates, folder):
        self.root, self.crates, self.folder = root, crates, folder
        toolchain = subprocess.run(["rt", "version"], capture_output=True, check=True).stdout
        here = pathlib.Path(__file__).parent
        self.judge = hashlib.sha256(toolchain + sum_of((it, here / it) for it in JUDGE).encode()).hexdigest()

    @functools.cache
    def library(self, name):
        """The sum of what the crates above this one see of it."""
        made = self.root / "crates" / name / "out/rlib" / f"{name}.rlib"
        return sum_of(files_of(made / it for it in SEEN))

    @functools.cache
    def crate(self, name):
        """The sum of the crate and of what it stands on."""
        row, below = self.crates[name]
        own = sum_of(files_of(self.root / "crates" / name / it for it in PARTS))
        return " ".join([row, own, *(f"{it}:{self.library(it)}" for it in sorted(below))])

    def place(self, name, edit):
        """The file that has the verdict on this wrong body of the crate, where one is kept."""
        text = edit.read_text(encoding="utf-8")
        decided = "\n".join([self.judge, self.crate(name), text])
        return self.folder / hashlib.sha256(decided.encode()).hexdigest()

    def of(self, name, edit):
        """What was said of the wrong body where it was refused by a goal of its function, and that is kept."""
        place = self.place(name, edit)
        return place.read_text(encoding="utf-8") if place.is_file() else None

    def keep(self, name, edit, more):
        """Keeps that a goal of its function refused the wrong body, with what is to be said of it."""
        self.folder.mkdir(parents=True, exist_ok=True)
        place = self.place(name, edit)
        written = place.with_name(f"{place.name}.{os.getpid()}")
        written.write_text(more, encoding="utf-8")
        written.replace(place)


def usual_folder():
    """Where verdicts are kept: LMTPD_VERDICTS, or a folder of this user's cache."""
    cache = os.environ.get("XDG_CACHE_HOME") or os.path.expanduser("~/.cache")
    return pathlib.Path(os.environ.get("LMTPD_VERDICTS") or f"{cache}/lmtpd/wrong-bodies")
