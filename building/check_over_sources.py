#!/usr/bin/env python3
"""Checks a crate over crates below it as they stand in their sources, proved or not, so that a chain of crates can be
mended side by side. It says nothing of the crates below: `rt ci` proves them. Those below that didn't change come as
the libraries that a gate made here or in another clone (LIBRARIES: its top). Without --only each function of those
crates is checked too; with --only MODULE, for each module of CRATE, those alone that it reaches. Where nothing below
changed CHANGED is none.
usage: LIBRARIES=/path/to/clone building/check_over_sources.py CRATE CHANGED,CHANGED.. [words for `rattle check`]
as in: building/check_over_sources.py box_worker mbox_record,mail_post --only thread --short-goals
"""

import os
import pathlib
import shutil
import sys

sys.path.insert(0, os.path.dirname(os.path.realpath(shutil.which("rt"))))
import rtlib

TOP = pathlib.Path(__file__).resolve().parent.parent
LIBRARIES = pathlib.Path(os.environ.get("LIBRARIES", TOP))
KIT = pathlib.Path(rtlib.KIT)


def source_of(crate):
    """The words that have a crate below read as sources, with the libraries that it may name."""
    uses = dict.fromkeys([*crate.of_kit, *(it.name for it in crate.deps)])
    return ["--lib", f"{crate.name}:{','.join(uses)}={crate.folder}/src/lib.rt"]


def library_of(crate):
    return ["--extern", f"{crate.name}={LIBRARIES}/crates/{crate.name}/out/rlib/{crate.name}.rlib"]


def words_for(crate, changed):
    """The words of a check over these crates as sources, and over the others as libraries."""
    below = crate.below()
    of_kit = {*crate.of_kit, *(kit for it in below if it.name in changed for kit in it.of_kit)}
    words = [word for kit in sorted(of_kit) for word in ("--extern", f"{kit}={KIT}/rlibs/{kit}.rlib")]
    for it in below:
        words += source_of(it) if it.name in changed else library_of(it)
    return words


def main(name, changed, *more):
    crate = next(it for it in rtlib.crates_below(str(TOP)) if it.name == name)
    kept = pathlib.Path(crate.folder) / "out/over_sources"
    kept.mkdir(parents=True, exist_ok=True)
    root = "src/main.rt" if (pathlib.Path(crate.folder) / "src/main.rt").exists() else "src/lib.rt"
    logic = ["--antt-project", f"{KIT}/rattle/logic/antt-project.json", "--logic-built", f"{KIT}/logic_built"]
    words = ["--crate-name", name, root, *words_for(crate, set(changed.split(","))), "-L", f"dependency={KIT}/rlibs"]
    os.chdir(crate.folder)
    program = f"{KIT}/bin/rattle"
    kept_words = ["--incremental", str(kept), "--links", f"{name}="]
    jobs = [] if "--jobs" in more else ["--jobs", "1"]
    os.execv(program, [program, "check", *words, *logic, *kept_words, *jobs, *more])


if __name__ == "__main__":
    if len(sys.argv) < 3:
        sys.exit(__doc__)
    main(*sys.argv[1:])
