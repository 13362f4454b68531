"""Applies wrong bodies: apply.py ROOT checks that each would apply, those of the crates and those of this folder."""
import pathlib
import sys


class Fault(Exception):
    """Why a wrong body doesn't apply."""


def texts_of(edit, crate, others=()):
    """The texts of the files that the wrong body changes, by their paths in the crate's folder; where some of them are
    changed already, over those of `others`."""
    path, old, texts = None, None, dict(others)
    for line in edit.read_text(encoding="utf-8").splitlines():
        word, _, rest = line.partition(":")
        rest = rest[1:] if rest.startswith(" ") else rest
        if word == "file":
            path = rest.strip()
        elif word == "old":
            old = rest
        elif word == "new":
            if not path or not old:
                raise Fault("a 'new:' stands before any 'file:' or 'old:'")
            if path not in texts:
                texts[path] = (crate / path).read_text(encoding="utf-8")
            found = texts[path].count(old)
            if found != 1:
                raise Fault(f"an 'old:' text stands {found} times in {path}")
            texts[path], old = texts[path].replace(old, rest), None
    if texts == dict(others):
        raise Fault("it changes nothing")
    return texts


def main(root):
    edits = [(it, it.parent.parent) for it in sorted(root.glob("crates/*/must-fail*/*.edit"))]
    edits += [(it, root / "crates" / it.parent.name) for it in sorted(root.glob("tests/wrong_bodies/*/*.edit"))]
    faults = 0
    for edit, crate in edits:
        try:
            texts_of(edit, crate)
        except Fault as fault:
            print(f"{edit.relative_to(root)}: {fault}")
            faults += 1
    print(f"{len(edits) - faults} wrong bodies apply, {faults} don't")
    return 1 if faults else 0


if __name__ == "__main__":
    sys.exit(main(pathlib.Path(sys.argv[1])))
