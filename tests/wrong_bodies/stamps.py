"""What `rt ci` proved serves `rt check`: each library that it made lacks the stamp by which `rt check` sees that it is
made of the sources that are there. These are written here, in a room of the wrong bodies' own."""
import os
import pathlib
import shutil
import sys


def write(top, names):
    """Writes the stamps of these crates' libraries below the folder, where they lack one."""
    sys.path.insert(0, os.path.dirname(os.path.realpath(shutil.which("rt"))))
    sys.path.insert(0, str(pathlib.Path(__file__).resolve().parent.parent.parent / "building"))
    import rtlib
    from hasten import hasten

    hasten(rtlib)
    for crate in rtlib.crates_below(str(top)):
        stamp = pathlib.Path(crate.folder) / "out/rlib/stamp"
        if crate.name in names and stamp.parent.is_dir() and not stamp.exists():
            stamp.write_text(crate.stamp(), encoding="utf-8")
