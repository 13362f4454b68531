"""Has `rt` take less time for the same answers. By a sum of its sources rt sees whether a library is made of what is
there, and it reckons the sum of each crate below anew for each way that leads there in crates.txt: below the program
there are thousands. Here what rt reckoned for a crate stands as long as the files of it, and of those below, are those
that they were, by their times, sizes and numbers. And beside each `rt try` a check of the crate over the sources of all
below it goes on, for a hint of reserved names alone, which `rt check` and `rt ci` refuse themselves: it isn't begun. The first build of a
program keeps nothing of what it checked, which takes more than it saves where all is new."""

import os


def hasten(rtlib):
    """Changes that in rt's library, as it was loaded, once."""
    reckon = rtlib.Crate.stamp
    if getattr(reckon, "is_hastened", False):
        return
    stamps = {}

    def seen(crate):
        """What there is to see of a crate's files without reading them."""
        files = ((file, os.stat(file)) for file in rtlib.files_of(crate.folder))
        return tuple((file, it.st_mtime_ns, it.st_ctime_ns, it.st_size, it.st_ino) for file, it in files)

    def stamp(crate):
        key = (crate.folder, *map(seen, [crate, *crate.below()]))
        if key not in stamps:
            stamps[key] = reckon(crate)
        return stamps[key]

    stamp.is_hastened = True
    rtlib.Crate.stamp = stamp

    attempt = rtlib.Crate.try_unproved

    def try_unproved(crate, *words):
        checker, rtlib.RATTLE = rtlib.RATTLE, "true"
        try:
            return attempt(crate, *words)
        finally:
            rtlib.RATTLE = checker

    rtlib.Crate.try_unproved = try_unproved

    compile_it = rtlib.Crate.compile

    def compile_once(crate, flags, *words, **named):
        kept, is_built = rtlib.KEPT, os.path.exists(f"{crate.folder}/out/{crate.name}")
        # where it is told no number of jobs rt looks itself at what is kept
        rtlib.KEPT = kept if is_built or crate.has_kept() or "--jobs" not in flags else []
        try:
            return compile_it(crate, flags, *words, **named)
        finally:
            rtlib.KEPT = kept

    rtlib.Crate.compile = compile_once
