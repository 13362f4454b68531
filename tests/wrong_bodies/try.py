"""Has the prover try wrong bodies: try.py ROOT JOBS [--own | --gate] [--anew] [CRATE..], over what stands proved in
ROOT: those of this folder, or with a word those that stand with the crates themselves: in must-fail, which `rt ci`
tries one by one, or in must-fail-at-once, which the gate tries by this script. What was refused before and stands as
it did isn't tried again (kept.py), but with --anew. Each crate has a room of its own, with its sources
and what its checks kept, and the crates below it by hard links. There wrong bodies of different functions are put into
their places at once, and these functions checked. One whose function's proof names what isn't there any more is tried
again without those answers: it is refused where a goal then asks for what none asks for of the function as it stands
without the same answers, or is false at some values and wasn't. As a function isn't looked at that calls a refused one,
those that no goal of their own functions refused are tried at once again without the others, and alone where that
refuses no more; one that its own functions' check lets through, in the whole crate. What is said of each, and the last
line, are those of told.py."""
import concurrent.futures
import contextlib
import dataclasses
import os
import pathlib
import re
import shutil
import subprocess
import sys
import tempfile
import threading
import time

import apply
import kept
import stamps
import told
from place import Place, places_of

RT = [sys.executable, "-B", pathlib.Path(__file__).resolve().parent.parent.parent / "building/rt"]
MOST = 20  # of wrong bodies that are tried at once
ROUNDS = 3  # of trying without answers, each of which may show further names that are gone
FOLDERS = {"--own": "must-fail", "--gate": "must-fail-at-once"}  # of a crate, by the word that asks for them


def crates_of(root):
    """Each crate's line of crates.txt and the names of the crates below it, by its name."""
    rows = [line.partition("#")[0].strip() for line in (root / "crates.txt").read_text().splitlines()]
    rows = {row.replace(":", " ").split()[0]: row for row in filter(None, rows)}
    direct = {name: [it for it in row.partition(":")[2].split() if it in rows] for name, row in rows.items()}

    def below(name):
        return {it for one in direct[name] for it in [one, *below(one)]}

    return {name: (row, below(name)) for name, row in rows.items()}


class Room:
    """A copy of a crate, with what its checks kept, and of what it stands on."""

    def __init__(self, root, name, crates, folder, has_kept):
        row, below = crates[name]
        self.top = folder / name
        self.crate = self.top / "crates" / name
        self.crate.parent.mkdir(parents=True)
        shutil.copy(root / "HANDLES", self.top)
        (self.top / "crates.txt").write_text("".join(f"{it}\n" for it in [row, *(crates[one][0] for one in below)]))
        left = shutil.ignore_patterns("must-fail*", *([] if has_kept else ["out"]))
        shutil.copytree(root / "crates" / name, self.crate, ignore=left)
        for it in below:
            left, to = shutil.ignore_patterns("must-fail*", "out"), self.top / "crates" / it
            shutil.copytree(root / "crates" / it, to, copy_function=os.link, ignore=left)
            shutil.copytree(root / "crates" / it / "out/rlib", to / "out/rlib", copy_function=os.link)
        stamps.write(self.top, below)

    def check(self, *words):
        """How a check of the crate as it stands now ended, and what it said."""
        how = {"cwd": self.crate, "stdin": subprocess.DEVNULL, "stderr": subprocess.STDOUT, "errors": "replace"}
        ran = subprocess.run([*RT, "check", "--jobs", "1", *words], stdout=subprocess.PIPE, check=False, **how)
        return ran.returncode, ran.stdout

    def said_with(self, texts, places=()):
        """How a check of the functions at these places ended, and what it said, with these texts in place of the
        crate's own; of the whole crate, where there are none or a place is in no function."""
        before = {path: (self.crate / path).read_text(encoding="utf-8") for path in texts}
        for path, text in texts.items():
            (self.crate / path).write_text(text, encoding="utf-8")
        # where a function's name fits none or several, all functions of its module
        for name_of in (Place.checked_as, Place.module, None):
            names = set(map(name_of, places)) if name_of else ()
            if name_of and not (names and all(names)):
                continue
            status, said = self.check(*(f"--only={it}" for it in sorted(names)))
            if status != told.NO_SUCH_PATH:
                break
        for path, text in before.items():
            (self.crate / path).write_text(text, encoding="utf-8")
        return status, said

    def try_one(self, edit):
        """What is to be said of the wrong body: how it was met, and what more."""
        texts, places = apply.texts_of(edit, self.crate), places_of(edit, self.crate)
        status, said = self.said_with(texts, places)
        met = told.met(edit, self.crate, texts, status, said)
        if met[0] == told.STILL_PROVED:
            return told.met(edit, self.crate, texts, *self.said_with(texts))
        asked = self.asked_anew([edit], said) if met[0] == told.ELSEWHERE else {}
        return (told.REFUSED, asked[edit]) if asked else met

    def refused_at_once(self, batch):
        """Those of the batch that a goal of each of their functions refuses, each with what is to be said of it."""
        status, said = self.said_with(batch.texts, batch.places)
        refused = {}
        for edit in batch.edits if status else []:
            places = places_of(edit, self.crate)
            goals = [(it, told.unmet(it, said, batch.texts)) for it in sorted(places)]
            if all(found for _, found in goals):
                refused[edit] = told.told_goal(*goals[0])
        return refused | self.asked_anew([it for it in batch.edits if it not in refused], said)

    def asked_anew(self, edits, said):
        """Those of these wrong bodies of different functions that have a goal ask for what none asks for of the
        function as it stands, once the answers that name what isn't there are set aside; of each what is to be said."""
        aside = {it: set() for it in edits}
        for _ in range(ROUNDS):
            gone = {it: self.names_gone(it, said) for it in aside}
            # an invariant or a lemma can't be set aside
            aside = {it: aside[it] | gone[it] for it in aside if all(goal for _, goal in gone[it])}
            aside = {it: goals for it, goals in aside.items() if goals}
            if not any(gone[it] for it in aside):
                break
            texts = {}
            for it in aside:
                texts = apply.texts_of(it, self.crate, texts)
            places = {place for it in aside for place in places_of(it, self.crate)}
            said = self.said_with(texts | self.answers_without(aside), places)[1]
        aside = {it: goals for it, goals in aside.items() if not self.names_gone(it, said)}
        if not aside:
            return {}
        places = {place for it in aside for place in places_of(it, self.crate)}
        before = self.said_with(self.answers_without(aside), places)[1]
        found = {it: self.anew(it, texts, said, before) for it in aside}
        return {it: f"{more}, without its answer" for it, more in found.items() if more}

    def names_gone(self, edit, said):
        """The answers in the proofs of the wrong body's functions that name what isn't there."""
        return {it for place in places_of(edit, self.crate) for it in told.names_gone(place, said)}

    def answers_without(self, aside):
        """The texts of proofs without the answers that each wrong body has set aside."""
        texts = {}
        for folder, goal in sorted(it for goals in aside.values() for it in goals):
            path = f"proofs/{folder}/Answers.antt"
            text = texts.get(path) or (self.crate / path).read_text(encoding="utf-8")
            texts[path] = told.without(text, {goal})
        return texts

    def anew(self, edit, texts, said, before):
        """What is to be said of a goal that asks for something that it didn't ask for before; nothing where none is."""
        for place in sorted(places_of(edit, self.crate)):
            goals = told.unmet(place, said, texts)
            as_it_stands = {place.path: (self.crate / place.path).read_text(encoding="utf-8")}
            known = told.asked(place, before, as_it_stands, {})
            asked = told.asked(place, said, texts, told.new_names(edit))
            new = {goal for it, goal in asked.items() if it not in known}
            goals = [it for it in goals if it.how == told.OTHER or it.goal in new]
            if goals:
                return told.told_goal(place, goals)
        return ""

    def batches(self, edits):
        """The wrong bodies in lists of different functions, each with the texts that they make together."""
        made = []
        for edit in edits:
            places = places_of(edit, self.crate)
            for batch in made:
                if len(batch.edits) == MOST or places & batch.places:
                    continue
                with contextlib.suppress(apply.Fault):
                    batch.texts = apply.texts_of(edit, self.crate, batch.texts)
                    batch.edits.append(edit)
                    batch.places |= places
                    break
            else:
                made.append(Batch([edit], places, apply.texts_of(edit, self.crate)))
        return made


@dataclasses.dataclass
class Batch:
    edits: list
    places: set
    texts: dict


def lines_of(said):
    """What `rt ci` has said so far, and whether it has ended."""
    lines = said.read_text(encoding="utf-8", errors="replace").splitlines() if said.exists() else ["0 passed, 0 failed"]
    return lines, bool(lines and re.match(r"\d+ passed, \d+ failed", lines[-1]))


def wait_for_a_crate(said):
    """Waits until `rt ci` has come to its first crate: before that it looks at each folder, and refuses a copy's."""
    lines, has_ended = lines_of(said)
    while not has_ended and not any(re.match(r"rt: \w+ (proved|is kept)", line) for line in lines):
        time.sleep(0.5)
        lines, has_ended = lines_of(said)


def are_proved(names, said):
    """Waits until `rt ci`, which says so in the file, has proved these crates; false where it ends first."""
    left, has_ended = set(names), False
    while left and not has_ended:
        lines, has_ended = lines_of(said)
        left -= {it[1] for it in (re.match(r"rt: (\w+) (proved|is kept)", line) for line in lines) if it}
        time.sleep(2 if left and not has_ended else 0)
    return not left


def give_turns(turns, more, said):
    """Gives that many more turns once `rt ci` has ended, whose cores are idle then."""
    while not lines_of(said)[1]:
        time.sleep(2)
    turns.release(more)


def try_in_turn(turns, *crate):
    """Tries a crate's as soon as there is a turn."""
    with turns:
        return try_crate(*crate)


def try_crate(verdicts, name, edits, folder, said):
    """Tries these wrong bodies of the crate, and gives how each was met. Where a file is given to which `rt ci` writes
    what it says, they are tried once it has proved the crates below; else the crate is checked as it stands too."""
    root, crates, kinds = verdicts.root, verdicts.crates, []
    if said and not are_proved(crates[name][1], said):
        print(f"{name}: a crate below it isn't proved", flush=True)
        return [told.NOT_TRIED]

    def say(edit, kind, more):
        print(f"{name}/{edit.name}: {kind}{more and ': ' + more}", flush=True)
        kinds.append(kind)

    known = {it: more for it in edits for more in [verdicts.of(name, it)] if more}
    for edit, more in known.items():
        say(edit, told.REFUSED, f"{more}, as before")
    left = [it for it in edits if it not in known]
    if not left:
        return kinds
    room = Room(root, name, crates, folder, not said)

    def tell(edit, kind, more):
        if kind == told.REFUSED:
            verdicts.keep(name, edit, more)
        say(edit, told.known(root, edit, kind, more), more)

    def try_all(edits):
        for batch in room.batches(edits):
            refused = room.refused_at_once(batch) if len(batch.edits) > 1 else {}
            for edit, more in refused.items():
                tell(edit, told.REFUSED, more)
            left = [it for it in batch.edits if it not in refused]
            if refused:
                try_all(left)
            else:
                for edit in left:
                    tell(edit, *room.try_one(edit))

    try_all(left)
    status, words = (0, "") if said else room.check()
    if status:
        print(f"{name} is not proved as it stands:", *words.splitlines()[-6:], sep="\n", flush=True)
        kinds.append(told.NOT_TRIED)
    shutil.rmtree(room.top)
    return kinds


def main(root, jobs, words):
    crates = crates_of(root)
    kind, names = next((it for it in words if it in FOLDERS), None), [it for it in words if not it.startswith("--")]
    folders = {it: root / "crates" / it / FOLDERS[kind] if kind else root / "tests/wrong_bodies" / it for it in crates}
    edits = {it: sorted(folders[it].glob("*.edit")) for it in names or crates}
    said = pathlib.Path(os.environ["RT_SAID"]) if "RT_SAID" in os.environ else None
    # lowest first, as rt ci goes on, or those with the most to prove
    first = (lambda it: len(crates[it][1])) if said else (lambda it: -len(edits[it]))
    order = sorted(filter(edits.get, edits), key=first)
    turns, more = threading.Semaphore(jobs), max(0, os.cpu_count() - jobs)
    if said and more:
        threading.Thread(target=give_turns, args=(turns, more, said), daemon=True).start()
    if said:
        wait_for_a_crate(said)
    with tempfile.TemporaryDirectory(prefix=".trying-", dir=root) as folder:
        room = pathlib.Path(folder)
        # what is kept in a folder of this run's own alone is tried anew
        verdicts = kept.Verdicts(root, crates, room / "verdicts" if "--anew" in words else kept.usual_folder())
        with concurrent.futures.ThreadPoolExecutor(jobs + more) as pool:
            tried = [pool.submit(try_in_turn, turns, verdicts, it, edits[it], room, said) for it in order]
            kinds = [kind for it in tried for kind in it.result()]
    print(", ".join(f"{kinds.count(kind)} {kind}" for kind in told.KINDS))
    return 1 if any(kind in told.BAD for kind in kinds) else 0


if __name__ == "__main__":
    sys.exit(main(pathlib.Path(sys.argv[1]).resolve(), int(sys.argv[2]), sys.argv[3:]))
