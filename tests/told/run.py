"""Judges verdicts that were recorded, for tests/told.sh.

A file NAME.told has an edit, and then what each check said that the judge asked for, one after the other. Lines that
tell of no goal are left out there: how many modules were loaded, what one could try, and the names in reach."""

import importlib
import pathlib
import re
import shutil
import sys

import told
from cases import case, equal, run_all
from place import Place, places_of

HERE = pathlib.Path("tests/told")
attempts = importlib.import_module("try")


class Recorded(attempts.Room):
    """A crate as it stood, whose checks say what was recorded."""

    def __init__(self, folder, name):
        self.crate = folder
        for file in (HERE / "crate").rglob("*.in"):
            path = folder / file.relative_to(HERE / "crate").with_suffix("")
            path.parent.mkdir(parents=True, exist_ok=True)
            shutil.copy(file, path)
        text, *self.left = re.split(r"\n= status (\d)+: .*\n", (HERE / f"{name}.told").read_text(encoding="utf-8"))
        self.edit = folder / f"{name}.edit"
        self.edit.write_text(text, encoding="utf-8")

    def said_with(self, texts, places=()):
        status, said, *self.left = self.left
        return int(status), said


def judged(folder, name):
    """How the edit of that name is met, once all that was recorded of it was asked for."""
    room = Recorded(folder, name)
    met = room.try_one(room.edit)
    equal(room.left, [])
    return met


def judged_at_once(folder, name):
    """What is said of the edit of that name where it is tried with others; nothing where it isn't refused so."""
    room = Recorded(folder, name)
    (batch,) = room.batches([room.edit])
    return room.refused_at_once(batch).get(room.edit)


@case
def an_edit_that_changes_nothing(folder):
    """an edit that changes nothing is still proved; one that says the same in another way, by which goals and steps
    have other names, isn't refused by a goal, though the prover finds no proof then"""
    equal(judged(folder, "nothing"), (told.STILL_PROVED, ""))
    equal(judged_at_once(folder, "nothing"), None)
    equal(judged(folder, "written_another_way"), (told.ELSEWHERE, "by the names in the proof of check_each"))
    equal(judged_at_once(folder, "written_another_way"), None)


@case
def a_local_with_another_name(folder):
    """a local with another name, by which its function's proof names what isn't there, isn't refused by a goal: without
    these answers the goals ask for what they ask for of the function as it stands"""
    equal(judged(folder, "renamed_local"), (told.ELSEWHERE, "by the names in the proof of check_each"))
    equal(judged_at_once(folder, "renamed_local"), None)


@case
def a_loosened_ghost(folder):
    """a clause that is loosened changes nothing that runs: a goal of its function that isn't met doesn't count"""
    equal(judged(folder, "loosened_ghost"), (told.ELSEWHERE, "by check_each"))
    equal(judged_at_once(folder, "loosened_ghost"), None)


@case
def wrong_bodies(folder):
    """a wrong body is refused where an answer shows another statement than is asked for, where a goal is false at some
    values, where the code isn't known to keep within bounds, and where a goal asks for something else once the answers
    that name what isn't there are set aside"""
    for name, more in [
        ("another_statement", "check_each, returns-then-is_err (another statement)"),
        ("false_at_some_values", "keep_if, returns-then-not-is_kept-clause-items (false at some values)"),
        ("read_too_far", "is_journal, slice_bounds-name-end (not proved)"),
        ("dropped_call", "check_each, returns-then-is_err (not proved), without its answer"),
    ]:
        equal((name, *judged(folder, name)), (name, told.REFUSED, more))
        equal((name, judged_at_once(folder, name)), (name, more))


@case
def a_goal_of_another_function(folder):
    """a goal of another function doesn't count, whichever kind of line tells it"""
    for name in ["another_statement", "false_at_some_values", "dropped_call"]:
        room = Recorded(folder, name)
        text = room.edit.read_text(encoding="utf-8")
        room.edit.write_text(f"{text.splitlines()[0]}\nold:     let mut findings\nnew:     let  mut findings\n")
        equal({it.name for it in places_of(room.edit, folder)}, {"check_files"})
        equal(room.refused_at_once(room.batches([room.edit])[0]), {})


@case
def another_name_in_a_statement(folder):
    """a statement in which a local has another name is the same one; with another call it isn't"""
    room = Recorded(folder, "renamed_local")
    names = told.new_names(room.edit)
    equal(names, {"found": "reading"})
    (place,) = places_of(room.edit, folder)
    line = "note: `returns-then-is_err` of proofs/files/check_each/Answers.antt must prove: c.{}.result ≡ 0"
    texts = {place.path: (folder / place.path).read_text(encoding="utf-8")}
    as_it_stands = told.asked(place, line.format("check_file-reading"), texts, {})
    equal(told.asked(place, line.format("check_file-found"), texts, names), as_it_stands)
    equal(told.asked(place, line.format("keep_if-found"), texts, names) == as_it_stands, False)


@case
def where_a_goal_is_told(folder):
    """the place of a goal that is told of what stands before its function in `#[..]` is that function's"""
    text = "fn one() {\n    1;\n}\n\n#[inline]\n#[tactic(\n    auto,\n    using(a),\n)]\nfn two() {\n    2;\n}\n"
    one, two = (Place("src/lib.rt", "", name) for name in ["one", "two"])
    equal([at for at in range(1, 13) if one.has_line(text, at)], [1, 2, 3])
    equal([at for at in range(1, 13) if two.has_line(text, at)], [5, 6, 10, 11, 12])


@case
def an_answer_that_does_not_follow(folder):
    """a goal counts whose answer is a search for a proof by numbers that finds none"""
    room = Recorded(folder, "another_statement")
    line = "./proofs/files/check_each/Answers.antt:5:5: error: `returns-then-is_err`: `omega`: the goal does not follow"
    room.left = ["1", f"{line} from what it read.\nonly=1 proved=0"]
    equal(room.try_one(room.edit), (told.REFUSED, "check_each, returns-then-is_err (not proved)"))


@case
def what_tells_of_no_goal(folder):
    """what doesn't compile, can't be read, or isn't looked at is neither refused nor proved"""
    room = Recorded(folder, "another_statement")
    for said, kind in [
        ("src/files.rt:80:13: error[E0308]: mismatched types\nonly=1 proved=0", told.NO_COMPILE),
        ("src/files.rt:80:13: error: `x` is not in scope\nonly=1 proved=0", told.NO_COMPILE),
        ("Killed", told.NOT_TRIED),
        (
            "fn a::files::check_each: no proof: it calls `a::files::keep_if`, which is not proved\nonly=2 proved=0",
            told.NOT_LOOKED_AT,
        ),
        ("./proofs/Among.antt:3:1: error: `among`: as printed, the two types differ\nonly=1 proved=0", told.ELSEWHERE),
        (
            "./proofs/files/check_each/Invariants.antt:3:1: error: `invariant-loop-name`: the two types differ\n"
            "only=1 proved=0",
            told.ELSEWHERE,
        ),
    ]:
        room.left = ["1", said]
        equal(room.try_one(room.edit)[0], kind)
    equal(sorted(told.BAD), sorted(set(told.KINDS) - {told.REFUSED, told.FOR_NAMES}))


@case
def what_is_known_of_an_edit(folder):
    """a wrong body that only names in its own function's proof refuse is let pass where tests/wrong_bodies/for_names
    has it with a reason, and by no other refusal"""
    place = folder / "tests/wrong_bodies"
    place.mkdir(parents=True)
    (place / "for_names").write_text("# a comment\na/one.edit | why\na/two.edit | \n")
    edits = [folder / "crates/a/must-fail-at-once" / f"{name}.edit" for name in ["one", "two", "three"]]
    names = f"{told.BY_NAMES} f"
    found = [told.known(folder, it, told.ELSEWHERE, names) for it in edits]
    equal(found, [told.FOR_NAMES, told.ELSEWHERE, told.ELSEWHERE])
    equal(told.known(folder, edits[0], told.ELSEWHERE, "by g"), told.ELSEWHERE)
    equal(told.known(folder, edits[0], told.STILL_PROVED, ""), told.STILL_PROVED)


sys.exit(run_all(sys.argv[1:]))
