"""How a wrong body was met: what a check says of a crate with one in its place, judged by the place of each line. A
wrong body counts as refused where a goal of a function that it changes isn't met: one that the prover asks for and
doesn't find, or an answer in that function's proof that shows another statement than is asked for now. A proof that
names what isn't there any more shows nothing by that, nor does what is refused in another function."""
import difflib
import pathlib
import re
import typing

from place import function_at, places_of

REFUSED = "refused by a goal of its function"
FOR_NAMES = "refused for names alone, as is known"
ELSEWHERE = "refused elsewhere"
NO_COMPILE = "doesn't compile"
STILL_PROVED = "still proved"
NOT_TRIED = "not tried"
NOT_LOOKED_AT = "not looked at"
KINDS = [REFUSED, FOR_NAMES, ELSEWHERE, NO_COMPILE, STILL_PROVED, NOT_TRIED, NOT_LOOKED_AT]
BAD = KINDS[2:]
NO_SUCH_PATH = 2  # the status of a check that was to look at what isn't there

# what is said of one that only names refuse which stand in its own function's proof
BY_NAMES = "by the names in the proof of"

# how a goal isn't met
OTHER = "another statement"
FALSE = "false at some values"
OPEN = "not proved"

# so the check says that it made no goals of a function: its form isn't covered, or it calls one that has no proof
NO_GOALS = r"does not cover this function yet|[:;] it calls|which (has no proof|is not proved)"
# a text that can't be read says nothing of a contract
UNREAD = r"is not in scope|has no field|is no name|operand is missing|expected the end|cannot continue"
# nor does a proof that names what the wrong body took away, or what cites such a proof
NAMES = r"has no field|is not in scope|has no `|is no name|was not admitted"
# a goal's name; that of a lemma beside it has no sign but `_`
GOAL = r"`(returns|[^`\s.]+-[^`\s.]+)`"
ASKED = rf"note: (?:\./)?(src/\S+?):(\d+):\d+: (?:it is not proved that|`search` found no proof) .*?\({GOAL}\)(.*)"
ANSWER = r"(?:\./)?proofs/(\S+)/(Answers|Invariants)\.antt:\d+:\d+: error: (.*)"
STATEMENT = rf"note: {GOAL} of (?:\./)?proofs/(\S+)/Answers\.antt must prove: (.*)"
DEFINED = r"(?:abbrev )?(?:pub )?"
DIFFERS = r"\bthe two (types|sides)\b|\bbut this has type\b"
NOT_FOUND = r"\bno proof of\b|\bthe goal does not follow\b"


class Unmet(typing.NamedTuple):
    """A goal of a function that isn't met."""

    goal: str
    how: str


def messages(said):
    """The check's lines, each with the further lines of its text, which are set in."""
    return re.sub(r"\n  +(?!\|)", " ", said).splitlines()


def wrong_answers(place, said):
    """What the check finds wrong in the proof of the function at this place: of each its folder, the file's stem, the
    goal, or nothing where it is no goal's, and the text."""
    for line in messages(said):
        found = re.match(ANSWER, line)
        if found and place.has_proof(found[1]):
            goal = re.match(f"{GOAL}: ", found[3])
            yield found[1], found[2], goal[1] if goal and found[2] == "Answers" else "", found[3]


def names_gone(place, said):
    """The answers in the proof of the function at this place that name what isn't there: their folder and the goal."""
    return {(folder, goal) for folder, _, goal, text in wrong_answers(place, said) if re.search(NAMES, text)}


def unmet(place, said, texts):
    """The goals of the function at this place that aren't met. The texts are those that the check read in place of the
    crate's own, by their paths. Where its proof names what isn't there, a goal may lack what that would say: what is
    not proved counts for nothing then, and only what the proof shows of another statement does."""
    found = []
    for _, _, goal, text in wrong_answers(place, said):
        if goal and not re.search(NAMES, text):
            how = OTHER if re.search(DIFFERS, text) else OPEN if re.search(NOT_FOUND, text) else None
            found += [Unmet(goal, how)] if how else []
    for line in messages(said):
        asked = re.match(ASKED, line)
        if asked and asked[1] == place.path and place.has_line(texts[place.path], int(asked[2])):
            found.append(Unmet(asked[3], FALSE if "values at which this goal is false" in asked[4] else OPEN))
    return [it for it in found if it.how == OTHER] if names_gone(place, said) else found


def has_no_goals(place, said):
    """Whether the check says that it made no goals of the function at this place."""
    line = rf"{place.named_in_a_check()}: .*({NO_GOALS})"
    return bool(place.name) and any(re.match(line, it) for it in said.splitlines())


def is_unread(line, texts):
    """Whether the line says that a text of the sources, of specs or of a changed file couldn't be read."""
    at = re.match(r"(?:\./)?(\S+?):\d+:\d+: error: (?:(`[^`]*`): )?(.*)", line)
    if not at or at[1] not in texts and not at[1].startswith(("src/", "specs/")):
        return False
    return not at[2] or bool(re.search(UNREAD, re.sub(r"`[^`]*`", "", at[3])))


def place_of_a_line(line, crate, texts):
    """The function that the line speaks of, and where that isn't to be seen the place alone."""
    at = re.match(r"(?:note: )?(?:\./)?((src|proofs)/\S+?):(\d+):\d+:", line)
    if at and at[2] == "src":
        text = texts[at[1]] if at[1] in texts else (crate / at[1]).read_text(encoding="utf-8")
        return function_at(text, int(at[3]))[1] or at[1]
    if at:
        path = pathlib.PurePath(at[1])
        return path.parent.name if path.stem in ("Answers", "Invariants") else at[1]
    return "no place"


def met(edit, crate, texts, status, said):
    """How it was met, as one of KINDS, and what more is to be said. The texts are those that it makes, by their paths;
    the crate's files are as they were before it."""
    if status == 0:
        return STILL_PROVED, ""
    lines = said.splitlines()
    compiler = next((it for it in lines if re.search(r"\S+:\d+:\d+: error\[", it) or is_unread(it, texts)), None)
    if compiler:
        return NO_COMPILE, compiler
    if not any(it.startswith(("logic=not-proved", "only=")) for it in lines):
        return NOT_TRIED, " ".join(lines[-3:])
    own = sorted(places_of(edit, crate))
    for place in own:
        if unmet(place, said, texts):
            return REFUSED, told_goal(place, unmet(place, said, texts))
    for place in own:
        if names_gone(place, said):
            return ELSEWHERE, f"{BY_NAMES} {place.name}"
        if has_no_goals(place, said):
            return NOT_LOOKED_AT, place.name
    found = [it for it in lines if re.match(r"(note: )?\S+:\d+:\d+:", it) and (": error" in it or it[:5] == "note:")]
    return ELSEWHERE, f"by {place_of_a_line(next(iter(found), ''), crate, texts)}"


def known(root, edit, kind, more):
    """The kind of a wrong body that was met so, by what tests/wrong_bodies/for_names says of it."""
    crate = edit.parent.parent.name if edit.parent.name.startswith("must-fail") else edit.parent.name
    lines = (root / "tests/wrong_bodies/for_names").read_text(encoding="utf-8").splitlines()
    named = {line.partition(" | ")[0] for line in lines if line.partition(" | ")[2].strip()}
    return FOR_NAMES if kind == ELSEWHERE and more.startswith(BY_NAMES) and f"{crate}/{edit.name}" in named else kind


def told_goal(place, goals):
    """The goal that tells most of those that aren't met, and its function."""
    goal = min(goals, key=lambda it: [OTHER, FALSE, OPEN].index(it.how))
    return f"{place.name}, {goal.goal} ({goal.how})"


def asked(place, said, texts, names):
    """What is asked for at the goals of the function at this place that aren't met, with whether it is false at some
    values; of each its goal. `names` are those of the edit's that stand for others, by which these are written here."""
    how = {it.goal: it.how for it in unmet(place, said, texts)}
    found = {}
    for line in messages(said):
        goal = re.match(STATEMENT, line)
        if goal and place.has_proof(goal[2]):
            statement = re.sub(r"[A-Za-z_]\w*", lambda word: names.get(word[0], word[0]), goal[3])
            found[statement, how.get(goal[1]) == FALSE] = goal[1]
    return found


def without(text, goals):
    """The text of a proof without its answers to these goals."""
    parts = re.split(rf"\n(?={DEFINED}\S+ :)", text)
    heads = [re.match(rf"{DEFINED}(\S+) :", it) for it in parts]
    return "\n".join(it for it, head in zip(parts, heads) if not head or head[1] not in goals)


def new_names(edit):
    """The names of values that the edit's texts have in the place of others, each with that one."""
    lines = edit.read_text(encoding="utf-8").splitlines()
    texts = [[it.partition(":")[2] for it in lines if it.startswith(word)] for word in ("old:", "new:")]
    before, after = (re.findall(r"\w+|::|[^\w\s]", "\n".join(it)) for it in texts)
    found = {}
    for kind, a, b, c, d in difflib.SequenceMatcher(None, before, after, False).get_opcodes():
        if kind == "replace" and b - a == d - c:
            found |= {after[c + at]: before[a + at] for at in range(b - a) if is_value(before, a + at)}
    return found


def is_value(words, at):
    """Whether the word names a value, and no function, type or field."""
    after, before = words[at + 1 : at + 2], words[at - 1 : at] if at else []
    return words[at].isidentifier() and after not in (["("], ["::"], ["{"], ["!"]) and before not in (["."], ["::"])
