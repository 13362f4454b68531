"""What documents cite is there: each name of a function, a test or a definition, each file, and each text by which a
case of tests/serve.sh or tests/real/run.sh is named. And docs/RULES.md has each function that a crate hands on, and
what it says was tried over a commit was tried over the sources that stand."""

import pathlib
import re
import subprocess
import sys

from cases import Absent, case, equal, run_all
from exported import exported_by, methods_of

ROOT = pathlib.Path(__file__).parent.parent.parent
RULES = "docs/RULES.md"
# Those that speak of what is here now: others say of what there was, too.
OF_SOURCES = ["README.md", "CONTRIBUTING.md", "docs/ARCHITECTURE.md", "docs/DECISIONS.md", "docs/PROVING.md", RULES]
# In these a name may be another program's.
OF_USE = ["docs/OPERATING.md", *sorted(f"docs/operating/{it.name}" for it in (ROOT / "docs/operating").iterdir())]
NAME = re.compile(r"`([a-z][a-z0-9]*(?:_[a-z0-9]+)+)`")
FILE = re.compile(r"`((?:crates|tests|bench|building|packaging|docs)/[\w./-]*\w)`")
NAMED_CASE = re.compile(
    r"`tests/(serve|real/run)\.sh ((?:'[^'`]+' ?)+)`"
    r'|`tests/(serve)\.sh` ("[^"]+"(?:, "[^"]+")*)'
)
TEXT = re.compile(r"'([^']+)'|\"([^\"]+)\"")
# How docs/RULES.md names a definition (`Text.unix`, `lmtp_wire/Wire.Takes`), a source (`lmtp_wire/wire.rt`), a folder
# or file of tests of whole calls, and functions (`Wire::{new,line}`, `Wire::new`, `stuff`).
DEFINITION = re.compile(r"`(?:([a-z_]+)/)?([A-Z]\w*)(?:\.(\w+))?`")
SOURCE = re.compile(r"`([a-z_]+)/([a-z_/]+\.rt)`")
CALLS = re.compile(r"`calls/([a-z_/]+)`")
FUNCTIONS = re.compile(r"`(?:(\w+)::)?(?:\{([a-z0-9_, ]+)\}|([a-z]\w*))`")
QUOTED = re.compile(r"`(\w+)`")
# What was tried over the sources of a commit, and any other words for that.
TRIED = re.compile(r"\btried over `?([0-9a-f]{8})\b(?!`?'s)")
OVER = re.compile(r"\bover\b[^.|]{0,40}?\b(?=[0-9a-f]*\d)(?=[0-9a-f]*[a-f])[0-9a-f]{7,40}\b")


def tracked():
    """The files of the repository, new ones too."""
    said = subprocess.run(["git", "ls-files", "-co", "--exclude-standard"], cwd=ROOT, capture_output=True, check=True)
    return [it for it in said.stdout.decode().splitlines() if (ROOT / it).is_file()]


def words_of(files):
    """Each word of these files' texts and names."""
    words = set()
    for file in files:
        words |= set(re.findall(r"\w+", (ROOT / file).read_text(errors="replace"))) | set(re.findall(r"\w+", file))
    return words


def cases_of(folder):
    """The texts of a folder's cases, as they are told."""
    texts = [" ".join(it.read_text().split()) for it in (ROOT / "tests" / folder).glob("*.py")]
    return "\n".join(texts)


def cited(pattern, document):
    return pattern.finditer((ROOT / document).read_text())


@case
def names_are_there(_):
    """each name with a line under its words that a document cites stands in the sources, tests or scripts"""
    words = words_of(it for it in tracked() if not it.endswith(".md"))
    equal([(it, found[1]) for it in OF_SOURCES for found in cited(NAME, it) if found[1] not in words], [])


@case
def files_are_there(_):
    """each file or folder of this repository that a document cites by its path is there, but what is built, and but
    for paths in which NAME stands for any crate"""
    paths = [(it, found[1]) for it in [*OF_SOURCES, *OF_USE] for found in cited(FILE, it)]
    named = [(it, path) for it, path in paths if not re.search(r"\bNAME\b|/out/", path)]
    equal([(it, path) for it, path in named if not (ROOT / path).exists()], [])


@case
def named_cases_are_there(_):
    """each text by which a document has a case of tests/serve.sh or tests/real/run.sh run is a part of one's name"""
    texts = {folder: cases_of(folder) for folder in ["serve", "real"]}
    missing = []
    for document in [*OF_SOURCES, *OF_USE]:
        for found in cited(NAMED_CASE, document):
            folder, named = (found[1] or found[3]).partition("/")[0], found[2] or found[4]
            for text in TEXT.finditer(named):
                if " ".join((text[1] or text[2]).split()) not in texts[folder]:
                    missing.append((document, text[0]))
    equal(missing, [])


def crates():
    return sorted(it for it in (ROOT / "crates").iterdir() if (it / "src").is_dir())


def rows_of(document):
    """The rows of the document's tables, each as its cells by the heads of their columns."""
    heads = None
    for line in (ROOT / document).read_text().splitlines():
        cells = [it.strip() for it in line.strip().strip("|").split("|")] if line.startswith("|") else None
        if cells is None:
            heads = None
        elif heads is None:
            heads = cells
        elif not set(line) <= set("|- "):
            yield dict(zip(heads, cells))


@case
def definitions_are_there(_):
    """each definition that docs/RULES.md cites by its file stands in that file of specs/"""
    missing = []
    for found in cited(DEFINITION, RULES):
        file = ROOT / "crates" / (found[1] or "mail_world") / "specs" / f"{found[2]}.antt"
        is_file = found[3] or found[1] or file.exists()
        if is_file and not (file.exists() and re.search(rf"\b{found[3] or ''}\b", file.read_text())):
            missing.append(found[0])
    equal(missing, [])


@case
def sources_are_there(_):
    """each source, and each folder of tests of whole calls, that docs/RULES.md cites in its short form is there"""
    sources, calls = {}, ROOT / "tests/calls/src"
    for found in cited(SOURCE, RULES):
        sources[found[0]] = [ROOT / "crates" / found[1] / "src" / found[2]]
    for found in cited(CALLS, RULES):
        sources[found[0]] = [calls / found[1], calls / f"{found[1]}.rt.in"]
    equal([it for it, places in sources.items() if not any(place.exists() for place in places)], [])


def functions_in_text(text):
    """The functions that the text names, as `Type::name` or `name`."""
    for found in FUNCTIONS.finditer(text):
        for name in re.findall(r"\w+", found[2] or found[3]):
            yield f"{found[1]}::{name}" if found[1] else name


@case
def methods_are_there(_):
    """each function of a type that docs/RULES.md names is one of that type's"""
    there = set().union(*(methods_of(it) for it in crates()))
    named = functions_in_text((ROOT / RULES).read_text())
    equal([it for it in named if "::" in it and it not in there], [])


@case
def each_exported_function_has_its_row(_):
    """each function that a crate hands on, laws too, is named in a row of docs/RULES.md"""
    named = set(functions_in_text("\n".join(cell for row in rows_of(RULES) for cell in row.values())))
    exported = {(it.name, name) for it in crates() if (it / "src/lib.rt").exists() for name in exported_by(it)}
    equal(sorted(it for it in exported if it[1] not in named), [])


@case
def wrong_bodies_are_there(_):
    """each wrong body that a row of docs/RULES.md names as refused is an edit in one of the folders of these"""
    folders = [*(ROOT / "crates").glob("*/must-fail*"), *(ROOT / "tests/wrong_bodies").iterdir()]
    edits = {edit.stem for folder in folders for edit in folder.glob("*.edit")}
    named = [name for row in rows_of(RULES) for name in QUOTED.findall(row.get("Refused", ""))]
    equal([it for it in named if it not in edits], [])
    equal(len(named) > 0, True)


def sentences_of(document):
    """The sentences of the document; a row of a table, or a line, ends one."""
    return [it for line in (ROOT / document).read_text().splitlines() for it in re.split(r"(?<=[.!?])\s", line)]


def crates_in(sentence):
    return [it.name for it in crates() if f"`{it.name}`" in sentence]


def changed_since(commit, crate):
    """Whether the crate's sources are others than at that commit."""
    asked = ["git", "diff", "--quiet", commit, "--", f"crates/{crate}/src"]
    status = subprocess.run(asked, cwd=ROOT, capture_output=True, check=False).returncode
    if status > 1:
        raise Absent("a commit that a document names")
    return status == 1


@case
def what_was_tried_was_tried_over_these_sources(_):
    """what a document says was tried over a commit names its crates, whose sources are as they were there"""
    documents = [it for it in tracked() if it.endswith(".md")]
    told = [(it, sentence) for it in documents for sentence in sentences_of(it) if OVER.search(sentence)]
    equal([it for it in told if len(OVER.findall(it[1])) != len(TRIED.findall(it[1]))], [])
    equal([it for it in told if not crates_in(it[1])], [])
    over = {(commit, crate) for _, it in told for commit in TRIED.findall(it) for crate in crates_in(it)}
    equal(sorted(it for it in over if changed_since(*it)), [])


sys.exit(run_all(sys.argv[1:]))
