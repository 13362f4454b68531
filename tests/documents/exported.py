"""Which functions the crates hand on, by their sources: public ones of modules and types that a crate's lib.rt names,
and the methods of such traits; laws too, whose bodies are empty."""

import re

BLOCK = re.compile(r"^[ \t]*(pub )?(?:unsafe )?(impl|trait)\b([^{;]*)", re.M)
FUNCTION = re.compile(r"(\bpub(?:\([^)]*\))? )?((?:const |unsafe |ghost )*)\bfn (\w+)")


def without_texts(source):
    """The source without comments, and with blanks in its texts."""
    source = re.sub(r"//[^\n]*", "", source)
    source = re.sub(r'"(?:\\.|[^"\\])*"', '""', source, flags=re.S)
    return re.sub(r"b?'(?:\\.|[^'\\])'", "' '", source)


def end_of_braces(text, at):
    """The place of the brace that closes the one at that place."""
    depth = 0
    for place in range(at, len(text)):
        depth += {"{": 1, "}": -1}.get(text[place], 0)
        if depth == 0:
            return place
    return len(text)


def type_in(head):
    """The type of an impl or a trait by what stands after that word, and whether it is an impl of a trait."""
    head = re.sub(r"\bwhere\b.*", "", head, flags=re.S).replace("->", "").strip()
    depth, begin = 0, 0
    for place, letter in enumerate(head) if head.startswith("<") else []:
        depth += {"<": 1, ">": -1}.get(letter, 0)
        if depth == 0:
            begin = place + 1
            break
    of_trait = re.search(r"\bfor\s+(.*)", head[begin:], re.S)
    name = re.search(r"\w+", of_trait[1] if of_trait else head[begin:])
    return name[0] if name else "()", bool(of_trait)


def functions_in(source):
    """Of each function of the source: its type or trait, None where it has none; its name; and whether it, or the
    trait that asks for it, is public."""
    text = without_texts(source)
    blocks = []
    for found in BLOCK.finditer(text):
        begin = text.find("{", found.end())
        name, of_trait = type_in(found[3])
        is_public_trait = found[2] == "trait" and bool(found[1])
        blocks.append((begin, end_of_braces(text, begin), name, of_trait, is_public_trait))
    for found in FUNCTION.finditer(text):
        within = [it for it in blocks if it[0] < found.start() < it[1]]
        owner, of_trait, asked = within[-1][2:] if within else (None, False, False)
        is_public = asked or found[1] == "pub " and not of_trait
        if "ghost" not in found[2]:
            yield owner, found[3], is_public


def sources_of(crate):
    """The crate's modules without its tests."""
    folder = crate / "src"
    return [it for it in sorted(folder.rglob("*.rt")) if "tests" not in it.relative_to(folder).parts]


def handed_on(crate):
    """The names that a crate's lib.rt hands on, and its public modules."""
    text = without_texts((crate / "src/lib.rt").read_text())
    names = {name for use in re.findall(r"\bpub use ([^;]+);", text) for name in re.findall(r"\w+", use)}
    return names, set(re.findall(r"\bpub mod (\w+)", text)) | {"lib"}


def exported_by(crate):
    """The functions that the crate hands on, as `Type::name` or `name`."""
    names, modules = handed_on(crate)
    found = set()
    for file in sources_of(crate):
        source = file.read_text()
        is_open = str(file.relative_to(crate / "src").with_suffix("")) in modules
        types = set(re.findall(r"\bpub (?:struct|enum|trait) (\w+)", source)) if is_open else set()
        for owner, name, is_public in functions_in(source):
            if is_public and (owner or name) in (names | types | ({name} if is_open and not owner else set())):
                found.add(f"{owner}::{name}" if owner else name)
    return found


def methods_of(crate):
    """Each `Type::name` of the crate's functions, private ones too, and those of traits that a type has."""
    methods = set()
    for file in sources_of(crate):
        methods |= {f"{owner}::{name}" for owner, name, *_ in functions_in(file.read_text()) if owner}
    return methods
