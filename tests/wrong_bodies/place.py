"""The functions that a wrong body changes."""
import re
import typing


class Place(typing.NamedTuple):
    """The function that a wrong body changes."""

    path: str  # of its file, in the crate's folder
    owner: str  # the type whose method it is, with the trait's name after it where it is of a trait; or nothing
    name: str  # or nothing, where no function is changed

    def module(self):
        """Its file's module; nothing for the crate's root."""
        inside = self.path.removeprefix("src/").removesuffix(".rt").removesuffix("lib").removesuffix("main")
        return inside.replace("/", "::")

    def checked_as(self):
        """Its name for `rt check --only`: a method's has its type's module, and the end of a name is enough. Nothing
        where no function is changed."""
        return self.name and "::".join(filter(None, [self.owner or self.module(), self.name]))

    def has_proof(self, folder):
        """Whether its proof stands in that folder of the crate's proofs: a method's below its type's module."""
        if self.owner:
            return f"/{folder}".endswith(f"/{self.owner}/{self.name}")
        return bool(self.name) and folder == "/".join(filter(None, [*self.module().split("::"), self.name]))

    def has_line(self, text, line):
        """Whether it, or what stands before it in `#[..]`, has this line of its file's text, counted from 1."""
        return bool(self.name) and function_at(text, after_attributes(text, line)) == (self.owner, self.name)

    def named_in_a_check(self):
        """What a check's line on this function begins with, and on no other: the type's name may be followed by its
        parameters, and so may the trait's, which begin with a sign and have no `::`."""
        if self.owner:
            return rf"fn \w+::(\S+::)?{self.owner}([^\w\s:][^\s:]*)?::{self.name}"
        return "::".join(filter(None, [r"fn \w+", self.module(), self.name]))


def after_attributes(text, line):
    """The line itself, and the one after all that stands in `#[..]` where it begins with that."""
    lines = text.splitlines()
    while line < len(lines) and lines[line - 1].lstrip().startswith("#["):
        line = next((at + 1 for at in range(line, len(lines)) if lines[at - 1].endswith("]")), len(lines))
    return line


def function_at(text, line):
    """The owner and the name of the function that has this line of the text, counted from 1; nothing where none has
    it."""
    lines = text.splitlines()
    for start in range(min(line, len(lines)) - 1, -1, -1):
        head = re.match(r"( *)(?:pub(?:\([a-z]+\))? )?(?:const )?fn (\w+)", lines[start])
        if head:
            ends = (at for at in range(start, len(lines)) if lines[at] == head[1] + "}")
            has_line = line - 1 <= next(ends, len(lines))
            return (owner_at(lines, start) if head[1] else "", head[2]) if has_line else ("", "")
    return "", ""


def is_of_contract(text, line):
    """Whether this line of the text is of what a function requires and ensures, and so none that runs."""
    for it in reversed(text.splitlines()[:line]):
        if re.match(r" *(where|requires|ensures)\b", it):
            return True
        if re.fullmatch(r" *\{", it) or re.match(r" *(?:pub(?:\([a-z]+\))? )?(?:const )?fn \w", it):
            return False
    return False


def owner_at(lines, start):
    """The type whose impl has this line, with the trait's name after it."""
    head = next((it for it in reversed(lines[:start]) if it.startswith("impl")), "")
    head = re.sub(r"^impl(<.*?>)? (?=[A-Z])", "", head)
    names = re.match(r"(?:(\w+)(?:<.*>)? for )?(\w+)", head)
    return (names[2] + (names[1] or "")) if names else ""


def places_of(edit, crate):
    """The functions whose code the wrong body changes, one change after the other; a place without a name where it
    changes none's."""
    path, old, texts, found = None, None, {}, set()
    for line in edit.read_text(encoding="utf-8").splitlines():
        word, _, rest = line.partition(":")
        rest = rest.removeprefix(" ")
        if word == "file":
            path = rest.strip()
            texts.setdefault(path, (crate / path).read_text(encoding="utf-8"))
        elif word == "old":
            old = rest
        elif word == "new" and path:
            before, _, after = texts[path].partition(old)
            line = before.count("\n") + 1
            is_code = not is_of_contract(texts[path], line)
            found.add(Place(path, *(function_at(texts[path], line) if is_code else ("", ""))))
            texts[path] = before + rest + after
    return {it for it in found if it.name} or found
