#!/usr/bin/env python3
"""Writes what the pages say of the program's words from the table of arguments (crates/lmtpd_words/src/arguments.rt):
synopsis and table of docs/operating/WORDS.md, synopsis and list of packaging/lmtpd.8, what packaging/lmtpd.bash
completes, and in packaging/lmtpd.start the words of a server that have no value. What it writes stands between lines
that say so; the rest of these files is as it was.
usage: building/words.py [--check]: with the word it writes nothing, and says which files would change
"""

import pathlib
import re
import sys
import textwrap

TOP = pathlib.Path(__file__).resolve().parent.parent
ARGUMENTS = TOP / "crates/lmtpd_words/src/arguments.rt"
WIDTH = 120
# a command, the list of its arguments, and the letter by which the manual page names it
COMMANDS = [("serve", "SERVE", "s"), ("rehearse", "REHEARSE", "r"), ("check", "CHECK", ""), ("copy", "COPY", "")]


class Argument:
    def __init__(self, text):
        """The text is what stands in its braces."""
        self.name, self.value, self.help = (
            re.search(rf'\b{field}: "((?:[^"\\]|\\.)*)"', text)[1] for field in ("name", "value", "help")
        )
        self.is_required = "is_required: true" in text
        self.kind = re.search(r"kind: ValueKind::(\w+)", text)[1]

    def is_word(self):
        """Whether it has a name before its value."""
        return self.kind not in ("Bare", "Texts")

    def spelled(self):
        """As a synopsis has it."""
        if not self.is_word():
            return f"{self.value}.." if self.kind == "Texts" else self.value
        return f"--{self.name} {self.value}".strip()


def read_commands():
    """Of each command the letter and its arguments, in their order."""
    text = ARGUMENTS.read_text()
    found = re.findall(r"^const (\w+): Argument = Argument \{\n(.*?)^\};", text, re.MULTILINE | re.DOTALL)
    arguments = {constant: Argument(fields) for constant, fields in found}
    commands = {}
    for command, constant, letter in COMMANDS:
        listed = re.search(rf"^pub const {constant}: \[Argument; (\d+)\] = \[(.*?)\];", text, re.MULTILINE | re.DOTALL)
        rows = [arguments[it] for it in re.findall(r"\w+", listed[2])]
        assert len(rows) == int(listed[1]), command
        commands[command] = letter, rows
    return commands


def optional(argument, spelled):
    return spelled if argument.is_required else f"[{spelled}]"


def synopsis(commands):
    """Of WORDS.md."""
    lines = ["```"]
    for command, (_, rows) in commands.items():
        words = [f"lmtpd {command}", *(optional(it, it.spelled()) for it in rows)]
        # a word and its value stay on one line
        kept = " ".join(it.replace(" ", "\0") for it in words)
        wrapped = textwrap.wrap(kept, WIDTH, subsequent_indent="    ", break_on_hyphens=False, break_long_words=False)
        lines += [it.replace("\0", " ") for it in wrapped]
    return [*lines, "```"]


def table(commands):
    """Of WORDS.md: the words of serve, with those of rehearse that it hasn't."""
    serve, rehearse = commands["serve"][1], commands["rehearse"][1]
    only = [it for it in rehearse if it.name not in {one.name for one in serve}]
    lines = ["| Word | Of | What it says |", "|---|---|---|"]
    for it in [*serve, *only]:
        letters = [letter for letter, rows in commands.values() if letter and it.name in {one.name for one in rows}]
        said = it.help.replace("|", "\\|").replace("*", "\\*")
        lines.append(f"| `{it.spelled()}` | {', '.join(letters)} | {said}{'; must be given' if it.is_required else ''} |")
    return lines


def in_page(text):
    """A text of the manual page, in lines."""
    lines = textwrap.wrap(text, WIDTH, break_on_hyphens=False, break_long_words=False)
    return [f"\\&{it}" if it[0] in ".'" else it for it in lines]


def value_in_page(argument):
    return f" Ar {argument.value.lower()}" if argument.value else ""


def page_synopsis(commands):
    lines = []
    for command, (_, rows) in commands.items():
        lines += [".Nm", f".Cm {command}"]
        for it in rows:
            if it.is_word():
                spelled = f"Fl -{it.name}{value_in_page(it)}"
            else:
                spelled = f"Ar {it.value.lower()}{' ...' if it.kind == 'Texts' else ''}"
            lines.append(f".{spelled}" if it.is_required else f".Op {spelled}")
    return [*lines, ".Nm", ".Fl -version"]


def page_list(commands):
    lines = []
    serve, rehearse = commands["serve"][1], commands["rehearse"][1]
    only = [it for it in rehearse if it.name not in {one.name for one in serve}]
    for it in [*serve, *only]:
        if it.is_word():
            letters = [letter for letter, rows in commands.values() if letter and it.name in {one.name for one in rows}]
            lines += [f".It Fl -{it.name}{value_in_page(it)}", f".Pq {', '.join(letters)}", *in_page(it.help.removesuffix(".") + ".")]
    return lines


def completion(commands):
    """Of each command the words that bash completes."""
    lines = []
    for command, (_, rows) in commands.items():
        words = " ".join([*(f"--{it.name}" for it in rows if it.is_word()), "--help"])
        for number, line in enumerate(textwrap.wrap(words, WIDTH - 20, break_on_hyphens=False)):
            lines.append(f"    {command}+=' {line}'" if number else f"    {command}='{line}'")
    return lines


def alone(commands):
    """The words of a server that have no value."""
    return [f"ALONE='{' '.join(f'--{it.name}' for it in commands['serve'][1] if it.kind == 'Flag')}'"]


# of each file what is written, by its name, and how a line begins and ends that nobody but its writers reads
WRITTEN = {
    "docs/operating/WORDS.md": ("<!-- ", " -->", {"synopsis": synopsis, "table": table}),
    "packaging/lmtpd.8": ('.\\" ', "", {"synopsis": page_synopsis, "list": page_list}),
    "packaging/lmtpd.bash": ("    # ", "", {"words": completion}),
    "packaging/lmtpd.start": ("# ", "", {"words": alone}),
}


def written(path, commands):
    """The file's text as it is to be."""
    before, after, parts = WRITTEN[path]
    text = (TOP / path).read_text()
    for name, make in parts.items():
        begin, end = (f"{before}{name} {word} building/words.py{after}\n" for word in ("from", "to here by"))
        assert text.count(begin) == text.count(end) == 1, (path, name)
        head, rest = text.split(begin)
        tail = rest.split(end)[1]
        text = head + begin + "".join(f"{it}\n" for it in make(commands)) + end + tail
    return text


def main(words):
    commands = read_commands()
    changed = [path for path in WRITTEN if written(path, commands) != (TOP / path).read_text()]
    for path in changed:
        if "--check" in words:
            print(f"{path} isn't what building/words.py makes of the table of arguments: run it")
        else:
            (TOP / path).write_text(written(path, commands))
            print(f"{path} is written anew")
    return 1 if changed and "--check" in words else 0


if __name__ == "__main__":
    sys.exit(main(sys.argv[1:]))
