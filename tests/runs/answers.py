"""What `lmtpd check` answers, against the page that says what to do (TROUBLE.md): each answer has one line there, each
line there is an answer, and what is to be typed mends a mailbox."""

import pathlib
import re
import subprocess

PAGE = pathlib.Path("docs/operating/TROUBLE.md")
BROKEN = b"From a\n\n" * 2 + b"From b\nx\n"


def lines_of_page():
    """The first column of the table, as patterns."""
    table = re.findall(r"^\| `([^|]*)` \|", section(), re.MULTILINE)
    return {line: re.compile(re.sub("COUNT|PLACE|NUMBER|START", "[0-9]+", line).replace("FILE", ".+")) for line in table}


def section():
    return PAGE.read_text().split("## What a check says\n")[1].split("\n## ")[0]


def untold(said):
    """Lines that no line of the page has, or more than one; and lines of the page that none of these is."""
    patterns = lines_of_page()
    found = {line: [name for name, pattern in patterns.items() if pattern.fullmatch(line)] for line in said}
    wrong = [line for line, names in found.items() if len(names) != 1]
    return wrong, sorted(set(patterns) - {name for names in found.values() for name in names})


def mended(folder, program):
    """A mailbox whose fourth letter begins right after a line, once what the page has to type was typed."""
    path = pathlib.Path(folder, "carla.mbox")
    path.write_bytes(BROKEN + b"From c\n\n")
    place = len(BROKEN)
    return typed(folder, program, 1, path, {"20476": place, "20477": place + 1})


def cut_out(folder, program, before, spoilt, after):
    """A mailbox of these bytes, once what the page has to type took out those that a power cut left."""
    path = pathlib.Path(folder, "emil.mbox")
    path.write_bytes(before + spoilt + after)
    place, following = len(before), len(before + spoilt)
    return typed(folder, program, 3, path, {"12288": place, "16387": following + 1})


def typed(folder, program, number, path, places):
    """What comes of those lines of the page, with these numbers in the place of its own, and the mailbox then."""
    lines = section().split("```\n")[number].replace("lmtpd", program)
    for shown, place in places.items():
        assert shown in lines, lines
        lines = lines.replace(shown, str(place))
    said = subprocess.run(["sh", "-euc", lines], cwd=folder, capture_output=True, text=True, timeout=20)
    return said.returncode, said.stdout, said.stderr, path.read_bytes()
