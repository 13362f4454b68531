"""Lines of docs/operating, typed as they stand by root."""

import pathlib
import subprocess

from cases import equal

PAGES = pathlib.Path(__file__).parents[2] / "docs/operating"


def lines_of(page, heading, number=1):
    """Those that stand below that heading, first, second and so on."""
    return (PAGES / page).read_text().split(f"\n{heading}\n")[1].split("```\n")[2 * number - 1]


def type_lines(lines):
    """All of them in one shell; each ends with status 0."""
    said = subprocess.run(["sh", "-e"], input=lines, stdout=subprocess.PIPE, stderr=subprocess.STDOUT, text=True)
    equal((lines, said.returncode, said.stdout if said.returncode else ""), (lines, 0, ""))
