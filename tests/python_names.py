"""Looks at each script in Python: each name that it reads is one that it makes or imports, and it reads all that it
imports. A script that runs seldom would else show it by failing, when somebody needs it.
usage: tests/python_names.py FILE..
"""

import ast
import builtins
import sys


def names_made(tree):
    """All names that some part of the script makes, wherever that is."""
    for node in ast.walk(tree):
        match node:
            case ast.FunctionDef() | ast.ClassDef():
                yield node.name
            case ast.alias():
                yield (node.asname or node.name).partition(".")[0]
            case ast.Name(ctx=ast.Store() | ast.Del()):
                yield node.id
            case ast.arg():
                yield node.arg
            case ast.ExceptHandler(name=str()) | ast.MatchAs(name=str()) | ast.MatchStar(name=str()):
                yield node.name


def faults(path):
    with open(path, encoding="utf-8") as file:
        text = file.read()
    tree = ast.parse(text)
    made = {*dir(builtins), "__file__", *names_made(tree)}
    read = {it.id: it.lineno for it in ast.walk(tree) if isinstance(it, ast.Name) and isinstance(it.ctx, ast.Load)}
    yield from (f"{path}:{line}: no {name}" for name, line in read.items() if name not in made)
    lines = text.splitlines()
    for node in ast.walk(tree):
        if isinstance(node, (ast.Import, ast.ImportFrom)) and "noqa: F401" not in lines[node.lineno - 1]:
            unread = sorted({(it.asname or it.name).partition(".")[0] for it in node.names} - read.keys())
            yield from (f"{path}:{node.lineno}: {name} isn't read" for name in unread)


def main():
    found = [fault for path in sys.argv[1:] for fault in faults(path)]
    print("\n".join(found) or f"{len(sys.argv) - 1} scripts have all names that they read")
    return 1 if found else 0


if __name__ == "__main__":
    sys.exit(main())
