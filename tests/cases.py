"""What the tests in Python share: each case is told by a line of its own, with its verdict (ok, FAILED, or absent for
what this machine doesn't have), and in the end their count. A case is a function whose text is its name, or one
comparison. A case may give a text of what it saw, which its line has. Of a case that is left out the line says last, in
parentheses, what is lacking, in the words by which tests/may_be_absent names it."""

import pathlib
import signal
import tempfile
import traceback

CASES = []
SECONDS = 60  # that a case may take, where it says no other number itself
VERDICTS = []  # of those that were told
LEFT_OUT = 77  # the status of a script in which nothing fails, and something was left out


class Absent(Exception):
    """Something that a case needs isn't on this machine; the text says what: several, with commas between them."""


def case(function):
    CASES.append(function)
    return function


def run_all(expected):
    """Runs the cases whose names have one of these texts, or all; gives the status with which the script ends."""
    for function in CASES:
        if not expected or any(text in name_of(function) for text in expected):
            run(function)
    return sum_up()


def name_of(function):
    return " ".join(function.__doc__.split())


def run(function):
    signal.signal(signal.SIGALRM, too_long)
    signal.alarm(getattr(function, "seconds", SECONDS))
    try:
        with tempfile.TemporaryDirectory() as folder:
            verdict, why = "ok", function(pathlib.Path(folder)) or ""
    except Absent as absent:
        verdict, why = "absent", str(absent)
    except Exception as fault:
        verdict, why = "FAILED", f"{place(fault)}: {fault!r}"
    finally:
        signal.alarm(0)
    tell(name_of(function), verdict, why)


def too_long(*_):
    raise TimeoutError("more seconds than it may take")


def place(fault):
    """The file and line of a test in which it came up."""
    here = str(pathlib.Path(__file__).parent)
    frames = [it for it in traceback.extract_tb(fault.__traceback__) if it.filename.startswith(here)]
    at = [it for it in frames if it.filename != __file__][-1]
    return f"{pathlib.Path(at.filename).name}:{at.lineno}"


def compare(name, found, expected):
    """A case that is one comparison. A case may give a text of what it saw, which its line has."""
    is_same = found == expected
    tell(name, "ok" if is_same else "FAILED", "" if is_same else both(found, expected))


def tell(name, verdict="ok", why=""):
    """The line of one case."""
    VERDICTS.append(verdict)
    print(f"{verdict}: {name}{why and f' ({why})'}", flush=True)


def sum_up():
    """Counts the cases that were told, and gives the status with which the script ends."""
    held, failed, absent = [VERDICTS.count(verdict) for verdict in ["ok", "FAILED", "absent"]]
    print(f"{held} of {len(VERDICTS)} cases hold, {failed} fail, {absent} left out")
    return 1 if failed else LEFT_OUT if absent else 0


def equal(found, expected):
    """A comparison within a case, which says both where they differ."""
    if found != expected:
        raise AssertionError(both(found, expected))


def both(found, expected):
    return f"found {short(found)}, expected {short(expected)}"


def short(value):
    text = repr(value)
    return text if len(text) < 600 else text[:500] + " .. " + text[-90:]
