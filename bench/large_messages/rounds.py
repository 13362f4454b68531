"""usage: rounds.py FOLDER ROUNDS

The rounds and the table of bench/large_messages.sh, which built `load` in FOLDER, a folder in memory.
"""

import os
import pathlib
import re
import shutil
import statistics
import subprocess
import sys
import tempfile
import time

MIB = 1024 * 1024
LIMIT = 256 * MIB
BOXES = [f"u{number}" for number in range(10)]
# a size in MiB, and how many messages of it a round sends
SIZES = {1: 32, 64: 1}
LINE = b"x" * 62 + b"\r\n"


def milliseconds_of_serve(folder, size, recipients):
    """The median time of a message of that many MiB to as many mailboxes, from MAIL to its last reply."""
    mailboxes = folder / "mailboxes"
    mailboxes.mkdir()
    words = ["serve", "--host", "mx.example", "--listen", "127.0.0.1:0", "--dir", str(mailboxes), "--lanes", "1"]
    limits = ["--connections", "1", "--message-limit", str(LIMIT), "--timeout", "600"]
    server = subprocess.Popen([os.environ["LMTPD"], *words, *limits, *BOXES], stdout=subprocess.PIPE, text=True)
    try:
        address = server.stdout.readline().removeprefix("listening on ").strip()
        numbers = [1, 1, SIZES[size], recipients, size * MIB, len(BOXES)]
        said = subprocess.run(
            [folder / "load", address, "large", *map(str, numbers)], capture_output=True, text=True, check=True
        )
        server.communicate(timeout=60)
    finally:
        server.kill()
        shutil.rmtree(mailboxes)
    return float(re.search(r"p50_ms=([0-9.]+)", said.stdout)[1])


def run_of_rehearse(folder, size):
    """The seconds that a rehearsal of one message of that many MiB takes, and its peak of memory in bytes."""
    lines = size * MIB // len(LINE)
    words = ["rehearse", "--host", "mx.example", "--time", "0", "--message-limit", str(LIMIT), "anna"]
    with tempfile.TemporaryFile(dir=folder) as given, open("/dev/null", "wb") as nowhere:
        given.write(b"LHLO relay.example\r\nMAIL FROM:<carl@a.example>\r\nRCPT TO:<anna>\r\nDATA\r\n")
        for _ in range(lines // 1024):
            given.write(LINE * 1024)
        given.write(b".\r\nQUIT\r\n")
        given.seek(0)
        began = time.monotonic()
        child = subprocess.Popen([os.environ["LMTPD"], *words], stdin=given, stdout=nowhere)
        _, status, usage = os.wait4(child.pid, 0)
        seconds = time.monotonic() - began
    assert os.waitstatus_to_exitcode(status) == 0, status
    return seconds, usage.ru_maxrss * 1024


def main(folder, rounds):
    served, rehearsed, peaks = {}, {}, {}
    for _ in range(rounds):
        for recipients in [1, 10]:
            for size in SIZES:
                taken = milliseconds_of_serve(folder, size, recipients)
                served.setdefault((size, recipients), []).append(taken)
        for size in [64, 256]:
            seconds, peak = run_of_rehearse(folder, size)
            rehearsed.setdefault(size, []).append(seconds)
            peaks.setdefault(size, []).append(peak)
    held = True
    for recipients in [1, 10]:
        small, large = (statistics.median(served[size, recipients]) for size in SIZES)
        ratio = large / (64 * small)
        held &= ratio <= 1.3
        print(f"serve, {recipients} mailboxes: 1 MiB {small:.2f} ms, 64 MiB {large:.1f} ms: {ratio:.2f} (at most 1.3)")
    small, large = (statistics.median(rehearsed[size]) for size in [64, 256])
    held &= large <= 5 * small
    print(f"rehearse: 64 MiB {small:.2f} s, 256 MiB {large:.2f} s: {large / small:.2f} (at most 5)")
    share = statistics.median(peaks[256]) / (256 * MIB)
    held &= share <= 3
    print(f"rehearse, 256 MiB: a peak of {share:.2f} times its size (at most 3)")
    return 0 if held else 1


if __name__ == "__main__":
    sys.exit(main(pathlib.Path(sys.argv[1]), int(sys.argv[2])))
