"""What becomes of a copy over the quota, by --over-quota."""

import re

from cases import case, equal
from clients import deliver_one
from replies import over_quota, rejected_over_quota
from server import Server


@case
def put_off_or_refused(folder):
    """--over-quota: a copy that doesn't fit is told 452 with defer and without the word, and 552 with reject; the log has
    that code, nothing is written, and the count at the end is the same"""
    for number, (more, reply) in enumerate([([], over_quota), (["defer"], over_quota), (["reject"], rejected_over_quota)]):
        place = folder / str(number)
        place.mkdir()
        words = ["--quota", 100, "--log", "info", *(["--over-quota", *more] if more else [])]
        with Server(place, ["anna", "ben"], 2, "--lanes", 1, *words) as server:
            for _ in range(2):
                equal(deliver_one(server.address, ["anna", "ben"], "hello"), [reply("anna"), reply("ben")])
            ended = server.end()
        expected = (0, ["anna stored 0", "ben stored 0"], ["lmtpd: anna over quota 2", "lmtpd: ben over quota 2"])
        equal((ended.status, ended.said, ended.errors[-2:]), expected)
        copies = [line for line in ended.errors if "copy answered" in line]
        codes = [re.search(r" outcome=(\S+) code=(\d+) ", line).groups() for line in copies]
        equal(codes, [("over-quota", reply("anna")[:3])] * 4)
        equal([path.read_bytes() for path in sorted(place.glob("*.mbox"))], [b"", b""])
