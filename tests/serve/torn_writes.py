"""A server is killed within its write to a mailbox, at each place of a record, and the next one delivers."""

from cases import case, equal
from clients import deliver_one
from cut_writes import READERS, TOLD, Killer, deliver_after, judge
from mending import mends
from replies import stored
from server import Server

SOON = 6  # places within the From line that follows what mends


@case
def killed_at_each_place(folder):
    """a server is killed within its writes of a record, in each mailbox at another of its places, after a letter that
    was told 250: the next one mends it as it should, and git, Python and the check find that letter unchanged and the
    next one whole"""
    cut_everywhere(folder, TOLD)


@case
def killed_at_each_place_of_the_first(folder):
    """the same of a mailbox's first record"""
    cut_everywhere(folder, [])


def cut_everywhere(folder, told):
    """At each place of a record, from before its first byte to after its last."""
    killer = Killer(folder)
    length, _ = killer.length_of_record()
    cuts = killer.cut([(f"box{place}", place) for place in range(length + 1)], told)
    judge(cuts, deliver_after(folder, cuts), READERS)


@case
def killed_within_what_mends(folder):
    """a server is killed within what mends a torn record, or soon after it, at each place: the next one goes on as it
    began, and readers find the same"""
    killer = Killer(folder)
    with Server(folder, ["told"], 1, "--lanes", 1) as server:
        equal(deliver_one(server.address, ["told"], *TOLD), [stored("told")])
    told = (folder / "told.mbox").read_bytes()
    old, boxes = [], []
    for begun in [b"F", b"From ", b"From carl@a.exam", b"From carl@a.example Fri Nov 2", told[: told.find(b"\n") - 1]]:
        for place in range(1, len(mends(told + begun)) + SOON):
            boxes.append((f"box{len(boxes)}", place))
            old.append(told + begun)
            (folder / f"{boxes[-1][0]}.mbox").write_bytes(old[-1])
    cuts = [cut._replace(before=told) for cut in killer.cut(boxes)]
    both = [(begun + mends(begun), cut.torn + mends(cut.torn)) for begun, cut in zip(old, cuts, strict=True)]
    equal({first[len(told) :] for first, then in both if not then.startswith(first)}, set())
    judge(cuts, deliver_after(folder, cuts), READERS)


killed_at_each_place.seconds = killed_at_each_place_of_the_first.seconds = killed_within_what_mends.seconds = 120
