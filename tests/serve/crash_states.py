"""Every state in which a crash may leave a mailbox, and what git, Python and the check find there once the next server has
delivered."""

import crashes
from cases import case
from cut_writes import READERS


@case
def crashed_in_a_new_mailbox(folder):
    """the first turn at a mailbox that this server made: whatever a crash leaves, the next letter is whole, and the
    first one is there once it was told 250"""
    crashes.in_a_new_mailbox(folder, READERS)


@case
def crashed_after_a_told_letter(folder):
    """a turn at a mailbox with a letter that was told 250: whatever a crash leaves, that one is unchanged, the next one
    whole, and the turn's own there once it was told"""
    crashes.after_a_told_letter(folder, READERS)


@case
def crashed_after_a_torn_tail(folder):
    """whatever a crash leaves where a record is torn within its From line, as an earlier crash left it: the same"""
    crashes.after_a_torn_tail(folder, READERS)


@case
def crashed_in_a_turn_that_breaks(folder):
    """whatever a crash leaves in a turn whose sync fails, which is cut back, and whose letter is told 451: the same"""
    crashes.in_a_turn_that_breaks(folder, READERS)


@case
def crashed_after_a_rename(folder):
    """whatever a crash leaves where another program put a new file in the mailbox's place, so that the path may name
    either one until the folder is synced: the same"""
    crashes.after_a_rename(folder, READERS)


@case
def crashed_with_bytes_unwritten(folder):
    """what a crash leaves where a file grew by a record of which not each byte was written: NULs stand in place of
    some, and any part of what was handed on behind them: the last told letter begins with its own lines, those before
    it are unchanged, and the next one is whole, also beside an empty lock file that is older than five minutes"""
    crashes.with_bytes_unwritten(folder, READERS)


for it in (
    crashed_in_a_new_mailbox,
    crashed_after_a_told_letter,
    crashed_after_a_torn_tail,
    crashed_in_a_turn_that_breaks,
    crashed_after_a_rename,
    crashed_with_bytes_unwritten,
):
    it.seconds = 180
