"""A user's script: removes the letters of one reader from a mailbox by Python's `mailbox`, twenty at a time, until its
input ends. It prints the subjects of those that it removed.

usage: reads_by_python.py MAILBOX READER
"""

import mailbox
import os
import select
import sys
import time


def remove(path, reader):
    """The subjects that were removed."""
    named = os.stat(path).st_ino
    box = mailbox.mbox(path, create=False)
    try:
        box.lock()
    except mailbox.ExternalClashError:
        box.close()
        return []
    try:
        if os.stat(path).st_ino != named:
            return []  # another put a new file there, and this is the old one
        chosen = [(key, letter["subject"]) for key, letter in box.items() if letter["subject"].startswith(reader)][:20]
        for key, _ in chosen:
            box.remove(key)
        try:
            box.flush()
        except mailbox.ExternalClashError:
            # it may come up after the new file was put in place; before, somebody wrote in spite of the locks
            if os.stat(path).st_ino == named:
                raise
        return [subject for _, subject in chosen]
    finally:
        box.unlock()
        box.close()


while not select.select([sys.stdin], [], [], 0)[0]:
    for subject in remove(sys.argv[1], f"for-{sys.argv[2]} "):
        print(subject, flush=True)
    time.sleep(0.02)
