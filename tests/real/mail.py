"""Messages that the cases send, and what of them must be in a mailbox."""

import re

import letters
from cases import equal

LINES = [
    "From: <carl@a.example>",
    "To: <anna@mx.example>",
    "Date: Mon, 23 Nov 2026 10:00:00 +0000",
    "Message-ID: <{name}@a.example>",
    "Subject: {name}",
    "MIME-Version: 1.0",
    "Content-Type: text/plain; charset=utf-8",
    "Content-Transfer-Encoding: 8bit",
    "",
    "From here on, with {name}",
    ">From there",
    ".",
    "..a dot",
    "",
    "\ta tab, and gr\u00fc\u00dfe",
    "end",
    "",
]

# A relay's own lines, each of which may go on over several.
NAMES = b"Received|Return-Path|Delivered-To|Envelope-to|Delivery-date"
OF_RELAYS = re.compile(rb"\A(?:(?:" + NAMES + rb"):[^\n]*\n(?:[ \t][^\n]*\n)*)*")


def message(name):
    """With CRLF, as it is sent."""
    return "\r\n".join(LINES).format(name=name).encode()


def equal_mailbox(path, names):
    """The mailbox has just these messages, byte for byte after the lines that relays put before them."""
    found = [OF_RELAYS.sub(b"", text, count=1) for text in letters.messages(path)]
    equal(found, [message(name).replace(b"\r\n", b"\n") for name in names])
