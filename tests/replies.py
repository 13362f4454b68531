"""What the program replies, line by line and without the ends of lines, as the tests expect it.

The texts are written out here by the standards and by hand, and once: nothing is taken from the program, and no test
types one of them again."""

HOST = "mx.example"
MESSAGE_LIMIT = 1_048_576  # bytes that a message may have where no limit is named


def greeting(host=HOST):
    return f"220 {host} LMTP ready"


def offer(host=HOST, limit=MESSAGE_LIMIT, utf8=False):
    """The lines of the reply to LHLO at a site of that limit, which has addresses in UTF-8 or not."""
    lines = [f"250-{host}", "250-PIPELINING", "250-ENHANCEDSTATUSCODES", "250-8BITMIME"]
    return [*lines, *(["250-SMTPUTF8"] if utf8 else []), offered_size(limit)]


def offered_size(limit=MESSAGE_LIMIT):
    """The last line of that reply."""
    return f"250 SIZE {limit}"


def closing(host=HOST):
    return f"221 2.0.0 {host} closing"


def stopping(host=HOST):
    return f"421 4.3.2 {host} stopping"


GREETING = greeting()
OFFER = offer()
CLOSING = closing()
STOPPING = stopping()

SENDER_OK = "250 2.1.0 Sender ok"
RECIPIENT_OK = "250 2.1.5 Recipient ok"
GO_AHEAD = "354 End with a lone dot"
RESET_OK = "250 2.0.0 Reset"
NOOP_OK = "250 2.0.0 Ok"
NOT_CHECKED = "252 2.0.0 Not checked"
HELP_TEXT = "214 2.0.0 LHLO MAIL RCPT DATA RSET NOOP QUIT VRFY HELP"

BUSY = "450 4.2.1 Mailbox busy"
NO_SUCH_BOX = "550 5.1.1 No such mailbox"
TOO_MANY = "452 4.5.3 Too many recipients"
OUT_OF_ORDER = "503 5.5.1 Out of order"
LINE_TOO_LONG = "500 5.5.2 Line too long"
UNKNOWN_COMMAND = "500 5.5.2 Unknown command"
USE_LHLO = "500 Use LHLO"
NOT_OFFERED = "502 5.5.1 Not offered"
BAD_ARGUMENTS = "501 5.5.4 Bad arguments"
BAD_SENDER = "501 5.1.7 Bad sender"
BAD_RECIPIENT = "501 5.1.3 Bad recipient"
BAD_CLIENT_NAME = "501 Bad client name"
UNKNOWN_PARAMETER = "555 5.5.4 Unknown parameter"
MESSAGE_TOO_LARGE = "552 5.3.4 Message too large"


def stored(box):
    return f"250 2.0.0 Stored for {box}"


def not_stored(box):
    return f"451 4.3.0 Not stored for {box}"


def no_room(box):
    return f"452 4.3.1 No room for {box}"


def over_quota(box):
    return f"452 4.2.2 Over quota for {box}"


def rejected_over_quota(box):
    return f"552 5.2.2 Over quota for {box}"


def too_large(box):
    return f"552 5.3.4 Too large for {box}"


def malformed(box):
    return f"554 5.6.0 Malformed for {box}"


def as_bytes(lines):
    """The lines as they come over a connection."""
    return "".join(f"{line}\r\n" for line in lines).encode()
