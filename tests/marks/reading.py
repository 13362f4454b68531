"""What a mailbox has of a message whose marks are renamed, read off the definition's text.

The head of a text is what stands before its first empty line (LF ends a line), all of it where there is none. Within it
a field begins at the start, after each LF and after each CR. A mark is a field that begins with zero or more times
`X-Was-`, then a name of a mark in any letter case, then a colon, a space, a tab, a NUL, a vertical tab or a form feed.
One more `X-Was-` stands in front of each mark of the head."""

import re

WAS = b"X-Was-"
NAMES = [b"Status", b"X-Status", b"X-UID", b"X-Keywords", b"X-IMAP", b"X-IMAPbase", b"Content-Length"]
# only the names are read in any letter case
MARK = re.compile(rb"(?:X-Was-)*(?i:%s)[: \t\0\v\f]" % b"|".join(re.escape(name) for name in NAMES))
RENAMED = re.compile(rb"X-Was-(?=(?:X-Was-)*(?i:%s)[: \t\0\v\f])" % b"|".join(re.escape(name) for name in NAMES))


def unix(message):
    """The message as it came, without each CR directly before an LF."""
    return message.replace(b"\r\n", b"\n")


def head_and_rest(text):
    """The head, and what follows it, which is nothing or begins with an empty line."""
    at = 0
    while at < len(text):
        until = text.find(b"\n", at) + 1 or len(text)
        if text[at:until] == b"\n":
            break
        at = until
    return text[:at], text[at:]


def fields(head):
    """The fields of a head, each with the LF or CR that ends it."""
    return re.findall(rb"[^\r\n]*[\r\n]|[^\r\n]+", head)


def marked(text):
    head, rest = head_and_rest(text)
    return b"".join(WAS + it if MARK.match(it) else it for it in fields(head)) + rest


def unmarked(text):
    head, rest = head_and_rest(text)
    return b"".join(it[len(WAS) :] if RENAMED.match(it) else it for it in fields(head)) + rest


def quoted(text):
    """Lines that look like From lines have one more `>` (mboxrd), and the last line has its LF."""
    text = re.sub(rb"^(>*From )", rb">\1", text, flags=re.MULTILINE)
    return text if not text or text.endswith(b"\n") else text + b"\n"


def unquoted(text):
    return re.sub(rb"^>(>*From )", rb"\1", text, flags=re.MULTILINE)


def plain_address(sender):
    return re.sub(rb'[ "\\]', b"-", sender)
