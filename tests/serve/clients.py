"""A client that speaks LMTP over a socket, line by line."""

import socket
import struct

import replies


def connected(address):
    if isinstance(address, tuple):
        return socket.create_connection(address, timeout=20)
    made = socket.socket(socket.AF_UNIX)
    made.settimeout(20)
    made.connect(str(address))
    return made


class Client:
    def __init__(self, address):
        """Over TCP to a host and a port, or over a Unix socket to a path."""
        self.socket = connected(address)
        self.lines = self.socket.makefile("rb")

    def __enter__(self):
        return self

    def __exit__(self, *_):
        self.leave()

    def leave(self):
        self.lines.close()
        self.socket.close()

    def reset(self):
        """Goes away without an orderly end."""
        self.socket.setsockopt(socket.SOL_SOCKET, socket.SO_LINGER, struct.pack("ii", 1, 0))
        self.leave()

    def hear(self):
        """The last line of a reply, without its end; an empty text at the end of the stream."""
        while True:
            line = self.lines.readline()
            assert not line or line.endswith(b"\r\n"), line
            if line[3:4] != b"-":
                return line.removesuffix(b"\r\n").decode()

    def hear_or_end(self):
        """As `hear`, but an empty text also where the server was killed."""
        try:
            return self.hear()
        except (OSError, AssertionError):
            return ""

    def send(self, *lines):
        self.socket.sendall(b"".join(line.encode() + b"\r\n" for line in lines))

    def send_until_stuck(self, seconds, line):
        """Sends the line again and again, and reads nothing, until the server takes no more for so long, or is gone."""
        self.socket.settimeout(seconds)
        try:
            while True:
                self.send(*[line] * 10_000)
        except OSError:
            pass

    def ask(self, line):
        self.send(line)
        return self.hear()

    def ask_or_end(self, line):
        """As `ask`, but an empty text where the server is gone."""
        try:
            self.send(line)
        except OSError:
            pass
        return self.hear_or_end()

    def greet(self):
        """Hears the greeting, and says LHLO."""
        greeting = self.hear()
        assert greeting == replies.GREETING, greeting
        answer = self.ask("LHLO relay.example")
        assert answer.startswith("250 "), answer
        return self

    def start_message(self, recipient, *lines):
        """Comes to the end of the data of one message, but for the dot."""
        for line in ["MAIL FROM:<carl@a.example>", f"RCPT TO:<{recipient}@mx.example>", "DATA"]:
            assert self.ask(line)[:3] in ["250", "354"]
        self.send(*lines)

    def deliver(self, recipients, *lines):
        """Sends one message, waiting for each reply, and gives those to the recipients and the final ones."""
        asked = [self.ask("MAIL FROM:<carl@a.example>")]
        asked += [self.ask(f"RCPT TO:<{recipient}@mx.example>") for recipient in recipients]
        assert self.ask("DATA").startswith("354 ")
        self.send(*lines, ".")
        accepted = [answer for answer in asked[1:] if answer.startswith("250 ")]
        return asked[1:], [self.hear() for _ in accepted]

    def deliver_at_once(self, recipients, *lines):
        """As `deliver`, with the commands up to DATA in one write. Where no recipient is taken there is no data."""
        commands = ["MAIL FROM:<carl@a.example>"]
        commands += [f"RCPT TO:<{recipient}@mx.example>" for recipient in recipients]
        self.send(*commands, "DATA")
        asked = [self.hear() for _ in commands]
        accepted = [answer for answer in asked[1:] if answer.startswith("250 ")]
        assert self.hear().startswith("354 " if accepted else "503 ")
        if not accepted:
            assert self.ask("RSET").startswith("250 ")
            return asked[1:], []
        self.send(*lines, ".")
        return asked[1:], [self.hear() for _ in accepted]

    def quit(self):
        """The reply to QUIT; after it the stream ends."""
        answer = self.ask("QUIT")
        assert self.lines.read() == b""
        return answer


def deliver_one(address, recipients, *lines):
    """A whole conversation with one message: the final replies."""
    with Client(address).greet() as client:
        finals = client.deliver(recipients, *lines)[1]
        assert client.quit() == replies.CLOSING
    return finals
