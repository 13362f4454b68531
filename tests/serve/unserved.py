"""What the log says of a recipient that isn't known: whether it is the domain that isn't served or the mailbox that isn't
there, and of a domain a line of its own."""

from cases import case, equal
from clients import Client
from replies import NO_SUCH_BOX, SENDER_OK
from server import Server

LIMIT = 100  # domains that a lane tells in an hour
LONG = ".".join(["d" * 60] * 3) + ".example"
# The address of a recipient that isn't known, why it isn't, and what the line on its domain says, if it has one.
UNKNOWN = [
    ("nobody@mx.example", "mailbox", None),
    ("nobody@b.example", "mailbox", None),
    ("nobody", "mailbox", None),
    ("anna@real.tld", "domain", "real.tld"),
    ("ben@Real.TLD", "domain", None),
    ("anna@sub.mx.example", "domain", "sub.mx.example"),
    ("anna@[127.0.0.1]", "domain", "[127.0.0.1]"),
    ('"a b"@real.tld', "domain", None),
    (f"anna@{LONG}", "domain", LONG),
]


def ask_all(client, addresses):
    equal(client.ask("MAIL FROM:<carl@a.example>"), SENDER_OK)
    for address in addresses:
        equal((address, client.ask(f"RCPT TO:<{address}>")), (address, NO_SUCH_BOX))


def refusals(lines):
    return [line for line in lines if "command refused" in line]


def domains(lines):
    """The lines on domains, each up to what names it."""
    start = "[ERROR lmtpd] domain not served domain="
    return [line.removeprefix(start) for line in lines if line.startswith(start)]


@case
def a_reason_for_each(folder):
    """a refused RCPT has reason=domain or reason=mailbox at info, a bracket address the first; the first of a domain, in
    any letter case, has a line at error, at error alone too; the reply is one for all; other refusals have neither"""
    told = [domain for _, _, domain in UNKNOWN if domain]
    for level in ["info", "error", "off"]:
        words = ["--lanes", 1, "--log", level, "--domains", "b.example"]
        with Server(folder, ["anna"], 2, *words) as server:
            for _ in range(2):
                with Client(server.address).greet() as client:
                    ask_all(client, [address for address, _, _ in UNKNOWN])
                    for line, code in [("RCPT TO:<anna@real.tld", "501"), ("MAIL FROM:<a@b.tld>", "503")]:
                        equal(client.ask(line)[:3], code)
                    client.quit()
            lines = server.end().errors
        equal((level, domains(lines)), (level, told if level != "off" else []))
        once = [f"verb=RCPT code=550 reason={reason}" for _, reason, _ in UNKNOWN]
        once += ["verb=RCPT code=501", "verb=MAIL code=503"]
        expected = [f"[INFO  lmtpd] command refused lane=0 {end}" for end in once * 2]
        equal((level, refusals(lines)), (level, expected if level == "info" else []))


@case
def with_addresses(folder):
    """with --log-addresses the reason stands before the recipient; with --domains * only brackets are no domain"""
    words = ["--lanes", 1, "--log", "info", "--log-addresses", "--domains", "*"]
    with Server(folder, ["anna"], 1, *words) as server, Client(server.address).greet() as client:
        ask_all(client, ["nobody@real.tld", "anna@[127.0.0.1]"])
        client.quit()
        lines = server.end().errors
    front = "[INFO  lmtpd] command refused lane=0 verb=RCPT code=550 reason="
    expected = ["mailbox recipient=<nobody@real.tld>", "domain recipient=<anna@[127.0.0.1]>"]
    equal((refusals(lines), domains(lines)), ([front + end for end in expected], ["[127.0.0.1]"]))


@case
def many_domains(folder):
    """ten thousand domains: a lane tells the first hundred, and another lane the same ones again"""
    with Server(folder, ["anna"], 2, "--lanes", 2, "--log", "error") as server:
        clients = [Client(server.address).greet() for _ in range(2)]
        for client in clients:
            with client:
                ask_all(client, [])
                for start in range(0, 10_000, 500):
                    numbers = range(start, start + 500)
                    client.send(*(f"RCPT TO:<anna@d{number}.example>" for number in numbers))
                    equal([client.hear() for _ in numbers], [NO_SUCH_BOX] * 500)
                client.quit()
        lines = server.end().errors
    equal(domains(lines), [f"d{number}.example" for number in range(LIMIT)] * 2)
