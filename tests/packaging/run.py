"""Compares packaging/ with the program's own help, for tests/packaging.sh."""

import gzip
import os
import pathlib
import re
import shutil
import signal
import subprocess
import sys
import tempfile

from cases import sum_up, tell
from installed import INSTALLED, said_by
from served import check_served

LMTPD = os.environ["LMTPD"]
PAGE = pathlib.Path("packaging/lmtpd.8").read_text()
COMPLETION = pathlib.Path("packaging/lmtpd.bash").read_text()


def help_of(command):
    """By option the text that the help has after it. It has examples and the three statuses too."""
    status, said = said_by(LMTPD, *command.split(), "--help")
    assert status == 0, said
    examples = re.findall(r"^  (?:printf .* \| )?lmtpd (.*)$", said, re.MULTILINE)
    assert examples and all(example.startswith(command) for example in examples), examples
    assert re.findall(r"^  ([0-9])  ", said.split("Exit status:\n")[1], re.MULTILINE) == ["0", "1", "2"], said
    found = re.findall(r"^ +(?:-[hV], )?(--[a-z0-9-]+)(?: <[^>]*>)? +(.*)$", said, re.MULTILINE)
    return dict(found)


def options_of_page(letter):
    """The options that the page lists for that command, with their texts."""
    item = r"^\.It Fl -([a-z0-9-]+)(?: Ar [^\n]*)?\n\.Pq ([sr, ]+)\n(.*?)(?=^\.It|^\.El)"
    listed = re.findall(item, PAGE, re.MULTILINE | re.DOTALL)
    return {f"--{name}": text for name, letters, text in listed if letter in letters.split(", ")}


def completed(line):
    """What bash completes at the end of that line."""
    words = line.split(" ")
    script = 'source packaging/lmtpd.bash; COMP_WORDS=("$@"); COMP_CWORD=$(($# - 1)); _lmtpd; echo "${COMPREPLY[*]}"'
    status, said = said_by("bash", "-c", script, "bash", *words)
    assert status == 0, said
    return set(said.split())


def check_words():
    # synopses, tables and lists come from the table of arguments
    status, said = said_by("building/words.py", "--check")
    assert status == 0, said
    for command, letter in [("serve", "s"), ("rehearse", "r"), ("check", "c"), ("copy", "c")]:
        told, listed = help_of(command), options_of_page(letter)
        expected = set(told) - {"--help"}
        assert set(listed) == expected, (command, set(listed) ^ expected)
        for option, text in told.items():
            # each limit and each usual number of the help stands in the page too
            numbers = set(re.findall(r"\d+", text.split("port")[0])) - {"127", "0", "1", "2003"}
            missing = [number for number in numbers if number not in listed.get(option, "")]
            assert not missing, (command, option, missing)
        assert completed(f"lmtpd {command} --") == set(told), command
        synopsis = PAGE.split(f".Cm {command}\n")[1].split(".Nm")[0].split(".Sh")[0]
        assert set(re.findall(r"Fl -([a-z0-9-]+)", synopsis)) == {name[2:] for name in expected}, command
    assert set(help_of("")) == {"--help", "--version"}
    assert completed("lmtpd ") == {"serve", "rehearse", "check", "copy", "help", "--help", "--version"}
    assert completed("lmtpd s") == {"serve"}
    assert completed("lmtpd serve --log ") == {"off", "error", "info"}
    assert completed("lmtpd serve --log i") == {"info"}
    assert completed("lmtpd serve --over-quota ") == completed("lmtpd rehearse --over-quota ") == {"defer", "reject"}


def is_here(program, shown):
    """Whether the program is here that shows it; says that it is left out, where it isn't."""
    is_found = shutil.which(program) is not None
    if not is_found:
        tell(shown, "absent", program)
    return is_found


def check_version():
    """The version names the toolchain as the toolchain itself does, where it is there."""
    status, said = said_by(LMTPD, "--version")
    kit = r"lmtpd [0-9.]+ \(([^ ,]+), (logic [0-9a-f]+)\)\n"
    assert status == 0 and re.fullmatch(kit, said), said
    if is_here("rt", "that the version names the toolchain"):
        assert said_by("rt", "version")[1].strip() == " ".join(re.fullmatch(kit, said).groups()), said


def check_install(folder):
    """Each file is in its place, and words that were there before stay."""
    install = ["make", "-s", "install", f"DESTDIR={folder}", "PREFIX=/usr", f"PROGRAM={LMTPD}"]
    assert said_by(*install) == (0, "")
    found = sorted(str(path.relative_to(folder)) for path in folder.rglob("*") if path.is_file())
    assert found == INSTALLED, found
    assert gzip.decompress((folder / "usr/share/man/man8/lmtpd.8.gz").read_bytes()).decode() == PAGE
    check_pages(folder / "usr/share/doc/lmtpd")
    unit = (folder / "usr/lib/systemd/system/lmtpd.service").read_text()
    for line in [
        "Documentation=man:lmtpd(8) file:/usr/share/doc/lmtpd/OPERATING.md",
        "ExecStart=/usr/lib/lmtpd/start --rename-marks",
        "ExecReload=/usr/lib/lmtpd/start --check-words --rename-marks",
        "ExecReload=-/usr/lib/lmtpd/served keep",
        "Type=notify",
        "NotifyAccess=main",
        "RuntimeDirectoryPreserve=restart",
        "ExecStartPost=/bin/rm -f /run/lmtpd/served/mark",
        "ExecStartPre=+/usr/lib/lmtpd/leases",
        "TimeoutStopSec=20",
        "LogRateLimitIntervalSec=1s",
        "LogRateLimitBurst=1000000",
        "SyslogFacility=mail",
        "SyslogIdentifier=lmtpd",
        "ExecReload=-+/bin/systemctl --no-block restart %n",
    ]:
        assert line in unit.splitlines(), line
    start = (folder / "usr/lib/lmtpd/start").read_text()
    assert start.endswith('exec /usr/sbin/lmtpd serve "$@"\n'), start
    socket = (folder / "usr/lib/systemd/system/lmtpd.socket").read_text().splitlines()
    for line in ["ListenStream=/var/spool/postfix/private/lmtpd", "SocketUser=postfix", "SocketMode=0600"]:
        assert line in socket, line
    given = set(re.findall(r"\$\{?([A-Z_]+)", start)) - {"RUNTIME_DIRECTORY", "INSTANCE", "ALONE"}
    words, boxes = folder / "etc/lmtpd.conf", folder / "etc/lmtpd.boxes"
    # each word of the service has a line, with a comment of its own above it
    told = re.findall(r"^#[^\n]*\n([A-Z_]+)=", words.read_text(), re.MULTILINE)
    assert sorted(given) == sorted(told) == sorted(re.findall("^([^#=]+)=", words.read_text(), re.MULTILINE)), told
    assert boxes_in(boxes) == ["anna", "ben"], boxes_in(boxes)
    check_instances(unit, folder / "usr/lib/systemd/system")
    words.write_text("HOST=mine.example\n")
    boxes.write_text("carl\n")
    assert said_by(*install) == (0, "")
    assert (words.read_text(), boxes.read_text()) == ("HOST=mine.example\n", "carl\n")


def check_pages(pages):
    """Each page is as it stands here, and leads to others that are there, and to headings that these have."""
    for page in pages.rglob("*.md"):
        text = page.read_text()
        assert text == (pathlib.Path("docs") / page.relative_to(pages)).read_text(), page
        for place, heading in re.findall(r"\]\(([^)#:]*)(?:#([^)]*))?\)", text):
            other = (page.parent / place).resolve() if place else page
            assert other.exists(), (page, place)
            assert not heading or heading in headings_of(other), (page, place, heading)


def headings_of(page):
    """As they are named in links: small letters, digits, - and what joins words."""
    found = re.findall(r"^#+ (.*)$", page.read_text(), re.MULTILINE)
    return {re.sub(r"[^\w -]", "", heading.lower()).replace(" ", "-") for heading in found}


def boxes_in(path):
    """The mailboxes that the program has of that file."""
    words = [LMTPD, "rehearse", "--host", "mx.example", "--time", "0", "--boxes", str(path)]
    status, said = said_by(*words, stdin=subprocess.DEVNULL)
    assert status == 0, said
    return re.findall(r"^mailbox (\S+) 0$", said, re.MULTILINE)


def check_instances(unit, units):
    """The units of several servers are those of one, with a socket, a stop file and mailboxes of their own."""
    instance = (units / "lmtpd@.service").read_text()
    for line in [
        "Requires=lmtpd@%i.socket",
        "After=network.target lmtpd@%i.socket",
        "RuntimeDirectory=lmtpd-%i",
        "SyslogIdentifier=lmtpd@%i",
        "ExecStartPre=/bin/rm -f /run/lmtpd-%i/stop",
        "ExecStartPost=/bin/rm -f /run/lmtpd-%i/served/mark",
        "ExecStartPre=+/usr/lib/lmtpd/leases",
        "EnvironmentFile=/etc/lmtpd.conf",
        "Also=lmtpd@%i.socket",
    ]:
        assert line in instance.splitlines(), line
    own = ["/usr/lib/lmtpd/instance.conf", "-/etc/lmtpd/%i.conf"]
    own = [*(f"EnvironmentFile={path}" for path in own), "Environment=INSTANCE=%i"]
    assert "\n".join(["EnvironmentFile=/etc/lmtpd.conf", *own, ""]) in instance, instance
    assert "/run/lmtpd/" not in instance and "lmtpd.socket" not in instance, instance
    socket = (units / "lmtpd@.socket").read_text().splitlines()
    assert "ListenStream=/var/spool/postfix/private/lmtpd-%i" in socket, socket
    assert len(instance.splitlines()) == len(unit.splitlines()) + len(own)


# The words of the service's environment, and those of the program that come of them but for ALWAYS.
FOLDER = ["--dir", "/var/mail/lmtpd"]
ALWAYS = ["--listen", "inherited", "--stop-file", "/run/lmtpd/stop", "--start-anyway", "--log", "info"]
ALWAYS += ["--refuse-malformed"]
STARTED = [
    ({}, FOLDER),
    ({"HOST": ""}, FOLDER),
    ({"HOST": "mx.example"}, ["--host", "mx.example", *FOLDER]),
    ({"FOLDER": ""}, FOLDER),
    ({"FOLDER": "/srv/my mail"}, ["--dir", "/srv/my mail"]),
    ({"DOMAINS": "*"}, [*FOLDER, "--domains", "*"]),
    ({"DOMAINS": "b.example,c.example", "OPTIONS": ""}, [*FOLDER, "--domains", "b.example,c.example"]),
    ({"MESSAGE_LIMIT": "", "DELIMITER": ""}, FOLDER),
    ({"MESSAGE_LIMIT": "65536", "DELIMITER": "#"}, [*FOLDER, "--message-limit", "65536", "--recipient-delimiter", "#"]),
    ({"BOXES": "/etc/lmtpd.boxes"}, [*FOLDER, "--boxes", "/etc/lmtpd.boxes"]),
    ({"BOXES": "/etc/my boxes"}, [*FOLDER, "--boxes", "/etc/my boxes"]),
    ({"BOXES": "--boxes /etc/lmtpd.boxes"}, [*FOLDER, "--boxes", "/etc/lmtpd.boxes"]),
    ({"BOXES": "--mailbox-mode 0660 --boxes /x"}, [*FOLDER, "--mailbox-mode", "0660", "--boxes", "/x"]),
    ({"BOXES": "anna  ben *"}, [*FOLDER, "anna", "ben", "*"]),
    ({"OPTIONS": " --quota *\t--stop $HOME --x `id` "}, [*FOLDER, "--quota", "*", "--stop", "$HOME", "--x", "`id`"]),
    ({"OPTIONS": "--smtputf8 --recipient-delimiter -"}, [*FOLDER, "--smtputf8", "--recipient-delimiter", "-"]),
    ({"BOXES": "/x", "OPTIONS": "--lanes 8"}, [*FOLDER, "--boxes", "/x", "--lanes", "8"]),
    ({"OPTIONS": "--lanes 8 --no-such-word"}, [*FOLDER, "--lanes", "8", "--no-such-word"]),
    ({"OPTIONS": "--mailbox-suffix= --lanes 8"}, [*FOLDER, "--mailbox-suffix=", "--lanes", "8"]),
    ({"INSTANCE": "a"}, [*FOLDER, "--boxes", "/etc/lmtpd/a.boxes"]),
    ({"INSTANCE": "a", "BOXES": ""}, [*FOLDER, "--boxes", "/etc/lmtpd/a.boxes"]),
    ({"INSTANCE": "a", "BOXES": "/y"}, [*FOLDER, "--boxes", "/y"]),
    ({"INSTANCE": "a", "BOXES": "anna"}, [*FOLDER, "anna"]),
]
# What OPTIONS can't have, and what is said of it.
MISTAKEN = {
    "quota 1000": "a word that nothing takes key=OPTIONS word=quota",
    "anna": "a word that nothing takes key=OPTIONS word=anna",
    "--quota 1000 anna": "a word that nothing takes key=OPTIONS word=anna",
    "--quota=1000 anna": "a word that nothing takes key=OPTIONS word=anna",
    "--log-addresses yes --quota 5": "a word that nothing takes key=OPTIONS word=yes",
    "--quota 5 -x": "a word that nothing takes key=OPTIONS word=-x",
    "--quota '5 MB'": "a word that nothing takes key=OPTIONS word=MB'",
    "-- anna": "not a word of the service key=OPTIONS word=--",
    "--help": "not a word of the service key=OPTIONS word=--help",
    "--quota 5 <3>\u00e4\a": "a word that nothing takes key=OPTIONS word=<3>???",
}


def signals_in(line):
    """The numbers of the signals in a line of /proc/PID/status."""
    mask = int(line.split()[-1], 16)
    return {number for number in range(1, 65) if mask >> (number - 1) & 1}


def check_start(folder):
    """What begins the server hands each word on as it stands, and none that is empty; it begins nothing where a file of
    words or OPTIONS isn't understood."""
    prefix, room = folder / "begun", folder / "room"
    assert said_by("make", "-s", "install", f"DESTDIR={room}", f"PREFIX={prefix}", f"PROGRAM={LMTPD}") == (0, "")
    start = f"{room}{prefix}/lib/lmtpd/start"
    told = [("sbin/lmtpd", "printf '%s\\n'"), ("lib/lmtpd/keys", 'echo keys "$@"; exit $STATUS; :'), ("lib/lmtpd/served", ":")]
    for name, said in told:
        program = prefix / name
        program.parent.mkdir(parents=True, exist_ok=True)
        program.write_text(f'#!/bin/sh\n{said} "$@"\n')
        program.chmod(0o755)

    def said_for(given, *more, status="0"):
        # more folders than its own where a site's drop-in has some; a folder with files that a shell would find
        usual = {"PATH": os.environ["PATH"], "RUNTIME_DIRECTORY": "/run/lmtpd:/run/other", "STATUS": status}
        return said_by("sh", start, *more, env=usual | given, cwd=folder)

    for given, expected in STARTED:
        for more in [[], ["--check-words"]]:
            status, said = said_for(given, *more)
            keys, *found = said.splitlines()
            own = f" /etc/lmtpd/{given['INSTANCE']}.conf" if "INSTANCE" in given else ""
            assert keys == f"keys /etc/lmtpd.conf{own}", (given, keys)
            assert (status, [word for word in found if word in ALWAYS]) == (0, ALWAYS), (given, found)
            assert [word for word in found if word not in ALWAYS] == ["serve", *more, *expected], (given, found)
    for options, line in MISTAKEN.items():
        for more in [[], ["--check-words"]]:
            found = said_for({"HOST": "mx.example", "BOXES": "anna", "OPTIONS": options}, *more)
            assert found == (2, f"keys /etc/lmtpd.conf\n<3>{line}\n"), (options, found)
    assert said_for({"BOXES": "anna"}, status="2") == (2, "keys /etc/lmtpd.conf\n")
    # of the program's signals HUP, INT, QUIT, USR1, USR2 and ALRM are ignored, and else those that were before
    asks = ["grep", "SigIgn", "/proc/self/status"]
    (prefix / "sbin/lmtpd").write_text(f"#!/bin/sh\n{' '.join(asks)}\n")
    before = signals_in(subprocess.run(asks, capture_output=True, text=True, check=True).stdout)
    assert signals_in(said_for({})[1]) == before | {1, 2, 3, 10, 12, 14}, before
    # the words that have no value are those of the help
    said = said_by(LMTPD, "serve", "--help")[1]
    expected = set(re.findall(r"^ +(--[a-z0-9-]+) +[A-Z]", said, re.MULTILINE))
    [alone] = re.findall("^ALONE='(.*)'$", pathlib.Path(start).read_text(), re.MULTILINE)
    assert len(expected) > 3 and set(alone.split()) == expected, (alone, expected)


def check_run(folder):
    """What runs the server in a container: TERM and INT stop it in order, also before it listens, and else its status
    is the server's."""
    folder.mkdir()
    (folder / "mail").mkdir()
    start = folder / "lmtpd-run"
    text = pathlib.Path("packaging/lmtpd.run").read_text()
    start.write_text(text.replace("@PREFIX@/sbin/lmtpd", LMTPD))
    words = ["sh", str(start), "--host", "mx.example", "--listen", "127.0.0.1:0", "--dir", str(folder / "mail")]
    own = dict(os.environ, TMPDIR=str(folder))

    def begun(*more):
        ends = {"stdout": subprocess.PIPE, "stderr": subprocess.STDOUT, "text": True}
        return subprocess.Popen([*words, *more, "anna"], env=own, **ends)

    for number in [signal.SIGTERM, signal.SIGINT]:
        with begun() as running:
            assert running.stdout.readline().startswith("listening on 127.0.0.1:")
            for harmless in [signal.SIGHUP, signal.SIGQUIT, signal.SIGUSR1]:
                running.send_signal(harmless)
            running.send_signal(number)
            running.send_signal(number)
            said = running.communicate(timeout=60)[0]
            assert (running.returncode, said) == (0, "anna stored 0\n"), (running.returncode, said)
    for more, status in [(["--no-such-word"], 2), (["--dir", "/none"], 2), (["--boxes", "/none"], 1)]:
        with begun(*more) as running:
            assert "listening" not in running.communicate(timeout=60)[0]
            assert running.returncode == status, (more, running.returncode)
    # a server that somebody kills
    with begun() as running:
        assert running.stdout.readline().startswith("listening on 127.0.0.1:")
        [child] = pathlib.Path(f"/proc/{running.pid}/task/{running.pid}/children").read_text().split()
        os.kill(int(child), signal.SIGKILL)
        running.communicate(timeout=60)
        assert running.returncode == 128 + signal.SIGKILL, running.returncode
    assert not list(folder.glob("tmp*")), list(folder.iterdir())


# Texts of a file of words, and what is said of each: `!` stands for `<3>`, and so for status 2.
KEYS = [
    ("", []),
    ("HOST=mx.example\n# DOMAIN=x\n ; QUOTA=5\n\n \t\nOPTIONS=\n", []),
    ("HOST=mx.example\nDOMAIN=b.example\n", ["!unknown word key=DOMAIN file=FILE line=2"]),
    ("QUOTA=5\nHOST=mx.example\n", ["!unknown word key=QUOTA file=FILE line=1"]),
    ("HOST=a\nhost=b\nQ", ["!unknown word key=host file=FILE line=2", "!a line without = key=Q file=FILE line=3"]),
    ("export HOST=mx.example\n", ["!unknown word key=export%20HOST file=FILE line=1"]),
    ("=x\n", ["!a line without = key==x file=FILE line=1"]),
    ("  HOST \t= mx.example \n", []),
    ("HOST=mx.example\nOPTIONS --lanes 8\n", ["!a line without = key=OPTIONS%20--lanes%208 file=FILE line=2"]),
    ("OPTIONS=--lanes 8 \\\n--quota 5\nHOST=a\n", []),
    ("OPTIONS=--lanes 8 \\\r\n--quota 5\r\nHOST=a\r\n", ["!a line without = key=--quota%205 file=FILE line=2"]),
    ("HOST=mx.example\r\n# a\r\nOPTIONS=\r\n", []),
    ("HOST=mx.example\r\nDOMAIN=b\r\n", ["!unknown word key=DOMAIN file=FILE line=2"]),
    ("\ufeff# a = b\nHOST=mx.example\n", []),
    ("\ufeff# a\nHOST=mx.example\n", []),
    ("\ufeffHOST=mx.example\n", ["!unknown word key=%EF%BB%BFHOST file=FILE line=1"]),
    ("HOST=a\n\nHOST=b\n", ["<4>a word stands twice, and the last one counts key=HOST file=FILE line=3"]),
    ("OPTIONS='--lanes 8\n--quota 5'\nHOST=\"a\\\"b\"\nDOMAINS=\"x\" 'y'\n", []),
    ("OPTIONS=\"--lanes 8\nHOST=mx.example\n", ["!a quote that nothing closes key=OPTIONS file=FILE line=1"]),
    ("HOST=mx.example'\nDOMAINS=it\"s\n", []),
    ("HOST=a\nx\u00e4\x1b" + "y" * 80 + "=1\n", ["!unknown word key=x%C3%A4%1B" + "y" * 56 + ".. file=FILE line=2"]),
]


def check_keys(folder):
    """A file of words with one that the service doesn't know, or that can't be read, is refused, by the word and its
    line."""
    folder.mkdir()
    path, other = folder / "lmtpd.conf", folder / "one.conf"
    known = re.findall("^([^#=]+)=", pathlib.Path("packaging/lmtpd.conf").read_text(), re.MULTILINE)

    def said_of(*paths):
        status, said = said_by("sh", "packaging/lmtpd.keys", *map(str, paths))
        return status, said.splitlines()

    for text, lines in [*KEYS, ("".join(f"{name}=\n" for name in known), [])]:
        path.write_text(text, newline="")
        expected = [line.replace("!", "<3>").replace("FILE", str(path)) for line in lines]
        assert said_of(path) == (2 if "<3>" in "".join(expected) else 0, expected), (text, said_of(path))
    assert said_of("packaging/lmtpd.conf", folder / "none") == (0, [])
    path.write_text("HOST=a\n")
    other.write_text("HOST=b\nBOX=anna\n")
    assert said_of(path, other) == (2, [f"<3>unknown word key=BOX file={other} line=2"])
    assert said_of(other, path)[0] == 2


# Modes of the folder, and whether its group or others may write there.
OPEN = {0o700: False, 0o750: False, 0o755: False, 0o1755: False, 0o720: True, 0o702: True, 0o2775: True, 0o3777: True}


def check_leases(folder):
    """What looks at leases before the service begins says a line where they are on and the folder may be written by
    others than its owner, by a link too, and none else; it never fails."""
    folder.mkdir()
    mail, setting, link = folder / "my mail", folder / "leases-enable", folder / "link"
    mail.mkdir()
    link.symlink_to(mail)

    def said_of(place):
        words = ["sh", str(folder.parent / "all/usr/lib/lmtpd/leases"), str(setting)]
        return said_by(*words, env={"PATH": os.environ["PATH"], "FOLDER": str(place)})

    for mode, is_open in OPEN.items():
        mail.chmod(mode)
        for enabled in ["0\n", "1\n", ""]:
            setting.unlink(missing_ok=True)
            if enabled:
                setting.write_text(enabled)
            for place in [mail, link, folder / "none"]:
                line = f"<3>leases are on and others may write the folder folder={place} mode={mode:o}\n"
                is_told = is_open and enabled == "1\n" and place.exists()
                assert said_of(place) == (0, line if is_told else ""), (place, mode, enabled, said_of(place))


def check_map(folder):
    """The command of SETUP.md makes Postfix's transport map: for each file a line for each mailbox of the program."""
    [command] = re.findall(r"^awk .*$", pathlib.Path("docs/operating/SETUP.md").read_text(), re.MULTILINE)
    assert command.endswith(" /etc/lmtpd/*.boxes > /etc/postfix/transport"), command
    folder.mkdir()
    (folder / "a.boxes").write_text("# the first\nanna\n\n  ben # b\n#carl\n")
    (folder / "b2.boxes").write_bytes(b"dora\r\n \t\r\n\temil\t\r\nfrieda#")
    (folder / "none.boxes").write_text("# nobody yet\n")
    (folder / "full.boxes").write_text("".join(f"box{number}\n" for number in range(256)))
    status, said = said_by("bash", "-c", command.split(" /etc/lmtpd/")[0] + f" {folder}/*.boxes")
    assert status == 0, said
    expected = [
        f"{name}@mx.example lmtp:unix:private/lmtpd-{path.stem}"
        for path in sorted(folder.glob("*.boxes"))
        if path.stem != "none"
        for name in boxes_in(path)
    ]
    assert len(expected) == 2 + 3 + 256 and said.splitlines() == expected, said[:400]


def check_folder(folder):
    """The folder of the mailboxes is made where it is missing, and one that is there keeps its mode and owner, also as
    the machine boots."""
    said_of_it = (folder / "all/usr/lib/tmpfiles.d/lmtpd.conf").read_text()
    [line] = re.findall("^[^#].*$", said_of_it, re.MULTILINE)
    assert line == "d /var/mail/lmtpd :0700 :lmtpd :lmtpd -", line
    shown = "that the folder of the mailboxes is made"
    if os.geteuid() != 0:
        tell(shown, "absent", "root")
    if os.geteuid() != 0 or not is_here("systemd-tmpfiles", shown):
        return
    made, conf = folder / "made", folder / "made.conf"
    # the user of this machine that there is for sure
    conf.write_text(line.replace("/var/mail/lmtpd", str(made)).replace(":lmtpd", ":daemon") + "\n")
    create = ["systemd-tmpfiles", "--create", "--boot", str(conf)]
    assert said_by(*create) == (0, "")
    assert whose(made) == ("daemon", "daemon", 0o700), whose(made)
    shutil.chown(made, "root", "mail")
    made.chmod(0o2775)
    assert said_by(*create) == (0, "")
    assert whose(made) == ("root", "mail", 0o2775), whose(made)


def whose(path):
    """Owner, group and permission bits."""
    return path.owner(), path.group(), path.stat().st_mode & 0o7777


def check_forms(folder):
    """systemd finds nothing wrong with the units of a program that is there, and groff nothing with the page."""
    prefix = folder / "local"
    places = [f"{name}={folder}/lmtpd.{name.lower()}" for name in ["CONF", "BOXES"]]
    install = ["make", "-s", "install", f"PREFIX={prefix}", *places, f"PROGRAM={LMTPD}"]
    assert said_by(*install) == (0, "")
    if is_here("systemd-analyze", "that systemd finds nothing wrong with the units"):
        # what this machine's own units say isn't ours
        system = prefix / "lib/systemd/system"
        units = [str(system / name) for name in ["lmtpd.socket", "lmtpd.service"]]
        for kind in ["socket", "service"]:
            # an instance by its name, as `systemctl` has one
            (system / f"lmtpd@one.{kind}").symlink_to(f"lmtpd@.{kind}")
            units.append(str(system / f"lmtpd@one.{kind}"))
        _, said = said_by("systemd-analyze", "verify", "--man=no", *units)
        ours = [line for line in said.splitlines() if "lmtpd" in line]
        assert not ours, ours
    if is_here("groff", "that groff finds nothing wrong with the manual page"):
        status, said = said_by("groff", "-mdoc", "-Tutf8", "-ww", "-z", "packaging/lmtpd.8")
        assert (status, said) == (0, ""), said


check_words()
check_version()
with tempfile.TemporaryDirectory() as room:
    check_install(pathlib.Path(room) / "all")
    check_start(pathlib.Path(room))
    check_keys(pathlib.Path(room) / "keys")
    check_folder(pathlib.Path(room))
    check_forms(pathlib.Path(room))
    check_map(pathlib.Path(room) / "boxes")
    check_leases(pathlib.Path(room) / "leases")
    check_run(pathlib.Path(room) / "run")
    check_served(pathlib.Path(room) / "served")
tell("page, completion, version, unit, words, keys, folder, leases, what runs it in a container, and install")
sys.exit(sum_up())
