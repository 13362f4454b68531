"""What tries a folder that two hosts share (packaging/lmtpd.two-hosts), for tests/packaging.sh: two processes with host
names of their own, on a folder of this machine, which keeps all, and on one whose answers are changed, by functions in
the place of Perl's own, to those of folders that don't keep one thing."""

import concurrent.futures
import contextlib
import functools
import os
import pathlib
import shutil
import signal
import subprocess
import sys
import time

from cases import Absent, case, equal, run_all

SCRIPT = pathlib.Path("packaging/lmtpd.two-hosts").resolve()
NAMED = ["--uts", *(["--map-root-user"] if os.geteuid() else [])]
# A folder that doesn't keep one thing: by its letter, what stands in the place of which functions of Perl.
NOT_KEPT = [
    ("a", "O_EXCL makes what is there", {"sysopen": "CORE::sysopen($_[0], $_[1], $_[2] & ~O_EXCL, $_[3] // 0)"}),
    (
        "a",
        "O_EXCL looks first, and makes then",
        {
            "sysopen": """
                my $excludes = $_[2] & O_EXCL;
                if ($excludes && -e $_[1]) { $! = EEXIST; return 0 }
                select undef, undef, undef, 0.1 if $excludes;
                CORE::sysopen($_[0], $_[1], $_[2] & ~O_EXCL, $_[3] // 0)"""
        },
    ),
    ("a", "a link to what is there succeeds", {"link": "CORE::link($_[0], $_[1]) || $!{EEXIST}"}),
    ("b", "each host's locks are its own", {"fcntl": "1"}),
    ("b", "POSIX locks are each host's own", {"fcntl": "$_[1] == F_SETLK || CORE::fcntl($_[0], $_[1], $_[2])"}),
    ("b", "locks stay where their process is killed", {"kill": "1", "waitpid": "0"}),
    (
        "c",
        "length and name of an open file are those of the last look or write",
        {
            "stat": "@{$seen{$_[0]} //= [CORE::stat($_[0])]}",
            "syswrite": "delete $seen{$_[0]}; CORE::syswrite($_[0], $_[1])",
        },
    ),
    ("c", "a path names what it did at first", {"lstat": "@{$seen{$_[0]} //= [CORE::lstat($_[0])]}"}),
    (
        "c",
        "the end is that of the first look",
        {
            "sysread": """
                my $length = CORE::sysread($_[0], ${$_[1]}, $_[2]);
                ${$_[1]} = $seen{$_[0]} //= ${$_[1]} if $_[2] == 6;
                $length"""
        },
    ),
    (
        "d",
        "O_APPEND is left out",
        {"sysopen": "CORE::sysopen($_[0], $_[1], $_[2] & ($_[1] =~ /mbox/ ? ~O_APPEND : ~0), $_[3] // 0)"},
    ),
    ("f", "clocks that are 400 s apart", {"time": "CORE::time() + ($host eq 'two' ? 400 : 0)"}),
    ("f", "the folder's times are 400 s behind", {"stat": "my @told = CORE::stat($_[0]); $told[9] -= 400; @told"}),
]
MODULE = """package Folder;
use strict;
use Errno qw(EEXIST);
use Fcntl;
use POSIX ();
my $host = (POSIX::uname())[1];
my %seen;
"""
OVERRIDE = "BEGIN {{ *CORE::GLOBAL::{name} = sub ({prototype}) {{ {body} }} }}\n"
PROTOTYPES = {"sysopen": "*$$;$", "link": "$$", "fcntl": "*$$", "kill": "@", "waitpid": "$$", "stat": ";*"}
PROTOTYPES |= {"lstat": ";*", "sysread": "*\\$$;$", "syswrite": "*$;$$", "time": ""}


def begun(folder, host, *more, seconds=5, module=None, apart=(), **how):
    """The script on that folder, as a host of that name."""
    begin = ["sh", "-c", 'hostname "$1"; shift; exec "$@"', "sh", host, "perl", SCRIPT, folder, str(seconds), *more]
    given = dict(os.environ, LC_ALL="C")
    if module:
        given |= {"PERL5OPT": "-MFolder", "PERL5LIB": str(module)}
    ends = {"stdin": subprocess.DEVNULL, "stdout": subprocess.PIPE, "stderr": subprocess.PIPE, "text": True}
    return subprocess.Popen(["unshare", *NAMED, *apart, *begin], env=given, **ends, **how)


def ended(*processes):
    """The status of each, and the lines on its two streams."""
    said = [process.communicate(timeout=100) for process in processes]
    return [(it.returncode, out.splitlines(), errors.splitlines()) for it, (out, errors) in zip(processes, said)]


@functools.lru_cache(None)
def need_names():
    for needed in ["perl", "unshare"]:
        if shutil.which(needed) is None:
            raise Absent(needed)
    if subprocess.run(["unshare", *NAMED, "hostname", "one"], capture_output=True).returncode:
        raise Absent("a host name of its own")


def left(folder):
    return sorted(it.name for it in folder.iterdir())


@case
def a_folder_that_keeps_all(folder):
    """lmtpd-two-hosts on a folder of one machine, as two hosts of their own names, whichever comes first: both say
    `keeps`, and leave nothing"""
    need_names()
    for pause in [0, 1]:
        first = begun(folder, "one")
        time.sleep(pause)
        equal(ended(first, begun(folder, "two")), [(0, ["keeps"], [])] * 2)
        equal(left(folder), [])


def tried_on(place, number):
    """What two hosts say of a folder that doesn't keep the thing of that number, and what they leave."""
    module, shared = place / f"module-{number}", place / f"shared-{number}"
    module.mkdir()
    shared.mkdir()
    bodies = NOT_KEPT[number][2].items()
    changed = [OVERRIDE.format(name=name, prototype=PROTOTYPES[name], body=body) for name, body in bodies]
    (module / "Folder.pm").write_text("".join([MODULE, *changed, "1;\n"]))
    hosts = [begun(shared, host, module=module, start_new_session=True) for host in ["one", "two"]]
    for host in hosts:
        host.wait(100)
        # what wasn't killed
        with contextlib.suppress(ProcessLookupError):
            os.killpg(host.pid, signal.SIGKILL)
    return ended(*hosts), left(shared)


@case
def folders_that_do_not_keep_one_thing(folder):
    """lmtpd-two-hosts on folders that don't keep one thing each, whose links, locks or appends are changed:
    both hosts say the same, which thing it is, and leave nothing"""
    need_names()
    with concurrent.futures.ThreadPoolExecutor(len(NOT_KEPT)) as together:
        found = list(together.map(functools.partial(tried_on, folder), range(len(NOT_KEPT))))
    for (letter, what, *_), (said, there) in zip(NOT_KEPT, found):
        (status, lines, errors), other = said
        equal((what, said), (what, [other, other]))
        letters = sorted({line.removeprefix("doesn't keep ")[0] for line in lines})
        equal((what, status, letters, errors, there), (what, 1, [letter], [], []))


folders_that_do_not_keep_one_thing.seconds = 200


def fault(text):
    """How one ends that tried nothing."""
    return 2, [], [f"lmtpd-two-hosts: {text}"]


@case
def two_hosts_of_one_name(folder):
    """lmtpd-two-hosts on one host twice says so, with status 2; on two hosts of one name, whose processes have numbers
    of their own, that it is this that isn't kept"""
    need_names()
    equal(ended(begun(folder, "one"), begun(folder, "one")), [fault("this is one host twice")] * 2)
    apart = [begun(folder, "one", apart=["--pid", "--fork", "--kill-child"]) for _ in range(2)]
    equal(ended(*apart), [(1, ["doesn't keep f: their names: both one, and not: two"], [])] * 2)
    equal(left(folder), [])


@case
def no_other_host(folder):
    """lmtpd-two-hosts alone, with words that it doesn't know, and in a folder that isn't there, is none or is another
    user's, says so, with status 2, and leaves nothing"""
    need_names()
    since = time.monotonic()
    equal(ended(begun(folder, "one", seconds=2)), [fault("no other host within 2 seconds")])
    equal(2 <= time.monotonic() - since < 10, True)
    file = folder / "file"
    file.write_text("")
    usage = fault("usage: lmtpd-two-hosts FOLDER [SECONDS]")
    for place, seconds, more, expected in [
        (folder, "soon", [], usage),
        (folder, 0, [], usage),
        (folder, 5, ["more"], usage),
        (folder / "none", 5, [], fault(f"cannot write {folder}/none: No such file or directory")),
        (file, 5, [], fault(f"cannot write {file}: Not a directory")),
    ]:
        equal(ended(begun(place, "one", *more, seconds=seconds)), [expected])
    if os.geteuid() == 0:
        # as another user, who can't be given a name of the host's
        words = ["setpriv", "--reuid=65534", "--clear-groups", "perl", SCRIPT, folder]
        folder.chmod(0o755)
        said = subprocess.run(words, capture_output=True, text=True)
        equal((said.returncode, said.stderr), (2, f"lmtpd-two-hosts: cannot write {folder}: Permission denied\n"))
    equal(left(folder), ["file"])


@case
def a_host_that_goes_away(folder):
    """lmtpd-two-hosts that is stopped while it tries leaves nothing, and the other host says that it went away; what
    one that was killed left is no host to the next two"""
    need_names()
    for number in [signal.SIGTERM, signal.SIGINT, signal.SIGHUP]:
        hosts = [begun(folder, name) for name in ["one", "two"]]
        # each has met the other by then: one that is stopped before leaves the other waiting for any host
        for made in [".0.new", ".1.new"]:
            wait_for(folder, made)
        hosts[0].send_signal(number)
        equal(ended(*hosts), [fault("stopped"), fault("the other host went away")])
        equal(left(folder), [])
    alone = begun(folder, "three")
    wait_for(folder, "lmtpd-two-hosts.")
    alone.kill()
    ended(alone)
    there = left(folder)
    equal(there == [], False)
    equal(ended(begun(folder, "one"), begun(folder, "two")), [(0, ["keeps"], [])] * 2)
    equal(left(folder), there)


def wait_for(folder, text):
    """Until a file with that in its name is there."""
    until = time.monotonic() + 20
    while not any(text in name for name in left(folder)):
        assert time.monotonic() < until, left(folder)
        time.sleep(0.01)


@case
def three_hosts(folder):
    """lmtpd-two-hosts on three hosts at once: none says more than it tried with one other, and nothing is left"""
    need_names()
    said = ended(*(begun(folder, name, seconds=3) for name in ["one", "two", "three"]))
    kept = [it for it in said if it == (0, ["keeps"], [])]
    others = [it for it in said if it[0] == 2 and not it[1]]
    equal((len(kept) in [0, 2], len(kept) + len(others), said), (True, 3, said))
    equal(left(folder), [])


three_hosts.seconds = 200

sys.exit(run_all(sys.argv[1:]))
