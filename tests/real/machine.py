"""A machine of its own, whose first process is systemd.

Its files are those of this machine, or of a folder, with a layer in memory over them, so that nothing stays of what is
done there. Its processes, its network, of which it has loopback alone, and its branch of the control groups are its own
as well.
"""

import itertools
import os
import pathlib
import subprocess
import time

from cases import Absent
from packages import program, need_root
from started import Started

SYSTEMD = "/lib/systemd/systemd"
PATH = "/usr/local/sbin:/usr/local/bin:/usr/sbin:/usr/bin:/sbin:/bin"

# What comes to be its first process; $1 is a folder for its files, $2 one that is copied to /root/site, $5 the one
# whose files it has.
BEGIN = r"""
set -e
mount -t tmpfs none "$1"
mkdir "$1/upper" "$1/work" "$1/root"
mount -t overlay none -o "lowerdir=$5,upperdir=$1/upper,workdir=$1/work" "$1/root"
cp -r "$2" "$1/root/root/site"
cd "$1/root"
mount -t proc none proc
mount --bind proc/sys proc/sys
mount -o remount,bind,ro proc/sys
mount -t sysfs -o ro none sys
mount -t cgroup2 none sys/fs/cgroup
for place in dev run tmp; do mount -t tmpfs -o mode=755 none $place; done
chmod 1777 tmp
mkdir dev/pts dev/shm
mount -t devpts -o newinstance,ptmxmode=0666 none dev/pts
ln -s pts/ptmx dev/ptmx
ln -s /proc/self/fd dev/fd
for node in null:3 zero:5 full:7 random:8 urandom:9; do mknod -m 666 "dev/${node%:*}" c 1 "${node#*:}"; done
for unit in timers.target systemd-remount-fs.service; do ln -sf /dev/null "etc/systemd/system/$unit"; done
mkdir old
pivot_root . old
cd /
umount -l old
rmdir old
exec env -i PATH="$3" container=other "$4" --unit=basic.target
"""
NUMBERS = itertools.count()  # of this process's machines
APART = ["--mount", "--pid", "--net", "--uts", "--ipc", "--cgroup"]


class Machine(Started):
    def __init__(self, folder, site, root="/"):
        """It has the files of the folder `root`; the folder `site` is copied to /root/site there."""
        need_root()
        if not os.path.exists(f"{root}/{SYSTEMD}"):
            raise Absent("systemd isn't installed")
        self.site = site
        self.root = root
        self.log = folder / "machine.log"
        self.files = folder / "machine"
        self.files.mkdir()
        self.group = control_groups() / f"lmtpd-test-{os.getpid()}-{next(NUMBERS)}"
        self.nsenter = program("nsenter", "util-linux")

    def start(self):
        try:
            self.group.mkdir()
        except OSError as fault:
            raise Absent(f"no control group can be made: {fault}") from fault
        given = [self.files, self.site, PATH, SYSTEMD, self.root]
        words = ["unshare", "--fork", "--kill-child", *APART, "sh", "-c", BEGIN, "sh", *given]
        enter = f'echo $$ > "{self.group}/cgroup.procs"; exec "$@"'
        ends = {"stdin": subprocess.DEVNULL, "stdout": self.log.open("wb"), "stderr": subprocess.STDOUT}
        self.process = subprocess.Popen(["sh", "-c", enter, "sh", *words], **ends)

    def end(self):
        self.process.kill()
        self.process.wait()
        until = time.monotonic() + 10
        while self.group.exists() and time.monotonic() < until:
            for path, _, _ in os.walk(self.group, topdown=False):
                try:
                    os.rmdir(path)
                except OSError:
                    time.sleep(0.05)

    def wait(self):
        until = time.monotonic() + 30
        while time.monotonic() < until and self.process.poll() is None:
            if self.first() is not None and self.run("systemctl is-active basic.target")[0] == 0:
                return
            time.sleep(0.2)
        raise Absent(f"systemd doesn't come up in namespaces here: {self.log.read_text()[-300:].strip()}")

    def first(self):
        """The number that its first process has here, once that is systemd."""
        pid = self.process.pid
        try:
            for child in pathlib.Path(f"/proc/{pid}/task/{pid}/children").read_text().split():
                if pathlib.Path(f"/proc/{child}/comm").read_text() == "systemd\n":
                    return child
        except OSError:  # it has ended meanwhile
            pass
        return None

    def run(self, line, seconds=60):
        """Status and output of a line of shell there, as root in /root/site."""
        shell = ["env", "-i", f"PATH={PATH}", "HOME=/root", "sh", "-c", f"cd /root/site && {{ {line}\n}}"]
        ends = {"stdin": subprocess.DEVNULL, "stdout": subprocess.PIPE, "stderr": subprocess.STDOUT}
        said = subprocess.run([*self.enter(), *shell], timeout=seconds, **ends)
        return said.returncode, said.stdout.decode(errors="replace")

    def begin(self, words, **how):
        """A process there, as root in /root/site; what is said of `how` it is started is said as to Popen."""
        return subprocess.Popen([*self.enter(), "--wdns=/root/site", *words], stdin=subprocess.DEVNULL, **how)

    def enter(self):
        return [self.nsenter, "-t", self.first(), "-m", "-u", "-i", "-n", "-p", "-C"]


def control_groups():
    """Where the one hierarchy of control groups is mounted."""
    for line in pathlib.Path("/proc/mounts").read_text().splitlines():
        _, path, kind, *_ = line.split()
        if kind == "cgroup2":
            return pathlib.Path(path)
    raise Absent("no control groups")
