"""Programs of Debian's packages, which are installed where they may be."""

import functools
import os
import pathlib
import shutil
import subprocess

from cases import Absent

SEARCHED = f"{os.environ.get('PATH', '')}:/usr/sbin:/usr/lib/postfix/sbin:/usr/lib/dovecot"


def program(name, package):
    """The path of that program, from its package where it isn't there yet."""
    path = shutil.which(name, path=SEARCHED)
    if path is None:
        install(package)
        path = shutil.which(name, path=SEARCHED)
    if path is None:
        raise Absent(f"{name} isn't installed (package {package})")
    return path


@functools.lru_cache(None)
def install(package):
    if os.geteuid() != 0 or shutil.which("apt-get") is None:
        return
    quiet = {"stdout": subprocess.DEVNULL, "stderr": subprocess.DEVNULL, "stdin": subprocess.DEVNULL}
    environment = dict(os.environ, DEBIAN_FRONTEND="noninteractive")
    words = ["apt-get", "install", "-y", "-qq", "--no-install-recommends", package]
    if subprocess.run(words, env=environment, **quiet).returncode != 0:
        subprocess.run(["apt-get", "update", "-qq"], env=environment, **quiet)
        subprocess.run(words, env=environment, **quiet)


def unpacked(package, folder):
    """The files of a package that can't be installed beside another, under that folder."""
    folder = pathlib.Path(folder)
    folder.mkdir(exist_ok=True)
    quiet = {"stdout": subprocess.DEVNULL, "stderr": subprocess.DEVNULL}
    # apt-get gives its rights up, so that the folder must be anybody's
    folder.chmod(0o777)
    subprocess.run(["apt-get", "download", package], cwd=folder, **quiet)
    found = sorted(folder.glob(f"{package}_*.deb"))
    if not found:
        raise Absent(f"the package {package} can't be fetched")
    subprocess.run(["dpkg-deb", "-x", found[-1], folder], check=True)
    return folder


def need_root():
    if os.geteuid() != 0:
        raise Absent("it needs root")
