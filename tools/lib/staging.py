"""Lays out what `make dist` and `make deb` pack: the proved program, the C library over the proved archive, headers,
manual pages, completions, the licence. Two trees of one commit have the same bytes and times."""
import gzip
import os
import re
import shutil
import subprocess

import c_header

TOP = c_header.TOP
VERSION = c_header.version(c_header.read())
PROGRAM = os.path.abspath(os.environ.get("PKTKIT", os.path.join(TOP, "crates", "pktkit", "out", "pktkit")))
ARCHIVE = os.path.abspath(os.environ.get("ARCHIVE", os.path.join(TOP, "crates", "capi", "out", "libcapi.a")))
HELP = os.path.join(TOP, "crates", "cli", "src", "command_line", "help.rt")
# No path of the machine is in what the C side is compiled to.
CFLAGS = f"-O2 -ffile-prefix-map={TOP}=. -Wdate-time"
COMPLETIONS = {"pktkit.bash": "bash-completion/completions/pktkit", "_pktkit": "zsh/site-functions/_pktkit",
               "pktkit.fish": "fish/vendor_completions.d/pktkit.fish"}


class Missing(Exception):
    """What has to be there isn't, and what makes it."""


def said_by(*words):
    return subprocess.run(words, cwd=TOP, capture_output=True, text=True, check=True).stdout.strip()


def logic():
    """The logic that the source was proved with, as the source names it."""
    with open(HELP, encoding="utf-8") as file:
        return re.search(r"proved with Rattle's logic (\w+)\.", file.read())[1]


def is_version(printed):
    """Whether what `pktkit --version` printed names the version of the C library."""
    return printed.partition("\n")[0] == f"pktkit {VERSION}"


def commit():
    """The commit, and whether the files are those of it."""
    return said_by("git", "rev-parse", "HEAD") + (" with changes" if said_by("git", "status", "--porcelain") else "")


def moment():
    """The time of the commit, which all files have."""
    return int(said_by("git", "log", "-1", "--format=%ct"))


def check():
    for file, target in [(PROGRAM, "build"), (ARCHIVE, "lib")]:
        if not os.path.exists(file):
            raise Missing(f"there is no {os.path.relpath(file, TOP)}: make {target} proves it and builds it")
    printed = said_by(PROGRAM, "--version")
    if logic() not in printed or not is_version(printed):
        raise Missing(f"{os.path.relpath(PROGRAM, TOP)} is another version, or was proved by another logic")


def copy(source, *place, mode=0o644):
    at = os.path.join(*place)
    os.makedirs(os.path.dirname(at), exist_ok=True)
    shutil.copyfile(source, at)
    os.chmod(at, mode)


def pack(at):
    """Compresses a file as .gz, without its name and its time."""
    with open(at, "rb") as file, open(f"{at}.gz", "wb") as packed:
        packed.write(gzip.compress(file.read(), 9, mtime=0))
    os.remove(at)


def lay_out(root, built, prefix="/usr", libdir="/usr/lib"):
    """The tree below `root`, as if it were the root of a machine. The library is built in the folder `built`."""
    install = ["make", "-s", "-C", c_header.C, "install", f"OUT={built}", f"ARCHIVE={ARCHIVE}", f"CFLAGS={CFLAGS}",
               f"DESTDIR={root}", f"PREFIX={prefix}", f"LIBDIR={libdir}"]
    done = subprocess.run(install, capture_output=True, text=True)
    if done.returncode:
        raise Missing(f"the C library wasn't built: {done.stderr}")
    lib = root + libdir
    subprocess.run(["strip", "--strip-unneeded", os.path.join(lib, f"libhokhtura.so.{VERSION}")], check=True)
    subprocess.run(["strip", "--strip-debug", "--enable-deterministic-archives", os.path.join(lib, "libhokhtura.a")],
                   check=True)
    copy(PROGRAM, root + prefix, "bin", "pktkit", mode=0o755)
    subprocess.run(["strip", "--strip-unneeded", os.path.join(root + prefix, "bin", "pktkit")], check=True)
    share = os.path.join(root + prefix, "share")
    copy(os.path.join(TOP, "man", "pktkit.1"), share, "man", "man1", "pktkit.1")
    for name, place in COMPLETIONS.items():
        copy(os.path.join(TOP, "completions", name), share, place)


def set_times(root, when):
    """Gives all files and folders one time, and folders one mode."""
    for at, folders, names in os.walk(root, topdown=False):
        for name in names:
            os.utime(os.path.join(at, name), (when, when), follow_symlinks=False)
        os.chmod(at, 0o755)
        os.utime(at, (when, when))
