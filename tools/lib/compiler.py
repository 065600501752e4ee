"""The compiler on one crate, over the libraries that `rt ci` leaves in crates/NAME/out/rlib."""
import os
import shutil
import sys
import time

from workspace import TOP, needed

RT = shutil.which("rt") or sys.exit(f"{os.path.basename(sys.argv[0])}: no rt on the path")
KIT = os.path.dirname(os.path.dirname(os.path.realpath(RT)))
OF_KIT = os.path.join(KIT, "rlibs")
# How long a library has to have been there: `rt ci` copies those that it kept, file by file.
SETTLED = 10


def rlib(crate):
    return os.path.join(TOP, "crates", crate, "out", "rlib", f"{crate}.rlib")


def is_there(crate):
    """Whether a crate's library is there, and was no moment ago."""
    files = [os.path.join(folder, name) for folder, _, names in os.walk(rlib(crate)) for name in names]
    try:
        return bool(files) and max(os.stat(file).st_ctime for file in files) < time.time() - SETTLED
    except OSError:
        return False


def below(crate):
    """The crates of the repository that a crate uses, and those that they use."""
    return [name for name in needed([crate]) if name != crate]


def can_start(crate):
    """Whether each library that a crate uses is there."""
    return all(map(is_there, below(crate)))


def words(verb, crate):
    """The command that checks or builds a library in the folder of the crate."""
    lines = needed([crate])
    found = [os.path.join(KIT, "bin", "rattle"), verb, "--crate-name", crate, "src/lib.rt"]
    for name in ["std", *lines[crate].split(":", 1)[1].split()]:
        found += ["--extern", f"{name}={rlib(name) if name in lines else os.path.join(OF_KIT, name + '.rlib')}"]
    for folder in [OF_KIT, *(os.path.dirname(rlib(name)) for name in below(crate))]:
        found += ["-L", f"dependency={folder}"]
    found += ["--antt-project", os.path.join(KIT, "rattle", "logic", "antt-project.json")]
    return found + ["--logic-built", os.path.join(KIT, "logic_built")]
