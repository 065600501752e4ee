"""A workspace of some crates of the repository, and of programs or tests whose files end in `.in`: the merge gate reads
every .rt and .antt file of the repository, and these are no part of it."""
import os
import shutil

TOP = os.path.dirname(os.path.dirname(os.path.dirname(os.path.abspath(__file__))))


def lines_of(path):
    """The lines of a file without comments and blank ones; none if there is no file."""
    if not os.path.exists(path):
        return []
    with open(path, encoding="utf-8") as file:
        stripped = [line.split("#")[0].strip() for line in file]
    return [line for line in stripped if line]


def all_crates():
    """The lines of crates.txt by the names of the crates, lowest first."""
    return {line.split(":")[0].split()[0]: line for line in lines_of(os.path.join(TOP, "crates.txt"))}


def needed(wanted):
    """The lines of crates.txt for these crates and for all their dependencies."""
    listed = all_crates()
    found, waiting = {}, list(wanted)
    while waiting:
        crate = waiting.pop()
        if crate in listed and crate not in found:
            found[crate] = listed[crate]
            waiting += listed[crate].split(":", 1)[1].split()
    return found


def lay_out(sources, folder, with_results=True):
    """Makes a workspace of the programs or tests in `sources` and their dependencies. Returns the crate of each."""
    lines = [lines_of(os.path.join(source, "crate.txt"))[0] for source in sources]
    crates = [line.split(":")[0].split()[0] for line in lines]
    below = needed(word for line in lines for word in line.split(":", 1)[1].split())
    os.makedirs(os.path.join(folder, "crates"), exist_ok=True)
    for one in below:
        refresh(os.path.join(TOP, "crates", one), os.path.join(folder, "crates", one), with_results)
    for source, crate in zip(sources, crates):
        refresh(source, os.path.join(folder, "crates", crate), with_results)
    shutil.copy(os.path.join(TOP, "HANDLES"), folder)
    with open(os.path.join(folder, "crates.txt"), "w", encoding="utf-8") as file:
        file.write("\n".join([*below.values(), *lines]) + "\n")
    return crates


def refresh(source, target, with_results):
    """Copies a crate again. The results of a check in out/ are copied, too, if they are wanted and the copy has none of
    its own."""
    os.makedirs(target, exist_ok=True)
    for part in ["src", "specs", "proofs", "c"]:
        shutil.rmtree(os.path.join(target, part), ignore_errors=True)
        if os.path.isdir(os.path.join(source, part)):
            shutil.copytree(os.path.join(source, part), os.path.join(target, part))
            take_endings_off(os.path.join(target, part))
    kept = os.path.join(source, "out")
    if with_results and os.path.isdir(kept) and not os.path.isdir(os.path.join(target, "out")):
        shutil.copytree(kept, os.path.join(target, "out"), ignore_dangling_symlinks=True)


def take_endings_off(folder):
    """Renames `main.rt.in` to `main.rt`, and so on."""
    for at, _, names in os.walk(folder):
        for name in names:
            if name.endswith(".in"):
                os.rename(os.path.join(at, name), os.path.join(at, name[:-3]))
