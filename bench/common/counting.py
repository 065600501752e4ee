"""Instructions, counted by valgrind's callgrind: the same on each run, whatever else the machine does."""
import re
import shutil
import subprocess


class Uncounted(Exception):
    """Why instructions couldn't be counted."""


def instructions(command):
    """The instructions of one run."""
    done = subprocess.run(["valgrind", "--tool=callgrind", "--callgrind-out-file=/dev/null", *command],
                          capture_output=True, text=True)
    counts = re.findall(r"Collected : (\d+)", done.stderr)
    if done.returncode != 0 or not counts:
        raise Uncounted(f"{done.stderr}\nvalgrind {command[0]} ended with status {done.returncode}")
    return sum(map(int, counts))


def of_turns(command, counted):
    """The instructions of one unit of a turn. The command is followed by the number of turns."""
    fewer, more, units = map(int, counted.split())
    return (instructions([*command, str(more)]) - instructions([*command, str(fewer)])) / ((more - fewer) * units)


def try_to(count, *arguments):
    """Calls a function that counts instructions. If they can't be counted here it says so, and the times stay."""
    try:
        if not shutil.which("valgrind"):
            raise Uncounted("valgrind isn't installed")
        count(*arguments)
    except Uncounted as why:
        print(f"instructions aren't counted, or not all of them: {why}")


def show_count(found, what, here, against, there, part):
    """Prints instructions that were counted, and adds the row."""
    kept = found.add(what, here, "instructions", against, there, part, rounds=1)
    bound = found.bound(what)
    verdict = "" if bound is None else f"  {'within' if kept else 'ABOVE'} {bound:g}"
    shown = f"{there:>10.4g} {here / there:>7.2f}" if there else f"{'':>10} {'':>7}"
    print(f"{what:<60} {here:>10.4g} {shown}  instructions{verdict}", flush=True)
