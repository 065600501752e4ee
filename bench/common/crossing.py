"""Producers and consumers in threads of their own, by whole calls that wait, compared with rte_ring's."""
import os
import statistics
import subprocess
import sys
import time

# The number of calls that a thread makes, by the items in a call, so that a run takes some tenths of a second.
CALLS = {1: 500_000, 8: 300_000, 32: 200_000, 128: 100_000}


def rate(command, threads=0):
    """The rate that one run prints. Its threads, if their number is given, are pinned to processors of their own."""
    cpus = sorted(os.sched_getaffinity(0))
    process = subprocess.Popen(command, stdout=subprocess.PIPE, text=True)
    while threads and process.poll() is None:
        try:
            tasks = sorted(int(task) for task in os.listdir(f"/proc/{process.pid}/task"))
            if len(tasks) == threads:
                for task, cpu in zip(tasks, cpus):
                    os.sched_setaffinity(task, {cpu})
                break
        except OSError:
            break
        time.sleep(0.0002)
    words = process.communicate()[0].split()
    if process.returncode != 0 or len(words) != 3:
        sys.exit(f"bench/run: {command} told {words}, status {process.returncode}")
    return float(words[1])


PARTIES = {1: "1 producer, 1 consumer", 2: "2 producers, 2 consumers"}
MODES = {"multi": ("multi", "rte_ring MP/MC"), "hts": ("HTS", "rte_ring HTS")}


def together(ours, theirs, rounds, results=None, pinned=False):
    """Measures threads on processors of their own, and adds the rows to the results if there are any to add them to. Our
    program is pinned from outside if it doesn't pin its threads itself."""
    print(f"{'threads, Mitem/s':<24} {'calls':>8} {'rte_ring':>9} {'ratio':>7}")
    for mode in ["multi", "hts"]:
        for pairs in [1, 2]:
            if 2 * pairs > len(os.sched_getaffinity(0)):
                continue
            for n, calls in CALLS.items():
                words = ["threads", mode, str(pairs), str(n), str(calls)]
                runs = ([], [])
                for _ in range(rounds):
                    runs[0].append(rate([ours, *words], 0 if pinned else 2 * pairs))
                    runs[1].append(rate([theirs, *words]))
                here, there = statistics.median(runs[0]), statistics.median(runs[1])
                print(f"{f'{mode}, {pairs} and {pairs}, {n}':<24} {here:>8.4g} {there:>9.4g} {here / there:>7.2f}",
                      flush=True)
                if results:
                    title, against = MODES[mode]
                    what = f"{PARTIES[pairs]}, {n} {'word' if n == 1 else 'words'} a call, {title}"
                    results.add(what, here, "Mitem/s", against, there, f"between threads, {title}")
