"""The program that the tools in this folder test."""
import os
import shutil
import sys

TOP = os.path.dirname(os.path.dirname(os.path.dirname(os.path.abspath(__file__))))
BUILT = os.path.join(TOP, "crates", "pktkit", "out", "pktkit")


def program():
    """The file of `pktkit`: the one that PKTKIT names, the one that was built here, or the one on the path."""
    file = os.environ.get("PKTKIT") or (BUILT if os.path.exists(BUILT) else shutil.which("pktkit"))
    if not file:
        sys.exit(f"{os.path.basename(sys.argv[0])}: no pktkit: make build, or make try and PKTKIT=out/pktkit")
    return os.path.abspath(file)
