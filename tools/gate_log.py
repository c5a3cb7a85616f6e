"""Reads what tools/gate left: the processor seconds of each crate by kind of work, the seconds of the whole run, and whether it began from nothing."""
import os
import re

TOP = os.path.dirname(os.path.dirname(os.path.abspath(__file__)))
LOG = f"{TOP}/bin/gate.log"
KINDS = ("proof", "tests", "edits")


def read(path):
    """The seconds by crate and kind, those of the run, and the lines that tell of what an earlier run had kept."""
    found, wall, kept = {}, 0, []
    for line in open(path, encoding="utf-8", errors="replace"):
        told = re.fullmatch(r"cost: (\w+) (\w+) (\d+)\n", line)
        if told and told[2] == "wall":
            wall = int(told[3])
        elif told:
            found.setdefault(told[1], dict.fromkeys(KINDS, 0))[told[2]] = int(told[3])
        elif "earlier run" in line:
            kept.append(line)
    return found, wall, kept
