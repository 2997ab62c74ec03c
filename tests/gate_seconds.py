#!/usr/bin/env python3
"""Runs the gate, or the command that is given, and prints how many seconds of processor time its proofs took, by crate:
`tests/gate_seconds.py [COMMAND ..]`, else `rt ci`. What an earlier run proved costs nothing; on a machine that has none, or with
`rt ci --anew`, all is counted.

The processes are looked at every two seconds, so that each may lack its last two. A line has the crate, its proof, the proof of its
tests, what else its program is built with, the second proof that its wrong bodies begin with, and these, with their number.
"""
import os
import subprocess
import sys
import time
from collections import defaultdict

TICK = os.sysconf("SC_CLK_TCK")
PARTS = ("proof", "tests", "builds", "second", "bodies", "number")


def processes():
    """Each process: its parent, its words, its folder, and the seconds that it has taken."""
    for number in filter(str.isdigit, os.listdir("/proc")):
        try:
            with open(f"/proc/{number}/cmdline", "rb") as file:
                words = file.read().decode(errors="replace").split("\0")
            with open(f"/proc/{number}/stat") as file:
                stat = file.read().rpartition(")")[2].split()
            folder = os.readlink(f"/proc/{number}/cwd")
        except OSError:
            continue
        yield int(number), int(stat[1]), words, folder, sum(map(int, stat[11:15])) / TICK


def look(first, seen):
    """Notes the provers below a process."""
    found = {number: rest for number, *rest in processes()}
    for number, (parent, words, folder, seconds) in found.items():
        above = number
        while above in found and above != first:
            above = found[above][0]
        if above == first and words[0].endswith("/rattle") and "--crate-name" in words:
            # (a copy of a prover is counted with the one that it was forked from, when it ends)
            if not found.get(parent, [0, [""]])[1][0].endswith("/rattle"):
                seen[number, folder] = (words, seconds)


def part_of(words, folder):
    if "/rt-edit" in folder:
        return "bodies"
    if "--test" in words:
        return "tests"
    return "builds" if "--crate-checked" in words else "proof"


def print_table(seen):
    table = defaultdict(lambda: dict.fromkeys(PARTS, 0))
    for (_, folder), (words, seconds) in seen.items():
        row, part = table[words[words.index("--crate-name") + 1]], part_of(words, folder)
        if part == "bodies":
            row["number"] += 1
            row["second"] = max(row["second"], seconds)
        row[part] += seconds
    print(f"{'':22}" + "".join(f"{part:>8}" for part in PARTS))
    for row in table.values():
        row["bodies"] -= row["second"]
        # (of two or more, one more check is the second proof, and one tries the crate as it is once more)
        row["number"] -= 2 if row["number"] > 2 else 0
    cost = {crate: sum(row[part] for part in PARTS[:-1]) for crate, row in table.items()}
    for crate in sorted(cost, key=cost.get, reverse=True):
        print(f"{crate:22}" + "".join(f"{table[crate][part]:8.0f}" for part in PARTS))
    print(f"{sum(cost.values()) / 60:.0f} minutes of one processor in all")


def main(command):
    begin, seen = time.time(), {}
    run = subprocess.Popen(command or ["rt", "ci"])
    while run.poll() is None:
        look(run.pid, seen)
        time.sleep(2)
    print_table(seen)
    print(f"{(time.time() - begin) / 60:.0f} minutes")
    return run.returncode


if __name__ == "__main__":
    sys.exit(main(sys.argv[1:]))
