#!/usr/bin/env python3
"""Times `nrvs audit` of one trace beside the plain program: audits.py KIND TRACE PROGRAM PLAIN RUNS.

Prints the bytes of the trace, and of `cat`, the program and the plain one the least processor time of so many runs, in seconds. Of the last
two it prints the median peak of memory, in KB, and how many times as much of each the program takes. Each program runs in turn.
"""
import os
import resource
import statistics
import subprocess
import sys


def measured(trace, command):
    """Seconds and peak of one run, and the first line that it writes."""
    before = resource.getrusage(resource.RUSAGE_CHILDREN)
    with open(trace, "rb") as source:
        ran = subprocess.run(["/usr/bin/time", "-f", "%M", *command], stdin=source, capture_output=True)
    after = resource.getrusage(resource.RUSAGE_CHILDREN)
    seconds = after.ru_utime - before.ru_utime + after.ru_stime - before.ru_stime
    return seconds, int(ran.stderr.split()[-1]), ran.stdout[:40].split(b"\n")[0].decode(errors="replace")


def main(kind, trace, program, plain, runs):
    commands = {"cat": ["sh", "-c", "cat >/dev/null"], "program": [program, "audit"], "plain": [plain]}
    figures = {name: [] for name in commands}
    for _ in range(int(runs)):
        for name, command in commands.items():
            figures[name].append(measured(trace, command))
    seconds = {name: min(run[0] for run in ran) for name, ran in figures.items()}
    peaks = {name: statistics.median(run[1] for run in ran) for name, ran in figures.items()}
    print(f"{kind:12} {os.path.getsize(trace):11} bytes, cat {seconds['cat']:.3f} s; "
          f"nrvs {seconds['program']:.3f} s, {peaks['program']:.0f} KB; "
          f"plain {seconds['plain']:.3f} s, {peaks['plain']:.0f} KB; {seconds['program'] / max(seconds['plain'], 0.001):.2f} times, "
          f"{peaks['program'] / peaks['plain']:.2f} times the memory; {figures['program'][0][2]}")


if __name__ == "__main__":
    if len(sys.argv) != 6:
        sys.exit(__doc__)
    main(*sys.argv[1:])
