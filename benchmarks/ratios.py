#!/usr/bin/env python3
"""ratios.py RUNS NAME.. -- COMMAND..: runs commands that time the same work, as many after one another as there are names, and prints
the medians side by side. The names are those of the programs of each such group.

Each line: a workload and an operation, millions of operations a second of the first command, and those of each other with how many times
as fast as it the first is. The order of a group's runs is drawn. A ratio is the median of the ratios of neighbouring runs, which a change
of the machine's speed disturbs least. The size of a program's environment moves its stack, which alone makes some rows a fifth faster or
slower: each run has one of a drawn size.
"""
import os
import random
import statistics
import subprocess
import sys


def rates(command):
    """The operations a second of one run, by workload and operation: the first line of standard error names the operations."""
    environment = os.environ | {"PADDING": "x" * random.randrange(4096)}
    text = subprocess.run(command.split(), capture_output=True, text=True, check=True, env=environment).stderr
    head, *lines = [line.split() for line in text.splitlines()]
    return {(line[0], name): int(rate) for line in lines for name, rate in zip(head[3:], line[1:])}


def neighbours(group):
    """The rates of each command, run in an order that is drawn."""
    found = {command: rates(command) for command in random.sample(group, len(group))}
    return [found[command] for command in group]


def show(rounds):
    for key in rounds[0][0]:
        line = f"{key[0]:14} {key[1]:10} {statistics.median(first[key] for first, *_ in rounds) / 1e6:8.1f}"
        for other in range(1, len(rounds[0])):
            ratio = statistics.median(each[0][key] / each[other][key] for each in rounds)
            line += f" {statistics.median(each[other][key] for each in rounds) / 1e6:8.1f} {ratio:6.2f}"
        print(line, flush=True)
    for load in dict.fromkeys(load for load, _ in rounds[0][0]):
        if (load, "unmap") in rounds[0][0]:
            slower = statistics.median(first[load, "map"] / first[load, "unmap"] for first, *_ in rounds)
            print(f"{load:14} a map is {slower:.2f} times as fast as an unmap")


def main():
    runs, *words = sys.argv[1:]
    names, commands = words[:words.index("--")], words[words.index("--") + 1:]
    groups = list(zip(*[iter(commands)] * len(names)))
    found = [[neighbours(group) for group in groups] for _ in range(int(runs))]
    print(f"{'workload':14} {'operation':10} {names[0]:>8}" + "".join(f" {name:>8} {'ratio':>6}" for name in names[1:]))
    for rounds in zip(*found):
        show(rounds)


main()
