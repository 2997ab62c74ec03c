#!/usr/bin/env python3
"""read_once.py TRACE: of valgrind's lackey with --trace-mem=yes: some words between the places that a line "places FROM TO" names are read, and
none is read twice."""
import re
import sys

ACCESS = re.compile(r"^ [LM] ([0-9a-f]+),(\d+)", re.M)


def main():
    trace = open(sys.argv[1], errors="replace").read()
    start, end = (int(number, 16) for number in re.search(r"^places ([0-9a-f]+) ([0-9a-f]+)$", trace, re.M).groups())
    reads = {}
    for at, size in ((int(at, 16), int(size)) for at, size in ACCESS.findall(trace)):
        if start <= at < end:
            for word in range(at // 8, (at + size - 1) // 8 + 1):
                reads[word] = reads.get(word, 0) + 1
    twice = [word * 8 - start for word, count in reads.items() if count > 1]
    print(f"{len(reads)} words read, {len(twice)} more than once" + "".join(f"\nat {at:#x}" for at in twice[:9]))
    return 1 if twice or not reads else 0


if __name__ == "__main__":
    sys.exit(main())
