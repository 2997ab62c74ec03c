#!/usr/bin/env python3
"""Draws slips in a log, one at a time, and has the program judge the trace that comes of each: a recorder or a kernel that did
otherwise than the processors saw has to be found.

    slips.py [--flushes] [--count N] [--seed S] LOG

Of each kind N are drawn among the stores to entries of pages: one is dropped, one is altered (another frame, or a right more or
less), or one is moved behind some of the lines that follow. It prints for each kind what shows them: an access of a processor, the
word that a later store overwrote, the tables at the end, or what a system call promised, as the converter counts. A slip that makes
the same trace isn't counted. With --flushes N flushes are dropped, one at a time, and the log is a chain, once with what the kernel
frees and once without. NRVS says where the program is, else it is crates/nrvs/out/nrvs.
"""
import argparse
import collections
import random
import subprocess
import sys

sys.dont_write_bytecode = True
import convert
import explain
from debian import Missing
from page_tables import LARGE, PRESENT

WRITABLE, OF_USERS, NO_EXECUTE = 2, 4, 1 << 63
FRAME_BIT = 1 << 12
FARTHEST = 2000     # lines that a store may be moved by
NOTHING = "nothing"
WHOLE = 60000       # updates: the chain is one segment
SHOWN_BY = {"segments": NOTHING, "Stale": "an access", "Reachable": "memory that was given away"}


def stores_of_pages(lines: list[str]) -> list[int]:
    """Which lines are stores to entries of pages."""
    found, levels = [], {}
    for number, line in enumerate(lines):
        words = line.split()
        if words[0] == "@table":
            levels[words[1]] = int(words[2])
        if words[0] == "@store" and (levels.get(words[5]) == 1 or all(is_page(int(word, 16)) for word in words[7:9])):
            found.append(number)
    return found


def is_page(word: int) -> bool:
    """A large page's entry, or none."""
    return not word & PRESENT or bool(word & LARGE)


def dropped(lines: list[str], number: int, _: random.Random) -> list[str]:
    return lines[:number] + lines[number + 1:]


def altered(lines: list[str], number: int, draw: random.Random) -> list[str]:
    words = lines[number].split()
    word = int(words[8], 16)
    bit = draw.choice((FRAME_BIT << 9 if word & LARGE else FRAME_BIT, WRITABLE, OF_USERS, NO_EXECUTE)) if word & PRESENT else PRESENT
    words[8] = f"{word ^ bit:x}"
    return lines[:number] + [" ".join(words) + "\n"] + lines[number + 1:]


def moved(lines: list[str], number: int, draw: random.Random) -> list[str]:
    to = number + draw.randint(1, FARTHEST)
    return lines[:number] + lines[number + 1:to + 1] + [lines[number]] + lines[to + 1:]


KINDS = {"dropped": dropped, "altered": altered, "moved": moved}


def verdict(lines: list[str]) -> tuple[bytes, str]:
    """The trace of these lines, and what shows that it isn't right."""
    converter = convert.convert(lines)
    trace = converter.spell()
    done = subprocess.run([explain.program(), "audit"], input=trace, stdout=subprocess.PIPE)
    words = done.stdout.decode().split("\n")[0].split()
    if words[0] == "yes":
        return trace, "what a system call promised" if converter.counts[convert.MORE] else NOTHING
    if words[2] != "WrongAnswer":
        return trace, "the tables at the end"
    by_processor = {int(source.call) for source in converter.sources if source.who.startswith("processor")}
    return trace, "an access" if int(words[3]) in by_processor else "a later store"


def draw_slips(lines: list[str], count: int, seed: int) -> dict[str, collections.Counter[str]]:
    """By kind, by what shows it: how many of `count` slips that change the trace."""
    sound, said = verdict(lines)
    if said != NOTHING:
        raise Missing(f"the log itself isn't sound: that shows {said}")
    stores, results = stores_of_pages(lines), {}
    for kind, slip in KINDS.items():
        draw, counts = random.Random(f"{seed} {kind}"), collections.Counter()
        while counts.total() < count:
            trace, said = verdict(slip(lines, draw.choice(stores), draw))
            if trace != sound:
                counts[said] += 1
        results[kind] = counts
    return results


def chain_verdict(lines: list[str], releases: bool) -> tuple[bytes, str]:
    """The chain of these lines, and what shows that it isn't right."""
    chain = convert.convert(lines, convert.Options(chain=WHOLE, releases=releases)).spell()
    done = subprocess.run([explain.program(), "audit", "--chain", "--quiet"], input=chain, stdout=subprocess.PIPE)
    words = done.stdout.decode().split()
    return chain, SHOWN_BY.get(words[-2], words[-2])


def draw_flushes(lines: list[str], count: int, seed: int) -> dict[str, collections.Counter[str]]:
    """The same of flushes that are dropped, those that change the chain, with releases and without."""
    sound, said = chain_verdict(lines, True)
    if said != NOTHING:
        raise Missing(f"the log itself isn't sound: that shows {said}")
    flushes = [number for number, line in enumerate(lines) if line.startswith("@flushed")]
    results = {what: collections.Counter() for what in ("with releases", "without releases")}
    draw = random.Random(f"{seed} flushes")
    draw.shuffle(flushes)
    for number in flushes:
        if results["with releases"].total() == count:
            break
        chain, said = chain_verdict(dropped(lines, number, draw), True)
        if chain != sound:
            results["with releases"][said] += 1
            results["without releases"][chain_verdict(dropped(lines, number, draw), False)[1]] += 1
    return results


def main() -> int:
    parser = argparse.ArgumentParser(usage="slips.py [--flushes] [--count N] [--seed S] LOG")
    parser.add_argument("--flushes", action="store_true")
    parser.add_argument("--count", type=int, default=50)
    parser.add_argument("--seed", type=int, default=1)
    parser.add_argument("log")
    words = parser.parse_args()
    try:
        explain.check_program()
        results = (draw_flushes if words.flushes else draw_slips)(convert.read_lines(words.log), words.count, words.seed)
    except Missing as why:
        print(f"slips.py: {why}", file=sys.stderr)
        return 2
    for kind, counts in results.items():
        print(f"{kind}: " + ", ".join(f"{number} shown by {what}" for what, number in counts.most_common()))
    return 0


if __name__ == "__main__":
    sys.exit(main())
