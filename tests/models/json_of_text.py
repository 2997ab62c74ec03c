#!/usr/bin/env python3
"""What `nrvs audit --json` has to print, from the text that `nrvs audit` has to print: each object is written by Python's own module.

    json_of_text.py TRACE <TEXT                   of the text for one trace, which this file has
    json_of_text.py --named NAME=TRACE.. <TEXT    of the lines for several files of these names, which these files have
    json_of_text.py --chain CHAIN <TEXT           of the text for a chain, also if it is quiet, which this file has
"""
import json
import sys

sys.dont_write_bytecode = True
import model_chain_evidence as chain_evidence
import model_evidence as evidence

COUNTS = "beside calls kept lagging open overlapping repeated".split()   # of a right chain


def line_of(members):
    return json.dumps(members, sort_keys=True, separators=(",", ":"), ensure_ascii=False) + "\n"


def fault_members(words):
    """The members of a fault, from the words of its line: its number, its name, which has two words for Format, and its numbers."""
    names = 2 if words[1] == "Format" else 1
    numbers = [word if word.startswith("0x") else int(word) for word in words[1 + names:]]
    return {"code": int(words[0]), "fault": " ".join(words[1:1 + names]), "numbers": numbers}


def yes_members(data):
    """The members of a yes on a trace."""
    counts = evidence.explained(data)[1]["counts"]
    return {"calls": counts["calls"], "overlapping": counts["overlapping"], "verdict": "yes"}


def verdict_members(line, order=""):
    """The members of a no, and those of the yes on a segment, from the first line and the order's."""
    if line == "yes":
        return {"calls": len(order.split()) - 1, "verdict": line}
    no, *words = line.split(" ")
    assert no == "no"
    return {**fault_members(words), "verdict": line}


def of_trace(text, data):
    line = text.splitlines()[0]
    return line_of(yes_members(data) if line == "yes" else verdict_members(line))


def of_named(text, files):
    """Of lines that have a file's name, a colon and a verdict; `files` has the bytes of each name."""
    told = []
    for line in text.splitlines():
        name, verdict = line.rsplit(": ", 1)
        members = yes_members(files[name]) if verdict == "yes" else verdict_members(verdict)
        told.append(line_of({**members, "file": name}))
    return "".join(told)


def of_chain(text, data):
    lines, told = text.splitlines(), []
    while lines:
        line = lines.pop(0)
        what, number = line.split(" ")
        if what == "segments":
            counts = chain_evidence.explained(data)[0]["counts"]
            told.append(line_of({**{what: counts[what] for what in COUNTS}, "segments": int(number), "verdict": line}))
            continue
        verdict = lines.pop(0)
        told.append(line_of({**verdict_members(verdict, lines.pop(0) if verdict == "yes" else ""), "segment": int(number)}))
    return "".join(told)


def contents(path):
    with open(path, "rb") as file:
        return file.read()


def main(words):
    text = sys.stdin.read()
    if words[0] == "--named":
        sys.stdout.write(of_named(text, {name: contents(path) for name, path in (word.split("=") for word in words[1:])}))
    elif words[0] == "--chain":
        sys.stdout.write(of_chain(text, contents(words[1])))
    else:
        sys.stdout.write(of_trace(text, contents(words[0])))


if __name__ == "__main__":
    main(sys.argv[1:])
