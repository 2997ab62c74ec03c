#!/usr/bin/env python3
"""Prints how many seconds of processor time each must-fail edit costs: `tests/edit_seconds.py [CRATE..]`.

Each edit is applied to a copy of the repository, and its crate is checked there over the work of the checks before it, as in
the gate. A crate's line has the check of the crate as it is, once its first check is done. An edit's line has what it costs
beyond that: the check with the edit, and what the next check then proves again. An edit that costs 20 seconds should be
replaced by one that turns the same meaning and is refused at once.
"""
import resource
import shutil
import subprocess
import sys
import tempfile
from pathlib import Path

ROOT = Path(__file__).resolve().parent.parent


def processor_seconds():
    used = resource.getrusage(resource.RUSAGE_CHILDREN)
    return used.ru_utime + used.ru_stime


def check(folder):
    begin = processor_seconds()
    words = ["rt", "check", "--jobs", "1"]
    ran = subprocess.run(words, cwd=folder, stdout=subprocess.PIPE, stderr=subprocess.STDOUT)
    return processor_seconds() - begin, ran.returncode


def pairs(edit):
    """The replacements of an edit: file, old text, new text."""
    path = old = None
    for line in edit.read_text().splitlines():
        kind, _, text = line.partition(": ")
        if kind == "file":
            path = text
        elif kind == "old":
            old = text
        elif line.startswith("new:"):
            yield path, old, line[len("new: "):]


def apply(edit, folder):
    """Applies an edit, and gives the texts from before by file."""
    before = {}
    for path, old, new in pairs(edit):
        file = folder / path
        text = file.read_text()
        before.setdefault(file, text)
        file.write_text(text.replace(old, new))
    return before


def measure(crate, room):
    folder = room / "crates" / crate
    edits = sorted((folder / "must-fail").glob("*.edit"))
    if not edits:
        return
    check(folder)
    base, status = check(folder)
    print(f"{base:7.1f}  {crate}, beyond its first check{'' if status == 0 else ': NOT PROVED'}", flush=True)
    for edit in edits:
        before = apply(edit, folder)
        seconds, status = check(folder)
        for file, text in before.items():
            file.write_text(text)
        again, _ = check(folder)
        told = "" if status else ": NOT REFUSED"
        print(f"{seconds + again - 2 * base:+7.1f}  {crate}/{edit.name}{told}", flush=True)


def main(names):
    with tempfile.TemporaryDirectory() as room:
        room = Path(room) / "repository"
        shutil.copytree(ROOT, room, ignore=shutil.ignore_patterns(".git"))
        crates = names or sorted(it.name for it in (room / "crates").iterdir())
        for crate in crates:
            measure(crate, room)


if __name__ == "__main__":
    main(sys.argv[1:])
