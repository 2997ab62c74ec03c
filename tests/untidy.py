#!/usr/bin/env python3
"""Counts what is untidy in the code, which may only become less: tests/untidy.txt has how many places of each kind there were.

    tests/untidy.py [--renew]     prints `failed: ..` lines, and `N passed, M failed`; --renew keeps counts that have fallen
    tests/untidy.py KIND          prints all places of a kind

Where there are more, the new places are printed: those that weren't there when untidy.txt was last changed. Kinds are:

- twins: two places in crates that have the same run of lines, but for white space
- twins_outside: the same in all other code
- wide_lines: lines of .rt and .antt files that have too many columns, imports aside
- long_files: files with too many lines, unless the comment at their head says why this is one file
- long_sentences: sentences of comments that have too many words
- shifts: lines that shift bits, in the crates of page tables but for vs_types, which is to say what each bit of an entry means
"""
import collections
import io
import itertools
import re
import subprocess
import sys
import tarfile
from collections.abc import Callable, Iterator
from pathlib import Path
from typing import NamedTuple

sys.dont_write_bytecode = True
from words_to_avoid import DATA

ROOT = Path(__file__).resolve().parent.parent
KEPT = ROOT / "tests/untidy.txt"
HEADING = "# How many places of each kind tests/untidy.py may find. Numbers only fall; behind a merge `tests/untidy.py --renew` puts them right.\n"
LINES = 8           # of a run that two places share
COPIES = 8          # places with one run, at most: what is in more files is how each of them begins
COLUMNS = 160
FILE_LINES = 500
WORDS = 38
HEAD = 30           # lines in which a long file says why
SHOWN = 12          # places of a kind
CODE = re.compile(r"\.(rt|antt|py|c|h|rs|js|S)$")
OF_TABLES = re.compile(r"^crates/(vs_(?!types/)\w+|nrvs_c|nrvs_plan_c|nr_explain)/src/.*\.rt$")
PROVED = re.compile(r"\.(rt|antt)$")
IMPORT = re.compile(r"(pub )?(ghost )?use ")
# imports, comments, and lines that have a bracket alone
THIN = re.compile(r"^(?:[\s{}()\[\],;.→λ]*|(?:ghost |pub )?use .*|(?:from \S+ )?import .*|(?:pub )?mod .*|//.*|--.*|#.*|[/ ]\*.*)$")
# the comments of a language, by the name of a file or by its first line; strings are passed over
STRINGS = r"""|"(?:\\.|[^"\\])*"|'(?:\\.|[^'\\\n])"""     # without the end of the latter
COMMENTS = {
    r"\.antt$": re.compile(r"(?<!\S)-- ([^\n]*)"),
    r"\.(rt|c|h|rs|js|S)$": re.compile(r"(//[^\n]*|/\*.*?\*/)" + STRINGS + "'", re.S),
    r"\.py$|python": re.compile(r'^[ \t]*r?"""(.*?)"""|(?<!\S)# ([^\n]*)|""".*?"""' + STRINGS + "*'", re.S | re.M),
    r"": re.compile(r"(?<!\S)# ([^\n]*)")}
REASON = re.compile(r"\bone (file|header)\b")


class Place(NamedTuple):
    where: str
    text: str       # what is there, whatever its file is called


# ---- twins ----

def counted(text: str) -> list[tuple[int, str]]:
    """The lines that count, with their numbers: without comments, imports, blank lines and lone punctuation."""
    return [(number, " ".join(line.split())) for number, line in enumerate(text.split("\n"), 1) if not THIN.match(line)]


def equal_runs(lines: dict[str, list[tuple[int, str]]]) -> set[tuple[tuple[str, int], tuple[str, int]]]:
    """Pairs of places with the same LINES lines: each its file, and the index of its first line among those that count."""
    found, number_of = collections.defaultdict(list), {}
    for name, own in lines.items():
        numbers = [number_of.setdefault(line, len(number_of)) for _, line in own]
        for at in range(len(own) - LINES + 1):
            found[tuple(numbers[at:at + LINES])].append((name, at))
    return {pair for places in found.values() if len(places) <= COPIES for pair in itertools.combinations(places, 2)}


def pairs_of(files: dict[str, str]) -> Iterator[Place]:
    """Each pair of equal places, as long as they are equal."""
    lines = {name: counted(text) for name, text in files.items()}
    pairs = equal_runs(lines)
    for (first, at), (second, there) in sorted(pairs):
        if ((first, at - 1), (second, there - 1)) in pairs:
            continue
        more = next(n for n in itertools.count(1) if ((first, at + n), (second, there + n)) not in pairs)
        last = more + LINES - 2
        if first == second and at + last >= there:
            continue
        ends = (f"{name}:{lines[name][begin][0]}-{lines[name][begin + last][0]}" for name, begin in ((first, at), (second, there)))
        yield Place(" and ".join(ends), "\n".join(line for _, line in lines[first][at:at + LINES]))


def twins(files: dict[str, str]) -> Iterator[Place]:
    return pairs_of({name: text for name, text in files.items() if PROVED.search(name)})


def twins_outside(files: dict[str, str]) -> Iterator[Place]:
    return pairs_of({name: text for name, text in files.items() if not PROVED.search(name)})


# ---- what is too long ----

def wide_lines(files: dict[str, str]) -> Iterator[Place]:
    for name, text in files.items():
        if PROVED.search(name):
            for number, line in enumerate(text.split("\n"), 1):
                if len(line) > COLUMNS and not IMPORT.match(line):
                    yield Place(f"{name}:{number} has {len(line)} columns, of {COLUMNS} at most", line.strip())


def shifts(files: dict[str, str]) -> Iterator[Place]:
    for name, text in files.items():
        if OF_TABLES.search(name):
            for number, line in enumerate(text.split("\n"), 1):
                if re.search(r" (<<|>>) ", line.partition("//")[0]):
                    yield Place(f"{name}:{number} shifts bits: {line.strip()}", line.strip())


def long_files(files: dict[str, str]) -> Iterator[Place]:
    for name, text in files.items():
        lines = text.split("\n")
        if len(lines) > FILE_LINES + 1 and not REASON.search("\n".join(lines[:HEAD])):
            yield Place(f"{name} has {len(lines) - 1} lines, of {FILE_LINES} at most, and its head doesn't say why it is one file", Path(name).name)


# ---- sentences of comments ----

def comments_of(name: str, text: str) -> Iterator[tuple[int, str]]:
    """Each line of a comment, with its number. Behind one that is beside code, and behind the last one, comes a line 0."""
    form = next(form for names, form in COMMENTS.items() if re.search(names, name if "." in Path(name).name else text.partition("\n")[0]))
    number, before = 1, 0
    for found in form.finditer(text):
        if found[found.lastindex or 0] and found.lastindex:
            begins = text.rfind("\n", 0, found.start(found.lastindex)) + 1
            number, before = number + text.count("\n", before, begins), begins
            lead = re.match(r"\s*", text[begins:])[0]
            for more, line in enumerate(found[found.lastindex].split("\n")):
                yield number + more, re.sub(r"^\s*(//[/!]?|/?\*+(?!/))|\*/\s*$", "", line.removeprefix(lead))
            if text[begins:found.start(found.lastindex)].strip() not in ("", "--", "#", '"""', 'r"""'):
                yield 0, ""
    yield 0, ""


def paragraphs(name: str, text: str) -> Iterator[tuple[int, str]]:
    """Each paragraph or item of the comments, with its first line. What is indented, or between fences, is code."""
    begins, words, last, is_code_now = 0, [], 0, False
    for number, line in comments_of(name, text):
        is_code_now ^= line.strip().startswith("```")
        is_text = bool(line.strip()) and not is_code_now and not re.match(r" {4}|\s*(```|#!|\|)", line)
        if words and (not is_text or number > last + 1 or re.match(r"\s*- ", line)):
            yield begins, " ".join(words)
            words = []
        if is_text:
            begins = begins if words else number
            words.append(line.strip())
        last = number


def long_sentences(files: dict[str, str]) -> Iterator[Place]:
    for name, text in files.items():
        for number, paragraph in paragraphs(name, text + "\n"):
            for sentence in re.split(r"(?<=[.?!])\s+", re.sub(r"`[^`]*`", "code", paragraph)):
                count = len(re.findall(r"\S*\w\S*", sentence))
                if count > WORDS:
                    yield Place(f"{name}:{number} has a sentence of {count} words, of {WORDS} at most: {sentence[:60]}..", sentence)


KINDS: dict[str, Callable[[dict[str, str]], Iterator[Place]]] = {
    each.__name__: each for each in (twins, twins_outside, wide_lines, long_files, long_sentences, shifts)}


# ---- the counts ----

def said_by(*words: str) -> bytes:
    return subprocess.run(["git", *words], cwd=ROOT, stdout=subprocess.PIPE, check=True).stdout


def is_code(name: str, begin: bytes) -> bool:
    return not DATA.search(name) and bool(CODE.search(name) or "." not in Path(name).name and begin.startswith(b"#!"))


def files_now() -> dict[str, str]:
    """The code as it is here."""
    names = said_by("ls-files").decode().splitlines()
    read = {name: (ROOT / name).read_bytes() for name in names if not DATA.search(name) and (ROOT / name).is_file()}
    return {name: data.decode() for name, data in read.items() if is_code(name, data[:2])}


def files_then() -> dict[str, str]:
    """The code of the commit that last changed the counts, or none."""
    commit = said_by("log", "-1", "--format=%H", "--", str(KEPT)).decode().strip()
    if not commit:
        return {}
    with tarfile.open(fileobj=io.BytesIO(said_by("archive", commit))) as archive:
        read = {each.name: archive.extractfile(each).read() for each in archive if each.isfile() and not DATA.search(each.name)}
    return {name: data.decode() for name, data in read.items() if is_code(name, data[:2])}


def new_places(now: list[Place], then: list[Place]) -> list[Place]:
    """The places whose text is there more often than it was."""
    before, after = (collections.Counter(place.text for place in places) for places in (then, now))
    return [place for place in now if after[place.text] > before[place.text]]


def kept() -> dict[str, int]:
    """The counts that are kept; of a kind for which a merge left two the greater one."""
    found = dict.fromkeys(KINDS, 0)
    for name, number in re.findall(r"^(\w+) (\d+)$", KEPT.read_text(), re.M):
        found[name] = max(found[name], int(number))
    return found


def main(words: list[str]) -> int:
    files, allowed, failed = files_now(), kept(), 0
    if words and words[0] in KINDS:
        print(*(place.where for place in KINDS[words[0]](files)), sep="\n")
        return 0
    counts = {}
    for name, places_in in KINDS.items():
        places = list(places_in(files))
        counts[name] = min(len(places), allowed[name])
        if len(places) > allowed[name]:
            failed += 1
            print(f"failed: {name}: {len(places)}, of {allowed[name]} at most; new:")
            for place in (new_places(places, list(places_in(files_then()))) or places)[:SHOWN]:
                print(f"  {place.where}")
        elif len(places) < allowed[name] and "--renew" not in words:
            print(f"{name}: {len(places)} in place of {allowed[name]}; tests/untidy.py --renew keeps that")
    if "--renew" in words:
        KEPT.write_text(HEADING + "".join(f"{name} {count}\n" for name, count in counts.items()))
    print(f"{len(KINDS) - failed} passed, {failed} failed")
    return 1 if failed else 0


if __name__ == "__main__":
    sys.exit(main(sys.argv[1:]))
