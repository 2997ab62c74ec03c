#!/usr/bin/env python3
"""Counts the words of words_to_avoid.txt, in the docs and in the comments of all else that is written here. In pages it also counts sentences
that are too long: of more than 30 words in README.md and docs/RECORDING.md, and of more than 35 in others. On average a page has 25 at most.
Nor may a sentence of a page begin with `Of`, `Who`, `Whose`, or `Where`, unless it asks. Code is none of these: what is in
backquotes, and blocks of it. Nor are brackets that only cite clauses.

Prints each place, and ends with how many files have none and how many have some. With --averages it prints how many words a sentence of
each page has, on average and at most.
"""
import ast
import io
import re
import subprocess
import sys
import tokenize
from pathlib import Path

ROOT = Path(__file__).resolve().parent.parent
MOST_WORDS = {"README.md": 30, "docs/RECORDING.md": 30}
MOST = 35
AVERAGE = 25
CITED = re.compile(r"\s*\((?:`\s*`|\[([^\]]*)\]|\b(?:and|both|in|is|it|its|law|laws|of|private|so|the|which|whose)\b|[\s,;:/*])+\)")
DATA = re.compile(r"^(tests/words_to_avoid.txt|tests/cases|tests/chains|examples/linux/kept|HANDLES)|\.(xz|png|trace|chain|script|expected|edit)$|/(stdin|stdout|args)$|^LICENSE")


def words_to_avoid():
    """The words in front of the colon of each line, as one expression."""
    lines = (ROOT / "tests/words_to_avoid.txt").read_text().splitlines()
    words = [word for line in lines if not line.startswith("#") for word in line.partition(":")[0].split(", ")]
    return re.compile(r"\b(" + "|".join(r"\s+".join(map(re.escape, word.split())) for word in words) + r")\b", re.I)


def blank(match):
    """As many lines as the text has, and nothing on them."""
    return "\n" * match[0].count("\n") + " "


def prose(text):
    """A page without its code."""
    text = re.sub(r"^```.*?^```", blank, text, flags=re.M | re.S)
    text = re.sub(r"(?<=\n\n) {4}.*?(?=\n\n(?! {4})|\Z)", blank, text, flags=re.S)
    text = re.sub(r"^(#.*) \(`.*\)$", r"\1", text, flags=re.M)
    return re.sub(r"`[^`]*`", lambda code: "`" + blank(code) + "`", text)


def of_python(text):
    """The comments and docstrings of a Python file, each on its lines."""
    lines = [""] * (text.count("\n") + 2)
    for token in tokenize.generate_tokens(io.StringIO(text).readline):
        if token.type == tokenize.COMMENT:
            lines[token.start[0]] += token.string
    for node in ast.walk(ast.parse(text)):
        if isinstance(node, (ast.Module, ast.FunctionDef, ast.ClassDef)) and ast.get_docstring(node):
            first = node.body[0]
            for at, line in enumerate(text.splitlines()[first.lineno - 1:first.end_lineno], first.lineno):
                lines[at] += line
    return "\n".join(lines[1:])


def of_html(text):
    """What a page says: without its scripts, its styles and its tags."""
    text = re.sub(r"<(script|style)\b.*?</\1>", blank, text, flags=re.S)
    return re.sub(r"<[^>]*>", blank, text)


def comments(text, begins):
    """The comments that begin so and end with their line; and, where they are of C, those between two signs."""
    found = []
    if begins == "//":
        inside = re.sub(r"/\*.*?\*/", lambda it: it[0].replace("\n", " \0\n"), text, flags=re.S)
        for line in inside.split("\n"):
            found.append(line if "\0" in line or re.search(r"/\*|\*/", line) else "".join(re.findall(r"//.*", line)))
        return "\n".join(found)
    return "\n".join("".join(re.findall(rf"(?:^|\s){begins}.*", line)) for line in text.split("\n"))


def read(name, text):
    """What is read of a file: prose and comments, line by line as they are in it."""
    first = text.partition("\n")[0]
    if name.endswith(".md"):
        return prose(text)
    if name.endswith(".html"):
        return of_html(text)
    if name.endswith(".py") or "python" in first:
        said = of_python(text)
    elif name.endswith(".antt"):
        said = comments(text, "--")
    elif re.search(r"\.(rt|rs|h|c|js|S|ld)$", name):
        said = comments(text, "//")
    else:
        said = comments(text, "#")
    said = re.sub(r"`[^`\n]*`", " ", said)
    return re.sub(r"^[ \t]*(?://[/!]?|--|#|\*)", lambda sign: " " * len(sign[0]), said, flags=re.M)


def sentences(text):
    """The sentences of a page, with the line on which each begins; headings and rows of tables aside."""
    for block in re.finditer(r"(?:^(?![ \t]*[#|]|\s*\n).*\n?)+", text, re.M):
        at = block.start()
        for item in re.finditer(r"(?:^(?:- |\d+\. ))?.*?(?=^(?:- |\d+\. )|\Z)", block[0], re.M | re.S):
            for sentence in re.finditer(r".+?(?:[.?!](?=[\s*)]|$)|\Z)", item[0], re.S):
                yield text.count("\n", 0, at + item.start() + sentence.start()) + 1, sentence[0]


def too_long(name, text):
    """The sentences of a page that have too many words, and their average. A link counts as its text, a piece of code as one word."""
    text = re.sub(r"\[([^\]]*)\]\([^)]*\)", r"\1", re.sub(r"^\[\w+\]: .*", "", text, flags=re.M))
    text = CITED.sub("", text)
    counts = []
    for at, sentence in sentences(text):
        counts.append(len(re.findall(r"[^\s]*[\w`][^\s]*", sentence)))
        if re.match(r"(?:- |\d+\. )?\s*(?:Of|Who|Whose|Where)\b(?!.*\?$)", sentence, re.S):
            yield f"{name}:{at} begins with its object: {' '.join(sentence.split())[:60]}.."
        if counts[-1] > MOST_WORDS.get(name, MOST):
            yield f"{name}:{at} has a sentence of {counts[-1]} words: {' '.join(sentence.split())[:60]}.."
    if counts and "--averages" in sys.argv:
        print(f"{name}: {sum(counts) / len(counts):.1f} words a sentence, {max(counts)} at most")
    if counts and sum(counts) > AVERAGE * len(counts):
        yield f"{name} has {sum(counts) / len(counts):.1f} words a sentence"


def main():
    avoid = words_to_avoid()
    names = subprocess.run(["git", "ls-files"], cwd=ROOT, capture_output=True, text=True, check=True).stdout.split()
    passed = failed = 0
    for name in names:
        if DATA.search(name):
            continue
        text = (ROOT / name).read_text()
        said = read(name, text)
        wrong = [f"{name}:{said.count(chr(10), 0, it.start()) + 1} says {' '.join(it[0].split())}" for it in avoid.finditer(said)]
        if name.endswith(".md"):
            wrong += too_long(name, said)
        for line in wrong:
            print(line)
        passed, failed = passed + (not wrong), failed + bool(wrong)
    print(f"{passed} passed, {failed} failed")
    return 1 if failed else 0


if __name__ == "__main__":
    sys.exit(main())
