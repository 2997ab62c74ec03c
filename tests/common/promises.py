"""The promises of PROMISES.md and of the crates' READMEs beside the code, for tests/trust_base.py: each call is named, each name is there, and each
line that is shown is compiled."""
import re
from pathlib import Path

ROOT = Path(__file__).resolve().parent.parent.parent


def public_calls():
    """Each public function and method of the libraries, worked examples aside: its crate, its type or trait (or None), its name, and
    whether it has a precondition."""
    for library in sorted(ROOT.glob("crates/*/src/lib.rt")):
        crate = library.parent.parent.name
        if crate.endswith("_tests"):
            continue
        text = library.read_text()
        exported = {name.split(" as ")[-1].strip() for group in re.findall(r"^pub use [\w:]+::(?:\{([^}]*)\}|\w+);", text, re.M)
                    for name in group.split(",")}
        exported |= set(re.findall(r"^pub use [\w:]+::(\w+);", text, re.M))
        open_modules = set(re.findall(r"^pub mod (\w+);", text, re.M))
        for file in sorted(library.parent.glob("**/*.rt")):
            if file.stem not in ("tests", "examples"):
                yield from calls_of(crate, file, exported, file.stem in open_modules)


def calls_of(crate, file, exported, is_open):
    owner, is_trait = None, False
    text = file.read_text()
    for item in re.finditer(r"^([ ]*)(pub(?:\(crate\))? |)(?:unsafe |const )*(extern \"C\" )?(fn|impl|trait|struct|enum)\b"
                            r"(?:<(?:[^{<>]|<[^{<>]*>)*>)? ?([^\n]*)|^\}", text, re.M):
        indent, visible, for_c, kind, rest = item.groups()
        if kind is None:
            owner = None
        elif kind in ("impl", "trait") and not indent:
            inherent = " for " not in rest
            owner = re.match(r"(\w+)", rest)[1] if inherent else ""
            is_trait = kind == "trait" and visible == "pub "
        elif kind == "fn" and (visible == "pub " or is_trait and owner and indent):
            name = re.match(r"(\w+)", rest)[1]
            if owner == "" or not (owner in exported if owner else name in exported or is_open or for_c):
                continue
            head = re.split(r"^\s*\{$|;$", text[item.start():], maxsplit=1, flags=re.M)[0]
            yield crate, owner, name, re.search(r"^\s*requires\b", head, re.M) is not None


def names(cell, owner, name):
    """Whether an item names the call: `name` or `Owner::name`, and its type or trait somewhere in it."""
    told = re.findall(r"`([\w:]+)`", cell)
    if owner is None:
        return name in told
    return f"{owner}::{name}" in told or name in told and re.search(rf"`{owner}(::\w+)?`", cell) is not None


SECTIONS = ("What is proved", "What is only tested", "What is taken on trust")
PRECONDITIONS = "Preconditions"
WIDTH = 140
HEADLINE_ROWS = 12


def items(text):
    """The items of the lists of a text, each with its further lines, and the rows of its tables."""
    found, inside = [], False
    for line in text.splitlines():
        if line.startswith(("- ", "| ")):
            found.append(line[2:])
        elif inside and line.startswith("  "):
            found[-1] += " " + line.strip()
        else:
            inside = False
            continue
        inside = line.startswith(("- ", "  "))
    return found


def promises_of(crate):
    """The promises of the README of a crate, of each section, and the calls of its list of preconditions, item by item."""
    text = (ROOT / "crates" / crate / "README.md").read_text()
    sections = {part.partition("\n")[0]: part for part in text.split("\n## ")[1:]}
    promises, preconditions = {}, []
    for name in SECTIONS:
        promises[name] = []
        for part in sections.get(name, "").split("\n### "):
            if part.startswith(PRECONDITIONS):
                preconditions += [item.partition(": ")[0] for item in items(part)]
            else:
                promises[name] += items(part)
    return [name for name in SECTIONS if name not in sections], sum(promises.values(), []), preconditions


def untold():
    """The public calls that no promise of their crate's README names, and what its list of preconditions lacks or has beside."""
    calls = {}
    for crate, owner, name, has_premise in public_calls():
        calls.setdefault(crate, []).append((owner, name, has_premise))
    for crate, those in calls.items():
        lacking, promises, preconditions = promises_of(crate)
        for name in lacking:
            yield f"the README of {crate} has no section {name}"
        for owner, name, has_premise in those:
            call = f"{owner}::{name}" if owner else name
            if not any(names(item, owner, name) for item in promises):
                yield f"no promise of the README of {crate} names {call}"
            if has_premise and not any(names(item, owner, name) for item in preconditions):
                yield f"the preconditions of {crate} lack {call}"
            if not has_premise and any(f"{owner}::{name}" in item if owner else names(item, owner, name) for item in preconditions):
                yield f"the preconditions of {crate} have {call}, which has none"


def unknown_names():
    """The names in the promises of a crate's README that no source and no test has, and the paths that lead nowhere."""
    patterns = ("crates/*", "crates/*/src/**/*.rt", "crates/*/specs/**/*.antt", "crates/*/must-fail/*", "include/*.h", "tests/*",
                "tests/*/*.py", "tests/*/*.sh", "tests/*_c/*.c", "tests/cases/*")
    files = [path for pattern in patterns for path in ROOT.glob(pattern)]
    known = {path.name for path in files} | {path.stem for path in files} | {path.parent.name for path in files}
    for path in files:
        if path.is_file():
            known.update(re.findall(r"\w+", path.read_text(errors="replace")))
    for readme in sorted(ROOT.glob("crates/*/README.md")):
        promised = re.sub(r"\s+", " ", readme.read_text().partition("\n## ")[2])
        for name in sorted(set(re.findall(r"`([^`\s]+)`", promised))):
            is_path = "/" in name
            if is_path and not (ROOT / name).exists() and not (readme.parent / name).exists() and name != "must-fail/":
                yield f"{readme.relative_to(ROOT)} names a path that leads nowhere: {name}"
            elif re.fullmatch(r"[A-Za-z_]\w*(::\w+)*", name) and not set(name.split("::")) <= known:
                yield f"{readme.relative_to(ROOT)} has a name that no source has: {name}"


def main_promises():
    """What is wrong with PROMISES.md, and with the length of its lines and of the crates' READMEs."""
    page = ROOT / "docs/PROMISES.md"
    text = page.read_text()
    rows = sum(line.startswith("| ") for line in text.splitlines()) - 1
    if rows > HEADLINE_ROWS:
        yield f"PROMISES.md has {rows} rows, of {HEADLINE_ROWS} at most"
    if re.search(r"^\|.*\]\(?.*crates/", text, re.M):
        yield "PROMISES.md has a row of one crate, whose promise CRATES.md has"
    for file in [page, *sorted(ROOT.glob("crates/*/README.md"))]:
        for number_, line in enumerate(file.read_text().splitlines(), 1):
            if len(line) > WIDTH:
                yield f"{file.relative_to(ROOT)}:{number_} has {len(line)} columns, of {WIDTH} at most"


def squeezed(code):
    """Code without its comments, its spaces, and the commas that only a line break asks for."""
    return re.sub(r",(?=[)\]}]|$)", "", re.sub(r"\s+", "", re.sub(r"//.*", "", code)))


def uncompiled():
    """The lines of Rattle that the README of a library shows at its head, and that the code of no other crate has."""
    code = {}
    for file in ROOT.glob("crates/*/src/**/*.rt"):
        crate = file.relative_to(ROOT / "crates").parts[0]
        code[crate] = code.get(crate, "") + squeezed(file.read_text()) + "\n"
    for library in sorted(ROOT.glob("crates/*/src/lib.rt")):
        crate = library.parent.parent.name
        if crate.endswith(("_tests", "_c")):
            continue
        head = (library.parent.parent / "README.md").read_text().partition("\n## ")[0]
        for line in re.findall(r"^ {4}(.*)$", head, re.M):
            if squeezed(line) and not any(squeezed(line) in text for other, text in code.items() if other != crate):
                yield f"the README of {crate} shows a line that no other crate has: {line.strip()}"
