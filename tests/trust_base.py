#!/usr/bin/env python3
"""Compares the words that a reader has to believe with what is said of them. Part 1 of docs/DEFINITIONS.md has in words just the definitions
on which the two headlines rest. It also has just the types and constants of which these speak, with their variants, fields and values as the
code declares them. Each other definition on which a clause of a public call rests has a comment of its own above it, which tools/words
prints. The faults of DEFINITIONS.md, part 2, and of the man page of explain are those of the code.

Compares the public calls of the libraries and their preconditions with the promises of their crates' READMEs. Each line of code that such a
README shows at its head is a line of another crate too, and so it is compiled and proved there. The crates of the audit depend
on none of the replication. The tables of CRATES.md list the crates of crates.txt, in its order, each after those on which it depends.
Each wrong body can be applied: what it replaces is once in its file (`rt ci` passes over one that can't be). Each of those that have to be
refused is an edit, or PROMISES.md names the tests that refuse it.

A word of the trust base is a definition of some specs/ folder that a clause of a public call cites, or that such a word
cites; worked examples aside. In DEFINITIONS.md a word has its words where it is in bold code, **`word`**, under a heading that
names its crate and file: so two words of one name are there each. Prints each word that is missing on either side, and with
--list the words by file, in brackets those that are not of the trust base.
"""
import itertools
import re
import sys
from pathlib import Path

sys.dont_write_bytecode = True
import folders
from promises import main_promises, uncompiled, unknown_names, untold
from wrong_bodies import unrefused_bodies, unusable_edits

ROOT = Path(__file__).resolve().parent.parent
NAME = re.compile(r"[A-Za-z_][\w'-]*(?:\.[A-Za-z_][\w'-]*)*")
IMPORT = re.compile(r"^\s*(?:ghost |pub )?use Rattle\.(\w+)\.specs\.([\w.]+?)(?:\.\{([^}]*)\}| as (\w+))?;?$", re.M)
DEFINES = re.compile(r"^(?:abbrev |unfoldable )*(?:pub )?(?:record |data )?◌?([A-Za-z_][\w'-]*)◌?(?= [^=]*:)")
CLAUSE = re.compile(r"\b(?:requires|ensures)\*?\s+(?:\w+\s+)?\{|\bghost (?:Value|\w+): \{|\bghost Value = \{")


class Scope:
    """The words that a file names: by import, or under the alias of a module."""

    def __init__(self, text):
        self.words, self.aliases = {}, {}
        for crate, module, names, alias in IMPORT.findall(text):
            place = f"{crate}.{module}"
            if alias:
                self.aliases[alias] = place
            for name in filter(None, (it.strip() for it in (names or "").split(","))):
                name, _, local = name.partition(" as ")
                self.words[local or name] = (place, name)

    def find(self, token):
        """The definitions that a token may name."""
        first, _, rest = token.partition(".")
        if first in self.words:
            yield self.words[first]
        if first in self.aliases and rest:
            yield self.aliases[first], rest.partition(".")[0]


def definitions():
    """Each definition of the specs/ folders, by module and name: its text, and the scope of its file."""
    found, again = {}, {}
    for file in sorted(ROOT.glob("crates/*/specs/**/*.antt")):
        crate = file.relative_to(ROOT / "crates").parts[0]
        module = ".".join(file.relative_to(ROOT / "crates" / crate / "specs").with_suffix("").parts)
        place, text = f"{crate}.{module}", file.read_text()
        scope, name = Scope(text), None
        for crate_, module_, names, _ in re.findall(IMPORT.pattern.replace("(?:ghost |pub )?", "pub "), text, re.M):
            for it in filter(None, (it.strip() for it in (names or "").split(","))):
                again[place, it] = (f"{crate_}.{module_}", it)
        for line in text.splitlines():
            if line.startswith(("use ", "pub use ", "pub mod ", "--")):
                name = None
                continue
            begins = DEFINES.match(line)
            if begins:
                name = begins[1]
            if name:
                text_so_far, _ = found.get((place, name), ("", None))
                found[place, name] = (text_so_far + re.sub(r"(^| )-- .*", "", line) + "\n", scope)
    return found, again


def parameters(lines, at, name):
    """The names of what a definition takes, which begins on this line: those of a record, or else those of its equations, or what it is."""
    head = lines[at].partition(f"{name} ")[2]
    if re.match(r"^(?:pub )?(?:record|data) ", lines[at]):
        return sum((group.split() for group in re.findall(r"\(([^(){}:]+) :", head)), [])
    types = re.split(r" → ", re.sub(r"\([^()]*\)|\{[^{}]*\}", "_", head.removeprefix(": ")))
    found = []
    for line in lines[at + 1:]:
        if not line.startswith(f"{name} "):
            if line and not line.startswith(" "):
                break
            continue
        taken = re.findall(r"\([^()]*(?:\([^()]*\)[^()]*)*\)|\S+", re.split(r" =(?: |$)", line, maxsplit=1)[0])[1:]
        found += [None] * (len(taken) - len(found))
        for place, one in enumerate(taken):
            if re.fullmatch(r"[a-z]\w*", one) and one not in ("zero", "true", "false"):
                found[place] = found[place] or one
    kinds = [kind.split()[0].lower() if re.match(r"[A-Z]", kind) else None for kind in types]
    return [one or kind for one, kind in itertools.zip_longest(found, kinds[:len(found)]) if one or kind]


def beside():
    """What is said beside the definitions of the specs/ folders, by module: the file, what it says of itself, and each definition with the
    names of what it takes and the comment right above it, or nothing."""
    files = {}
    for file in sorted(ROOT.glob("crates/*/specs/**/*.antt")):
        crate = file.relative_to(ROOT / "crates").parts[0]
        module = ".".join(file.relative_to(ROOT / "crates" / crate / "specs").with_suffix("").parts)
        lines, comment, told = file.read_text().splitlines(), [], {}
        front = list(itertools.takewhile(lambda line: line.startswith("-- ") and not line.startswith("-- ----"), lines))
        for at, line in enumerate(lines):
            begins = DEFINES.match(line)
            if begins and begins[1] not in told:
                told[begins[1]] = (parameters(lines, at, begins[1]), " ".join(comment))
            if not line.startswith("infix"):
                comment = comment + [line[3:].strip()] if line.startswith("-- ") and not line.startswith("-- ----") else []
        files[f"{crate}.{module}"] = (file, " ".join(line[3:].strip() for line in front), told)
    return files


def braced(text, begin):
    """The text from a brace to the one that closes it."""
    depth = 0
    for at in range(begin, len(text)):
        depth += {"{": 1, "}": -1}.get(text[at], 0)
        if depth == 0:
            return text[begin:at + 1]
    return ""


def is_public(text, at):
    """Whether the clause at this index is one of a public call, or of a trait or model that callers see."""
    head = re.findall(r"^\s*(pub(?:\(crate\))? |)(?:unsafe )?(?:const )?(?:extern \"C\" )?(fn|trait|impl|struct)\b([^\n]*)",
                      text[:at], re.M)
    public_trait = False
    for visible, kind, rest in head:
        if kind == "trait":
            public_trait = visible == "pub "
        if kind in ("impl", "struct"):
            model = re.search(r" Model for (\w+)", rest)
            public_trait = bool(model) and bool(re.search(rf"^pub (struct|enum) {model[1]}\b", text, re.M))
    return bool(head) and (head[-1][0] == "pub " or public_trait)


def cited():
    """The definitions that the public clauses of all crates cite."""
    for file in sorted(ROOT.glob("crates/*/src/**/*.rt")):
        if file.stem == "tests":
            continue
        text = file.read_text()
        scope = Scope(text)
        for clause in CLAUSE.finditer(text):
            if is_public(text, clause.start()):
                for token in NAME.findall(braced(text, clause.end() - 1)):
                    yield from scope.find(token)


def trust_base(words=None):
    """The words on which these rest, or else all public clauses; and each definition."""
    found, again = definitions()
    base, ahead = set(), list(cited() if words is None else words)
    while ahead:
        word = ahead.pop()
        word = again.get(word, word)
        if word in base or word not in found:
            continue
        base.add(word)
        text, scope = found[word]
        for token in NAME.findall(text):
            ahead.extend(scope.find(token))
            ahead.append((word[0], token.partition(".")[0]))
    return base, found


HEADLINES = (("nr_audit.Headline", "AreRightWith"), ("nr_chain.Headline", "IsRightChain"))    # of a trace, and of a chain
MOST_LINES = 220
DECLARED = "### What the code declares"


def declared_by(base, found):
    """The types of the code of which these words speak, each with the file that declares it, and the constants likewise."""
    types, constants = set(), set()
    for word in base:
        text, scope = found[word]
        for token in NAME.findall(text):
            for place, name in scope.find(token):
                crate, is_declared, path = place.partition(".declared.")
                if not is_declared:
                    continue
                modules = [*itertools.takewhile(str.islower, path.split("."))]
                item = path.split(".")[len(modules)]
                file = ROOT / "crates" / crate / "src" / f"{'/'.join(modules)}.rt"
                is_constant = item == "TheConstants"
                (constants if is_constant else types).add((name if is_constant else item, file))
    return types, constants


def parts_of_type(name, file):
    """The names of the variants and fields of a type, in the order in which they are declared."""
    text = re.sub(r"//.*", "", file.read_text())
    head = re.search(rf"^pub(?:\(crate\))? (?:enum|struct) {name} \{{", text, re.M)
    return re.findall(r"^\s*(?:pub(?:\(crate\))? )?(\w+)(?=[:,(]| \{)", braced(text, head.end() - 1), re.M)


def number(text):
    """The number that a text says, as `131_072`, `1 << 51`, 131,072 or 2^51."""
    first, power, last = re.fullmatch(r"([\d,_]+)(?: *(<<|\^) *(\d+))?", text.strip()).groups()
    first = int(re.sub("[,_]", "", first))
    return first if not power else first << int(last) if power == "<<" else first ** int(last)


def undeclared(part, base, found):
    """What is wrong with the tables of types and constants: each has a line, in which code are just its variants and fields, or the
    value is its own."""
    section = part.partition(DECLARED)[2].partition("\n### ")[0]
    rows = {name: cells for name, cells in re.findall(r"^\| \*\*`(\w+)`\*\* \|(.*)\|$", section, re.M)}
    types, constants = declared_by(base, found)
    for name, file in sorted(types | constants):
        if name not in rows:
            yield f"part 1 lacks {name} of {file.relative_to(ROOT)}"
        elif (name, file) in types and re.findall(r"`(\w+)`", rows[name]) != parts_of_type(name, file):
            yield f"part 1 has {name} otherwise than the code: {' '.join(parts_of_type(name, file))}"
        elif (name, file) in constants:
            value = re.search(rf"\bconst {name}: \w+ = ([^;]*);", file.read_text())[1]
            if number(rows[name].partition("|")[0]) != number(value):
                yield f"part 1 has another value of {name} than the code: {value}"
    for name in sorted(rows.keys() - {name for name, _ in types | constants}):
        yield f"part 1 declares what no headline rests on: {name}"


def first_part():
    """What is wrong with part 1 of DEFINITIONS.md: it has just the words on which the headlines rest, on few lines."""
    text = (ROOT / "docs/DEFINITIONS.md").read_text()
    part = "## 1." + text.partition("\n## 1.")[2].partition("\n## ")[0]
    lines = text.partition("\n## 2.")[0].count("\n")
    base, found = trust_base(HEADLINES)
    told = read_aloud(part)
    yield from undeclared(part, base, found)
    for place, name in sorted(base - {(place, name) for places, name in told for place in places}):
        yield f"a headline rests on a word that part 1 lacks: {name} ({place})"
    for places, name in told:
        if not any((place, name) in base for place in places):
            yield f"part 1 has a word on which no headline rests: {name}"
    if lines > MOST_LINES:
        yield f"part 1 ends after {lines} lines, of {MOST_LINES} at most"


AUDIT = "Traces and the audit"
REPLICATION = ("The log and its replicas", "Recorded runs", "The protocol's core and its scripts", "The program")


def crates_and_uses():
    """The crates under each heading of crates.txt, and what each uses."""
    under, uses, heading = {}, {}, ""
    for line in (ROOT / "crates.txt").read_text().splitlines():
        if line.startswith("# "):
            heading = line[2:]
        head, _, tail = line.partition("#")[0].partition(":")
        if head.strip():
            under.setdefault(heading, []).append(head.split()[0])
            uses[head.split()[0]] = tail.split()
    return under, uses


def audit_alone():
    """The crates of the replication on which a crate of the audit depends, directly or not."""
    under, uses = crates_and_uses()
    replication = {crate for heading in REPLICATION for crate in under[heading]}
    for crate in under[AUDIT]:
        below, ahead = set(), [crate]
        while ahead:
            new = set(uses.get(ahead.pop(), ())) - below
            below |= new
            ahead.extend(new)
        for other in sorted(below & replication):
            yield f"{crate} of the audit depends on {other}"


def listed():
    """The crates of crates.txt that come before one on which they depend, those that the tables of CRATES.md lack, or have twice,
    those that they have beside, and the first that they have in another order."""
    uses, before = crates_and_uses()[1], set()
    for crate, below in uses.items():
        for other in (other for other in below if other in uses and other not in before):
            yield f"crates.txt has {crate} before {other}, on which it depends"
        before.add(crate)
    crates = list(uses)
    section = (ROOT / "docs/CRATES.md").read_text()
    rows = [line.split("|")[1] for line in section.splitlines() if line.startswith("| ")]
    named = [name for row in rows for name in re.findall(r"`(\w+)`", row)]
    if sorted(named) != sorted(crates):
        yield f"CRATES.md has other crates than crates.txt: {' '.join(sorted(set(named) ^ set(crates))) or 'some twice'}"
    elif named != crates:
        yield "CRATES.md has {} where crates.txt has {}".format(*next(pair for pair in zip(named, crates) if pair[0] != pair[1]))


def told_faults():
    """What DEFINITIONS.md has otherwise than the code of the faults, which are numbered as they are declared. And the faults that a table of
    the man page of explain lacks, and those that it has beside: each has its lines, its sentence, what it most often is, and its members."""
    rows = re.findall(r"^\| (\d+) \| `(\w+)", (ROOT / "docs/DEFINITIONS.md").read_text(), re.M)
    declared = parts_of_type("Fault", ROOT / "crates/nr_trace/src/refusals/fault.rt")
    if rows != [(str(number_), name) for number_, name in enumerate(declared, 1)]:
        yield f"DEFINITIONS.md has other faults than the code: {' '.join(declared)}"
    tables = {"Lines": [], "Sentence": [], "Most often": [], "Members of `evidence`, beside `fault`": []}
    rows = None
    for line in (ROOT / "docs/man/nrvs-explain.1.md").read_text().splitlines():
        first, _, rest = line.strip("| ").partition(" | ")
        if first == "Fault":
            rows = tables[rest]
        elif not line.startswith("|"):
            rows = None
        elif rows is not None and not first.startswith("---"):
            rows += first.split(", ")
    for name, rows in tables.items():
        if sorted({*rows}) != sorted(declared):
            yield f"nrvs-explain.1.md, {name}: {' '.join(sorted({*rows} ^ {*declared}))}"


def read_aloud(text):
    """The words in bold code, each with the places that the heading above it names: (`crate`: Module, Module; `crate`: Module). What
    the code declares is none of them."""
    told, places, declared = [], [], False
    for line in text.splitlines():
        if line.startswith("#"):
            named = re.search(r"\((`\w+`: [^)]*)\)", line)
            parts = [part.strip().split(": ") for part in named[1].split(";")] if named else []
            places = [f"{crate.strip('`')}.{module.strip()}" for crate, modules in parts for module in modules.split(",")]
            declared = line == DECLARED
        if declared:
            continue
        told += [(places, name) for name in re.findall(r"\*\*`([^`]+)`\*\*", line)]
    return told


def main(words):
    base, found = trust_base()
    if "--list" in words:
        for place in sorted({place for place, _ in found}):
            names = sorted(name for at, name in found if at == place)
            print(f"{place}: {' '.join(name if (place, name) in base else f'({name})' for name in names)}")
    base = {(place, name) for place, name in base if not place.endswith("Examples")}
    told = read_aloud((ROOT / "docs/DEFINITIONS.md").read_text())
    first = {(place, name) for places, name in told for place in places}
    commented = {(place, name) for place, (_, _, those) in beside().items() for name, (_, comment) in those.items() if comment}
    missing = sorted(base - first - commented)
    for place, name in missing:
        print(f"no comment of its own says what it is: {name} ({place})")
    others = [(places, name) for places, name in told if not any((place, name) in base for place in places)]
    for places, name in others:
        print(f"read aloud, and no clause rests on it: {name} (of {', '.join(places)})")
    checks = (first_part, audit_alone, untold, main_promises, told_faults, unknown_names, listed, uncompiled, unusable_edits,
              unrefused_bodies)
    lacking = [line for check in checks for line in check()]
    for line in lacking:
        print(line)
    wrong = len(missing) + len(others) + len(lacking)
    print(f"{len(base) - len(missing)} passed, {wrong} failed")
    return 1 if wrong else 0


if __name__ == "__main__":
    sys.exit(main(sys.argv[1:]))
