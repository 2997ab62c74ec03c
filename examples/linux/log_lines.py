"""The recorder's log, line by line. Its form is said at the head of plugin/watch.c; beside those lines there are

    @fault CPU CODE ADDRESS             a page fault: made of what QEMU says of an exception and of the registers
    @symbol PC PLACE                    a place in the kernel that other lines name, as symbol+offset

and behind the words of a @store or @released the addresses to which the calls return that led there, the innermost first.
"""
import lzma
import re
import sys
from collections.abc import Callable, Iterable, Iterator
from typing import NamedTuple, TextIO


class Store(NamedTuple):
    processor: int
    task: int
    is_own: bool        # by a processor that has this address space loaded
    pcs: tuple[int, ...]    # of the store, and behind the calls that led there
    frame: int
    index: int
    old: int
    new: int


class Access(NamedTuple):
    processor: int
    task: int
    is_user: bool
    access: int         # 0 read, 1 write, 2 fetch
    address: int
    physical: int
    pc: int


class Fault(NamedTuple):
    processor: int
    code: int
    address: int


class Flushing(NamedTuple):
    """A flush begins, of this address space or of another one; older logs don't have it."""
    processor: int
    task: int
    is_of_all: bool     # by each processor that has the address space


class Flushed(NamedTuple):
    processor: int
    task: int
    begin: int
    end: int


class Released(NamedTuple):
    """Frames that the kernel frees."""
    processor: int
    task: int
    pcs: tuple[int, ...]    # of the store to the first one's flags, and behind the calls that led there
    frame: int
    count: int


class InUser(NamedTuple):
    processor: int
    task: int


class Entered(NamedTuple):
    task: int
    number: int | None              # of its system call; older logs don't have it, nor the arguments
    arguments: tuple[int, ...]


class Returned(NamedTuple):
    task: int
    number: int
    arguments: tuple[int, ...]      # three, and from newer logs four
    result: int


class Born(NamedTuple):
    root: int


class Table(NamedTuple):
    frame: int
    level: int


class Word(NamedTuple):
    frame: int
    index: int
    word: int


class Dumped(NamedTuple):
    frame: int


class Entry(NamedTuple):
    frame: int
    index: int
    word: int


class Symbol(NamedTuple):
    pc: int
    place: str


class Note(NamedTuple):
    text: str


class End(NamedTuple):
    why: str


Line = (Store | Access | Fault | Flushing | Flushed | Released | InUser | Entered | Returned | Born | Table | Word | Dumped | Entry | Symbol
        | Note | End)


def open_lines(path: str) -> TextIO:
    """A log's lines; those of standard input where it is -."""
    if path == "-":
        return sys.stdin
    return lzma.open(path, "rt") if path.endswith(".xz") else open(path)


def read_lines(path: str) -> list[str]:
    with open_lines(path) as file:
        return file.readlines()


def number(text: str) -> int:
    return int(text, 16)


def returned(words: list[str]) -> Returned:
    first, second, third, result, *fourth = map(number, words[4:9])
    return Returned(number(words[2]), int(words[3]), (first, second, third, *fourth), result)


def entered(words: list[str]) -> Entered:
    return Entered(number(words[2]), int(words[3]) if words[3:] else None, tuple(map(number, words[4:])))


def store(words: list[str]) -> Store:
    return Store(int(words[1]), number(words[2]), words[3] == "1", tuple(map(number, [words[4], *words[9:]])), *map(number, words[5:9]))


def released(words: list[str]) -> Released:
    return Released(int(words[1]), number(words[2]), tuple(map(number, [words[3], *words[6:]])), number(words[4]), int(words[5]))


def access(words: list[str]) -> Access:
    return Access(int(words[1]), number(words[2]), words[3] == "u", "rwx".index(words[4]), *map(number, words[5:8]))


PARSERS: dict[str, Callable[[list[str]], Line]] = {
    "@store": store,
    "@access": access,
    "@fault": lambda words: Fault(int(words[1]), number(words[2]), number(words[3])),
    "@flushing": lambda words: Flushing(int(words[1]), number(words[2]), words[3] == "1"),
    "@flushed": lambda words: Flushed(int(words[1]), *map(number, words[2:5])),
    "@released": released,
    "@user": lambda words: InUser(int(words[1]), number(words[2])),
    "@entered": entered,
    "@returned": returned,
    "@born": lambda words: Born(number(words[2])),
    "@table": lambda words: Table(number(words[1]), int(words[2])),
    "@word": lambda words: Word(*map(number, words[1:4])),
    "@dump": lambda words: Dumped(number(words[1])),
    "@entry": lambda words: Entry(*map(number, words[1:4])),
    "@symbol": lambda words: Symbol(number(words[1]), words[2]),
    "@note": lambda words: Note(" ".join(words[1:])),
    "@freed": lambda words: Note(f"table {words[1]} of level {words[2]} is linked, and the kernel doesn't hold it as a table"),
    "@end": lambda words: End(words[1]),
}


def parse(lines: Iterable[str]) -> Iterator[Line]:
    """What lines of a slim log say; others are passed over."""
    for line in lines:
        words = line.split()
        if words and words[0] in PARSERS:
            yield PARSERS[words[0]](words)


EXCEPTION = re.compile(r" *\d+: v=([0-9a-f]{2}) e=([0-9a-f]{4}) ")
TASK_STATE = re.compile(r"TR =0040 (fffffe[0-9a-f]{10}) ")      # where the kernel has it: one behind the other, by processors
CONTROL = re.compile(r"CR0=[0-9a-f]+ CR2=([0-9a-f]+) CR3=([0-9a-f]+) ")
OF_EXCEPTIONS = frozenset(" 0123456789TC")       # with one of these a line begins that one of them may fit
PAGE_FAULT = "0e"
CALLERS = 6
PLACES_OF_CALLED = {"@store": 4, "@released": 3}        # which word of a line that gets callers is its instruction


class Slimmer:
    """Makes a slim log out of QEMU's: the lines of one plugin alone, which begin with `tag`, each page fault as one, and the places of
    the kernel that they name, for which `place` has symbol and offset."""

    def __init__(self, place: Callable[[int], tuple[str, int]], tag: str = "@") -> None:
        self.place = place
        self.tag = tag
        self.exception: tuple[str, str] = "", ""        # its number and error code; what follows are the registers
        self.task_state = ""
        self.task_states: set[str] = set()
        self.roots: tuple[int, ...] = ()                # frames of the tables that are watched, as CR3 has them
        self.callers: list[tuple[str, int]] = []
        self.named: set[str] = set()

    def begin(self, pc: int) -> int:
        """Where the function of an instruction begins."""
        return pc - self.place(pc)[1]

    def calls_to(self, pc: int) -> list[str]:
        """The way to an instruction: from its function on, each time the next word of the stack that comes after a call of it."""
        found, at = [], self.begin(pc)
        for back, called in self.callers:
            if len(found) < CALLERS and called == at:
                found.append(back)
                at = self.begin(int(back, 16))
        return found

    def of_plugin(self, line: str) -> Iterator[str]:
        words = line.split()
        if words[0] == "@callers":
            self.callers = [(back, int(called, 16)) for back, called in (each.split(":") for each in words[1:])]
        elif words[0] in PLACES_OF_CALLED:
            pc = words[PLACES_OF_CALLED[words[0]]]
            pcs = [pc, *self.calls_to(int(pc, 16))]
            yield from self.names(pcs)
            self.callers = []
            yield " ".join(words + pcs[1:]) + "\n"
        else:
            if words[0] == "@access":
                yield from self.names(words[7:8])
            if words[0] == "@born":
                self.roots = number(words[2]), number(words[3])
            if words[0] == "@end":
                self.roots = ()
            yield line

    def names(self, pcs: list[str]) -> Iterator[str]:
        """Places of the kernel, each before the first line that has it."""
        for pc in pcs:
            if pc not in self.named and int(pc, 16) >> 63:
                name, offset = self.place(int(pc, 16))
                yield f"@symbol {pc} {name}+{offset:#x}\n"
            self.named.add(pc)

    def of_qemu(self, line: str) -> Iterator[str]:
        """An exception, and the registers behind it: they say in which address space it was, and on which processor."""
        if found := EXCEPTION.match(line):
            self.exception = found.group(1), found.group(2)
        elif found := TASK_STATE.match(line):
            self.task_state = found.group(1)
            self.task_states.add(self.task_state)
        elif found := CONTROL.match(line):
            kind, code = self.exception
            if kind == PAGE_FAULT and number(found.group(2)) >> 12 in self.roots:
                yield f"@fault {sorted(self.task_states).index(self.task_state)} {code} {found.group(1)}\n"
            self.exception = "", ""

    def of_line(self, line: str) -> Iterator[str]:
        """What comes of one line; of one that is cut, since QEMU was ended while it wrote, nothing."""
        if line[0] == self.tag and line.endswith("\n"):
            yield from self.of_plugin("@" + line[1:])
        elif line[0] in OF_EXCEPTIONS and line.endswith("\n"):
            yield from self.of_qemu(line)

    def slim(self, lines: Iterable[str]) -> Iterator[str]:
        for line in lines:
            yield from self.of_line(line)
