"""Page tables as the stores of a log make them, and the pages that they map."""
from collections.abc import Iterator
from dataclasses import dataclass
from typing import NamedTuple

PRESENT, LARGE, NO_EXECUTE = 1, 0x80, 1 << 63
ADDRESS = 0x000F_FFFF_FFFF_F000
BYTES = (1 << 12, 1 << 21, 1 << 30)     # of a page, by the code of its size
WRITE, USER, EXEC, ALL = 1, 2, 4, 7     # rights


class Page(NamedTuple):
    size: int
    physical: int
    rights: int


class Change(NamedTuple):
    """A page that appears, goes, or is another after a store."""
    base: int
    before: Page | None
    after: Page | None


@dataclass
class Table:
    level: int
    words: dict[int, int]
    bases: list[int]            # of the addresses that it translates: one for each way to it


def is_table(word: int, level: int) -> bool:
    return bool(word & PRESENT) and level > 1 and not (level <= 3 and word & LARGE)


def frame_in(word: int) -> int:
    return (word & ADDRESS) >> 12


def rights_in(word: int) -> int:
    return word >> 1 & (WRITE | USER) | (0 if word & NO_EXECUTE else EXEC)


class PageTables:
    def __init__(self, root: int) -> None:
        self.root = root
        self.levels = 4
        self.linked: dict[int, Table] = {}
        self.told: dict[int, Table] = {}        # those whose link is logged next

    def tell(self, frame: int, level: int) -> None:
        self.told[frame] = Table(level, {}, [])
        if frame == self.root:
            self.levels = level

    def tell_word(self, frame: int, index: int, word: int) -> None:
        self.told[frame].words[index] = word

    def at(self, frame: int, level: int) -> Table | None:
        """The table of that level there, if there is one: of a wrong link there isn't."""
        table = self.linked.get(frame)
        return table if table and table.level == level else None

    def link(self, frame: int, level: int, base: int) -> None:
        if frame in self.told:
            self.linked[frame] = self.told.pop(frame)
        table = self.at(frame, level)
        if table:
            table.bases.append(base)
            for index, word in table.words.items():
                if is_table(word, level):
                    self.link(frame_in(word), level - 1, base + self.reach(index, level))

    def unlink(self, frame: int, level: int, base: int) -> None:
        table = self.at(frame, level)
        if not table or base not in table.bases:
            return
        table.bases.remove(base)
        for index, word in table.words.items():
            if is_table(word, level):
                self.unlink(frame_in(word), level - 1, base + self.reach(index, level))
        if not table.bases:
            del self.linked[frame]

    @staticmethod
    def reach(index: int, level: int) -> int:
        return index << (3 + 9 * level)

    def pages_below(self, word: int, level: int, base: int, rights: int, found: dict[int, Page]) -> None:
        """The pages of an entry, by base; `rights` are those of the entries above."""
        rights &= rights_in(word)
        if not word & PRESENT:
            return
        if not is_table(word, level):
            found[base] = Page(level - 1, word & ADDRESS & -BYTES[level - 1], rights)
            return
        table = self.at(frame_in(word), level - 1)
        for index, below in table.words.items() if table else ():
            self.pages_below(below, level - 1, base + self.reach(index, level - 1), rights, found)

    def rights_above(self, base: int, level: int) -> int:
        rights, frame = ALL, self.root
        for above in range(self.levels, level, -1):
            word = self.linked[frame].words.get(base >> (3 + 9 * above) & 511, 0)
            rights &= rights_in(word)
            frame = frame_in(word)
        return rights

    def pages_of(self, table: Table, index: int, word: int) -> dict[int, Page]:
        """The pages of a word of a table, along each way to it."""
        found: dict[int, Page] = {}
        for base in table.bases:
            self.pages_below(word, table.level, base + self.reach(index, table.level), self.rights_above(base, table.level), found)
        return found

    def begin(self) -> dict[int, Page]:
        """The pages, by base, of the tables that were there at first."""
        found: dict[int, Page] = {}
        if self.root in self.told:
            self.link(self.root, self.levels, 0)
            for index, word in self.linked[self.root].words.items():
                self.pages_below(word, self.levels, self.reach(index, self.levels), ALL, found)
        return found

    def store(self, frame: int, index: int, old: int, new: int) -> list[Change]:
        """Stores a word of a table; which pages are others then, by base."""
        self.begin()
        table = self.linked.get(frame)
        if not table:
            return []
        level, before = table.level, self.pages_of(table, index, old)
        was, now = (frame_in(word) if is_table(word, level) else None for word in (old, new))
        bases = list(table.bases) if was != now else []
        for base in bases:
            if was is not None:
                self.unlink(was, level - 1, base + self.reach(index, level))
        table.words[index] = new
        for base in bases:
            if now is not None:
                self.link(now, level - 1, base + self.reach(index, level))
        after = self.pages_of(table, index, new)
        changed = sorted(base for base in before.keys() | after.keys() if before.get(base) != after.get(base))
        return [Change(base, before.get(base), after.get(base)) for base in changed]

    def frames(self) -> dict[int, dict[int, int]]:
        """All tables: their words that aren't 0, by frame and index."""
        return {frame: table.words for frame, table in self.linked.items()}


def parts_of(frame: int, count: int) -> Iterator[tuple[int, int]]:
    """Frames as memory of the sizes of pages, the largest that fit: each a size's code and a physical address."""
    at, end = frame * BYTES[0], (frame + count) * BYTES[0]
    while at < end:
        size = next(code for code in (2, 1, 0) if at % BYTES[code] == 0 and at + BYTES[code] <= end)
        yield size, at
        at += BYTES[size]
