"""How much a yes says: what a recording met of that in which a missing flush can show."""
import collections
from collections.abc import Mapping
from dataclasses import dataclass, field

from page_tables import BYTES, Page

BETWEEN, ENDED, GIVEN, USED = MET = ("accesses between a store and its flush", "updates that another task's flush ended",
                                     "releases while something wasn't flushed", "pages taken away that another processor had used")


def summary(counts: Mapping[str, int], is_chain: bool) -> str:
    """One line. A trace has no releases, and no accesses between a store and its flush."""
    kinds = MET if is_chain else (ENDED, USED)
    line = "met: " + ", ".join(f"{counts.get(kind, 0)} {kind}" for kind in kinds)
    return line if any(counts.get(kind, 0) for kind in kinds) else line + ": a yes says little"


@dataclass
class Users:
    """Which processors have used each page since it was last taken away or changed to less."""
    by_base: dict[int, set[int]] = field(default_factory=lambda: collections.defaultdict(set))

    def used(self, processor: int, address: int, pages: Mapping[int, Page]) -> None:
        for size in BYTES:
            page = pages.get(address & -size)
            if page and BYTES[page.size] == size:
                self.by_base[address & -size].add(processor)

    def have_others(self, base: int, processor: int) -> bool:
        """Whether another processor may have the page in its TLB, from which this one takes it."""
        return bool(self.by_base.pop(base, set()) - {processor})
