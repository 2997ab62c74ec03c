"""Updates that take something away and aren't flushed yet: until they are, a processor may see the old page or the new one."""
import collections
from collections.abc import Callable, Iterable
from dataclasses import dataclass, field

from page_tables import BYTES, Change

Window = tuple[int, int]        # a page's size and base: its entry was stored to, and isn't flushed
EVERYTHING = (1 << 64) - 1


@dataclass
class Update:
    """One that has its place in the log."""
    call: int
    place: int          # in the segment's log
    number: int         # .. and in that of the whole recording
    thread: int
    change: Change
    source: int         # among the sources
    waits: bool         # its reply is still to come


def has_had(change: Change, begin: int, end: int) -> bool:
    """Before it, a page led into this memory."""
    page = change.before
    return page is not None and page.physical < end and begin < page.physical + BYTES[page.size]


@dataclass
class Windows:
    open: dict[Window, dict[int, list[Update]]] = field(default_factory=dict)       # by task that owes the flush
    owed: dict[int, set[Window]] = field(default_factory=lambda: collections.defaultdict(set))      # by task

    def is_between(self, address: int) -> bool:
        """The page's entry was stored to, and isn't flushed yet: the processor may answer by what was or by what is."""
        return any((size, address & -BYTES[size]) in self.open for size in range(3))

    def add(self, update: Update, task: int) -> None:
        """The task has taken something away, and owes the flush. What gives something owes none, and isn't here."""
        assert update.change.before is not None
        window = update.change.before.size, update.change.base
        self.owed[task].add(window)
        self.open.setdefault(window, {}).setdefault(task, []).append(update)

    def flushed(self, task: int, begin: int, end: int) -> list[Update]:
        """What the task owed of these addresses, which is over."""
        there = [(size, base) for size, base in sorted(self.owed.get(task, ())) if base < end and begin < base + BYTES[size]]
        return [update for window in there for update in self.end(window, task, EVERYTHING)]

    def over_for_others(self, task: int, begin: int, end: int, before: Callable[[int], int], allowed: int | None = None) -> list[Update]:
        """By each processor: of pages that lie there, what other tasks stored before so many updates of the recording, by a page's
        base, is over too; of pages that allowed more than this alone, if it is said."""
        over: list[Update] = []
        for size, base in sorted(self.open):
            if begin <= base and base + BYTES[size] <= end:
                for other in [each for each in self.open[size, base] if each != task]:
                    over += self.end((size, base), other, before(base), allowed)
        return over

    def given_away(self, begin: int, end: int) -> list[Update]:
        """Who has taken pages of this memory away owes no flush of them any more: now it is too late. A thread of the kernel's own, which
        isn't seen in user mode, owes it until here."""
        over: list[Update] = []
        for (_, base), owners in list(self.open.items()):
            for task in [each for each, updates in owners.items() if any(has_had(update.change, begin, end) for update in updates)]:
                over += self.flushed(task, base, base + 1)
        return over

    def end(self, window: Window, task: int, before: int, allowed: int | None = None) -> Iterable[Update]:
        """A task's updates of a page that are over: those with a number below this one."""
        updates = self.open[window][task]
        over = [update for update in updates if update.number < before and (allowed is None or update.change.before.rights & ~allowed)]
        updates[:] = [update for update in updates if update not in over]
        if not updates:
            self.owed[task].discard(window)
            del self.open[window][task]
            if not self.open[window]:
                del self.open[window]
        return over
