"""Ways through the tables of a dump or of a start: entries, and what they say."""
import collections

from reading import rights_words

Step = collections.namedtuple("Step", "level frame index word")


def meaning(word, level):
    """What an entry is: absent, reserved, a page (its physical address), or a table (its frame); and its rights."""
    large = level in (2, 3) and word >> 7 & 1
    reserved = (1 << 3 + 9 * level) - (1 << 13) if large else 1 << 7 if level > 3 else 0
    rights = (word >> 1 & 3) | (0 if word >> 63 else 4)
    address = word & (1 << 52) - (1 << 12)
    if not word & 1:
        return "absent", 0, 0
    if word & reserved:
        return "reserved", 0, rights
    return ("page", address & -(1 << 3 + 9 * level), rights) if level == 1 or large else ("table", address >> 12, rights)


def step_words(step):
    what, where, rights = meaning(step.word, step.level)
    leads = {"page": f"a page at {where:#x}, {rights_words(rights)}", "reserved": "a reserved bit is set",
             "table": f"a table in frame {where:#x}, {rights_words(rights)}", "absent": "absent"}
    return f"Level {step.level}: entry {step.index} of frame {step.frame:#x} is {step.word:#x}: {leads[what]}."


def path_address(trace, path):
    """The first address that the path leads to."""
    address = sum(step.index << (3 + 9 * step.level) for step in path)
    return address | ((1 << 64) - (1 << 12 + 9 * trace.levels) if address >> (11 + 9 * trace.levels) else 0)
