#!/usr/bin/env python3
"""The pages that nrvs finds in recorded tables, beside what the guest's kernel says of the process that they are of.

    mappings.py MAPS TRACE                          the pages of a trace, those at its end
    mappings.py MAPS --chain CHAIN                  the pages with which a chain begins, and those with which it ends

MAPS is what guest/mappings.c wrote where the process had stopped, once for each of these: the lines of /proc/PID/smaps, and below each
mapping a line for each of its pages that the kernel knows. A file that ends with .xz is unpacked. The status is 0 where both agree.
"""
import lzma
import re
import subprocess
import sys
from collections.abc import Iterable, Iterator
from dataclasses import dataclass, field
from typing import NamedTuple

sys.dont_write_bytecode = True
import explain

SMALL, LARGE = 1 << 12, 1 << 21
PRESENT, FRAME = 1 << 63, (1 << 55) - 1                     # of a word of pagemap
FREE, OF_LARGE, ZEROS, TABLE = 1 << 10, 1 << 22, 1 << 24, 1 << 26      # of a word of kpageflags
BYTES = {"4K": SMALL, "2M": LARGE, "1G": 1 << 30}
HEAD = re.compile(r"([0-9a-f]+)-([0-9a-f]+) ([r-][w-][x-][ps]) [0-9a-f]+ [0-9a-f:]+ \d+ *(.*)")
AMOUNT = re.compile(r"(\w+): +(\d+) kB")
OF_LARGE_PAGES = ("AnonHugePages", "ShmemPmdMapped", "FilePmdMapped")


class Known(NamedTuple):
    """What the kernel says of a page: its frame, and the kind of that."""
    frame: int
    flags: int


@dataclass
class Mapping:
    begin: int
    end: int
    allowed: str                            # as smaps has it: r, w and x, or - for each, and p or s
    name: str
    amounts: dict[str, int] = field(default_factory=dict)       # bytes
    is_special: bool = False                # of frames that are no memory (VM_PFNMAP): the kernel says nothing of its pages
    known: dict[int, Known] = field(default_factory=dict)       # by address, of the pages that the kernel holds as present

    def __str__(self) -> str:
        return f"{self.begin:x}-{self.end:x} {self.allowed} {self.name}".rstrip()


class Page(NamedTuple):
    """4 KiB that the tables map, and the bytes of the page that they are a part of."""
    frame: int
    rights: str
    bytes: int


def parse(lines: Iterable[str]) -> list[list[Mapping]]:
    """What the kernel said, at each stop of the process."""
    stops: list[list[Mapping]] = []
    for line in lines:
        words = line.split()
        if words == ["stopped"]:
            stops.append([])
        elif found := HEAD.match(line):
            begin, end, allowed, name = found.groups()
            stops[-1].append(Mapping(int(begin, 16), int(end, 16), allowed, name.strip()))
        elif words and words[0] == "page":
            address, word, flags = (int(each, 16) for each in words[1:])
            if word & PRESENT:
                stops[-1][-1].known[address] = Known(word & FRAME, flags)
        elif words and words[0] == "VmFlags:":
            stops[-1][-1].is_special = "pf" in words
        elif found := AMOUNT.match(line):
            stops[-1][-1].amounts[found.group(1)] = int(found.group(2)) * 1024
    return stops


def pages_of(text: str) -> tuple[dict[int, Page], list[str]]:
    """The pages that `nrvs pages --ranges` prints, in parts of 4 KiB, by address; and where one begins before the end of another."""
    pages: dict[int, Page] = {}
    out_of_order, behind = [], 0
    for line in text.splitlines():
        first, last, size, physical, rights = line.split()
        begin, end = int(first, 16), int(last, 16)
        if begin < behind:
            out_of_order.append(f"the range {line} begins before the end of another")
        for address in range(begin, end, SMALL):
            pages[address] = Page((int(physical, 16) + address - begin) // SMALL, rights, BYTES[size])
        behind = end
    return pages, out_of_order


def excess(mapping: Mapping, pages: dict[int, Page]) -> Iterator[str]:
    """Pages that allow what their mapping doesn't."""
    for address, page in pages.items():
        is_more = any(right in page.rights and right not in mapping.allowed for right in "wx")
        if is_more or "u" not in page.rights or mapping.allowed[0] == "-":
            yield f"{mapping}: its page at {address:#x} has the rights {page.rights}"


def difference(mapping: Mapping, pages: dict[int, Page]) -> Iterator[str]:
    """Pages of a mapping that aren't those that the kernel says, one by one and in all."""
    for address in sorted(pages.keys() | mapping.known.keys()):
        page, known = pages.get(address), mapping.known.get(address)
        if not page or not known:
            yield f"{mapping}: the page at {address:#x} is in the {'tables' if page else 'pagemap'} alone"
        elif page.frame != known.frame:
            yield f"{mapping}: the page at {address:#x} has the frame {page.frame:#x}, and in the pagemap {known.frame:#x}"
        elif known.flags & (FREE | TABLE):
            yield f"{mapping}: the frame {page.frame:#x} of the page at {address:#x} is free or a page table"
        elif known.flags & ZEROS and (page.bytes == LARGE) != bool(known.flags & OF_LARGE):
            yield f"{mapping}: the page of zeros at {address:#x} has another size"
    counted = [address for address, known in mapping.known.items() if not known.flags & ZEROS]
    large = sum(SMALL for address in counted if address in pages and pages[address].bytes == LARGE)
    for name, here, there in (("Rss", SMALL * len(counted), mapping.amounts["Rss"]),
                              ("large pages", large, sum(mapping.amounts[each] for each in OF_LARGE_PAGES))):
        if here != there:
            yield f"{mapping}: {name} of {here} bytes, and by smaps {there}"


def compare(mappings: list[Mapping], text: str) -> list[str]:
    """Where the ranges that `nrvs pages --ranges` prints and what the kernel says don't agree; none where they do."""
    pages, found = pages_of(text)
    for mapping in mappings:
        inside = {address: pages.pop(address) for address in range(mapping.begin, mapping.end, SMALL) if address in pages}
        found += excess(mapping, inside)
        if mapping.allowed[0] != "-" and not mapping.is_special:     # else they aren't in the tables, or not in the pagemap
            found += difference(mapping, inside)
    return found + [f"the page at {address:#x} lies in no mapping" for address in pages]


def ranges(path: str, *words: str) -> str:
    """What the program prints."""
    with lzma.open(path) if path.endswith(".xz") else open(path, "rb") as file:
        done = subprocess.run([explain.program(), "pages", *words, "--ranges"], input=file.read(), stdout=subprocess.PIPE)
    return done.stdout.decode()


def read(path: str) -> list[list[Mapping]]:
    with lzma.open(path, "rt") if path.endswith(".xz") else open(path) as lines:
        return parse(lines)


def shown(maps: str, path: str, is_chain: bool) -> tuple[list[str], bool]:
    """A line for each moment at which the process had stopped, and those of what differs there; whether all is as the kernel says."""
    lines, is_same = [], True
    moments = (("at its start", ("--chain", "--start")), ("at its end", ("--chain", "--end"))) if is_chain else (("at its end", ()),)
    stops = read(maps)
    if len(stops) != len(moments):
        return [f"the guest's kernel was asked {len(stops)} times, and not {len(moments)}"], False
    for (moment, words), mappings in zip(moments, stops):
        text = ranges(path, *words)
        found = compare(mappings, text)
        lines.append(f"nrvs pages {moment}: {len(pages_of(text)[0])} pages of 4 KiB in {len(text.splitlines())} ranges, "
                     f"{len(mappings)} mappings; {'the kernel says otherwise' if found else 'as the kernel says'}")
        lines += found
        is_same = is_same and not found
    return lines, is_same


def main() -> int:
    words = [word for word in sys.argv[1:] if word != "--chain"]
    if len(words) != 2:
        print(__doc__, file=sys.stderr)
        return 2
    lines, is_same = shown(*words, "--chain" in sys.argv)
    print("\n".join(lines))
    return int(not is_same)


if __name__ == "__main__":
    sys.exit(main())
