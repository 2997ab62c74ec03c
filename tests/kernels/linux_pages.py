"""Tests of `nrvs pages` on Linux's tables, for tests/linux: beside the second implementation, and beside what the guest's kernel said."""
import lzma
import os
import subprocess
import sys
from collections.abc import Callable, Iterator

sys.dont_write_bytecode = True
import explain
import kernel_dump
import mappings
import model_pages
from counting import check

ROOT = os.path.dirname(os.path.dirname(os.path.dirname(os.path.abspath(__file__))))
KEPT = f"{ROOT}/examples/linux/kept"
ENDS = {"--start": model_pages.shown_start, "--end": model_pages.shown_end}


def pages(data: bytes, *words: str) -> tuple[str, int]:
    done = subprocess.run([explain.program(), "pages", *words], input=data, stdout=subprocess.PIPE)
    return done.stdout.decode(), done.returncode


def kept(folder: str, ending: str) -> Iterator[tuple[str, bytes]]:
    for name in sorted(os.listdir(folder)):
        if name.endswith(ending):
            yield name, lzma.open(f"{folder}/{name}").read()


def check_pages() -> None:
    """The pages of each kept trace and chain, and their ranges, beside the second implementation."""
    for more in ((), ("--ranges",)):
        for name, trace in kept(KEPT, ".trace.xz"):
            text, _, status = model_pages.shown(trace, 0, bool(more))
            check(f"pages {more} of {name}", pages(trace, *more) == (text, status), text)
        for name, chain in kept(f"{KEPT}/chains", ".chain.xz"):
            for end, shown in ENDS.items():
                wanted = shown(chain, bool(more))
                check(f"pages {end} {more} of {name}", pages(chain, "--chain", end, *more) == wanted, wanted[0])


# ---- beside what the guest's kernel said ----

PAGE = 4096
KINDS = {"r--p", "r-xp", "rw-p", "---p", "rwxp", "rw-s", "r--s", "r-xs"}        # of mappings, as smaps has them
SOME = 60                       # of so many ranges of a mapping one is made wrong

Range = tuple[int, int, str, int, str]          # begin, end, size, physical address, rights
MISTAKES: dict[str, Callable[[int, int, str, int, str], Range]] = {
    "a page further up": lambda begin, end, size, physical, rights: (begin + PAGE, end + PAGE, size, physical, rights),
    "of frames one further up": lambda begin, end, size, physical, rights: (begin, end, size, physical + PAGE, rights),
    "a page shorter": lambda begin, end, size, physical, rights: (begin, end - PAGE, size, physical, rights),
    "a page longer": lambda begin, end, size, physical, rights: (begin, end + PAGE, size, physical, rights),
    "of another size": lambda begin, end, size, physical, rights: (begin, end, "4K" if size == "2M" else "2M", physical, rights),
    "the kernel's": lambda begin, end, size, physical, rights: (begin, end, size, physical, rights.replace("u", "-")),
    "writable": lambda begin, end, size, physical, rights: (begin, end, size, physical, "w" + rights[1:]),
    "executable": lambda begin, end, size, physical, rights: (begin, end, size, physical, rights[:2] + "x"),
}
NO_MISTAKE = {"writable": "w", "executable": "x"}               # in a mapping that allows this


def with_mistakes(stop: list[mappings.Mapping], text: str) -> Iterator[tuple[str, str]]:
    """The text with one range of it wrong, and how: some ranges of each mapping of which the kernel says all."""
    lines = text.splitlines()
    for mapping in (each for each in stop if not each.is_special):
        inside = [k for k, line in enumerate(lines) if mapping.begin <= int(line.split()[0], 16) < mapping.end]
        for k in inside[::SOME]:
            begin, end, size, physical, rights = lines[k].split()
            for name, mistake in MISTAKES.items():
                if NO_MISTAKE.get(name, "none") not in mapping.allowed:
                    wrong = "{:#x} {:#x} {} {:#x} {}".format(*mistake(int(begin, 16), int(end, 16), size, int(physical, 16), rights))
                    yield f"{lines[k]} is {name}", "\n".join([*lines[:k], wrong, *lines[k + 1:]])
            yield f"{lines[k]} isn't there", "\n".join(lines[:k] + lines[k + 1:])


def check_moment(when: str, stop: list[mappings.Mapping], text: str) -> None:
    found = mappings.compare(stop, text)
    check(f"{when} the pages of a process are those that its kernel says", found == [], *found)
    check(f"{when} it has mappings of each kind", {mapping.allowed for mapping in stop} >= KINDS)
    known = [known for mapping in stop for known in mapping.known.values()]
    check(f"{when} it has a large page of zeros", any(each.flags & mappings.ZEROS and each.flags & mappings.OF_LARGE for each in known))
    check(f"{when} it has pages that no access reaches", any(mapping.known for mapping in stop if mapping.allowed == "---p"))


def check_mistakes(stop: list[mappings.Mapping], text: str) -> None:
    for what, wrong in with_mistakes(stop, text):
        check(f"it is seen where {what}", mappings.compare(stop, wrong) != [])
    for k, mapping in enumerate(stop):
        if mapping.amounts["Rss"] and mapping.allowed[0] != "-":
            check(f"it is seen where {mapping} isn't there", mappings.compare(stop[:k] + stop[k + 1:], text) != [])


def check_mappings() -> None:
    """The ranges of kept tables are what the guest's kernel said of the process; a range that is wrong isn't."""
    stops = mappings.read(f"{KEPT}/maps.maps.xz") + mappings.read(f"{KEPT}/chains/maps-here.maps.xz")
    texts = [mappings.ranges(f"{KEPT}/maps.trace.xz")]
    texts += [mappings.ranges(f"{KEPT}/chains/maps-here.chain.xz", "--chain", end) for end in ENDS]
    check("the kernel was asked three times", len(stops) == 3)
    for when, stop, text in zip(("at the end of a trace", "where a chain begins", "where it ends"), stops, texts):
        check_moment(when, stop, text)
    check_mistakes(stops[0], texts[0])


FEW = 7                         # of so many of the kernel's ranges one is made wrong


def kernel_mistakes(text: str) -> Iterator[tuple[str, str]]:
    """The text with one of the kernel's ranges wrong, and how; with a wrong physical address where the kernel says which is right."""
    lines = text.splitlines()
    first = next(k for k, line in enumerate(lines) if int(line.split()[0], 16) >= kernel_dump.HALF)
    for k, line in list(enumerate(lines))[first::FEW]:
        begin, end, size, physical, rights = line.split()
        numbers = int(begin, 16), int(end, 16), size, int(physical, 16), rights
        for name, mistake in MISTAKES.items():
            wrong = mistake(*numbers)
            if wrong != numbers and (wrong[3] == numbers[3] or kernel_dump.mapped_from(numbers[0]) is not None):
                yield f"{line} is {name}", "\n".join([*lines[:k], "{:#x} {:#x} {} {:#x} {}".format(*wrong), *lines[k + 1:]])
        yield f"{line} isn't there", "\n".join(lines[:k] + lines[k + 1:])


def check_kernel_half() -> None:
    """All pages of a kept process, the kernel's half too, are those of the kernel's own dump; a range that is wrong isn't."""
    lines, text = kernel_dump.read(f"{KEPT}/kernel-half.dump.xz"), mappings.ranges(f"{KEPT}/kernel-half.trace.xz")
    found, parts = kernel_dump.compare(lines, text), kernel_dump.parts_of_dump(lines)
    check("the pages of a process and of its kernel are those of the kernel's dump", found == [], *found)
    kernels = [part for part in parts if part.begin >= kernel_dump.HALF]
    check("with many parts of the kernel, of two sizes", len(kernels) > 100 and {part.bytes for part in kernels} == {1 << 12, 1 << 21})
    for what, wrong in kernel_mistakes(text):
        check(f"it is seen where {what}", kernel_dump.differences(parts, wrong) != [])
