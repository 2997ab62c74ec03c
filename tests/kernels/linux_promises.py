"""Tests of examples/linux/promises.py, for tests/linux: what mmap, mprotect, munmap and mremap promise, and for how long."""
import random
import sys

sys.dont_write_bytecode = True
from counting import check
from promises import (GONE, MMAP, MPROTECT, MREMAP, MREMAP_DONTUNMAP, MREMAP_FIXED, MUNMAP, PKEY_MPROTECT, PROT_GROWS, Promises, allowed_by)

PAGE = 4096
ALL, USER_WRITE, READ = 7, 3, 2         # rights of pages
A, B = 1, 2                             # tasks
SEED, DRAWS, SPAN = 5, 3000, 40         # of drawn ranges: pages


def made(*calls: tuple[int, ...]) -> Promises:
    """After calls of task A, each its number, first, second, third argument, flags, and result."""
    promises = Promises()
    for number, first, second, third, fourth, result in calls:
        promises.entered(A, number, (first, second, third, fourth))
        promises.returned(A, number, (first, second, third, fourth), result)
    return promises


def limits(promises: Promises, page: int, rights: int = ALL, task: int = A) -> list[int]:
    return list(promises.exceeded(page * PAGE, (page + 1) * PAGE, rights, task))


MAPPED = (MMAP, 0, 8 * PAGE, 3, 0x22, 16 * PAGE)


def check_calls() -> None:
    promises = made(MAPPED)
    check("what mmap allows is no fault", limits(promises, 16, USER_WRITE) == [])
    check("a page that may be executed though mmap said otherwise is one", limits(promises, 16) == [USER_WRITE])
    check("of other pages nothing is known", limits(promises, 24) == limits(promises, 15) == [])
    promises = made(MAPPED, (MPROTECT, 18 * PAGE, 2 * PAGE, 1, 0, 0))
    check("mprotect holds for its range", [limits(promises, page, USER_WRITE) for page in (17, 18, 19, 20)] == [[], [READ], [READ], []])
    promises = made(MAPPED, (MUNMAP, 18 * PAGE, 2 * PAGE - 5, 0, 0, 0))
    check("after munmap no page may be there", [limits(promises, page, READ) for page in (17, 18, 19, 20)] == [[], [0], [0], []])
    promises = made(MAPPED, (PKEY_MPROTECT, 18 * PAGE, PAGE, 0, 0, 0))
    check("nor where nothing is allowed", limits(promises, 18, READ) == [0])
    check("a large page is held to each part of it", list(promises.exceeded(16 * PAGE, 20 * PAGE, USER_WRITE, A)) == [0])
    for what, call in (("fails", (MPROTECT, 16 * PAGE, PAGE, 1, 0, (1 << 64) - 12)),
                       ("grows", (MPROTECT, 30 * PAGE, PAGE, 1 | PROT_GROWS, 0, 0))):
        check(f"of an mprotect that {what} nothing is known", limits(made(MAPPED, call), 16) == [])
    promises = made(MAPPED, (MREMAP, 16 * PAGE, 8 * PAGE, 4 * PAGE, 1, 40 * PAGE))
    check("mremap takes what was allowed along", [limits(promises, page) for page in (16, 23, 40, 43, 44)]
          == [[0], [0], [USER_WRITE], [USER_WRITE], []])
    promises = made(MAPPED, (MREMAP, 16 * PAGE, 8 * PAGE, 8 * PAGE, MREMAP_DONTUNMAP | 1, 40 * PAGE))
    check("or leaves it there too", limits(promises, 16) == [USER_WRITE])
    promises = made(MAPPED, (MUNMAP, 16 * PAGE, PAGE, 0, 0, 0), (30, 0, 0, 0, 0, 16 * PAGE))
    check("where the kernel chooses a place nothing is gone for sure", limits(promises, 16) == [])


def check_calls_under_way() -> None:
    """While a call of another task may change a page, and where two calls overlapped, nothing is said."""
    for what, call, is_said in (("munmap of the page", (MUNMAP, (16 * PAGE, PAGE, 0, 0)), False),
                                ("munmap of another", (MUNMAP, (17 * PAGE, PAGE, 0, 0)), True),
                                ("mmap at the page", (MMAP, (16 * PAGE, PAGE, 7, 0x32)), False),
                                ("mmap anywhere", (MMAP, (0, PAGE, 7, 0x22)), True),
                                ("mremap to a place that isn't known", (MREMAP, (90 * PAGE, PAGE, PAGE, MREMAP_FIXED)), False),
                                ("shmat", (30, (0, 0, 0, 0)), False), ("read", (0, (0, 0, 0, 0)), True),
                                ("an older log", (None, ()), False)):
        promises = made(MAPPED)
        promises.entered(B, *call)
        check(f"during {what} it is said: {is_said}", (limits(promises, 16) != []) == is_said)
        promises.left(B)
        check("and afterwards it is", limits(promises, 16) != [])
    promises = made(MAPPED, (MUNMAP, 16 * PAGE, PAGE, 0, 0, 0))
    promises.entered(B, MMAP, (0, PAGE, 7, 0x22))
    check("where nothing is mapped mmap may choose to map", limits(promises, 16) == [])
    promises = made(MAPPED)
    promises.entered(A, MUNMAP, (16 * PAGE, 2 * PAGE, 0, 0))
    promises.entered(B, MMAP, (0, PAGE, 7, 0x22))
    promises.returned(B, MMAP, (0, PAGE, 7, 0x22), 16 * PAGE)
    promises.returned(A, MUNMAP, (16 * PAGE, 2 * PAGE, 0, 0), 0)
    check("of two calls at once nobody knows which came last", limits(promises, 16) == [] and limits(promises, 17, READ) == [0])


def check_ranges() -> None:
    """Ranges beside a list with an entry for each page."""
    draw, promises, pages = random.Random(SEED), Promises(), [None] * SPAN
    is_same = True
    for _ in range(DRAWS):
        begin, end = sorted(draw.sample(range(SPAN + 1), 2))
        allowed = draw.choice((None, 0, READ, USER_WRITE, GONE))
        promises.promise(begin * PAGE, end * PAGE, allowed, A)
        pages[begin:end] = [allowed] * (end - begin)
        found = [next((each.allowed for each in promises.within(page * PAGE, (page + 1) * PAGE)), None) for page in range(SPAN)]
        ends = [each.end for each in promises.ranges]
        is_same = is_same and found == pages and all(end <= each.begin for end, each in zip(ends, promises.ranges[1:]))
    check("drawn ranges are those of a list of pages", is_same)
    check("protections as rights", [allowed_by(each) for each in (0, 1, 3, 5, 7)] == [0, 2, 3, 6, 7])
