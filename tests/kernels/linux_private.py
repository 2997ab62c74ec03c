"""Tests of pages that are a process's own (examples/linux/private_pages.py), for tests/linux: forks, and frames of two pages."""
import convert
from convert import Options
from counting import check
from linux_releases import BEGUN, KEPT, OTHERS, PC, SEEN, START, UNMAPPED, check_verdict, converted, judged
from promises import MADVISE, MMAP, MREMAP, MUNMAP

ERROR = (1 << 64) - 12
PRIVATE, SHARED = 0x22, 0x21        # with MAP_ANONYMOUS
CLONE, FORK, OTHER_CALL = 56, 57, 39
STALE = "segment 0/no 24 Stale 2"
WRITE = SEEN.replace("u r", "u w")


def entered(number: int, *arguments: int, task: str = "a0") -> str:
    return " ".join(["@entered 0", task, str(number), *(f"{each:x}" for each in (*arguments, 0, 0, 0, 0)[:4])]) + "\n"


def returned(number: int, *arguments: int, result: int = 0, task: str = "a0") -> str:
    words = [f"{each:x}" for each in (*arguments, 0, 0, 0, 0)[:4]]
    return " ".join(["@returned 0", task, str(number), *words[:3], f"{result:x}", words[3]]) + "\n"


def call(number: int, *arguments: int, result: int = 0, task: str = "a0") -> str:
    return entered(number, *arguments, task=task) + returned(number, *arguments, result=result, task=task)


def mapped(kind: int, base: int = 0x5000) -> str:
    return call(MMAP, base, 4096, 7, kind, result=base)


FORKED = call(FORK, result=77)
SINCE = f"@store 0 c0 1 {PC} 13 5 9067 0\n@flushed 0 c0 5000 6000\n@store 0 c0 1 {PC} 13 5 0 9067\n"


def check_forks() -> None:
    """After a fork no private page may be written that was there when it began."""
    private = mapped(PRIVATE)
    for name, log, is_wrong in (
            ("a private page", private + FORKED, True), ("a page of which nothing is known", FORKED, False),
            ("a shared page", mapped(SHARED) + FORKED, False), ("a copy by clone", private + call(CLONE, 0x1200011, result=77), True),
            ("a thread", private + call(CLONE, 0x3D0F00, result=77), False),
            ("a fork that failed", private + call(FORK, result=ERROR), False),
            ("another call", private + call(OTHER_CALL, result=77), False),
            ("MADV_DONTFORK", private + call(MADVISE, 0x5000, 4096, 10) + FORKED, False),
            ("another advice", private + call(MADVISE, 0x5000, 4096, 14) + FORKED, True),
            ("an munmap", private + call(MUNMAP, 0x7000, 4096) + FORKED, True),
            ("an mmap of the same that isn't over", private + entered(MMAP, 0x5000, 4096, 3, 0x31, task="b0") + FORKED, False),
            ("what was shared again", private + mapped(SHARED) + FORKED, False),
            ("a log without the kind of a mapping", private.replace(" 5000 22\n", " 5000\n") + FORKED, False),
            ("a page that was made since it began", private + entered(FORK) + SINCE + returned(FORK, result=77), False)):
        found = converted(log + WRITE)
        check(f"{name}, forked, is {'known' if is_wrong else 'not known'} to be wrong", ("fork leaves writable" in found.summary())
              == is_wrong, found.summary())
    check_verdict("a write of a private page behind a fork", private + FORKED + WRITE, STALE)
    check_verdict("a read, by the tables at the end", private + FORKED + SEEN, "segment 0/no 17 Differs 0 0x5000")
    check_verdict("what another task took away before the fork", private + UNMAPPED.replace("a0", "b0") + FORKED + SEEN, STALE)
    check_verdict("and of a mapping that isn't known to be private", UNMAPPED.replace("a0", "b0") + FORKED + SEEN, "segments 1")
    check_verdict("and where it was flushed", private + UNMAPPED.replace("a0", "c0") + BEGUN + OTHERS + FORKED + SEEN, STALE)


def check_frames() -> None:
    """No private page that may be written has the frame of another one."""
    both, user = mapped(PRIVATE) + mapped(PRIVATE, 0x6000), "@user 0 a0\n"
    second = f"@store 0 a0 1 {PC} 13 6 0 9067\n" + user
    write = WRITE.replace("5000", "6000")
    check_verdict("a second page with its frame", both + second + write, "segment 0/no 24 Stale 4")
    check_verdict("which is read, by the tables at the end", both + second + write.replace("u w", "u r"),
                  "segment 0/no 17 Differs 0 0x6000")
    for name, log in (("a page that may not be written", both + second.replace("9067", "9065") + write.replace("u w", "u r")),
                      ("another frame", both + second.replace("9067", "8067") + write.replace("9000", "8000")),
                      ("a shared page", mapped(PRIVATE) + mapped(SHARED, 0x6000) + second + write),
                      ("a page of which nothing is known", mapped(PRIVATE) + second + write),
                      ("a page that has moved", both + UNMAPPED + "@flushed 0 a0 5000 6000\n" + second + write),
                      ("a mapping that was moved there", both + call(MREMAP, 0x8000, 4096, 4096, 3, result=0x6000) + second + write)):
        check_verdict(f"as second page {name}", log, "segments 1")


# A child's tables, whose root is frame 0x20; the page at 0x5000 comes by the parent's store
CHILD_TABLES = """@born 2 20
@table 20 4
@table 21 3
@table 22 2
@table 23 1
""" + "".join(f"@store 0 a0 0 {PC} {frame:x} 0 0 {frame + 1:x}007\n" for frame in (0x20, 0x21, 0x22))


def stored_by(task: str, frame: int, before: int, after: int) -> str:
    return f"@store 1 {task} 1 {PC} {frame:x} 5 {before:x} {after:x}\n"


def of_child(lines: str) -> str:
    return "".join(convert.CHILD + line[1:] for line in lines.splitlines(keepends=True))


def both(parent: str, child: str, behind: str = "") -> tuple[str, str]:
    """What is said of a process that has a page when recording begins, and does this first, and of its child."""
    lines = (START + parent + of_child(child) + behind).splitlines(keepends=True)
    said = [judged(each.spell()) for each in convert.convert_both(lines, Options(chain=65000))]
    check("both auditors agree on a family", all(first == second for first, second in said), said)
    return said[0][0], said[1][0]


def check_children() -> None:
    """After a fork no private page of the child may be written that has the frame that it has in the parent."""
    entered_fork, protect = entered(FORK), stored_by("a0", 0x13, 0x9067, 0x9065) + "@flushed 0 a0 5000 6000\n"
    write, read = "@access 1 b0 u w 5000 9000 401000\n", "@access 1 b0 u r 5000 9000 401000\n"
    copied = "@fault 1 0007 5000\n" + stored_by("b0", 0x23, 0x9065, 0) + "@flushed 1 b0 5000 6000\n" + stored_by("b0", 0x23, 0, 0x8067)
    writable, read_only = (CHILD_TABLES + stored_by("a0", 0x23, 0, word) for word in (0x9067, 0x9065))
    wrong, right = "segment 0/no 24 Stale 4", "segments 1"
    for name, mapping, child, verdict in (
            ("a page that it may write", mapped(PRIVATE), writable + write, wrong),
            ("the same, which it reads", mapped(PRIVATE), writable + read, "segment 0/no 17 Differs 0 0x5000"),
            ("a page that it may not write", mapped(PRIVATE), read_only + read, right),
            ("a page that it copies", mapped(PRIVATE), read_only + copied + write.replace("9000", "8000"), right),
            ("a page that was copied while it was forked", mapped(PRIVATE), writable.replace("9067", "8067") + write.replace("9000", "8000"),
             right),
            ("a shared page", mapped(SHARED), writable + write, right), ("a page of which nothing is known", "", writable + write, right),
            ("MADV_DONTFORK", mapped(PRIVATE) + call(MADVISE, 0x5000, 4096, 10), writable + write, right)):
        said = both(mapping + entered_fork + protect, child, returned(FORK, result=77))
        check(f"a child with {name} is judged {verdict}", said == (right, verdict), said)
    reused = read_only + read + "@fault 1 0007 5000\n" + stored_by("b0", 0x23, 0x9065, 0x9067) + write
    said = both(mapped(PRIVATE) + entered_fork + protect, reused)
    check("a child that writes where the parent reads", said[0] == right and said[1].startswith("segment 0/no 24 Stale "), said)
    left = protect + stored_by("a0", 0x13, 0x9065, 0) + "@flushed 0 a0 5000 6000\n"
    said = both(mapped(PRIVATE) + entered_fork + left, reused)
    check("a child that writes what the parent has no more", said == (right, right), said)
    again = "@access 2 a0 u w 5000 9000 401000\n"
    said = both(mapped(PRIVATE) + entered_fork + protect, read_only + read,
                returned(FORK, result=77) + "@fault 2 0007 5000\n" + stored_by("a0", 0x13, 0x9065, 0x9067) + again)
    check("a parent that writes where the child reads", said[0].startswith("segment 0/no 24 Stale ") and said[1] == right, said)


# Logs that were kept, each of a bug that no access shows by itself; what is said of each as a chain, and what without promises
LOGS = (("planted-fork-write", "segment 0/no 24 Stale 1918", "segments 2"),
        ("planted-zeros-write", "segment 0/no 24 Stale 1006", "segments 1"))

# .. of a process and its child
OF_BOTH = (("planted-fork-write-child", ("segments 2", "segment 0/no 24 Stale 388")),
           ("planted-reuse", ("segment 1/no 24 Stale 6", "segment 0/no 24 Stale 260")), ("family", ("segments 2", "segments 1")))


def check_kept() -> None:
    for name, verdict, without in LOGS:
        lines = convert.read_lines(f"{KEPT}/{name}.log.xz")
        for what, intent, expected in (("with", True, verdict), ("without", False, without)):
            said = judged(convert.convert(lines, Options(chain=1000, intent=intent)).spell())
            check(f"{name} {what} promises is judged {expected}", said == (expected, expected), said)
    for name, verdicts in OF_BOTH:
        both_chains = convert.convert_both(convert.read_lines(f"{KEPT}/{name}.log.xz"), Options(chain=1000))
        said = [judged(each.spell()) for each in both_chains]
        check(f"{name} and its child are judged {verdicts}", said == [(each, each) for each in verdicts], said)
