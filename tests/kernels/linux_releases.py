"""Tests of what examples/linux says of memory that the kernel gives to others, for tests/linux: log lines, releases, and their verdicts."""
import os
import re
import subprocess
import sys
from unittest import mock

sys.dont_write_bytecode = True
import convert
import explain
import log_lines
import model_chains
import plants
import slips
import stale
from chain_bytes import RELEASE
from convert import Options
from counting import check
from debian import Missing
from kernel_image import BATCH_FLUSHERS, FLUSHERS, NESTED_FLUSHERS, Kernel
from linux_kernels import made_types
from promises import MADV_DONTNEED, MADVISE, MPROTECT, MREMAP, MUNMAP
from plants import PLANTS, Silenced
from recording import ALL, DONE, MAP, READS, REMOVED, UNMAP, call, reply

KEPT = f"{os.path.dirname(os.path.dirname(os.path.dirname(os.path.abspath(__file__))))}/examples/linux/kept/chains"

# A process that has a page at 0x5000, which is frame 9, when recording begins.
START = """@born 1 10
@table 10 4
@word 10 0 11007
@table 11 3
@word 11 0 12007
@table 12 2
@word 12 0 13007
@table 13 1
@word 13 5 9067
"""
UPDATES = 8                 # the first thread of updates
PC = "ffffffff81000000"
UNMAPPED = f"@store 0 a0 1 {PC} 13 5 9067 0\n"
FLUSHED, IN_USER = "@flushed 0 a0 5000 6000\n", "@user 0 a0\n"
BEGUN, OTHERS = "@flushing 0 b0 1\n", "@flushed 0 b0 5000 6000\n"      # by another task
RELEASED = f"@released 1 a0 {PC} 9 1\n"
SEEN = "@access 2 c0 u r 5000 9000 401000\n"


def converted(log: str, options: Options = Options(chain=65000)) -> convert.Converter:
    return convert.convert((START + log).splitlines(keepends=True), options)


def judged(chain: bytes) -> tuple[str, str]:
    """What the program says, and the second auditor, lines parted by slashes."""
    done = subprocess.run([explain.program(), "audit", "--chain", "--quiet"], input=chain, stdout=subprocess.PIPE)
    second, _ = model_chains.verdict(chain, quiet=True)
    return "/".join(done.stdout.decode().splitlines()), "/".join(second.splitlines())


def check_verdict(name: str, log: str, verdict: str, options: Options = Options(chain=65000)) -> None:
    said = judged(converted(log, options).spell())
    check(f"{name}: {verdict}", said == (verdict, verdict), said)


# ---- lines ----

RAW = f"""@born 1 10 10
@callers ffffffff81002030:ffffffff81001000 ffffffff81003040:ffffffff81002000
@released 1 a0 ffffffff81001005 9 512
@released 1 a0 ffffffff81001005 800 1
"""
SLIM = """@born 1 10 10
@symbol ffffffff81001005 f1+0x5
@symbol ffffffff81002030 f2+0x30
@symbol ffffffff81003040 f3+0x40
@released 1 a0 ffffffff81001005 9 512 ffffffff81002030 ffffffff81003040
@released 1 a0 ffffffff81001005 800 1
"""


def check_lines() -> None:
    slimmer = log_lines.Slimmer(lambda pc: (f"f{pc >> 12 & 15}", pc & 4095))
    slim = "".join(slimmer.slim(RAW.splitlines(keepends=True)))
    check("who gives frames away is named", slim == SLIM, slim)
    found = [line for line in log_lines.parse(slim.splitlines()) if isinstance(line, log_lines.Released)]
    check("and the frames are read", found == [
        log_lines.Released(1, 0xA0, (0xFFFFFFFF81001005, 0xFFFFFFFF81002030, 0xFFFFFFFF81003040), 9, 512),
        log_lines.Released(1, 0xA0, (0xFFFFFFFF81001005,), 0x800, 1)], found)


def check_parts() -> None:
    large = [(1, 0x200000)]
    for name, frame, count, parts in (("a large page", 0x200, 512, large), ("one frame", 9, 1, [(0, 0x9000)]),
                                      ("more than a large page", 0x1FF, 514, [(0, 0x1FF000), *large, (0, 0x400000)]),
                                      ("as many, not at its begin", 0x201, 512, [(0, frame << 12) for frame in range(0x201, 0x401)]),
                                      ("a page of a gigabyte", 1 << 18, 1 << 18, [(2, 1 << 30)])):
        check(f"memory in parts: {name}", list(convert.parts_of(frame, count)) == parts)


# ---- releases ----

def release(thread: int, physical: int, size: int = 0) -> bytes:
    return call(0, thread, RELEASE, 0, size, 0, physical)


def check_events() -> None:
    unmap = [call(0, UPDATES, UNMAP, 0x5000), reply(0, 0, REMOVED, 0, ALL, 0x9000)]
    log = UNMAPPED + FLUSHED + RELEASED
    found = converted(log)
    check("a release is a call of the processor's, with its reply",
          found.trace.events == [*unmap, release(1, 0x9000), reply(2, 0, DONE)] and found.trace.log == [0], found.trace.events)
    check("and is counted", "1 releases" in found.summary(), found.summary())
    check("who made it is known", found.calls().splitlines()[1].split("\t") == ["0.2", "task a0", "", f"0x{PC}"], found.calls())
    for name, options in (("that leaves them out", Options(chain=65000, releases=False)), ("as a trace", Options())):
        other = converted(log, options)
        check(f"none is there {name}", other.counts["releases"] == 0 and RELEASE not in [event[4] for event in other.trace.events
                                                                                    if event[0] == 0])
    large = converted(UNMAPPED + FLUSHED + f"@released 1 a0 {PC} 200 512\n")
    check("512 frames are one large page", large.trace.events[2:] == [release(1, 0x200000, 1), reply(2, 0, DONE)])
    early = converted(UNMAPPED + RELEASED + SEEN + FLUSHED)
    check("an update isn't under way any more when its memory was given away",
          early.trace.events[:4] == [unmap[0], release(1, 0x9000), reply(1, 0, DONE), unmap[1]], early.trace.events)
    check("and that is said", "\tnot flushed when its memory was given away\t" in early.calls().splitlines()[0], early.calls())


def check_verdicts() -> None:
    again, other = f"@store 0 a0 1 {PC} 13 6 0 9067\n", RELEASED.replace(" 9 1", " 8 1")
    mapped_again = f"@store 0 a0 1 {PC} 13 5 0 9067\n"
    check_verdict("a page that is unmapped and flushed", UNMAPPED + FLUSHED + RELEASED, "segments 1")
    check_verdict("one whose task is in user mode again", UNMAPPED + IN_USER + RELEASED, "segments 1")
    check_verdict("the same before its flush", UNMAPPED + RELEASED + FLUSHED, "segment 0/no 25 Reachable 1")
    check_verdict("the same without one", UNMAPPED + RELEASED, "segment 0/no 25 Reachable 1")
    check_verdict("another's flush", UNMAPPED + OTHERS + RELEASED, "segment 0/no 25 Reachable 1")
    check_verdict("a flush elsewhere", UNMAPPED + FLUSHED.replace("5000 6000", "6000 7000") + RELEASED, "segment 0/no 25 Reachable 1")
    check_verdict("a page that is still mapped", RELEASED, "segment 0/no 25 Reachable 0")
    check_verdict("one that another address leads to", UNMAPPED + FLUSHED + again + RELEASED, "segment 0/no 25 Reachable 4")
    check_verdict("other memory", UNMAPPED + other, "segments 1")
    check_verdict("memory that is mapped again later", UNMAPPED + FLUSHED + RELEASED + mapped_again, "segments 1")
    check_verdict("and is given away once more", UNMAPPED + FLUSHED + RELEASED + mapped_again + RELEASED, "segment 0/no 25 Reachable 6")
    check_verdict("a thread of the kernel's that never flushes, and an access", UNMAPPED + SEEN, "segments 1")
    check_verdict("the same where the memory is given away", UNMAPPED + SEEN + RELEASED, "segment 0/no 25 Reachable 3")
    check_verdict("a chain is cut behind that", UNMAPPED + RELEASED + again, "segment 0/no 25 Reachable 1", Options(chain=1))
    check_verdict("a release in a later segment", UNMAPPED + FLUSHED + again + RELEASED, "segment 2/no 25 Reachable 0", Options(chain=1))


def check_flushes_of_others() -> None:
    """A flush by all processors is over for what any task stored before it began, where the log says when it did."""
    reachable = "segment 0/no 25 Reachable 1"
    check_verdict("one that began behind the store", UNMAPPED + BEGUN + OTHERS + RELEASED, "segments 1")
    check_verdict("one that began before it", BEGUN + UNMAPPED + OTHERS + RELEASED, reachable)
    check_verdict("one that isn't over", UNMAPPED + BEGUN + RELEASED + OTHERS, reachable)
    check_verdict("one of other addresses", UNMAPPED + BEGUN + OTHERS.replace("5000 6000", "6000 7000") + RELEASED, reachable)
    check_verdict("one by some processors alone", UNMAPPED + BEGUN.replace(" 1\n", " 0\n") + OTHERS + RELEASED, reachable)
    check_verdict("one that began as another did, which is over", UNMAPPED + BEGUN + OTHERS.replace("5000 6000", "6000 7000") + OTHERS
                  + RELEASED, reachable)
    check_verdict("one that begins anew behind the store", BEGUN + UNMAPPED + BEGUN + OTHERS + RELEASED, "segments 1")
    check_verdict("one of an address space that isn't this, and one by some processors", UNMAPPED + BEGUN + BEGUN.replace(" 1\n", " 0\n")
                  + OTHERS + RELEASED, reachable)
    check_verdict("an access behind it", UNMAPPED + BEGUN + OTHERS + SEEN, "segment 0/no 24 Stale 2")
    large = f"@store 0 a0 1 {PC} 12 1 0 4000e7\n@store 0 a0 1 {PC} 12 1 4000e7 0\n" + BEGUN
    given = RELEASED.replace(" 9 1", " 400 1")
    part = OTHERS.replace("5000 6000", "200000 201000")
    check_verdict("one of a part of a large page", large + part + given, "segment 0/no 25 Reachable 3")
    check_verdict("one of all of it", large + OTHERS.replace("5000 6000", "200000 400000") + given, "segments 1")
    twice = UNMAPPED + f"@store 0 a0 1 {PC} 13 5 0 8067\n" + BEGUN + f"@store 0 a0 1 {PC} 13 5 8067 0\n" + OTHERS
    check_verdict("of two unmaps the first is over", twice + RELEASED, "segments 1")
    check_verdict("and the second isn't", twice + RELEASED.replace(" 9 1", " 8 1"), "segment 0/no 25 Reachable 5")
    found = converted(UNMAPPED + BEGUN + OTHERS)
    check("who flushed is said", "\tflushed by another task on processor 0\t" in found.calls().splitlines()[0], found.calls())


def returned(number: int, length: int = 4096, third: int = 0, result: int = 0, fourth: int = 0) -> str:
    """A call of another task that begins here and returns."""
    words = f"{0x5000:x} {length:x} {third:x}"
    return f"@entered 0 b0 {number} {words} {fourth:x}\n@returned 0 b0 {number} {words} {result:x} {fourth:x}\n"


def check_returns_of_others() -> None:
    """A call that says that nothing is left of a range says so of what others have taken away there, if they did before it began."""
    stale, failed, moved = "segment 0/no 24 Stale 2", (1 << 64) - 12, 0x90000
    for name, call, is_over in (("munmap", returned(MUNMAP), True), ("munmap that failed", returned(MUNMAP, result=failed), False),
                                ("MADV_DONTNEED", returned(MADVISE, third=MADV_DONTNEED), True),
                                ("another advice", returned(MADVISE, third=8), False),
                                ("mprotect to nothing", returned(MPROTECT), True),
                                ("mprotect that allows what was there", returned(MPROTECT, third=7), False),
                                ("mprotect that allows less", returned(MPROTECT, third=1), True),
                                ("mremap to elsewhere", returned(MREMAP, third=4096, result=moved, fourth=3), True),
                                ("mremap that leaves the old place", returned(MREMAP, third=4096, result=moved, fourth=7), False),
                                ("mremap in its place", returned(MREMAP, third=8192, result=0x5000, fourth=1), False),
                                ("munmap of a part of it", returned(MUNMAP, 0), False)):
        check_verdict(f"an access behind another task's {name}", UNMAPPED + call + SEEN, stale if is_over else "segments 1")
    entered, left = returned(MUNMAP).splitlines(keepends=True)
    check_verdict("of a call that had begun", entered + UNMAPPED + left + SEEN, stale)
    again = f"@store 0 c0 1 {PC} 13 5 0 8067\n@store 0 c0 1 {PC} 13 5 8067 0\n"
    seen = SEEN.replace("9000", "8000")
    check_verdict("and of a page that was given since", UNMAPPED + FLUSHED + entered + again + left + seen, "segments 1")
    check_verdict("before it returns", UNMAPPED + entered + SEEN + left, "segments 1")
    found = converted(UNMAPPED + returned(MUNMAP))
    check("who says so is said", "\tpromised by the return of another task's system call\t" in found.calls(), found.calls())


def check_met() -> None:
    """How much a yes says something about."""
    summary = converted(UNMAPPED + SEEN + RELEASED + RELEASED.replace(" 9 1", " 8 1") + BEGUN + OTHERS).summary().splitlines()
    check("accesses and releases of before a flush are counted", summary[1] == "met: 1 accesses between a store and its flush, 0 updates "
          "that another task's flush ended, 1 releases while something wasn't flushed, 0 pages taken away that another processor had used",
          summary)
    summary = converted(SEEN + UNMAPPED + BEGUN + OTHERS).summary().splitlines()
    check("and flushes for another task, and pages that others had used", summary[1] == "met: 0 accesses between a store and its flush, "
          "1 updates that another task's flush ended, 0 releases while something wasn't flushed, 1 pages taken away that another processor "
          "had used", summary)
    second = UNMAPPED.replace(" 5 9067 0", " 6 0 8067") + SEEN.replace("5000 9000", "6000 8000") + UNMAPPED.replace(" 5 9067", " 6 8067")
    summary = converted(second, Options()).summary().splitlines()
    check("a trace has neither such accesses nor releases", summary[1] == "met: 0 updates that another task's flush ended, 1 pages taken away "
          "that another processor had used", summary)
    for name, log in (("nothing was taken away", SEEN), ("one processor alone had it", SEEN.replace("@access 2", "@access 0") + UNMAPPED)):
        summary = converted(log).summary().splitlines()
        check(f"where {name} a yes says little", summary[1].endswith(" 0 pages taken away that another processor had used: a yes says little"),
              summary)


def check_shown() -> None:
    """The release, and the page that still leads there."""
    chain = converted(f"@store 0 a0 1 {PC} 13 6 0 8067\n@store 0 a0 1 {PC} 13 6 8067 0\n" + RELEASED.replace(" 9 1", " 8 1"))
    sources = {name: words for name, *words in (row.split("\t") for row in chain.calls().splitlines())}
    segments = stale.split(chain.spell())
    lines = stale.shown_release(segments, 0, 3, sources)
    check("a release is shown, who made it, and the page that leads there", [line for line in lines if not line.startswith("  ")] == [
        "call 3, thread 1: release 4K 0x8000", "a page leads there: call 0, thread 8: map 0x6000 0x8000 wux",
        "taken away, and not answered before: call 2, thread 8: unmap 0x6000"] and lines[-1]
        == "  not flushed when its memory was given away" and lines[1] == f"  of task a0, at 0x{PC}", lines)
    chain = converted(f"@store 0 a0 1 {PC} 13 6 0 8067\n" + RELEASED.replace(" 9 1", " 8 1"))
    lines = stale.shown_release(stale.split(chain.spell()), 0, 2, {})
    check("and that nobody has taken it away", lines[-1] == "nobody has taken it away" and len(lines) == 3, lines)
    chain = converted(UNMAPPED + RELEASED)
    lines = stale.shown_release(stale.split(chain.spell()), 0, 1, {})
    check("of a page of the start, who takes it away", lines[1:] == ["taken away, and not answered before: call 0, thread 8: unmap 0x5000"],
          lines)


# ---- what is kept ----

# Logs of a sound kernel, and of bugs that no access meets; what is said of each as a chain with its releases, and without
LOGS = (("given", "segments 17", "segments 16"), ("planted-gather", "segment 1/no 25 Reachable 850", "segments 2"),
        ("planted-reclaim", "segment 1/no 25 Reachable 1865", "segments 3"),
        ("planted-reclaim-large", "segment 2/no 25 Reachable 2656", "segments 4"),
        ("planted-merge", "segment 0/no 25 Reachable 1313", "segments 1"),
        ("planted-migrate", "segment 8/no 25 Reachable 1359", "segments 9"),
        ("kvm-pair-given", "segments 3", "segments 3"), ("planted-kvm-notify", "segment 2/no 25 Reachable 1096", "segments 4"),
        ("driver", "segments 2", "segments 2"), ("driver-without-begins", "segment 0/no 25 Reachable 1168", "segments 2"))
TAKEN_BY = {"planted-gather": "unmap_page_range", "planted-reclaim": "try_to_unmap_one", "planted-reclaim-large": "try_to_unmap_one",
            "planted-merge": "ptep_clear_flush", "planted-migrate": "try_to_migrate_one",
            "planted-kvm-notify": "kvm_tdp_mmu_unmap_gfn_range"}


def check_kept() -> None:
    for name, verdict, without in LOGS:
        lines = convert.read_lines(f"{KEPT}/{name}.log.xz")
        for what, releases, expected in (("with", True, verdict), ("without", False, without)):
            chain = convert.convert(lines, Options(chain=1000, releases=releases))
            said = judged(chain.spell())
            check(f"{name} {what} releases is judged {expected}", said == (expected, expected), said)
            if releases and name in TAKEN_BY:
                segment, call = (int(word) for word in re.findall("[0-9]+", verdict)[::2])
                sources = {each: words for each, *words in (row.split("\t") for row in chain.calls().splitlines())}
                shown = stale.shown_release(chain.segments[:segment + 1], segment, call, sources)
                check(f"{name}: who took the page away is shown", TAKEN_BY[name] in " ".join(shown), shown)


def check_begins() -> None:
    """A sound kernel's log in which one task flushes for another; and the same without the begins of flushes."""
    lines = convert.read_lines(f"{KEPT}/driver.log.xz")
    chain = convert.convert(lines, Options(chain=1000))
    check("what another task flushed is said", chain.calls().count("\tflushed by another task on processor ") == 15, chain.calls()[:300])
    without = convert.convert([line for line in lines if not line.startswith("@flushing ")], Options(chain=1000)).spell()
    check("without the begins it is a no", judged(without) == ("segment 0/no 25 Reachable 1409",) * 2, judged(without))


FLUSHES = 6


def check_flushes() -> None:
    """Most flushes that are dropped from a sound log are seen where memory is freed."""
    results = slips.draw_flushes(convert.read_lines(f"{KEPT}/given.log.xz"), FLUSHES, 1)
    unseen = [results[f"{what} releases"][slips.NOTHING] for what in ("with", "without")]
    check("flushes that are dropped are seen", unseen[0] < unseen[1], results)


# ---- the kernel ----

def check_functions() -> None:
    """The functions that free frames are found under the names that the compiler made of them."""
    names = ["free_unref_page_list", "free_pcp_prepare.isra.0", "free_unref_page_commit", "__free_pages_ok", "free_pages"]
    kernel = Kernel("6.1.0-test", "", [], [(0xFFFFFFFF81000000 + 16 * k, name) for k, name in enumerate(names)], None)
    check("functions that free frames", kernel.releasers() == ["__free_pages_ok", "free_pcp_prepare.isra.0", "free_unref_page_list"],
          kernel.releasers())
    try:
        said = str(Kernel("6.1.0-test", "", [], kernel.symbols[1:], None).releasers())
    except Missing as why:
        said = str(why)
    check("a kernel without them is named", "6.1.0-test, has no symbol free_unref_page_list or free_unref_folios" in said, said)


def check_flushers() -> None:
    """Of a process the plugin sees the kernel's own flushes, of nested tables those that KVM makes."""
    names = ["pgd_alloc", "__per_cpu_offset", "cpu_tlbstate", "current_task", "flush_tlb_info", "do_syscall_64", "_stext", "_etext",
             "free_unref_page_list", "svm_load_mmu_pgd", *FLUSHERS, *BATCH_FLUSHERS, *NESTED_FLUSHERS, "the end"]
    kernel = Kernel("6", "", [], [((1 << 63) + 16 * k, name) for k, name in enumerate(names)], made_types())
    with mock.patch.object(Kernel, "offset", lambda *_: 0), mock.patch.object(Kernel, "check_fixed"):
        for what, settings, kind, flushers in (("a process", kernel.settings(), "flusher", FLUSHERS),
                                               ("a process, by some processors", kernel.settings(), "batch", BATCH_FLUSHERS),
                                               ("nested tables", kernel.nested_settings(), "flusher", NESTED_FLUSHERS),
                                               ("nested tables, by some processors", kernel.nested_settings(), "batch", ())):
            found = [each.partition("=")[2].partition("-")[0] for each in settings if each.startswith(f"{kind}=")]
            check(f"the flushes of {what}", tuple(kernel.place(int(begin, 16))[0] for begin in found) == flushers, found)


class Memory:
    """A stub that has the code of one function."""

    def __init__(self, begin: int, code: bytes) -> None:
        self.begin, self.code = begin, bytearray(code)

    def read(self, address: int, length: int) -> bytes:
        return bytes(self.code[address - self.begin:address - self.begin + length])

    def write(self, address: int, code: bytes) -> None:
        self.code[address - self.begin:address - self.begin + len(code)] = code


def call_of(at: int, target: int) -> bytes:
    return bytes([plants.CALL]) + (target - at - 5).to_bytes(4, "little", signed=True)


def check_silenced() -> None:
    """Of two calls of a function the one that comes before another function's is left out."""
    begin, first, second = 0xFFFFFFFF81000000, 0xFFFFFFFF81002000, 0xFFFFFFFF81003000
    code = call_of(begin, first) + bytes(100) + call_of(begin + 105, first) + bytes(3) + call_of(begin + 113, second)
    kernel = Kernel("6", "", [], [(begin, "outer"), (begin + len(code), "behind"), (first, "first"), (second, "second")], None)
    for name, before, places in (("all", "", [0, 105]), ("one", "second", [105])):
        memory = Memory(begin, code)
        Silenced("outer", "first", before).plant(kernel, memory)
        found = [at for at in range(0, len(code) - 4) if memory.code[at:at + 5] == plants.NOTHING]
        check(f"{name} of a function's calls are left out", found == places, found)
    try:
        Silenced("outer", "second", "first").plant(kernel, Memory(begin, code))
        said = "nothing"
    except Missing as why:
        said = str(why)
    check("a call that isn't there is named", "outer of this kernel, 6, doesn't call second before first" in said, said)
