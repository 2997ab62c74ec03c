"""Bugs that are planted in a guest's kernel, of which user space may see something: those of examples/linux, and some more."""
import plants
from plants import RETURN, Plant, Replaced, Silenced

# of examples/linux; a table that is freed while it is linked, and KVM's, aren't seen from here
NAMES = ("no-ipi", "no-flush-func", "no-invlpg", "mremap", "unmap", "fork", "cow", "split", "collapse", "no-protect", "page-short",
         "all-rights", "no-nx", "no-unmap")
MORE = {
    "no-flush-range": Plant("flush_tlb_mm_range does nothing", (Replaced("flush_tlb_mm_range", RETURN),), ""),
    "protect": Plant("mprotect doesn't flush", (Silenced("do_mprotect_pkey", "tlb_finish_mmu"),), ""),
    "reclaim": Plant("pages that are reclaimed aren't flushed", (Replaced("arch_tlbbatch_flush", RETURN),), ""),
}
PLANTS: dict[str, Plant] = {**{name: plants.PLANTS[name] for name in NAMES}, **MORE}
# What a run with a bug makes. A fork, or another process, is what such a kernel breaks, but for the bug of fork itself. What a bug is of
# comes more often where not all operations are made: a copy on write needs private pages that may be written, say.
OTHERS = "--without fork,process"
WRITTEN = "--without shared,execution,no-rights"
RIGHTS = "--pages 4 --only map-over,protect:8,store:2"
WORDS = {
    "no-flush-func": RIGHTS, "no-invlpg": RIGHTS, "protect": RIGHTS, "no-protect": RIGHTS, "no-nx": RIGHTS,
    "all-rights": RIGHTS, "no-unmap": "--pages 4 --only map,unmap",
    "page-short": "--pages 0 --only map-over,protect:8", "unmap": "--pages 4 --only map,unmap,discard,store",
    "mremap": f"{WRITTEN} --pages 8 --only map-over,store:2,move:4", "fork": f"{WRITTEN} --pages 4 --only map-over,store:8,fork:2",
    "cow": f"{WRITTEN} --pages 4 --only map-over,store:4,discard:4", "reclaim": f"{WRITTEN} --pages 32 --only map-over,store:16,reclaim:4",
    "collapse": f"{WRITTEN},private --pages 0 --only map-over,store:16,discard:4,collapse:4",
    "split": f"{WRITTEN},private --pages 0 --only map-over,store:16,discard:4,collapse:4 --seconds 20",
}
UNSEEN = ("split",)         # the frames are the same before and after: there is nothing to be seen
