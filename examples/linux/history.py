"""Bugs that Linux was shipped with, put back into the guest's kernel by overwriting its code: what HISTORY.md prints."""
from dataclasses import dataclass, replace

from plants import RETURN, FlushedLate, Patched, Plant, Replaced, Silenced, Unlocked

SOUND = "-sound"
MEMORY = "memory"           # who wrote the row knew it; no text of Debian's says it
UNSHARE = "__huge_pmd_unshare.constprop.0.isra.0"
GROUPS = "$b mkdir -p /tmp/groups\n$b mount -t cgroup2 none /tmp/groups\n"
# A part of the guest's memory as a device (DAX), whose file a process maps by large pages
DEVICE_MODULES = tuple(f"drivers/{each}" for each in ("nvdimm/libnvdimm", "dax/dax_pmem", "dax/device_dax", "nvdimm/nd_e820"))
DEVICE_MEMORY = " memmap=16M!256M"
DEVICE = """d=/sys/bus/nd/devices/dax0.0
echo 6e727673-0000-4000-8000-000000000001 >$d/uuid
echo ram >$d/mode
echo namespace0.0 >$d/namespace
echo dax0.0 >/sys/bus/nd/drivers/dax_pmem/bind
"""
SWAP = "$b mkswap /dev/ram0 >/dev/null\n$b swapon /dev/ram0\n"


@dataclass(frozen=True, kw_only=True)
class Shipped(Plant):
    """A bug that was in Linux until this year."""
    fix: str            # the commit or the CVE, beside the name
    year: int
    back: str           # how it is put back
    met: str            # what the process does
    series: str = "6.1."    # of the kernels whose code is overwritten: how their versions begin
    known: str          # where the name is from: the version of Debian's package whose changelog names the fix, or MEMORY


def changed(function: str, before: str, after: str, any_at: tuple[int, ...] = ()) -> Patched:
    return Patched(function, bytes.fromhex(before), bytes.fromhex(after), any_at)


HISTORY: dict[str, Plant] = {
    "CVE-2018-18281": Shipped(
        "mremap dropped the lock of a table before it flushed the pages that it had moved",
        (Silenced("move_page_tables", "flush_tlb_mm_range"), FlushedLate("move_vma", "move_page_tables")), "truncated", 12, 3, rest=2,
        rest_at="flushes", is_given=True, fix="eb66ae030829", year=2018, known=MEMORY,
        back="move_page_tables doesn't flush; move_vma flushes when it has returned",
        met="a file's pages move while another thread truncates it"),
    "97113eb39fa7": Shipped(
        "mremap moved whole tables without the locks by which others look for a page's maps",
        (Silenced("move_page_tables", "down_write"), Silenced("move_page_tables", "up_write")), "truncated-tables", 12, 3, rest=2,
        rest_at="flushes", is_given=True, fix="mm/mremap: hold the rmap lock in write mode when moving page table entries", year=2021,
        known=MEMORY, back="move_page_tables takes no such lock", met="a file's tables move while another thread truncates it"),
    "CVE-2021-4002": Shipped(
        "a shared table of large pages (hugetlbfs) was unlinked and not flushed",
        (changed(UNSHARE, "41804c242010", "660f1f440000", (5,)),    # which bits of mmu_gather these are
         changed(UNSHARE, "83c808418844242183c8044188442421", "0f1f8400000000000f1f840000000000", (2, 10))), "shared-tables", 3,
        fix="hugetlbfs: flush TLBs correctly after huge_pmd_unshare", year=2021, known="5.15.5-1",
        back="__huge_pmd_unshare notes nothing to be flushed", met="one of two mappings that share a table is unmapped"),
    "large-moved": Shipped(
        "mremap of large pages (hugetlbfs) put them beyond the new mapping, where the first ones had no table",
        (changed("move_hugetlb_page_tables", "4c01e3488b4424104d01e64801eb4901ee4839c3", "4c01e34c0b7424084801eb4901ee483b5c241090"),),
        "moved-large", 3, fix="mm/hugetlb: preserve mremap address delta when skipping page tables", year=2026, known="6.1.192-1",
        back="where a table isn't there, move_hugetlb_page_tables goes on with the next one at both places",
        met="two large pages move, the first of which isn't there"),
    "CVE-2022-39188": Shipped(
        "munmap of a driver's pages (VM_PFNMAP) left the file's list of maps before it flushed",
        (changed("unmap_page_range", "48f7462000040010", "48f7462000000000"),), "driver", 12, 3, rest=2, rest_at="flushes", is_given=True,
        modules=("driver_memory",), fix="b67fbebd4cf9", year=2022, known=MEMORY,
        back="unmap_page_range doesn't look for VM_PFNMAP and VM_MIXEDMAP",
        met="a thread unmaps a driver's pages while another has the driver take them back"),
    "as-CVE-2024-0582": Shipped(
        "a driver (io_uring then) freed pages that a process still had mapped",
        (Replaced("unmap_mapping_range", RETURN),), "driver-frees", 3, is_given=True, modules=("driver_memory",),
        fix="c392cbecd8ec", year=2024, known=MEMORY, back="unmap_mapping_range returns, and the driver frees the pages",
        met="a driver takes back pages that a process has mapped"),
    "9eab0421fa94": Shipped(
        "a driver's pages at an offset above 2^63 were looked for elsewhere, not found, and freed while they were mapped",
        (changed("unmap_mapping_range", "48c1eb0c", "48c1fb0c"),), "driver-frees-high", 3, is_given=True, modules=("driver_memory",),
        fix="mm: fix unmap_mapping_range high bits shift bug", year=2023, known="6.1.76-1",
        back="one bit: the shift of the offset keeps its sign", met="a driver takes back pages that are mapped at such an offset"),
    "912efa17e512": Shipped(
        "what /proc/PID/clear_refs made read-only wasn't flushed: pages were written, and not noted as written",
        (Silenced("clear_refs_write", "flush_tlb_mm_range"),), "soft-dirty", 5,
        fix="mm: proc: Invalidate TLB after clearing soft-dirty page state", year=2021, known="5.10.24-1",
        back="clear_refs_write doesn't flush", met="a process clears its pages' soft-dirty bits and writes them again"),
    "8f1d56f64f8d": Shipped(
        "a processor that reclaim asked to flush took the request for one that it had met already",
        (changed("flush_tlb_func", "4885c975c7", "4885c9ebc7"),), "read-by-others", 5, 3,
        fix="x86/mm/tlb: Ignore f->new_tlb_gen when zero", year=2022, known=MEMORY,
        back="flush_tlb_func compares the generation of a request that has none",
        met="reclaim frees pages that two other processors read"),
    "large-folios": Shipped(
        "reclaim freed a large page before it made the flush that it had put off",
        (Silenced("shrink_folio_list", "try_to_unmap_flush", "destroy_large_folio"),), "lazy-large", 5, 3, 50, is_given=True,
        fix="mm/vmscan: flush deferred TLB before freeing large folios", year=2026, known="6.1.180-1",
        back="shrink_folio_list doesn't make that flush before it", met="reclaim frees a large page while others use the address space"),
    "99baac21e458": Shipped(
        "of two threads that drop the same pages the second found nothing to flush, and returned before the first had flushed",
        (changed("tlb_finish_mmu", "83f8017e1f", "83f801eb1f"),), "dropped-twice", 1, 3, rest=1, rest_at="flushes",
        fix="mm: fix MADV_[FREE|DONTNEED] TLB flush miss problem", year=2017, known=MEMORY,
        back="tlb_finish_mmu doesn't ask whether another one is under way", met="two threads drop the same pages, and one uses them again"),
    "3ea277194daa": Shipped(
        "mprotect changed pages whose flush reclaim had put off, and didn't flush them",
        (Replaced("flush_tlb_batched_pending", RETURN),), "reclaimed-by-another", 3, 3, rest=1, rest_at="others",
        modules=("drivers/block/brd",), setup=GROUPS + SWAP, year=2017, known=MEMORY,
        fix="mm, mprotect: flush TLB if potentially racing with a parallel reclaim leaving stale TLB entries", back="flush_tlb_batched_pending returns",
        met="another process reclaims the pages of one that makes them read-only"),
    "CVE-2020-10757": Shipped(
        "mremap took a large page of a device's memory (DAX) for a table, whose words a process then wrote",
        (changed("move_page_tables", "4885f00f8501040000", "4885f0660f1f440000"),), "moved-device", 1, modules=DEVICE_MODULES,
        setup=DEVICE, options=DEVICE_MEMORY, fix="mm: Fix mremap not considering huge pmd devmap", year=2020, known="5.6.14-2",
        back="move_page_tables doesn't look for such a page", met="a process moves such a page, and writes it by another mapping of it"),
    "CVE-2024-47674": Shipped(
        "remap_pfn_range failed in the middle and left pages mapped, which the driver then freed",
        (Silenced("remap_pfn_range", "zap_page_range_single"),), "driver-fails", 3, is_given=True, modules=("driver_memory",),
        fix="mm: avoid leaving partial pfn mappings around in error case", year=2024, known="6.1.112-1",
        back="remap_pfn_range doesn't take away what it has mapped when it fails",
        met="a driver maps pages, gets no memory for their second table, and frees them"),
    "a3589e1d5fe3": Shipped(
        "a driver that moved pages dropped their table's lock before it flushed them, and munmap meanwhile found nothing to flush",
        (Unlocked("migrate_vma_collect_pmd", "flush_tlb_mm_range"),), "driver-moves", 20, 3, rest=1, rest_at="flushes",
        modules=("driver_memory",), fix="mm/migrate_device.c: flush TLB while holding PTL", year=2022, known=MEMORY,
        back="migrate_vma_collect_pmd flushes without that lock", met="a driver moves pages while another thread drops and reads them"),
    "a835429cda91": Shipped(
        "KVM took a range away, yielded to another task, forgot the flush that it owed, and the pages were freed",
        (Silenced("tdp_mmu_zap_leafs", "kvm_flush_remote_tlbs"),), "", 20, 2, nested="sparse", is_given=True,
        fix="KVM: x86/mmu: Ensure TLBs are flushed when yielding during GFN range zap", year=2021, known="5.10.38-1",
        back="tdp_mmu_zap_leafs doesn't flush before it yields",
        met="a monitor takes away a range of which its machine has written few pages, while another process wakes on its processor"),
    "as-3a0f64de479c": Shipped(
        "KVM took a range away, yielded to another task, went on behind the page at which it had stopped, and that was freed",
        (changed("tdp_iter_next", "807f61000f85d9000000", "c6476100660f1f440000"),), "", 3, 2, nested="dense", is_given=True,
        fix="KVM: x86/mmu: Don't advance iterator after restart due to yielding", year=2021, known="5.15.15-1",
        back="tdp_iter_next goes on after KVM has yielded, and doesn't begin again at that page",
        met="a monitor takes away a range that its machine has written, while another process wakes on its processor"),
    "CVE-2024-50066": Shipped(
        "mremap moved a table that was freed meanwhile, since a file's small pages became a large one: frame 0 was linked as a table",
        (changed("move_page_tables", "f7c6810100000f8496020000", "f7c681010000660f1f440000"),), "collapsed", 8, 3, rest=1, rest_at="tables",
        is_given=True, fix="mm/mremap: fix move_normal_pmd/retract_page_tables race", year=2024, known="6.11.5-1", series="6.12.",
        back="move_normal_pmd doesn't look whether the entry is still there",
        met="a thread moves a file's tables while another has the kernel make a large page of its small ones"),
}


def with_twins() -> dict[str, Plant]:
    """Each bug behind the same process without it."""
    both: dict[str, Plant] = {}
    for name, plant in HISTORY.items():
        both[name + SOUND] = replace(plant, code=(), is_seen=False)
        both[name] = plant
    return both
