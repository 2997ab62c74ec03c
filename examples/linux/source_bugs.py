"""Bugs of history.py in Linux's source, each where the variable nrvs_bug has its number: what build_kernel changes, and bugs for `table` and
`run` (--plants) in a kernel that it has built. No code is overwritten for them."""
from dataclasses import dataclass, replace

from history import HISTORY, SOUND
from kernel_image import Kernel
from stub import Stub

VARIABLE = "nrvs_bug"
# Those that need no module of the kernel; the number of each is its place here
NAMES = ("CVE-2018-18281", "97113eb39fa7", "CVE-2021-4002", "912efa17e512", "8f1d56f64f8d", "large-folios", "99baac21e458", "3ea277194daa",
         "a835429cda91")
NUMBERS = {name: number for number, name in enumerate(NAMES, 1)}


def unless(name: str) -> str:
    return f"{VARIABLE} != {NUMBERS[name]}"


# File, text, and what it becomes
CHANGES = (
    ("include/linux/mm_types.h", "#include <linux/mm_types_task.h>\n", f"#include <linux/mm_types_task.h>\n\nextern int {VARIABLE};\n"),
    ("mm/memory.c", "EXPORT_SYMBOL(unmap_mapping_range);\n",
     f"EXPORT_SYMBOL(unmap_mapping_range);\n\nint {VARIABLE};\nEXPORT_SYMBOL({VARIABLE});\n"),
    ("mm/mremap.c", "	if (force_flush)\n		flush_tlb_range(",
     f"	if (force_flush && {unless('CVE-2018-18281')})\n		flush_tlb_range("),
    ("mm/mremap.c", "	mmu_notifier_invalidate_range_end(&range);\n\n	return len + old_addr - old_end;",
     f"	if ({VARIABLE} == {NUMBERS['CVE-2018-18281']})\n		flush_tlb_range(vma, old_end - len, old_addr);\n"
     "	mmu_notifier_invalidate_range_end(&range);\n\n	return len + old_addr - old_end;"),
    ("mm/mremap.c", "old_pud, new_pud, true))", f"old_pud, new_pud, {unless('97113eb39fa7')} || need_rmap_locks))"),
    ("mm/mremap.c", "old_pmd, new_pmd, true))", f"old_pmd, new_pmd, {unless('97113eb39fa7')} || need_rmap_locks))"),
    ("mm/hugetlb.c", "	tlb_unshare_pmd_ptdesc(tlb, virt_to_page(ptep), addr);\n",
     f"	if ({unless('CVE-2021-4002')})\n		tlb_unshare_pmd_ptdesc(tlb, virt_to_page(ptep), addr);\n"
     "	else\n		atomic_dec(&virt_to_page(ptep)->pt_share_count);\n"),
    ("fs/proc/task_mmu.c", "			flush_tlb_mm(mm);\n			dec_tlb_flush_pending(mm);\n",
     f"			if ({unless('912efa17e512')})\n				flush_tlb_mm(mm);\n			dec_tlb_flush_pending(mm);\n"),
    ("arch/x86/mm/tlb.c", "	if (unlikely(f->new_tlb_gen != TLB_GENERATION_INVALID &&\n",
     f"	if (unlikely(!(f->new_tlb_gen == TLB_GENERATION_INVALID && {unless('8f1d56f64f8d')}) &&\n"),
    ("mm/vmscan.c", "			try_to_unmap_flush();\n			destroy_large_folio(folio);\n",
     f"			if ({unless('large-folios')})\n				try_to_unmap_flush();\n			destroy_large_folio(folio);\n"),
    ("mm/mmu_gather.c", "	if (mm_tlb_flush_nested(tlb->mm)) {\n", f"	if (mm_tlb_flush_nested(tlb->mm) && {unless('99baac21e458')}) {{\n"),
    ("mm/rmap.c", "	if (pending != flushed) {\n", f"	if (pending != flushed && {unless('3ea277194daa')}) {{\n"),
    ("arch/x86/kvm/mmu/tdp_mmu.c", "		if (flush)\n			kvm_flush_remote_tlbs(kvm);\n\n		rcu_read_unlock();\n",
     f"		if (flush && {unless('a835429cda91')})\n			kvm_flush_remote_tlbs(kvm);\n\n		rcu_read_unlock();\n"),
)
OPTIONS = """64BIT SMP NR_CPUS=8 PRINTK TTY SERIAL_8250 SERIAL_8250_CONSOLE BLK_DEV_INITRD BINFMT_ELF BINFMT_SCRIPT PROC_FS PROC_SYSCTL
 PROC_PAGE_MONITOR SYSFS DEVTMPFS TMPFS SHMEM HUGETLBFS HUGETLB_PAGE TRANSPARENT_HUGEPAGE TRANSPARENT_HUGEPAGE_ALWAYS KSM COMPACTION
 MIGRATION SWAP BLOCK BLK_DEV BLK_DEV_RAM BLK_DEV_RAM_SIZE=65536 FUTEX EPOLL EVENTFD SIGNALFD TIMERFD AIO ADVISE_SYSCALLS MEMBARRIER RSEQ
 USERFAULTFD MEM_SOFT_DIRTY MULTIUSER POSIX_TIMERS FILE_LOCKING KALLSYMS KALLSYMS_ALL ACPI CGROUPS MEMCG HIGH_RES_TIMERS NO_HZ_IDLE HZ_250
 DEBUG_KERNEL DEBUG_INFO_DWARF4 DEBUG_INFO_BTF BPF_SYSCALL UNIX NET SYSVIPC X86_LOCAL_APIC HYPERVISOR_GUEST PARAVIRT SLUB
 CC_OPTIMIZE_FOR_PERFORMANCE PREEMPT_VOLUNTARY DEVMEM MAGIC_SYSRQ CHECKPOINT_RESTORE VIRTUALIZATION KVM KVM_AMD MODULES KERNEL_GZIP"""
WITHOUT = """X86_5LEVEL STACKPROTECTOR WERROR KVM_WERROR RELOCATABLE RANDOMIZE_BASE IA32_EMULATION PCI VT INPUT SERIO HID UNIX98_PTYS WIRELESS
 NETWORK_FILESYSTEMS ETHTOOL_NETLINK ACPI_AC ACPI_BATTERY ACPI_BUTTON ACPI_FAN ACPI_THERMAL ACPI_TABLE_UPGRADE
 RD_GZIP RD_BZIP2 RD_LZMA RD_XZ RD_LZO RD_LZ4 RD_ZSTD MQ_IOSCHED_DEADLINE MQ_IOSCHED_KYBER PERF_EVENTS_INTEL_UNCORE PERF_EVENTS_INTEL_RAPL
 PERF_EVENTS_INTEL_CSTATE DEBUG_INFO_BTF_MODULES"""


@dataclass(frozen=True)
class Number:
    """The variable has this number."""
    number: int

    def plant(self, kernel: Kernel, stub: Stub) -> None:
        stub.write(kernel.address(VARIABLE), self.number.to_bytes(4, "little"))


# Reclaim's flush is soon followed by one of the call that asked for it: processors rest where that begins
RESTING = {"8f1d56f64f8d": {"rest": 3, "rest_at": "flushes"}}
PLANTS = {f"source-{name}{ending}": replace(HISTORY[name], code=code, is_seen=bool(code), modules=(), series="", **RESTING.get(name, {}))
          for name, number in NUMBERS.items() for ending, code in ((SOUND, ()), ("", (Number(number),)))}
