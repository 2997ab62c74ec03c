"""Bugs that are planted in the guest's kernel: calls or functions of its code that are overwritten while it runs."""
import re
import runpy
from dataclasses import dataclass

from debian import Missing
from kernel_image import Kernel
from stub import Stub

RETURN = bytes.fromhex("c3")                    # ret
RETURN_NOTHING = bytes.fromhex("31c0c3")        # xor %eax, %eax; ret
RETURN_WRITABLE = bytes.fromhex("48b82700000000000080c3")   # movabs $0x8000000000000027, %rax: present, written, of users; ret
# What a page of such a mapping allows, but that it may be executed: 0x120 for none, 0x27 where it is shared and writable, and else 0x25
RETURN_EXECUTABLE = bytes.fromhex("40f6c7077506b820010000c3" "b82500000089f983e10a83f90a750383c802c3")
NOTHING = bytes.fromhex("0f1f440000")           # a nop as long as a call
BRANCH_TARGET = bytes.fromhex("f30f1efa")       # endbr64
# lea -0x1000(%rcx), %rax; cmp %rdx, %rax; cmova %rax, %rcx; ret: the fourth argument is a page less where it stays above the third
PAGE_SHORT = bytes.fromhex("488d8100f0ffff4839d0480f47c8c3")
CALL = 0xE8
AT_ONCE = 16    # bytes of code
MOST_ADDED = 48
# Where processors may rest: at stores that take something away, where the flush of such stores begins, at stores to tables of tables, and
# where a processor begins such a flush that has another address space loaded
REST_PLACES = {"stores": 1, "flushes": 2, "tables": 4, "others": 8}
RESTS = "stores,flushes"


@dataclass(frozen=True)
class Replaced:
    """The function begins with other code."""
    function: str
    code: bytes

    def plant(self, kernel: Kernel, stub: Stub) -> None:
        stub.write(kernel.address(self.function), self.code)


def room(kernel: Kernel, function: str, length: int) -> int:
    """Where so many bytes of code may be put: in place of a function that nobody calls here."""
    place = kernel.address(function)
    if kernel.end(function) - place < length:
        raise Missing(f"{function} of this kernel, {kernel.version}, has no room for {length} bytes")
    return place


@dataclass(frozen=True)
class Detoured:
    """The function begins with a call of other code, which is put where a function was that nobody calls here. The kernel leaves five bytes
    at the begin of a function for such a call (CONFIG_DYNAMIC_FTRACE)."""
    function: str
    code: bytes
    place: str = "orderly_reboot"

    def plant(self, kernel: Kernel, stub: Stub) -> None:
        begin = kernel.address(self.function)
        at = stub.read(begin, 16).find(NOTHING)
        if at not in (0, len(BRANCH_TARGET)):
            raise Missing(f"{self.function} of this kernel, {kernel.version}, has no room for a call at its begin")
        place = room(kernel, self.place, len(self.code))
        stub.write(place, self.code)
        stub.write(begin + at, call(begin + at, place))


@dataclass(frozen=True)
class Silenced:
    """The function doesn't make a call that it makes; all of these, or those behind which a call of another function comes at once."""
    function: str
    called: str
    before: str = ""

    def places(self, kernel: Kernel, code: bytes, called: str) -> list[int]:
        """Where such calls are in the function's code, as it runs: the kernel has changed some of it while it booted."""
        begin, target = kernel.address(self.function), kernel.address(called)
        found = []
        for at in range(len(code) - 4):
            distance = int.from_bytes(code[at + 1:at + 5], "little", signed=True)
            if code[at] == CALL and begin + at + 5 + distance == target:
                found.append(begin + at)
        return found

    def plant(self, kernel: Kernel, stub: Stub) -> None:
        begin = kernel.address(self.function)
        code = stub.read(begin, kernel.end(self.function) - begin)
        chosen = self.places(kernel, code, self.called)
        if self.before:
            others = self.places(kernel, code, self.before)
            chosen = [place for place in chosen if any(place < other < place + AT_ONCE for other in others)]
        if not chosen:
            behind = f" before {self.before}" if self.before else ""
            raise Missing(f"{self.function} of this kernel, {kernel.version}, doesn't call {self.called}{behind}")
        for place in chosen:
            stub.write(place, NOTHING)


@dataclass(frozen=True)
class Patched:
    """The function has other bytes at the one place where these are, some of which may be any."""
    function: str
    before: bytes
    after: bytes
    any_at: tuple[int, ...] = ()    # their places: they differ from kernel to kernel

    def plant(self, kernel: Kernel, stub: Stub) -> None:
        begin = kernel.address(self.function)
        code = stub.read(begin, kernel.end(self.function) - begin)
        pattern = b"".join(b"." if at in self.any_at else re.escape(self.before[at:at + 1]) for at in range(len(self.before)))
        places = [found.start() for found in re.finditer(pattern, code, re.DOTALL)]
        if len(places) != 1:
            raise Missing(f"{self.function} of this kernel, {kernel.version}, has {self.before.hex()} {len(places)} times: "
                          "another compiler made it, or its source is another")
        stub.write(begin + places[0], self.after)


@dataclass(frozen=True)
class FlushedLate:
    """The function makes a call as before, of six arguments at most, the first of which is a mapping; all of the address space is flushed
    when that has returned. The code for it is put where a function was that nobody calls here."""
    function: str
    called: str
    place: str = "poweroff_work_func"

    def plant(self, kernel: Kernel, stub: Stub) -> None:
        begin, place = kernel.address(self.function), room(kernel, self.place, MOST_ADDED)
        calls = Silenced(self.function, self.called).places(kernel, stub.read(begin, kernel.end(self.function) - begin), self.called)
        space = kernel.offset("vm_area_struct", "vm_mm")
        # push %rbx; mov %rdi, %rbx; call; push %rax; mov space(%rbx), %rdi; from 0 to the end, small pages, no freed tables: call; pop both
        code = bytes.fromhex("534889fb") + call(place + 4, kernel.address(self.called))
        code += bytes.fromhex(f"50488b7b{space:02x}31f648c7c2ffffffffb90c0000004531c0")
        code += call(place + len(code), kernel.address("flush_tlb_mm_range")) + bytes.fromhex("585bc3")
        if not calls:
            raise Missing(f"{self.function} of this kernel, {kernel.version}, doesn't call {self.called}")
        stub.write(place, code)
        for each in calls:
            stub.write(each, call(each, place))


@dataclass(frozen=True)
class Unlocked:
    """The function makes a call, of five arguments at most, without the lock that it holds, whose address is in %r12: it is taken again when
    that has returned. The code for it is put where a function was that nobody calls here."""
    function: str
    called: str
    place: str = "poweroff_work_func"

    def plant(self, kernel: Kernel, stub: Stub) -> None:
        begin, place = kernel.address(self.function), room(kernel, self.place, MOST_ADDED)
        calls = Silenced(self.function, self.called).places(kernel, stub.read(begin, kernel.end(self.function) - begin), self.called)
        # push all arguments; mov %r12, %rdi; call; pop all; call; mov %r12, %rdi; call; ret
        code = bytes.fromhex("57565251 4150 4c89e7")
        code += call(place + len(code), kernel.address("_raw_spin_unlock")) + bytes.fromhex("4158 595a5e5f")
        code += call(place + len(code), kernel.address(self.called)) + bytes.fromhex("4c89e7")
        code += call(place + len(code), kernel.address("_raw_spin_lock")) + RETURN
        if not calls:
            raise Missing(f"{self.function} of this kernel, {kernel.version}, doesn't call {self.called}")
        stub.write(place, code)
        for each in calls:
            stub.write(each, call(each, place))


def call(at: int, target: int) -> bytes:
    """A call of the function there, from this place."""
    return bytes([CALL]) + (target - (at + len(NOTHING))).to_bytes(4, "little", signed=True)


Code = Replaced | Detoured | Silenced | Patched | FlushedLate | Unlocked


@dataclass(frozen=True)
class Plant:
    """A bug, and the process that meets it."""
    what: str
    code: tuple[Code, ...]
    parts: str
    rounds: int = 5
    processors: int = 1         # with one, nothing but the kernel's own flushes comes between a store and what the process does next
    tick: int = 0
    nested: str = ""            # a monitor of KVM meets it: what this does
    child: bool = False         # a child of the process may meet it, and is watched too
    is_seen: bool = True        # by a processor, or where memory is freed: else the verdict is yes
    is_given: bool = False      # it is seen where memory is freed, so only in a chain
    rest: int = 0               # at each so many places processors rest, so that others meet what isn't flushed yet,
    rest_at: str = RESTS        # .. and which places these are
    modules: tuple[str, ...] = ()   # of the guest's kernel, as machine.module_file takes them
    setup: str = ""             # lines of init before it
    options: str = ""           # of the kernel's command line, with one before them

    def how(self) -> str:
        """As what guest/workload.c runs the process; with a child to its exit, since a bug that both meet may end it at any time."""
        return self.nested or ("die" if self.child else "live")


PLANTS = {
    "no-ipi": Plant("no other processor is asked to flush", (Replaced("native_flush_tlb_multi", RETURN),), "shootdown", 100, 3, 50),
    "no-flush-func": Plant("a processor that is asked to flush doesn't", (Replaced("flush_tlb_func", RETURN),), "shootdown", 50, 3, 50),
    "no-invlpg": Plant("the flush of one page does nothing", (Replaced("native_flush_tlb_one_user", RETURN),), "shootdown", 100, 3, 50),
    "mremap": Plant("mremap moves entries and doesn't flush", (Silenced("move_page_tables", "flush_tlb_mm_range"),), "moved"),
    "unmap": Plant("munmap, madvise and mprotect don't flush",
                   (Silenced("tlb_flush_mmu", "flush_tlb_mm_range"), Silenced("tlb_finish_mmu", "flush_tlb_mm_range")),
                   "threads shootdown", 20, 3, 50),
    "fork": Plant("fork doesn't flush: the parent still writes what it shares with its child",
                  (Silenced("dup_mmap", "flush_tlb_mm_range"),), "cow"),
    "cow": Plant("the copy of a page on a write isn't flushed", (Silenced("ptep_clear_flush", "flush_tlb_mm_range"),), "copied", 5, 3, 50),
    "split": Plant("a large page that is split isn't flushed", (Silenced("pmdp_invalidate", "flush_tlb_mm_range"),), "huge", 5, 3, 50,
                   is_seen=False),
    "collapse": Plant("pages that become a large one aren't flushed", (Silenced("pmdp_collapse_flush", "flush_tlb_mm_range"),), "huge"),
    "freed-table": Plant("a table is freed, and stays linked", (Silenced("free_pgd_range", "native_set_pmd"),), "emptied"),
    "no-protect": Plant("mprotect changes nothing", (Replaced("change_protection", RETURN_NOTHING),), "threads shootdown", 10, 3, 50),
    "page-short": Plant("mprotect changes a page less than it was asked to", (Detoured("change_protection", PAGE_SHORT),), "threads", 10),
    "all-rights": Plant("a page that is mapped may be written, whatever was asked",
                        (Replaced("vm_get_page_prot", RETURN_WRITABLE),), "threads"),
    "no-nx": Plant("a page that is mapped may be executed, whatever was asked",
                   (Replaced("vm_get_page_prot", RETURN_EXECUTABLE),), "emptied"),
    "kvm-flush": Plant("KVM doesn't flush what it made read-only", (Replaced("kvm_flush_remote_tlbs", RETURN),), "", 100, 2,
                       nested="logged"),
    "kvm-kick": Plant("KVM notes that its processors have to flush, and interrupts none",
                      (Silenced("kvm_make_all_cpus_request_except", "smp_call_function_many"),), "", 60, 3, nested="pair"),
    "kvm-notify": Plant("KVM takes pages away that its host frees, and doesn't flush",
                        (Silenced("kvm_mmu_notifier_invalidate_range_start", "kvm_flush_remote_tlbs"),), "", 30, 2, nested="monitor",
                        is_given=True),
    "gather": Plant("munmap and madvise free pages, and don't flush",
                    (Silenced("tlb_flush_mmu", "flush_tlb_mm_range"), Silenced("tlb_finish_mmu", "flush_tlb_mm_range")), "given",
                    is_given=True),
    "reclaim": Plant("reclaim frees pages, and doesn't make its flush for all of them",
                     (Silenced("shrink_folio_list", "try_to_unmap_flush"),), "lazy", 5, 3, 50, is_given=True),
    "reclaim-large": Plant("reclaim frees a large page before that flush",
                           (Silenced("shrink_folio_list", "try_to_unmap_flush", "destroy_large_folio"),), "lazy-large", 5, 3, 50,
                           is_given=True),
    "merge": Plant("KSM makes one page of many, and doesn't flush", (Silenced("ptep_clear_flush", "flush_tlb_mm_range"),), "equal",
                   is_given=True),
    "migrate": Plant("compaction moves a page, and doesn't flush", (Silenced("ptep_clear_flush", "flush_tlb_mm_range"),), "compacted",
                     is_given=True),
    "fork-write": Plant("fork leaves the pages that it shares writable for the parent",
                        (Patched("copy_page_range", bytes.fromhex("418027fd"), bytes.fromhex("418027ff")),), "cow"),
    "fork-write-child": Plant("fork leaves the pages that it shares writable for the child",
                              (Patched("copy_page_range", bytes.fromhex("418027fd4883e3fd"), bytes.fromhex("418027fd4883e3ff")),),
                              "child cow", child=True),
    "reuse": Plant("a write of a page that parent and child share doesn't copy it",
                   # above 0x51000000 alone, as the fourth byte of an address: else no process would go on
                   (Patched("do_wp_page", bytes.fromhex("488b5500f7c2000002000f85b4000000"),
                            bytes.fromhex("807b1b510f84ba000000660f1f440000")),),
                   "child cow", child=True),
    "zeros-write": Plant("the one page of zeros, which each process has, is mapped writable",
                         (Patched("__handle_mm_fault", bytes.fromhex("4981ce00020000"), bytes.fromhex("4981ce02020000")),), "zeros"),
    "no-unmap": Plant("munmap leaves the pages mapped", (Replaced("unmap_page_range", RETURN),), "threads", 5),
}


def rest_at(text: str) -> str:
    """Places where processors may rest, parted by commas, or none; ValueError where there is no such place."""
    if text and not all(each in REST_PLACES for each in text.split(",")):
        raise ValueError(f"there are {', '.join(REST_PLACES)}")
    return text


def joined(*tables: dict[str, Plant]) -> dict[str, Plant]:
    """All of them; Missing where two have one name."""
    names = [name for table in tables for name in table]
    twice = sorted({name for name in names if names.count(name) > 1})
    if twice:
        raise Missing(f"names of two bugs: {', '.join(twice)}")
    return {name: plant for table in tables for name, plant in table.items()}


def with_others(path: str, known: dict[str, Plant] = PLANTS) -> dict[str, Plant]:
    """These, and those of a file of Python that says PLANTS = {NAME: Plant(..), ..} likewise; an empty path names none."""
    others = {}
    if path:
        try:
            others = runpy.run_path(path).get("PLANTS")
        except Exception as why:            # whatever the file does
            raise Missing(f"{path}: {type(why).__name__}: {why}") from None
    if not isinstance(others, dict) or not all(isinstance(each, Plant) for each in others.values()):
        raise Missing(f"{path} doesn't say PLANTS = {{NAME: Plant(..), ..}}, as plants.py does")
    both = sorted(set(others) & set(known))
    if both:
        raise Missing(f"{path} has names that are taken: {', '.join(both)}")
    return {**known, **others}
