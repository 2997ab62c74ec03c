"""A kernel, Debian's or one's own, and where in it the things are that the plugin has to know."""
import bisect
import functools
import glob
import hashlib
import os
import re
import shutil
import struct
import subprocess
from collections.abc import Iterable
from dataclasses import dataclass

import debian
import kernel_types
from debian import Missing, said
from elf_file import Elf, NoElf
from kernel_types import Types

SERIES = "linux-image-cloud-amd64"          # a package that depends on the newest kernel
NAME = r"linux-image-6\.(?:1\.0-|12\.)[^ \n]*cloud-amd64"
MODULES = ("virt/lib/irqbypass", "arch/x86/kvm/kvm", "arch/x86/kvm/kvm-amd")
COMPRESSED = ((b"\x02\x21\x4c\x18", "lz4"), (b"\xfd7zXZ\0", "xz"), (b"\x28\xb5\x2f\xfd", "zstd"), (b"\x1f\x8b\x08", "gzip"),
              (b"BZh", "bzip2"))
COMMAND_LINE = "nokaslr no_timer_check norandmaps mitigations=off panic=-1 quiet console=ttyS0"
PACKAGES = {"qemu-system-x86_64": "qemu-system-x86", "busybox": "busybox-static", "cpio": "cpio", "gcc": "gcc", "apt-get": "apt",
            "dpkg-deb": "dpkg", "xz": "xz-utils", "lz4": "lz4"}
CONFIGURED = ("X86_64", "BLK_DEV_INITRD", "BINFMT_ELF", "BINFMT_SCRIPT", "PROC_FS", "SYSFS", "DEVTMPFS", "TMPFS", "SERIAL_8250_CONSOLE")
BANNER = re.compile(rb"Linux version [0-9][^\n\0]*#[^\n\0]*")
FLUSHERS = ("flush_tlb_mm_range",)
BATCH_FLUSHERS = ("arch_tlbbatch_flush",)       # by the processors alone on which reclaim found the pages
NESTED_FLUSHERS = ("kvm_flush_remote_tlbs",)    # KVM's other flushes of nested tables end with a call of it, without Hyper-V
# Those that free frames: each stores to the flags of the frame's struct page. Which of them there are is the compiler's choice, but for
# LISTED, which other files call.
RELEASERS = ("free_unref_page", "free_unref_page_list", "free_unref_folios", "free_unref_page_prepare", "free_pcp_prepare",
             "free_pages_prepare", "__free_pages_ok")
LISTED = ("free_unref_page_list", "free_unref_folios")
# Where the plugin looks for members; what differs between kernels it gets to know.
FIXED = {"pt_regs": {"r10": 0x38, "ax": 0x50, "dx": 0x60, "si": 0x68, "di": 0x70, "orig_ax": 0x78},
         "flush_tlb_info": {"mm": 0, "start": 8, "end": 16}}


def qemu() -> str:
    """The program, which QEMU=FILE names, or that of the system."""
    return os.environ.get("QEMU", "qemu-system-x86_64")


def check_commands(names: Iterable[str] = PACKAGES) -> None:
    lacking = [name for name in names if not shutil.which(qemu() if name.startswith("qemu") else name)]
    if lacking:
        packages = " ".join(PACKAGES[name] for name in lacking)
        raise Missing(f"not installed: {', '.join(lacking)}; apt-get install --no-install-recommends {packages}")


def plugin_version() -> int:
    """Of QEMU's interface for plugins: each QEMU knows some."""
    text = said(qemu(), "--version").partition("version ")[2]
    found = re.match(r"(\d+)\.(\d+)", text)
    version = (int(found.group(1)), int(found.group(2))) if found else (0, 0)
    if not (7, 2) <= version < (11, 0):
        raise Missing(f"this is QEMU {text.split()[0] if text else 'of no version'}; the plugin was tried with 7.2 and 10.0")
    return 1 if version < (9, 0) else 2 if version == (9, 0) else 3


def fetch(folder: str) -> str:
    """The folder of Debian's newest kernel, downloaded where it isn't there yet."""
    if not os.path.isdir(f"{folder}/kernel"):
        names = re.findall(NAME, debian.depends(SERIES))
        if not names:
            raise Missing(f"{SERIES} of apt isn't Linux 6.1, that of Debian 12, or 6.12; --kernel FILE names another")
        debian.unpack(names[:1], f"{folder}/kernel")
    return f"{folder}/kernel"


def unpack(image: str, path: str) -> None:
    """The kernel as an ELF file out of its compressed image."""
    data = open(image, "rb").read()
    for magic, tool in COMPRESSED:
        at = data.find(magic)
        while at >= 0 and shutil.which(tool):
            found = subprocess.run([tool, "-dc"], input=data[at:], stdout=subprocess.PIPE, stderr=subprocess.DEVNULL).stdout
            if found[:4] == b"\x7fELF":
                with open(f"{path}.part", "wb") as file:
                    file.write(found)
                os.rename(f"{path}.part", path)
                return
            at = data.find(magic, at + 1)
    tools = [tool for magic, tool in COMPRESSED if magic in data and not shutil.which(tool)]
    raise Missing(f"no kernel in {image} that {', '.join(tool for _, tool in COMPRESSED if tool not in tools)} unpacks"
                  + (f"; not installed: {', '.join(tools)}" if tools else ""))


def version_of(image: str) -> str:
    """What the head of a bzImage says."""
    with open(image, "rb") as file:
        data = file.read(1 << 16)
    if data[0x202:0x206] != b"HdrS":
        raise Missing(f"{image} is no bzImage of x86")
    at = struct.unpack_from("<H", data, 0x20E)[0] + 0x200
    return data[at:data.index(b"\0", at)].decode().split()[0]


def parse_symbols(lines: str) -> list[tuple[int, str]]:
    """The kernel's symbols, and its modules' behind them, out of what /proc/kallsyms says."""
    rows = (line.split() for line in lines.splitlines())
    return [(int(row[0], 16), row[2]) for row in rows]


def check_config(path: str) -> None:
    """A kernel's configuration: what it lacks is named."""
    options = set(re.findall(r"^CONFIG_(\w+)=y$", open(path).read(), re.M))
    lacking = [f"CONFIG_{name}" for name in CONFIGURED if name not in options]
    if lacking:
        raise Missing(f"{path} lacks {', '.join(lacking)}, without which the guest doesn't come up")


@dataclass(frozen=True)
class Kernel:
    version: str
    image: str
    modules: list[str]
    symbols: list[tuple[int, str]]
    types: Types

    @functools.cached_property
    def by_name(self) -> dict[str, int]:
        """Of a name that is there twice, the first address."""
        return {name: address for address, name in reversed(self.symbols)}

    def address(self, name: str) -> int:
        if name not in self.by_name:
            raise Missing(f"this kernel, {self.version}, has no symbol {name}; the recorder knows Linux 6.1 to 6.12")
        return self.by_name[name]

    @functools.cached_property
    def sorted_text(self) -> tuple[list[int], list[str]]:
        """Addresses of the kernel's half, rising, each with one name."""
        pairs = dict(sorted(((address, name) for address, name in self.symbols if address >> 63), reverse=True))
        pairs = dict(reversed(pairs.items()))
        return list(pairs), list(pairs.values())

    def end(self, name: str) -> int:
        """Where the next symbol begins."""
        addresses, _ = self.sorted_text
        return addresses[bisect.bisect_right(addresses, self.address(name))]

    def place(self, pc: int) -> tuple[str, int]:
        """The symbol before an address, and the address's offset from there."""
        addresses, names = self.sorted_text
        at = bisect.bisect_right(addresses, pc) - 1
        return (names[at], pc - addresses[at]) if at >= 0 else ("", pc)

    def releasers(self) -> list[str]:
        """The symbols of those that free frames, of parts that the compiler made of them too."""
        if not any(name in self.by_name for name in LISTED):
            raise Missing(f"this kernel, {self.version}, has no symbol {' or '.join(LISTED)}; the recorder knows Linux 6.1 to 6.12")
        return sorted(name for name in self.by_name if name.partition(".")[0] in RELEASERS)

    def offset(self, structure: str, member: str) -> int:
        found = self.types.offset(structure, member)
        if found is None:
            raise Missing(f"the types of this kernel, {self.version}, have no member {member} of struct {structure}")
        return found

    def current(self) -> int:
        """Where a processor has its current task."""
        if "pcpu_hot" in self.by_name:
            return self.address("pcpu_hot") + self.offset("pcpu_hot", "current_task")
        return self.address("current_task")

    def kind_of_tables(self) -> tuple[int, int]:
        """What of a struct page's kind is what where the frame is a page table: from 6.12 on the top byte is a number, before a bit is
        cleared."""
        number, bit = (self.types.enumerator("pagetype", name) for name in ("PGTY_table", "PG_table"))
        if number is not None:
            return 0xFF000000, number << 24
        return (0x80000000 | bit, 0x80000000) if bit is not None else (0xF0000200, 0xF0000000)

    def check_fixed(self) -> None:
        for structure, members in FIXED.items():
            for member, place in members.items():
                if self.offset(structure, member) != place:
                    raise Missing(f"struct {structure} of this kernel, {self.version}, has {member} at {self.offset(structure, member)}; "
                                  f"the recorder knows it at {place}")

    def settings(self, flushers: Iterable[str] = FLUSHERS, batches: Iterable[str] = BATCH_FLUSHERS) -> list[str]:
        """What the plugin has to know, as name=value."""
        self.check_fixed()
        mask, kind = self.kind_of_tables()
        numbers = {"birth": self.address("pgd_alloc"), "pgd": self.offset("mm_struct", "pgd"), "percpu": self.address("__per_cpu_offset"),
                   "loaded": self.address("cpu_tlbstate") + self.offset("tlb_state", "loaded_mm"), "current": self.current(),
                   "flushing": self.address("flush_tlb_info"), "entry": self.address("do_syscall_64"),
                   "entry_end": self.end("do_syscall_64"), "text": self.address("_stext"), "text_end": self.address("_etext"),
                   "page_bytes": self.types.size("page") or 64, "page_flags": self.offset("page", "flags"),
                   "page_type": self.offset("page", "page_type"), "table_mask": mask, "table_kind": kind}
        functions = [("flusher", name) for name in flushers] + [("batch", name) for name in batches]
        functions += [("releaser", name) for name in self.releasers()]
        ranges = [f"{kind}={self.address(name):#x}-{self.end(name):#x}" for kind, name in functions]
        return [f"{name}={value:#x}" for name, value in numbers.items()] + ranges

    def nested_settings(self) -> list[str]:
        """The same where nested tables are watched, which KVM loads and flushes."""
        name = "svm_load_mmu_pgd"
        return [f"nested={self.address(name):#x}", f"nested_end={self.end(name):#x}", *self.settings(NESTED_FLUSHERS, ())]


@dataclass(frozen=True)
class Files:
    """Of a kernel that isn't booted yet."""
    version: str
    name: str           # of what is made of it: no other kernel has it
    image: str
    elf: str            # with its types
    symbols: list[tuple[int, str]]      # none: it has to say them itself
    modules: list[str]


def modules_of(image: str, version: str, names: Iterable[str] = MODULES) -> list[str]:
    """KVM's or others, where the package of the image has all of them."""
    folder = f"{os.path.dirname(os.path.dirname(os.path.abspath(image)))}/lib/modules/{version}/kernel"
    found = [glob.glob(f"{folder}/{each}.ko") + glob.glob(f"{folder}/{each}.ko.xz") for each in names]
    return [each[0] for each in found] if all(found) else []


def banner(path: str) -> bytes:
    found = BANNER.search(Elf(path).data)
    return found.group() if found else b""


def files_of(image: str, vmlinux: str, folder: str) -> Files:
    """A kernel's files: what isn't in `vmlinux`, or where none is given, comes from the image."""
    version = version_of(image)
    with open(image, "rb") as file:
        name = f"{version}-{hashlib.file_digest(file, 'sha256').hexdigest()[:12]}"
    unpacked = f"{folder}/vmlinux-{name}"
    if not os.path.exists(unpacked):
        unpack(image, unpacked)
    try:
        if vmlinux and banner(vmlinux) != banner(unpacked):
            raise Missing(f"{vmlinux} is another kernel than {image}: {banner(vmlinux).decode()!r} and {banner(unpacked).decode()!r}")
        has_types = vmlinux and (Elf(vmlinux).has(".BTF") or Elf(vmlinux).has(".debug_info"))
        symbols = Elf(vmlinux or unpacked).symbols()
    except (NoElf, OSError) as why:
        raise Missing(str(why)) from None
    if vmlinux and not symbols:
        raise Missing(f"{vmlinux} is stripped: the vmlinux that the kernel's build leaves has symbols")
    return Files(version, name, image, vmlinux if has_types else unpacked, symbols, modules_of(image, version))


def debian_files(folder: str) -> Files:
    package = fetch(folder)
    images = sorted(glob.glob(f"{package}/boot/vmlinuz-*"))
    if not images:
        raise Missing(f"{package} has no kernel: remove it, and it is downloaded again")
    return files_of(images[-1], "", folder)


def kernel_of(files: Files, symbols: list[tuple[int, str]]) -> Kernel:
    return Kernel(files.version, files.image, files.modules, symbols, kernel_types.of_file(files.elf))
