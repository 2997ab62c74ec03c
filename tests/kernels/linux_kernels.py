"""Tests of what examples/linux has to know of a kernel, for tests/linux: symbols, types, configurations, and what is missing."""
import lzma
import os
import shutil
import socket
import struct
import sys
import tempfile
import threading
from collections.abc import Callable
from unittest import mock

sys.dont_write_bytecode = True
import kernel_image
import kernel_types
import machine
from counting import check, skip
from debian import Missing, said
from elf_file import Elf, NoElf
from kernel_image import Kernel
from kernel_types import Btf
from stub import Stub


def missing(call: Callable[[], object]) -> str:
    """What a call says is missing."""
    try:
        call()
    except (Missing, NoElf) as why:
        return str(why)
    return "nothing"


# ---- types ----

STRUCT, UNION, ENUM, CONST = 4, 5, 6, 10


def btf(types: list[tuple[str, int, int, list[tuple[int, ...]]]], texts: dict[str, int], blob: bytes) -> bytes:
    """Types of BTF: each a name, a kind, a size or another type, and what it lists."""
    body = b""
    for name, kind, size, rows in types:
        body += struct.pack("<III", texts[name], kind << 24 | len(rows), size)
        body += b"".join(struct.pack(f"<{len(row)}I", *row) for row in rows)
    return struct.pack("<HBBIIIII", 0xEB9F, 1, 0, 24, 0, len(body), len(body), len(blob)) + body + blob


def strings(*names: str) -> tuple[dict[str, int], bytes]:
    texts, blob = {"": 0}, b"\0"
    for name in names:
        texts[name] = len(blob)
        blob += name.encode() + b"\0"
    return texts, blob


def made_types(enumerators: tuple[tuple[str, int], ...] = (("PGTY_table", 0xF2),)) -> Btf:
    """struct page of 64 bytes with a union without a name at 48, in which page_type is behind a const and another member; and an enum."""
    texts, blob = strings("page", "page_type", "flags", "other", "pagetype", *(name for name, _ in enumerators))
    union = [(texts["other"], 0, 0), (texts["page_type"], 0, 32)]
    return Btf(btf([("page", STRUCT, 64, [(texts["flags"], 0, 0), (0, 3, 48 * 8)]), ("", UNION, 8, union), ("", CONST, 2, []),
                    ("pagetype", ENUM, 4, [(texts[name], value) for name, value in enumerators])], texts, blob))


def check_types() -> None:
    types = made_types()
    check("members are found, in a union without a name too", [types.offset("page", name) for name in ("flags", "other", "page_type")]
          == [0, 48, 52])
    check("what isn't there isn't found", [types.offset("page", "none"), types.offset("none", "flags"), types.size("none"),
                                           types.enumerator("pagetype", "none"), types.enumerator("none", "PGTY_table")] == [None] * 5)
    check("sizes and enumerators are found", types.size("page") == 64 and types.enumerator("pagetype", "PGTY_table") == 0xF2)
    check("what is no BTF is refused", "isn't BTF" in missing(lambda: Btf(bytes(64))))
    for what, enumerators, kind in (("from 6.12 on", (("PGTY_buddy", 0xF0), ("PGTY_table", 0xF2)), (0xFF000000, 0xF2000000)),
                                    ("of 6.11", (("PG_buddy", 1 << 30), ("PG_table", 1 << 28)), (0x90000000, 0x80000000)),
                                    ("before", (), (0xF0000200, 0xF0000000))):
        kernel = Kernel("6", "image", [], [], made_types(enumerators))
        check(f"the kind of a page table {what}", kernel.kind_of_tables() == kind, kernel.kind_of_tables())


SOURCE = """struct page { long flags; union { int page_type; }; };
enum pagetype { PG_table = 7 };
struct page first; enum pagetype second = PG_table;
"""


def check_elf() -> None:
    with tempfile.TemporaryDirectory() as folder:
        check("what is no ELF file is said to be none", "is no ELF file" in missing(lambda: Elf(__file__)))
        if not shutil.which("gcc"):
            skip("symbols of a file that is compiled: no gcc")
            return
        with open(f"{folder}/a.c", "w") as file:
            file.write(SOURCE)
        said("gcc", "-g", "-c", "-o", f"{folder}/a.o", f"{folder}/a.c")
        names = {name for _, name in Elf(f"{folder}/a.o").symbols()}
        check("the symbols of a compiled file are found", {"first", "second"} <= names, names)
        if shutil.which("gdb"):
            types = kernel_types.of_file(f"{folder}/a.o")
            found = [types.offset("page", "page_type"), types.size("page"), types.offset("page", "no"),
                     types.enumerator("pagetype", "PG_table")]
            check("gdb finds members, sizes and enumerators", found == [8, 16, None, 7], found)
        else:
            check("that gdb is missing is said", "no gdb" in missing(lambda: kernel_types.of_file(f"{folder}/a.o")))
        said("gcc", "-c", "-o", f"{folder}/a.o", f"{folder}/a.c")
        check("that there are no types is said", "neither .BTF nor .debug_info" in missing(lambda: kernel_types.of_file(f"{folder}/a.o")))


# ---- what is missing ----

def check_missing() -> None:
    with tempfile.TemporaryDirectory() as folder:
        with open(f"{folder}/config", "w") as file:
            file.write("".join(f"CONFIG_{name}=y\n" for name in kernel_image.CONFIGURED if name != "TMPFS") + "# CONFIG_TMPFS is not set\n")
        found = missing(lambda: kernel_image.check_config(f"{folder}/config"))
        check("what a configuration lacks is named", "lacks CONFIG_TMPFS," in found, found)
        with open(f"{folder}/image", "wb") as file:
            file.write(bytes(1 << 16))
        check("what is no kernel's image is named", "no bzImage" in missing(lambda: kernel_image.files_of(f"{folder}/image", "", folder)))
        with open(f"{folder}/image", "wb") as file:
            file.write(bytes(0x202) + b"HdrS" + bytes(8) + struct.pack("<H", 0x100) + bytes(0xF0) + b"6.1.0-test (x) #1\0" + bytes(0x200))
        check("the version of an image is read", kernel_image.version_of(f"{folder}/image") == "6.1.0-test")
        found = missing(lambda: kernel_image.files_of(f"{folder}/image", "", folder))
        check("an image that nothing unpacks is named", "no kernel in" in found, found)
    kernel = Kernel("6.1.0-test", "image", [], [(0xFFFFFFFF81000000, "pgd_alloc")], made_types())
    check("a symbol that is missing is named", "has no symbol arch_tlb" in missing(lambda: kernel.address("arch_tlbbatch_flush")))
    check("and a member", "no member pgd of struct mm_struct" in missing(lambda: kernel.offset("mm_struct", "pgd")))
    check("and structures that the plugin doesn't know", "no member r10 of struct pt_regs" in missing(kernel.settings))
    for text, version in (("QEMU emulator version 7.2.22 (Debian)", 1), ("QEMU emulator version 8.2.1", 1),
                          ("QEMU emulator version 9.0.4", 2), ("QEMU emulator version 9.1.0", 3), ("QEMU emulator version 10.0.2 (x)", 3)):
        with mock.patch.object(kernel_image, "said", lambda *_, text=text: text):
            check(f"the plugin's interface of {text}", kernel_image.plugin_version() == version)
    for text in ("QEMU emulator version 6.2.0", "nothing"):
        with mock.patch.object(kernel_image, "said", lambda *_, text=text: text):
            check(f"of {text} it is said", "this is QEMU" in missing(kernel_image.plugin_version))


def check_symbols() -> None:
    """A guest that ends before it has said all symbols leaves none behind."""
    files = kernel_image.Files("6.1.0-test", "6.1.0-test-0", "image", "elf", [], [])
    whole = "ffffffff81000000 T first\nffffffff81000010 t second\n"
    with tempfile.TemporaryDirectory() as folder, mock.patch.object(machine, "OUT", folder), \
            mock.patch.object(machine, "pack", lambda *_: f"{folder}/initrd"):
        for what, text, is_whole in (("a part of its symbols", whole[:40], False), ("nothing", "", False),
                                     ("all of them", whole + machine.SYMBOLS_END + "\r\n", True)):
            def boot(*words: str, text: str = text) -> str:
                with open(words[-1].removeprefix("file:"), "w") as file:
                    file.write(text)
                return ""

            with mock.patch.object(machine, "said", boot):
                found = missing(lambda: machine.told_symbols(files))
            kept = os.path.exists(f"{folder}/symbols-{files.name}")
            check(f"of a guest that says {what} they are kept: {is_whole}", kept == is_whole and (found == "nothing") == is_whole, found)
        check("and read again", kernel_image.parse_symbols(machine.told_symbols(files))
              == [(0xFFFFFFFF81000000, "first"), (0xFFFFFFFF81000010, "second")])


def check_packed() -> None:
    with tempfile.TemporaryDirectory() as folder:
        with lzma.open(f"{folder}/kvm.ko.xz", "wb") as file:
            file.write(b"a module")
        os.mkdir(f"{folder}/bin")
        machine.put(f"{folder}/kvm.ko.xz", f"{folder}/bin")
        check("a packed module is unpacked for the guest", open(f"{folder}/bin/kvm.ko", "rb").read() == b"a module")
    check("and inserted by its name", machine.insert(["/a/kvm.ko.xz", "/b/other.ko"]) 
          == "$b insmod /bin/kvm.ko\n$b sleep 1\n$b insmod /bin/other.ko\n$b sleep 1\n")


# ---- the debugger's stub ----

class FakeQemu(threading.Thread):
    """Speaks as QEMU does: at the connection the guest stops, and QEMU says so twice; what comes behind its last answer stops it again."""

    def __init__(self, path: str) -> None:
        super().__init__(daemon=True)
        self.listening = socket.socket(socket.AF_UNIX)
        self.listening.bind(path)
        self.listening.listen()
        self.is_stopped_again = False

    def run(self) -> None:
        line, _ = self.listening.accept()
        line.sendall(b"$T02thread:01;#00$T05thread:01;#00")
        received = b""
        while b"$D#44" not in received:
            received += line.recv(100)
        line.sendall(b"$OK#9a")
        self.is_stopped_again = line.recv(100) != b""


def check_stub() -> None:
    with tempfile.TemporaryDirectory() as folder:
        qemu = FakeQemu(f"{folder}/line")
        qemu.start()
        Stub(f"{folder}/line").leave()
        qemu.join(10)
        check("a stub that reads nothing lets the guest go on", not qemu.is_alive() and not qemu.is_stopped_again)
