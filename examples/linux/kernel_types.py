"""Where members of the kernel's structures are, and what its enumerators are: by BTF, or by gdb out of DWARF."""
import re
import shutil
import struct
from collections.abc import Iterator

from debian import Missing, said
from elf_file import Elf

MAGIC = 0xEB9F
# By kind of a type of BTF: bytes behind its first twelve, for itself and for each of what it lists.
LENGTHS = {1: (4, 0), 2: (0, 0), 3: (12, 0), 4: (0, 12), 5: (0, 12), 6: (0, 8), 7: (0, 0), 8: (0, 0), 9: (0, 0), 10: (0, 0), 11: (0, 0),
           12: (0, 0), 13: (0, 8), 14: (4, 0), 15: (0, 12), 16: (0, 0), 17: (4, 0), 18: (0, 0), 19: (0, 12)}
STRUCT, UNION, ENUM, ENUM64 = 4, 5, 6, 19
ALIASES = (8, 9, 10, 11, 18)        # typedef, volatile, const, restrict, a tag
HAS_BITS = 1 << 31                  # the members' offsets have the widths of bit fields above their 24 bits


class Btf:
    """Types in the form that Linux has for them (BTF): the section .BTF."""

    def __init__(self, data: bytes) -> None:
        magic, _, _, length, types, size, texts, _ = struct.unpack_from("<HBBIIIII", data)
        if magic != MAGIC:
            raise Missing("the section .BTF isn't BTF")
        self.data, self.texts = data, length + texts
        self.places = [0]           # by number of a type: where it is
        self.structures: dict[str, int] = {}
        self.enums: dict[str, int] = {}
        at, end = length + types, length + types + size
        while at < end:
            name, info, _ = struct.unpack_from("<III", data, at)
            kind, count = info >> 24 & 31, info & 0xFFFF
            if kind not in LENGTHS:
                raise Missing(f"a type of BTF of the unknown kind {kind}")
            if kind in (STRUCT, UNION) and name:
                self.structures.setdefault(self.text(name), len(self.places))
            if kind == ENUM and name:
                self.enums.setdefault(self.text(name), len(self.places))
            self.places.append(at)
            alone, each = LENGTHS[kind]
            at += 12 + alone + each * count

    def text(self, at: int) -> str:
        begin = self.texts + at
        return self.data[begin:self.data.index(b"\0", begin)].decode()

    def plain(self, number: int) -> int:
        """The type that others are another name of."""
        while number and struct.unpack_from("<I", self.data, self.places[number] + 4)[0] >> 24 & 31 in ALIASES:
            number, = struct.unpack_from("<I", self.data, self.places[number] + 8)
        return number

    def members(self, number: int, above: int = 0) -> Iterator[tuple[str, int]]:
        """Names and offsets in bytes, those of members without a name too."""
        at = self.places[number]
        _, info, _ = struct.unpack_from("<III", self.data, at)
        if info >> 24 & 31 not in (STRUCT, UNION):
            return
        for each in range(info & 0xFFFF):
            name, kind, offset = struct.unpack_from("<III", self.data, at + 12 + 12 * each)
            place = above + (offset & 0xFFFFFF if info & HAS_BITS else offset) // 8
            if name:
                yield self.text(name), place
            else:
                yield from self.members(self.plain(kind), place)

    def offset(self, structure: str, member: str) -> int | None:
        return dict(self.members(self.structures[structure])).get(member) if structure in self.structures else None

    def size(self, structure: str) -> int | None:
        if structure not in self.structures:
            return None
        return struct.unpack_from("<I", self.data, self.places[self.structures[structure]] + 8)[0]

    def enumerator(self, enum: str, name: str) -> int | None:
        if enum not in self.enums:
            return None
        at = self.places[self.enums[enum]]
        count = struct.unpack_from("<I", self.data, at + 4)[0] & 0xFFFF
        rows = (struct.unpack_from("<II", self.data, at + 12 + 8 * each) for each in range(count))
        return next((value for text, value in rows if self.text(text) == name), None)


class Dwarf:
    """The same by gdb, out of debugging symbols."""

    def __init__(self, path: str) -> None:
        if not shutil.which("gdb"):
            raise Missing(f"{path} has no .BTF, and no gdb is there that reads its DWARF; apt-get install --no-install-recommends gdb")
        self.path = path

    def value(self, expression: str) -> int | None:
        try:
            answer = said("gdb", "-batch", "-nx", "-iex", "set auto-load no", "-ex", f"print/d {expression}", self.path)
        except Missing:             # newer ones end so where there is no such thing
            return None
        found = re.search(r"^\$1 = (-?\d+)$", answer, re.M)
        return int(found.group(1)) if found else None

    def offset(self, structure: str, member: str) -> int | None:
        return self.value(f"(unsigned long) &((struct {structure} *) 0)->{member}")

    def size(self, structure: str) -> int | None:
        return self.value(f"sizeof(struct {structure})")

    def enumerator(self, enum: str, name: str) -> int | None:
        return self.value(f"(unsigned) (enum {enum}) {name}")


Types = Btf | Dwarf


def of_file(path: str) -> Types:
    """The types of a kernel's ELF file; Missing where it says nothing of them."""
    elf = Elf(path)
    if (data := elf.bytes_of(".BTF")) is not None:
        return Btf(data)
    if elf.has(".debug_info"):
        return Dwarf(path)
    raise Missing(f"{path} has neither .BTF nor .debug_info: configure CONFIG_DEBUG_INFO_BTF (with pahole) or CONFIG_DEBUG_INFO_DWARF5")
