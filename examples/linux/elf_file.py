"""An ELF file of x86-64: its sections and its symbols."""
import mmap
import struct
from typing import NamedTuple

MAGIC = b"\x7fELF\x02\x01"      # of 64 bits, the least significant byte first
NO_BITS = 8                     # a section without bytes in the file
UNDEFINED = 0
NAMED = (0, 1, 2)               # kinds of symbols that have an address: no kind, objects, functions


class Section(NamedTuple):
    name: str
    kind: int
    address: int
    offset: int
    size: int
    link: int


class NoElf(Exception):
    """The file isn't one."""


class Elf:
    def __init__(self, path: str) -> None:
        with open(path, "rb") as file:
            if file.read(len(MAGIC)) != MAGIC:
                raise NoElf(f"{path} is no ELF file of 64 bits")
            self.data = mmap.mmap(file.fileno(), 0, prot=mmap.PROT_READ)
        offset, = struct.unpack_from("<Q", self.data, 0x28)
        size, count, names = struct.unpack_from("<HHH", self.data, 0x3A)
        rows = [struct.unpack_from("<IIQQQQI", self.data, offset + size * each) for each in range(count)]
        texts = rows[names][4] if count else 0
        self.sections = [Section(self.text(texts + name), kind, address, at, length, link)
                         for name, kind, _, address, at, length, link in rows]

    def text(self, at: int) -> str:
        return self.data[at:self.data.find(b"\0", at)].decode()

    def bytes_of(self, name: str) -> bytes | None:
        """A section's, or none where it isn't there."""
        found = [each for each in self.sections if each.name == name and each.kind != NO_BITS]
        return self.data[found[0].offset:found[0].offset + found[0].size] if found else None

    def has(self, name: str) -> bool:
        return any(each.name == name for each in self.sections)

    def symbols(self) -> list[tuple[int, str]]:
        """Addresses and names, none where the file is stripped."""
        found = []
        for table in (each for each in self.sections if each.name == ".symtab"):
            texts = self.sections[table.link].offset
            rows = struct.iter_unpack("<IBBHQQ", self.data[table.offset:table.offset + table.size])
            found += [(value, self.text(texts + name)) for name, info, _, section, value, _ in rows
                      if name and section != UNDEFINED and info & 15 in NAMED]
        return found
