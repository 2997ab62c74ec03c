#!/usr/bin/env python3
"""All that a process's page tables map, the kernel's half too, as nrvs finds it and as the guest's kernel dumps it.

    kernel_dump.py                  boots the guest, has its kernel dump the tables, and compares; leaves out/kernel-half.dump and .trace
    kernel_dump.py DUMP TRACE       compares what was kept; a file that ends with .xz is unpacked

The tables are read from the guest's memory, when its kernel has dumped them, and become a trace without calls. The status is 0 where both
agree. Beside the packages that README.md names, Debian's linux-headers of this kernel are needed, for a module (module/).
"""
import lzma
import os
import re
import subprocess
import sys
from collections.abc import Iterable
from typing import NamedTuple

sys.dont_write_bytecode = True
TOP = os.path.dirname(os.path.dirname(os.path.dirname(os.path.abspath(__file__))))
sys.path.insert(1, f"{TOP}/recorders")
import explain
import from_memory
import machine
import mappings
from debian import Missing

NAME = "kernel-half"
GUEST = machine.Guest("/bin/workload dump 1 5 threads cow kinds", maps=True)
LINE = re.compile(r"0x([0-9a-f]{16})-0x([0-9a-f]{16}) +\d+[KMGT] (.*(?:RW|ro) .*) (pte|pmd|pud)$")        # of what is mapped
BYTES = {"pte": 1 << 12, "pmd": 1 << 21, "pud": 1 << 30}
HALF = 1 << 63
EVERYTHING = 1 << 64
DIRECT = 0xFFFF888000000000, 0xFFFFC88000000000         # where the kernel maps all memory, and
TEXT = 0xFFFFFFFF80000000, 0xFFFFFFFFC0000000           # .. its own code and data, as its documentation says


class Part(NamedTuple):
    """Addresses that are mapped alike, by pages of this size that follow one another."""
    begin: int
    end: int
    bytes: int
    rights: str

    def __str__(self) -> str:
        return f"{self.begin:#x} to {self.end:#x}, pages of {self.bytes} bytes, {self.rights}"


def joined(parts: Iterable[Part]) -> list[Part]:
    found: list[Part] = []
    for part in parts:
        if found and found[-1].end == part.begin and found[-1][2:] == part[2:]:
            found[-1] = found[-1]._replace(end=part.end)
        else:
            found.append(part)
    return found


def parts_of_dump(lines: Iterable[str]) -> list[Part]:
    """What the kernel says is mapped, when it says so last."""
    parts: list[Part] = []
    for line in lines:
        if line == "dumped":
            parts = []
        if found := LINE.match(line.rstrip()):
            begin, end, said, level = found.groups()
            words = said.split()
            rights = "".join(letter if word in words else "-" for letter, word in (("w", "RW"), ("u", "USR"), ("x", "x")))
            parts.append(Part(int(begin, 16), int(end, 16) or EVERYTHING, BYTES[level], rights))
    return joined(parts)


def parts_of_pages(text: str) -> list[Part]:
    """What `nrvs pages --ranges` prints, without the physical addresses."""
    rows = (line.split() for line in text.splitlines())
    return joined(Part(int(begin, 16), int(end, 16), mappings.BYTES[size], rights) for begin, end, size, _, rights in rows)


def mapped_from(address: int) -> int | None:
    """The address at which the kernel maps physical address 0, in its map of all memory and in that of its own code and data."""
    if DIRECT[0] <= address < DIRECT[1]:
        return DIRECT[0]
    return TEXT[0] if TEXT[0] <= address < TEXT[1] else None


def misplaced(text: str) -> list[str]:
    """Ranges of these maps that have other physical addresses than they have to have."""
    found = []
    for line in text.splitlines():
        begin, _, _, physical, _ = line.split()
        address, base = int(begin, 16), mapped_from(int(begin, 16))
        if base is not None and int(physical, 16) != address - base:
            found.append(f"{line}: its physical address should be {address - base:#x}")
    return found


def differences(dumped: list[Part], text: str) -> list[str]:
    """Where what the kernel's dump has mapped and the ranges of `nrvs pages --ranges` differ; none where they agree."""
    listed = parts_of_pages(text)
    found = [f"in the kernel's dump alone: {part}" for part in sorted(set(dumped) - set(listed))]
    return found + [f"in the pages alone: {part}" for part in sorted(set(listed) - set(dumped))] + misplaced(text)


def compare(lines: list[str], text: str) -> list[str]:
    """The same, and of the process's half what /proc says of it."""
    stops = mappings.parse(lines)
    user = "".join(line + "\n" for line in text.splitlines() if int(line.split()[0], 16) < HALF)
    found = mappings.compare(stops[0], user) if len(stops) == 1 else [f"the kernel was asked {len(stops)} times"]
    return differences(parts_of_dump(lines), text) + found


def read(path: str) -> list[str]:
    with lzma.open(path, "rt") if path.endswith(".xz") else open(path) as lines:
        return lines.read().splitlines()


def shown(dump: str, trace: str) -> list[str]:
    lines, text = read(dump), mappings.ranges(trace)
    found = compare(lines, text)
    halves = [sum(int(line.split()[0], 16) // HALF == half for line in text.splitlines()) for half in (0, 1)]
    print(f"nrvs pages: {halves[0]} ranges of the process and {halves[1]} of the kernel, {len(parts_of_dump(lines))} parts that are mapped "
          f"alike; {'the kernel says otherwise' if found else 'as the kernel says'}")
    return found


def spelled(path: str, root: int) -> bytes:
    """The trace of the tables in an image of memory."""
    frames, missing = from_memory.gather(from_memory.Image(path, []), root, 4)
    if missing or root not in frames:
        raise Missing(f"{len(missing)} tables lie outside of memory")
    return b"".join(from_memory.trace(frames, root, 4))


def record() -> tuple[str, str]:
    """Boots the guest, and leaves its kernel's dump and the trace."""
    kernel = machine.kernel()
    machine.compile_parts()
    initrd = machine.pack(NAME, GUEST.command, [f"{machine.OUT}/{machine.WORKLOAD}", machine.module_file(kernel, "page_tables")])
    paths = {ending: f"{machine.OUT}/{NAME}.{ending}" for ending in ("memory", "serial", "dump", "trace")}
    for path in paths.values():
        machine.remove(path)
    words = machine.plain_command(kernel.image, initrd) + ["-m", f"{GUEST.memory}M", "-cpu", machine.PROCESSOR + ",la57=off"]
    words += ["-object", f"memory-backend-file,id=memory,size={GUEST.memory}M,mem-path={paths['memory']},share=on"]
    words += ["-machine", "pc,memory-backend=memory", "-device", "isa-debug-exit,iobase=0xf4,iosize=1"]
    words += ["-append", machine.COMMAND_LINE, "-serial", f"file:{paths['serial']}", "-serial", f"file:{paths['dump']}"]
    try:
        subprocess.run(words, timeout=machine.LIMIT)
    except subprocess.TimeoutExpired:
        pass
    root = re.search("^root ([0-9a-f]+)$", machine.text_of(paths["dump"]), re.M)
    if not root:
        raise Missing(f"the kernel didn't dump its tables; the guest said: {machine.text_of(paths['serial'])[-300:]}")
    with open(paths["trace"], "wb") as file:
        file.write(spelled(paths["memory"], int(root.group(1), 16)))
    machine.remove(paths["memory"])
    machine.remove(initrd)
    return paths["dump"], paths["trace"]


def main() -> int:
    if len(sys.argv) not in (1, 3):
        print(__doc__, file=sys.stderr)
        return 2
    try:
        explain.check_program()
        found = shown(*(sys.argv[1:] or record()))
    except Missing as why:
        print(f"kernel_dump.py: {why}", file=sys.stderr)
        return 2
    print("\n".join(found), end="\n" if found else "")
    return int(found != [])


if __name__ == "__main__":
    sys.exit(main())
