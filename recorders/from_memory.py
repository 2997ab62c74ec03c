#!/usr/bin/env python3
"""Makes a trace without events out of an image of a machine's memory and a CR3: the page table as a dump.

    from_memory.py [--levels 4|5] [--part PHYS:LENGTH[:OFFSET]].. IMAGE CR3 >TRACE

IMAGE is a file of the machine's physical memory from address 0 on: what QEMU's monitor command `pmemsave 0 SIZE FILE` wrote, or
the file of `-object memory-backend-file`. The file may be more than one run from 0 on: QEMU's PC machines put what doesn't fit
below 3 or 3.5 GiB at 4 GiB. Then each --part says that LENGTH bytes at physical PHYS are in the file at OFFSET (else at PHYS).
CR3 is the register's value: its bits 51:12 are the root, the others (PCID, LAM, no flush) are left out. Numbers are
decimal, or hexadecimal after 0x. Five levels (CR4.LA57) make a trace of version 2.

The trace has no log and no events: it is for `nrvs resolve`. `nrvs audit` seeks faults 13 to 16 in the dump, and then says
`no 17 Differs` of any page table that maps something.

Nothing here is verified, and nothing depends on it. Python 3 alone.
"""
import argparse
import os
import struct
import sys

FRAME = 4096
MOST_FRAMES = 4096


class Unreadable(Exception):
    pass


class Image:
    """Physical memory, frame by frame."""

    def __init__(self, path, parts):
        self.file = open(path, "rb")
        size = os.fstat(self.file.fileno()).st_size
        self.parts = parts or [(0, size, 0)]
        for phys, length, offset in self.parts:
            if offset + length > size:
                raise Unreadable(f"the image ends before the part at {phys:#x} does")

    def words(self, number):
        """The 512 words of a frame, or None where the image doesn't have it."""
        start = number * FRAME
        for phys, length, offset in self.parts:
            if phys <= start and start + FRAME <= phys + length:
                self.file.seek(offset + start - phys)
                data = self.file.read(FRAME)
                if len(data) < FRAME:
                    raise Unreadable("the image was cut while it was read")
                return struct.unpack("<512Q", data)
        return None


def gather(image, root, levels):
    """The frames that are reached from the root, each once, and those that aren't in the image."""
    frames, missing = {}, []
    todo = [(root, levels)]
    while todo:
        number, level = todo.pop()
        if number in frames or number in missing:
            continue
        words = image.words(number)
        if words is None:
            missing.append(number)
            continue
        if len(frames) == MOST_FRAMES:
            raise Unreadable(f"more than {MOST_FRAMES} tables: a dump has no room for them")
        frames[number] = words
        if level > 1:
            # present, and not a page or an entry with a reserved bit 7; the first is gone to first, as the auditor does
            below = [word >> 12 & (1 << 40) - 1 for word in words if word & 0x81 == 1]
            todo += [(each, level - 1) for each in reversed(below)]
    return frames, missing


def trace(frames, root, levels):
    """The bytes of a trace with no log, no events and this dump."""
    yield b"NRVT" + struct.pack(">HBBHHII", 2 if levels == 5 else 1, levels, 1, 1, MOST_FRAMES, 0, 0)
    yield struct.pack(">IIQ", 0, len(frames), root)
    for number in sorted(frames):
        yield struct.pack(">Q512Q", number, *frames[number])


def number(text):
    value = int(text, 0)
    if not 0 <= value < 1 << 64:
        raise ValueError
    return value


def part(text):
    numbers = [number(each) for each in text.split(":")]
    if len(numbers) not in (2, 3) or numbers[0] % FRAME != 0:
        raise ValueError
    return tuple(numbers + numbers[:1] if len(numbers) == 2 else numbers)


def main():
    parser = argparse.ArgumentParser(usage="from_memory.py [--levels 4|5] [--part PHYS:LENGTH[:OFFSET]].. IMAGE CR3 >TRACE")
    parser.add_argument("--levels", type=int, choices=(4, 5), default=4)
    parser.add_argument("--part", type=part, action="append", default=[])
    parser.add_argument("image")
    parser.add_argument("cr3", type=number)
    options = parser.parse_args()
    root = options.cr3 >> 12 & (1 << 40) - 1
    try:
        frames, missing = gather(Image(options.image, options.part), root, options.levels)
        if root not in frames:
            raise Unreadable(f"the root's frame {root:#x} isn't in the image")
        for each in missing:
            print(f"from_memory.py: frame {each:#x} isn't in the image; the dump lacks it", file=sys.stderr)
        for piece in trace(frames, root, options.levels):
            sys.stdout.buffer.write(piece)
        sys.stdout.buffer.flush()
    except (Unreadable, OSError) as why:
        print(f"from_memory.py: {why}", file=sys.stderr)
        return 2
    print(f"from_memory.py: {len(frames)} tables, root {root:#x}", file=sys.stderr)
    return 0


if __name__ == "__main__":
    sys.exit(main())
