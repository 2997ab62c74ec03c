"""What shows a fault of the format, of a trace or of a segment: the unit that is wrong, and why. Written from docs/FORMATS.md and docs/man
alone, for model_evidence.py and model_chain_evidence.py."""
import collections
import struct

from model_auditor import verdict
from model_units import *

LINES = {
    "Truncated": "the bytes end before the last unit does",
    "BadMagic": "bytes 0 to 3 are NRVT",
    "BadVersion": "bytes 4 and 5 are the version, 1 or 2",
    "BadCount": "levels 4 (version 2: or 5), replicas 1 to 4, threads 1 to 64, tables 1 to 4096, places to 65536, events to 131072, frames 1 to 4096",
    "BadEvent": "event {}: 24 bytes that spell no call and no reply here",
    "BadFrame": "replica {}, frame {}: its number is above the one before it, and below 0x10000000000",
    "Trailing": "nothing stands after the last unit",
}
SEGMENT_LINES = LINES | {
    "BadMagic": "bytes 0 to 3 are NRVS",
    "BadVersion": "bytes 4 and 5 are the version, 1",
    "BadCount": "levels 4 or 5, replicas 1 to 4, threads and tables 1 to 65535, places to 65536, events to 131072, frames to 65535; "
                "where a dump has none, its other numbers are 0",
    "BadChain": "levels, replicas, threads and tables are those of the segment before",
    "BadStart": "start, frame {}: its number is above the one before it, and below 0x10000000000",
}
REASONS = {
    "Truncated": "they end in {unit}, of whose {size} bytes there are {there}",
    "BadMagic": "they don't begin with NRVT",
    "BadVersion": "their version is 0x{read}, and not 1 or 2",
    "BadCount": "a number in {unit} is out of range",
    "BadEvent": "event {0} is no call and no reply, since {field}",
    "BadFrame": "frame {1} of dump {0} has a number that is not above the one before it, or too great",
    "Trailing": "more bytes follow the last unit",
}
SEGMENT_REASONS = REASONS | {
    "BadMagic": "they don't begin with NRVS",
    "BadVersion": "their version is 0x{read}, and not 1",
    "BadChain": "they are not laid out as the segment before them",
    "BadStart": "frame {0} of the start has a number that is not above the one before it, or too great",
}
UNITS = {"BadMagic": "magic", "BadVersion": "version", "BadChain": "counts", "BadStart": "number of frame {0} of the start",
         "BadEvent": "event {0}", "BadFrame": "number of frame {1} of dump {0}", "Trailing": "behind the last unit"}

Limits = collections.namedtuple("Limits", "levels replicas threads kinds answers")  # how many there are of each


def limits_of(header):
    """Which fields an event may have after this header, of a trace or of a segment."""
    version, levels, replicas, threads = struct.unpack(">HBBH", header[4:10])
    return Limits(levels, replicas, threads, *((3 + version, 6 + 2 * version) if header[:4] == b"NRVT" else (1 + RELEASE, 10)))


def wrong_fields(limits, unit):
    """Each field of 24 bytes that isn't what it may be, in the order of the bytes."""
    levels, replicas, threads, kinds, answers = limits
    if unit[0] == 0:
        _, replica, thread, kind, size, rights, unused, address, phys = struct.unpack(CALL, unit)
        is_map, is_access, is_release = kind == MAP, kind in (ACCESS, TOUCH), kind == RELEASE
        yield from below("replica is", replica, replicas)
        yield from below("thread is", thread, threads)
        yield from below("kind is", kind, kinds)
        yield from below("access is" if is_access else "size is", size, 3 if is_map or is_access or is_release else 1)
        yield from below("mode is" if is_access else "rights are", rights, 2 if is_access else 8 if is_map or kind == PROTECT else 1)
        yield from below("unused bytes are", unused, 1)
        step = SIZES[size] if is_map or is_release else 1 if is_access or kind == RESOLVE else 4096
        if is_release:
            yield from below("address is", address, 1, hex)
        elif not is_canonical(levels, address):
            yield f"its address is {address:#x}, which isn't canonical with {levels} levels"
        yield from multiple("address", address, step)
        if is_map or is_release:
            yield from multiple("physical address", phys, step)
            if phys + step > 1 << 51:
                yield f"its physical address is {phys:#x}, and its page ends above {1 << 51:#x}"
        else:
            yield from below("physical address is", phys, 1, hex)
    elif unit[0] == 1:
        _, code, size, rights, _, _, unused, value = struct.unpack(REPLY, unit)
        uses = ANSWER_USES.get(code, "")
        yield from below("answer is", code, answers)
        yield from below("size is", size, 3 if "size" in uses else 1)
        yield from below("rights are", rights, 8 if "rights" in uses else 1)
        yield from below("unused bytes are", unused, 1)
        yield from below("value is", value, 1 << 64 if "value" in uses else 1, hex)
    else:
        yield f"its tag is {unit[0]}, and not below 2"


def below(name, number, limit, words=str):
    if number >= limit:
        yield f"its {name} {words(number)}, and not {'0' if limit == 1 else f'below {limit}'}"


def multiple(name, number, step):
    if number % step:
        yield f"its {name} is {number:#x}, which is no multiple of {step:#x}"


def units_of(data, is_segment):
    """Each unit in turn: which it is, where it begins and how many bytes it has. What a count says is read when its unit is passed."""
    def number(at):
        return int.from_bytes(data[at:at + 4], "big")

    def frames(count, whose):
        for index in range(count):
            yield f"number of frame {index} of {whose}", 8
            yield f"words of frame {index} of {whose}", 4096

    def sizes():
        yield from (("magic", 4), ("version", 2), ("counts", 18 if is_segment else 14))
        if is_segment and number(20):
            yield "root of the start", 8
            yield from frames(number(20), "the start")
        yield from ((f"place {place}", 4) for place in range(number(12)))
        yield from ((f"event {index}", 24) for index in range(number(16)))
        for replica in range(data[7]):
            yield f"head of dump {replica}", 16
            yield from frames(number(at - 12), f"dump {replica}")
        yield "behind the last unit", 1

    at = 0
    for unit, size in sizes():
        at += size
        yield unit, at - size, size


def is_bad(data, is_segment, name, numbers, unit, at, size):
    """Whether the unit is that of the fault."""
    if name == "Truncated":
        return at + size > len(data)
    if name == "BadCount":
        return unit == "counts" and not are_counts(data, is_segment) or "head" in unit and not is_head(data[at:at + size], is_segment)
    return unit == UNITS[name].format(*numbers)


def are_counts(data, is_segment):
    if not is_segment:
        return verdict(data[:20])[0].split()[-1] != "BadCount"
    levels, replicas, threads, tables, places, events, frames = struct.unpack(">BBHHIII", data[6:24])
    return (levels in (4, 5) and 1 <= replicas <= 4 and min(threads, tables) >= 1 and places <= 65536 and events <= 131072 and frames <= 65535)


def is_head(unit, is_segment):
    applied, frames, root = struct.unpack(">IIQ", unit)
    return frames <= 65535 and (frames > 0 or applied == root == 0) if is_segment else 1 <= frames <= 4096


def of_format(data, name, numbers, begins=None):
    """The unit that shows the fault, and what was read of it; and the lines of that. Of a segment it has where that begins in the chain."""
    is_segment = begins is not None
    unit, at, size = next(found for found in units_of(data, is_segment) if is_bad(data, is_segment, name, numbers, *found))
    read, offset = data[at:at + size], at + (begins or 0)
    shown = {"format": " ".join([name, *numbers]), "unit": unit, "offset": offset, "size": size, "there": len(read), "read": read[:24].hex()}
    return shown | ({"begins": begins} if is_segment else {}), [
        *([f"the segment begins at byte {begins}"] if is_segment else []), f"{unit}, at byte {offset}",
        f"read {len(read)} of {size} bytes: {read[:24].hex() or 'none'}", (SEGMENT_LINES if is_segment else LINES)[name].format(*numbers)]


def reason_words(shown, header):
    """Why bytes are no trace, or no segment."""
    name, *numbers = shown["format"].split()
    field = name == "BadEvent" and next(wrong_fields(limits_of(header), bytes.fromhex(shown["read"])))
    return (SEGMENT_REASONS if "begins" in shown else REASONS)[name].format(*numbers, **shown, field=field)
