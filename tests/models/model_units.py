"""What the bytes of a trace say, unit by unit, for the second auditor (model_auditor.py) and the models beside it."""
import collections
import struct

FAULTS = """Format ThreadOpen NoSuchCall AnsweredTwice NotAnUpdate PlacedTwice NotPlaced PastLog Early WrongAnswer
            PrefixPastLog PrefixShort MissingFrame SharedFrame ReservedBit StrayFrame Differs""".split()
OF_CHAINS = "StartMissing StartShared StartReserved StartStray StartBeyond StartDiffers Stale Reachable".split()     # 18 and on


class Fault(Exception):
    """The first fault of a trace: its name, then what it names. The texts of format faults are strings."""

    def __str__(self):
        name, *what = self.args
        return " ".join(["no", str((FAULTS + OF_CHAINS).index(name) + 1), name] + [str(each) for each in what])


MAP, UNMAP, PROTECT, RESOLVE, ACCESS, TOUCH, RELEASE = range(7)    # the last two are in chains alone
DONE, OVERLAP, FULL, REMOVED, NOT_MAPPED, INSIDE, CHANGED, MAPPED, ALLOWED, PAGE_FAULT = range(10)
SIZES = [1 << 12, 1 << 21, 1 << 30]                 # by code
SIZE_NAMES = ["4K", "2M", "1G"]
WRITE, USER, EXEC = 1, 2, 4                         # rights are their sum
CALL, REPLY = ">BBHBBBBQQ", ">BBBBIIIQ"

# the fields that each code uses; the others are 0
CALL_USES = {MAP: "size rights address phys", UNMAP: "address", PROTECT: "rights address", RESOLVE: "address",
             ACCESS: "size rights address"}
ANSWER_USES = {DONE: "", OVERLAP: "value", FULL: "value", REMOVED: "size rights value", NOT_MAPPED: "", INSIDE: "value",
               CHANGED: "rights", MAPPED: "size rights value", ALLOWED: "value", PAGE_FAULT: "value"}

Call = collections.namedtuple("Call", "replica thread kind size rights address phys")
Reply = collections.namedtuple("Reply", "answer call at")
Answer = collections.namedtuple("Answer", "code size rights value", defaults=(0, 0, 0))
Dump = collections.namedtuple("Dump", "applied root frames")
Trace = collections.namedtuple("Trace", "version levels replicas threads tables log events dumps")


def is_canonical(levels, address):
    return address >> (11 + 9 * levels) in (0, (1 << (53 - 9 * levels)) - 1)


def is_well_formed(levels, call):
    if not is_canonical(levels, call.address):
        return False
    if call.kind == MAP:
        size = SIZES[call.size]
        return call.address % size == 0 and call.phys % size == 0 and call.phys + size <= 1 << 51
    return call.kind in (RESOLVE, ACCESS) or call.address % 4096 == 0


def only_used(record, uses):
    """No field but those of `uses` is other than 0; `uses` is None for an unknown code."""
    return uses is not None and all(getattr(record, field) == 0 or field in uses.split()
                                    for field in ("size", "rights", "address", "phys", "value") if hasattr(record, field))


def event(unit, version, levels, replicas, threads):
    """The event that 24 bytes spell, or None."""
    codes = 5 if version == 2 else 4, 10 if version == 2 else 8
    if unit[0] == 0:
        _, replica, thread, kind, size, rights, zero, address, phys = struct.unpack(CALL, unit)
        call = Call(replica, thread, kind, size, rights, address, phys)
        fits = (kind < codes[0] and only_used(call, CALL_USES[kind]) and size < 3 and rights < (2 if kind == ACCESS else 8)
                and zero == 0 and replica < replicas and thread < threads and is_well_formed(levels, call))
        return call if fits else None
    tag, code, size, rights, call, at, zero, value = struct.unpack(REPLY, unit)
    answer = Answer(code, size, rights, value)
    fits = (tag == 1 and code < codes[1] and only_used(answer, ANSWER_USES[code]) and size < 3 and rights < 8 and zero == 0)
    return Reply(answer, call, at) if fits else None


def expect(fits, *fault):
    if not fits:
        raise Fault("Format", *fault)


class Reader:
    """The units of some bytes, from left to right."""

    def __init__(self, data, position=0):
        self.data, self.position = data, position

    def unit(self, form):
        """What the next unit spells."""
        size = struct.calcsize(form)
        expect(self.position + size <= len(self.data), "Truncated")
        self.position += size
        return struct.unpack_from(form, self.data, self.position - size)

    def frames(self, count, *fault):
        """So many frames by rising number."""
        memory, last = {}, -1
        for k in range(count):
            number, = self.unit(">Q")
            expect(last < number < 1 << 40, *fault, k)
            memory[number] = self.unit(">512Q")
            last = number
        return memory


def read(data):
    """The trace that the bytes spell; raises the first format fault."""
    reader = Reader(data)
    expect(reader.unit("4s") == (b"NRVT",), "BadMagic")
    version, = reader.unit(">H")
    expect(version in (1, 2), "BadVersion")
    levels, replicas, threads, tables, places, count = reader.unit(">BBHHII")
    expect(levels in (4, 3 + version) and 1 <= replicas <= 4 and 1 <= threads <= 64 and 1 <= tables <= 4096
           and places <= 65536 and count <= 131072, "BadCount")
    log = [reader.unit(">I")[0] for _ in range(places)]
    events = []
    for i in range(count):
        events.append(event(*reader.unit("24s"), version, levels, replicas, threads))
        expect(events[-1], "BadEvent", i)
    dumps = []
    for r in range(replicas):
        applied, frames, root = reader.unit(">IIQ")
        expect(1 <= frames <= 4096, "BadCount")
        dumps.append(Dump(applied, root, reader.frames(frames, "BadFrame", r)))
    expect(reader.position == len(data), "Trailing")
    return Trace(version, levels, replicas, threads, tables, log, events, dumps)


def letters(rights):
    return "".join(letter if rights & bit else "-" for letter, bit in zip("wux", (WRITE, USER, EXEC)))
