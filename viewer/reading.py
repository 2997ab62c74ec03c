"""What the bytes of a trace or of a segment say, as far as they go (docs/FORMATS.md, "Traces" and "Chains"), and its requests and answers
in words."""
import collections
import functools
import struct

MAP, UNMAP, PROTECT, RESOLVE, ACCESS, TOUCH, RELEASE = range(7)
DONE, OVERLAP, FULL, REMOVED, NOT_MAPPED, INSIDE, CHANGED, MAPPED, ALLOWED, FAULT = range(10)
BYTES = (1 << 12, 1 << 21, 1 << 30)                 # of a page, by the code of its size
SIZES = ("4K", "2M", "1G")
CALL_FIELDS = ("size rights address physical", "address", "rights address", "address", "size rights address", "size rights address",
               "size physical")                     # by kind
ANSWER_FIELDS = ("", "value", "value", "size rights value", "", "value", "rights", "size rights value", "value", "value")

Call = collections.namedtuple("Call", "replica thread kind size rights address physical")
Reply = collections.namedtuple("Reply", "answer call at")
Answer = collections.namedtuple("Answer", "code size rights value", defaults=(0, 0, 0))
Dump = collections.namedtuple("Dump", "applied root frames")                    # frames: the offset of each one's words


# ---- words ----

def rights_words(rights):
    return "".join(letter if rights >> bit & 1 else "-" for bit, letter in enumerate("wux"))


def call_words(call):
    if call.kind == MAP:
        return f"map {SIZES[call.size]} {call.address:#x} to {call.physical:#x} {rights_words(call.rights)}"
    if call.kind in (ACCESS, TOUCH):
        return f"{'touch' if call.kind == TOUCH else 'access'} {'su'[call.rights]} {'rwx'[call.size]} {call.address:#x}"
    if call.kind == RELEASE:
        return f"release {SIZES[call.size]} {call.physical:#x}"
    rights = f" {rights_words(call.rights)}" if call.kind == PROTECT else ""
    return f"{('map', 'unmap', 'protect', 'resolve')[call.kind]} {call.address:#x}{rights}"


def answer_words(answer):
    rights = rights_words(answer.rights)
    page = f"{answer.value:#x} {SIZES[answer.size]} {rights}"
    return ("done", f"overlap {answer.value:#x}", f"full {answer.value}", f"removed {page}", "not mapped",
            f"inside {answer.value:#x}", f"changed {rights}", f"mapped {page}", f"allowed {answer.value:#x}",
            f"fault {answer.value}")[answer.code]


def sentence(text):
    return text[0].upper() + text[1:] + "."


def many(count, noun):
    plural = noun[:-1] + "ies" if noun.endswith("y") else noun + ("es" if noun.endswith("ch") else "s")
    return f"{count:,} {noun if count == 1 else plural}"


# ---- what the bytes say, as far as they go ----

class Broken(Exception):
    """The first byte of the unit that is out of order, and what is wrong with it."""

    def __init__(self, offset, why):
        super().__init__(why)
        self.offset, self.why = offset, why


class Trace:
    """What could be read of a trace, or of a segment at the front of some bytes, and where it breaks. A dump that isn't there has no
    frames. `begins` are the pages with which a segment begins: base, size, physical address, rights."""

    def __init__(self, data, segment=None, before=None):
        self.data, self.offset, self.broken, self.segment = data, 0, None, segment
        self.version, self.levels, self.replicas, self.threads, self.tables = 0, 4, 0, 0, 0
        self.log, self.events, self.dumps, self.start, self.begins = [], [], [], None, []
        self.log_at = 0
        try:
            self.read_counts(before)
            self.read_dumps()
        except Broken as broken:
            self.broken = broken

    @property
    def is_segment(self):
        return self.segment is not None

    @property
    def layout(self):
        return self.levels, self.replicas, self.threads, self.tables

    def unit(self, name, form):
        length = struct.calcsize(form)
        left = len(self.data) - self.offset
        if left < length:
            raise Broken(self.offset, f"the bytes end within {name}: it has {many(length, 'byte')}, and {left} are left")
        self.offset += length
        return struct.unpack_from(form, self.data, self.offset - length)

    def read_counts(self, before):
        wanted, versions, most = ("NRVS", (1,), 65535) if self.is_segment else ("NRVT", (1, 2), 4096)
        magic, = self.unit("the magic", ">4s")
        expect(magic == wanted.encode(), 0, f"the first four bytes are {magic.hex()}, and not those of {wanted}")
        self.version, = self.unit("the version", ">H")
        expect(self.version in versions, 4, f"the version is {self.version}: there {'is 1' if self.is_segment else 'are 1 and 2'}")
        *counts, places, events = self.unit("the counts", ">BBHHII")
        started, = self.unit("the counts", ">I") if self.is_segment else (0,)
        limits = (("levels", 4, 5 if self.is_segment else 3 + self.version), ("replicas", 1, 4),
                  ("threads", 1, most if self.is_segment else 64), ("tables", 1, most), ("places", 0, 65536), ("events", 0, 131072),
                  ("frames of the start", 0, 65535))
        for (name, least, most), count in zip(limits, (*counts, places, events, started)):
            expect(least <= count <= most, 6, f"the number of {name} is {count}, and has to be {least} to {most}")
        self.levels, self.replicas, self.threads, self.tables = counts
        expect(before is None or before == self.layout, 6, "levels, replicas, threads or tables aren't those of the segment before")
        if started:
            root, = self.unit("the root of the start", ">Q")
            self.start = Dump(0, root, {})
            self.read_frames(self.start, "the start", started)
        self.log_at = self.offset
        for place in range(places):
            self.log += self.unit(f"place {place} of the log", ">I")
        for number in range(events):
            unit, = self.unit(f"event {number}", ">24s")
            why = self.read_event(unit)
            expect(not why, self.offset - 24, f"event {number} is none: {why}")

    def read_event(self, unit):
        """Adds the event that the bytes spell; else says why they spell none."""
        if unit[0] > 1:
            return f"its tag is {unit[0]}, and has to be 0 or 1"
        kinds, answers = (7, 10) if self.is_segment else (4, 8) if self.version == 1 else (5, 10)
        if unit[0] == 0:
            _, replica, thread, kind, size, rights, zero, address, physical = struct.unpack(">BBHBBBBQQ", unit)
            event = fields = Call(replica, thread, kind, size, rights, address, physical)
            if kind >= kinds:
                return f"version {self.version} has no kind {kind}"
            if replica >= self.replicas or thread >= self.threads:
                return f"it is of thread {thread} at replica {replica}; there are {self.threads} and {self.replicas}"
            used = CALL_FIELDS[kind]
        else:
            _, code, size, rights, number, at, zero, value = struct.unpack(">BBBBIIIQ", unit)
            fields = Answer(code, size, rights, value)
            event = Reply(fields, number, at)
            if code >= answers:
                return f"version {self.version} has no answer {code}"
            used = ANSWER_FIELDS[code]
        most = 1 if unit[0] == 0 and event.kind >= ACCESS else 7
        names = ("size", "rights", "address", "physical", "value")
        unused = [name for name in names if name not in used and getattr(fields, name, 0)]
        checks = ((size > 2, f"its size code {size} is above 2"), (rights > most, f"its rights {rights} are above {most}"),
                  (unused, f"it doesn't use its {' and '.join(unused)}, to be left 0"), (zero, "its spare bytes have to be 0"))
        why = next((why for wrong, why in checks if wrong), None) or (self.malformed(event) if unit[0] == 0 else None)
        if not why:
            self.events.append(event)
        return why

    def malformed(self, call):
        """Why the call isn't well formed, if it isn't."""
        has_memory = call.kind in (MAP, RELEASE)
        size = BYTES[call.size] if has_memory else BYTES[0] if call.kind <= PROTECT else 1
        if call.address >> (11 + 9 * self.levels) not in (0, (1 << (53 - 9 * self.levels)) - 1):
            return f"its address {call.address:#x} isn't canonical"
        if call.address % size:
            return f"its address {call.address:#x} isn't a multiple of {size:#x}"
        if has_memory and call.physical % size:
            return f"its physical address {call.physical:#x} isn't a multiple of {size:#x}"
        return f"its memory doesn't end below {1 << 51:#x}" if call.physical + size > 1 << 51 else None

    def read_dumps(self):
        least, most = (0, 65535) if self.is_segment else (1, 4096)
        for replica in range(self.replicas):
            applied, count, root = self.unit(f"the head of dump {replica}", ">IIQ")
            expect(least <= count <= most, self.offset - 16, f"dump {replica} has {many(count, 'frame')}, and needs {least} to {most:,}")
            expect(count or applied == root == 0, self.offset - 16, f"dump {replica} isn't there, and its other numbers aren't 0")
            self.dumps.append(Dump(applied, root, {}))
            self.read_frames(self.dumps[replica], f"dump {replica}", count)
        behind = 0 if self.is_segment else len(self.data) - self.offset
        expect(behind == 0, self.offset, f"{many(behind, 'byte')} follow the last unit")

    def read_frames(self, dump, of, count):
        last = -1
        for place in range(count):
            number, = self.unit(f"the number of frame {place} of {of}", ">Q")
            expect(last < number < 1 << 40, self.offset - 8, f"frame {place} of {of} has the number {number:#x}, "
                   "which has to be above the one before and below 2^40")
            self.unit(f"the words of frame {place} of {of}", ">4096s")
            dump.frames[number] = self.offset - 4096
            last = number

    def words(self, dump, frame):
        return struct.unpack_from(">512Q", self.data, dump.frames[frame])

    @property
    def is_dump(self):
        """Whether it has no calls and no log: it is a dump alone."""
        return not (self.is_segment or self.broken or self.events or self.log)

    def is_call(self, number):
        return number < len(self.events) and isinstance(self.events[number], Call)

    def is_update(self, number):
        return self.is_call(number) and self.events[number].kind <= PROTECT

    @functools.cached_property
    def replies(self):
        """Each reply with its index, in order."""
        return [(index, event) for index, event in enumerate(self.events) if isinstance(event, Reply)]

    @functools.cached_property
    def first_replies(self):
        """By call, its first reply with its index."""
        return {reply.call: (index, reply) for index, reply in reversed(self.replies)}

    def known_by(self, reply):
        """How many entries of the log the reply makes known."""
        return reply.at + self.is_update(reply.call)

    def call_text(self, number):
        """A call in one line: who asks what where, and what it is answered."""
        call, (_, reply) = self.events[number], self.first_replies.get(number, (None, None))
        said = f"answered {answer_words(reply.answer)}" if reply else "unanswered"
        return f"call {number} (thread {call.thread}, replica {call.replica}: {call_words(call)}, {said})"


def expect(fits, offset, why):
    if not fits:
        raise Broken(offset, why)
