"""A segment of a chain, in the making: a trace with touches and releases, more threads, a start, and a dump or none."""
import struct

from trace_bytes import DONE, Frames, Trace, spell_frames

TOUCH, RELEASE = 5, 6
TABLES = 65535


class Segment(Trace):
    threads = 65535

    def touch(self, thread: int, address: int, access: int, is_user: bool, answer: int, value: int) -> int:
        """An access through a TLB, and its answer."""
        call = self.call(thread, TOUCH, address, access, int(is_user))
        self.reply(call, 0, answer, value=value)
        return call

    def release(self, thread: int, size: int, physical: int) -> int:
        """Memory is given to somebody else from here on."""
        call = self.call(thread, RELEASE, 0, size, physical=physical)
        self.reply(call, 0, DONE)
        return call

    def spell_segment(self, root: int, start: Frames, dump: Frames) -> bytes:
        """Its bytes: `start` and `dump` are the tables before it and after it, none where they have no frame."""
        head = struct.pack(">HBBHHIII", 1, self.levels, 1, self.threads, TABLES, len(self.log), len(self.events), len(start))
        parts = [b"NRVS", head]
        if start:
            parts += [struct.pack(">Q", root), spell_frames(start)]
        parts += [struct.pack(f">{len(self.log)}I", *self.log), *self.events]
        parts.append(struct.pack(">IIQ", len(self.log), len(dump), root) if dump else struct.pack(">IIQ", 0, 0, 0))
        return b"".join([*parts, spell_frames(dump)])
