"""A trace of version 2 (docs/FORMATS.md), in the making."""
import struct

MAP, UNMAP, PROTECT, RESOLVE, ACCESS = range(5)
DONE, REMOVED, CHANGED, ALLOWED, FAULT = 0, 3, 6, 8, 9
TABLES = 4096
PLACES, EVENTS = 65536, 131072
ROOM = 4096                     # updates that may come of one store, and then some

Frames = dict[int, dict[int, int]]      # words that aren't 0, by frame and index


def spell_frames(frames: Frames) -> bytes:
    parts = []
    for frame in sorted(frames):
        words = [0] * 512
        for index, word in frames[frame].items():
            words[index] = word
        parts.append(struct.pack(">Q512Q", frame, *words))
    return b"".join(parts)


class Trace:
    threads = 64

    def __init__(self) -> None:
        self.events: list[bytes] = []
        self.log: list[int] = []
        self.levels = 4

    def is_full(self) -> bool:
        return len(self.log) > PLACES - ROOM or len(self.events) > EVENTS - 2 * ROOM

    def call(self, thread: int, kind: int, address: int, size: int = 0, rights: int = 0, physical: int = 0) -> int:
        self.events.append(struct.pack(">BBHBBBBQQ", 0, 0, thread, kind, size, rights, 0, address, physical))
        return len(self.events) - 1

    def place(self, call: int) -> int:
        self.log.append(call)
        return len(self.log) - 1

    def reply(self, call: int, at: int, answer: int, size: int = 0, rights: int = 0, value: int = 0) -> None:
        self.events.append(struct.pack(">BBBBIIIQ", 1, answer, size, rights, call, at, 0, value))

    def spell(self, root: int, frames: Frames) -> bytes:
        """The bytes of the trace, with a dump of these frames after the whole log."""
        head = struct.pack(">HBBHHII", 2, self.levels, 1, self.threads, TABLES, len(self.log), len(self.events))
        parts = [b"NRVT", head, struct.pack(f">{len(self.log)}I", *self.log), *self.events]
        parts.append(struct.pack(">IIQ", len(self.log), len(frames), root))
        return b"".join([*parts, spell_frames(frames)])
