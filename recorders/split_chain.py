#!/usr/bin/env python3
"""Splits a chain into parts that can be judged apart: each but the first begins with a segment that has a start.

    split_chain.py FOLDER [LEAST] <CHAIN

A part is the file FOLDER/part.K, where K is the number of its first segment, of seven digits at least; it has LEAST segments (1) or more.
FOLDER is made. Bytes that are no whole segment go to the last part, of whose end the auditor then says so. A file part.K.open is there if
an update of the part's log has no reply, and part.K.releases if the part gives memory away: such parts can't be judged apart. It isn't
verified. examples/judge_in_parts/ends compares the ends of the parts.
"""
import array
import os
import struct
import sys

HEAD = struct.Struct(">4sHBBHHIII")         # magic, version, levels, replicas, threads, tables, places, events, frames of the start
DUMP_HEAD = struct.Struct(">IIQ")           # applied, frames, root
FRAME_BYTES = 8 + 4096
PLACES, EVENTS, RELEASE = 1 << 16, 1 << 17, 6
BLOCK = 1 << 20


def numbers(data):
    """The numbers of four bytes that these are."""
    found = array.array("I", data[:len(data) // 4 * 4])
    if sys.byteorder == "little":
        found.byteswap()
    return found


def has_open(log, events):
    """Whether a call of the log has no reply among the events."""
    tags = events[::24]
    if 2 * tags.count(1) >= len(tags):              # each call has one
        return False
    answered = {call for tag, call in zip(tags, numbers(events)[1::6]) if tag == 1}
    return any(call not in answered for call in numbers(log))


class Splitter:
    """The bytes of a chain, read once from left to right, and the files that they go to."""

    def __init__(self, source, folder):
        self.source, self.folder = source, folder
        self.part = None
        self.parts = self.begun = 0

    def begin(self, number):
        """The next segment begins a part."""
        if self.part:
            self.part.close()
        self.part = open(os.path.join(self.folder, f"part.{number:07}"), "wb")
        self.parts, self.begun = self.parts + 1, number

    def copy(self, length):
        """Copies so many bytes; fewer where the chain ends."""
        while length > 0:
            data = self.source.read(min(length, BLOCK))
            if not data:
                return
            self.part.write(data)
            length -= len(data)

    def copy_and_keep(self, length):
        """The same of few bytes, which are the result."""
        data = self.source.read(length)
        self.part.write(data)
        return data

    def copy_segment(self, head):
        """Copies the rest of the segment that begins with this head."""
        _, _, _, replicas, _, _, places, events, frames = HEAD.unpack(head)
        self.copy(8 + frames * FRAME_BYTES if frames else 0)
        if places <= PLACES and events <= EVENTS:
            log = self.copy_and_keep(4 * places)
            self.note(log, self.copy_and_keep(24 * events))
        else:                                       # a BadCount
            self.copy(4 * places + 24 * events)
        for _ in range(replicas):
            dump = self.source.read(DUMP_HEAD.size)
            self.part.write(dump)
            if len(dump) == DUMP_HEAD.size:
                self.copy(DUMP_HEAD.unpack(dump)[1] * FRAME_BYTES)

    def note(self, log, events):
        """Notes beside the part whether an update of this log has no reply, and whether memory is given away."""
        if has_open(log, events):
            open(self.part.name + ".open", "w").close()
        if RELEASE in events[4::24]:
            open(self.part.name + ".releases", "w").close()

    def split(self, least):
        """Writes the parts."""
        number = 0
        while head := self.source.read(HEAD.size):
            is_segment = len(head) == HEAD.size and head[:4] == b"NRVS"
            has_start = is_segment and HEAD.unpack(head)[-1] > 0
            if self.parts == 0 or (has_start and number - self.begun >= least):
                self.begin(number)
            self.part.write(head)
            if is_segment:
                self.copy_segment(head)
            else:
                self.copy(sys.maxsize)
            number += 1
        if self.part:
            self.part.close()


def main(words):
    if not 1 <= len(words) <= 2 or (len(words) == 2 and not words[1].isdigit()):
        sys.stderr.write(__doc__)
        return 2
    os.makedirs(words[0], exist_ok=True)
    splitter = Splitter(sys.stdin.buffer, words[0])
    splitter.split(int(words[1]) if len(words) == 2 else 1)
    print(f"parts: {splitter.parts}")
    return 0


if __name__ == "__main__":
    sys.exit(main(sys.argv[1:]))
