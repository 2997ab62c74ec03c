#!/usr/bin/env python3
"""Shows what a stale access of a chain saw, and who changed its page, or of a release who gave memory away, and which page still led there:
what `run` prints where a chain's fault is a Stale or a Reachable.

    stale.py SEGMENTS NUMBER CALL CALLS

SEGMENTS is a file with the bytes of segments of a chain, one behind the other: the last is the one with the fault, number NUMBER. CALL is
the call that the fault names, CALLS what the converter wrote beside the chain. Nothing here is verified: the verdict is the auditor's.
"""
import re
import struct
import sys
from dataclasses import dataclass
from typing import NamedTuple

sys.dont_write_bytecode = True
import chains
import explain
from chain_bytes import RELEASE
from page_tables import BYTES
from trace_bytes import ALLOWED, MAP, PROTECT, UNMAP

CALL, REPLY = 0, 1
NAMES = {MAP: "map", UNMAP: "unmap", PROTECT: "protect"}


class Call(NamedTuple):
    number: int
    thread: int
    kind: int
    size: int           # of a touch: the access
    rights: int         # of a touch: the mode
    address: int
    physical: int


class Reply(NamedTuple):
    event: int
    answer: int
    size: int
    value: int


@dataclass
class Life:
    """A page, with the segments and the calls that made it and took it away."""
    base: int
    size: int
    physical: int
    made: tuple[int, Call] | None           # none: it is older than the segments that are there
    taken: tuple[int, Call] | None = None
    is_over: bool = False                   # what took it away was answered before the call that is looked at


def begin_of_events(segment: bytes) -> tuple[int, int]:
    """Where the events of a segment begin, and how many they are."""
    _, _, _, _, _, places, count, frames = struct.unpack_from(">HBBHHIII", segment, 4)
    return 24 + (8 + 4104 * frames if frames else 0) + 4 * places, count


def split(data: bytes) -> list[bytes]:
    """The segments that come one behind the other."""
    found, at = [], 0
    while at < len(data):
        begin, count = begin_of_events(data[at:at + 24])
        end = at + begin + 24 * count
        end += 16 + 4104 * struct.unpack_from(">I", data, end + 4)[0]
        found.append(data[at:end])
        at = end
    return found


def events(segment: bytes) -> tuple[list[Call], dict[int, Reply]]:
    """The calls of a segment, and their replies by number."""
    begin, count = begin_of_events(segment)
    calls, replies = [], {}
    for number in range(count):
        unit = segment[begin + 24 * number:begin + 24 * number + 24]
        if unit[0] == CALL:
            _, _, thread, kind, size, rights, _, address, physical = struct.unpack(">BBHBBBBQQ", unit)
            calls.append(Call(number, thread, kind, size, rights, address, physical))
        else:
            _, answer, size, _, call, _, _, value = struct.unpack(">BBBBIIIQ", unit)
            replies[call] = Reply(number, answer, size, value)
    return calls, replies


def updates_of(address: int, calls: list[Call], replies: dict[int, Reply], sizes: dict[int, int]) -> list[Call]:
    """The answered updates of pages that cover an address. `sizes` are those of the pages before, and afterwards those behind; a page of
    which nothing is known is taken for a small one."""
    found = []
    for call in calls:
        reply = replies.get(call.number)
        if call.kind not in NAMES or not reply:
            continue
        size = {MAP: call.size, UNMAP: reply.size, PROTECT: sizes.get(call.address, 0)}[call.kind]
        sizes[call.address] = size
        if call.address == address & -BYTES[size]:
            found.append(call)
    return found


def rights_text(rights: int) -> str:
    return "".join(letter if rights >> bit & 1 else "-" for bit, letter in enumerate("wux"))


def request(call: Call) -> str:
    """As a script has it."""
    if call.kind == RELEASE:
        return f"release {BYTES[call.size] >> 10}K {call.physical:#x}"
    if call.kind not in NAMES:
        return f"touch {'su'[call.rights]} {'rwx'[call.size]} {call.address:#x}"
    rest = {MAP: f" {call.physical:#x} {rights_text(call.rights)}", PROTECT: f" {rights_text(call.rights)}", UNMAP: ""}[call.kind]
    return f"{NAMES[call.kind]} {call.address:#x}{rest}"


def answer_text(reply: Reply) -> str:
    return f"allowed {reply.value:#x}" if reply.answer == ALLOWED else f"fault {reply.value}"


def made_by(name: str, sources: dict[str, list[str]]) -> list[str]:
    """Who made a call, and what ended the time of an update."""
    words = sources.get(name)
    return [f"  of {explain.origin(words)}", *explain.until(words, "  ")] if words else []


def shown(segments: list[bytes], number: int, touch: int, sources: dict[str, list[str]]) -> list[str]:
    """The touch, and the updates of its page that were answered before it, the last two of them, each with its segment's number where it is
    of an earlier one. Segment `number` is the last of these."""
    calls, replies = events(segments[-1])
    found = next(each for each in calls if each.number == touch)
    updates: list[tuple[int, Call]] = []
    sizes: dict[int, int] = {}
    for at, (each_calls, each_replies) in enumerate(map(events, segments), number - len(segments) + 1):
        of_page = updates_of(found.address, each_calls, each_replies, sizes)
        updates += [(at, each) for each in of_page if at < number or each_replies[each.number].event < touch]
    lines = [f"call {touch}, thread {found.thread}: {request(found)}, answered `{answer_text(replies[touch])}`"]
    lines += made_by(f"{number}.{touch}", sources)
    for at, update in updates[-2:]:
        where = f"segment {at}, " if at < number else ""
        lines.append(f"answered before it: {where}call {update.number}, thread {update.thread}: {request(update)}")
        lines += made_by(f"{at}.{update.number}", sources)
    begin = f" from segment {number - len(segments) + 1} on" if len(segments) <= number else ""
    return lines if updates else [*lines, f"no update of its page was answered before it{begin}"]


def lives(segments: list[bytes], number: int, until: int) -> list[Life]:
    """The pages of the segments' updates, up to this call of the last segment, whose number is `number`."""
    here: dict[int, Life] = {}
    found = []
    for at, (calls, replies) in enumerate(map(events, segments), number - len(segments) + 1):
        for call in calls:
            reply = replies.get(call.number)
            is_over = reply is not None and (at < number or reply.event < until)
            if at == number and call.number > until:
                break
            if call.kind == MAP:
                here[call.address] = Life(call.address, call.size, call.physical, (at, call))
                found.append(here[call.address])
            elif call.kind == UNMAP and (call.address in here or reply):
                life = here.pop(call.address, None)
                if not life:
                    life = Life(call.address, reply.size, reply.value, None)
                    found.append(life)
                life.taken, life.is_over = (at, call), is_over
    return found


def leads_there(life: Life, release: Call) -> bool:
    """An access that begins with the release could reach its memory by the page."""
    end = release.physical + BYTES[release.size]
    return not life.is_over and life.physical < end and release.physical < life.physical + BYTES[life.size]


def shown_release(segments: list[bytes], number: int, release: int, sources: dict[str, list[str]]) -> list[str]:
    """The release, and the pages that still led there, two of them at most. Segment `number` is the last of these."""
    found = next(each for each in events(segments[-1])[0] if each.number == release)
    lines = [f"call {release}, thread {found.thread}: {request(found)}", *made_by(f"{number}.{release}", sources)]
    for life in [each for each in lives(segments, number, release) if leads_there(each, found)][:2]:
        for what, by in (("a page leads there", life.made), ("taken away, and not answered before", life.taken)):
            if by:
                where = f"segment {by[0]}, " if by[0] < number else ""
                lines.append(f"{what}: {where}call {by[1].number}, thread {by[1].thread}: {request(by[1])}")
                lines += made_by(f"{by[0]}.{by[1].number}", sources)
        if not life.taken:
            lines.append("nobody has taken it away")
    return lines


def read_sources(path: str) -> dict[str, list[str]]:
    rows = (line.rstrip("\n").split("\t") for line in open(path))
    return {name: words for name, *words in rows}


def of_fault(segments: list[bytes], number: int, call: int, calls: str) -> list[str]:
    """What is shown of a call that a fault names, a touch or a release; `calls` is the file with who made calls."""
    kind = next(each.kind for each in events(segments[-1])[0] if each.number == call)
    return (shown_release if kind == RELEASE else shown)(segments, number, call, read_sources(calls))


def of_chain(chain: chains.Chain, path: str) -> list[str]:
    """The same of a chain that was judged, where its fault is one of these. The segments go to PATH.segments; PATH.calls is there."""
    found = re.fullmatch("segment ([0-9]+)\nno 2[45] (?:Stale|Reachable) ([0-9]+)", "\n".join(chain.verdict))
    segments = chain.segments_to(int(found.group(1))) if found else []
    if not found or not segments:
        return []
    with open(f"{path}.segments", "wb") as file:
        file.write(b"".join(segments))
    return of_fault(segments, int(found.group(1)), int(found.group(2)), f"{path}.calls")


def main() -> int:
    if len(sys.argv) != 5:
        print(__doc__, file=sys.stderr)
        return 2
    path, number, call, calls = sys.argv[1:]
    print("\n".join(of_fault(split(open(path, "rb").read()), int(number), int(call), calls)))
    return 0


if __name__ == "__main__":
    sys.exit(main())
