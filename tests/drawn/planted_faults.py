"""Faults that are planted in one segment of a right chain: which line is to be said of it is known by what was planted.

`plant(name, draw, segment)` changes a segment and returns the fault's line; `plant_in_bytes(name, draw, segments, k)` returns the bytes of
a chain with a fault of the format in its segment k, and that line. Both raise NotHere where there is nothing to plant it in.
"""
import struct

import recording
from drawn_chains import RELEASE, TOUCH, Call, Reply, allowed, answer_in, lagging, run_of, spelled, tables_of, units
from recording import BYTES, MAP, UNMAP


class NotHere(Exception):
    """The drawn segment has nothing in which the fault can be planted."""


def some(draw, found):
    found = list(found)
    if not found:
        raise NotHere
    return draw.choice(found)


# ---- calls, the log, answers ----

def thread_open(draw, segment):
    i = some(draw, range(len(segment.events) + 1))
    begun = {each.thread: k for k, each in enumerate(segment.events[:i]) if isinstance(each, Call)}
    replied = {each.call for each in segment.events[:i] if isinstance(each, Reply)}
    thread = some(draw, [thread for thread, k in begun.items() if k not in replied])
    segment.events.insert(i, Call(0, thread, draw.choice([UNMAP, TOUCH]), 0))
    return f"no 2 ThreadOpen {i}"


def no_such_call(draw, segment):
    i = some(draw, range(len(segment.events) + 1))
    replies = [k for k, each in enumerate(segment.events[:i]) if isinstance(each, Reply)]
    named = some(draw, [i, i + 1, (1 << 32) - 1, *replies])
    segment.events.insert(i, Reply(named, 0, (recording.NOT_MAPPED, 0, 0, 0)))
    return f"no 3 NoSuchCall {i}"


def answered_twice(draw, segment):
    i = some(draw, range(len(segment.events) + 1))
    answered = some(draw, [each for each in segment.events[:i] if isinstance(each, Reply)])
    segment.events.insert(i, answered)
    return f"no 4 AnsweredTwice {i}"


def not_an_update(draw, segment):
    p = draw.randint(0, len(segment.log))
    others = [k for k, each in enumerate(segment.events) if isinstance(each, Reply) or not each.is_update()]
    segment.log.insert(p, some(draw, [len(segment.events), (1 << 32) - 1, *others]))
    return f"no 5 NotAnUpdate {p}"


def placed_twice(draw, segment):
    p = some(draw, range(1, len(segment.log) + 1))
    segment.log.insert(p, draw.choice(segment.log[:p]))
    return f"no 6 PlacedTwice {p}"


def reads(segment):
    """The indexes of the replies to reads."""
    return [i for i, each in enumerate(segment.events) if isinstance(each, Reply) and segment.events[each.call].is_read()]


def not_placed(draw, segment):
    updates = [i for i, each in enumerate(segment.events) if isinstance(each, Reply) and segment.events[each.call].is_update()]
    i = some(draw, updates)
    reply = segment.events[i]
    if draw.random() < 0.3 and not any(segment.events[each].at == len(segment.log) for each in reads(segment)):
        del segment.log[reply.at]
        return f"no 7 NotPlaced {min(each for each in updates if segment.events[each].at >= reply.at)}"
    others = [n for n in (*range(len(segment.log) + 2), (1 << 32) - 1) if n != reply.at]
    segment.events[i] = reply._replace(at=draw.choice(others))
    return f"no 7 NotPlaced {i}"


def past_log(draw, segment):
    i = some(draw, reads(segment))
    segment.events[i] = segment.events[i]._replace(at=draw.choice([len(segment.log) + 1, (1 << 32) - 1]))
    return f"no 8 PastLog {i}"


def first_early(segment):
    """The least call that comes after fewer entries than a reply before it had shown, or None."""
    replies = segment.replies()
    for number, call in enumerate(segment.events):
        if isinstance(call, Reply) or call.kind >= TOUCH:
            continue
        shown = [each.at + segment.events[each.call].is_update() for each in segment.events[:number]
                 if isinstance(each, Reply) and segment.events[each.call].kind < TOUCH]
        places = [place for place, placed in enumerate(segment.log) if placed == number]
        at = places if call.is_update() else [segment.events[replies[number]].at] if number in replies else []
        if at and at[0] < max(shown, default=0):
            return number
    return None


def early(draw, segment):
    late = [i for i in reads(segment) if segment.known[segment.events[i].call] > 0]
    if late and draw.random() < 0.5:
        i = draw.choice(late)
        reply, call = segment.events[i], segment.events[segment.events[i].call]
        at = draw.randrange(segment.known[reply.call])
        answer = segment.moments[at].read(call.kind, call.address, call.size, call.rights)
        segment.events[i] = reply._replace(at=at, answer=answer)
    else:                                           # the call of the next place comes first, though the other was answered before it
        replies, log = segment.replies(), segment.log
        place = some(draw, [p for p in range(len(log) - 1) if replies.get(log[p], log[p + 1]) < log[p + 1]])
        for number, at in ((log[place], place + 1), (log[place + 1], place)):
            if number in replies:
                segment.events[replies[number]] = segment.events[replies[number]]._replace(at=at)
        log[place], log[place + 1] = log[place + 1], log[place]
    return f"no 9 Early {first_early(segment)}"


ANSWERS = [(recording.DONE, 0, 0, 0), (recording.OVERLAP, 0, 0, 0x400000), (recording.FULL, 0, 0, 7),
           (recording.REMOVED, 1, 7, 1 << 21), (recording.NOT_MAPPED, 0, 0, 0), (recording.INSIDE, 0, 0, 0x200000),
           (recording.CHANGED, 0, 3, 0), (recording.MAPPED, 0, 7, 4096), (recording.ALLOWED, 0, 0, 4096), (recording.FAULT, 0, 0, 4)]


def changed_answer(draw, answer):
    """Another answer: of another code, or with another number in it."""
    code, size, rights, value = answer
    uses_value = code not in (recording.DONE, recording.NOT_MAPPED, recording.CHANGED)
    alike = [(code, size, rights, value ^ 4096)] if uses_value else [(code, size, rights ^ 2, value)] if code == recording.CHANGED else []
    return draw.choice([each for each in ANSWERS + 9 * alike if each != answer])


def wrong_answer(draw, segment):
    answered = [i for i, each in enumerate(segment.events) if isinstance(each, Reply) and segment.events[each.call].kind < TOUCH]
    i = some(draw, answered)
    segment.events[i] = segment.events[i]._replace(answer=changed_answer(draw, segment.events[i].answer))
    return f"no 10 WrongAnswer {segment.events[i].call}"


def stale_as(kind):
    """What has a touch answered from a moment that is over, from one that is foreseen, or as from none."""
    def planted(draw, segment):
        found, run = [], run_of(segment)
        for call, end in segment.replies().items():
            asked = segment.events[call]
            if asked.kind == TOUCH:
                moments = allowed(segment, run, call, end)
                fitting = {answer_in(run.spaces[n], asked) for n in moments} | lagging(segment, call, moments[-1] - run.before)
                others = {"over": set(range(moments[-1])).difference(moments), "foreseen": range(moments[-1] + 1, len(run.spaces)), "none": ()}[kind]
                drawn = changed_answer(draw, segment.events[end].answer)
                answers = [drawn] if kind == "none" else sorted(answer_in(run.spaces[n], asked) for n in others)
                found += [(call, end, each) for each in answers if each not in fitting]
        call, end, answer = some(draw, found)
        segment.events[end] = segment.events[end]._replace(answer=answer)
        return f"no 24 Stale {call}"
    return planted


def reachable(draw, segment):
    """At its end memory is given away in which a page lies, or that nobody has but with another answer than Done."""
    number, pages, replies = len(segment.events), segment.moments[-1].pages, segment.replies()
    busy = {each.thread for k, each in enumerate(segment.events) if isinstance(each, Call) and k not in replies}
    thread = some(draw, [each for each in range(min(segment.layout.threads, 70)) if each not in busy])
    size, physical, _ = some(draw, pages.values()) if draw.random() < 0.7 else (0, 0, 0)
    segment.events.append(Call(draw.randrange(segment.layout.replicas), thread, RELEASE, 0, size, 0, physical))
    answer = draw.choice([each for each in ANSWERS if each[0] != recording.DONE])
    is_other = not any(physical == phys for _, phys, _ in pages.values()) or draw.random() < 0.3
    if is_other or draw.random() < 0.5:
        segment.events.append(Reply(number, draw.randrange(1 << 32), answer if is_other else (recording.DONE, 0, 0, 0)))
    return f"no 25 Reachable {number}"


# ---- dumps and starts ----

def missing(draw, tables):
    frame = next(number for number in iter(lambda: draw.randrange(1 << 40), None) if number not in tables.frames)
    links = [each for each in tables.entries if each.base is None]
    if links and draw.random() < 0.8:
        entry = draw.choice(links)
        tables.frames[entry.frame][entry.index] = frame << 12 | 7
    else:
        tables.root = frame = draw.choice([frame, 1 << 40, (1 << 64) - 1])
    return [frame]


def shared(draw, tables):
    """Another entry leads to a table too."""
    frame, level = some(draw, [(frame, level) for frame, level in tables.levels.items() if frame != tables.root])
    above = draw.choice([each for each in tables.frames if tables.levels[each] == level + 1])
    index = draw.choice([k for k in range(512) if not tables.frames[above][k] & 1])
    tables.frames[above][index] = frame << 12 | 7
    return [frame]


def reserved(draw, tables):
    bits = {4: [7], 5: [7], 2: range(13, 21), 3: range(13, 30)}
    entry = some(draw, [each for each in tables.entries if each.level > 3 or each.level > 1 and each.base is not None])
    tables.frames[entry.frame][entry.index] |= 1 << draw.choice(bits[entry.level])
    return [entry.frame, entry.index]


def stray(draw, tables):
    frames = [each for each in draw.sample(range(1 << draw.choice([9, 40])), draw.randint(1, 3)) if each not in tables.frames]
    tables.frames.update({each: [0] * 512 for each in frames})
    return [min(frames)] if frames else some(draw, [])


TABLE_FAULTS = {"Missing": missing, "Shared": shared, "Reserved": reserved, "Stray": stray}


def other_pages(draw, pages, levels):
    """Other pages, and the least base of those that only one of both has."""
    changed = dict(pages)
    if pages and draw.random() < 0.7:
        base = draw.choice(sorted(pages))
        size, physical, rights = pages[base]
        changed[base] = draw.choice([(size, physical ^ BYTES[size], rights), (size, physical, rights ^ draw.randint(1, 7))])
        if draw.random() < 0.4:
            del changed[base]
    else:
        space = recording.Space(1 << 20, changed, levels)
        space.map(draw.choice([0x40000000, 0x7fc000000000, 0xffffffffc0000000]), draw.choice([0, 1, 2]), 7, 0)
        changed = space.pages
    if changed == pages:
        raise NotHere
    return changed, min(base for base in {*pages, *changed} if pages.get(base) != changed.get(base))


def in_dump(fault):
    """What plants the fault of tables in a dump that is there."""
    def planted(draw, segment):
        replica = some(draw, [r for r, dump in enumerate(segment.dumps) if dump])
        what = TABLE_FAULTS[fault](draw, segment.dumps[replica].tables)
        number = 13 + list(TABLE_FAULTS).index(fault)
        name = fault + {"Missing": "Frame", "Shared": "Frame", "Reserved": "Bit", "Stray": "Frame"}[fault]
        return " ".join(map(str, ["no", number, name, replica, *what]))
    return planted


def in_start(fault):
    def planted(draw, segment):
        what = TABLE_FAULTS[fault](draw, segment.start)
        return " ".join(map(str, ["no", 18 + list(TABLE_FAULTS).index(fault), "Start" + fault, *what]))
    return planted


def prefix_past_log(draw, segment):
    replica = some(draw, [r for r, dump in enumerate(segment.dumps) if dump])
    segment.dumps[replica].applied = draw.choice([len(segment.log) + 1, (1 << 32) - 1])
    return f"no 11 PrefixPastLog {replica}"


def prefix_short(draw, segment):
    replica = some(draw, [r for r, dump in enumerate(segment.dumps) if dump and segment.needs[r]])
    segment.dumps[replica].applied = draw.randrange(segment.needs[replica])
    return f"no 12 PrefixShort {replica}"


def differs(draw, segment):
    replica = some(draw, [r for r, dump in enumerate(segment.dumps) if dump])
    dump, levels = segment.dumps[replica], segment.layout.levels
    pages, base = other_pages(draw, segment.moments[dump.applied].pages, levels)
    dump.tables = tables_of(pages, levels, draw)
    return f"no 17 Differs {replica} {base:#x}"


def start_beyond(draw, segment):
    """One of its pages, or two, end above physical 2^51."""
    pages, levels = segment.moments[0].pages, segment.layout.levels
    bases = draw.sample(sorted(pages), min(len(pages), draw.randint(1, 2)))
    if not bases:
        raise NotHere
    beyond = {base: (pages[base][0], draw.choice([1 << 51, (1 << 52) - BYTES[pages[base][0]]]), pages[base][2]) for base in bases}
    segment.start = tables_of({**pages, **beyond}, levels, draw)
    return f"no 22 StartBeyond {min(bases):#x}"


def start_differs(draw, segment):
    pages, base = other_pages(draw, segment.moments[0].pages, segment.layout.levels)
    segment.start = tables_of(pages, segment.layout.levels, draw)
    return f"no 23 StartDiffers {base:#x}"


PLANTS = {
    "ThreadOpen": thread_open, "NoSuchCall": no_such_call, "AnsweredTwice": answered_twice, "NotAnUpdate": not_an_update,
    "PlacedTwice": placed_twice, "NotPlaced": not_placed, "PastLog": past_log, "Early": early, "WrongAnswer": wrong_answer,
    "PrefixPastLog": prefix_past_log, "PrefixShort": prefix_short, "MissingFrame": in_dump("Missing"), "SharedFrame": in_dump("Shared"),
    "ReservedBit": in_dump("Reserved"), "StrayFrame": in_dump("Stray"), "Differs": differs, "StartMissing": in_start("Missing"),
    "StartShared": in_start("Shared"), "StartReserved": in_start("Reserved"), "StartStray": in_start("Stray"), "StartBeyond": start_beyond,
    "StartDiffers": start_differs, "Stale": stale_as("none"), "Stale as over": stale_as("over"), "Stale as foreseen": stale_as("foreseen"),
    "Reachable": reachable}

# two at once, that don't touch each other: the first is found
PAIRS = [("StartStray", "ThreadOpen"), ("StartReserved", "WrongAnswer"), ("StartDiffers", "Stale"), ("WrongAnswer", "Stale"),
         ("Stale", "PrefixPastLog"), ("Stale as over", "StrayFrame"), ("Stale as foreseen", "Differs"), ("WrongAnswer", "Reachable"),
         ("Stale", "Reachable"), ("Reachable", "Differs")]


def plant(name, draw, segment):
    """`name` is that of a fault, or of two."""
    *behind, first = reversed(name.split(" before "))
    for each in behind:
        PLANTS[each](draw, segment)
    return PLANTS[first](draw, segment)


# ---- the format ----

def other_counts(draw, segment):
    """Counts of which one is out of its range."""
    counts = [*segment.layout, len(segment.log), len(segment.events), len(segment.start.frames) if segment.start else 0]
    which, value = draw.choice([(0, 3), (0, 6), (1, 0), (1, 5), (2, 0), (3, 0), (4, 65537), (5, 131073), (6, 65536), (6, (1 << 32) - 1)])
    counts[which] = value
    return struct.pack(">BBHHIII", *counts)


def other_layout(draw, segment):
    """Counts of another layout, each in its range."""
    levels, replicas, threads, tables = layout = [*segment.layout]
    which = draw.randrange(4)
    layout[which] = [9 - levels, replicas % 4 + 1, threads % 65535 + 1, tables % 65535 + 1][which]
    return struct.pack(">BBHHIII", *layout, len(segment.log), len(segment.events), len(segment.start.frames) if segment.start else 0)


def bad_head(draw, data):
    applied, frames, root = struct.unpack(">IIQ", data)
    return struct.pack(">IIQ", *draw.choice([(applied, 65536, root), (applied + 1, 0, 0), (0, 0, root + 1), (1, 0, 1)]))


def bad_event(draw, segment, event, data):
    """24 bytes that are no event here: one field is out of its range."""
    call = [(0, 2), (0, 255), (4, 7), (7, 1), (1, segment.layout.replicas), (1, 255), (8, 1), (5, 3), (6, 8)]
    reply = [(0, 2), (1, 10), (1, 255), (2, 3), (3, 8), (12, 1), (15, 128)]
    at, value = draw.choice(call if isinstance(event, Call) else reply)
    if isinstance(event, Call) and event.kind in (MAP, TOUCH) and draw.random() < 0.2:
        at, value = (16, 255) if event.kind == MAP else (23, 1)         # beyond physical 2^51; a physical address
    if isinstance(event, Call) and draw.random() < 0.1 and segment.layout.threads < 65535:
        return data[:2] + struct.pack(">H", segment.layout.threads) + data[4:]
    return data[:at] + bytes([value]) + data[at + 1:]


def bad_number(draw, said, i):
    """A frame number that isn't above the one before it, or isn't below 2^40."""
    (*_, k), _ = said[i]
    below = [said[i - 2][1], bytes(8)] if k > 0 else []
    return draw.choice([struct.pack(">Q", 1 << 40), b"\xff" * 8, *below])


def plant_in_unit(name, draw, segment, said):
    """Which unit has the fault, its bytes then, and the numbers of the fault."""
    where = {each: i for i, (each, _) in enumerate(said)}
    if name == "BadMagic":
        return 0, draw.choice([b"NRVT", b"nRVS", bytes(4)]), []
    if name == "BadVersion":
        return 1, struct.pack(">H", draw.choice([0, 2, 3, 256, 65535])), []
    if name == "BadCount" and draw.random() < 0.5:
        i = where["head", draw.randrange(segment.layout.replicas)]
        return i, bad_head(draw, said[i][1]), []
    if name in ("BadCount", "BadChain"):
        return 2, (other_counts if name == "BadCount" else other_layout)(draw, segment), []
    if name == "BadEvent":
        i = some(draw, [i for each, i in where.items() if each[0] == "event"])
        (_, k), data = said[i]
        return i, bad_event(draw, segment, segment.events[k], data), [k]
    kind = "start" if name == "BadStart" else "dump"
    i = some(draw, [i for each, i in where.items() if each[0] == kind and each[-2] == "number"])
    return i, bad_number(draw, said, i), [each for each in said[i][0] if isinstance(each, int)]


def plant_in_bytes(name, draw, segments, k):
    before, behind = spelled(segments[:k]), spelled(segments[k + 1:])
    said = units(segments[k])
    if name == "Truncated":
        data = b"".join(data for _, data in said)
        return before + data[:draw.randrange(k == 0 or 1, len(data))], "no 1 Format Truncated"
    i, data, numbers = plant_in_unit(name, draw, segments[k], said)
    units_then = [each for _, each in said[:i]] + [data] + [each for _, each in said[i + 1:]]
    return before + b"".join(units_then) + behind, " ".join(map(str, ["no 1 Format", name, *numbers]))


FORMATS = ("BadMagic", "BadVersion", "BadCount", "BadChain", "BadStart", "BadEvent", "BadFrame", "Truncated")
