#!/usr/bin/env python3
"""What shows a fault, computed a second time in plain Python beside `model_auditor.py`: written from docs/FORMATS.md, docs/man
and docs/DEFINITIONS.md alone, to compare with. Nothing here is proved, and nothing depends on it.

    model_evidence.py <TRACE            what `nrvs explain` prints, with its status
    model_evidence.py --json <TRACE     what `nrvs explain --json` prints, with its status
    model_evidence.py --all [--json] <TRACE     what `nrvs explain --all` prints, in lines or as JSON, with its status
    model_evidence.py resolve A [R] <TRACE      what `nrvs resolve --steps --address A --replica R` prints, with its status
"""
import json
import sys

import model_auditor as model
from model_auditor import TOUCH, Call, Reply
from model_format import of_format
from model_words import USUALLY, answer_words, request_words, sentence_of, usual_line

RESERVED = {2: "bits 13 to 20 are reserved in an entry that maps 2M", 3: "bits 13 to 29 are reserved in an entry that maps 1G",
            4: "bit 7 is reserved in an entry of level {}"}


# ---- facts: each as JSON, and as a line of text ----

def event_fact(trace, number):
    if number >= len(trace.events):
        return None
    event = trace.events[number]
    if isinstance(event, Call):
        return {"event": number, "thread": event.thread, "replica": event.replica, "request": request_words(event)}
    return {"event": number, "call": event.call, "at": event.at, "answer": answer_words(event.answer)}


def event_line(fact, number=None):
    if fact is None:
        return f"event {number}: none"
    if "request" in fact:
        return f"call {fact['event']}, thread {fact['thread']}, replica {fact['replica']}: {fact['request']}"
    return f"reply {fact['event']} to call {fact['call']}, at {fact['at']}: {fact['answer']}"


def step_line(step):
    return f"level {step['level']}, frame {step['frame']:#x}, index {step['index']}: {step['word']}"


def way_lines(way):
    return [step_line(step) for step in way] or ["it is the root"]


def changed_line(shown):
    """The last change of an address; or where none of the updates is it: nothing, or in a chain what comes before them."""
    changed = shown["changed"]
    by = f" place {changed['place']}, {event_line(changed['call'])}" if isinstance(changed, dict) else f": {changed or 'none'}"
    return f"address {shown['address']}, last changed by{by}"


# ---- what is sought in the trace ----

def place_of(trace, call):
    return trace.log.index(call) if call in trace.log else None


def replies_of(trace):
    """Each reply by its event's index, of the calls it can answer."""
    return {i: event for i, event in enumerate(trace.events) if isinstance(event, Reply)}


def known_by(trace, reply):
    return reply.at + model.is_update(trace, reply.call)


def apply(trace, space, number):
    """What a number in the log does to a space: where it is no update's, nothing."""
    if model.is_update(trace, number):
        space.apply(trace.events[number])


def begins_with(trace, start):
    """The space before the log: with no pages, but for a segment of a chain."""
    return start.copy() if start else model.Space(trace.levels, trace.tables)


def look(trace, address, places, start=None):
    """How an address looks after so many places of the log, and the last that changed it."""
    space, changed = begins_with(trace, start), None
    asked = Call(0, 0, model.RESOLVE, 0, 0, address, 0)
    looks = space.look(asked)
    for place in range(places):
        apply(trace, space, trace.log[place])
        if space.look(asked) != looks:
            looks, changed = space.look(asked), {"place": place, "call": event_fact(trace, trace.log[place])}
    return looks, changed


# ---- what is near a wrong answer ----

def answered(trace, space, number):
    """What the space answers a call; the space stays as it is."""
    call = trace.events[number]
    return space.copy().apply(call) if model.is_update(trace, number) else space.look(call)


def stretch(numbers):
    """The first of some numbers, and those that follow it one by one, up or down."""
    if not numbers:
        return None
    step = 1 if numbers[-1] >= numbers[0] else -1
    run = [number for k, number in enumerate(numbers) if number == numbers[0] + k * step]
    return {"first": min(run), "last": max(run)}


def right_numbers(trace, number, told, start=None):
    """After how many entries the space answers a call so."""
    space, right = begins_with(trace, start), []
    for entries in range(len(trace.log) + 1):
        if entries:
            apply(trace, space, trace.log[entries - 1])
        if answered(trace, space, number) == told:
            right.append(entries)
    return right


def nearest(right, below, above):
    """The nearest of some rising numbers below one number, and above another and not below the one."""
    return {"before": stretch([n for n in right[::-1] if n < below]), "behind": stretch([n for n in right if above < n >= below])}


def memory_of(space, told):
    """The memory that an answer names, and the least address that the space translates to it."""
    if told.code not in (model.REMOVED, model.MAPPED, model.ALLOWED):
        return None
    addresses = [base + told.value - phys for base, (size, phys, _) in space.pages.items() if phys <= told.value < phys + model.SIZES[size]]
    return {"phys": f"{told.value:#x}", "address": f"{min(addresses):#x}" if addresses else None}


def right_line(right, places):
    def words(numbers):
        first, last = numbers["first"], numbers["last"]
        return f"{first} on" if last == places else str(first) if first == last else f"{first} to {last}"

    return f"right after: {', and '.join(words(numbers) for numbers in (right['before'], right['behind']) if numbers) or 'none'}"


def nearby_lines(shown, places):
    yield right_line(shown["right"], places)
    if shown["memory"]:
        yield f"{shown['memory']['phys']} is mapped {'at ' + shown['memory']['address'] if shown['memory']['address'] else 'nowhere'}"


def entries_read(trace, dump, address):
    """The entries that the walk of an address reads."""
    number, steps = dump.root, []
    for level in range(trace.levels, 0, -1):
        if number not in dump.frames:
            break
        index = address >> 3 + 9 * level & 511
        word = dump.frames[number][index]
        steps.append({"level": level, "frame": number, "index": index, "word": f"{word:#x}"})
        entry = model.entry(word, level) if word & 1 else "absent"
        if not isinstance(entry, tuple) or entry[0]:
            break
        number = entry[1] >> 12
    return steps


def ways_to(trace, dump, fits):
    """The ways from the root to a table for which this holds, by the order of the traversal."""
    def visit(frame, level, way):
        if fits(frame, level):
            yield list(way)
        for index, word in enumerate(dump.frames.get(frame, ())):
            entry = model.entry(word, level) if word & 1 else "absent"
            if isinstance(entry, tuple) and not entry[0]:
                step = {"level": level, "frame": frame, "index": index, "word": f"{word:#x}"}
                yield from visit(entry[1] >> 12, level - 1, way + [step])

    return visit(dump.root, trace.levels, [])


# ---- the evidence of each fault, by what the fault names ----

def of_thread_open(trace, index):
    thread = trace.events[index].thread
    first = max(i for i in range(index) if isinstance(trace.events[i], Call) and trace.events[i].thread == thread)
    return {"first": event_fact(trace, first), "second": event_fact(trace, index)}


def of_no_such_call(trace, index):
    return {"reply": event_fact(trace, index), "named": event_fact(trace, trace.events[index].call)}


def of_answered_twice(trace, index):
    call = trace.events[index].call
    first = min(i for i, reply in replies_of(trace).items() if reply.call == call)
    return {"call": event_fact(trace, call), "first": event_fact(trace, first), "second": event_fact(trace, index)}


def of_not_an_update(trace, place):
    return {"place": place, "call": trace.log[place], "named": event_fact(trace, trace.log[place])}


def of_placed_twice(trace, place):
    return {"call": event_fact(trace, trace.log[place]), "first": place_of(trace, trace.log[place]), "second": place}


def of_not_placed(trace, index):
    reply = trace.events[index]
    there = trace.log[reply.at] if reply.at < len(trace.log) else None
    return {"call": event_fact(trace, reply.call), "reply": event_fact(trace, index), "own": place_of(trace, reply.call), "there": there}


def of_past_log(trace, index):
    return {"call": event_fact(trace, trace.events[index].call), "reply": event_fact(trace, index), "places": len(trace.log)}


def of_early(trace, number):
    told = {i: known_by(trace, reply) for i, reply in replies_of(trace).items() if i < number}
    floor = max(told.values())
    index = min(i for i in told if told[i] == floor)
    own = next((i for i, reply in replies_of(trace).items() if reply.call == number), None)
    entries = place_of(trace, number) if model.is_update(trace, number) else trace.events[own].at
    return {"call": event_fact(trace, number), "entries": entries, "floor": floor, "reply": event_fact(trace, index),
            "answered": event_fact(trace, trace.events[index].call), "own": None if own is None else event_fact(trace, own)}


def of_wrong_answer(trace, number, start=None):
    index, reply = next((i, reply) for i, reply in replies_of(trace).items() if reply.call == number)
    space, call = begins_with(trace, start), trace.events[number]
    for each in trace.log[:reply.at]:
        space.apply(trace.events[each])
    memory, wanted = memory_of(space, reply.answer), answered(trace, space, number)
    address = wanted.value if wanted.code in (model.OVERLAP, model.INSIDE) else call.address
    return {"call": event_fact(trace, number), "reply": event_fact(trace, index), "wanted": answer_words(wanted),
            "address": f"{address:#x}", "changed": look(trace, address, reply.at, start)[1],
            "right": nearest(right_numbers(trace, number, reply.answer, start), reply.at, reply.at), "memory": memory}


def of_prefix_past_log(trace, r):
    return {"replica": r, "applied": trace.dumps[r].applied, "places": len(trace.log)}


def replies_on_more(trace, r):
    """The replies to calls made at a replica by which more entries are known than its dump has applied."""
    for i, reply in replies_of(trace).items():
        call = trace.events[reply.call] if reply.call < len(trace.events) else None
        if isinstance(call, Call) and call.replica == r and known_by(trace, reply) > trace.dumps[r].applied:
            yield i, reply


def of_prefix_short(trace, r):
    applied = trace.dumps[r].applied
    index, reply = next(replies_on_more(trace, r))
    return {"replica": r, "applied": applied, "known": known_by(trace, reply), "reply": event_fact(trace, index),
            "call": event_fact(trace, reply.call)}


def of_missing_frame(trace, r, frame):
    return {"replica": r, "frame": frame, "path": next(ways_to(trace, trace.dumps[r], lambda number, level: number == frame))}


def of_shared_frame(trace, r, frame):
    ways = ways_to(trace, trace.dumps[r], lambda number, level: number == frame)
    return {"replica": r, "frame": frame, "first": next(ways), "second": next(ways)}


def of_reserved_bit(trace, r, frame, index):
    dump = trace.dumps[r]
    word = dump.frames[frame][index]
    path = next(ways_to(trace, dump, lambda number, level: number == frame and model.entry(word, level) == "reserved"))
    entry = {"level": trace.levels - len(path), "frame": frame, "index": index, "word": f"{word:#x}"}
    reserved = range(13, 3 + 9 * entry["level"]) if entry["level"] < 4 else (7,)
    return {"replica": r, "path": path, "entry": entry, "bit": next(bit for bit in reserved if word >> bit & 1)}


def of_stray_frame(trace, r, frame):
    return {"replica": r, "frame": frame}


def of_differs(trace, r, address, start=None):
    dump = trace.dumps[r]
    wanted, changed = look(trace, address, dump.applied, start)
    return {"replica": r, "applied": dump.applied, "address": f"{address:#x}", "found": model.walk(trace, dump, address),
            "path": entries_read(trace, dump, address), "wanted": answer_words(wanted), "changed": changed}


OF_FAULT = dict(zip(model.FAULTS[1:], (of_thread_open, of_no_such_call, of_answered_twice, of_not_an_update, of_placed_twice,
                                       of_not_placed, of_past_log, of_early, of_wrong_answer, of_prefix_past_log, of_prefix_short,
                                       of_missing_frame, of_shared_frame, of_reserved_bit, of_stray_frame, of_differs)))


# ---- the lines of text ----

def lines_of(fault, shown, places):
    """The lines after the verdict's, of a trace whose log has so many places."""
    both = [event_line(shown["call"])] if isinstance(shown.get("call"), dict) else []
    both += [event_line(shown["reply"])] if shown.get("reply") else []
    return {
        "ThreadOpen": lambda: [event_line(shown["first"]), event_line(shown["second"])],
        "NoSuchCall": lambda: both + [event_line(shown["named"], shown["reply"]["call"])],
        "AnsweredTwice": lambda: both + [event_line(shown["first"]), event_line(shown["second"])],
        "NotAnUpdate": lambda: [f"place {shown['place']} has {shown['call']}", event_line(shown["named"], shown["call"])],
        "PlacedTwice": lambda: [f"places {shown['first']} and {shown['second']}"] + both,
        "NotPlaced": lambda: both + [f"{words}: {'none' if place is None else place}"
                                     for words, place in (("its place", shown["own"]), ("the call there", shown["there"]))],
        "PastLog": lambda: both + [f"entries of the log: {shown['places']}"],
        "Early": lambda: [both[0], event_line(shown["own"]) if shown["own"] else "no reply to it",
                          f"entries before it: {shown['entries']}", f"known when it was made: {shown['floor']}", both[1],
                          event_line(shown["answered"])],
        "WrongAnswer": lambda: both + [f"the space answers: {shown['wanted']}", changed_line(shown), *nearby_lines(shown, places)],
        "PrefixPastLog": lambda: [f"applied: {shown['applied']}", f"entries of the log: {shown['places']}"],
        "PrefixShort": lambda: [f"applied: {shown['applied']}", f"known there: {shown['known']}", both[1], both[0]],
        "MissingFrame": lambda: way_lines(shown["path"]) + [f"frame {shown['frame']:#x}, which the dump doesn't have"],
        "SharedFrame": lambda: ["one way:"] + way_lines(shown["first"]) + ["another:"] + way_lines(shown["second"]),
        "ReservedBit": lambda: [step_line(step) for step in shown["path"] + [shown["entry"]]] + [
            f"bit {shown['bit']} is set: {RESERVED.get(shown['entry']['level'], RESERVED[4]).format(shown['entry']['level'])}"],
        "StrayFrame": lambda: [f"no table leads to frame {shown['frame']:#x}"],
        "Differs": lambda: [f"applied: {shown['applied']}", f"the dump: {shown['found']}", *map(step_line, shown["path"]),
                            f"the space: {shown['wanted']}", changed_line(shown)],
    }[fault]()


# ---- the whole answer ----

# the words of a line where they aren't the name
COUNTS = {"overlapping": "overlapping calls", "beside": "touches beside an update", "open": "touches right since an update was open",
          "kept": "faults by kept rights", "lagging": "faults by a lagging table", "repeated": "most of these by one thread at one address"}


def overlapping(events):
    """How many answered updates and reads are open while another one is: each that is made while one is open, and that one."""
    still_open, met, told = set(), set(), {event.call for event in events if isinstance(event, Reply)}
    for index, event in enumerate(events):
        if isinstance(event, Reply):
            still_open.discard(event.call)
        elif event is not None and event.kind < TOUCH:
            met |= still_open | ({index} if still_open else set())
            still_open.add(index)
    return len(met & told)


def counts_of(trace, order):
    """How much a right trace has."""
    space, placed = model.Space(trace.levels, trace.tables), set(trace.log)
    for call in trace.log:
        space.apply(trace.events[call])
    return {"calls": len(order), "updates": len(placed), "reads": sum(call not in placed for call in order),
            "replicas": trace.replicas, "pages": len(space.pages), "overlapping": overlapping(trace.events)}


def explained(data):
    """The verdict's lines; how much a yes has, or the evidence of a no; and the lines of that."""
    text, status = model.verdict(data)
    if status == 0:
        order = [int(word) for word in text.split()[2:]]
        counts = counts_of(model.read(data), order)
        lines = [f"{COUNTS.get(words, words)}: {counts[words]}" for words in ("calls", "updates", "reads", "replicas", "pages", "overlapping")]
        return text, {"verdict": "yes", "order": order, "counts": counts}, lines
    _, _, fault, *numbers = text.split()
    if fault == "Format":
        shown, lines = of_format(data, numbers[0], numbers[1:])
    else:
        trace = model.read(data)
        shown = OF_FAULT[fault](trace, *(int(number, 0) for number in numbers))
        lines = lines_of(fault, shown, len(trace.log))
    said = sentence_of(fault, shown, data[:20])
    told = {"verdict": text.strip(), "sentence": said, "usually": USUALLY[fault], "evidence": {"fault": fault, **shown}}
    return text, told, [said, usual_line(fault), *lines]


def own_fault(trace, r):
    """The first fault of a replica's dump, as the auditor prints it, or none."""
    dump, space = trace.dumps[r], model.Space(trace.levels, trace.tables)
    if dump.applied > len(trace.log):
        return str(model.Fault("PrefixPastLog", r))
    if any(replies_on_more(trace, r)):
        return str(model.Fault("PrefixShort", r))
    for number in trace.log[:dump.applied]:
        apply(trace, space, number)
    try:
        model.check_dump(trace, r, space)
    except model.Fault as fault:
        return str(fault)
    return None


def said_of_dump(trace, r, header):
    """What `--all` says of a replica's dump; and the lines of that."""
    text = own_fault(trace, r)
    if text is None:
        return {"fault": None, "replica": r}, [f"dump {r}: no fault"]
    _, _, fault, *numbers = text.split()
    shown = OF_FAULT[fault](trace, *(int(number, 0) for number in numbers))
    said = sentence_of(fault, shown, header)
    told = {"replica": r, "fault": text[3:], "sentence": said, "usually": USUALLY[fault], "evidence": {"fault": fault, **shown}}
    return told, [f"dump {r}: {text[3:]}", said, usual_line(fault), *lines_of(fault, shown, len(trace.log))]


def other_dumps(data):
    """What `--all` says of each dump but the one that the first fault is of."""
    words = model.verdict(data)[0].split()
    if words[0] == "yes" or words[2] == "Format":
        return []
    own = int(words[3]) if int(words[1]) >= 11 else None
    trace = model.read(data)
    return [said_of_dump(trace, r, data[:20]) for r in range(trace.replicas) if r != own]


def explain_all(data):
    """What `nrvs explain --all` prints, and its status."""
    text, status = explain(data)
    return text + "".join(line + "\n" for _, lines in other_dumps(data) for line in lines), status


def explain_all_json(data):
    """What `nrvs explain --all --json` prints, and its status."""
    text, whole, _ = explained(data)
    dumps = [told for told, _ in other_dumps(data)]
    whole = {**whole, "dumps": dumps} if dumps else whole
    return json.dumps(whole, separators=(",", ":"), sort_keys=True) + "\n", int(text.startswith("no"))


def explain(data):
    """What `nrvs explain` prints, and its status."""
    text, _, lines = explained(data)
    return text + "".join(line + "\n" for line in lines), int(text.startswith("no"))


def explain_json(data):
    """What `nrvs explain --json` prints, and its status."""
    text, whole, _ = explained(data)
    return json.dumps(whole, separators=(",", ":"), sort_keys=True) + "\n", int(text.startswith("no"))


def resolve_in_steps(data, spelling, replica=0):
    """What `nrvs resolve --steps` prints, what it says on standard error, and its status."""
    text, error, status = model.resolve(data, spelling, replica)
    if status:
        return text, error, status
    trace = model.read(data)
    steps = entries_read(trace, trace.dumps[replica], int(spelling, 16))
    return text + "".join(step_line(step) + "\n" for step in steps), error, status


def main(words, data):
    if words[:1] == ["resolve"]:
        text, error, status = resolve_in_steps(data, words[1], *map(int, words[2:]))
        sys.stderr.write(error)
    else:
        text, status = {(): explain, ("--json",): explain_json, ("--all",): explain_all, ("--all", "--json"): explain_all_json}[tuple(words)](data)
    sys.stdout.write(text)
    return status


if __name__ == "__main__":
    sys.exit(main(sys.argv[1:], sys.stdin.buffer.read()))
