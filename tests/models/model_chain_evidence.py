#!/usr/bin/env python3
"""What shows a fault of a chain, computed a second time in plain Python beside `model_chains.py`: written from docs/FORMATS.md and
docs/man alone, to compare with. What a segment shares with a trace is tests/models/model_evidence.py's.

    model_chain_evidence.py [--json] <CHAIN     what `nrvs explain --chain` prints, with its status
"""
import json
import sys

import model_auditor as traces
import model_chains as chains
import model_evidence as evidence
import model_format
from model_auditor import Fault, Reply
from model_evidence import event_fact, event_line, step_line, way_lines

OF_DUMPS = {"StartMissing": "MissingFrame", "StartShared": "SharedFrame", "StartReserved": "ReservedBit", "StartStray": "StrayFrame"}


# ---- a fault of the format ----

def of_format(data, begins, name, numbers):
    """The unit of the segment that shows the fault, where it begins in the chain and what was read of it; the sentence, and the lines."""
    shown, lines = model_format.of_format(data[begins:], name, numbers, begins)
    return shown, f"These bytes are no segment: {model_format.reason_words(shown, data[begins:])}.", lines


# ---- a fault of the start ----

def of_start(segment, before, origin, name, numbers):
    """The evidence of 18 to 23, the sentence, and the lines; `before` is the space after the segment before, if there is one."""
    alone = segment.trace._replace(dumps=[segment.start])
    if name in OF_DUMPS:
        shown = evidence.OF_FAULT[OF_DUMPS[name]](alone, 0, *numbers)
        del shown["replica"]
        return shown, *words_of_tables(name, shown)
    address, = numbers
    shown = {"address": f"{address:#x}", "found": traces.walk(alone, segment.start, address),
             "path": evidence.entries_read(alone, segment.start, address)}
    lines = [f"the start: {shown['found']}", *map(step_line, shown["path"])]
    if name == "StartBeyond":
        return (shown, f"At {address:#x} the start has a page that ends above {1 << 51:#x}.", [*lines, f"its page ends above {1 << 51:#x}"])
    shown |= {"wanted": looks(before, address), "changed": origin(before, address)}
    return (shown, f"At {address:#x} the start says `{shown['found']}`, but after the segment before it the address space says "
                   f"`{shown['wanted']}`.", [*lines, f"the space: {shown['wanted']}", evidence.changed_line(shown)])


def words_of_tables(name, shown):
    """The sentence and the lines of what is wrong with the tables of the start."""
    frame, entry = f"frame {shown.get('frame', 0):#x}", shown.get("entry", {})
    if name == "StartMissing":
        leads = "An entry of the tables of the start leads to" if shown["path"] else "The root of the start is"
        return f"{leads} {frame}, which the start doesn't have.", way_lines(shown["path"]) + [f"{frame}, which the start doesn't have"]
    if name == "StartShared":
        return (f"The tables of the start reach {frame} twice: a change on one way is seen on the other.",
                ["one way:", *way_lines(shown["first"]), "another:", *way_lines(shown["second"])])
    if name == "StartReserved":
        return (f"Entry {entry['index']} of frame {entry['frame']:#x} of the start has the reserved bit {shown['bit']} set: a processor "
                "faults there.", evidence.lines_of("ReservedBit", shown, 0))
    return f"The start holds {frame} as a table, and no table leads to it.", [f"no table leads to {frame}"]


# ---- a stale touch ----

def lingering(joined, entries, address):
    """How the address may still be found to look behind so many entries: as before a change, where no answered one from that on ends this."""
    places, seen = joined.changes([address])[address] if joined else ([], [])
    changes = [(k, joined.entries[place].answered < chains.NEVER) for k, place in enumerate(places) if place < entries]

    def is_ended(page, since):
        return any(is_answered and (page is None or chains.takes_away(seen[k], seen[k + 1])) for k, is_answered in changes[since:])
    return [seen[k] for k, _ in changes if not is_ended(seen[k], k)]


class Seen:
    """How many entries of a segment's log a touch may see that found a page, or none, and how its address looks, with the changes of that in
    the segment."""

    def __init__(self, trace, start, address, made, answered, is_of_none=False):
        self.alone = chains.Joined(start)
        self.alone.add(trace)
        self.made, self.is_of_none = made, is_of_none
        self.places, self.looks = self.alone.changes([address])[address]
        with_page, without, self.most = self.alone.bounds(self.places, self.looks, made, answered)      # counted in changes
        self.least = without if is_of_none else with_page
        self.first = self.places[self.least - 1] + 1 if self.least else 0
        self.last = self.end_of(self.most, trace)

    def end_of(self, changes, trace):
        """The most entries that have just so many of the changes."""
        return self.places[changes] if changes < len(self.places) else len(trace.log)

    def still_open(self):
        """The first place before that of the update which it has to see that would end such a look too, and wasn't answered by then; or None."""
        for k in range(self.least - 1):
            is_open = self.alone.entries[self.places[k]].answered > self.made
            if is_open and (self.is_of_none or chains.takes_away(self.looks[k], self.looks[k + 1])):
                return self.places[k]
        return None


def shown_to(trace, replica, number):
    """How many entries the replica was known to have applied when that call was made, and the first reply that shows so many, or None."""
    most, shown = 0, None
    for index, reply in enumerate(trace.events[:number]):
        if isinstance(reply, Reply) and trace.events[reply.call].replica == replica and trace.events[reply.call].kind < chains.TOUCH:
            if evidence.known_by(trace, reply) > most:
                most, shown = evidence.known_by(trace, reply), index
    return most, shown


def missed_update(trace, first):
    """The update of the last of the entries that a touch has to see, and its reply, or none."""
    if first == 0:
        return None
    call = trace.log[first - 1]
    reply = next(i for i, each in enumerate(trace.events) if isinstance(each, Reply) and each.call == call)
    return {"place": first - 1, "call": event_fact(trace, call), "reply": event_fact(trace, reply)}


def touch_answered(trace, start, number, told):
    """After how many entries the space answers a touch so."""
    as_access = trace.events[number]._replace(kind=traces.ACCESS)
    return evidence.right_numbers(trace._replace(events=[as_access if i == number else each for i, each in enumerate(trace.events)]), number, told, start)


def of_stale(trace, start, number, left):
    """How many entries of the log it may see, how its address looks after them, and how it may still look behind the segments before. Also
    the update that it should have seen, which one before that was open, and after which entries its answer would be right."""
    end = next(i for i, each in enumerate(trace.events) if isinstance(each, Reply) and each.call == number)
    call, told = trace.events[number], trace.events[end].answer
    is_of_none = told == chains.allow(trace, None, call)
    may_see = Seen(trace, start, call.address, number, end, is_of_none)
    places, first, last, address = may_see.places, may_see.first, may_see.last, call.address
    lags, seen = {}, []
    if is_of_none:
        known, shown = shown_to(trace, call.replica, number)
        lags = {"known": known, "shown": None if shown is None else event_fact(trace, shown)}
    least = min(first, lags.get("known", first))
    for entries in (least, *(place + 1 for place in places if least <= place < last)):
        space = start.copy()
        for each in trace.log[:entries]:
            space.apply(trace.events[each])
        seen.append({"entries": entries, "look": looks(space, address)})
    shown = {"call": event_fact(trace, number), "reply": event_fact(trace, end), "first": first, "last": last, "looks": seen, **lags}
    left = [page for page in left if (page is None) == is_of_none]
    if left and first == 0:
        shown["earlier"] = [look_of(trace, page, address) for page in left]
    right = evidence.nearest(touch_answered(trace, start, number, told), first, last)
    still_open = may_see.still_open()
    return shown | {"missed": missed_update(trace, first), "open": None if still_open is None else taken_at(trace, still_open), "right": right,
                    "later": {"place": last, "call": event_fact(trace, trace.log[last])} if right["behind"] else None}


def look_of(trace, page, address):
    """How an address looks that this page covers, or none."""
    space = chains.Space(trace.levels, trace.tables)
    if page:
        space.add(*page)
    return looks(space, address)


def words_of_stale(shown, places):
    first, last, told, missed, later = (shown[each] for each in ("first", "last", "reply", "missed", "later"))
    lags = [f"entries its replica had applied: {shown['known']}"] if "known" in shown else []
    lags += [event_line(shown["shown"])] if shown.get("shown") else []
    by_what, least = ("even by a table that lags ", min(first, shown["known"])) if lags else ("", first)
    return (f"Touch {shown['call']['event']} was answered `{told['answer']}`, but {by_what}it may see only {least} to {last} entries of the log, and "
            "after none of these its address looks so." + (" Nor does it in what earlier segments leave." if "earlier" in shown else ""),
            [event_line(shown["call"]), event_line(told), f"entries seen at least: {first}", f"entries seen at most: {last}", *lags,
             *(f"before the segment: {look}" for look in shown.get("earlier", ())),
             *(f"after {each['entries']}: {each['look']}" for each in shown["looks"]),
             *([f"should have seen place {missed['place']}, {event_line(missed['call'])}", event_line(missed["reply"])] if missed
               else ["should have seen: none"]), *update_lines("still open then:", shown["open"]),
             *([f"called later: place {later['place']}, {event_line(later['call'])}"] if later else []), evidence.right_line(shown["right"], places)])


def update_lines(what, update):
    """The lines of an update, if there is one."""
    if not update:
        return []
    return [f"{what} place {update['place']}, {event_line(update['call'])}", event_line(update["reply"]) if update["reply"] else "no reply to it"]


# ---- memory that can still be reached ----

def of_reachable(trace, start, number, joined, entries):
    """The reply that says otherwise; or else the least address that may lead to the memory, how it looks then, and what takes that away.
    `joined` is the run with the segments before, whose logs have so many entries; of the first segment there is none."""
    call = trace.events[number]
    reply = next((i for i, each in enumerate(trace.events) if isinstance(each, Reply) and each.call == number), None)
    shown = {"call": event_fact(trace, number), "reply": reply and event_fact(trace, reply)}
    if reply and trace.events[reply].answer != traces.Answer(traces.DONE):
        return shown
    low, high = call.phys, call.phys + traces.SIZES[call.size]
    for address in ways(joined or Seen(trace, start, 0, number, number).alone, low, high):
        may_see = Seen(trace, start, address, number, number)
        found = leading(trace, may_see, address, low, high) or may_see.first == 0 and lingering_lead(trace, joined, entries, address, low, high)
        if found:
            return shown | {"address": f"{address:#x}", "first": may_see.first, "last": may_see.last, **found}
    raise AssertionError("the memory can't be reached")


def ways(joined, low, high):
    """Addresses that once led to the memory, by rising address: of all between which no page ever began or ended, the least."""
    lives = joined.lives()
    pages = {life.page for life in lives}
    ends = {end for base, size, *_ in pages for end in (base, base + traces.SIZES[size])}
    found = set()
    for base, size, phys, _ in pages:
        first, last = base + max(low, phys) - phys, base + min(high, phys + traces.SIZES[size]) - phys
        if first < last:
            found |= {first, *(end for end in ends if first < end < last)}
    return sorted(found)


def leads(page, address, low, high):
    return page is not None and low <= page[2] + address - page[0] < high


def leading(trace, may_see, address, low, high):
    """The last moment of the segment at which the address may lead to the memory, and the update that ends that; or None."""
    for changes in range(may_see.most, may_see.least - 1, -1):
        if leads(may_see.looks[changes], address, low, high):
            ending = next((k for k in range(changes, len(may_see.places)) if not leads(may_see.looks[k + 1], address, low, high)), None)
            return {"entries": may_see.end_of(changes, trace), "look": look_of(trace, may_see.looks[changes], address),
                    "taken": None if ending is None else taken_at(trace, may_see.places[ending])}
    return None


def taken_at(trace, place):
    call = trace.log[place]
    reply = next((i for i, each in enumerate(trace.events) if isinstance(each, Reply) and each.call == call), None)
    return {"place": place, "call": event_fact(trace, call), "reply": reply and event_fact(trace, reply)}


def lingering_lead(trace, joined, entries, address, low, high):
    """The last look from before the segment that leads to the memory, or None."""
    left = [page for page in lingering(joined, entries, address) if leads(page, address, low, high)]
    return left and {"entries": None, "look": look_of(trace, left[-1], address), "taken": "an earlier segment"}


def words_of_reachable(shown):
    number, reply, taken = shown["call"]["event"], shown["reply"], shown.get("taken")
    lines = [event_line(shown["call"]), event_line(reply) if reply else "no reply to it"]
    if "address" not in shown:
        return f"Release {number} was answered `{reply['answer']}`, and not `done`.", lines
    lines += [f"address {shown['address']}", f"entries seen at least: {shown['first']}", f"entries seen at most: {shown['last']}",
              f"{'before the segment' if shown['entries'] is None else 'after %d' % shown['entries']}: {shown['look']}"]
    if isinstance(taken, dict):
        lines += update_lines("taken away by", taken)
        when = f"is answered only at event {taken['reply']['event']}" if taken["reply"] else "is never answered"
        how = f"call {taken['call']['event']} takes it from there, and {when}"
    else:
        lines += [f"taken away by: {taken or 'none in this segment'}"]
        how = "an update of an earlier segment took it from there, and was never answered" if taken else "no update takes it from there"
    return f"Release {number} gives memory away that an access of {shown['address']} may still reach: {how}.", lines


# ---- a fault that a trace may have too ----

def of_segment(segment, start, origin, name, numbers):
    """The evidence of 2 to 17, from the space with which the segment begins."""
    trace = segment.trace if traces.FAULTS.index(name) < 6 else chains.in_order(segment)
    of = evidence.OF_FAULT[name]
    shown = of(trace, *numbers, start) if name in ("WrongAnswer", "Differs") else of(trace, *numbers)
    if shown.get("changed", 0) is None:
        shown["changed"] = origin(start, int(shown["address"], 0))
    return shown, evidence.sentence_of(name, shown, b""), evidence.lines_of(name, shown, len(trace.log))


# ---- touches beside updates ----

def changed_pages(trace, start):
    """For each update, by its call number, the page whose addresses it changes: its base and the address behind it."""
    space, pages = start.copy(), {}
    for number in trace.log:
        call = trace.events[number]
        before = space.pages.get(call.address)
        space.apply(call)
        after = space.pages.get(call.address)
        if before != after:
            pages[number] = call.address, call.address + traces.SIZES[(before or after)[0]]
    return pages


def beside(trace, start):
    """How many answered touches are open while an update is that changes how their address looks: one pass over the events."""
    pages, told = changed_pages(trace, start), {event.call for event in trace.events if isinstance(event, Reply)}
    updates, touches, met = {}, {}, set()               # those that are open: the page of each, and the address of each
    for number, event in enumerate(trace.events):
        if isinstance(event, Reply):
            updates.pop(event.call, None)
            touches.pop(event.call, None)
        elif number in pages:
            updates[number] = pages[number]
            met |= {touch for touch, address in touches.items() if pages[number][0] <= address < pages[number][1]}
        elif event.kind == chains.TOUCH:
            touches[number] = event.address
            if any(base <= event.address < end for base, end in updates.values()):
                met.add(number)
    return len(met & told)


# ---- the whole answer ----

def looks(space, address):
    """How an address looks: what a resolve of it is answered."""
    return evidence.answer_words(space.look(traces.Call(0, 0, traces.RESOLVE, 0, 0, address, 0)))


class Chain:
    """What is known of a chain up to a segment: where it begins in the bytes, its number, and what came before."""

    def __init__(self, data):
        self.data, self.position, self.number = data, 0, 0
        self.before = self.space = None             # the trace and the space of the segment before
        self.joined, self.entries = None, 0         # the run so far, and how many entries it has
        self.first = self.has_start = None          # the space with which the chain begins, and whether it has a start
        self.counts = dict.fromkeys(("calls", "updates", "reads", "touches", "releases", "dumps", "replicas", "pages", "overlapping",
                                     "beside", *chains.EXCUSES), 0)

    def origin(self, space, address):
        """Where comes from how an address looks as a segment begins: that is compared with where the chain begins."""
        if self.number and looks(space, address) != looks(self.first, address):
            return "an earlier segment"
        return "the start" if self.has_start else None

    def begin(self, segment):
        """The space with which the segment begins."""
        space = chains.space_at_begin(segment, self.space and self.space.copy())
        if self.number == 0:
            self.first, self.has_start = space.copy(), segment.start is not None
        return space

    def pass_over(self, segment):
        """Goes on behind a segment; raises its first fault."""
        start = self.begin(segment)
        order, self.space, self.joined = chains.check_segment(segment, self.space and self.space.copy(), self.joined)
        self.entries = len(self.joined.entries)
        updates = len(segment.trace.log)
        for words, more in (("calls", len(order)), ("updates", updates), ("reads", len(order) - updates), ("touches", len(segment.touches)),
                            ("releases", len(segment.releases)), ("dumps", sum(dump is not None for dump in segment.trace.dumps)),
                            ("overlapping", evidence.overlapping(segment.trace.events)), ("beside", beside(segment.trace, start))):
            self.counts[words] += more
        self.counts |= {"replicas": segment.trace.replicas, "pages": len(self.space.pages)}
        self.counts |= {what: self.joined.excuses[what] for what in chains.EXCUSES}
        self.position, self.before, self.number = segment.ends, segment.trace, self.number + 1

    def shown(self, segment, fault):
        """What shows the fault of the next segment: as JSON has it, the sentence, and the lines."""
        name, *what = fault.args
        if name == "Format":
            return of_format(self.data, self.position, what[0], list(map(str, what[1:])))
        numbers = [int(each, 0) if isinstance(each, str) else each for each in what]
        if name.startswith("Start"):
            return of_start(segment, self.space, self.origin, name, numbers)
        start = self.begin(segment)
        if name == "Stale":
            address = segment.trace.events[numbers[0]].address
            shown = of_stale(segment.trace, start, *numbers, lingering(self.joined, self.entries, address))
            return shown, *words_of_stale(shown, len(segment.trace.log))
        if name == "Reachable":
            shown = of_reachable(segment.trace, start, *numbers, self.joined, self.entries)
            return shown, *words_of_reachable(shown)
        return of_segment(segment, start, self.origin, name, numbers)


def explained(data):
    """What `nrvs explain --chain` says, as JSON has it; and the lines of text."""
    chain = Chain(data)
    while chain.position < len(data) or chain.number == 0:
        segment = None
        try:
            segment = chains.read_segment(data, chain.position, chain.before)
            chain.pass_over(segment)
        except Fault as fault:
            shown, sentence, lines = chain.shown(segment, fault)
            name, usually = fault.args[0], evidence.USUALLY[fault.args[0]]
            whole = {"segment": chain.number, "verdict": str(fault), "sentence": sentence, "usually": usually,
                     "evidence": {"fault": name, **shown}}
            return whole, [f"segment {chain.number}", str(fault), sentence, evidence.usual_line(name), *lines]
    verdict = f"segments {chain.number}"
    return {"verdict": verdict, "counts": chain.counts}, [verdict, *(f"{evidence.COUNTS.get(words, words)}: {count}" for words, count in chain.counts.items())]


def status_of(whole):
    return int("evidence" in whole)


def as_text(lines):
    """What `nrvs explain --chain` prints."""
    return "".join(line + "\n" for line in lines)


def as_json(whole):
    """What `nrvs explain --chain --json` prints."""
    return json.dumps(whole, separators=(",", ":"), sort_keys=True) + "\n"


def main(words):
    if words not in ([], ["--json"]):
        sys.stderr.write(__doc__)
        return 2
    whole, lines = explained(sys.stdin.buffer.read())
    sys.stdout.write(as_json(whole) if words else as_text(lines))
    return status_of(whole)


if __name__ == "__main__":
    sys.exit(main(sys.argv[1:]))
