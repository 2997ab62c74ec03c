"""The evidence of a verdict, as `nrvs explain --json` has it: its sentence of what is wrong, the facts that show it, and what of the
run is marked.

One function for each fault, over the names of docs/man/nrvs-explain.1.md, "JSON". Nothing is sought here and nothing is judged.
"""
import dataclasses
import json

from reading import answer_words, call_words, many, sentence
from ways import Step, path_address, step_words


@dataclasses.dataclass
class Evidence:
    """What is said and marked: facts, calls with what they are, other events, places, and entries of a dump. Also the address that the
    fault names, how many entries of the log come before what is wrong, and the sentence."""
    facts: list = dataclasses.field(default_factory=list)
    calls: dict = dataclasses.field(default_factory=dict)
    events: list = dataclasses.field(default_factory=list)
    places: list = dataclasses.field(default_factory=list)
    replica: int = None
    frame: int = None
    paths: list = dataclasses.field(default_factory=list)
    address: str = None
    after: int = None
    sentence: str = ""
    window: list = None                             # a stale touch, and the fewest and the most entries that it may see
    reach: list = None                              # a release, the entries after which its memory is reached (0: or before), and until when
    right: list = None                              # from how many entries to how many the answer would be right, nearest to those it has


def of_yes(trace, order, counts):
    shown = " ".join(map(str, order[:40])) + (" .." if len(order) > 40 else "")
    has = [many(counts[words + "s"], words) for words in ("update", "read", "replica", "page")]
    overlap = f"Of its answered updates and reads {counts['overlapping']} were open while another one was."
    return Evidence([f"The order has {many(len(order), 'call')}: {shown}" if order else "There are no calls.",
                     f"It has {', '.join(has[:-1])}, and in the end {has[-1]}.", overlap],
                    sentence="This run is right: in the recorded order each answer is that of one address space, and each dump fits it.")


def of_right_chain(trace, number, counts):
    """A segment of a chain that is right up to there."""
    has = [many(counts[key], noun) for key, noun in (("updates", "update"), ("reads", "read"), ("touches", "touch"), ("releases", "release"),
                                                           ("pages", "page")) if counts]
    return Evidence([f"The chain has {', '.join(has[:-1])}, and in the end {has[-1]}.",
                     f"Of its answered updates and reads {counts['overlapping']} were open while another one was.",
                     f"Of its answered touches {counts['beside']} were open while an update of their page was."] if counts else [],
                    sentence=f"Segment {number} is right: in the recorded order each answer is that of one address space, from the pages on with "
                             "which the segment begins.")


def of_format(trace, shown):
    begins, read = shown.get("begins", 0), bytes.fromhex(shown["read"])
    offset = shown["offset"] - begins
    if trace.data[offset:][:shown["size"]][:24] != read:
        raise LookupError
    of_segment = f" of the segment, which begins at byte {begins} of the chain" if "begins" in shown else ""
    return Evidence([sentence(trace.broken.why),
                     f"The format fault is {shown['format'].split()[0]}, at this unit: {shown['unit']}. It begins at offset {offset} "
                     f"({offset:#x}){of_segment}. Of its {many(shown['size'], 'byte')} there {'is' if shown['there'] == 1 else 'are'} "
                     f"{shown['there']}: {read.hex(' ', 4) or 'none'}.",
                     f"Before it are {many(len(trace.log), 'place')} of the log, {many(len(trace.events), 'event')} and "
                     f"{many(sum(len(dump.frames) for dump in trace.dumps), 'frame')}."])


def of_thread_open(trace, shown):
    first, second = shown["first"]["event"], shown["second"]["event"]
    return Evidence([f"Still open: {trace.call_text(first)}.", f"Made meanwhile: {trace.call_text(second)}."],
                    {first: "still open", second: "made while the other is open"})


def of_no_such_call(trace, shown):
    index, number, named = shown["reply"]["event"], shown["reply"]["call"], shown["named"]
    later = {number: "named before it is made"} if named and "request" in named else {}
    return Evidence(calls=later, events=[index])


def of_answered_twice(trace, shown):
    call, first, second = shown["call"]["event"], shown["first"], shown["second"]
    return Evidence([f"First: {first['answer']}. Again: {second['answer']}."], {call: "answered twice"},
                    [first["event"], second["event"]])


def of_not_an_update(trace, shown):
    place, number, named = shown["place"], shown["call"], shown["named"]
    return Evidence(calls={number: f"is at place {place}"} if named and "request" in named else {}, places=[place])


def of_placed_twice(trace, shown):
    call, first, second = shown["call"]["event"], shown["first"], shown["second"]
    return Evidence([sentence(trace.call_text(call))], {call: "placed twice"}, places=[first, second])


def of_not_placed(trace, shown):
    call, own, there = shown["call"]["event"], shown["own"], shown["there"]
    index, at = shown["reply"]["event"], shown["reply"]["at"]
    calls = {call: f"says that it is at place {at}"}
    facts = [f"The log has call {call} {'nowhere' if own is None else f'at place {own}'}.", sentence(trace.call_text(call))]
    if there is not None and trace.is_call(there):
        calls[there] = f"is at place {at}"
        facts.append(f"At place {at} is {trace.call_text(there)}.")
    return Evidence(facts, calls, [index], [place for place in (at, own) if place is not None and place < len(trace.log)])


def of_past_log(trace, shown):
    call, reply = shown["call"]["event"], shown["reply"]
    return Evidence([sentence(trace.call_text(call))], {call: "saw more than there is"}, [reply["event"]])


def of_early(trace, shown):
    number, entries, floor = shown["call"]["event"], shown["entries"], shown["floor"]
    index, answered, is_update = shown["reply"]["event"], shown["answered"]["event"], trace.is_update(shown["call"]["event"])
    return Evidence([f"Too early: {trace.call_text(number)}.",
                     f"Known before: from event {index}, the reply to {trace.call_text(answered)}."],
                    {answered: "its reply shows how much has to be seen", number: "comes too early"}, [index],
                    [floor - 1] + [entries] * is_update, address=hex(trace.events[number].address), after=entries)


def last_change(trace, shown):
    """The place, the fact and the role of the last update that changed how the address looks."""
    changed = shown["changed"]
    if changed is None:
        return [], [f"Up to there no update changed how {shown['address']} looks."], {}
    if isinstance(changed, str):
        return [], [f"Up to there no update of this segment changed how {shown['address']} looks: that is of {changed}."], {}
    place, call = changed["place"], changed["call"]["event"]
    return ([place], [f"How {shown['address']} looks was changed last at place {place}: {trace.call_text(call)}."],
            {call: f"changed last how the address looks, at place {place}"})


def stretches_of(shown):
    """From how many entries to how many the answer would be right."""
    return [[numbers["first"], numbers["last"]] for numbers in (shown["right"]["before"], shown["right"]["behind"]) if numbers]


def right_fact(trace, stretches):
    """Where the answer would be right."""
    words = [f"{first} on" if last == len(trace.log) else f"{first}" if first == last else f"{first} to {last}" for first, last in stretches]
    if not words:
        return f"After no other number of entries would its answer be right, of the {len(trace.log)} that the log has."
    return f"Its answer would be right after {', and after '.join(words)} of the {many(len(trace.log), 'entry')} of the log."


def memory_facts(memory):
    """Where the memory is that the answer names, if it names any."""
    if memory is None:
        return []
    return [f"At that place {memory['phys']} is mapped {'nowhere' if memory['address'] is None else 'at ' + memory['address']}."]


def of_wrong_answer(trace, shown):
    number, reply, stretches = shown["call"]["event"], shown["reply"], stretches_of(shown)
    places, facts, calls = last_change(trace, shown)
    return Evidence([f"The call: {trace.call_text(number)}.", *facts, right_fact(trace, stretches), *memory_facts(shown["memory"])],
                    calls | {number: "is answered wrongly"}, [reply["event"]], places, address=shown["address"], after=reply["at"],
                    right=stretches)


def of_prefix_past_log(trace, shown):
    return Evidence(replica=shown["replica"])


def of_prefix_short(trace, shown):
    known, call, index = shown["known"], shown["call"]["event"], shown["reply"]["event"]
    return Evidence([f"That reply is event {index}, to {trace.call_text(call)}."],
                    {call: f"its reply shows {many(known, 'entry')}"}, [index], [known - 1], shown["replica"])


def path_of(way):
    return [Step(step["level"], step["frame"], step["index"], int(step["word"], 0)) for step in way]


def way_facts(trace, name, path):
    steps = [step_words(step) for step in path] or ["It is the root itself."]
    return [f"{name}, for the addresses from {path_address(trace, path):#x} on:", *steps]


def of_missing_frame(trace, shown):
    path, replica, frame = path_of(shown["path"]), shown["replica"], shown["frame"]
    return Evidence(way_facts(trace, "The way there", path),
                    replica=replica, frame=frame, paths=[path])


def of_shared_frame(trace, shown):
    first, second, replica, frame = path_of(shown["first"]), path_of(shown["second"]), shown["replica"], shown["frame"]
    return Evidence(way_facts(trace, "One way there", first) + way_facts(trace, "Another", second),
                    replica=replica, frame=frame, paths=[first, second])


def of_reserved_bit(trace, shown):
    path = path_of(shown["path"] + [shown["entry"]])
    return Evidence(way_facts(trace, "The way there", path), replica=shown["replica"], frame=shown["entry"]["frame"], paths=[path])


def of_stray_frame(trace, shown):
    replica, frame = shown["replica"], shown["frame"]
    present = sum(word & 1 for word in trace.words(trace.dumps[replica], frame))
    return Evidence([f"{present} of its 512 entries are present."], replica=replica, frame=frame)


def of_differs(trace, shown):
    places, facts, calls = last_change(trace, shown)
    path = path_of(shown["path"])
    return Evidence([*facts, *map(step_words, path)], calls, [], places, shown["replica"], paths=[path], address=shown["address"],
                    after=shown["applied"])


# ---- what only chains have: the start is drawn behind the dumps

def of_start(trace, **marked):
    return Evidence(replica=len(trace.dumps), **marked)


def of_start_missing(trace, shown):
    path = path_of(shown["path"])
    return of_start(trace, facts=way_facts(trace, "The way there", path), frame=shown["frame"], paths=[path])


def of_start_shared(trace, shown):
    first, second = path_of(shown["first"]), path_of(shown["second"])
    return of_start(trace, facts=way_facts(trace, "One way there", first) + way_facts(trace, "Another", second), frame=shown["frame"],
                    paths=[first, second])


def of_start_reserved(trace, shown):
    path = path_of(shown["path"] + [shown["entry"]])
    return of_start(trace, facts=way_facts(trace, "The way there", path), frame=shown["entry"]["frame"], paths=[path])


def of_start_stray(trace, shown):
    present = sum(word & 1 for word in trace.words(trace.start, shown["frame"]))
    return of_start(trace, facts=[f"{present} of its 512 entries are present."], frame=shown["frame"])


def of_start_page(trace, shown):
    """A page of the start, or an address, that isn't as it should be."""
    path, facts = path_of(shown["path"]), last_change(trace, shown)[1] if "changed" in shown else []
    return of_start(trace, facts=[*facts, *map(step_words, path)], paths=[path], address=shown["address"], after=0)


def of_stale(trace, shown):
    """A touch, how many entries of the log it may see, and the updates at both ends of these."""
    number, first, last, looks = shown["call"]["event"], shown["first"], shown["last"], shown["looks"]
    calls, address, missed, stretches = {number: "is stale"}, trace.events[shown["call"]["event"]].address, shown["missed"], stretches_of(shown)
    facts = [f"Too late: {trace.call_text(number)}.",
             f"It may see {first} to {last} entries of the log, which has {len(trace.log)}.", *lag_facts(trace, shown)]
    for look in shown.get("earlier", ()):
        facts.append(f"Behind the segments before, {address:#x} may still look so: `{look}`.")
    for each in looks:
        facts.append(f"After {each['entries']} of them {address:#x} looks so: `{each['look']}`.")
    if missed:
        before = missed["call"]["event"]
        facts.append(f"It has to see the entry at place {missed['place']}, {trace.call_text(before)}: event {missed['reply']['event']} answered that, "
                     f"before the touch was made.")
        calls[before] = "was answered, so that its flush was over, before the touch was made"
    if shown["open"]:
        still = shown["open"]["call"]["event"]
        facts.append(f"The entry at place {shown['open']['place']} was still open then, {trace.call_text(still)}: what came behind it was answered.")
        calls[still] = "was still open as the touch was made"
    if last < len(trace.log):
        behind = trace.log[last]
        facts.append(f"It may not see the entry at place {last}, {trace.call_text(behind)}: that was made after the touch was answered.")
        calls[behind] = "was made after the touch was answered"
    facts.append(right_fact(trace, stretches))
    places = [place for place in (first - 1, last) if 0 <= place < len(trace.log)]
    return Evidence(facts, calls, [shown["reply"]["event"]], places, address=hex(address), after=first,
                    window=[number, min(first, shown.get("known", first)), last], right=stretches)


def lag_facts(trace, shown):
    """Of a page fault without a page: how far the table of its replica may lag."""
    if "known" not in shown:
        return []
    replica, told = shown["call"]["replica"], shown["shown"]
    by = f": event {told['event']} shows it, the reply to {trace.call_text(told['call'])}" if told else ""
    return [f"The table of replica {replica} may lag, but had applied {many(shown['known'], 'entry')} when the touch was made{by}."]


def of_reachable(trace, shown):
    """A release, how an address leads to its memory, and what takes that away; or its reply, which says otherwise."""
    number, reply, taken = shown["call"]["event"], shown["reply"], shown.get("taken")
    calls, events, places, end = {number: "gives memory away"}, [reply["event"]] if reply else [], [], len(trace.events)
    facts = [f"The release: {trace.call_text(number)}."]
    if "address" not in shown:
        return Evidence(facts, calls, events)
    entries = shown["entries"]
    when = "Behind the segments before" if entries is None else f"After {many(entries, 'entry')} of the log"
    facts.append(f"{when} {shown['address']} leads there: `{shown['look']}`.")
    facts.append(f"An access that begins at the release may see {shown['first']} to {many(shown['last'], 'entry')} of the log.")
    if isinstance(taken, dict):
        place, call, end = taken["place"], taken["call"]["event"], taken["reply"]["event"] if taken["reply"] else end
        facts.append(f"The entry at place {place} takes it from there, {trace.call_text(call)}"
                     + (f": event {end} answered that, after the release." if taken["reply"] else "."))
        calls, places = calls | {call: "takes the page away, and isn't answered before the release"}, [place]
        events += [end] if taken["reply"] else []
    else:
        facts.append("An earlier segment took it from there, and never answered that." if taken else "No update takes it from there.")
    return Evidence(facts, calls, events, places, address=shown["address"], after=entries or 0, reach=[number, entries or 0, end])


OF_FAULT = {
    "Format": of_format, "ThreadOpen": of_thread_open, "NoSuchCall": of_no_such_call, "AnsweredTwice": of_answered_twice,
    "NotAnUpdate": of_not_an_update, "PlacedTwice": of_placed_twice, "NotPlaced": of_not_placed, "PastLog": of_past_log,
    "Early": of_early, "WrongAnswer": of_wrong_answer, "PrefixPastLog": of_prefix_past_log, "PrefixShort": of_prefix_short,
    "MissingFrame": of_missing_frame, "SharedFrame": of_shared_frame, "ReservedBit": of_reserved_bit, "StrayFrame": of_stray_frame,
    "Differs": of_differs, "StartMissing": of_start_missing, "StartShared": of_start_shared, "StartReserved": of_start_reserved,
    "StartStray": of_start_stray, "StartBeyond": of_start_page, "StartDiffers": of_start_page, "Stale": of_stale,
    "Reachable": of_reachable,
}


def check_events(trace, shown):
    """Raises where a call or a reply that is shown isn't the trace's."""
    taken = shown.get("taken")
    for fact in [*shown.values(), *(taken.values() if isinstance(taken, dict) else ())]:
        if isinstance(fact, dict) and "event" in fact:
            event = trace.events[fact["event"]]
            is_call = trace.is_call(fact["event"])
            same = (event.thread, event.replica) == (fact["thread"], fact["replica"]) if is_call else (
                (event.call, event.at, answer_words(event.answer)) == (fact["call"], fact["at"], fact["answer"]))
            if not same or is_call and call_words(event).replace(" to ", " ") != fact["request"]:
                raise LookupError


def of_dump(trace, verdict, found):
    """A trace without calls is looked at for its dumps: what the auditor misses there is a fact, and no fault of a run."""
    frames = many(sum(len(dump.frames) for dump in trace.dumps), "table")
    whose = "one replica" if trace.replicas == 1 else many(trace.replicas, "replica")
    return Evidence([f"nrvs audit says \u201c{verdict}\u201d: without calls it expects tables that map nothing, each reached once.",
                     found.sentence, *found.facts], sentence=f"A dump of {whose}: {frames} in memory, and no calls.")


def of_chain(trace, whole):
    """The verdict on a segment that isn't the one with the fault, and what is said of it; or nothing where it is that one."""
    judged = whole["segment"] if "segment" in whole else int(whole["verdict"].split()[1])
    if trace.segment == judged and "segment" in whole:
        return None
    if trace.segment >= judged:
        raise LookupError
    found = of_right_chain(trace, trace.segment, whole.get("counts", {}))
    found.facts += [f"The first fault is one of segment {judged}: {whole['verdict']}."] if "segment" in whole else []
    return "yes", found


def evidence(trace, said):
    """The verdict, and what is marked in its trace of what `nrvs explain --json` says of it."""
    whole = json.loads(said)
    verdict, shown = whole["verdict"], whole.get("evidence", {"fault": None})
    other = of_chain(trace, whole) if trace.is_segment else None
    if other:
        return other
    name = shown["fault"]
    if (name == "Format") != (trace.broken is not None):
        raise LookupError
    if verdict == "yes":
        return verdict, of_yes(trace, whole["order"], whole["counts"])
    check_events(trace, shown)
    found = OF_FAULT[name](trace, shown)
    found.sentence = whole["sentence"]
    if trace.is_dump:
        return verdict, of_dump(trace, verdict, found)
    found.facts.append(f"Most often this is {whole['usually']}.")
    return verdict, found
