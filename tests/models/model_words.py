"""The words of a request and an answer, and the sentence on each fault: for model_evidence.py and model_chain_evidence.py, written from docs/man
alone."""
import pathlib

from model_format import reason_words
from model_units import *


def request_words(call):
    """As a script has it; a touch, which no script has, as an access, and a release with its memory."""
    size, rights = SIZE_NAMES[call.size], letters(call.rights)
    return {MAP: f"map {size} {call.address:#x} {call.phys:#x} {rights}",
            UNMAP: f"unmap {call.address:#x}",
            PROTECT: f"protect {call.address:#x} {rights}",
            RESOLVE: f"resolve {call.address:#x}",
            ACCESS: f"access {'su'[call.rights & 1]} {'rwx'[call.size]} {call.address:#x}",
            TOUCH: f"touch {'su'[call.rights & 1]} {'rwx'[call.size]} {call.address:#x}",
            RELEASE: f"release {size} {call.phys:#x}"}[call.kind]


def answer_words(answer):
    page = f"{answer.value:#x} {SIZE_NAMES[answer.size]} {letters(answer.rights)}"
    return {DONE: "done", OVERLAP: f"overlap {answer.value:#x}", FULL: f"full {answer.value}",
            REMOVED: f"removed {page}", NOT_MAPPED: "not mapped", INSIDE: f"inside {answer.value:#x}",
            CHANGED: f"changed {letters(answer.rights)}", MAPPED: f"mapped {page}",
            ALLOWED: f"allowed {answer.value:#x}", PAGE_FAULT: f"fault {answer.value}"}[answer.code]


def many(count, word):
    return f"{count} {word if count == 1 else word[:-1] + 'ies' if word[-1] == 'y' else word + 's'}"


def named_words(named, of_call, of_other):
    """What an event is that a number names, where it isn't what it should be; `of_other` has a touch or a release."""
    if named is None or "request" not in named:
        return "that event is a reply" if named else "there is no such event"
    kind = named["request"].split()[0]
    return of_other.format(kind) if kind in ("touch", "release") else of_call


def sentence_of(fault, shown, header):
    """What is wrong, with its numbers, after this header. The facts are named as in the JSON."""
    of = {name: fact["event"] for name, fact in shown.items() if isinstance(fact, dict) and "event" in fact}
    told = {name: fact["answer"] for name, fact in shown.items() if isinstance(fact, dict) and "answer" in fact}
    reply, named = shown.get("reply") or {}, shown.get("named")
    wanted, replica = shown.get("wanted"), f"replica {shown.get('replica')}"
    dump, frame, asked = f"The dump of {replica}", f"frame {shown.get('frame', 0):#x}", (named or {}).get("request", "")
    return {
        "ThreadOpen": lambda: f"Thread {shown['second']['thread']} makes call {of['second']} while its call {of['first']} has no reply "
                              "yet.",
        "NoSuchCall": lambda: f"Event {of['reply']} replies to call {reply['call']}, which is no call before it: "
                              f"{named_words(named, 'that call is made later', 'that {} is made later')}.",
        "AnsweredTwice": lambda: f"Event {of['second']} answers call {of['call']} again: event {of['first']} had answered it.",
        "NotAnUpdate": lambda: f"Place {shown['place']} of the log has the number {shown['call']}, which is no update: "
                               f"{named_words(named, f'that call only reads, {asked}', 'that event is a {}')}.",
        "PlacedTwice": lambda: f"Call {of['call']} is in the log twice: at place {shown['first']}, and again at place {shown['second']}.",
        "NotPlaced": lambda: f"Event {of['reply']} says that call {of['call']} is at place {reply['at']} of the log, but the log has "
                             f"{'no such place' if shown['there'] is None else 'call %d there' % shown['there']}.",
        "PastLog": lambda: f"Event {of['reply']} says that call {of['call']} saw {many(reply['at'], 'entry')} of the log, which has "
                           f"{shown['places']}.",
        "Early": lambda: f"Call {of['call']} {stands_words(shown)} of the log, but before it was made a reply had shown {shown['floor']}.",
        "WrongAnswer": lambda: f"Call {of['call']} was answered `{told['reply']}`, but after the "
                               f"{many(reply['at'], 'update')} before it the address space answers `{wanted}`.",
        "PrefixPastLog": lambda: f"{dump} says that it has applied {many(shown['applied'], 'entry')}, but the log has {shown['places']}.",
        "PrefixShort": lambda: f"{dump} has applied {many(shown['applied'], 'entry')}, but a reply given there shows {shown['known']}.",
        "MissingFrame": lambda: (f"An entry of the tables of {replica} leads to" if shown["path"] else f"The root of {replica} is")
                                + f" {frame}, which the dump doesn't have.",
        "SharedFrame": lambda: f"The tables of {replica} reach {frame} twice: a change on one way is seen on the other.",
        "ReservedBit": lambda: f"Entry {shown['entry']['index']} of frame {shown['entry']['frame']:#x} of {replica} has the reserved bit "
                               f"{shown['bit']} set: a processor faults there.",
        "StrayFrame": lambda: f"{dump} holds {frame} as a table, and no table leads to it.",
        "Differs": lambda: f"At {shown['address']} the tables of {replica} say `{shown['found']}`, but after "
                           f"{many(shown['applied'], 'update')} the address space says `{wanted}`.",
        "Format": lambda: f"These bytes are no trace: {reason_words(shown, header)}.",
    }[fault]()


def stands_words(shown):
    """Where a call is that is too early."""
    reads = shown["call"]["request"].split()[0] in ("resolve", "access")
    return f"was answered from {many(shown['entries'], 'entry')}" if reads else f"is at place {shown['entries']}"


def usual_texts():
    """What each fault most often is, by the man page: a row may be of several."""
    page = pathlib.Path(__file__).resolve().parents[2] / "docs/man/nrvs-explain.1.md"
    table = page.read_text().partition("| Fault | Most often |\n|---|---|\n")[2].partition("\n\n")[0]
    rows = (row.strip("| ").split(" | ") for row in table.splitlines())
    return {fault: text for faults, text in rows for fault in faults.split(", ")}


USUALLY = usual_texts()


def usual_line(fault):
    return f"Most often this is {USUALLY[fault]}."
