#!/usr/bin/env python3
"""A second reader of scripts, and a second core that takes their steps, in plain Python: written from docs/FORMATS.md alone, over the
spaces of model_auditor.py, to compare with. Nothing here is proved, and nothing depends on it.

    model_core.py [--levels N] [--replicas N] [--tables N] <SCRIPT     the events, the log and each replica's applied entries
"""
import argparse
import collections
import re
import sys

import model_auditor as model
from model_auditor import Call, Reply, Space

REQUESTS, STEPS, PLACES, BATCH, RING = 65536, 1000000, 65536, 16, 16

Script = collections.namedtuple("Script", "threads requests steps first_step")
Step = collections.namedtuple("Step", "thread act of", defaults=(None,))
Recording = collections.namedtuple("Recording", "version levels replicas threads tables log events applied")


# ---- scripts ----

class BadLine(Exception):
    """The first line that is no line of a script, counted from 1."""


NUMBER, ADDRESS, RIGHTS = "([0-9]|[1-5][0-9]|6[0-3])", "0x([0-9a-fA-F]{1,16})", "([w-][u-][x-])"
FORMS = {model.MAP: f"map (4K|2M|1G) {ADDRESS} {ADDRESS} {RIGHTS}", model.UNMAP: f"unmap {ADDRESS}",
         model.PROTECT: f"protect {ADDRESS} {RIGHTS}", model.RESOLVE: f"resolve {ADDRESS}",
         model.ACCESS: f"access ([su]) ([rwx]) {ADDRESS}"}
FORMS = {kind: re.compile(f"{NUMBER} {form}") for kind, form in FORMS.items()}
STEP = re.compile(f"step {NUMBER} (?:(call|post|append|advance|apply|release|look|read|reply)|(take|collect|answer) {NUMBER})")


def rights(letters):
    return sum(bit for letter, bit in zip(letters, (model.WRITE, model.USER, model.EXEC)) if letter != "-")


def call_of(kind, thread, *words):
    """The call that the words of a line say; its replica is not known yet."""
    if kind == model.MAP:
        size, base, phys, letters = words
        return Call(None, thread, kind, model.SIZE_NAMES.index(size), rights(letters), int(base, 16), int(phys, 16))
    if kind == model.ACCESS:
        mode, access, address = words
        return Call(None, thread, kind, "rwx".index(access), "su".index(mode), int(address, 16), 0)
    return Call(None, thread, kind, 0, rights(words[1]) if kind == model.PROTECT else 0, int(words[0], 16), 0)


def line_of(text):
    """The call or the step that a line says, or None."""
    step = STEP.fullmatch(text)
    if step:
        thread, act, act_of, of = step.groups()
        return Step(int(thread), act or act_of, None if act else int(of))
    for kind, form in FORMS.items():
        said = form.fullmatch(text)
        if said:
            return call_of(kind, int(said[1]), *said.groups()[1:])
    return None


def script(levels, data):
    """What a script says; raises the first bad line."""
    calls, steps, first_step = [], [], None
    for n, line in enumerate(data.split(b"\n"), 1):
        if line == b"" or line[:1] == b"#":
            continue
        said = line_of(line.decode("latin-1"))
        if isinstance(said, Call) and model.is_well_formed(levels, said) and len(calls) < REQUESTS:
            calls.append(said)
        elif isinstance(said, Step) and len(steps) < STEPS:
            steps.append(said)
            first_step = first_step or n
        else:
            raise BadLine(n)
    threads = 1 + max((call.thread for call in calls), default=0)
    return Script(threads, [[call for call in calls if call.thread == thread] for thread in range(threads)], steps, first_step)


# ---- the core ----

class Replica:
    def __init__(self, levels, tables):
        self.holder = None                          # the thread that holds its lock
        self.batch, self.placed = [], False         # call numbers, in order
        self.local = self.applied = 0
        self.space = Space(levels, tables)
        self.notes = {}                             # thread: place and answer


class Thread:
    def __init__(self, requests):
        self.left = collections.deque(requests)
        self.call = None                            # the number of its open call
        self.slot = "empty"
        self.looked = self.done = None              # the completed tail that it noted; what it replies
        self.holds = None                           # the replica whose lock it holds


class Core:
    """One state of the protocol; `step` changes it where the step is enabled, and says whether it was."""

    def __init__(self, levels, replicas, tables, requests):
        self.levels, self.tables = levels, tables
        self.replicas = [Replica(levels, tables) for _ in range(replicas)]
        self.threads = [Thread(each) for each in requests]
        self.events, self.log, self.completed = [], [], 0

    def home(self, number):
        return number % len(self.replicas)

    def is_update(self, thread):
        return thread.call is not None and self.events[thread.call].kind <= model.PROTECT

    def is_read(self, thread):
        return thread.call is not None and not self.is_update(thread)

    def step(self, step):
        if step.thread >= len(self.threads):
            return False
        thread = self.threads[step.thread]
        act = getattr(self, "do_" + step.act)
        if step.act in ("append", "advance", "apply", "release"):
            return thread.holds is not None and act(thread, self.replicas[thread.holds])
        if step.act in ("collect", "answer"):
            there = thread.holds is not None and step.of < len(self.threads)
            return there and act(self.replicas[thread.holds], step.of, self.threads[step.of], thread.holds)
        return act(step.thread, thread) if step.of is None else act(step.thread, thread, step.of)

    def do_call(self, number, thread):
        if thread.call is not None or not thread.left:
            return False
        thread.call = len(self.events)
        self.events.append(thread.left.popleft()._replace(replica=self.home(number)))
        return True

    def do_post(self, number, thread):
        if not self.is_update(thread) or thread.slot != "empty":
            return False
        thread.slot = "posted"
        return True

    def do_take(self, number, thread, replica):
        if thread.holds is not None or replica >= len(self.replicas) or self.replicas[replica].holder is not None:
            return False
        thread.holds, self.replicas[replica].holder = replica, number
        return True

    def do_collect(self, replica, number, other, held):
        if self.home(number) != held or other.slot != "posted" or len(replica.batch) == BATCH or replica.placed:
            return False
        other.slot = "taken"
        replica.batch.append(other.call)
        return True

    def do_append(self, thread, replica):
        tail = len(self.log) + len(replica.batch)
        if not replica.batch or replica.placed or tail > PLACES or tail - min(each.local for each in self.replicas) > RING:
            return False
        self.log += replica.batch
        replica.placed = True
        return True

    def do_advance(self, thread, replica):
        if replica.applied < replica.local or replica.local == len(self.log):
            return False
        replica.local = self.completed = len(self.log)
        return True

    def do_apply(self, thread, replica):
        if replica.applied == replica.local:
            return False
        place = replica.applied
        call = self.log[place]
        answer = replica.space.apply(self.events[call])
        if replica.placed and call in replica.batch:
            replica.notes[self.events[call].thread] = place, answer
        replica.applied += 1
        return True

    def do_answer(self, replica, number, other, held):
        if number not in replica.notes:
            return False
        other.slot, other.done = "ready", replica.notes.pop(number)
        replica.batch.remove(other.call)
        replica.placed = replica.placed and bool(replica.batch)
        return True

    def do_release(self, thread, replica):
        if replica.applied < replica.local:
            return False
        replica.holder = thread.holds = None
        return True

    def do_look(self, number, thread):
        if not self.is_read(thread) or thread.looked is not None:
            return False
        thread.looked = self.completed
        return True

    def do_read(self, number, thread):
        replica = self.replicas[self.home(number)]
        if thread.looked is None or thread.done or replica.holder is not None or replica.applied < thread.looked:
            return False
        thread.done = replica.applied, replica.space.look(self.events[thread.call])
        return True

    def do_reply(self, number, thread):
        if thread.done is None:
            return False
        at, answer = thread.done
        self.events.append(Reply(answer, thread.call, at))
        thread.call = thread.looked = thread.done = None
        thread.slot = "empty"
        return True

    def recording(self):
        later = any(each.kind == model.ACCESS if isinstance(each, Call) else each.answer.code in (model.ALLOWED, model.PAGE_FAULT)
                    for each in self.events)
        version = 1 if self.levels == 4 and not later else 2
        return Recording(version, self.levels, len(self.replicas), len(self.threads), self.tables, self.log, self.events,
                         [each.applied for each in self.replicas])


def simulate(levels, replicas, tables, data):
    """The recording of the state after the steps of a script, those that are not enabled passed over."""
    said = script(levels, data)
    core = Core(levels, replicas, tables, said.requests)
    for step in said.steps:
        core.step(step)
    return core.recording()


if __name__ == "__main__":
    words = argparse.ArgumentParser()
    words.add_argument("--levels", type=int, default=4)
    words.add_argument("--replicas", type=int, default=1)
    words.add_argument("--tables", type=int, default=4096)
    asked = words.parse_args()
    recording = simulate(asked.levels, asked.replicas, asked.tables, sys.stdin.buffer.read())
    for i, each in enumerate(recording.events):
        print(i, each)
    print("log", *recording.log)
    print("applied", *recording.applied)
