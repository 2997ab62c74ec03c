"""Many runs in one boot: each bug is planted in the guest's kernel, met by a process, recorded, and taken out again; or programs of others
are recorded one after the other."""
import collections
import os
import re
import socket
import subprocess
import sys
import threading
import time
from collections.abc import Iterable
from dataclasses import dataclass, field, replace
from typing import NamedTuple

import chains
import machine
import stale
from debian import Missing
from kernel_image import Kernel
from plants import RESTS, Plant
from programs import Program
from stub import Stub
from workloads import WITHOUT_TICKS

PROCESSORS = 3
TICK = 50               # microseconds, as for workloads
UPDATES = 1000          # in a segment
PATIENCE = 600          # seconds that a run may take: threads may wait for ever for what they don't see
MINUTE = 60             # seconds after which a program's process is ended
MEMORY = 2048           # MiB, for programs
TRIES = 8
UNWATCHED = "nothing was watched"       # on a busy machine QEMU may begin to follow the guest's code too late
AGAIN = re.compile("^@marked [0-9]+ [0-9a-f]+ 5$")
WRONG = re.compile("^WRONG|BUG:|Bad page|segfault|Oops", re.M)


class Kind(NamedTuple):
    """Of a boot: runs that differ in this need another one."""
    is_nested: bool = False
    child: bool = False
    package: str = ""           # of Debian, in the guest
    rest: int = 0
    rest_at: str = RESTS
    modules: tuple[str, ...] = ()
    setup: str = ""
    options: str = ""


@dataclass
class Run:
    """One run: what came of it."""
    name: str
    what: Plant | Program
    verdicts: list[str] = field(default_factory=list)       # of each chain, its lines joined
    shown: list[str] = field(default_factory=list)          # of a stale access: what stale.py shows
    guest: str = ""                                         # what the process said
    events: collections.Counter[str] = field(default_factory=collections.Counter)
    seconds: float = 0.0
    failure: str = ""                                       # why there is no verdict
    tries: int = 1
    times: int = 0                                          # so often it was to be run, and
    found: int = 0                                          # .. in so many of these runs it was a no

    def is_missed(self) -> bool:
        """A bug that a processor can see, and in this run none did, since QEMU went to another processor at other times; or a process that
        was missed."""
        is_unmet = not self.failure and isinstance(self.what, Plant) and self.what.is_seen and not self.is_found()
        return is_unmet or self.failure == UNWATCHED

    def is_found(self) -> bool:
        return any("no " in verdict for verdict in self.verdicts)

    def is_as_expected(self) -> bool:
        return not self.failure and self.is_found() == (isinstance(self.what, Plant) and self.what.is_seen)

    def counted(self, found: int) -> "Run":
        self.found = found
        return self

    def is_nested(self) -> bool:
        return isinstance(self.what, Plant) and bool(self.what.nested)

    def kind(self) -> "Kind":
        if isinstance(self.what, Program):
            return Kind(package=self.what.package)
        return Kind(self.is_nested(), self.what.child, "", self.what.rest, self.what.rest_at, self.what.modules, self.what.setup,
                    self.what.options)

    def commands(self, seed: int) -> list[str]:
        """What init runs, so that it is watched."""
        if isinstance(self.what, Program):
            command = self.what.command.replace("WORKLOAD", "/bin/workload")
            if self.what.process:
                command = f"($b sleep {MINUTE}; $b killall -q {self.what.process}) &\ne=$!\n{command}\n$b kill $e"
            return [*self.what.before.splitlines(), f"/bin/workload tick {TICK} &", "t=$!", command, "$b kill $t"]
        plant = self.what
        alone = "$b taskset 1 " if plant.processors == 1 else ""
        lines = [f"{alone}/bin/workload {plant.how()} {seed} {plant.rounds} planted {plant.parts}"]
        return [f"/bin/workload tick {plant.tick} &", *lines, "$b kill $!"] if plant.tick else lines

    def wrong(self) -> int:
        return len(WRONG.findall(self.guest))


class Undone:
    """Writes by a stub, and knows what was there before."""

    def __init__(self, stub: Stub) -> None:
        self.stub = stub
        self.before: list[tuple[int, bytes]] = []

    def read(self, address: int, length: int) -> bytes:
        return self.stub.read(address, length)

    def write(self, address: int, code: bytes) -> None:
        self.before.append((address, self.stub.read(address, len(code))))
        self.stub.write(address, code)


def script(runs: list[Run], seed: int) -> str:
    """What init runs: before each run the plugin forgets the last one; after each it waits until the kernel's code is restored."""
    lines = ["exec 3</dev/ttyS1"]
    for run in runs:
        lines += [f"echo RUN {run.name}", "/bin/workload again", *run.commands(seed), f"echo OVER {run.name}", "read line <&3"]
    return "\n".join(lines) + "\n"


@dataclass(frozen=True)
class Schedule:
    """How often runs are made, and with which seeds."""
    seed: int
    times: int = 0          # each so often; 0: once, and again with other seeds where a bug was missed, some times at most
    keep_log: bool = False
    patience: int = PATIENCE


class Boot:
    """One boot, for the runs that it comes to."""

    def __init__(self, name: str, kernel: Kernel, runs: list[Run], schedule: Schedule) -> None:
        nested, child, package, rest, rest_at, modules, setup, options = runs[0].kind()
        options += WITHOUT_TICKS[PROCESSORS] if nested else ""
        makers = {run.what.files for run in runs if isinstance(run.what, Program) and run.what.files}
        files = tuple(file for make in makers for file in make(machine.OUT))
        self.guest = machine.Guest(script(runs, schedule.seed), PROCESSORS, has_line=True, nested=nested, monitor=nested, child=child,
                                   options=options, package=package, files=files, memory=MEMORY if package or files else 1024, rest=rest,
                                   rest_at=rest_at, modules=modules, setup=setup)
        self.name, self.kernel, self.runs = name, kernel, {run.name: run for run in runs}
        self.keep, self.patience = ["log"] if schedule.keep_log else [], schedule.patience
        self.tags = [machine.TAG, machine.SECOND_TAG] if nested or child else [machine.TAG]
        self.child = child
        self.chains: list[chains.Chain] = []
        self.begun: list[Run] = []          # in order; the last one goes on
        self.failures: list[str] = []

    # ---- the kernel's code ----

    def text(self) -> str:
        return machine.text_of(f"{machine.OUT}/{self.name}.serial")

    def overwrite(self, run: Run) -> list[tuple[int, bytes]]:
        """Plants a run's bug; what was there before."""
        writer = Undone(Stub(f"{machine.OUT}/{self.name}.debug"))
        try:
            for each in run.what.code if isinstance(run.what, Plant) else ():
                each.plant(self.kernel, writer)
        except Missing as why:
            run.failure = str(why)
        writer.stub.leave()
        return writer.before

    def restore(self, before: list[tuple[int, bytes]]) -> None:
        stub = Stub(f"{machine.OUT}/{self.name}.debug")
        for address, code in reversed(before):
            stub.write(address, code)
        stub.leave()

    def attend(self, qemu: subprocess.Popen[bytes]) -> None:
        """Plants and restores, as the guest asks for it; ends it where a run takes too long."""
        before: list[tuple[int, bytes]] = []
        line, planted, over, began = socket.socket(socket.AF_UNIX), 0, 0, time.monotonic()
        while qemu.poll() is None:
            text = self.text()
            names, asked, ended = (re.findall(rf"^{word}\b *(\S*)", text, re.M) for word in ("RUN", "PLANT", "OVER"))
            if planted + over == 0 and asked + ended:
                line.connect(f"{machine.OUT}/{self.name}.line")
            if len(asked) > planted:
                before = self.overwrite(self.runs[names[-1]])
            elif len(ended) > over:
                self.restore(before)
                self.runs[ended[-1]].seconds, before, began = time.monotonic() - began, [], time.monotonic()
            elif time.monotonic() - began > self.patience:
                self.failures.append(f"it didn't end in {self.patience} seconds")
                qemu.kill()
            if len(asked) > planted or len(ended) > over:
                line.sendall(b"\n")
                planted, over = len(asked), len(ended)
            time.sleep(0.1)
        line.close()

    # ---- what is recorded ----

    def end_run(self) -> None:
        """The verdicts of the run that goes on, if one does."""
        if not self.begun:
            return
        run = self.begun[-1]
        for chain, tag in zip(self.chains, self.tags):
            chain.end()
            run.verdicts.append("; ".join(chain.verdict))
            run.events.update(chain.converter.counts)
            run.shown += stale.of_chain(chain, f"{machine.OUT}/{self.name}-{run.name}-{self.tags.index(tag)}")
        if not any(chain.converter.tables.root for chain in self.chains):
            run.failure = run.failure or UNWATCHED

    def begin_run(self) -> None:
        self.end_run()
        run = list(self.runs.values())[len(self.begun)]
        paths = [f"{machine.OUT}/{self.name}-{run.name}-{number}" for number in range(len(self.tags))]
        earlier = self.chains or [None] * len(self.tags)
        self.chains = [chains.begin(path, self.kernel.place, tag, UPDATES, self.keep, before)
                       for path, tag, before in zip(paths, self.tags, earlier)]
        if self.child:
            chains.relate(*self.chains)
        self.begun.append(run)

    def take(self, lines: Iterable[str]) -> None:
        for line in lines:
            if AGAIN.match(line):
                self.begin_run()
            for chain in self.chains:
                chain.take(line)
        self.end_run()

    def record(self) -> list[Run]:
        """The runs that were begun; of the last one it may be said that it didn't end."""
        machine.record(self.name, self.guest, self.kernel, self.patience * len(self.runs), self.take, self.attend)
        parts = re.split(r"^RUN (\S+)\s*$", self.text(), flags=re.M)
        for name, said in zip(parts[1::2], parts[2::2]):
            self.runs[name].guest = said.replace("\r", "")
            self.runs[name].failure = self.runs[name].failure or machine.wrong_parts(said)
        if self.begun and f"OVER {self.begun[-1].name}" not in self.text():
            why = (self.failures or ["the guest ended"])[0]
            self.begun[-1].failure = "" if self.begun[-1].is_found() else why
        return self.begun


def record(kernel: Kernel, runs: list[Run], schedule: Schedule) -> None:
    """Each run, as often as the schedule says."""
    if schedule.times:
        record_times(kernel, runs, schedule)
        return
    record_once(kernel, runs, schedule)
    for tries in range(2, TRIES + 1):
        again = [Run(run.name, run.what, tries=tries) for run in runs if run.is_missed()]
        record_once(kernel, again, replace(schedule, seed=schedule.seed + tries - 1))
        by_name = {run.name: run for run in again}
        runs[:] = [by_name.get(run.name, run) for run in runs]


def record_times(kernel: Kernel, runs: list[Run], schedule: Schedule) -> None:
    """Each run so often, each time with another seed; what stays is the first with a no, or else the last."""
    for number in range(schedule.times):
        again = [Run(run.name, run.what, times=schedule.times) for run in runs]
        record_once(kernel, again, replace(schedule, seed=schedule.seed + number))
        for run in again:
            run.found = int(run.is_found())
        if number:
            again = [(old if old.is_found() else new).counted(old.found + new.found) for old, new in zip(runs, again)]
        runs[:] = again


def record_once(kernel: Kernel, runs: list[Run], schedule: Schedule) -> None:
    """Each run once, in as few boots as it takes: one for each kind, and after one that doesn't end comes another."""
    for kind in dict.fromkeys(run.kind() for run in runs):
        todo = [run for run in runs if run.kind() == kind]
        while todo:
            done = Boot(f"many-{os.getpid()}-{len(todo)}", kernel, todo, schedule).record()
            if not done:
                raise Missing("the guest didn't come to its first run")
            for run in done:
                said = run.failure or ", ".join(run.verdicts)
                print(f"# seed {schedule.seed}, {run.name}: {said}, {run.seconds:.0f} seconds", file=sys.stderr, flush=True)
            todo = todo[len(done):]
