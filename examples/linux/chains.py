"""Chains that are made of a guest's log, and judged, while the guest runs."""
import collections
import subprocess
from collections.abc import Callable, Iterable
from dataclasses import dataclass, field
from typing import BinaryIO, TextIO

import convert
import explain
import log_lines

KEPT = 64           # the last segments: a fault is of one that the auditor has read, and a pipe holds few


def reads_chains() -> bool:
    """Whether the program does."""
    return "--chain" in subprocess.run([explain.program(), "audit", "--help"], stdout=subprocess.PIPE).stdout.decode()


@dataclass
class Chain:
    """One that is being made: what is recorded of one address space, with its auditor at the other end of a pipe."""
    slimmer: log_lines.Slimmer
    converter: convert.Converter
    audit: subprocess.Popen[bytes]
    calls: TextIO
    kept: BinaryIO | None       # a file that gets all of it
    log: TextIO | None          # .. and one that gets the log's lines
    segments: collections.deque[bytes] = field(default_factory=lambda: collections.deque(maxlen=KEPT))
    log_tag: str = "@"          # with which its lines begin there
    is_read: bool = True        # the auditor reads on: it has found no fault
    verdict: list[str] = field(default_factory=list)

    def put(self, segment: bytes) -> None:
        self.segments.append(segment)
        if self.kept:
            self.kept.write(segment)
        try:
            self.audit.stdin.write(segment)
            self.audit.stdin.flush()
        except BrokenPipeError:
            self.is_read = False
            self.converter.private.leave()

    def take(self, line: str) -> None:
        if self.is_read:
            for each in self.slimmer.of_line(line):
                if self.log:
                    self.log.write(self.log_tag + each[1:])
                for parsed in log_lines.parse([each]):
                    self.converter.put(parsed)

    def end(self) -> int:
        """The last segment, and the auditor's status."""
        if self.is_read:
            self.converter.finish()
            self.converter.end_segment()
        for file in (self.calls, self.kept, self.log):
            if file:
                file.close()
        try:
            self.audit.stdin.close()
        except BrokenPipeError:
            pass
        self.verdict = self.audit.stdout.read().decode().splitlines()
        return self.audit.wait()

    def segments_to(self, number: int) -> list[bytes]:
        """Those that are kept, up to one of them; none where that isn't among them."""
        at = number - (self.converter.ended - len(self.segments))
        return list(self.segments)[:at + 1] if 0 <= at < len(self.segments) else []


def begin(path: str, place: Callable[[int], tuple[str, int]], tag: str, updates: int, keep: Iterable[str] = (),
          before: Chain | None = None) -> Chain:
    """A chain of segments of some so many updates. Who made its calls is written to PATH.calls, and what is to be kept, `chain` or `log`,
    to PATH.chain or PATH.log. Of a chain `before` of the same boot it is known where its kernel has the processors' own tables."""
    audit = subprocess.Popen([explain.program(), "audit", "--chain", "--quiet"], stdin=subprocess.PIPE, stdout=subprocess.PIPE)
    converter = convert.Converter(convert.Options(chain=updates))
    kept = open(f"{path}.chain", "wb") if "chain" in keep else None
    log = open(f"{path}.log", "w") if "log" in keep else None
    chain = Chain(log_lines.Slimmer(place, tag), converter, audit, open(f"{path}.calls", "w"), kept, log)
    if before:
        chain.slimmer.task_states = before.slimmer.task_states
    converter.put_segment, converter.put_calls = chain.put, chain.calls.write
    return chain


def relate(parent: Chain, child: Chain) -> None:
    """One is of a process, and the other one of the first child that it asks for. One log has the lines of both."""
    child.converter.parent = parent.converter
    if child.log:
        child.log.close()
        child.log, child.log_tag = parent.log, child.slimmer.tag


def feed(chains: list[Chain], lines: Iterable[str]) -> None:
    """All lines of a log, until each chain has a fault."""
    for line in lines:
        for chain in chains:
            chain.take(line)
        if not any(chain.is_read for chain in chains):
            break
