"""What the guest runs while it is watched."""
import os
import shlex
from collections.abc import Callable
from dataclasses import dataclass

import large_source
from debian import Missing
from machine import HERE, LIMIT, OUT, Guest
from plants import RESTS, Plant

# But on processor 0, while one task runs there: each tick would end a machine's run. No processor that isn't there may be named.
WITHOUT_TICKS = {2: " tsc=reliable nohz_full=1", 3: " tsc=reliable nohz_full=1-2"}
PARTS = "threads shootdown cow huge moved files merged reclaimed emptied copied"


@dataclass(frozen=True)
class Workload:
    what: str
    command: str                # of guest/workload.c, without its name; SEED is replaced
    processors: int = 1
    tick: int = 0               # microseconds after which a process wakes, so that QEMU goes to the next processor; 0: there is none
    rest: int = 0
    rest_at: str = RESTS
    levels: int = 4
    isolated: bool = False
    package: str = ""
    nested: bool = False
    monitor: bool = False
    child: bool = False
    memory: int = 1024          # MiB
    file: Callable[[], str] | None = None       # makes a file for its /bin: the path here
    chain: int = 0              # it is too long for a trace, or has a start: updates in a segment of its chain
    limit: int = LIMIT          # seconds
    options: str = ""
    maps: bool = False          # its pages are compared with what the guest's kernel says of its mappings
    modules: tuple[str, ...] = ()   # of the guest's kernel, as machine.module_file takes them
    begin: str = ""             # lines of init before it

    def guest(self, seed: int, plant: Plant | None = None) -> Guest:
        command = f"/bin/workload {self.command.replace('SEED', str(seed))}"
        ticking = f"/bin/workload tick {self.tick} &\n" if self.tick else ""
        return Guest(ticking + self.begin + command, self.processors, self.levels, self.isolated, self.rest, self.rest_at, self.memory,
                     plant.code if plant else (), self.package, self.nested, self.monitor, self.child, (self.file(),) if self.file else (),
                     modules=self.modules, options=self.options, maps=self.maps, has_line=plant is not None)


WORKLOADS = {
    "short": Workload("threads that map, protect and unmap, copy on write, large pages; 2 processors",
                      "live SEED 5 threads shootdown cow huge", 2, 50),
    "whole": Workload("all parts, from exec to exit, 1 processor", f"die SEED 5 {PARTS}"),
    "long": Workload("all parts, 3 processors", f"live SEED 10 {PARTS}", 3, 50),
    "here": Workload("all parts, from when it has 3,000 pages on, 3 processors", f"here SEED 10 {PARTS}", 3, 50, chain=1000),
    "maps": Workload("mappings of each kind, whose pages are compared with those that the guest's kernel says there are, 2 processors",
                     "maps SEED 5 threads shootdown cow huge kinds", 2, 50, maps=True),
    "maps-here": Workload("the same where it begins and where it ends, from when it has 3,000 pages on, 2 processors",
                          "maps-here SEED 5 threads shootdown cow huge emptied", 2, 50, chain=1000, maps=True),
    "crowd": Workload("a hundred threads that map, protect and unmap, 4 processors", "live SEED 2 crowd", 4, 50, chain=1000),
    "five": Workload("five levels, 2 processors", "live SEED 5 threads shootdown cow huge moved files", 2, 50, levels=5),
    "isolated": Workload("the user's table of page-table isolation, 2 processors",
                         "live SEED 5 threads shootdown cow huge moved files", 2, 50, isolated=True),
    "given": Workload("pages that are freed: by munmap, reclaim, KSM and compaction, 3 processors",
                      "live SEED 5 given lazy lazy-large equal compacted", 3, 50, chain=1000),
    "fork": Workload("the address space that fork makes of one with 1,000 pages, to the child's exit, 2 processors",
                     "fork SEED 1000", 2, 50),
    "family": Workload("a process that forks, and its child, until each has copied what they share, as two chains, 2 processors",
                       "die SEED 5 child cow", 2, 50, child=True, chain=1000),
    "busybox": Workload("a shell of busybox with pipes, from exec to exit, 2 processors",
                        "exec /bin/busybox sh -c '/bin/busybox seq 1 2000 | /bin/busybox sort -r | /bin/busybox md5sum'", 2, 50),
    "python": Workload("Debian's Python, with threads and a fork, from exec to exit, 2 processors",
                       "exec /usr/bin/python3.11 /bin/script.py SEED", 2, 50, package="python3.11-minimal"),
    "stress-vm": Workload("stress-ng's process that maps, writes and unmaps (vm), from fork to exit, 3 processors",
                          "later 2 /usr/bin/stress-ng --vm 1 --vm-bytes 1M --vm-method flip --vm-ops 1000 --seed SEED", 3, 50,
                          package="stress-ng"),
    "stress-long": Workload("the same for a minute",
                            "later 2 /usr/bin/stress-ng --vm 1 --vm-bytes 1M --vm-method flip --timeout 60 --seed SEED", 3, 50,
                            package="stress-ng", chain=10000),
    "attached": Workload("the same when it has run for some seconds already",
                         "attach 8 2 /usr/bin/stress-ng --vm 1 --vm-bytes 1M --vm-method flip --timeout 20 --seed SEED", 3, 50,
                         package="stress-ng", chain=1000),
    "stress-tlb": Workload("stress-ng's process that has TLBs shot down (tlb-shootdown), from fork to exit, 3 processors",
                           "later 2 /usr/bin/stress-ng --tlb-shootdown 1 --tlb-shootdown-ops 4 --seed SEED", 3, 50, package="stress-ng"),
    "kvm": Workload("the nested tables of KVM's guest in the guest, 1 processor", "monitor SEED 100", nested=True),
    "kvm-log": Workload("the same of a guest whose writes KVM logs, 2 processors", "logged SEED 100", 2, nested=True,
                        options=WITHOUT_TICKS[2]),
    "kvm-pair": Workload("the nested tables of a guest with two processors, and its monitor's own, as two chains, 3 processors",
                         "pair SEED 30", 3, nested=True, monitor=True, chain=1000, options=WITHOUT_TICKS[3]),
    "cc1": Workload("gcc's compiler on 25,000 lines of C, from exec to exit, 2 processors",
                    "exec /usr/lib/gcc/x86_64-linux-gnu/12/cc1 -quiet -w -fpreprocessed /bin/large.i -o /dev/null", 2, 50,
                    package="cpp-12", memory=2048, file=lambda: large_source.path(OUT), chain=10000, limit=1800),
    "browser": Workload("Chromium, which loads a page and runs its script, all in one process, from exec to exit, 2 processors",
                        "exec /usr/lib/chromium/chromium-headless-shell --no-sandbox --single-process --disable-gpu --dump-dom "
                        "file:///bin/page.html", 2, 50, package="chromium-headless-shell", memory=3072,
                        file=lambda: f"{HERE}/guest/page.html", chain=10000, limit=3600),
    "driver": Workload("a driver's memory that one thread unmaps while another has the driver take it back, 2 processors",
                       "live SEED 12 driver", 2, 50, rest=3, chain=1000, modules=("driver_memory",)),
    "race": Workload("rests between stores and their flushes, so that other processors' accesses fall there, 3 processors",
                     "live SEED 12 shootdown", 3, 50, rest=25),
}


def planted(plant: Plant) -> Workload:
    """The process that meets a planted bug; it waits for it when it runs already."""
    is_pair = plant.nested == "pair"
    return Workload(plant.what, f"{plant.how()} SEED {plant.rounds} planted {plant.parts}", plant.processors, plant.tick, nested=bool(plant.nested),
                    monitor=is_pair, child=plant.child, chain=1000 if is_pair or plant.child or plant.is_given else 0,
                    options=plant.options + (WITHOUT_TICKS[plant.processors] if plant.nested else ""), rest=plant.rest, rest_at=plant.rest_at,
                    modules=plant.modules, begin=plant.setup)


def own_program(text: str, is_planted: bool) -> tuple[str, Workload]:
    """A program of somebody else's with its arguments, from exec to exit, and its name. It begins when a bug is planted, if one is."""
    file, *arguments = shlex.split(text) or [""]
    name = os.path.basename(file)
    if not os.path.isfile(file) or not os.access(file, os.X_OK):
        raise Missing(f"{file} is no program")
    if name in ("busybox", "workload", "script.py"):
        raise Missing(f"the guest has a {name} already")
    # the line is open before the recorder is asked: what comes down a closed one is lost
    asks = "exec 4</dev/ttyS1\necho PLANT\nread line <&4\nexec 4<&-\n" if is_planted else ""
    return name, Workload(f"{file}, 3 processors", shlex.join(["exec", f"/bin/{name}", *arguments]), 3, 50, file=lambda: file, chain=1000,
                          begin=asks)
