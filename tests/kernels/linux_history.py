"""Tests of bugs that Linux was shipped with (examples/linux/history.py), for tests/linux: the table, their code, and logs."""
import collections
import contextlib
import io
import os
import re
import tempfile
from unittest import mock

import convert
import machine
import many
from convert import Options
from counting import check
from debian import Missing
from history import HISTORY, SOUND, Shipped, with_twins
from kernel_image import Kernel
from linux_releases import KEPT, Memory, call_of, judged
from linux_table import loaded
from many import Run, Schedule
from plants import PLANTS, REST_PLACES, FlushedLate, Patched, joined, rest_at
from source_bugs import CHANGES, NUMBERS, VARIABLE, Number
from source_bugs import PLANTS as OF_SOURCE
from workloads import planted

# Logs that were kept: of a bug, and of the same process without it; what is said of each as a chain
LOGS = (("CVE-2021-4002", "segment 0/no 24 Stale 938", "segments 1"), ("99baac21e458", "segment 0/no 24 Stale 1436", "segments 3"),
        ("CVE-2022-39188", "segment 0/no 25 Reachable 1406", "segments 2"),
        ("CVE-2024-47674", "segment 0/no 25 Reachable 898", "segments 1"),
        ("a835429cda91", "segment 0/no 25 Reachable 422", "segments 3"))
SHOWN = ["call 5, thread 1: touch u r 0x5000, answered `allowed 0x9000`", "answered before it: call 4",
         "  of task 1, at 0x1 first+0x5, called by s+0x6"]


def missing(call, *arguments: object) -> str:
    """What a call says is missing."""
    try:
        call(*arguments)
    except Missing as why:
        return str(why)
    return "nothing"


def check_rows() -> None:
    """What each row says, and that no name is there twice."""
    both = with_twins()
    check("each bug comes behind its twin", list(both) == [name for each in HISTORY for name in (each + SOUND, each)])
    check("a twin has the same process and no bug", all(not both[name + SOUND].code and not both[name + SOUND].is_seen
                                                        and both[name + SOUND].parts == each.parts for name, each in HISTORY.items()))
    check("all are rows of history", all(isinstance(each, Shipped) and 2010 < each.year < 2027 for each in HISTORY.values()))
    check("no bug has a name of another", len(joined(PLANTS, both)) == len(PLANTS) + len(both))
    said = missing(joined, PLANTS, {"mremap": PLANTS["mremap"]})
    check("two bugs of one name are an error", said == "names of two bugs: mremap", said)
    parts = open(f"{os.path.dirname(many.__file__)}/guest/parts.c").read()
    names = re.findall(r'\{ "([a-z-]+)", \w+ \}', parts)
    check("no two parts have one name", len(names) > 20 and len(set(names)) == len(names), names)
    lacking = [part for each in joined(PLANTS, HISTORY).values() for part in each.parts.split() if part not in names]
    check("each bug's parts are there", lacking == [], lacking)


def check_parts() -> None:
    """A part that isn't there, or is there twice, is an error of `table` and of `run`."""
    text = "RUN no-ipi\nPLANT\nWRONG 2 parts lazy\r\nOVER no-ipi\nRUN mremap\nDONE, 0 wrong\nOVER mremap\n"
    runs = [Run(name, PLANTS[name], ["segments 1"]) for name in ("no-ipi", "mremap")]
    with mock.patch.object(machine, "record", lambda *_: None), mock.patch.object(many.Boot, "text", lambda _: text):
        boot = many.Boot("many", Kernel("6", "", [], [], None), runs, Schedule(1))
        boot.begun = runs
        boot.record()
    check("a part that is there twice is an error of its run", [each.failure for each in runs] == ["the process has 2 parts lazy", ""])
    with contextlib.redirect_stdout(io.StringIO()):
        said = missing(loaded("run").say_of, machine.Recording("WRONG 0 parts other\n", True), 1)
        silent = missing(loaded("run").say_of, machine.Recording("WRONG no answer of the recorder\n", True), 1)
    check("and one that isn't there", said == "the process has 0 parts other", said)
    check("and a process that waited for its bug in vain", silent == "the process had no answer when it asked for its bug", silent)
    check("a twin's guest has the line on which it asks", all(planted(each).guest(1, each).has_line for each in with_twins().values()))


def check_rests() -> None:
    every = ",".join(REST_PLACES)
    check("places of rests", [rest_at(each) for each in ("", "flushes", every)] == ["", "flushes", every])
    try:
        rest_at("flushes,nowhere")
        said = "nothing"
    except ValueError as why:
        said = str(why)
    check("a place that isn't there is named", said == "there are stores, flushes, tables, others", said)
    guest = planted(HISTORY["CVE-2018-18281"]).guest(1)
    check("a row's rests are the guest's", (guest.rest, guest.rest_at) == (2, "flushes"), guest)


def run(name: str, verdict: str, **others: object) -> Run:
    events = collections.Counter({convert.BETWEEN: 7})
    return Run(name, with_twins()[name], [verdict], SHOWN if "no" in verdict else [], "", events, 1.0, **others)


def check_printed() -> None:
    table = loaded("table")
    lines = table.rows_of_history([run(f"912efa17e512{SOUND}", "segments 4"), run("912efa17e512", "segment 1; no 24 Stale 5")])
    check("a row of history has the evidence, and what its twin met", lines[2].endswith(
        "| `segment 1; no 24 Stale 5` | touch u r 0x5000, answered `allowed 0x9000`; first < s | `segments 4`, met 7/0/0/0 |"), lines)
    check("and how the bug is put back", len(lines) == 7 and lines[6].startswith("| `912efa17e512` | ")
          and " | 5.10.24-1 | " in lines[6], lines)


def check_series() -> None:
    """Without names those bugs are left out that another kernel has."""
    runs, table = [Run(name, what) for name, what in {**PLANTS, **with_twins()}.items()], loaded("table")
    with contextlib.redirect_stderr(io.StringIO()) as printed:
        left = [{run.name for run in table.of_kernel(runs, version)} for version in ("6.1.0-57-cloud-amd64", "6.12.117")]
    names = {run.name for run in runs}
    check("a bug of another kernel is left out", names - left[0] == {"CVE-2024-50066-sound", "CVE-2024-50066"}, names - left[0])
    check("and those that have no kernel of their own are not", left[1] == {*PLANTS, "CVE-2024-50066-sound", "CVE-2024-50066"}, left[1])
    check("and named", printed.getvalue().startswith("# not of Linux 6.1.0-57-cloud-amd64: CVE-2024-50066-sound, CVE-2024-50066\n"),
          printed.getvalue())


def check_times() -> None:
    """Each run so often; in how many it was found is counted, and the first with a fault stays."""
    seeds: list[int] = []

    def recorded(_: Kernel, runs: list[Run], schedule: Schedule) -> None:
        seeds.append(schedule.seed)
        for each in runs:
            each.verdicts = [f"segment {schedule.seed}; no 24 Stale 1" if each.name == "no-ipi" and schedule.seed != 5 else "segments 3"]

    runs = [Run(name, PLANTS[name]) for name in ("no-ipi", "mremap")]
    with mock.patch.object(many, "record_once", recorded):
        many.record(Kernel("6", "", [], [], None), runs, Schedule(5, 3))
    check("runs are made so often", seeds == [5, 6, 7], seeds)
    check("and counted", [(each.verdicts, each.found, each.times) for each in runs] == [(["segment 6; no 24 Stale 1"], 2, 3),
                                                                                    (["segments 3"], 0, 3)])


def check_code() -> None:
    """Bytes that are replaced where they are once, and a flush behind a call."""
    begin = 0xFFFFFFFF81000000
    target, flush, place = begin + 0x2000, begin + 0x3000, begin + 0x4000
    code = call_of(begin, target) + b"\x48\xc1\xeb\x0c" + bytes(8)
    names = [(begin, "outer"), (begin + len(code), "behind"), (target, "moves"), (flush, "flush_tlb_mm_range"), (place, "unused"),
             (place + 64, "end")]
    kernel, memory = Kernel("6", "", [], names, None), Memory(begin, code)
    Patched("outer", b"\xc1\xeb", b"\xc1\xfb").plant(kernel, memory)
    check("bytes are replaced", memory.code[5:9] == b"\x48\xc1\xfb\x0c")
    Patched("outer", b"\xc1\xaa\x0c", b"\xc1\xeb\x0c", (1,)).plant(kernel, memory)
    check("one of which may be any", memory.code[5:9] == b"\x48\xc1\xeb\x0c")
    said = missing(Patched("outer", bytes(2), b"").plant, kernel, memory)
    check("where they are more than once that is named", "outer of this kernel, 6, has 0000 5 times" in said, said)
    memory = Memory(begin, code + bytes(place + 64 - begin - len(code)))
    with mock.patch.object(Kernel, "offset", lambda *_: 0x10):
        FlushedLate("outer", "moves", "unused").plant(kernel, memory)
        said = missing(FlushedLate("outer", "flush_tlb_mm_range", "unused").plant, kernel, memory)
    added = bytes(memory.code[place - begin:])
    check("a call goes to the code that flushes behind it", memory.code[:5] == call_of(begin, place))
    check("which calls both, one behind the other", added[4:9] == call_of(place + 4, target)
          and added[31:36] == call_of(place + 31, flush) and added[36:39] == b"\x58\x5b\xc3"
          and added[9:14] == b"\x50\x48\x8b\x7b\x10", added.hex())
    check("a call that isn't there is named", "outer of this kernel, 6, doesn't call flush_tlb_mm_range" in said, said)


def check_source() -> None:
    """Linux's source is changed where a text is once, and each bug has a number of its own."""
    build = loaded("build_kernel")
    with tempfile.TemporaryDirectory() as folder:
        for file in {file for file, _, _ in CHANGES}:
            os.makedirs(os.path.dirname(f"{folder}/{file}"), exist_ok=True)
            with open(f"{folder}/{file}", "w") as out:
                out.write("".join(f"{before}\n\n" for each, before, _ in CHANGES if each == file))
        build.change(folder)
        texts = {file: open(f"{folder}/{file}").read() for file, _, _ in CHANGES}
        check("texts of the source are replaced", all(after in texts[file] for file, _, after in CHANGES))
        build.change(folder)
        check("once", texts == {file: open(f"{folder}/{file}").read() for file in texts})
        with open(f"{folder}/mm/rmap.c", "w") as out:
            out.write("another source\n")
        said = missing(build.change, folder)
        check("a text that isn't there is named", said == f"{folder}/mm/rmap.c has 0 times: if (pending != flushed) {{", said)
    numbers = set(re.findall(rf"{VARIABLE} [!=]= (\d+)", " ".join(after for _, _, after in CHANGES)))
    check("each bug has its number in the source", numbers == {str(each) for each in NUMBERS.values()}, numbers)
    kernel, memory = Kernel("6", "", [], [(1 << 63, VARIABLE)], None), Memory(1 << 63, bytes(8))
    Number(7).plant(kernel, memory)
    check("which is stored to the variable", memory.code == b"\x07" + bytes(7), memory.code)
    check("and no row that a kernel of Debian's has is named so", len(joined(PLANTS, with_twins(), OF_SOURCE)) == len(PLANTS)
          + 2 * len(HISTORY) + len(OF_SOURCE) and len(OF_SOURCE) == 2 * len(NUMBERS))


def check_kept() -> None:
    for name, verdict, sound in LOGS:
        for log, expected in ((f"history-{name}", verdict), (f"history-{name}{SOUND}", sound)):
            said = judged(convert.convert(convert.read_lines(f"{KEPT}/{log}.log.xz"), Options(chain=1000)).spell())
            check(f"{log} is judged {expected}", said == (expected, expected), said)
