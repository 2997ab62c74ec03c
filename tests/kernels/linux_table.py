"""Tests of examples/linux/table, for tests/linux: what it prints, and runs of one boot that are parted from a log."""
import collections
import contextlib
import importlib.machinery
import importlib.util
import io
import os
import re
import sys
import tempfile
import xml.etree.ElementTree
from types import ModuleType
from unittest import mock

sys.dont_write_bytecode = True
import convert
import machine
import many
import results
from counting import check
from kernel_image import Kernel
from many import Run, Schedule
from plants import PLANTS, Plant
from programs import PROGRAMS

ROOT = os.path.dirname(os.path.dirname(os.path.dirname(os.path.abspath(__file__))))
LINUX = f"{ROOT}/examples/linux"


def loaded(name: str) -> ModuleType:
    loader = importlib.machinery.SourceFileLoader(name, f"{LINUX}/{name}")
    module = importlib.util.module_from_spec(importlib.util.spec_from_loader(name, loader))
    loader.exec_module(module)
    return module


def run(name: str, verdicts: list[str], is_seen: bool = True, failure: str = "") -> Run:
    shown = ["call 5", "  of task 1, at 0x1 first+0x5, called by second+0x6"]
    plant = Plant("a <bug>", (), "parts", is_seen=is_seen)
    return Run(name, plant, verdicts, shown, "WRONG a\nDONE, 1 wrong\n", collections.Counter(), 2.5, failure)


def check_printed() -> None:
    table = loaded("table")
    runs = [run("found", ["segment 1; no 24 Stale 5"]), run("missed", ["segments 3"]), run("unseen", ["segments 3"], False),
            run("ended", [], failure="the guest ended & more"), run("pair", ["segments 1", "segment 0; no 24 Stale 1"])]
    check("which are as expected", [each.is_as_expected() for each in runs] == [True, False, True, False, True])
    check("which were missed and are run again", [each.name for each in runs if each.is_missed()] == ["missed"])
    lines = [line for line in results.tap(table.results_of(runs)) if line[0] != "#"]
    check("lines of the Test Anything Protocol", lines[:2] == ["TAP version 13", "1..5"] and [line.split(" - ")[0] for line in lines[2:]]
          == ["ok 1", "not ok 2", "ok 3", "not ok 4", "ok 5"], lines)
    suite = xml.etree.ElementTree.fromstring(results.junit("planted", table.results_of(runs)).partition("\n")[2])
    cases = {case.get("name"): [each.get("message") for each in case] for case in suite}
    check("an XML file as JUnit's", suite.get("tests") == "5" and suite.get("failures") == "2" and cases
          == {"found": [], "missed": ["`segments 3`, met 0/0/0/0"], "unseen": [], "ended": ["the guest ended & more"], "pair": []}, cases)
    row = table.rows(runs)[2]
    programs = table.rows_of_programs([Run("sqlite", PROGRAMS["sqlite"], ["segments 2"], [], "", collections.Counter(maps=1000, unmaps=2,
                                                                                                              accesses=3), 4.4)])
    check("a row of a program", programs[2].endswith(" | 4 | 1,002 | 3 | `segments 2`, met 0/0/0/0 |"), programs[2])
    check("a row of the table", row == "| `found` | a <bug> | `segment 1; no 24 Stale 5` | first < second | 1 | 2 |", row)
    check_for_machines(table)


def said_by(table: ModuleType, *words: str) -> tuple[int, str]:
    """What the command ends with and prints, where each run with a bug is a no and each other one a yes."""
    def recorded(_: Kernel, runs: list[Run], __: Schedule) -> None:
        for each in runs:
            each.verdicts = ["segment 0; no 24 Stale 1" if isinstance(each.what, Plant) and each.what.is_seen else "segments 3"]

    printed = io.StringIO()
    with mock.patch.object(sys, "argv", ["table", *words]), mock.patch.object(table.explain, "check_program"), \
            mock.patch.object(table.chains, "reads_chains", return_value=True), mock.patch.object(table.machine, "kernel"), \
            mock.patch.object(table.many, "record", recorded), contextlib.redirect_stdout(printed):
        return table.main(), printed.getvalue()


def check_for_machines(table: ModuleType) -> None:
    """Programs, and bugs of a file whose names a pattern names, as lines and as a file for machines."""
    plants = ("--history", "--plants", f"{LINUX}/source_bugs.py")
    with tempfile.TemporaryDirectory() as folder:
        for name, words, names in (("programs", ("--programs", "sqlite", "java-*"), ["sqlite", "java-serial", "java-g1", "java-z"]),
                                   ("history", (*plants, "source-912*"), ["source-912efa17e512-sound", "source-912efa17e512"])):
            status, text = said_by(table, *words, "--tap", "--junit", f"{folder}/said.xml")
            found = [line.partition(" - ")[2].partition(":")[0] for line in text.splitlines() if line.startswith("ok ")]
            suite = xml.etree.ElementTree.parse(f"{folder}/said.xml").getroot()
            check(f"a table of {name} for machines", (status, found, suite.get("name"), [case.get("name") for case in suite])
                  == (0, names, name, names), (status, text))
    with contextlib.redirect_stderr(io.StringIO()) as errors, contextlib.suppress(SystemExit):
        said_by(table, *plants, "source-9127*")
    check("a pattern that names nothing is an error", "no source-9127*; there are" in errors.getvalue(), errors.getvalue())


def check_script() -> None:
    """Each run follows a mark, and waits until the kernel's code is restored."""
    runs = [Run(name, PLANTS[name]) for name in ("no-ipi", "mremap")]
    text = many.script(runs, 7)
    found = re.findall(r"^(?:echo RUN|/bin/workload again|\$b taskset 1 /bin/workload|/bin/workload live|echo OVER).*$", text, re.M)
    check("what init runs", found == [
        "echo RUN no-ipi", "/bin/workload again", "/bin/workload live 7 100 planted shootdown", "echo OVER no-ipi",
        "echo RUN mremap", "/bin/workload again", "$b taskset 1 /bin/workload live 7 5 planted moved", "echo OVER mremap"], text)
    check("as often it waits", text.count("read line <&3") == 2)
    programs = [Run(name, PROGRAMS[name]).commands(7) for name in ("transhuge-stress", "sqlite")]
    check("a test is ended after a minute", "sleep 60; $b killall -q transhuge-stres)" in programs[0][2] and
          programs[0][2].splitlines()[2:] == ["/bin/workload exec /bin/transhuge-stress", "$b kill $e"], programs[0])
    database = Run("postgres", PROGRAMS["postgres"]).commands(7)
    check("a database is made before that", database.index("fi") < database.index("t=$!") and "initdb" in database[3], database)
    check("and sqlite ends by itself", programs[1][2].startswith("/bin/workload exec /usr/bin/sqlite3"), programs[1])


def check_parted() -> None:
    """A log of two runs: the first with a fault, the second without one; the second is judged though the first was ended."""
    marked = "@marked 0 a0 5\n"
    logs = [convert.read_lines(f"{LINUX}/kept/{name}.log.xz") for name in ("planted-no-ipi", "race")]
    lines = [line.replace("\n", " 0\n") if line.startswith("@born") else line for log in logs for line in [marked, *log]]
    runs = [Run("first", PLANTS["no-ipi"]), Run("second", PLANTS["no-ipi"])]
    with tempfile.TemporaryDirectory() as folder, mock.patch.object(machine, "OUT", folder):
        boot = many.Boot("many", Kernel("6", "", [], [(1 << 63, "first")], None), runs, Schedule(1))
        boot.take(lines)
    check("runs of one log are judged one by one", [each.is_found() for each in runs] == [True, False]
          and [len(each.verdicts) for each in runs] == [1, 1], [each.verdicts for each in runs])
    is_shown = [bool(each.shown) and each.shown[0].startswith("call ") for each in runs]
    check("and the stale access of the first is shown", is_shown == [True, False], runs[0].shown)


def check_run_again() -> None:
    """A bug that nobody met is run again with other seeds, some times at most; one that was found isn't."""
    asked: list[tuple[list[str], int]] = []

    def recorded(_: Kernel, runs: list[Run], schedule: Schedule) -> None:
        seed = schedule.seed
        asked.append(([each.name for each in runs], seed))
        for each in runs:
            is_met = each.name == "first" or each.name == "second" and seed == 8
            each.verdicts = ["segment 0; no 24 Stale 1" if is_met else "segments 3"]
            each.failure = many.UNWATCHED if each.name == "missed" and seed == 7 else ""

    runs = [Run(name, PLANTS["no-ipi"]) for name in ("first", "second", "third")] + [Run("split", PLANTS["split"])]
    runs.append(Run("missed", PLANTS["split"]))
    with mock.patch.object(many, "record_once", recorded):
        many.record(Kernel("6", "", [], [], None), runs, Schedule(7))
    check("bugs that nobody met, and a process that was missed, are run again", asked
          == [(["first", "second", "third", "split", "missed"], 7), (["second", "third", "missed"], 8)]
          + [(["third"], 7 + tries) for tries in range(2, many.TRIES)], asked)
    check("and keep what came of the last run", [(each.name, each.tries, each.is_found()) for each in runs]
          == [("first", 1, True), ("second", 2, True), ("third", many.TRIES, False), ("split", 1, False), ("missed", 2, False)])
