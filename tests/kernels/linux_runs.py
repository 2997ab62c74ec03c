"""Tests of examples/linux/run with bugs, programs and modules of one's own, for tests/linux."""
import os
import re
import subprocess
import tempfile
import xml.etree.ElementTree

import linux_live
import machine
import results
from counting import check, skip
from debian import Missing
from kernel_image import Kernel
from plants import PLANTS, Plant, with_others
from results import Result
from workloads import WORKLOADS, own_program

RUN = f"{machine.HERE}/run"
# What a program does that meets the bug of `gather`.
PROGRAM = """#include <stdio.h>
#include <string.h>
#include <sys/mman.h>
int main(int count, char **words)
{
	for (int round = 0; round < 8; round++) {
		char *at = mmap(0, 1 << 18, PROT_READ | PROT_WRITE, MAP_PRIVATE | MAP_ANONYMOUS, -1, 0);
		memset(at, 1, 1 << 18);
		munmap(at, 1 << 18);
	}
	printf("the words: %d %s\\n", count, words[count - 1]);
	return 0;
}
"""


def missing(call, *arguments: object) -> str:
    """What a call says is missing."""
    try:
        call(*arguments)
    except Missing as why:
        return str(why)
    return "nothing"


def check_plants() -> None:
    with tempfile.TemporaryDirectory() as folder:
        def with_text(text: str) -> str:
            with open(f"{folder}/mine.py", "w") as file:
                file.write(text)
            return f"{folder}/mine.py"

        head = "from plants import Plant, Replaced, RETURN\n"
        row = "Plant('a bug', (Replaced('flush_tlb_mm_range', RETURN),), 'threads')"
        found = with_others(with_text(f"{head}PLANTS = {{'mine': {row}}}\n"))
        check("a bug of one's own", isinstance(found["mine"], Plant) and len(found) == len(PLANTS) + 1, list(found))
        check("no file of bugs", with_others("") == PLANTS)
        for what, text, said in (("a name that is taken", f"{head}PLANTS = {{'mremap': {row}}}\n", "names that are taken: mremap"),
                                 ("a file without bugs", "A = 1\n", "doesn't say PLANTS"),
                                 ("bugs that are none", "PLANTS = {'mine': 1}\n", "doesn't say PLANTS"),
                                 ("a file that fails", "1 / 0\n", "ZeroDivisionError")):
            check(f"{what} is named", said in missing(with_others, with_text(text)), missing(with_others, with_text(text)))
        check("no such file is named", "FileNotFoundError" in missing(with_others, f"{folder}/none.py"))


def check_programs() -> None:
    with tempfile.TemporaryDirectory() as folder:
        for name in ("mine", "workload"):
            with open(f"{folder}/{name}", "w") as file:
                os.fchmod(file.fileno(), 0o755)
        name, workload = own_program(f"{folder}/mine 'a b' c", False)
        guest = workload.guest(1)
        check("a program of one's own", name == "mine" and guest.files == (f"{folder}/mine",) and workload.chain > 0
              and guest.command.splitlines()[-1] == "/bin/workload exec /bin/mine 'a b' c", guest)
        lines = own_program(f"{folder}/mine", True)[1].guest(1, PLANTS["gather"]).command.splitlines()
        check("it begins when the bug is planted", lines[1:] == ["exec 4</dev/ttyS1", "echo PLANT", "read line <&4", "exec 4<&-",
                                                                 "/bin/workload exec /bin/mine"], lines)
        for what, text, said in (("a name that the guest has", f"{folder}/workload", "the guest has a workload already"),
                                 ("no file", f"{folder}/none", "is no program"), ("a folder", folder, "is no program"),
                                 ("no name", "", "is no program")):
            check(f"as a program {what} is refused", said in missing(own_program, text, False), missing(own_program, text, False))


def check_modules() -> None:
    """A module is a file, or one of ours, which needs the headers of the kernel."""
    kernel = Kernel("6.1.0-none", "", [], [], None)
    check("a module's file is taken as it is", machine.module_file(kernel, "/a/b.ko") == "/a/b.ko")
    said = missing(machine.module_file, kernel, "driver_memory")
    check("headers that aren't there are named", "linux-headers-6.1.0-none" in said, said)
    check("a module is inserted first", machine.insert(["/a/b.ko.xz"]).startswith("$b insmod /bin/b.ko\n"))
    check("one workload has a module of ours", [name for name, each in WORKLOADS.items() if each.modules] == ["driver"]
          and WORKLOADS["driver"].guest(1).modules == ("driver_memory",))
    check("others have options and mappings as they say", WORKLOADS["kvm"].guest(1).options == "" and WORKLOADS["maps"].guest(1).maps
          and "nohz_full" in WORKLOADS["kvm-log"].guest(1).options)


def check_results() -> None:
    one = [Result("a & b", "`no 24 Stale 5`", False, 1.25, ["x", "y"])]
    check("one run for machines", results.tap(one) == ["TAP version 13", "1..1", "not ok 1 - a & b: `no 24 Stale 5`", "# x", "# y"],
          results.tap(one))
    suite = xml.etree.ElementTree.fromstring(results.junit("run", one).partition("\n")[2])
    check("and as an XML file", suite.get("name") == "run" and suite[0].get("name") == "a & b" and len(suite[0]) == 1)
    done = subprocess.run([RUN, "--plant", "nothing"], stdout=subprocess.PIPE, stderr=subprocess.PIPE)
    check("a bug that isn't there is named", done.returncode == 2 and b"no bug nothing; there are no-ipi" in done.stderr, done.stderr)
    done = subprocess.run([RUN, "--program", "/none", "--tap"], stdout=subprocess.PIPE, stderr=subprocess.PIPE)
    check("a run that can't be is said", done.returncode == 2 and done.stdout == b"TAP version 13\nBail out! /none is no program\n", done)


# ---- new recordings ----

def check_driver() -> None:
    """A driver's memory is unmapped by two tasks at the same time: one flushes for the other, and frees it."""
    if not os.path.isdir(f"/lib/modules/{machine.kernel().version}/build"):
        skip(f"a driver: no linux-headers-{machine.kernel().version}")
        return
    if not linux_live.sound("driver", "driver", "--chain", "1000", "--keep-log"):
        return
    begins = machine.text_of(f"{machine.OUT}/driver.log").count("\n@flushing ")
    check("and its log is kept, with the begins of flushes", begins > 0, begins)


def check_own() -> None:
    """A program of one's own, and the same with a bug."""
    with tempfile.TemporaryDirectory() as folder:
        with open(f"{folder}/mine.c", "w") as file:
            file.write(PROGRAM)
        subprocess.run(["gcc", "-static", "-o", f"{folder}/mine", f"{folder}/mine.c"], check=True)
        words = ["--program", f"{folder}/mine 'two words'", "--init", "echo note: begun", "--rest", "0", "--tap"]
        if said := linux_live.sound("a program of one's own", *words, "--junit", f"{folder}/said.xml"):
            check("and what is said of it is for machines", said.startswith("TAP version 13\n1..1\nok 1 - mine: `segments "), said)
            serial = machine.text_of(f"{machine.OUT}/mine.serial")
            check("with its words, behind what was to be done first", "note: begun" in serial and "the words: 2 two words" in serial,
                  serial[-300:])
            suite = xml.etree.ElementTree.parse(f"{folder}/said.xml").getroot()
            check("and said in an XML file", [case.get("name") for case in suite] == ["mine"] and suite.get("failures") == "0")
        if said := linux_live.planted("gather", *words):
            found = re.search(r"^ok 1 - planted-gather-mine: `segment \d+; no 2[45] (?:Stale|Reachable) \d+`$", said, re.M)
            check("and what is said of it with a bug", found, said)
