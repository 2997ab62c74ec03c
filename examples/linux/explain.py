#!/usr/bin/env python3
"""Shows a fault of a recorded trace, and for each call that it names what in the guest made it.

    explain.py [--debug VMLINUX] TRACE [CALLS]

CALLS is the file that the converter wrote beside the trace (--calls); TRACE with the ending .calls where it isn't given. VMLINUX is the
kernel with its debugging symbols, as Debian has it in a package of its own: with it, the kernel's lines are shown. NRVS says where the
program is, else it is crates/nrvs/out/nrvs.
"""
import argparse
import os
import re
import subprocess
import sys

sys.dont_write_bytecode = True
from debian import Missing, said

TOP = os.path.dirname(os.path.dirname(os.path.dirname(os.path.abspath(__file__))))
BUILD = re.compile(r"^.*/build_[^/]*/")         # where Debian's kernel was built


def program() -> str:
    return os.path.realpath(os.environ.get("NRVS", f"{TOP}/crates/nrvs/out/nrvs"))


def check_program() -> None:
    if not os.access(program(), os.X_OK):
        raise Missing(f"no program {program()}: NRVS=FILE says where one is (a release's bin/nrvs, say), or cd crates/nrvs && rt run -- "
                      "--version proves and builds it, half an hour long")


def read_calls(path: str) -> dict[int, list[str]]:
    """By call: who made it, what ended its time or nothing, and the instructions, the innermost first."""
    rows = (line.rstrip("\n").split("\t") for line in open(path))
    return {int(number): words for number, *words in rows}


def origin(words: list[str]) -> str:
    """Who made a call, and by which instruction of which function, called by which."""
    who, _, *instructions = words
    if not instructions:
        return f"{who}, a page fault" if who.startswith("processor") else f"{who}, what its system call promised"
    address, _, place = instructions[0].partition(" ")
    callers = [each.partition(" ")[2] for each in instructions[1:]]
    return f"{who}, at {address} {place}".rstrip() + "".join(f", called by {each}" for each in callers)


def until(words: list[str], indent: str) -> list[str]:
    """What ended the time in which a processor may still have the page as it was before this update."""
    return [f"{indent}{words[1]}"] if words[1] else []


def source_lines(words: list[str], debug: str) -> list[str]:
    """The kernel's lines at the instructions of a call, the innermost first, with those whose functions were inlined."""
    addresses = [int(each.partition(" ")[0], 16) - (number > 0) for number, each in enumerate(words[2:])]      # in the call, not behind it
    kernel = [hex(each) for each in addresses if each >> 63]
    return places(said("addr2line", "-f", "-i", "-e", debug, *kernel)) if kernel else []


def places(said_of_lines: str) -> list[str]:
    """What addr2line says, a line for each function; of those that it doesn't know none."""
    rows = said_of_lines.splitlines()
    return [f"    {BUILD.sub('', place)} {function}" for function, place in zip(rows[::2], rows[1::2]) if not place.startswith("?")]


def explained(lines: list[str], calls: dict[int, list[str]], debug: str = "") -> list[str]:
    """The lines, each call that they name described once, behind the line that names it first."""
    found, told = [], set()
    for line in lines:
        found.append(line)
        for text in re.findall(r"\b(?:call|WrongAnswer|Early) (\d+)", line):
            number = int(text)
            if number in calls and number not in told and not line.startswith("no "):
                found.append(f"  call {number} is of {origin(calls[number])}")
                found += until(calls[number], "    ")
                found += source_lines(calls[number], debug) if debug else []
                told.add(number)
    return found


def explain(trace: bytes, calls: dict[int, list[str]], debug: str = "") -> tuple[list[str], int]:
    """What is said of the trace, and the program's status."""
    done = subprocess.run([program(), "explain"], input=trace, stdout=subprocess.PIPE, stderr=subprocess.DEVNULL)
    return explained(done.stdout.decode().splitlines(), calls, debug), done.returncode


def main() -> int:
    parser = argparse.ArgumentParser(usage="explain.py [--debug VMLINUX] TRACE [CALLS]")
    parser.add_argument("--debug", default="")
    parser.add_argument("trace")
    parser.add_argument("calls", nargs="?")
    words = parser.parse_args()
    calls = words.calls or words.trace.removesuffix(".trace") + ".calls"
    try:
        check_program()
        lines, status = explain(open(words.trace, "rb").read(), read_calls(calls), words.debug)
    except (Missing, OSError) as why:
        print(f"explain.py: {why}", file=sys.stderr)
        return 2
    print("\n".join(lines))
    return status


if __name__ == "__main__":
    sys.exit(main())
