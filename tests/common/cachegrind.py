"""How many instructions a program executes, as valgrind's cachegrind counts them."""
import re
import shutil
import subprocess
import tempfile
from collections.abc import Sequence
from pathlib import Path

COUNT = ("valgrind", "--tool=cachegrind", "--cache-sim=no", "--demangle=no")
TOOLS = ("valgrind", "strip", "nm")


def missing() -> str | None:
    """The tool that this machine lacks, if any: nothing is counted without it."""
    return next((tool for tool in TOOLS if not shutil.which(tool)), None)


def put_readable(program: Path | str, to: Path | str) -> None:
    """A copy of the program without what valgrind may not be able to read, where that can be taken away."""
    if shutil.which("strip"):
        subprocess.run(["strip", "--strip-debug", "-o", to, program], check=True)
    else:
        shutil.copy(program, to)


def functions_of(*files: Path | str) -> set[str]:
    """The functions that programs or archives themselves have."""
    said = subprocess.run(["nm", "--defined-only", *files], stdout=subprocess.PIPE, stderr=subprocess.DEVNULL, text=True, check=True).stdout
    return {name for kind, name in re.findall(r"^[0-9a-f]+ (\w) (.+)$", said, re.M) if kind in "tTwW"}


def instructions_of(command: Sequence[object], data: bytes | None = None,
                    functions: set[str] | None = None) -> tuple[subprocess.CompletedProcess, int]:
    """A run, with how many instructions it took: all of them, or those of these functions alone.

    What the C library takes depends on the processor, since it has several `memcpy`. The functions of a program alone don't.
    """
    with tempfile.NamedTemporaryFile() as out:
        ran = subprocess.run([*COUNT, f"--cachegrind-out-file={out.name}", *map(str, command)], input=data, stdout=subprocess.PIPE,
                             stderr=subprocess.PIPE)
        each: dict[str, int] = {}
        name = ""
        for line in Path(out.name).read_text(errors="replace").splitlines():
            if line.startswith("fn="):
                name = line[3:]
            elif line[:1].isdigit():
                each[name] = each.get(name, 0) + int(line.split()[1])
    return ran, sum(count for name, count in each.items() if functions is None or name in functions)
