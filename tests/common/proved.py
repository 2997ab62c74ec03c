#!/usr/bin/env python3
"""What `rt ci` has proved whole in this checkout, so that `tests/run --kept` needs no second run of it.

    tests/common/proved.py keep GATE   keeps the gate's output, and the sums of what it read, and of what it and tests/archives built
    tests/common/proved.py holds       status 0 where all of that is, byte for byte, as it was kept

`rt ci` reads the code, definitions, proofs and edits of the crates, crates.txt, HANDLES and the logic of the kit. What is built over it are
the programs and archives that the other tests run. Both are kept in out/proved.
"""
import glob
import hashlib
import os
import shutil
import subprocess
import sys

TOP = os.path.dirname(os.path.dirname(os.path.dirname(os.path.abspath(__file__))))
KEPT = "out/proved"


def logic() -> str:
    """The kit's logic, on which each proof depends."""
    words = subprocess.run(["rt", "version"], capture_output=True, text=True, check=True).stdout.split()
    return words[words.index("logic") + 1]


def read_by_gate() -> list[str]:
    named = subprocess.run(["git", "ls-files", "-co", "--exclude-standard", "crates", "crates.txt", "HANDLES"],
                           capture_output=True, text=True, check=True).stdout.splitlines()
    return sorted(name for name in named if not name.endswith(".md") and os.path.exists(name))


def built() -> list[str]:
    found = []
    for folder in sorted(glob.glob("crates/*/out")):
        name = folder.split("/")[1]
        found += [path for path in (f"{folder}/{name}", f"{folder}/{name}_tests", f"{folder}/lib{name}.a") if os.path.exists(path)]
    return found


def sums() -> str:
    lines = [f"logic {logic()}"]
    for path in read_by_gate() + built():
        with open(path, "rb") as file:
            lines.append(f"{hashlib.sha256(file.read()).hexdigest()} {path}")
    return "\n".join(lines) + "\n"


def main(words: list[str]) -> int:
    os.chdir(TOP)
    match words:
        case ["keep", gate]:
            os.makedirs(KEPT, exist_ok=True)
            shutil.copyfile(gate, f"{KEPT}/gate")
            with open(f"{KEPT}/sums", "w") as file:
                file.write(sums())
            return 0
        case ["holds"]:
            try:
                with open(f"{KEPT}/sums") as file:
                    return int(file.read() != sums())
            except OSError:
                return 1
    print(__doc__, file=sys.stderr)
    return 2


if __name__ == "__main__":
    sys.exit(main(sys.argv[1:]))
