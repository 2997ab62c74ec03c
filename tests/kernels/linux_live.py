"""New recordings of Linux, for tests/linux: a wrong verdict is a failure. What the guest's schedule didn't bring, a bug that no processor met
say, is skipped, since a busy machine brings other schedules: the kept logs are judged on any machine."""
import enum
import re
import subprocess
from collections.abc import Sequence

import machine
from counting import check, skip
from many import TRIES, UNWATCHED

UNBROUGHT = re.compile(f"{UNWATCHED}|still runs after|didn't end in|didn't come to|the guest ended$")  # no verdict came of it
FOUND = re.compile("no (?:10 WrongAnswer|17 Differs|24 Stale|25 Reachable) ")
NO, YES = re.compile(r"\bno \d"), re.compile(r"\bsegments \d|\byes\b")
SOUND = "-sound"


def command(program: str, *words: str) -> tuple[int, str]:
    done = subprocess.run([f"{machine.HERE}/{program}", *words], stdout=subprocess.PIPE, stderr=subprocess.STDOUT)
    return done.returncode, done.stdout.decode()


def recorded(*words: str, tries: int = 3) -> tuple[int, str]:
    """What `run` says. On a busy machine QEMU may begin to follow the guest's code too late, so that the process is missed: then once more."""
    status, said = command("run", *words)
    return recorded(*words, tries=tries - 1) if UNWATCHED in said and tries > 1 else (status, said)


class Outcome(enum.Enum):
    RIGHT, WRONG, UNMET, UNRECORDED = range(4)


def outcome(is_bug: bool, said: str) -> Outcome:
    """What the verdict of a run says of Linux, or of us."""
    if NO.search(said):
        return Outcome.RIGHT if is_bug and FOUND.search(said) else Outcome.WRONG
    if UNBROUGHT.search(said):
        return Outcome.UNRECORDED
    if YES.search(said):
        return Outcome.UNMET if is_bug else Outcome.RIGHT
    return Outcome.WRONG


def counted(name: str, is_bug: bool, said: str) -> bool:
    """Counts or skips a run; whether it has the verdict that it has to have."""
    found = outcome(is_bug, said)
    if found == Outcome.UNMET:
        skip(f"{name} wasn't met in {TRIES} runs")
    elif found == Outcome.UNRECORDED:
        skip(f"{name} wasn't recorded: {said.strip().splitlines()[-1]}")
    else:
        check(f"{name}: the verdict of Linux {'with a bug' if is_bug else 'as it is'}", found == Outcome.RIGHT, said)
    return found == Outcome.RIGHT


def sound(name: str, *words: str) -> str:
    """What is said of a run without a bug, whose verdict has to be yes; nothing where none was recorded."""
    status, said = recorded(*words)
    if not counted(name, False, said):
        return ""
    check(f"{name}: nothing else is wrong", status == 0, said)
    return said


def planted(bug: str, *words: str) -> str:
    """What is said of a run with a bug, with other seeds where it wasn't met; nothing where it was met in none."""
    said = ""
    for seed in range(1, TRIES + 1):
        if not said or outcome(True, said) == Outcome.UNMET:
            said = recorded("--plant", bug, "--seed", str(seed), *words)[1]
    return said if counted(bug, True, said) else ""


def rows(names: Sequence[str], *words: str) -> tuple[list[str], str]:
    """Runs rows of `table`; the bugs that were found, and all that was said."""
    _, said = command("table", *words, "--tap", *names)
    lines = dict(re.findall(r"^(?:not )?ok \d+ - (\S+): (.*)$", said, re.M))
    if not lines and outcome(True, said) == Outcome.UNRECORDED:
        lines = dict.fromkeys(names, said)
    check(f"`table` has rows for {', '.join(names)}", list(lines) == list(names), said)
    return [name for name, what in lines.items() if counted(name, not name.endswith(SOUND), what) and not name.endswith(SOUND)], said


# ---- tests of this ----

def check_outcomes() -> None:
    for said, of_bug, of_sound in (("`segment 1; no 24 Stale 6`", Outcome.RIGHT, Outcome.WRONG),
                                   ("`segments 4`, met 1/0/0/0, in run 8", Outcome.UNMET, Outcome.RIGHT),
                                   ("yes", Outcome.UNMET, Outcome.RIGHT), ("`no 3 Broken`", Outcome.WRONG, Outcome.WRONG),
                                   (UNWATCHED, Outcome.UNRECORDED, Outcome.UNRECORDED),
                                   ("it didn't end in 600 seconds", Outcome.UNRECORDED, Outcome.UNRECORDED),
                                   ("f of this kernel, 6, has 00 0 times", Outcome.WRONG, Outcome.WRONG)):
        check(f"of {said} the right thing is said", (outcome(True, said), outcome(False, said)) == (of_bug, of_sound))
