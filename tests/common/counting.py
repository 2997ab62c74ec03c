"""How tests in Python count: `check` prints what failed, `skip` what a machine lacks; `counts` prints the last line of all."""
import subprocess

passed = failed = 0
LONGEST = 400


def check(name: str, fine: object, *said: object) -> None:
    """Counts one test. Where it failed, what was said is printed behind its name."""
    global passed, failed
    if fine:
        passed += 1
    else:
        failed += 1
        print(": ".join([f"failed: {name}", *(str(each)[:LONGEST] for each in said if each != "")]))


def said_by(words: list[str], data: bytes) -> tuple[str, str, int]:
    """Standard output, standard error and the status of a command that reads these bytes."""
    done = subprocess.run(words, input=data, capture_output=True)
    return done.stdout.decode(), done.stderr.decode(), done.returncode


def skip(what: str) -> None:
    print(f"skipped: {what}")


def counts() -> int:
    """Prints how many passed and failed; the status to end with."""
    print(f"{passed} passed, {failed} failed")
    return int(failed != 0)
