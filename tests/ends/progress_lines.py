#!/usr/bin/env python3
"""Whether the lines of `--progress` on standard input are right, of a chain whose segments have one call and so many bytes each.

    progress_lines.py SEGMENT_BYTES [SIZE] <SHOWN      SIZE is that of the input, if it is known; prints what is wrong
"""
import re
import sys

UNITS = {"byte": 1, "bytes": 1, "KB": 10**3, "MB": 10**6, "GB": 10**9}
TIMES = {"s": 1, "min": 60, "h": 3600}
AMOUNT = r"(\d+) (bytes?|KB|MB|GB)"
ALL = rf"{AMOUNT}(?: of {AMOUNT})?, (\d+) (segments?), (\d+) (calls?)"
EACH = rf"{AMOUNT}, (\d+) segments?, (\d+) calls? a second"
LINE = re.compile(rf"\x1b\[K\x1b\[\?7l{ALL}; {EACH}(?:; (\d+) (s|min|h) to go)?\x1b\[\?7h\r")


def is_amount(number, unit, least, most):
    """Whether an amount that was rounded down may be of so many bytes."""
    return least < (number + 1) * UNITS[unit] and number * UNITS[unit] <= most


def wrong(line, number, length, size):
    """What is wrong with a line, which comes after so many seconds or more."""
    read, unit, whole, whole_unit, segments, word, calls, calls_word, each, each_unit, each_segments, each_calls, rest, rest_unit = line.groups()
    read, segments, calls, each, each_segments, each_calls = map(int, (read, segments, calls, each, each_segments, each_calls))
    if segments != calls or not is_amount(read, unit, segments * length, (segments + 1) * length + 4096):
        yield "the numbers don't fit"
    if (word, calls_word) != (("segment", "call") if segments == 1 else ("segments", "calls")):
        yield "the words don't fit their number"
    if each_segments * number > segments or each_calls != each_segments or (each_segments + 1) * 10 < segments:
        yield "what comes in a second doesn't fit"
    if not is_amount(each, each_unit, each_segments * length, (segments + 1) * length // number + 4096):
        yield "the bytes of a second don't fit"
    if size is None:
        if whole or rest:
            yield "it says how much is left, which nobody knows"
        return
    if not whole or not is_amount(int(whole), whole_unit, size, size):
        yield "it says another size"
    if not rest or int(rest) * TIMES[rest_unit] > (size - segments * length) * 10 * number / max(1, segments * length):
        yield "it says another rest"


def main(length, size=None):
    text = sys.stdin.buffer.read().decode()
    lines = list(LINE.finditer(text))
    found = [f"{why}: {line.group()!r}" for number, line in enumerate(lines, 1) for why in wrong(line, number, length, size)]
    if len(lines) < 2:
        found.append(f"few lines: {text[:300]!r}")
    if lines and not text[lines[-1].end():].startswith("\x1b[K"):
        found.append(f"the last line isn't removed: {text[-300:]!r}")
    print("\n".join(found[:5]))
    return bool(found)


if __name__ == "__main__":
    sys.exit(main(*map(int, sys.argv[1:])))
