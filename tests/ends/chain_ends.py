"""The program on chains whose lines are known: that come in pieces, whose ends fail, or whose memory is refused; what it has said before
the next byte comes, and how much it reads.

Each part yields (name, whether it is so, what was seen); `parts` gives them, to be run at once.
"""
import os
import select
import struct
import subprocess
import tempfile
import threading
import time

import model_pages

TESTS = os.path.dirname(os.path.dirname(os.path.abspath(__file__)))
CHAINS = os.path.join(TESTS, "chains")
TRACE = os.path.join(TESTS, "..", "examples", "map_then_resolve.trace")
LENGTHS = (1, 7, 4095, 4096, 4097)
IN_PIECES = ("two_segments", "second_begins_elsewhere", "one_processor_misses_it_and_then_another_finds_it", "cut_in_the_second",
             "trailing_byte", "reply_to_a_call_of_the_segment_before")
FIRST = "segment 0\nyes\norder 0 2\n"               # what is said of the first segment of two_segments
BLOCK = 4096
SECONDS = 20

UNREAD = "cannot read\n"

# why a named file can't be read, as the system says it
NO_FILE = "cannot read: No such file or directory (os error 2)\n"
IS_FOLDER = "cannot read: Is a directory (os error 21)\n"


def data_of(name):
    with open(f"{CHAINS}/{name}.chain", "rb") as file:
        return file.read()


def wanted(name):
    with open(f"{CHAINS}/EXPECTED") as file:
        said = next(row.split("\t")[1] for row in file if row.startswith(name + "\t"))
    return said.rstrip("\n").replace("/", "\n") + "\n"


def before_each(text):
    """What is said before each segment's lines, and before the last ones."""
    lines = text.splitlines(True)
    return {"".join(lines[:k]) for k, line in enumerate(lines) if line.startswith("segment")}


def status_of(text):
    return 0 if text.splitlines()[-1].startswith("segments ") else 1


class Program:
    """The program, and the shims that are preloaded into it."""

    def __init__(self, path, work):
        self.path, self.work = path, work
        for shim in ("fail_ends", "refuse_growth"):
            subprocess.run(["cc", "-O1", "-shared", "-fPIC", "-o", f"{work}/{shim}.so", f"{TESTS}/ends/{shim}.c"], check=True)

    def words(self, *more):
        return [self.path, *more] if more[:1] == ("pages",) else [self.path, "audit", *(more or ("--chain",))]

    def shimmed(self, **how):
        """The environment in which ends fail so."""
        return os.environ | {name: str(value) for name, value in how.items()} | {"LD_PRELOAD": f"{self.work}/fail_ends.so"}

    def run(self, data, *more, env=None, **ends):
        """Status, output and errors."""
        given = {"input": data} if isinstance(data, bytes) else {"stdin": data}
        done = subprocess.run(self.words(*more), env=env, stderr=subprocess.PIPE, timeout=SECONDS,
                              **given, **({"stdout": subprocess.PIPE} | ends))
        return done.returncode, (done.stdout or b"").decode(), done.stderr.decode()


def is_said(name, seen, status, text, errors=""):
    return name, seen == (status, text, errors), (str(seen)[-300:], f"wanted {status}, {text[-100:]!r}")


def in_pieces(program):
    for name in IN_PIECES:
        data, text = data_of(name), wanted(name)
        for length in LENGTHS:
            ran = subprocess.Popen(program.words(), stdin=subprocess.PIPE, stdout=subprocess.PIPE, stderr=subprocess.PIPE, bufsize=0,
                                   env=program.shimmed(SHORT_READ=min(length, BLOCK)))
            writer = threading.Thread(target=put, args=(ran.stdin, data, length))
            writer.start()
            said, errors = ran.stdout.read(), ran.stderr.read()
            writer.join()
            seen = (ran.wait(SECONDS), said.decode(), errors.decode())
            yield is_said(f"{name} in pieces of {length} bytes", seen, status_of(text), text)


def put(pipe, data, length):
    """Writes pieces of that length; the reader may have ended before."""
    try:
        for at in range(0, len(data), length):
            pipe.write(data[at:at + length])
    except BrokenPipeError:
        pass
    finally:
        pipe.close()


def interrupted(program):
    for each in (1, 2, 5):
        for name in IN_PIECES[:2]:
            seen = program.run(data_of(name), env=program.shimmed(INTERRUPTS=each, SHORT_READ=1000, SHORT_WRITE=3))
            yield is_said(f"{name}, interrupted {each} times", seen, status_of(wanted(name)), wanted(name))


def as_soon_as_whole(program):
    """The lines of a segment come while the input is still open."""
    first, data = len(data_of("map_then_resolve")), data_of("two_segments")
    ran = subprocess.Popen(program.words(), stdin=subprocess.PIPE, stdout=subprocess.PIPE, bufsize=0)
    ran.stdin.write(data[:first])
    yield "a segment's lines come before the next byte", gathered(ran.stdout, len(FIRST)) == FIRST, ()
    ran.stdin.write(data[first:])
    ran.stdin.close()
    rest = ran.stdout.read().decode()
    yield "the others come behind them", (FIRST + rest, ran.wait(SECONDS)) == (wanted("two_segments"), 0), rest


def gathered(pipe, length):
    """So many bytes, as far as they come in time."""
    text, end = b"", time.monotonic() + SECONDS
    while len(text) < length and select.select([pipe], [], [], max(0, end - time.monotonic()))[0]:
        more = os.read(pipe.fileno(), length - len(text))
        if not more:
            break
        text += more
    return text.decode()


def reads_no_more(program):
    """What is behind the block in which a fault shows is left, and needn't ever come."""
    good, elsewhere = data_of("map_then_resolve"), data_of("second_begins_elsewhere")
    magic = FIRST + "segment 1\nno 1 Format BadMagic\n"
    of = (("a bad magic in the second", good + b"NRVX", magic, len(good) + 4), ("a trace", open(TRACE, "rb").read(),
          "segment 0\nno 1 Format BadMagic\n", 4), ("a start that differs", elsewhere, wanted("second_begins_elsewhere"), len(elsewhere)))
    for name, data, text, shows in of:
        path = f"{program.work}/{name}"
        with open(path, "wb") as file:
            file.write(data + bytes(5 * BLOCK))
        with open(path, "rb", buffering=0) as file:
            seen = program.run(file)
            left = os.lseek(file.fileno(), 0, os.SEEK_CUR)
        yield is_said(f"{name}, and more", seen, 1, text)
        yield f"{name}: no more than its block is read", left == -(-shows // BLOCK) * BLOCK, left
        ran = subprocess.Popen(program.words(), stdin=subprocess.PIPE, stdout=subprocess.PIPE, stderr=subprocess.DEVNULL, bufsize=0)
        put_open(ran.stdin, data)
        try:
            yield f"{name}: no end of the input is awaited", ran.wait(SECONDS) == 1, ()
        except subprocess.TimeoutExpired:
            ran.kill()
            yield f"{name}: no end of the input is awaited", False, ()
    with open("/dev/zero", "rb") as zeros:
        yield is_said("an input without an end", program.run(zeros), 1, "segment 0\nno 1 Format BadMagic\n")


def put_open(pipe, data):
    try:
        pipe.write(data)
        pipe.flush()
    except BrokenPipeError:
        pass


def failing_reads(program):
    data, path = data_of("two_segments"), f"{CHAINS}/two_segments.chain"
    first = len(data_of("map_then_resolve"))
    for at in (0, 20, first - 1, first, first + 1, len(data) - 1):
        for more in ((), ("--quiet",)):
            seen = program.run(data, "--chain", *more, env=program.shimmed(FAIL_AT=at))
            text = "" if more or at < first else FIRST
            yield is_said(f"a read that fails at byte {at}, {more}", seen, 2, text, UNREAD)
    with open(path, "rb") as file:
        seen = program.run(file, env=program.shimmed(FAIL_READ=2))
    yield is_said("a second read that fails", seen, 2, "", UNREAD)
    seen = program.run(subprocess.DEVNULL, "--chain", path)
    yield is_said("a chain by its name", seen, 0, wanted("two_segments"))
    yield is_said("standard input by its name", program.run(data, "--chain", "-"), 0, wanted("two_segments"))
    none = f"{program.work}/none"
    yield is_said("a file that there is not", program.run(subprocess.DEVNULL, "--chain", none), 2, "", f"{none}: {NO_FILE}")
    yield is_said("a folder by its name", program.run(subprocess.DEVNULL, "--chain", "--quiet", "."), 2, "", f".: {IS_FOLDER}")
    folder = os.open(".", os.O_RDONLY)
    yield is_said("an input that is a folder", program.run(folder), 2, "", UNREAD)
    os.close(folder)
    closed = shell(program, "exec \"$0\" audit --chain <&-")
    yield is_said("a closed input", closed, 2, "", UNREAD)


def shell(program, line):
    done = subprocess.run(["sh", "-c", line, program.path], capture_output=True, timeout=SECONDS)
    return done.returncode, done.stdout.decode(), done.stderr.decode()


def failing_writes(program):
    for name in ("two_segments", "second_begins_elsewhere", "no_bytes"):
        data, text, path = data_of(name), wanted(name), f"{CHAINS}/{name}.chain"
        for each in range(1, 5):
            seen = program.run(data, env=program.shimmed(SHORT_WRITE=3, FAIL_WRITE=each))
            yield is_said(f"{name}, whose write {each} fails", seen, 2, text[:3 * (each - 1)], "cannot write\n")
        for more in ((), ("--quiet",)):
            with open("/dev/full", "wb") as full:
                seen = program.run(data, "--chain", *more, stdout=full)
                named = program.run(subprocess.DEVNULL, "--chain", *more, path, stdout=full)
            yield is_said(f"{name} into a full device, {more}", seen, 2, "", "cannot write\n")
            yield is_said(f"{name} by its name into a full device, {more}", named, 2, "", "cannot write\n")
        yield is_said(f"{name} into a closed output", shell(program, f"exec \"$0\" audit --chain <'{path}' >&-"), 2, "", "cannot write\n")


def words(program):
    path = f"{CHAINS}/two_segments.chain"
    for more in (("--quiet",), ("--quiet", path), ("--chain", path, path), ("--chain", "--quick"), ("--chain=no",)):
        status, text, errors = program.run(data_of("two_segments"), *more)
        yield f"the words {more}", status == 2 and not text and errors, (status, text, errors)
    with open(TRACE, "rb") as trace:
        yield is_said("a trace as a chain", program.run(trace), 1, "segment 0\nno 1 Format BadMagic\n")
    chain = data_of("map_then_resolve")
    done = subprocess.run([program.path, "audit"], input=chain, capture_output=True)
    said = done.returncode, done.stdout.decode(), done.stderr.decode()
    yield is_said("a chain as a trace", said, 1, "no 1 Format BadMagic\n")


def refused_growths(program):
    """Each growth of memory refused in turn: what was said before is of whole segments."""
    for name in ("two_segments", "second_begins_where_the_first_ended", "touch_while_it_is_unmapped_finds_it", "start_with_a_stray_frame",
                 "touch_after_the_unmap_was_answered"):
        data, text = data_of(name), wanted(name)
        refusals, refused = 0, f"{program.work}/refused {name}"
        for growth in range(1, 2000):
            if os.path.exists(refused):
                os.remove(refused)
            env = os.environ | {"REFUSE_GROWTH": str(growth), "REFUSED": refused, "LD_PRELOAD": f"{program.work}/refuse_growth.so"}
            status, said, errors = program.run(data, env=env)
            if not os.path.exists(refused):
                break
            refusals += status == 3
            if status == 3 and (said not in before_each(text) or errors != "out of memory\n") or status != 3 and said != text:
                yield f"{name}, growth {growth}", False, (status, said, errors)
        yield is_said(f"{name}, after its refused growths", (status, said, errors), status_of(text), text)
        yield f"{name}: growths were refused", refusals > 10, refusals


def memory(program):
    """Of a chain of several great segments no more is kept than of one, and the space."""
    peaks = {}
    for count in (1, 6):
        path = f"{program.work}/{count}_segments"
        with open(path, "wb") as file:
            subprocess.run(["python3", "-B", f"{TESTS}/../benchmarks/chain.py", str(count)], stdout=file, check=True)
        ran = subprocess.Popen(program.words(), stdin=subprocess.PIPE, stdout=subprocess.PIPE)
        writer = threading.Thread(target=put_open, args=(ran.stdin, open(path, "rb").read()))
        writer.start()
        said = sum(ran.stdout.readline().startswith(b"order ") for _ in range(3 * count))
        with open(f"/proc/{ran.pid}/status") as file:
            peaks[count] = next(int(line.split()[1]) for line in file if line.startswith("VmHWM:"))
        writer.join()
        ran.stdin.close()
        last = ran.stdout.read().decode()
        yield f"{count} great segments", (said, ran.wait(SECONDS), last) == (count, 0, f"segments {count}\n"), (said, last)
    yield "six great segments in the memory of one, and 10 MB", peaks[6] <= peaks[1] + 10000, peaks
    with open(f"{program.work}/promise", "wb") as file:
        file.write(struct.pack(">4sHBBHHIII", b"NRVS", 1, 5, 4, 65535, 65535, 65536, 131072, 65535) + bytes(8))
    said = shell(program, f"ulimit -v 12000; exec \"$0\" audit --chain <'{program.work}/promise'")
    yield is_said("a header that promises all that there may be", said, 1, "segment 0\nno 1 Format Truncated\n")


STARTED = ("begins_with_a_page_and_unmaps_it", "second_begins_where_the_first_ended", "second_begins_elsewhere", "start_with_a_stray_frame", "no_bytes")
ENDS = {"--start": model_pages.shown_start, "--end": model_pages.shown_end}


def pages_asked():
    """Each chain, with the words that ask for pages of it, what is printed then, and its status."""
    for name in STARTED:
        for end, shown in ENDS.items():
            for more in ((), ("--ranges",)):
                yield name, ("pages", "--chain", end, *more), *shown(data_of(name), bool(more))


def pages_at_failing_ends(program):
    """The pages at the ends of a chain that comes in pieces, or whose ends fail."""
    for name, asked, text, status in pages_asked():
        data, path = data_of(name), f"{CHAINS}/{name}.chain"
        for ends in ({"SHORT_READ": 7}, {"SHORT_READ": 1000, "INTERRUPTS": 2, "SHORT_WRITE": 5}):
            yield is_said(f"{name}, {asked}, {ends}", program.run(data, *asked, env=program.shimmed(**ends)), status, text)
        remark = "" if data else f"{path}: the input is empty\n"
        yield is_said(f"{name} by its name, {asked}", program.run(subprocess.DEVNULL, *asked, path), status, text, remark)
        for at in (0, 20, len(data) // 2):
            if at < len(data) or at == 0:
                seen = program.run(data, *asked, env=program.shimmed(FAIL_AT=at, SHORT_READ=10))
                yield is_said(f"{name}, {asked}, a read that fails at byte {at}", seen, 2, "", UNREAD)
        if text:
            yield is_said(f"{name}, {asked}, a write that fails", program.run(data, *asked, env=program.shimmed(FAIL_WRITE=1)), 2, "", "cannot write\n")
            with open("/dev/full", "wb") as full:
                yield is_said(f"{name}, {asked}, a full device", program.run(data, *asked, stdout=full), 2, "", "cannot write\n")
    none = f"{program.work}/none"
    seen = program.run(subprocess.DEVNULL, "pages", "--chain", "--end", none)
    yield is_said("pages of a chain in a file that there is not", seen, 2, "", f"{none}: {NO_FILE}")
    for more in (("--chain",), ("--start",), ("--end",), ("--chain", "--start", "--end"), ("--chain", "--start", none, none)):
        status, text, errors = program.run(data_of("two_segments"), "pages", *more)
        yield f"the words pages {more}", status == 2 and not text and errors, (status, text, errors)


def start_reads_no_more(program):
    """For its start a chain is read to the end of the block with which its first segment is whole."""
    name = "second_begins_where_the_first_ended"
    path, data = f"{program.work}/start and more", data_of(name)
    with open(path, "wb") as file:
        file.write(data + bytes(5 * BLOCK))
    ends = model_pages.chains.read_segment(data, 0, None).ends
    with open(path, "rb", buffering=0) as file:
        seen = program.run(file, "pages", "--chain", "--start")
        left = os.lseek(file.fileno(), 0, os.SEEK_CUR)
    yield is_said("the start of a chain, and more", seen, 0, model_pages.shown_start(data)[0])
    yield "for the start no more than a segment is read", left == -(-ends // BLOCK) * BLOCK, (left, ends)


def pages_and_refused_growths(program):
    """Each growth of memory refused in turn, as the pages at an end are listed: nothing is said then."""
    for number, (name, asked, text, wanted_status) in enumerate(pages_asked()):
        refusals, refused = 0, f"{program.work}/refused pages {number}"
        for growth in range(1, 2000):
            if os.path.exists(refused):
                os.remove(refused)
            env = os.environ | {"REFUSE_GROWTH": str(growth), "REFUSED": refused, "LD_PRELOAD": f"{program.work}/refuse_growth.so"}
            seen = program.run(data_of(name), *asked, env=env)
            if not os.path.exists(refused):
                break
            refusals += seen[0] == 3
            if seen not in ((3, "", "out of memory\n"), (wanted_status, text, "")):
                yield f"{name}, {asked}, growth {growth}", False, seen
        yield is_said(f"{name}, {asked}, after its refused growths", seen, wanted_status, text)
        yield f"{name}, {asked}: growths were refused", refusals > 5, refusals


PARTS = (in_pieces, interrupted, as_soon_as_whole, reads_no_more, failing_reads, failing_writes, words, refused_growths, memory,
         pages_at_failing_ends, start_reads_no_more, pages_and_refused_growths)


def results(part, path):
    """What one of the parts, by its index, finds of the program."""
    with tempfile.TemporaryDirectory() as work:
        return list(PARTS[part](Program(path, work)))
