#!/usr/bin/env python3
"""Times `nrvs run` beside plain Rust with no proof, on a script of 65,536 requests by 8 threads; and `nrvs run --chain` on a longer one.

    benchmarks/runs.py [RUNS]
    benchmarks/runs.py --chain [LINES [RUNS]]

Build `nrvs` first. Half of the requests resolve a drawn address of 4,096 pages, the others map, protect or unmap a drawn page. The plain
programs: the same design, whose trace is judged too; the same design with no verdict; and the protocol tuned for speed, which keeps no
answers, with no verdict. Prints of 1 and 4 replicas the seconds and the peak memory of each (medians of RUNS runs of all in drawn order).
Beside it is how many times as fast `nrvs run` is, by the median of the ratios of neighbouring runs.

With --chain the script has LINES such requests (20,000,000), in segments of 65,536, and the plain programs go on from segment to segment
too. The auditor has to say yes to the chains. Prints the seconds that have passed, those of all processors, and the peaks, of LINES
requests and of a tenth of them, by GNU `time`; and the ratio of the processors' seconds.
"""
import os
import random
import statistics
import subprocess
import sys
import tempfile
import time

REQUESTS, THREADS, PAGES = 65536, 8, 4096
NRVS = "crates/nrvs/out/nrvs"
PLAIN = {"same, judged": ("same", "judged"), "same": ("same", "answers"), "tuned": ("tuned", "answers")}


def script():
    draw = random.Random(1)
    for _ in range(REQUESTS):
        thread, page = draw.randrange(THREADS), draw.randrange(PAGES) * 4096
        yield thread, draw.choice([f"resolve {page + draw.randrange(4096):#x}"] * 3
                                  + [f"map 4K {page:#x} {draw.randrange(PAGES) * 4096:#x} wux", f"protect {page:#x} w-x", f"unmap {page:#x}"])


def timed(words, path):
    """The seconds and the peak memory in KB of one run."""
    environment = os.environ | {"PADDING": "x" * random.randrange(4096)}
    with open(path) as source, open(os.devnull, "w") as out:
        start = time.perf_counter()
        running = subprocess.Popen(words, stdin=source, stdout=out, env=environment)
        _, status, used = os.wait4(running.pid, 0)
        seconds = time.perf_counter() - start
    running.returncode = status
    if status:
        sys.exit(f"{words} ended with {status}")
    return seconds, used.ru_maxrss


def show(replicas, found):
    """The lines of the programs, of which the first is `nrvs run`, from what each round found of each."""
    for number, name in enumerate(["nrvs run", *PLAIN]):
        seconds, peak = (statistics.median(each) for each in zip(*(line[number] for line in found)))
        ratio = statistics.median(line[number][0] / line[0][0] for line in found)
        print(f"{replicas:8}  {name:16} {seconds:8.3f} {ratio:7.2f} {peak:9.0f}")


def timed_long(words, path, work):
    """The seconds, those of all processors, and the peak memory in KB of one run on that script."""
    subprocess.run(["time", "-f", "%e %U %S %M", "-o", f"{work}/time", *words], stdin=open(path), stdout=subprocess.DEVNULL, check=True)
    with open(f"{work}/time") as file:
        passed, user, system, peak = map(float, file.read().split())
        return passed, user + system, peak


def audit_chain(words, path, lines):
    """The auditor says yes to the chain that a program writes, and it has the segments of so many requests."""
    traced = subprocess.Popen(words, stdin=open(path), stdout=subprocess.PIPE)
    told = subprocess.run([NRVS, "audit", "--chain", "--quiet"], stdin=traced.stdout, stdout=subprocess.PIPE, text=True).stdout
    whole = lines // REQUESTS
    if traced.wait() or told not in (f"segments {whole}\n", f"segments {whole + 1}\n"):
        sys.exit(f"{words}: {told}")


def count_answers(words, path, lines):
    """A program prints a line for each request, and that it is verified."""
    counted, last = 0, b""
    with subprocess.Popen(words, stdin=open(path), stdout=subprocess.PIPE) as running:
        while block := running.stdout.read(1 << 20):
            counted, last = counted + block.count(b"\n"), (last + block)[-16:]
    if running.returncode or counted != lines + 1 or not last.endswith(b"\nverified\n"):
        sys.exit(f"{words}: {counted} lines, status {running.returncode}")


def long_runs(lines, runs):
    with tempfile.TemporaryDirectory() as work:
        plain, paths = f"{work}/unverified_run", {}
        subprocess.run(["rustc", "-O", "-C", "target-cpu=x86-64-v2", "benchmarks/unverified_run.rs", "-o", plain], check=True)
        for many in lines, lines // 10:
            paths[many] = f"{work}/script of {many}"
            subprocess.run([plain, "script", str(many)], stdout=open(paths[many], "w"), check=True)
        print("replicas  program                 s  processors   ratio   peak KB   of a tenth")
        for replicas in "1", "4":
            own = [NRVS, "run", "--chain", "--replicas", replicas]
            programs = [own, *([plain, design, replicas, shown, str(REQUESTS)] for design, shown in PLAIN.values())]
            count_answers(own, paths[lines], lines)
            for words in own + ["--trace"], [plain, "same", replicas, "trace", str(REQUESTS)]:
                audit_chain(words, paths[lines], lines)
            found = []
            for _ in range(runs):
                times = {n: timed_long(programs[n], paths[lines], work) for n in random.sample(range(len(programs)), len(programs))}
                found.append([times[n] for n in range(len(programs))])
            for n, name in enumerate(["nrvs run --chain", *PLAIN]):
                seconds, processors, peak = (statistics.median(each) for each in zip(*(line[n] for line in found)))
                ratio = statistics.median(line[n][1] / line[0][1] for line in found)
                few = timed_long(programs[n], paths[lines // 10], work)[2]
                print(f"{replicas:8}  {name:16} {seconds:8.3f} {processors:11.3f} {ratio:7.2f} {peak:9.0f} {few:12.0f}")


def main(runs):
    with tempfile.TemporaryDirectory() as work:
        path, plain = f"{work}/script", f"{work}/unverified_run"
        with open(path, "w") as out:
            out.writelines(f"{thread} {request}\n" for thread, request in script())
        subprocess.run(["rustc", "-O", "-C", "target-cpu=x86-64-v2", "benchmarks/unverified_run.rs", "-o", plain], check=True)
        print("replicas  program                 s   ratio   peak KB")
        for replicas in "1", "4":
            programs = [[NRVS, "run", "--replicas", replicas], *([plain, design, replicas, shown] for design, shown in PLAIN.values())]
            traced = subprocess.run([plain, "same", replicas, "trace"], stdin=open(path), stdout=subprocess.PIPE, check=True).stdout
            if not subprocess.run([NRVS, "audit"], input=traced, stdout=subprocess.PIPE).stdout.startswith(b"yes"):
                sys.exit("the plain program's trace is not right")
            found = []
            for _ in range(runs):
                times = {number: timed(programs[number], path) for number in random.sample(range(len(programs)), len(programs))}
                found.append([times[number] for number in range(len(programs))])
            show(replicas, found)


if __name__ == "__main__":
    os.chdir(os.path.join(os.path.dirname(os.path.abspath(__file__)), ".."))
    if sys.argv[1:2] == ["--chain"]:
        long_runs(*map(int, sys.argv[2:] + ["20000000", "5"][len(sys.argv[2:]):]))
    else:
        main(int(sys.argv[1]) if len(sys.argv) > 1 else 31)
