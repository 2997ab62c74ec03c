#!/usr/bin/env python3
"""chains.py PROGRAM RUNS SEGMENTS: a chain of so many segments beside its segments as traces, in one process each, run in turn; and a chain
of one of them. Then three segments with touches, the same without, and one of touches beside updates that are never answered. Then three
with releases, and one of releases of a large page's memory that small pages replaced. And many small segments: of one touch each behind
32,768 pages, beside one segment of as many, and of one event each in a layout of 65,535 threads.

Each line: what is audited, the least processor time of its runs, and the greatest peak of memory. Of the chain and the traces, which have
the same events, the median of the ratios of neighbouring runs is printed too: how many times as fast the chain is.
"""
import os
import statistics
import subprocess
import sys
import tempfile

SCRIPT = os.path.join(os.path.dirname(os.path.abspath(__file__)), "chain.py")


def written(path, *words):
    with open(path, "wb") as file:
        subprocess.run([sys.executable, "-B", SCRIPT, *words], stdout=file, check=True)
    return path


def times(command):
    """The processor time and the peak in kilobytes of a run that has to say that all is right, by GNU time."""
    ran = subprocess.run(["/usr/bin/time", "-f", "%U %S %M", *command], capture_output=True, text=True)
    if ran.returncode != 0:
        sys.exit(f"{' '.join(command[:4])}: {ran.stdout[-100:]}{ran.stderr[-100:]}")
    user, system, peak = ran.stderr.split()
    return float(user) + float(system), int(peak)


def show(name, runs):
    print(f"{name:32} {min(seconds for seconds, _ in runs):8.2f} s {max(peak for _, peak in runs) / 1e3:8.1f} MB", flush=True)


def main(program, runs, segments):
    audit = [program, "audit", "--chain", "--quiet"]
    with tempfile.TemporaryDirectory() as work:
        trace = written(f"{work}/trace", "--trace")
        long = audit + [written(f"{work}/chain", segments)]
        one = audit + [written(f"{work}/one", "1")]
        touched = audit + [written(f"{work}/touched", "--touches", "3")]
        untouched = audit + [written(f"{work}/untouched", "--untouched", "3")]
        crowd = audit + [written(f"{work}/crowd", "--crowd", "1")]
        released = audit + [written(f"{work}/released", "--released", "3")]
        replaced = audit + [written(f"{work}/replaced", "--replaced", "1")]
        behind = audit + [written(f"{work}/behind", "--behind", "10000")]
        behind_one = audit + [written(f"{work}/behind-one", "--behind-one", "10000")]
        threads = audit + [written(f"{work}/threads", "--threads", "1000")]
        pairs = [(times(long), times([program, "audit"] + [trace] * int(segments))) for _ in range(int(runs))]
        for name, timed in ((f"a chain of {segments} segments", [pair[0] for pair in pairs]),
                            (f"{segments} traces, in one process", [pair[1] for pair in pairs]),
                            ("a chain of one of the segments", [times(one) for _ in range(int(runs))]),
                            ("90,000 updates, 106,608 touches", [times(touched) for _ in range(int(runs))]),
                            ("90,000 updates, no touches", [times(untouched) for _ in range(int(runs))]),
                            ("43,690 open updates and touches", [times(crowd) for _ in range(int(runs))]),
                            ("30,000 updates, 100,002 releases", [times(released) for _ in range(int(runs))]),
                            ("30,000 releases of a replaced page", [times(replaced) for _ in range(int(runs))]),
                            ("10,000 segments of one touch", [times(behind) for _ in range(int(runs))]),
                            ("one segment of 10,000 touches", [times(behind_one) for _ in range(int(runs))]),
                            ("1,000 segments of one event", [times(threads) for _ in range(int(runs))])):
            show(name, timed)
        print(f"the chain is {statistics.median(other[0] / chain[0] for chain, other in pairs):.2f} times as fast as the traces")


if __name__ == "__main__":
    if len(sys.argv) != 4:
        sys.exit(__doc__)
    main(*sys.argv[1:])
