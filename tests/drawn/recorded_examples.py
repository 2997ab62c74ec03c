"""What examples/recorded records, right and with a bug, as a trace, as a chain, and as a chain that is judged in parts: a part of tests/recorders."""
import concurrent.futures
import os
import re
import subprocess
import sys
import tempfile

import model_auditor as model
from counting import check
from recorder_calls import ALSO, OF_CHAINS, overlapping, segments_of

ROOT = os.path.dirname(os.path.dirname(os.path.dirname(os.path.abspath(__file__))))
SEEDS = 24
CLEAN_RUNS = 200
CHAIN_SEEDS = 4
BUG_SEEDS = 3


def run(words, data=b""):
    """Status, standard output, standard error."""
    done = subprocess.run(words, input=data, stdout=subprocess.PIPE, stderr=subprocess.PIPE, cwd=ROOT)
    return done.returncode, done.stdout, done.stderr


def at_once(body, each):
    with concurrent.futures.ThreadPoolExecutor(os.cpu_count()) as pool:
        return list(pool.map(body, each))


class Examples:
    """Tests of the program `recorded`, judged by `program`, in the folder `work`."""

    def bug_table(self):
        """The verdicts of examples/recorded/README.md, by bug."""
        text = open(os.path.join(ROOT, "examples/recorded/README.md")).read()
        table = dict(re.findall(r"^\| `([a-z-]+)` \| `(no \d+ [A-Za-z]+|yes)", text, re.M))
        bugs = run([self.recorded, "--help"])[2].decode().split("bugs:")[1].split()
        check("the page has a line for each bug", sorted(table) == sorted(bugs), set(table) ^ set(bugs))
        return table

    def calls_overlap(self):
        """The threads of the example meet: of few calls all others are over before they begin, and begin when they are over."""
        def one(seed):
            trace = model.read(run([self.recorded, "--threads", "8", "--seed", str(seed)])[1])
            return seed, overlapping(trace.events), sum(isinstance(each, model.Call) for each in trace.events)

        for seed, meet, calls in map(one, range(6)):
            check(f"calls overlap, seed {seed}", meet * 4 >= calls, f"{meet} of {calls}")

    def example_with_bugs(self):
        table = self.bug_table()

        def one(run_of):
            bug, seed = run_of
            _, trace, _ = run([self.recorded, "--bug", bug, "--seed", str(seed), "--threads", str(1 + seed % 8), "--requests", "100"])
            said = self.audit(trace)[0].split(" / ")[0].split(" ")
            return bug, seed, " ".join(said[:3]) == table[bug], " ".join(said[:5])

        runs = [(bug, seed) for bug in table if bug not in OF_CHAINS for seed in range(SEEDS)]
        for bug, seed, fine, said in at_once(one, runs):
            check(f"bug {bug}, seed {seed}", fine, said)

    def example_without_bugs(self):
        def one(seed):
            _, trace, error = run([self.recorded, "--seed", str(1000 + seed), "--threads", "8", "--requests", "100"])
            said = self.audit(trace)
            fine = said[0].startswith("yes / order ") and said[1] == 0
            wanted = model.verdict(trace)[0].replace("\n", " / ").rstrip(" /") if seed % 20 == 0 else said[0]
            return seed, fine, said[0] == wanted, (said[0][:60], error.decode())

        for seed, fine, agrees, said in at_once(one, range(CLEAN_RUNS)):
            check(f"eight threads, seed {seed}", fine, said)
            check(f"eight threads, seed {seed}: both auditors agree", agrees)

    def example_chains(self):
        """Right chains of the example: how they are cut, what they begin with, whether some threads leave touches."""
        def one(run_of):
            segments, words, seed = run_of
            name = " ".join(["a chain of", str(segments), *words, "seed", str(seed)])
            requests = "100" if segments < 10 else "20"
            _, data, error = run([self.recorded, "--threads", "8", "--segments", str(segments), "--requests", requests,
                                  "--seed", str(seed), *words])
            return name, words, data, self.audit_chain(name, data), error

        ways = [[], ["--start"], ["--touching", "2"], ["--touching", "2", "--late"], ["--start", "--starts", "5", "--dumps", "3", "--touching", "3"]]
        runs = [(segments, words, seed) for segments in (1, 2, 50) for words in ways for seed in range(CHAIN_SEEDS)]
        for (segments, *_), (name, words, data, said, error) in zip(runs, at_once(one, runs)):
            check(name, said == (f"segments {segments}", 0), said, error)
            parts = segments_of(data)
            starts = {k for k, part in enumerate(parts) if part.start}
            wanted = {0} if "--start" in words else set()
            wanted |= {k for k in range(5, segments, 5)} if "--starts" in words else set()
            check(f"{name} has its starts", starts == wanted, starts)
            touches = sum(len(part.touches) for part in parts)
            check(f"{name} has its touches", (touches > 0) == ("--touching" in words), touches)
            dumps = {k for k, part in enumerate(parts) if part.trace.dumps[0]}
            every = 3 if "--dumps" in words else 1
            check(f"{name} has its dumps", dumps == {*range(0, segments, every), segments - 1}, dumps)
            places = [len(part.trace.log) for part in parts]
            check(f"{name} goes on in each segment", min(places) > 0, places)

    def example_chains_with_bugs(self):
        """Each bug is found, not before the segment with which it begins; those that are met for sure there or at the end, there."""
        table = self.bug_table()

        def one(run_of):
            bug, begins, seed = run_of
            name = f"a chain with {bug} from {begins}, seed {seed}"
            _, data, error = run([self.recorded, "--threads", str(1 + seed % 8), "--segments", "5", "--starts", "1", "--touching", "2",
                                  "--requests", "60", "--seed", str(seed), "--bug", bug, "--from", str(begins)])
            return bug, begins, name, self.audit_chain(name, data), error

        runs = [(bug, begins, seed) for bug in table for begins in (0, 3) for seed in range(BUG_SEEDS)]
        for bug, begins, name, (said, status), error in at_once(one, runs):
            if bug == "none":
                check(name, (said, status) == ("segments 5", 0), said, error)
                continue
            if bug == "leaf-rights" and begins > 0:
                continue                            # the tables that are there have all rights
            found = re.fullmatch(r"segment (\d) / (no \d+ \w+).*", said)
            fault = found and found[2] in [table[bug], *ALSO.get(bug, [])]
            here = found and (int(found[1]) == max(begins, 1) if bug in ("cached-over-cut", "early-start")
                              else int(found[1]) == 4 if bug in ("freed-table", "shared-table", "freed-early") else int(found[1]) >= begins)
            check(name, status == 1 and fault and here, said, error)

    def judged_in_parts(self, name, data, least=5):
        """What examples/judge_in_parts says of a chain, with four processes; its status; and the names of the parts. Of a chain with a fault
        it has to be what one process says."""
        folder = tempfile.mkdtemp(dir=self.work)
        split = run([sys.executable, "recorders/split_chain.py", folder, str(least)], data)
        parts = sorted(each for each in os.listdir(folder) if each[-1].isdigit())
        check(f"{name} is split", split[:2] == (0, f"parts: {len(parts)}\n".encode()), split)
        whole = b"".join(open(os.path.join(folder, part), "rb").read() for part in parts)
        check(f"{name} is all in its parts", whole == data, len(whole), len(data))
        program = ["env", f"NRVS={os.path.realpath(self.program)}"]
        status, out, error = run([*program, "examples/judge_in_parts/here", folder, "4"])
        alone, lines, _ = run([self.program, "audit", "--chain", "--quiet"], data)
        check(f"{name} has the status of one process", status == alone and (status == 0 or out == lines), status, out, alone, lines)
        again = run([*program, "examples/judge_in_parts/here", folder, "4"])
        check(f"{name} is judged once", again[:2] == (status, out), again)
        return out.decode() + error.decode(), status, parts

    def example_in_parts(self):
        """The worked example of many machines: the parts of a chain with starts, judged at once."""
        words = [self.recorded, "--threads", "8", "--segments", "40", "--starts", "5", "--touching", "2", "--requests", "40"]
        names = [f"part.{number:07}" for number in range(0, 40, 5)]
        for more in ([], ["--start"]):
            said, status, parts = self.judged_in_parts("a chain", run(words + more)[1])
            check(f"a chain in parts {more}", status == 0 and parts == names and said.startswith("8 parts are right"), said)
        said, status, _ = self.judged_in_parts("a chain with a fault", run(words + ["--bug", "lost-update", "--from", "38"])[1])
        check("a fault is said of its segment", status == 1 and re.match(r"segment 3[89]\nno \d+ ", said), said)

        _, data, _ = run(words + ["--seed", "2"])
        segments = segments_of(data)
        less = data[:segments[9].ends] + data[segments[14].ends:]
        said, status, parts = self.judged_in_parts("a chain without one of its parts", less)
        check("a part is missing", status == 1 and said.startswith("segment 10\nno ") and len(parts) == 7, said)
        data = data[:segments[9].ends] + run([self.recorded, "--threads", "7", *words[3:], "--start"])[1]
        said, status, _ = self.judged_in_parts("a chain of two runs", data)
        check("parts of two runs, with other threads", status == 1 and said.startswith("segment 10\nno 1 Format BadChain"), said)
        said, status, _ = self.judged_in_parts("a chain that is cut off", data[:-1])
        check("a part that is cut off", status == 1 and said.startswith("segment 10\n"), said)
        with open("tests/chains/touch_behind_a_cut_of_an_unmap_without_a_reply_with_a_start.chain", "rb") as file:
            said, status, parts = self.judged_in_parts("a touch that is right by the part before it", file.read(), 1)
        check("a part is wrong alone, and right behind the one before", status == 0 and len(parts) == 2 and said.startswith("2 parts are right"), said)
        with open("tests/chains/release_behind_a_cut_of_an_unmap_without_a_reply_with_a_start.chain", "rb") as file:
            said, status, parts = self.judged_in_parts("a release that is wrong by the part before it", file.read(), 1)
        check("two parts are right alone, and wrong as one", status == 1 and len(parts) == 2 and said == "segment 1\nno 25 Reachable 0\n", said)
        check("no chain at all is no part", run([sys.executable, "recorders/split_chain.py", self.path("none")])[:2] == (0, b"parts: 0\n"))
