"""Programs of others that are recorded one after the other: tests of the kernel's own, stressors, databases."""
import glob
import json
import os
from collections.abc import Callable
from dataclasses import dataclass

import debian
from debian import said

SOURCE = "linux-source-6.1"
LONGEST = 15        # characters of a process's name, as the kernel has it
TESTS = ("mremap_dontunmap", "map_fixed_noreplace", "madv_populate", "mlock2-tests", "split_huge_page_test", "khugepaged",
         "soft-dirty", "transhuge-stress", "map_populate", "mrelease_test", "thuge-gen")
STRESSORS = ("vm", "mmap", "mremap", "mprotect", "madvise", "munmap", "brk", "mlock", "msync", "shm", "shm-sysv", "remap", "memfd",
             "userfaultfd", "tlb-shootdown", "mincore", "mmapmany", "malloc")
QUERIES = """create table t(a integer primary key, b integer, c text);
with recursive n(x) as (select 1 union all select x + 1 from n where x < 20000) insert into t select x, x * 7919 % 10007, hex(x) from n;
create index i on t(b); select count(*), sum(b) from t; select count(*) from t x join t y on x.b = y.a; delete from t where b % 3 = 0;
vacuum; select count(*), sum(length(c)) from t;
"""
# One line each, as PostgreSQL takes them without its server
SQL = """create table t(a integer primary key, b integer, c text);
insert into t select x, x * 7919 % 10007, repeat(md5(x::text), 4) from generate_series(1, 20000) x;
create index i on t(b);
set work_mem = '64kB';
select count(*), sum(length(s.c)) from (select c from t order by c) s;
set work_mem = '64MB';
select count(*) from t x join t y on x.b = y.a;
delete from t where b % 3 = 0;
vacuum full t;
select count(*), sum(length(c)) from t;
"""
# What BeanShell, a Java program, runs: memory that is garbage soon, and some that stays
GARBAGE = """import java.util.*;
List kept = new ArrayList();
for (int round = 0; round < 6; round++) {
    for (int i = 0; i < 300; i++) {
        byte[] some = new byte[65536];
        some[i] = (byte) 1;
        if (i % 8 == 0)
            kept.add(some);
    }
    if (round % 2 == 1)
        kept.clear();
    System.gc();
}
print(kept.size());
"""


@dataclass(frozen=True)
class Program:
    what: str
    command: str                                # of init; WORKLOAD is guest/workload.c
    package: str = ""                           # of Debian; programs of one package run in one boot
    files: Callable[[str], list[str]] | None = None     # makes files for its /bin, in this folder: their paths
    process: str = ""                           # the process that is ended after a minute, where it doesn't end before
    before: str = ""                            # lines of init before that


def tests(folder: str) -> list[str]:
    """The kernel's own tests of its memory management, compiled out of Debian's package of its source."""
    made = f"{folder}/selftests"
    if not os.path.isdir(made):
        debian.unpack([SOURCE], f"{folder}/{SOURCE}")
        archive, = glob.glob(f"{folder}/{SOURCE}/usr/src/*.tar.xz")
        tree = f"{folder}/{SOURCE}/tree"
        os.makedirs(tree, exist_ok=True)
        said("tar", "-xf", archive, "-C", tree, "--strip-components=1", f"{SOURCE}/tools/testing/selftests/vm",
             f"{SOURCE}/tools/testing/selftests/kselftest.h")
        os.makedirs(f"{made}.part", exist_ok=True)
        sources = f"{tree}/tools/testing/selftests/vm"
        for name in TESTS:
            said("gcc", "-O1", "-w", "-static", "-pthread", f"-I{tree}/tools/testing/selftests", "-o", f"{made}.part/{name}",
                 f"{sources}/{name}.c", f"{sources}/vm_util.c")
        os.rename(f"{made}.part", made)
    return [f"{made}/{name}" for name in TESTS]


def written(name: str, text: str) -> Callable[[str], list[str]]:
    """A file of this name, with this text."""
    def write(folder: str) -> list[str]:
        with open(f"{folder}/{name}", "w") as file:
            file.write(text)
        return [f"{folder}/{name}"]
    return write


def records(count: int) -> str:
    """So many records in JSON."""
    return json.dumps([{"number": each, "square": each * each, "names": [hex(each), oct(each)]} for each in range(count)])


def stress(name: str) -> str:
    return f"WORKLOAD later 2 /usr/bin/stress-ng --{name} 1 --timeout 3 --seed 1"


REDIS = "/usr/bin/redis-cli -s /tmp/redis"
POSTGRES = "/usr/lib/postgresql/15/bin"
# PostgreSQL doesn't run as root
DATABASE = f"""if ! $b test -d /tmp/data; then
$b mkdir -p /dev/shm /etc; $b mount -t tmpfs shm /dev/shm; $b test -e /bin/sh || $b ln -s busybox /bin/sh
echo postgres:x:1000:1000::/tmp:/bin/sh >/etc/passwd
$b su postgres -c '{POSTGRES}/initdb -D /tmp/data -A trust --no-sync --no-locale -E UTF8' >/dev/null
fi"""
JAVA = "/usr/lib/jvm/java-17-openjdk-amd64/bin/java -Xmx64m {} -cp /usr/share/java/bsh.jar bsh.Interpreter /bin/garbage.bsh"
COLLECTORS = {"serial": ("in one thread", "-XX:+UseSerialGC -XX:TieredStopAtLevel=1"),
              "g1": ("that is the usual one", "-XX:+UseG1GC -XX:TieredStopAtLevel=1"),
              "z": ("that maps its heap three times (ZGC)", "-XX:+UseZGC -XX:TieredStopAtLevel=1")}
PROGRAMS = {
    **{name: Program("the kernel's own test", f"WORKLOAD exec /bin/{name}", files=tests, process=name[:LONGEST]) for name in TESTS},
    **{f"stress-{name}": Program("stress-ng's process, for three seconds", stress(name), "stress-ng") for name in STRESSORS},
    "sqlite": Program("sqlite: 20,000 rows in a file, an index, a join, a vacuum",
                      "WORKLOAD exec /usr/bin/sqlite3 -init /bin/queries.sql /tmp/database .quit", "sqlite3",
                      written("queries.sql", QUERIES)),
    "redis": Program("redis, asked by redis-benchmark for a minute at most, with a fork that saves all",
                     "(until $b test -S /tmp/redis; do $b sleep 1; done; "
                     "$b timeout 60 /usr/bin/redis-benchmark -s /tmp/redis -q -n 2000 -c 10 -t set,get,incr,lpush; "
                     f"{REDIS} bgsave; $b sleep 3; {REDIS} shutdown nosave) & "
                     "WORKLOAD exec /usr/bin/redis-server --port 0 --unixsocket /tmp/redis --dir /tmp", "redis-server"),
    "postgres": Program("PostgreSQL without its server: 20,000 rows, an index, a sort in a file, a join, a vacuum",
                        f'$b su postgres -c "WORKLOAD exec {POSTGRES}/postgres --single -D /tmp/data -c shared_buffers=8MB postgres" </bin/queries.postgres',
                        "postgresql-15", written("queries.postgres", SQL), before=DATABASE),
    "postgres-server": Program("PostgreSQL's server, which forks for each of pgbench's 40 connections",
                               f"(until $b test -S /tmp/.s.PGSQL.5432; do $b sleep 1; done; $b sleep 2; "
                               f"$b timeout 120 {POSTGRES}/pgbench -h /tmp -U postgres -n -C -c 2 -t 20 -f /bin/asked.sql postgres; "
                               f"$b kill -INT $($b head -n 1 /tmp/data/postmaster.pid)) & "
                               f'$b su postgres -c "WORKLOAD exec {POSTGRES}/postgres -D /tmp/data -k /tmp -c listen_addresses="',
                               "postgresql-15", written("asked.sql", "select count(*), max(oid) from pg_class;\n"), before=DATABASE),
    "go": Program("gron, in Go, on 800 records of JSON, with little memory (GOMEMLIMIT)",
                  "GOGC=20 GOMEMLIMIT=8MiB GODEBUG=madvdontneed=1 WORKLOAD exec /usr/bin/gron /bin/records.json >/tmp/out", "gron",
                  written("records.json", records(800))),
    **{f"java-{name}": Program(f"BeanShell, in Java, with a collector {what}", f"WORKLOAD exec {JAVA.format(option)}", "bsh",
                               written("garbage.bsh", GARBAGE)) for name, (what, option) in COLLECTORS.items()},
}
