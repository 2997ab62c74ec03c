#!/usr/bin/env python3
"""Other kernels, in QEMU: each is booted with four processors, records itself, and is judged here, sound and with planted bugs.

    guests.py [--seconds N] [--plants NAME,..] [KERNEL..]

KERNEL is one of the names below; all, where none is named. `--plants` are bugs of plants.py (`all`, or none where it is missing), each of
which is overwritten in the running kernel, met, and taken out again. If no access met it, it is planted again, with other seeds, four times
in all. NRVS is the program nrvs. A line is printed for each kernel and bug, of a bug with the seconds from when it was there to the
verdict. The status is 0 where each sound kernel was judged right and each bug wrong. Needs qemu-system-x86, busybox-static, cpio, gcc, and
30 to 110 MB a kernel.
"""
import argparse
import glob
import lzma
import os
import re
import select
import shutil
import socket
import subprocess
import sys
import time
from collections.abc import Iterator

sys.dont_write_bytecode = True
HERE = os.path.dirname(os.path.abspath(__file__))
sys.path.insert(1, f"{HERE}/../linux")
import explain
from debian import Missing, said, unpack
from kernel_image import check_commands
from plants import Plant
from stub import Stub

import user_plants

OUT = f"{HERE}/out"
NEEDED = ("qemu-system-x86_64", "busybox", "cpio", "gcc", "apt-get", "dpkg-deb")
# The newest of Debian's packages that have such a name.
KERNELS = {
    "6.1": r"linux-image-6\.1\.0-[0-9]+-cloud-amd64-unsigned",
    "6.1-rt": r"linux-image-6\.1\.0-[0-9]+-rt-amd64-unsigned",
    "6.12": r"linux-image-6\.12\.[0-9]+\+deb12-cloud-amd64-unsigned",
    "6.12-rt": r"linux-image-6\.12\.[0-9]+\+deb12-rt-amd64-unsigned",
}
COMMAND_LINE = "nokaslr no_timer_check norandmaps mitigations=off panic=-1 quiet console=ttyS0 hugepages=8"
# In this order; a kernel has some of them in itself.
MODULES = ("virtio_ring", "virtio", "virtio_pci_legacy_dev", "virtio_pci_modern_dev", "virtio_pci", "virtio_console", "lzo-rle", "zsmalloc",
           "zram")
BOOT, PATIENCE = 400, 240                   # seconds until it has booted, and in which a run has to end
SETTLED = 0.5                               # seconds without a byte, after which a chain has come
TRIES = 4                                   # of a bug that no access meets
SOUND = "--threads 8"
PLANTED = "--seconds 60 --events 8192 --threads 4 --changers 1 --pin"     # a run with a bug
INIT = """#!/bin/busybox sh
b=/bin/busybox
$b mount -t proc proc /proc
$b mount -t sysfs sys /sys
$b mount -t devtmpfs dev /dev
$b mount -t tmpfs tmp /tmp
$b mount -t cgroup2 groups /sys/fs/cgroup
echo 1 >/proc/sys/kernel/printk
for each in {modules}; do [ -e /$each.ko ] && $b insmod /$each.ko; done
[ -e /dev/zram0 ] && echo 128M >/sys/block/zram0/disksize && $b mkswap /dev/zram0 >/dev/null && $b swapon /dev/zram0
echo 1 >/sys/kernel/mm/ksm/run
echo always >/sys/kernel/mm/transparent_hugepage/shmem_enabled
$b stty raw -echo </dev/ttyS1
exec 3</dev/ttyS1
chain=$(echo /dev/vport*p1)
[ -n "$symbols" ] && $b cat /proc/kallsyms >"$chain"
echo READY "$chain"
while read -r words <&3; do
  [ -n "$words" ] || continue
  /mmap $words --write "$chain" <&3 2>&1
  echo "ENDED $?"
done
$b poweroff -f
"""


class Kernel:
    """One of Debian's kernels: its image and modules, and its symbols once it has been booted for them."""

    def __init__(self, name: str) -> None:
        names = re.findall(rf"^{KERNELS[name]}$", said("apt-cache", "pkgnames", "linux-image-6"), re.M)
        if not names:
            raise Missing(f"Debian's packages have no kernel {name} here")
        package = max(names, key=lambda each: [int(part) for part in re.findall(r"[0-9]+", each)])
        self.name, self.folder = name, f"{OUT}/{package}"
        unpack([package], self.folder)
        self.image = glob.glob(f"{self.folder}/boot/vmlinuz-*")[0]
        self.version = os.path.basename(self.image).removeprefix("vmlinuz-")
        self.symbols: list[tuple[int, str]] = []

    def modules(self) -> Iterator[tuple[str, bytes]]:
        for name in MODULES:
            for path in glob.glob(f"{self.folder}/lib/modules/*/kernel/**/{name}.ko*", recursive=True):
                data = open(path, "rb").read()
                yield name, lzma.decompress(data) if path.endswith(".xz") else data

    def learn(self, kallsyms: str) -> None:
        rows = (line.split() for line in kallsyms.splitlines())
        self.symbols = sorted((int(row[0], 16), row[2]) for row in rows if len(row) == 3 and row[1] in "tTwW")

    def address(self, name: str) -> int:
        """The first of that name; a part that the compiler has split off isn't it."""
        for address, each in self.symbols:
            if each == name:
                return address
        raise Missing(f"Linux {self.version} has no function {name}")

    def end(self, name: str) -> int:
        begin = self.address(name)
        return min(address for address, _ in self.symbols if address > begin)


def initrd(kernel: Kernel) -> str:
    """busybox, the program, the modules, and an init."""
    root, path = f"{OUT}/{kernel.name}.root", f"{OUT}/{kernel.name}.initrd"
    shutil.rmtree(root, ignore_errors=True)
    for folder in ("bin", "proc", "sys", "dev", "tmp"):
        os.makedirs(f"{root}/{folder}")
    shutil.copy(shutil.which("busybox"), f"{root}/bin/busybox")
    said("gcc", "-std=c11", "-O2", "-static", "-pthread", "-I", f"{HERE}/../../recorders", "-o", f"{root}/mmap", *glob.glob(f"{HERE}/*.c"))
    for name, data in kernel.modules():
        with open(f"{root}/{name}.ko", "wb") as module:
            module.write(data)
    with open(f"{root}/init", "w") as init:
        init.write(INIT.replace("{modules}", " ".join(MODULES)))
    os.chmod(f"{root}/init", 0o755)
    names = said("find", ".", folder=root).encode()
    packed = subprocess.run(["cpio", "-o", "-H", "newc", "--quiet"], cwd=root, input=names, stdout=subprocess.PIPE, check=True)
    with open(path, "wb") as file:
        file.write(packed.stdout)
    shutil.rmtree(root)
    return path


def chain_bytes(text: str) -> int:
    """How long a chain is, by what the program printed at its end."""
    found = re.search(r"a chain of (\d+) bytes", text)
    return int(found[1]) if found else 0


class Undoable:
    """The stub, and what was there before it wrote."""

    def __init__(self, stub: Stub) -> None:
        self.stub = stub
        self.before: list[tuple[int, bytes]] = []

    def read(self, address: int, length: int) -> bytes:
        return self.stub.read(address, length)

    def write(self, address: int, code: bytes) -> None:
        self.before.append((address, self.stub.read(address, len(code))))
        self.stub.write(address, code)


class Guest:
    """A kernel that was booted, and waits for words of the program's command line."""

    def __init__(self, kernel: Kernel) -> None:
        self.kernel = kernel
        self.path = f"{OUT}/{kernel.name}"
        for ending in ("serial", "line", "chain", "debug"):
            if os.path.exists(f"{self.path}.{ending}"):
                os.remove(f"{self.path}.{ending}")
        self.before: list[tuple[int, bytes]] = []
        asks = not kernel.symbols
        self.qemu = subprocess.Popen(self.command(initrd(kernel), asks))
        deadline = time.monotonic() + BOOT
        kallsyms = b""
        while not all(os.path.exists(f"{self.path}.{each}") for each in ("line", "chain")):
            self.check(deadline)
        self.line, self.chain = self.connect("line"), self.connect("chain")
        while "READY" not in self.text():
            self.check(deadline)
            while asks and select.select([self.chain], [], [], 0)[0]:
                kallsyms += self.chain.recv(1 << 20)
        while asks and select.select([self.chain], [], [], SETTLED)[0]:
            kallsyms += self.chain.recv(1 << 20)
        if asks:
            kernel.learn(kallsyms.decode())

    def command(self, initrd_path: str, asks: bool) -> list[str]:
        return ["nice", "-n", os.environ.get("NICE", "0"), "qemu-system-x86_64", "-accel", "tcg,thread=multi", "-smp", "4", "-m", "1G",
                "-cpu", "max,la57=off", "-display", "none",
                "-monitor", "none", "-no-reboot", "-kernel", self.kernel.image, "-initrd", initrd_path,
                "-append", COMMAND_LINE + (" symbols=1" if asks else ""), "-serial", f"file:{self.path}.serial",
                "-serial", f"unix:{self.path}.line,server=on,wait=off", "-gdb", f"unix:{self.path}.debug,server=on,wait=off",
                "-device", "virtio-serial-pci", "-chardev", f"socket,id=chain,path={self.path}.chain,server=on,wait=off",
                "-device", "virtserialport,chardev=chain,name=chain"]

    def connect(self, ending: str) -> socket.socket:
        connected = socket.socket(socket.AF_UNIX)
        connected.connect(f"{self.path}.{ending}")
        return connected

    def text(self) -> str:
        path = f"{self.path}.serial"
        return open(path, errors="replace").read() if os.path.exists(path) else ""

    def check(self, deadline: float) -> None:
        time.sleep(0.1)
        if self.qemu.poll() is not None or time.monotonic() > deadline:
            self.kill()
            raise Missing("the guest doesn't go on: " + self.text()[-300:])

    def kill(self) -> None:
        self.qemu.kill()
        self.qemu.wait()

    def plant(self, plant: Plant) -> None:
        stub = Stub(f"{self.path}.debug")
        undoable = Undoable(stub)
        try:
            for each in plant.code:
                each.plant(self.kernel, undoable)
        finally:
            self.before = undoable.before
            stub.leave()

    def restore(self) -> None:
        if self.before:
            stub = Stub(f"{self.path}.debug")
            for address, code in reversed(self.before):
                stub.write(address, code)
            stub.leave()
        self.before = []

    def run(self, words: str, patience: float, plant: Plant | None = None) -> "Run":
        """A run with these words. The bug is there from when its threads are ready until it has recorded."""
        run = Run(self, plant)
        deadline = time.monotonic() + patience
        self.line.sendall(words.encode() + b" --wait\n")
        while not run.is_over() and self.qemu.poll() is None and time.monotonic() < deadline:
            run.take()
            run.attend()
        run.end()
        return run


class Run:
    """A run of the program in a guest. Its chain is judged while it comes, and stays in out/KERNEL.kept."""

    def __init__(self, guest: Guest, plant: Plant | None) -> None:
        self.guest, self.plant = guest, plant
        self.judge = subprocess.Popen([explain.program(), "audit", "--chain", "--quiet"], stdin=subprocess.PIPE, stdout=subprocess.PIPE)
        self.kept = open(f"{guest.path}.kept", "wb")
        self.begins = len(guest.text())             # of what the guest has printed
        self.bytes, self.last = 0, time.monotonic()  # of the chain: how many there are, and when some came last
        self.begun = 0.0                            # when its threads were ready
        self.seconds = 0.0                          # from then to the verdict
        self.verdict = ""

    def text(self) -> str:
        """What the program has printed."""
        return self.guest.text()[self.begins:]

    def is_over(self) -> bool:
        text = self.text()
        return "ENDED" in text and time.monotonic() - self.last > SETTLED and self.bytes >= chain_bytes(text)

    def take(self) -> None:
        """What has come of the chain goes to the auditor; when that has said no, the run may end."""
        if select.select([self.guest.chain], [], [], 0.1)[0]:
            data, self.last = self.guest.chain.recv(1 << 20), time.monotonic()
            self.bytes += len(data)
            self.kept.write(data)
            if not self.seconds:
                try:
                    self.judge.stdin.write(data)
                    self.judge.stdin.flush()
                except BrokenPipeError:
                    pass
        if not self.seconds and self.judge.poll() is not None:
            self.seconds = time.monotonic() - self.begun
            self.guest.line.sendall(b"\n")

    def attend(self) -> None:
        """Plants the bug, and takes it out."""
        text = self.text()
        if not self.begun and "READY" in text:
            if self.plant:
                self.guest.plant(self.plant)
            self.begun = time.monotonic()
            self.guest.line.sendall(b"\n")
        if self.guest.before and ("touches" in text or "no: " in text or "ENDED" in text):
            self.guest.restore()

    def end(self) -> None:
        self.kept.close()
        try:
            self.judge.stdin.close()
        except BrokenPipeError:
            pass
        said = "; ".join(self.judge.stdout.read().decode().split("\n")).strip("; ")
        self.judge.wait()
        self.seconds = self.seconds or time.monotonic() - (self.begun or time.monotonic())
        self.verdict = said if "ENDED" in self.text() or is_found(said) else f"the guest didn't end; {said}"


def is_found(verdict: str) -> bool:
    return re.search(r"no \d+ ", verdict) is not None


class Boots:
    """Guests with one kernel: the next one is booted where a bug has broken the last one."""

    def __init__(self, kernel: Kernel, guest: Guest | None) -> None:
        self.kernel, self.guest = kernel, guest

    def run(self, name: str, seed: int) -> Run:
        """A run with this bug."""
        if not self.guest or self.guest.qemu.poll() is not None:
            self.guest = Guest(self.kernel)
        words = f"{PLANTED} {user_plants.WORDS.get(name, user_plants.OTHERS)} --seed {seed}"
        run = self.guest.run(words, PATIENCE, user_plants.PLANTS[name])
        os.rename(f"{self.guest.path}.kept", f"{self.guest.path}-{name}.chain")
        if "ENDED" not in run.text() or self.guest.before:
            self.guest.kill()
        return run

    def end(self) -> None:
        if self.guest:
            self.guest.kill()


def tried(boots: Boots, name: str) -> tuple[Run, int]:
    """Runs with a bug until one is found wrong, some at most; the last one, and how many there were."""
    tries = 1 if name in user_plants.UNSEEN else TRIES
    for seed in range(1, tries + 1):
        run = boots.run(name, seed)
        if is_found(run.verdict):
            break
    return run, seed


def judge_plants(kernel: Kernel, guest: Guest | None, names: list[str]) -> bool:
    """Each bug, in one boot where the bugs allow it."""
    all_found, boots = True, Boots(kernel, guest)
    for name in names:
        try:
            run, tries = tried(boots, name)
        except Missing as why:
            print(f"{kernel.name}\t{name}\tskipped: {why}", flush=True)
            boots.end()
            continue
        all_found = all_found and is_found(run.verdict) == (name not in user_plants.UNSEEN)
        own = re.findall(r"^no: .*$|[0-9]+ calls, [0-9]+ touches", run.text(), re.M)
        again = [f"run {tries}"] if tries > 1 else []
        print("\t".join([kernel.name, name, run.verdict, f"{run.seconds:.1f} s", *again, *own]), flush=True)
    boots.end()
    return all_found


def judge_kernel(name: str, options: argparse.Namespace, names: list[str]) -> bool:
    """A sound run of a kernel, and one with each bug: whether all verdicts are as they should be."""
    is_right = True
    try:
        kernel = Kernel(name)
        guest = Guest(kernel)
        if options.seconds:
            run = guest.run(f"--seconds {options.seconds} {SOUND} {options.words}", PATIENCE + 4 * options.seconds)
            print(f"{name}\tLinux {kernel.version}\t{run.verdict}\n{run.text().strip()}", flush=True)
            is_right = re.fullmatch(r"segments \d+", run.verdict) is not None
        return judge_plants(kernel, guest, names) and is_right
    except Missing as why:
        print(f"skipped: {name}: {why}", flush=True)
        return is_right


def main(words: list[str]) -> int:
    parser = argparse.ArgumentParser(description=__doc__, formatter_class=argparse.RawDescriptionHelpFormatter)
    parser.add_argument("--seconds", type=float, default=60, help="of the sound run; 0: none")
    parser.add_argument("--plants", default="")
    parser.add_argument("--words", default="", help="more words for the program")
    parser.add_argument("kernels", nargs="*", metavar="KERNEL")
    options = parser.parse_args(words)
    names = list(user_plants.PLANTS) if options.plants == "all" else [each for each in options.plants.split(",") if each]
    unknown = [name for name in options.kernels if name not in KERNELS] + [name for name in names if name not in user_plants.PLANTS]
    if unknown:
        parser.error(f"no {', '.join(unknown)}; there are {', '.join(KERNELS)}, and the bugs {', '.join(user_plants.PLANTS)}")
    try:
        explain.check_program()
        check_commands(NEEDED)
    except Missing as why:
        print(f"guests.py: {why}", file=sys.stderr)
        return 2
    os.makedirs(OUT, exist_ok=True)
    return int(not all([judge_kernel(name, options, names) for name in options.kernels or KERNELS]))


if __name__ == "__main__":
    sys.exit(main(sys.argv[1:]))
