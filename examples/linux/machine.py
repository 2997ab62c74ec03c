"""The guest: an initrd, QEMU with the plugin, and code that is overwritten while it runs."""
import functools
import lzma
import os
import re
import select
import shutil
import socket
import subprocess
import threading
import time
from collections.abc import Callable, Iterable
from dataclasses import dataclass
from typing import TextIO

import debian
import kernel_image
from debian import Missing, said
from kernel_image import COMMAND_LINE, Files, Kernel
from plants import RESTS, REST_PLACES, Code
from stub import Stub

HERE = os.path.dirname(os.path.abspath(__file__))
OUT = f"{HERE}/out"
LIMIT = 600                     # seconds that a guest may take
LINES = 5_000_000               # of a log that is kept: a trace has room for fewer
PROCESSOR = "max,pku=off,smep=off,smap=off"     # as docs/FORMATS.md has it
INIT = """#!/bin/busybox sh
b=/bin/busybox
$b mount -t proc proc /proc
$b mount -t sysfs sys /sys
$b mount -t devtmpfs dev /dev
$b mount -t tmpfs tmp /tmp
echo 1 >/proc/sys/kernel/printk
%s
$b reboot -f
"""
# Functions, and the variables that the plugin asks for: what /proc/kallsyms has in all is twice as much.
TELL_SYMBOLS = "$b grep -E ' [tTwW] |__per_cpu_offset|cpu_tlbstate|current_task|pcpu_hot|flush_tlb_info' /proc/kallsyms >/dev/ttyS1\n"
SYMBOLS_END = "the symbols end"
UNUSED = shutil.ignore_patterns("doc", "man", "locale", "gconv", "info", "icons", "libLLVM*", "dri")      # of Debian's packages
WORKLOAD = "workload"
SECOND = "second-"              # a second copy of the plugin watches a process, or its child, while the first watches nested tables or it
TAG, SECOND_TAG = "@", "%"                          # with which their lines begin
PARTS = re.compile(r"^WRONG (\d+ parts \S+)", re.M)   # of a process: guest/parts.c has another number than one of this name
UNANSWERED = "WRONG no answer of the recorder"


@dataclass(frozen=True)
class Guest:
    """What is booted, and how."""
    command: str                    # what init runs
    processors: int = 1
    levels: int = 4
    isolated: bool = False
    rest: int = 0                   # 0, or: at each so many places processors rest, so that others run,
    rest_at: str = RESTS            # .. and which places these are
    memory: int = 1024              # MiB; below 3,584, where QEMU's machine has all of it from 0 on
    code: tuple[Code, ...] = ()     # what is overwritten when the guest says so
    package: str = ""               # of Debian, unpacked in the guest with all that it depends on
    nested: bool = False            # KVM is there, and the nested tables of a guest's guest are watched
    monitor: bool = False           # .. and a process too, by a second copy of the plugin
    child: bool = False             # the address space is watched, by a second copy of the plugin, that a fork of the process makes
    files: tuple[str, ...] = ()     # more files, for its /bin
    setup: str = ""                 # lines of init before that, when the kernel's modules are inserted
    modules: tuple[str, ...] = ()   # of the kernel, to be inserted first: of our own by name (module/), others by file or folder
    options: str = ""               # of the kernel's command line, with one before them
    maps: bool = False              # what its kernel says of a process's mappings comes by a serial line, to NAME.maps
    has_line: bool = False          # there is a line to it, and a debugger's stub, without such code too


def put(file: str, folder: str) -> None:
    """Copies a file; of one that ends with .xz what is in it."""
    if file.endswith(".xz"):
        with lzma.open(file) as packed, open(f"{folder}/{os.path.basename(file).removesuffix('.xz')}", "wb") as plain:
            shutil.copyfileobj(packed, plain)
    else:
        shutil.copy(file, folder)


def module_file(kernel: Kernel, module: str) -> str:
    """A module's file; one of our own is built for this kernel, and one of Debian's is named by its folder."""
    if module.endswith((".ko", ".ko.xz")):
        return module
    if "/" in module:
        found = kernel_image.modules_of(kernel.image, kernel.version, (module,))
        if not found:
            raise Missing(f"no module {module} for {kernel.image}: it is looked for where Debian's package has it")
        return found[0]
    headers = f"/lib/modules/{kernel.version}/build"
    if not os.path.isdir(headers):
        raise Missing(f"no {headers}: apt-get install --no-install-recommends linux-headers-{kernel.version} make")
    folder, sources = f"{OUT}/module-{kernel.version}", [f"{HERE}/module/{each}" for each in os.listdir(f"{HERE}/module")]
    if not is_newer(f"{folder}/{module}.ko", sources):
        shutil.rmtree(folder, ignore_errors=True)
        shutil.copytree(f"{HERE}/module", folder)
        said("make", "-C", headers, f"M={folder}", "modules")
    return f"{folder}/{module}.ko"


def insert(modules: list[str]) -> str:
    """What init does with these modules of the kernel. What one needs to begin is freed a moment later: where the next one lies is the same
    in each boot when that is over."""
    return "".join(f"$b insmod /bin/{os.path.basename(each).removesuffix('.xz')}\n$b sleep 1\n" for each in modules)


def pack(name: str, command: str, files: list[str], package: str = "") -> str:
    """An initrd with busybox, an init, some files, and a package."""
    root, path = f"{OUT}/{name}.root", f"{OUT}/{name}.initrd"
    shutil.rmtree(root, ignore_errors=True)
    if package:
        debian.unpack(debian.needed(package), f"{OUT}/{package}")
        shutil.copytree(f"{OUT}/{package}", root, symlinks=True, ignore=UNUSED)
    for folder in ("bin", "proc", "sys", "dev", "tmp"):
        os.makedirs(f"{root}/{folder}", exist_ok=True)
    for file in [shutil.which("busybox"), *files]:
        put(file, f"{root}/bin")
    with open(f"{root}/init", "w") as init:
        init.write(INIT % command)
    os.chmod(f"{root}/init", 0o755)
    names = said("find", ".", folder=root).encode()
    done = subprocess.run(["cpio", "-o", "-H", "newc", "--quiet"], cwd=root, input=names, stdout=subprocess.PIPE, check=True)
    with open(path, "wb") as initrd:
        initrd.write(done.stdout)
    shutil.rmtree(root)
    return path


def is_newer(path: str, sources: list[str]) -> bool:
    return os.path.exists(path) and all(os.path.getmtime(each) < os.path.getmtime(path) for each in sources)


def plugin() -> str:
    """The plugin's name, for this QEMU."""
    return f"watch-{kernel_image.plugin_version()}.so"


def compile_parts() -> None:
    """The plugin, a second copy of it, and the workload, built where they aren't."""
    flags = ["-std=c11", "-D_DEFAULT_SOURCE", "-Wall", "-Wextra", "-Wpedantic", "-Werror"]
    version = f"-DPLUGIN_VERSION={kernel_image.plugin_version()}"
    for name, folder, more in ((plugin(), "plugin", ["-O2", "-shared", "-fPIC", "-fvisibility=hidden", version]),
                               (WORKLOAD, "guest", ["-O1", "-static", "-pthread"])):
        sources = sorted(f"{HERE}/{folder}/{each}" for each in os.listdir(f"{HERE}/{folder}") if each.endswith((".c", ".h")))
        if not is_newer(f"{OUT}/{name}", sources):
            said("gcc", *flags, *more, "-o", f"{OUT}/{name}", *(each for each in sources if each.endswith(".c")))
    if not is_newer(f"{OUT}/{SECOND}{plugin()}", [f"{OUT}/{plugin()}"]):
        shutil.copy(f"{OUT}/{plugin()}", f"{OUT}/{SECOND}{plugin()}.part")
        os.rename(f"{OUT}/{SECOND}{plugin()}.part", f"{OUT}/{SECOND}{plugin()}")   # another QEMU may run one that is there


def plain_command(image: str, initrd: str) -> list[str]:
    return [kernel_image.qemu(), "-accel", "tcg,thread=single", "-display", "none", "-monitor", "none", "-no-reboot", "-kernel", image,
            "-initrd", initrd]


def told_symbols(files: Files) -> str:
    """What the guest says of the symbols of its kernel, with KVM's modules: it is booted for that once. What it says is kept when all of
    it has come."""
    path = f"{OUT}/symbols-{files.name}"
    if not os.path.exists(path):
        print(f"booting Linux {files.version} once, for its symbols", flush=True)
        name = f"symbols-{os.getpid()}"
        initrd = pack(name, insert(files.modules) + TELL_SYMBOLS + f"echo {SYMBOLS_END} >/dev/ttyS1", files.modules)
        said(*plain_command(files.image, initrd), "-m", "1G", "-cpu", f"{PROCESSOR},la57=off", "-append", COMMAND_LINE, "-serial",
             f"file:{OUT}/{name}.serial", "-serial", f"file:{OUT}/{name}.part")
        remove(initrd)
        text, _, rest = text_of(f"{OUT}/{name}.part").partition(f"{SYMBOLS_END}")
        if not rest or not text:
            raise Missing(f"the guest didn't say all of its kernel's symbols: --vmlinux FILE, or CONFIG_KALLSYMS_ALL and what init uses; "
                          f"it said: {text_of(f'{OUT}/{name}.serial')[-300:]}")
        with open(f"{OUT}/{name}.part", "w") as file:
            file.write(text)
        os.rename(f"{OUT}/{name}.part", path)
        remove(f"{OUT}/{name}.serial")
    return open(path).read()


def kernel(image: str = "", vmlinux: str = "", config: str = "") -> Kernel:
    """Debian's kernel, or that of an image, ready to be booted; Missing where it can't be."""
    kernel_image.check_commands()
    kernel_image.plugin_version()
    os.makedirs(OUT, exist_ok=True)
    if config:
        kernel_image.check_config(config)
    files = kernel_image.files_of(image, vmlinux, OUT) if image else kernel_image.debian_files(OUT)
    return kernel_image.kernel_of(files, files.symbols or kernel_image.parse_symbols(told_symbols(files)))


@dataclass(frozen=True)
class Recording:
    """What a guest left: what was printed on the serial line."""
    serial: str
    is_over: bool               # it ended by itself


def remove(path: str) -> None:
    if os.path.exists(path):
        os.remove(path)


def text_of(path: str) -> str:
    return open(path, errors="replace").read() if os.path.exists(path) else ""


def wrong_parts(serial: str) -> str:
    """What is wrong where a part of the process isn't there, or is there twice, or the process waited in vain; else nothing."""
    if UNANSWERED in serial:
        return "the process had no answer when it asked for its bug"
    found = PARTS.search(serial)
    return f"the process has {found.group(1)}" if found else ""


def plant(name: str, guest: Guest, kernel: Kernel, qemu: subprocess.Popen[bytes]) -> None:
    """Overwrites the kernel's code when the guest says that it waits for that."""
    deadline = time.monotonic() + LIMIT
    while "PLANT" not in text_of(f"{OUT}/{name}.serial"):
        if qemu.poll() is not None or time.monotonic() > deadline:
            raise Missing("the guest didn't come to where its kernel is changed: " + text_of(f"{OUT}/{name}.serial")[-300:])
        time.sleep(0.2)
    stub = Stub(f"{OUT}/{name}.debug")
    for each in guest.code:
        each.plant(kernel, stub)
    stub.leave()
    line = socket.socket(socket.AF_UNIX)
    line.connect(f"{OUT}/{name}.line")
    line.sendall(b"\n")


def plugins(memory: str, guest: Guest, kernel: Kernel) -> list[str]:
    """The plugins, with what each gets to know."""
    told = [f"memory={memory}", f"levels={guest.levels}", f"isolated={int(guest.isolated)}", f"rest={guest.rest}",
            f"rest_at={sum(REST_PLACES[each] for each in guest.rest_at.split(','))}"]
    watched = kernel.nested_settings() if guest.nested else kernel.settings()
    words = ["-plugin", ",".join([f"{OUT}/{plugin()}", *told, *watched])]
    if guest.monitor or guest.child:
        second = [*told, *kernel.settings(), f"child={int(guest.child)}", f"tag={SECOND_TAG}"]
        words += ["-plugin", ",".join([f"{OUT}/{SECOND}{plugin()}", *second])]
    return words


def command(name: str, guest: Guest, kernel: Kernel, initrd: str) -> list[str]:
    memory = f"{OUT}/{name}.memory"
    words = plain_command(kernel.image, initrd)
    words += ["-m", f"{guest.memory}M", "-smp", str(guest.processors), "-cpu", PROCESSOR + (",la57=off" if guest.levels == 4 else "")]
    words += ["-object", f"memory-backend-file,id=memory,size={guest.memory}M,mem-path={memory},share=on", "-machine",
              "pc,memory-backend=memory", "-append", COMMAND_LINE + (" pti=on" if guest.isolated else "") + guest.options, "-serial",
              f"file:{OUT}/{name}.serial", "-d", "int,plugin", "-D", f"{OUT}/{name}.raw", *plugins(memory, guest, kernel)]
    if guest.code or guest.has_line:
        words += ["-serial", f"unix:{OUT}/{name}.line,server,nowait", "-gdb", f"unix:{OUT}/{name}.debug,server,nowait"]
    if guest.maps:
        words += ["-serial", f"file:{OUT}/{name}.maps"]
    return words


def opened(path: str, qemu: subprocess.Popen[bytes]) -> TextIO:
    """The pipe with QEMU's log, when something has come by it."""
    pipe = os.open(path, os.O_RDONLY | os.O_NONBLOCK)
    poll = select.poll()
    poll.register(pipe, select.POLLIN)
    while not any(event & select.POLLIN for _, event in poll.poll(100)):
        if qemu.poll() is not None:
            os.close(pipe)
            raise Missing(f"QEMU ended with status {qemu.returncode} before it logged anything")
    os.set_blocking(pipe, True)
    return open(pipe, errors="replace")


Attend = Callable[[subprocess.Popen[bytes]], None]


def hand_over(name: str, limit: int, qemu: subprocess.Popen[bytes], take: Callable[[Iterable[str]], None], attend: Attend | None) -> None:
    """The log, line by line, while the guest runs; what is done with the guest meanwhile ends it where it fails."""
    failures: list[Exception] = []

    def attend_or_end() -> None:
        try:
            attend(qemu)
        except (Missing, OSError) as why:
            failures.append(why)
            qemu.kill()

    if attend:
        threading.Thread(target=attend_or_end, daemon=True).start()
    timer = threading.Timer(limit, qemu.kill)
    timer.start()
    try:
        with opened(f"{OUT}/{name}.raw", qemu) as lines:
            take(lines)
    finally:
        timer.cancel()
    if failures:
        raise Missing(str(failures[0]))


def record(name: str, guest: Guest, kernel: Kernel, limit: int, take: Callable[[Iterable[str]], None],
           attend: Attend | None = None) -> Recording:
    """Boots a guest, and waits until it is over; its log is taken while it runs. QEMU writes it into a pipe: with all registers of each
    exception it would be a gigabyte in four minutes of a process that is paged out."""
    compile_parts()
    if guest.nested and not kernel.modules and "svm_load_mmu_pgd" not in kernel.by_name:
        raise Missing(f"no modules of KVM for {kernel.image}, and none in it: they are looked for where Debian's package has them")
    modules = [*(kernel.modules if guest.nested else []), *(module_file(kernel, each) for each in guest.modules)]
    files = [f"{OUT}/{WORKLOAD}", f"{HERE}/guest/script.py", *guest.files, *modules]
    initrd = pack(name, "\n".join([insert(modules) + guest.setup, guest.command]), files, guest.package)
    for ending in ("raw", "serial", "memory", "line", "debug", "maps"):
        remove(f"{OUT}/{name}.{ending}")
    os.mkfifo(f"{OUT}/{name}.raw")
    qemu = subprocess.Popen(command(name, guest, kernel, initrd))
    is_over = False
    try:
        hand_over(name, limit, qemu, take, attend or (functools.partial(plant, name, guest, kernel) if guest.code or guest.has_line else None))
        is_over = qemu.wait(1) == 0
    except subprocess.TimeoutExpired:
        pass
    finally:
        qemu.kill()
        qemu.wait()
        for ending in ("raw", "memory", "line", "debug", "initrd"):
            remove(f"{OUT}/{name}.{ending}")
    return Recording(text_of(f"{OUT}/{name}.serial"), is_over)
