"""What an object file for a kernel is made of, as objdump and nm show it: its instructions, frames and symbols."""
import re
import subprocess
from dataclasses import dataclass, field

NAMED = re.compile(r"^[0-9a-f]+ <(.+)>:$")
INSTRUCTION = re.compile(r"^ *[0-9a-f]+:\t(?:(?:notrack|rep|repz|repnz|lock|data16|cs|ds|bnd) )*(\S+) *(.*)$")
COMMENT = re.compile(r"\s# .*")  # a `#` is also in names
RELOCATION = re.compile(r"^\s+[0-9a-f]+: (R_X86_64_\w+)\t(\S+?)(?:[+-]0x[0-9a-f]+)?$")
WIDE = re.compile(r"%([xyz]?mm[0-9]+|st\b|k[0-7]\b)")
BELOW = re.compile(r"-0x[0-9a-f]+\(%rsp")
INDIRECT = re.compile(r"^\*|%[re]")
DATA = re.compile(r"^\.(data|bss|tdata|tbss|init_array|fini_array|ctors|eh_frame|gcc_except_table)")
RETURN_THUNK = "__x86_return_thunk"


@dataclass
class Function:
    """A function: its instructions, as pairs of a mnemonic and its operands. Those of a call or a jump are its symbol."""
    name: str
    rows: list[tuple[str, str]] = field(default_factory=list)

    def frame(self) -> int:
        """The bytes that it takes of the stack below its return address, at most; -1 where that isn't a number of the code."""
        used = 0
        for mnemonic, operands in self.rows:
            if mnemonic.startswith("push"):
                used += 8
            elif operands.endswith(",%rsp") and mnemonic.startswith(("sub", "and")):
                found = re.match(r"\$(0x[0-9a-f]+),", operands)
                if not found:
                    return -1
                number = int(found.group(1), 16)
                used += number if mnemonic.startswith("sub") else 2 ** 64 - number - 1
            elif operands.endswith(",%rsp") and not mnemonic.startswith(("add", "cmp", "test")):
                if not (mnemonic == "lea" and re.match(r"-0x[0-9a-f]+\(%rbp\)", operands)):
                    return -1
        return used

    def called(self) -> set[str]:
        """The functions that it calls or ends in, also by a conditional jump."""
        names = set()
        for mnemonic, operands in self.rows:
            found = re.search(r"<(.+?)(?:\+0x[0-9a-f]+)?>$", operands)
            if mnemonic.startswith(("call", "j")) and found and found.group(1) != self.name:
                names.add(found.group(1))
        return names


def said(*words: str) -> str:
    return subprocess.run(words, stdout=subprocess.PIPE, check=True).stdout.decode()


def functions(path: str) -> dict[str, Function]:
    """The functions of an object or an archive, by name."""
    found: dict[str, Function] = {}
    now = None
    for line in said("objdump", "-dr", "--no-show-raw-insn", path).splitlines():
        name, row, moved = NAMED.match(line), INSTRUCTION.match(line), RELOCATION.match(line)
        if name:
            now = found.setdefault(name.group(1), Function(name.group(1)))
        elif row and now:
            now.rows.append((row.group(1), COMMENT.sub("", row.group(2)).strip()))
        elif moved and now and moved.group(1) in ("R_X86_64_PLT32", "R_X86_64_PC32"):
            mnemonic, operands = now.rows[-1]
            if mnemonic.startswith(("call", "j")):
                now.rows[-1] = (mnemonic, f"<{moved.group(2).removeprefix('.text.')}>")
    return found


def symbols(path: str, *flags: str) -> set[str]:
    return {line.split()[-1] for line in said("nm", *flags, path).splitlines() if len(line.split()) > 1}


def depth(all_of_them: dict[str, Function], name: str, above: tuple[str, ...] = ()) -> int:
    """The bytes of the stack below the return address, with all that is called; -1 where a function calls itself."""
    if name in above:
        return -1
    if name not in all_of_them:
        return 0
    below = [depth(all_of_them, each, (*above, name)) for each in all_of_them[name].called()]
    own = all_of_them[name].frame()
    return -1 if own < 0 or -1 in below else own + max((8 + each for each in below), default=0)


def strange(path: str) -> list[str]:
    """What a kernel can't have in an object, each with the function where it is."""
    found = []
    for function in functions(path).values():
        for mnemonic, operands in function.rows:
            if WIDE.search(operands) or re.match(r"f(?!ence)|emms|v[a-z]|ldmxcsr|stmxcsr", mnemonic):
                found.append(f"vector or x87: {function.name}: {mnemonic} {operands}")
            if mnemonic.startswith(("call", "jmp")) and INDIRECT.search(operands):
                found.append(f"indirect: {function.name}: {mnemonic} {operands}")
            if BELOW.search(operands):
                found.append(f"below RSP: {function.name}: {mnemonic} {operands}")
            if re.search(r"%[fg]s:", operands):
                found.append(f"segment: {function.name}: {mnemonic} {operands}")
        if function.frame() < 0:
            found.append(f"frame: {function.name} has one that isn't a number of its code")
    sections = re.findall(r"^ *[0-9]+ (\.\S+) +([0-9a-f]+)", said("objdump", "-h", path), re.M)
    return found + [f"section: {name}" for name, size in sections if DATA.match(name) and int(size, 16)]


def ends(path: str) -> dict[str, set[str]]:
    """How the functions of an object begin and end: the returns, and what follows each."""
    found: dict[str, set[str]] = {"returns": set(), "behind": set(), "begins": set()}
    offered = symbols(path, "-g", "--defined-only")
    for function in functions(path).values():
        if function.name in offered:
            found["begins"].add(function.rows[0][0])
        for (mnemonic, operands), (behind, _) in zip(function.rows, [*function.rows[1:], ("nothing", "")]):
            is_thunk = mnemonic == "jmp" and RETURN_THUNK in operands
            if mnemonic == "ret" or is_thunk:
                found["returns"].add("thunk" if is_thunk else "ret")
                found["behind"].add("int3" if behind == "int3" else "other")
    return found
