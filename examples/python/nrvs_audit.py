#!/usr/bin/env python3
r"""The proved audit from Python: nrvs_audit.py LIBRARY FILE.. prints the verdict on each trace. A file whose name ends in .chain is a chain of
segments: it is read in pieces, each segment is judged as it comes, and a wrong one is explained. LIBRARY is a shared object over the
archive, with its path:

    cc -shared -fPIC -O2 -I include -o libnrvs_audit.so examples/python/heap.c \
        -Wl,--whole-archive crates/nrvs_audit_c/out/libnrvs_audit_c.a -Wl,--no-whole-archive
"""
import ctypes
import sys

RIGHT, WRONG, MORE, NO_MEMORY = range(4)        # include/nrvs_audit.h


class Finding(ctypes.Structure):
    _fields_ = [(name, ctypes.c_uint32) for name in ("fault", "format", "index", "replica")] + [
        ("number", ctypes.c_uint64), ("calls", ctypes.c_size_t)]


class Handle(ctypes.Structure):
    _fields_ = [("magic", ctypes.c_uint64), ("at", ctypes.c_void_p)]


def audit(library, trace):
    """The order of the calls where the trace is right, else its first fault (include/nrvs_audit.h)."""
    finding, order = Finding(), (ctypes.c_uint32 * 131072)()
    status = library.nrvs_audit(trace, ctypes.c_size_t(len(trace)), order, ctypes.c_size_t(len(order)), ctypes.byref(finding))
    if status == NO_MEMORY:
        raise MemoryError
    return order[:finding.calls] if status == RIGHT else finding


class Chain:
    """A chain of segments that is judged as it comes. Used in a `with`, which frees it, by one thread."""

    def __init__(self, library):
        self.library, self.handle, self.order = library, Handle(), (ctypes.c_uint32 * 131072)()

    def call(self, name, *words):
        status = getattr(self.library, "nrvs_audit_chain_" + name)(ctypes.byref(self.handle), *words)
        if status == NO_MEMORY:
            raise MemoryError
        if status > NO_MEMORY:
            raise ValueError(f"{name}: status {status}")
        return status

    def __enter__(self):
        self.call("new", ctypes.c_bool(True))
        return self

    def __exit__(self, *_):
        self.library.nrvs_audit_chain_free(ctypes.byref(self.handle))

    def feed(self, piece):
        """Yields the order of the calls of each segment that ends in the piece and is right, and then its fault, if one has a fault."""
        while piece:
            finding, taken = Finding(), ctypes.c_size_t()
            status = self.call("feed", piece, ctypes.c_size_t(len(piece)), self.order, ctypes.c_size_t(len(self.order)),
                               ctypes.byref(finding), ctypes.byref(taken))
            if status != MORE:
                yield self.order[:finding.calls] if status == RIGHT else finding
            if status != RIGHT:
                return
            piece = piece[taken.value:]

    def end(self):
        """None where the chain is right, else the fault at its end."""
        finding = Finding()
        return None if self.call("end", ctypes.byref(finding)) == RIGHT else finding

    def explanation(self):
        """The lines of the explanation of its verdict."""
        length = ctypes.c_size_t()
        self.call("explain", ctypes.c_bool(False), None, ctypes.c_size_t(0), ctypes.byref(length))
        text = ctypes.create_string_buffer(length.value)
        self.call("explain", ctypes.c_bool(False), text, length, ctypes.byref(length))
        return text.raw.decode()


def said_of(order_or_fault):
    if isinstance(order_or_fault, Finding):
        return f"no {order_or_fault.fault}"
    return " ".join(["yes"] + [str(call) for call in order_or_fault])


def say_chain(library, file):
    """Prints a line for each segment, and what explains the first wrong one."""
    with Chain(library) as chain:
        wrong = False
        while not wrong and (piece := file.read(4096)):
            for said in chain.feed(piece):
                print(said_of(said))
                wrong = isinstance(said, Finding)
        if wrong or chain.end():
            print(chain.explanation(), end="")


if __name__ == "__main__":
    audit_library = ctypes.CDLL(sys.argv[1])
    for name in sys.argv[2:]:
        with open(name, "rb") as opened:
            if name.endswith(".chain"):
                say_chain(audit_library, opened)
            else:
                print(said_of(audit(audit_library, opened.read())))
