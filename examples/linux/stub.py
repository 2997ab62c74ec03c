"""QEMU's side of a debugger, as far as reading and writing the guest's memory goes."""
import re
import socket

from debian import Missing

MOST = 1024         # bytes of memory in one answer


class Stub:
    def __init__(self, path: str) -> None:
        self.socket = socket.socket(socket.AF_UNIX)
        self.socket.connect(path)
        self.socket.settimeout(60)
        self.received = b""
        self.acknowledges = True
        self.ask("?")       # the guest is stopped from here on

    def ask(self, text: str) -> str:
        data = text.encode()
        self.socket.sendall(b"$%s#%02x" % (data, sum(data) & 255))
        while True:
            found = re.search(rb"\$([^#]*)#..", self.received)
            if not found:
                self.received += self.socket.recv(65536)
                continue
            self.received = self.received[found.end():]
            if self.acknowledges:
                self.socket.sendall(b"+")
            answer = found.group(1).decode("latin-1")
            if text == "?" or not answer.startswith("T"):
                return answer

    def read(self, address: int, length: int) -> bytes:
        parts = []
        for at in range(address, address + length, MOST):
            parts.append(bytes.fromhex(self.ask(f"m{at:x},{min(MOST, address + length - at):x}")))
        return b"".join(parts)

    def write(self, address: int, code: bytes) -> None:
        if self.ask(f"M{address:x},{len(code):x}:{code.hex()}") != "OK":
            raise Missing(f"{address:#x} of the guest's memory can't be overwritten")

    def leave(self) -> None:
        """The guest goes on. QEMU stops it again at whatever comes after that, be it the acknowledgement of its answer: none is sent."""
        self.acknowledges = False
        self.ask("D")
        self.socket.close()
