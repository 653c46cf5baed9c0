"""The host's end of the head's serial line: packets out, packets and text in (docs/PROTOCOL.md, Frames)."""

import os
import select
import subprocess
import time

BEGIN, END, DATA = 0x1D, 0x1E, 0x8000
PATIENCE = 60  # seconds; a head that has not answered by then does not answer


def checksum(data):
    total = 0xA1E8
    for byte in data:
        total = (total + byte) & 0xFFFF
        total = (total << 3 | total >> 13) & 0xFFFF
    return total.to_bytes(2, "little")


def stuff(data):
    bits = "".join(f"{byte:08b}" for byte in data)
    bits += "0" * (-len(bits) % 7)
    return bytes(0x80 | int(bits[i:i + 7], 2) for i in range(0, len(bits), 7))


def unstuff(stuffed, size):
    bits = "".join(f"{byte & 0x7f:07b}" for byte in stuffed)
    return bytes(int(bits[i:i + 8], 2) for i in range(0, 8 * size, 8))


def packet(sequence, body=b""):
    """A data packet as it goes on the line."""
    head = (DATA | sequence).to_bytes(4, "little") + len(body).to_bytes(2, "little")
    parts = [head] + ([body] if body else [])
    return bytes([BEGIN]) + b"".join(stuff(part + checksum(part)) for part in parts) + bytes([END])


def content(line):
    """Sequence and body of a data packet, which must be whole: nothing disturbs this line."""
    head = unstuff(line[1:11], 8)
    size = int.from_bytes(head[4:6], "little")
    body = unstuff(line[11:-1], size + 2) if size else b""
    assert checksum(head[:6]) == head[6:] and (not size or checksum(body[:-2]) == body[-2:]), line.hex()
    return head[0], body[:-2]


class Head:
    """A head under qemu. Its serial line is qemu's standard input and output."""

    def __init__(self, elf, *words):
        self.qemu = subprocess.Popen(
            ["qemu-system-riscv32", "-machine", "virt", "-bios", "none", "-display", "none", "-monitor", "none",
             "-serial", "stdio", "-kernel", str(elf), *words], stdin=subprocess.PIPE, stdout=subprocess.PIPE)
        self.bytes, self.text, self.sequence = b"", "", 0

    def __enter__(self):
        return self

    def __exit__(self, *_):
        self.qemu.kill()
        self.qemu.communicate()

    def more(self, until):
        """Waits for more bytes of the line."""
        if not select.select([self.qemu.stdout], [], [], max(0, until - time.monotonic()))[0]:
            raise TimeoutError("the head is silent")
        come = os.read(self.qemu.stdout.fileno(), 4096)
        if not come:
            raise EOFError("qemu has ended")
        self.bytes += come

    def take(self):
        """The next piece of the line: a whole packet, or text up to the next packet or to where the line ends now."""
        if self.bytes[:1] == bytes([BEGIN]):
            end = self.bytes.find(END)
            piece = self.bytes[:end + 1]
        else:
            begin = self.bytes.find(BEGIN)
            piece = self.bytes if begin < 0 else self.bytes[:begin]
        self.bytes = self.bytes[len(piece):]
        return piece

    def reply(self, until):
        """The body of the next packet. Text before it is kept."""
        while True:
            piece = self.take()
            if piece[:1] == bytes([BEGIN]):
                sequence, body = content(piece)
                assert sequence == self.sequence, (sequence, self.sequence)
                return body
            self.text += piece.decode("ascii")
            if not piece:
                self.more(until)

    def ask(self, body=b"", noise=b""):
        """Sends a message, noise in front of it, and answers the reply. With no message: asks the head to restart."""
        self.sequence = (self.sequence + 1) % 256
        self.qemu.stdin.write(noise + packet(self.sequence, body))
        self.qemu.stdin.flush()
        return self.reply(time.monotonic() + PATIENCE)

    def forget(self):
        """Forgets the whole lines of text that have come so far. One that is cut counts as a new one."""
        self.text = self.text.rpartition("\n")[2]

    def lines(self, name):
        """The lines since the last `forget` that begin with this name."""
        return [line for line in self.text.split("\n")[:-1] if line.startswith(name)]

    def line_of(self, name, count=1):
        """The count-th such line; waits for it."""
        until = time.monotonic() + PATIENCE
        while True:
            found = self.lines(name)
            if len(found) >= count:
                return found[count - 1]
            piece = self.take()
            self.text += piece.decode("ascii")
            if not piece:
                self.more(until)
