"""A machine of QEMU, driven by its qtest protocol: memory, registers, PCI configuration and the clock."""

import mmap
import os
import re
import select
import socket
import struct
import subprocess
import time

RAM = 64 << 20
ECAM = 0xB0000000
HALT = b"\xfa\xf4\xeb\xfd"  # cli; hlt; and again: all that the processor does


class Gone(Exception):
    """The machine, or a device that is outside of it, doesn't answer any more."""


def version(program):
    """The version that QEMU says of itself, as (10, 0, 13)."""
    said = subprocess.run([program, "--version"], capture_output=True, text=True, check=True).stdout
    return tuple(int(part) for part in re.search(r"version (\d+)\.(\d+)\.(\d+)", said).groups())


def options_of(program, device):
    """The names of the properties that a device has in this QEMU."""
    words = [program, "-machine", "q35", "-device", f"{device},help"]
    said = subprocess.run(words, capture_output=True, text=True).stdout
    return set(re.findall(r"^\s+([\w-]+)=", said, re.MULTILINE))


def has_qtest_clock(program):
    """Whether this QEMU has qtest's accelerator, by which a test moves the clock. Else time is that of the world."""
    words = [program, "-machine", "q35", "-accel", "qtest", "-display", "none", "-S", "-monitor", "stdio"]
    said = subprocess.run(words, input="quit\n", capture_output=True, text=True)
    return said.returncode == 0


def listener(path):
    """A socket that waits for QEMU to come."""
    it = socket.socket(socket.AF_UNIX)
    it.bind(path)
    it.listen(1)
    return it


class Machine:
    """A run of QEMU. A party is what it talks to beside the test: it has `sockets()` and `ready(socket)`."""

    def __init__(self, program, words, folder, parties, clock):
        self.parties, self.clock, self.rest, self.answers = parties, clock, b"", []
        with open(f"{folder}/ram", "wb") as ram:
            ram.truncate(RAM)
        with open(f"{folder}/ram", "r+b") as ram:
            self.memory = mmap.mmap(ram.fileno(), RAM)
        with open(f"{folder}/rom", "wb") as rom:
            rom.write(b"\xf4" * 0xFFF0 + HALT.ljust(16, b"\xf4"))
        waiting = listener(f"{folder}/qtest")
        command = [program, "-nodefaults", "-display", "none", "-m", "64", "-bios", f"{folder}/rom"]
        command += ["-object", f"memory-backend-file,id=ram,size=64M,mem-path={folder}/ram,share=on"]
        command += ["-accel", "qtest" if clock else "tcg", "-qtest", f"unix:{folder}/qtest", "-qtest-log", "none"]
        self.told = open(f"{folder}/told", "w+b")
        self.process = subprocess.Popen(command + words, stdin=subprocess.DEVNULL, stdout=self.told, stderr=self.told)
        try:
            self.wait(lambda: select.select([waiting], [], [], 0)[0], 30, [waiting])
            self.socket = waiting.accept()[0]
        finally:
            waiting.close()
        self.open_ecam()

    # -- the protocol

    def wait(self, over, seconds, more=()):
        """Serves all parties until `over()` holds, or so long. Says whether it holds."""
        end = time.monotonic() + seconds
        while not over():
            left = end - time.monotonic()
            if left <= 0:
                return False
            if self.process.poll() is not None:
                raise Gone(f"QEMU has ended: {self.words_told()}")
            sockets = {it: party for party in self.parties for it in party.sockets()}
            own = [self.socket] if hasattr(self, "socket") else []
            for it in select.select([*sockets, *own, *more], [], [], min(left, 0.5))[0]:
                if it in sockets:
                    sockets[it].ready(it)
                elif it in own:
                    self.take()
        return True

    def take(self):
        """Takes what has come over qtest's socket."""
        came = self.socket.recv(65536)
        if not came:
            raise Gone(f"QEMU has gone: {self.words_told()}")
        *lines, self.rest = (self.rest + came).split(b"\n")
        self.answers += [line.decode() for line in lines if not line.startswith(b"IRQ")]

    def begin(self, command):
        """Sends a command whose answer is awaited later: its effects may need others to act."""
        self.socket.sendall(f"{command}\n".encode())

    def ended(self, seconds=0.0):
        """Whether the answer of the command that was begun is there, or comes within so long."""
        return self.wait(lambda: self.answers, seconds)

    def end(self, command=""):
        """The answer of the command that was begun."""
        if not self.ended(30):
            raise Gone(f"QEMU doesn't answer {command!r}")
        answer = self.answers.pop(0).split()
        if answer[:1] != ["OK"]:
            raise Gone(f"QEMU answers {command!r} by {answer}")
        return int(answer[1], 16) if len(answer) > 1 and answer[1].startswith("0x") else None

    def ask(self, command):
        self.begin(command)
        return self.end(command)

    def ask_all(self, commands):
        """Asks all at once, which costs one way to QEMU and back."""
        self.begin("\n".join(commands))
        return [self.end(command) for command in commands]

    def read(self, at, size=4):
        return self.ask(f"read{'bwlq'[size.bit_length() - 1]} {at:#x}")

    def write(self, at, value, size=4):
        self.ask(f"write{'bwlq'[size.bit_length() - 1]} {at:#x} {value:#x}")

    def step(self, milliseconds, first=()):
        """Lets so much time pass in the machine, behind some commands."""
        if self.clock:
            self.ask_all([*first, f"clock_step {milliseconds * 1000000}"])
        else:
            self.ask_all(first)
            self.wait(lambda: False, milliseconds / 1000)

    # -- memory, which the machine shares

    def load(self, at):
        return struct.unpack_from("<Q", self.memory, at)[0]

    def store(self, at, *values):
        struct.pack_into(f"<{len(values)}Q", self.memory, at, *values)

    # -- PCI configuration

    def open_ecam(self):
        """All of a function's configuration is in memory from now on, also what is behind its first 256 bytes."""
        self.ask(f"outl 0xcf8 {0x80000060:#x}")
        self.ask(f"outl 0xcfc {ECAM | 1:#x}")

    def config(self, sid, at):
        return ECAM + (sid << 12) + at

    def capability(self, sid, wanted, extended=False):
        """The places of a function's capabilities of this number."""
        at, found = (0x100 if extended else self.read(self.config(sid, 0x34), 1)), []
        while at:
            head = self.read(self.config(sid, at))
            if head & (0xFFFF if extended else 0xFF) == wanted:
                found.append(at)
            at = head >> 20 if extended else head >> 8 & 0xFF
        return found

    def bridge(self, sid, bus, base):
        """A root port leads to a bus, and to a megabyte of memory behind it."""
        self.write(self.config(sid, 0x18), bus << 16 | bus << 8)
        self.write(self.config(sid, 0x20), base >> 16 & 0xFFF0 | base & 0xFFF00000)
        self.write(self.config(sid, 0x04), 6, 2)

    # -- the end

    def words_told(self):
        self.told.seek(0)
        return self.told.read().decode("utf-8", "replace").strip()[-3000:]

    def close(self):
        self.process.kill()
        self.process.wait()
        self.told.close()
        if hasattr(self, "socket"):
            self.socket.close()
        self.memory.close()


def scratch(folder, name):
    """A new folder of its own for one machine."""
    path = os.path.join(folder, name)
    os.mkdir(path)
    return path
