# SPDX-License-Identifier: Apache-2.0 OR GPL-2.0-or-later
"""Where in the guest's code an event comes from: labels by a symbol file.

A symbol file is what /proc/kallsyms or System.map has (`ADDRESS TYPE NAME` a line), or an ELF file, whose symbols nm
tells. With debug data in the ELF file a label is `file:line`, by addr2line, and else the symbol. Of a long one it is
the last 32 characters, as in emit/bbm_emit.h, or the first 32 where several functions end alike.

Symbols of a kernel also fit it where it runs at another address, as by KASLR: how far it was moved is seen at its first
exception, by where its vectors are.
"""
from __future__ import annotations

import bisect
import re
import shutil
import subprocess
from collections import Counter
from collections.abc import Iterable, Iterator

NOT_IN_A_LABEL = re.compile(r"[^A-Za-z0-9./:_-]")
LONGEST = 32
CODE = "tTwW"
# The symbol of a kernel's vectors, the bits of an address within them, and by multiples of what a kernel is moved.
VECTORS, WITHIN_VECTORS, MOVES = "vectors", 0x7ff, 0x200000
OF_HYP = "__kvm_nvhe_"  # the prefix of what KVM's hypervisor has in the kernel's symbols


class NoTool(Exception):
    """Symbols can't be read without a program."""


def label_of(text: str) -> str:
    return NOT_IN_A_LABEL.sub("_", text)[-LONGEST:]


def label_by_start(text: str) -> str:
    return NOT_IN_A_LABEL.sub("_", text)[:LONGEST]


def shown(name: str) -> str:
    return "hyp:" + name[len(OF_HYP):] if name.startswith(OF_HYP) else name


def tool(name: str) -> str | None:
    """A program of binutils that knows code of arm64, or None."""
    return next(filter(None, map(shutil.which, ("aarch64-linux-gnu-" + name, "llvm-" + name, name))), None)


def is_elf(path: str) -> bool:
    with open(path, "rb") as file:
        return file.read(4) == b"\x7fELF"


def lines_of_elf(path: str) -> list[str]:
    """The symbols of an ELF file, as lines of a map."""
    nm = tool("nm")
    if not nm:
        raise NoTool(f"the symbols of {path} can't be read, since there is no nm")
    done = subprocess.run([nm, path], stdout=subprocess.PIPE, encoding="latin-1", check=False)
    if done.returncode:
        raise NoTool(f"the symbols of {path} can't be read: {nm} ended with status {done.returncode}")
    return done.stdout.split("\n")


def code_of(lines: Iterable[str]) -> Iterator[tuple[int, str]]:
    """The symbols of code in the lines of a map: (address, name)."""
    for line in lines:
        fields = line.split()
        if len(fields) == 3 and fields[1] in CODE and not fields[2].startswith("$"):
            yield int(fields[0], 16), fields[2]


def read_symbols(path: str) -> list[tuple[int, str]]:
    if is_elf(path):
        return sorted(code_of(lines_of_elf(path)))
    with open(path, encoding="latin-1") as file:
        return sorted(code_of(file))


class Lines:
    """addr2line, as a process that is asked an address at a time."""

    def __init__(self, path: str) -> None:
        addr2line = tool("addr2line")
        self.process = subprocess.Popen([addr2line, "-e", path], stdin=subprocess.PIPE, stdout=subprocess.PIPE,
                                        text=True) if addr2line else None

    def at(self, address: int) -> str | None:
        if not self.process or not self.process.stdin or not self.process.stdout:
            return None
        self.process.stdin.write(f"{address:x}\n")
        self.process.stdin.flush()
        place = self.process.stdout.readline().split(" ")[0].strip()
        if place.startswith("??") or place.endswith(("?", ":0")):
            return None
        parts = place.split("/")
        two = "/".join(parts[-2:])
        return two if len(parts) > 1 and "." not in parts[-2] and len(two) <= LONGEST else parts[-1]


class Symbols:
    def __init__(self, path: str | None = None, functions_only: bool = False) -> None:
        self.known = read_symbols(path) if path else []
        self.addresses = [address for address, _ in self.known]
        self.lines = Lines(path) if path and is_elf(path) and not functions_only else None
        self.labels: dict[tuple[int, int, int], str] = {}
        ends = Counter(label_of(name) for name in {shown(name) for _, name in self.known} if len(name) >= LONGEST)
        self.common_ends = {end for end, count in ends.items() if count > 1}
        # How far the kernel was moved, and how far what was linked stands from where it is in memory, once they are
        # known.
        self.vectors = next((address for address, name in self.known if name == VECTORS), None)
        self.move: int | None = 0 if self.vectors is None else None
        self.shift: int | None = None

    def holds(self, address: int) -> bool:
        return bool(self.known) and self.addresses[0] <= address < self.addresses[-1] + 0x10000

    def as_linked(self, pc: int) -> int:
        return pc - (self.move or 0)

    def name(self, address: int) -> str:
        return shown(self.known[bisect.bisect(self.addresses, address) - 1][1])

    def learn(self, line: str) -> None:
        """Takes from a line of a trace where code runs, if that isn't known yet."""
        may_show_move = self.move is None and line.startswith("i") and line.endswith(" 0")
        if not self.known or line[:1] in ("", "#", "c") or not (self.shift is None or may_show_move):
            return
        fields = line.split(" ", 6)
        pc, physical = (int(field, 16) for field in fields[3:5])
        if may_show_move and self.vectors is not None:
            move = (pc & ~WITHIN_VECTORS) - self.vectors
            self.move = move if move % MOVES == 0 else None
        if self.shift is None and physical and self.holds(self.as_linked(pc)):
            self.shift = self.as_linked(pc) - physical

    def label(self, pc: int, physical: int, el: int) -> str | None:
        """The label of an instruction, or None. What runs elsewhere than it was linked for is found by where it stands
        in memory, once one instruction was learned at both."""
        key = pc, physical, el
        if key in self.labels:
            return self.labels[key]
        if el == 0:
            return "user"
        address = self.as_linked(pc)
        if not self.holds(address) and physical and self.shift is not None:
            address = physical + self.shift
        if not self.holds(address):
            return None
        text = (self.lines and self.lines.at(address)) or self.name(address)
        self.labels[key] = label_by_start(text) if label_of(text) in self.common_ends else label_of(text)
        return self.labels[key]
