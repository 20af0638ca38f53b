# SPDX-License-Identifier: Apache-2.0 OR GPL-2.0-or-later
"""A line of a trace. bbm_trace.c says what each is."""
from __future__ import annotations

from converter.worlds import Kind

FROM_BELOW = 0x400  # the half of the vectors that an exception from a lower EL takes


class Record:
    """`OP PE EL PC PHYSICAL-PC REST..`, or `c INDEX VALUE`, whose fields are read alone. A field is read when it is
    asked for, since most lines are barriers of which little is."""

    __slots__ = ("fields",)

    def __init__(self, line: str) -> None:
        self.fields = line.split()

    @property
    def pe(self) -> str:
        return self.fields[1]

    @property
    def el(self) -> int:
        return int(self.fields[2])

    @property
    def pc(self) -> int:
        return int(self.fields[3], 16)

    @property
    def physical_pc(self) -> int:
        return int(self.fields[4], 16)

    @property
    def code(self) -> int:
        """Where its code is, by the number of its page."""
        return self.pc >> 12

    def word(self, at: int) -> str:
        """A field of the rest."""
        return self.fields[5 + at]

    def value(self, at: int) -> int:
        """A field of the rest, in hex."""
        return int(self.fields[5 + at], 16)

    def number(self, at: int) -> int:
        """A field of the rest, in decimal."""
        return int(self.fields[5 + at])

    def kind(self, at: int) -> Kind:
        """A field of the rest, as the register through which a tree was found."""
        return Kind(self.number(at))

    def was_trapped(self) -> bool:
        """Whether it is a write of a register of EL2 below EL2, which wrote nothing."""
        return self.word(0).endswith("_el2") and self.el < 2

    def came_from_below(self) -> bool:
        """Whether it is an exception to EL2 from a lower EL, by which half of the vectors it was taken."""
        is_exception = self.fields[0] == "i" and self.fields[2] == "2" and self.fields[5:6] == ["0"]
        return is_exception and self.pc & FROM_BELOW != 0
