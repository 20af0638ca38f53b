# SPDX-License-Identifier: Apache-2.0 OR GPL-2.0-or-later
"""What has to be known of a trace before its first line is told."""
from __future__ import annotations

import re
from collections import Counter, defaultdict
from collections.abc import Collection, Sequence

from converter import normalisations
from converter.ending import Status, Unjudged, unreadable
from converter.forms import Form, Start, asid_register, stage1_levels, stage2_start
from converter.guests import Guests
from converter.records import Record
from converter.worlds import Kind, World
from symbols import Symbols

ANY_PE = "any"
HEADED = "rwmd"  # the lines by which a header is found


class Facts:
    """What the header, and the kind of some roots, need; gathered over the trace, or over its first part. `guests` has
    what is known of guests."""

    def __init__(self, world: World, symbols: Symbols, is_whole: bool = False) -> None:
        self.world, self.symbols, self.guests = world, symbols, Guests(is_whole)
        self.pes, self.cnp, self.records, self.is_complete = 1, False, 0, False
        self.written: set[int] = set()
        # The line at which a snapshot begins, and the form of roots there, and where the first root is loaded.
        self.start: int | None = None
        self.form_at_start: Form | None = None
        self.first_form: Form | None = None
        # The registers that say of which form roots are, and how those start that were loaded without them.
        self.controls: dict[str, int] = {}
        self.stage2: Start | None = None
        self.starts: defaultdict[Kind, Counter[Start]] = defaultdict(Counter)

    def learn(self, index: int, line: str) -> None:
        """Takes where code runs, which a line may tell once the log has begun."""
        try:
            self.symbols.learn(line)
        except (LookupError, ValueError) as error:
            raise unreadable(index, line) from error

    def take(self, index: int, line: str) -> None:
        """Takes what a line tells of the whole trace, and where code runs."""
        self.learn(index, line)
        shows_use = self.guests.is_whole and self.world.is_hyp
        try:
            if line[0] == "#":
                self.add_remark(line)
            elif line[0] in HEADED or (shows_use and line[0] != "c"):
                record = Record(line)
                self.add(index, line[0], record)
                if shows_use:
                    self.guests.add_use(index, record)
        except (LookupError, ValueError) as error:
            raise unreadable(index, line) from error

    def add_remark(self, line: str) -> None:
        found = re.search(r"PEs (\d+)", line)
        self.pes = int(found.group(1)) if found else self.pes

    def add(self, index: int, op: str, record: Record) -> None:
        if op in "rd":
            self.guests.add_root(index, record.value(0))
        if op == "r":
            self.starts[record.kind(2)][Start(max(0, record.number(1)), record.number(3))] += 1
        elif op == "w":
            self.written.add(record.value(0) & ~4095)
            if record.number(3) == Kind.VTTBR_EL2:
                self.guests.add_store(index, record.code, record.value(4))
        elif op == "m":
            self.add_register(index, record)

    def add_register(self, index: int, record: Record) -> None:
        pe, name, value = record.pe, record.word(0), record.value(1)
        if record.was_trapped():
            return
        if name == "hcr_el2":
            self.guests.add_hcr(pe, value)
        if name == "vttbr_el2":
            self.guests.add_load(index, pe, value)
        if name == "vtcr_el2":
            self.stage2 = stage2_start(value) or self.stage2
        if name == self.world.control:
            self.controls[pe] = self.controls[ANY_PE] = value
        if name in self.world.registers and record.el == self.world.el:
            self.add_root_register(index, pe, name, value)

    def add_root_register(self, index: int, pe: str, name: str, value: int) -> None:
        self.cnp = self.cnp or bool(value & 1)
        if self.first_form is None and self.is_known():
            self.first_form = self.form(pe)
        if self.start is None and self.begins(pe, name, value):
            self.start, self.form_at_start = index, self.form(pe)

    def count(self, line: str) -> None:
        """Takes any line for what the end of the trace says of it."""
        if line[:1] != "#":
            self.records += line[:1] != "c"
            return
        self.is_complete = self.is_complete or line.startswith("# end")
        found = re.match(r"# told: (\d+) records", line)
        if found and int(found.group(1)) != self.records:
            raise Unjudged(Status.DAMAGED,
                           f"the trace has {self.records} records, and says that it has {found.group(1)}")

    def is_known(self) -> bool:
        """Whether a root is loaded, and the registers say what the header has to have of roots."""
        loaded = [kind for kind in self.world.kinds if kind in self.starts]
        return bool(loaded and (self.controls or loaded == [Kind.VTTBR_EL2]) and (self.stage2 or not self.world.is_hyp))

    def form(self, pe: str = ANY_PE) -> Form:
        """The form of roots by the registers as a PE has them now; what they don't say is that of most roots."""
        control = self.controls.get(pe, self.controls.get(ANY_PE))
        if control is None:
            found = [0, *(self.most(kind, Start(0, 1)).level for kind in self.world.kinds)]
            first, second = found[-2:]
        else:
            first, second = stage1_levels(control)
        if not self.world.is_hyp:
            return Form((first, second), 1, self.asid_register(pe))
        stage2 = self.stage2 or self.most(Kind.VTTBR_EL2, Start(1, 1))
        return Form((first, stage2.level), stage2.pages, None)

    def asid_register(self, pe: str) -> str:
        return asid_register(self.controls.get(pe, self.controls.get(ANY_PE, 0)))

    def begins(self, pe: str, name: str, value: int) -> bool:
        """Whether a write of a register loads the first process, or guest."""
        if self.world.is_hyp:
            return name == "vttbr_el2" and value != 0
        return self.world.registers[name].word == self.asid_register(pe) + "_el1" and value >> 48 != 0

    def header(self, allow: Collection[str]) -> str:
        """The header, with the words that are allowed."""
        words = ["cnp"] * (self.cnp and "no-cnp" not in allow)
        words += [word for word in normalisations.WORDS if word in allow]
        form = self.form_at_start if "snapshot" in allow else self.first_form
        return (form or self.form()).header(self.pes, words)

    def most(self, kind: Kind, otherwise: Start) -> Start:
        """How most roots of a kind start."""
        return self.starts[kind].most_common(1)[0][0] if kind in self.starts else otherwise


def facts_of(world: World, symbols: Symbols, lines: Sequence[str]) -> Facts:
    facts = Facts(world, symbols, is_whole=True)
    for index, line in enumerate(lines):
        facts.take(index, line)
        facts.count(line)
    facts.guests.end()
    return facts
