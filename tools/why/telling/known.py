# SPDX-License-Identifier: Apache-2.0
"""Known deviations: a file with a rule and a label or place on each line, and the label of the cause, which findings
meet (docs/WHY.md)."""
from __future__ import annotations

import re
from collections.abc import Iterable
from dataclasses import dataclass

from why.asking.program import Status, Unable
from why.log.stream import faults
from why.telling import files

LABEL = r"@[A-Za-z0-9./:_-]{1,32}"
FORM = re.compile(rf"([0-9]{{1,2}}|unlocked) ({LABEL}|0x[0-9a-f]{{1,16}})(?: ({LABEL}))?(?:\s+#\s*(.*))?")


@dataclass(frozen=True)
class Met:
    """What a line of the file has to say of a finding: the rule by its number, or a word; the label of the make and
    its place; and the label of the cause, empty where there is none."""

    rule: str
    label: str
    place: int
    line: int
    cause: str = ""

    @property
    def at(self) -> str:
        return f"@{self.label}" if self.label else hex(self.place)


@dataclass(frozen=True)
class Deviation:
    """A line of the file, with its number there."""

    line: int
    rule: str
    at: str
    cause: str = ""
    comment: str = ""

    def meets(self, finding: Met) -> bool:
        """Whether the finding is this one. A line without a cause meets each cause."""
        is_at = self.at in (f"@{finding.label}", hex(finding.place))
        return self.rule == finding.rule and is_at and self.cause in ("", f"@{finding.cause}")

    @property
    def key(self) -> str:
        """The line without its comment."""
        return " ".join(filter(None, (self.rule, self.at, self.cause)))

    def __str__(self) -> str:
        return self.key + (f" # {self.comment}" if self.comment else "")


def deviation_of(path: str, number: int, text: str) -> Deviation:
    """Fails where the line has another form."""
    found = FORM.fullmatch(text)
    if not found:
        raise Unable(Status.UNABLE, f"{path}: line {number} isn't `RULE @LABEL` or `RULE PLACE`, and `@CAUSE` and "
                                    "`# COMMENT` behind it, so there is no answer")
    rule = str(int(found.group(1))) if found.group(1).isdigit() else found.group(1)
    return Deviation(number, rule, *(part or "" for part in found.groups()[1:]))


def read(path: str) -> list[Deviation]:
    """The deviations of a file. Lines that are empty, or a comment alone, are none."""
    with faults(path, Status.UNABLE), open(path, encoding="utf-8", errors="surrogateescape") as file:
        lines = [(number, line.strip()) for number, line in enumerate(file, 1)]
    return [deviation_of(path, number, text) for number, text in lines if text and not text.startswith("#")]


def met(deviations: Iterable[Deviation], finding: Met) -> Deviation | None:
    return next((one for one in deviations if one.meets(finding)), None)


def write(path: str, findings: Iterable[Met], deviations: list[Deviation], log: str) -> None:
    """A line for each rule at each label, or place where there is no label, by each cause; one that is known stays as
    it is."""
    lines: dict[str, str] = {}
    for finding in findings:
        said = re.sub(r"\s", " ", log) or "the log"
        cause = f"@{finding.cause}" if finding.cause else ""
        new = Deviation(0, finding.rule, finding.at, cause, f"line {finding.line} of {said}")
        one = met(deviations, finding) or new
        lines.setdefault(one.key, f"{one}\n")
    files.write(path, "".join(lines.values()))


def joined(texts: Iterable[str]) -> str:
    """One file of these: a line for each rule, label or place, and cause."""
    lines: dict[str, str] = {}
    for text in texts:
        for line in filter(None, text.split("\n")):
            lines.setdefault(line.partition("#")[0].strip(), f"{line}\n")
    return "".join(lines.values())
