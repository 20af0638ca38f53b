# SPDX-License-Identifier: Apache-2.0
"""The line of a verdict in the forms that editors and build systems read. docs/OUTPUT.md promises them."""
from __future__ import annotations

import json
import re
from dataclasses import dataclass

from why.asking.program import Answer, Status, Unable, Verdict

UNNAMED, UNREADABLE, STOPPED, UNLOCKED = "<stdin>", "unreadable", "stopped", "unlocked"
SOURCE = re.compile(r"(.+):([1-9][0-9]*)")


@dataclass(frozen=True)
class Finding:
    """A verdict on a log, whose name is empty where it has none, whether it is a known deviation, and the file and line of the
    label where it is FILE:LINE."""

    verdict: Verdict
    log: str
    is_known: bool = False
    file: str = ""
    file_line: int = 0

    @property
    def message(self) -> str:
        verdict = self.verdict
        label = f" ({verdict.label})" if verdict.label and not self.file else ""
        return {"accepted": f"accepted {verdict.events} events", "refused": f"{verdict.name} at {hex(verdict.at)}{label}",
                "malformed": f"malformed line, {verdict.name}", "limit": f"limit {verdict.name}"}.get(verdict.word, verdict.name)

    @property
    def tag(self) -> str:
        number = self.verdict.number
        return {"accepted": "bbm", "refused": f"bbm rule {number}", "malformed": f"bbm cause {number}"}.get(
            self.verdict.word, f"bbm {self.verdict.word}")

    @property
    def fields(self) -> dict:
        verdict = self.verdict
        if verdict.word == "accepted":
            told = {"events": verdict.events}
        elif verdict.word in (UNREADABLE, STOPPED):
            told = {**({"line": verdict.line} if verdict.line else {}), "why": verdict.name, **self.source}
        elif verdict.word == UNLOCKED:
            told = {"line": verdict.line, "name": verdict.name, "at": hex(verdict.at), **self.source}
        elif verdict.word == "refused":
            told = {"line": verdict.line, "rule": verdict.number, "name": verdict.name, "at": hex(verdict.at), **self.source}
        else:
            told = {"line": verdict.line, **({"cause": verdict.number} if verdict.number else {}), "name": verdict.name}
        return {"verdict": verdict.word, **told, **({"log": self.log} if self.log else {})}

    @property
    def source(self) -> dict:
        """The label, and the file and line that it says."""
        label = {"label": self.verdict.label} if self.verdict.label else {}
        return {**label, **({"file": self.file, "file_line": self.file_line} if self.file else {})}


def finding_of(answer: Answer, log: str = "", is_known: bool = False) -> Finding:
    """Fails where the program's answer has no verdict: then it is none of its own."""
    verdict = answer.verdict
    if verdict is None:
        raise Unable(Status.UNABLE, f"the program ended with status {answer.status} and says `{answer.first[:80]}`, so there is no answer")
    return of_verdict(verdict, log, is_known)


def of_verdict(verdict: Verdict, log: str = "", is_known: bool = False) -> Finding:
    label = SOURCE.fullmatch(verdict.label)
    return Finding(verdict, log, is_known, label.group(1), int(label.group(2))) if label else Finding(verdict, log, is_known)


def on_a_line(text: str) -> str:
    """A text without what would end its line: a name of a file can have any bytes."""
    return "".join(repr(sign)[1:-1] if sign < " " or sign == "\x7f" else sign for sign in text)


def place_of(finding: Finding) -> str:
    """The file, and its line where one decides."""
    line = finding.file_line or finding.verdict.line
    return on_a_line(finding.file or finding.log or UNNAMED) + (f":{line}" if line else "")


def gcc(finding: Finding) -> str:
    kind = "note" if finding.verdict.word == "accepted" or finding.is_known else "error"
    return f"{place_of(finding)}: {kind}: {on_a_line(finding.message)} [{finding.tag}]"


def escaped(text: str, signs: str = "%\r\n:,") -> str:
    """A value of a workflow command, without its separators."""
    for sign in signs:
        text = text.replace(sign, f"%{ord(sign):02X}")
    return text


def data(text: str) -> str:
    """What stands behind the values of a workflow command."""
    return escaped(text, "%\r\n")


def github(finding: Finding) -> str:
    file, line = finding.file or finding.log, finding.verdict.line
    kind = "notice" if finding.verdict.word == "accepted" or finding.is_known else "error"
    place = (f"file={escaped(file)}," + (f"line={finding.file_line or line}," if line else "")) if file else ""
    return f"::{kind} {place}title={escaped(finding.tag)}::{data(finding.message)}" + (f", line {line} of the log" if line else "")


def as_json(finding: Finding) -> str:
    return json.dumps(finding.fields)


FORMS = {"gcc": gcc, "github": github, "json": as_json}


def shown(answer: Answer, log: str, form: str) -> str:
    """The verdict in one of these forms, as a line."""
    return FORMS[form](finding_of(answer, log)) + "\n"
