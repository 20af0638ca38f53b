# SPDX-License-Identifier: Apache-2.0
"""`findings`: every refusal of a log with its change, as a text and in the forms of docs/OUTPUT.md."""
from __future__ import annotations

import json
from collections.abc import Sequence
from dataclasses import dataclass, field
from functools import cached_property

from why.asking.program import Verdict
from why.asking.unlocks import Unlock
from why.log.lines import Log
from why.repairs.changes import Change, Put
from why.repairs.findings import Findings, Found, Stop
from why.repairs.sites import Cause
from why.telling import formats, sarif
from why.telling.answer import edit_of
from why.telling.danger import of_json, of_sarif, short
from why.telling.decoded import texts_of
from why.telling.edits import Teller
from why.telling.formats import Finding
from why.telling.known import Deviation, Met, met
from why.telling.unlocked import fields as unlock_fields
from why.telling.unlocked import said


def changes(count: int) -> str:
    """How the changes of so many findings, from the first on, are named."""
    if count < 2:
        return "with the change of finding 1" * count
    return f"with the changes of findings 1 to {count}"


@dataclass
class Item:
    """What is shown of one finding: the line that decides, the texts behind it, where its cause is, at how many
    lines, what the object of it has besides, and the change of the log, where there is one."""

    finding: Finding
    met: Met
    texts: list[str]
    before: str = ""
    cause: Finding | None = None
    times: int = 1
    fields: dict = field(default_factory=dict)
    decoded: list[str] = field(default_factory=list)
    change: Change | None = None
    known: Deviation | None = None
    found: object = None

    @property
    def often(self) -> str:
        """How often it is met, and by which line of the source."""
        if self.times == 1:
            return ""
        by = f", by the lines of @{self.cause.verdict.label}" if self.cause else ""
        return f"{self.times} times, first at line {self.finding.verdict.line}{by}"

    @property
    def altered(self) -> list[int]:
        """The lines that its change alters or moves."""
        edits = self.change.edits if self.change else ()
        return [edit.at for edit in edits if not isinstance(edit, Put) and edit.at > 1]

    @property
    def note(self) -> str:
        """The texts as one."""
        text = ", ".join(filter(None, (self.before, self.often, *self.texts)))
        return f"known, {self.known.comment}: {text}" if self.known and self.known.comment else text

    @property
    def lines(self) -> list[str]:
        """The texts, each for a line."""
        comment = [f"known: {self.known}"] if self.known else []
        return [text for text in (*comment, self.before, self.often, *self.decoded, *self.texts) if text]


def nothing_by(found: Found) -> str:
    """What is said where no change gets past a line."""
    if not found.is_cut_off:
        return "nothing of what is tried gets past it"
    return f"nothing that was tried in {found.study.effort.seconds} seconds (--seconds) gets past it"


def cause_of(cause: Cause | None, log: str) -> Finding | None:
    """The line of a cause, as what is shown of a line."""
    what = cause and f"the cause, {'behind ' * cause.is_behind}a `{cause.word}`"
    return cause and formats.of_verdict(Verdict("cause", line=cause.at, name=what, label=cause.label), log)


class Report:
    """What was found of one log, whose name is empty where it has none; which findings are known, and the lines of
    the file of known deviations that none of them meets, where these are told."""

    def __init__(self, log: Log, name: str, findings: Findings, deviations: list[Deviation], path: str = "",
                 unlocks: Sequence[Unlock] = ()):
        self.name, self.findings, self.path, self.unlocks = name, findings, path, unlocks
        self.found, self.last, self.teller = findings.found, findings.last, Teller(log)
        for item in self.items:
            item.known = met(deviations, item.met)
            item.finding = formats.of_verdict(item.finding.verdict, name, bool(item.known))
        self.unmet = [it for it in deviations if path and not any(it.meets(item.met) for item in self.items)]

    @cached_property
    def items(self) -> list[Item]:
        items = [self.item(count, one) for count, one in enumerate(self.found)]
        self.decode(items)
        return items + [self.unlocked(count, one) for count, one in enumerate(self.unlocks, len(items) + 1)]

    def decode(self, items: list[Item]) -> None:
        """Says of each finding what its line names, and those that its change alters."""
        lines = [[item.finding.verdict.line, *item.altered] for item in items]
        wanted = {at: item.finding.verdict.at for item, of in zip(items, lines) for at in of}
        told = texts_of(self.teller.log, wanted)
        for item, of in zip(items, lines):
            item.decoded = [told[at] for at in dict.fromkeys(of) if at in told]
            item.fields["decoded"] = item.decoded

    def unlocked(self, count: int, one: Unlock) -> Item:
        """What is shown of a place that is held where a lock is given back."""
        name = f"lock {one.lock} is given back before the flush of {hex(one.place)} is answered"
        unlock = Verdict(formats.UNLOCKED, line=one.line, name=name, at=one.place, label=one.label)
        clear = Verdict("cause", line=one.cleared, name="the place is cleared", label=one.cleared_label)
        known_by = Met(formats.UNLOCKED, one.label, one.place, one.line, one.cleared_label)
        return Item(formats.of_verdict(unlock, self.name), known_by, [said(one)], changes(len(self.found)),
                    formats.of_verdict(clear, self.name), fields={"finding": count, **unlock_fields(one)})

    def item(self, count: int, one: Found) -> Item:
        """What is shown of a refusal with its change."""
        refusal, cause = one.answer.refusal, cause_of(one.cause, self.name)
        texts = self.teller.repair(one.repair)[:-1] if one.repair else [nothing_by(one)]
        where = {"cause": {"line": one.cause.at, "word": one.cause.word, **cause.source}} if cause else {}
        repair = self.repair(count, one, texts) if one.repair else None
        known_by = Met(str(refusal.rule), refusal.label, refusal.at, refusal.line, one.cause.label if cause else "")
        shown = [*filter(None, [short(one.danger)]), *texts]
        return Item(formats.of_verdict(refusal, self.name), known_by, shown, changes(count), cause, one.times,
                    {"finding": count + 1, "times": one.times, **where, "repair": repair, **of_json(one.danger)},
                    change=one.repair and one.repair.change, found=one)

    def repair(self, count: int, one: Found, texts: list[str]) -> dict:
        """The change at all lines as an object, with the verdict on the log with the changes up to it."""
        whole = self.found[count + 1].answer if count + 1 < len(self.found) else self.last
        return {"edits": [edit_of(edit) for edit in one.change.edits], "told": texts,
                "whole": formats.finding_of(whole).fields}

    @property
    def status(self) -> int:
        """Known findings don't count, where the log was judged to its end."""
        return self.last.status or int(not all(item.known for item in self.items))

    def end(self) -> str:
        """Where it ends, and what the program says there."""
        if self.findings.stop in (Stop.NO_CHANGE, Stop.NO_TIME):
            return f"it stops at line {self.last.line}, and nothing behind that is judged"
        said = f"`{self.last.first}`, and nothing behind that is judged"
        said = "the whole log is accepted" if self.last.accepted else said
        return " ".join(filter(None, (changes(len(self.found)), said)))

    def text(self) -> str:
        lines = []
        for count, item in enumerate(self.items, 1):
            lines += [f"finding {count}: {self.first(item)}", *(f"  {text}" for text in item.lines)]
        lines += [f"unmet line {it.line} of {self.path}: {it}" for it in self.unmet]
        known = sum(bool(item.known) for item in self.items)
        lines.append(f"findings {len(self.items)}{f', {known} known' * bool(known)}: {self.end()}")
        return "".join(f"{line}\n" for line in lines)

    def first(self, item: Item) -> str:
        verdict = item.finding.verdict
        label = f" @{verdict.label}" if verdict.label else ""
        return item.found.answer.first if item.found else f"unlocked line {verdict.line} at {hex(verdict.at)}{label}"

    # ---- forms

    @cached_property
    def ends(self) -> list[tuple[Finding, str]]:
        """What is shown of the end with its note: that the log is accepted, where there is no finding; a line that
        can't be judged; or that the search stops."""
        if self.findings.stop in (Stop.NO_CHANGE, Stop.NO_TIME, Stop.MOST):
            why = f"nothing behind this line is judged: {self.findings.stop.value}"
            stopped = Verdict(formats.STOPPED, line=self.last.line, name=why, label=self.last.verdict.label)
            return [(formats.of_verdict(stopped, self.name), "")]
        if self.findings.stop or not self.items:
            return [(formats.finding_of(self.last, self.name), changes(len(self.found)))]
        return []

    def gcc(self) -> str:
        note = lambda finding, said: f"{formats.place_of(finding)}: note: {formats.on_a_line(said)} [bbm]"
        at_cause = lambda cause: note(cause, f"{cause.message}, line {cause.verdict.line} of the log")
        lines = []
        for item in self.items:
            lines += [formats.gcc(item.finding), note(item.finding, item.note)]
            lines += [at_cause(item.cause)] if item.cause else []
        for finding, said in self.ends:
            lines += [formats.gcc(finding), *([note(finding, said)] if said else [])]
        path = formats.on_a_line(self.path)
        lines += [f"{path}:{it.line}: note: no finding meets {formats.on_a_line(str(it))} [bbm]" for it in self.unmet]
        return "".join(f"{line}\n" for line in lines)

    def github(self) -> str:
        told = [(item.finding, ", ".join(filter(None, (item.note, self.cause_told(item))))) for item in self.items]
        lines = [formats.github(finding) + (f": {formats.data(said)}" if said else "")
                 for finding, said in (*told, *self.ends)]
        place = lambda it: f"file={formats.escaped(self.path)},line={it.line}"
        lines += [f"::notice {place(it)},title=bbm::no finding meets {formats.data(str(it))}" for it in self.unmet]
        return "".join(f"{line}\n" for line in lines)

    def cause_told(self, item: Item) -> str:
        return f"{item.cause.message} at {formats.place_of(item.cause)}" if item.cause and item.cause.file else ""

    def objects(self) -> list[dict]:
        """One for each finding, and for what is shown of the end."""
        known = lambda item: {"known": item.known.comment} if item.known else {}
        objects = [{**item.finding.fields, **item.fields, **known(item)} for item in self.items]
        objects += [finding.fields for finding, _ in self.ends]
        unmet = lambda it: {"verdict": "unmet", "text": str(it), "file": self.path, "file_line": it.line}
        return [*objects, *map(unmet, self.unmet)]

    def json(self) -> str:
        return "".join(json.dumps(it) + "\n" for it in self.objects())

    def sarif(self) -> str:
        fix = lambda item: item.change and sarif.fix_of(item, self.teller.log)
        more = lambda item: of_sarif(item.found.danger) if item.found else {}
        results = [{**sarif.result_of(item.finding, item.note, item.known, item.cause, fix(item)), **more(item)}
                   for item in self.items]
        ends = [(finding, note) for finding, note in self.ends if finding.verdict.line]
        results += [sarif.result_of(finding, note) for finding, note in ends]
        return sarif.text_of(results, [sarif.notification_of(finding, note) for finding, note in ends])


FORMS = {"": Report.text, "gcc": Report.gcc, "github": Report.github, "json": Report.json, "sarif": Report.sarif}
