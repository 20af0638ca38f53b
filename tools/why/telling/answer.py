# SPDX-License-Identifier: Apache-2.0
"""`why`: a refusal with its small log, what would do, a run, its lanes and its rule, as one text, and as JSON (docs/OUTPUT.md)."""
from __future__ import annotations

import json
import textwrap
from collections.abc import Callable
from dataclasses import dataclass, field
from functools import cached_property

from why.asking import runs
from why.asking.danger import Danger, asked_lines, danger_of
from why.asking.least import BREAK_BEFORE_MAKE
from why.asking.program import Answer
from why.log.lines import Line, Lines, written
from why.log.stream import Source
from why.repairs.changes import Drop, Edit, Move, Put
from why.repairs.premises import PREMISES, Premise, under
from why.repairs.strictness import LINK
from why.repairs.study import Repair, Study, Studying, positions
from why.telling import decoded, lanes
from why.telling.danger import heading, of_json, texts_of
from why.telling.edits import Teller
from why.telling.faults import fault_of, plain
from why.telling.formats import Finding, finding_of
from why.telling.rules import cause_of, rule_of
from why.telling.style import BOLD, Style, ranges

TOO_MANY = 400
# The part of the time in which the lines are found that a run needs.
SHARE = 0.2


@dataclass
class Views:
    """The run and the lanes of a study, made once for all forms."""

    told: runs.Told | None
    no_run: str
    chart: lanes.Chart
    danger: Danger | None


def told_run(study: Study, danger: Danger | None = None) -> tuple[runs.Told | None, str]:
    """The run that the program has, or by rule 4 that which was tried, over the lines that it needs; or None, and what
    is said of that."""
    if not study.program.has(runs.COMMAND):
        return None, f"this program has no command `{runs.COMMAND}`"
    small, tried = [line.at for line in study.small], danger and study.refusal.rule == BREAK_BEFORE_MAKE
    try:
        asked = study.log.lines(asked_lines(study.shrinker) or sorted({*small, *study.loading}))
        found = runs.run_of(study.program, written(study.header, asked))
    except runs.Beyond as limit:
        return None, f"unknown, the program says `{limit}`"
    told = runs.Told(asked, found) if found else danger.told if tried else None
    if told is None:
        return None, "the program has none for this log"
    is_over = study.effort.behind(SHARE)
    told = runs.least_of(told, study.shrinker, small, is_over)
    study.cut_off += ["the run has lines that it may not need"] * is_over()
    return told, ""


def shown_lines(study: Study, told: runs.Told | None, whole: bool) -> Lines:
    """The lines of the lanes: the small log and what the run takes besides; or where that is asked for all lines up to
    the refused one. Where they are too many, as where time ended before they were few, the small log alone, and of
    that the refused line."""
    all_lines = study.log.lines(range(2, study.refusal.line + 1)) if whole and study.refusal.line <= TOO_MANY else ()
    choices = [all_lines, told.lines if told and not whole else (), study.small]
    return next((lines for lines in choices if 0 < len(lines) <= TOO_MANY), study.small[-1:])


def views_of(study: Study, whole: bool) -> Views:
    """The lanes follow the old entry of the first place that the refusal is about."""
    danger = danger_of(study.program, study.log, study.refusal, study.shrinker)
    told, no_run = told_run(study, danger)
    lines = shown_lines(study, told, whole)
    chart = lanes.chart_of(study.program, study.header, lines, study.refusal, next(iter(study.scene.places), None))
    chart, walked = decoded.marked(chart, study.log), set()
    if told and lines is told.lines:
        chart.entries = told.lives()
        first = told.entries[0]
        chart.rows[first.row - 1].note = f"then PE {first.pe} walks"
        walked = {chart.rows[first.row - 1].line.at}
    return Views(told, no_run, chart if whole else chart.folded(positions(study.repairs) | walked), danger)


# ---- as text

def wrapped(text: str, style: Style, first: str = "  ", later: str = "    ") -> str:
    return textwrap.fill(text, style.width, initial_indent=first, subsequent_indent=later, break_long_words=False,
                         break_on_hyphens=False)


@dataclass
class Parts:
    """The parts of the answer, made from a study, each the lines of a text whose first is the heading."""

    study: Study
    views: Views | None
    style: Style
    teller: Teller = field(init=False)

    def __post_init__(self):
        self.teller = Teller(self.study.log)

    def head(self, text: str) -> str:
        return self.style.painted(text, BOLD)

    def small(self) -> list[str]:
        study = self.study
        count, whole = len(study.small), study.refusal.line - 1
        title = f"The small log: {count} of {whole} events; the last is refused alike"
        digits = len(str(study.refused.at))
        lines = [f"  {1:>{digits}}  {study.header}", *(f"  {line.at:>{digits}}  {line.text}" for line in study.small)]
        return [self.head(title), *lines]

    def held(self) -> list[str]:
        """What still holds at the refused line."""
        refusal = self.study.refusal
        title = f"What maps or mapped the page {hex(refusal.at)}, by bbm" if self.study.scene.is_about_leaves \
            else f"What is still held before line {refusal.line}, by bbm"
        told = [wrapped(one.told, self.style) for one in self.study.held]
        return [self.head(title), *told] if told else []

    def danger(self) -> list[str]:
        """Whether the refusal is real."""
        danger, refusal = self.views.danger, self.study.refusal
        told = [wrapped(text, self.style) for text in texts_of(danger, refusal)] if danger else []
        return [self.head(heading(danger, refusal)), *told] if danger else []

    def repair(self, count: int) -> list[str]:
        """The repair of this number, the first with the heading before it."""
        first, *more = self.teller.repair(self.study.repairs[count - 1])
        head = [self.head("What would do, tried and judged by bbm")] if count == 1 else []
        return [*head, wrapped(first, self.style, f"  {count}. ", "     "),
                *(wrapped(text, self.style, "     ", "     ") for text in more)]

    def repairs(self) -> list[str]:
        count = len(self.study.repairs)
        return [text for number in range(1, count + 1) for text in self.repair(number)] or \
            [self.head("What would do: nothing of what is tried (docs/WHY.md)")]

    def furthest(self) -> list[str]:
        """Where nothing does, the change that gets furthest."""
        furthest = self.study.furthest
        told = self.teller.stopped(furthest, self.study.refusal) if furthest else []
        return [self.head("What gets furthest, by bbm"), *(wrapped(text, self.style) for text in told)] if told else []

    def cut_off(self) -> list[str]:
        """What the time cut off."""
        told = [wrapped(text, self.style) for text in self.study.cut_off]
        return [self.head(f"Cut off after {self.study.effort.seconds} seconds (--seconds)"), *told] if told else []

    def stricter(self) -> list[str]:
        """Which of the cases it is in which `bbm` is stricter than the architecture."""
        told = [wrapped(f"{text} ({LINK})", self.style) for text in self.study.stricter]
        return [self.head("Here bbm is stricter than the architecture"), *told] if told else []

    @cached_property
    def by_premise(self) -> dict[Premise, Repair | None]:
        return {premise: under(premise, self.study.repairer) for premise in PREMISES}

    def premise(self) -> list[str]:
        """What a word of the header would change that is a premise. No rule has two."""
        return [text for premise, repair in self.by_premise.items() if repair for text in (
            self.head(premise.heading), *(wrapped(text, self.style) for text in (*self.teller.repair(repair), premise.when)))]

    def run(self) -> list[str]:
        told = self.views.told
        if told is None:
            return [self.head(f"A run that goes wrong: {self.views.no_run}")]
        small = {line.at for line in self.study.small}
        more = [line.at for line in told.lines if line.at not in small]
        also = [f"over the small log and line{'s' if len(more) > 1 else ''} {ranges(more, ', ')} besides"] if more else []
        return [self.head("A run that goes wrong"), *(wrapped(text, self.style) for text in [*also, *told.told()])]

    def lanes(self) -> list[str]:
        chart = self.views.chart
        shown = f"; how long an old entry of {hex(chart.place)} may live there" if chart.phases else ""
        return [self.head(f"Lanes: a column a PE{shown}"), *lanes.Text(chart, self.style).lines()]

    def rule(self) -> list[str]:
        rule = rule_of(self.study.refusal.rule)
        if rule is None:
            return []
        told = [rule.sentence, f"The usual bug: {rule.bug}", f"Right: {rule.right}"]
        return [self.head(f"Rule {rule.number} {rule.name} (docs/RULES.md)"), *(wrapped(text, self.style, later="  ") for text in told)]


class Saying:
    """Says the answer part by part, as it is found."""

    def __init__(self, answer: Answer, style: Style, emit: Callable[[str], None]):
        self.answer, self.style, self.emit = answer, style, emit

    def say(self, *parts: list[str]) -> None:
        self.emit("".join("\n" + "\n".join([*part, ""]) for part in parts if part))

    def all_of(self, studying: Studying, whole: bool) -> Parts:
        self.emit(self.answer.first + "\n")
        parts = Parts(studying.study, None, self.style)
        self.say(parts.small(), parts.held(), decoded.part(parts))
        for count, _ in enumerate(studying.found(), 1):
            self.emit("\n" * (count == 1) + "\n".join([*parts.repair(count), ""]))
        parts.views = views_of(studying.ended(), whole)
        self.say([] if parts.study.repairs else parts.repairs(), parts.furthest(), parts.cut_off(), parts.premise(),
                 parts.stricter(), parts.danger(), parts.run(), parts.lanes(), parts.rule())
        return parts


def other_answer(answer: Answer, source: Source) -> str:
    """What is said of a log that no rule refuses: the program's line, for a malformed one the line itself, and what is wrong in it."""
    verdict = answer.verdict
    told = []
    if verdict and verdict.word == "malformed":
        line, why = source.line(verdict.line), cause_of(verdict.name)
        shown = (line or b"")[:200].decode("latin-1").encode("unicode_escape").decode("ascii")
        told = [f"the line: {shown}"] * (line is not None) + [f"{verdict.name}: {why}"] * bool(why)
    fault = fault_of(verdict, source) if verdict and verdict.word in ("malformed", "limit") else None
    return answer.text + "".join(f"  {text}\n" for text in (*told, *([plain(fault)] if fault else ())))


# ---- as JSON

def named(line: Line) -> dict:
    return {"line": line.at, "text": line.text}


def edit_of(edit: Edit) -> dict:
    if isinstance(edit, Put):
        return {"do": "put in", "behind": edit.after, "text": edit.text}
    if isinstance(edit, Move):
        return {"do": "move", "line": edit.at, "behind": edit.after}
    return {"do": "leave out", "line": edit.at} if isinstance(edit, Drop) else {"do": "change", "line": edit.at, "text": edit.text}


def repair_of(repair: Repair, teller: Teller) -> dict:
    """The edits, the words of the text, and the verdict on the whole log, its line as it stands there without the change."""
    *told, _ = teller.repair(repair)
    at = {"line": repair.next_line} if repair.next_line else {}
    return {"edits": [edit_of(edit) for edit in repair.change.edits], "told": told, "whole": {**finding_of(repair.whole).fields, **at}}


def furthest_of(furthest: Repair, parts: Parts) -> dict:
    edits = [edit_of(edit) for edit in furthest.change.edits]
    return {"edits": edits, "told": parts.teller.stopped(furthest, parts.study.refusal),
            "whole": {**finding_of(furthest.whole).fields, "line": furthest.next_line}}


def as_json(parts: Parts, finding: Finding) -> str:
    """One object on one line."""
    study, run = parts.study, parts.views.told
    told = {"header": study.header, "small": [named(line) for line in study.small],
            "held": [{"told": one.told, **named(one.line)} for one in study.held],
            "repairs": [repair_of(repair, parts.teller) for repair in study.repairs],
            **{premise.word: repair and repair_of(repair, parts.teller) for premise, repair in parts.by_premise.items()},
            **({"stricter": study.stricter} if study.stricter else {}), **of_json(parts.views.danger),
            **({"furthest": furthest_of(study.furthest, parts)} if study.furthest else {}),
            **({"cut_off": study.cut_off} if study.cut_off else {}),
            "run": {"lines": [line.at for line in run.lines], "told": run.told()} if run else None}
    return json.dumps({**finding.fields, **told}) + "\n"
