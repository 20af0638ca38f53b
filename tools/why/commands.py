# SPDX-License-Identifier: Apache-2.0
"""The words. Each is given the log as a source and the options, and gives the program's status; it loads what it alone needs."""
from __future__ import annotations

import os
import sys
from dataclasses import dataclass
from typing import TYPE_CHECKING

from why.telling.formats import finding_of, shown
from why.asking.program import Answer, Program, Status, built, emit
from why.log.stream import Front, Source

if TYPE_CHECKING:
    from why.asking.unlocks import Unlock
    from why.repairs.findings import Findings


@dataclass(frozen=True)
class Asked:
    """The options of a word, and the name of the log where it was given as a file."""

    log: str = ""
    format: str = ""
    svg: str = ""
    html: str = ""
    whole: bool = False
    pages: bool = False
    unlocks: bool = False
    at: str = ""
    nth: int = 1
    least: bool = False
    rename: bool = False
    most: int = 20
    known: str = ""
    write_known: str = ""
    seconds: int = 30
    jobs: int = 0


def asked_of(options: list[str]) -> Asked:
    """The options that the script gives: it has judged them."""
    parts = [option.removeprefix("--").partition("=") for option in options]
    values = {name.replace("-", "_"): (value if sign else True) for name, sign, value in parts}
    numbers = {name: int(values[name]) for name in ("nth", "most", "seconds", "jobs") if name in values}
    return Asked(**{**values, **numbers})


def say_verdict(answer: Answer, source: Source, asked: Asked) -> int:
    """The program's answer, where that is all."""
    emit(shown(answer, asked.log, asked.format) if asked.format else answer.text)
    explain(answer, source)
    return answer.status


def explain(answer: Answer, source: Source, word: str = "check") -> None:
    """Says on standard error what is wrong in the line that decides, where none of a rule does."""
    if answer.status in (Status.MALFORMED, Status.LIMIT):
        from why.telling import faults

        faults.say(answer, source, word)


def say_check(program: Program, source: Source, asked: Asked) -> int:
    return say_verdict(program.run(("check",), source.input), source, asked)


def say_why(program: Program, source: Source, asked: Asked) -> int:
    from why.asking.effort import Effort, processors
    from why.log.lines import Log
    from why.repairs.study import Studying
    from why.telling import answer as telling
    from why.telling import files, picture
    from why.telling.style import style_of

    answer = source.answer(program, "check")
    if not answer.refusal:
        emit(shown(answer, asked.log, asked.format) if asked.format else telling.other_answer(answer, source))
        return answer.status
    say = telling.Saying(answer, style_of(sys.stdout), (lambda text: None) if asked.format else emit)
    studying = Studying(program, Log(source.read()), answer.refusal, Effort(asked.seconds, asked.jobs or processors()))
    parts = say.all_of(studying, asked.whole)
    if asked.format:
        emit(telling.as_json(parts, finding_of(answer, asked.log)))
    for path, make in ((asked.svg, picture.svg), (asked.html, picture.html)):
        if path:
            files.write(path, make(parts, answer))
    return answer.status


def say_findings(program: Program, source: Source, asked: Asked) -> int:
    from why.asking.effort import processors
    from why.log.lines import Log
    from why.repairs.findings import Findings, Searcher, findings_of
    from why.telling import known
    from why.telling.findings import FORMS, Report
    from why.telling.page import PART

    deviations = known.read(asked.known) if asked.known else []
    first = source.answer(program, "check")
    data = source.read() if first.refusal else b""
    # (of several logs that are judged beside each other each has one run at once)
    jobs = 1 if os.environ.get(PART) else processors()
    searcher = Searcher(program, data, asked.seconds, jobs) if first.refusal else None
    findings = findings_of(searcher, first, asked.most) if searcher else Findings.of_answer(first)
    unlocks = unlocks_in(program, source, findings) if asked.unlocks and findings.last.accepted else []
    report = Report(Log(data), asked.log, findings, deviations, asked.known, unlocks)
    emit(FORMS[asked.format](report))
    explain(findings.last, source)
    if asked.html:
        from why.telling import page

        page.write(asked.html, report)
    if asked.write_known:
        known.write(asked.write_known, [item.met for item in report.items], deviations, asked.log)
    return report.status


def unlocks_in(program: Program, source: Source, findings: Findings) -> list[Unlock]:
    """The places that are held where a lock is given back, of the log with the changes of all findings."""
    from why.telling.unlocked import found_in

    return found_in(program, findings.changed or source.read(), findings.numbers)


def say_shrink(program: Program, source: Source, asked: Asked) -> int:
    from why.asking.least import Shrinker, if_alike
    from why.log.lines import Log, written
    from why.repairs.study import studied
    from why.telling.answer import told_run

    answer = source.answer(program, "check")
    if not answer.refusal:
        return say_verdict(answer, source, asked)
    log = Log(source.read())
    found = studied(program, log, answer.refusal)
    told, _ = told_run(found)
    lines = told.lines if told else found.small
    if asked.least:
        lines = log.lines(Shrinker(program, log, answer.refusal).barest([line.at for line in lines]))
    small = if_alike(program, log.header, lines) if asked.rename else written(log.header, lines)
    emit(small.decode("latin-1"))
    return answer.status


def say_pending(program: Program, source: Source, asked: Asked) -> int:
    from why.telling import stale
    from why.telling.style import style_of

    answer = source.answer(program, "check")
    front = stale.front_of(source, asked.at, asked.nth, answer)
    if front is None:
        return say_verdict(answer, source, asked)
    if asked.unlocks:
        return say_unlocks(program, front, asked)
    what, found = ("pages", stale.pages_found(program, front)) if asked.pages else ("places", stale.places_found(program, front))
    left = None if asked.pages else stale.left_found(program, front)
    emit(stale.as_json(front, what, found, asked.log, left) if asked.format
         else stale.text_of(front, what, found, style_of(sys.stdout), left))
    return Status.REFUSED if found else Status.ACCEPTED


def say_unlocks(program: Program, front: Front, asked: Asked) -> int:
    from why.asking.unlocks import held_at_unlocks
    from why.telling import unlocked
    from why.telling.style import style_of

    found = held_at_unlocks(program, front)
    text = unlocked.text_of(front, found, style_of(sys.stdout))
    emit(unlocked.as_json(front, found, asked.log) if asked.format else text)
    return Status.REFUSED if found else Status.ACCEPTED


def say_partial(program: Program, source: Source, _asked: Asked) -> int:
    from why.asking.cut import Cut

    cut = Cut(source.parts())
    answer = program.feed(("check",), cut.left)
    emit(answer.text)
    explain(answer, source, "partial")
    emit(cut.told(answer))
    return answer.status


def say_line(program: Program, source: Source, words: list[str]) -> int:
    """What is wrong in the line that decides, where the program was run with these words."""
    explain(source.answer(program, *words), source, words[0])
    return Status.ACCEPTED


def say_rule(name: str = "") -> int:
    """A rule, by its number or name, or which there are; a status of usage where there is none."""
    from why.telling.rules import explained
    from why.telling.style import style_of

    text = explained(name, style_of(sys.stdout))
    emit(text)
    return Status.ACCEPTED if text else Status.USAGE


COMMANDS = {"check": say_check, "why": say_why, "findings": say_findings, "shrink": say_shrink, "pending": say_pending, "partial": say_partial}


def run(word: str, *items: str) -> int:
    """The status of a word on standard input, or of `many` on files."""
    if word == "many":
        from why import many

        return many.run(*items)
    sys.stdout.reconfigure(errors="surrogateescape")
    options = [item for item in items if item.startswith("--")]
    asked = asked_of(options)
    if word == "rule":
        return say_rule(*(item for item in items if item not in options))
    if word == "unread":
        from why.telling.sarif import unread

        emit(unread(items[0], asked.log, asked.format))
        return Status.UNABLE
    if word == "line":
        return say_line(built(), Source(asked.log), [item for item in items if item not in options])
    return COMMANDS[word](built(), Source(asked.log), asked)
