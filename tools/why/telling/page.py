# SPDX-License-Identifier: Apache-2.0
"""`findings --html`: one page for a build, by itself: what wasn't judged, a table of the findings, and each with its
lanes, the lines of the source that are at hand, what its lines name, and the change of the log.

A log gives a part of the page, as an object of JSON: its findings as HTML, and why it wasn't judged on. Of several logs
each run writes its part, and the page is made of all.
"""
from __future__ import annotations

import json
import os
import re
from collections.abc import Iterable
from dataclasses import replace
from html import escape
from string import Template

from why.log.lines import Line, Log, Numbers
from why.repairs.changes import Change, Drop, Edit, Move, Put, Swap, position_of
from why.repairs.study import Study
from why.telling import files, formats
from why.telling.answer import views_of
from why.telling.findings import Item, Report
from why.telling.picture import Drawing
from why.telling.rules import read, rule_of
from why.telling.sarif import shown, version

# The environment variable for the file of a part, where a run is one of several.
PART = "BBM_PAGE"
AROUND, FAR, SOURCE_AROUND, MOST_BYTES = 2, 64, 4, 4 << 20
HEADS = ("finding", "rule", "make", "cause", "times", "log", "known")
# Of so many findings each is unfolded.
FEW = 3


def text(words: object) -> str:
    return escape(shown(str(words)))


def coded(words: str) -> str:
    """A text in which what stands between backticks is code."""
    return re.sub("`([^`]*)`", r"<code>\1</code>", text(words))


def listed(texts: Iterable[str]) -> str:
    items = "".join(f"<li>{coded(one)}</li>" for one in texts)
    return f"<ul>{items}</ul>\n" if items else ""


def headed(head: str, body: str) -> str:
    return f"<h3>{text(head)}</h3>\n{body}" if body else ""


def numbered(rows: Iterable[str]) -> str:
    return '<pre tabindex="0">' + "\n".join(rows) + "</pre>\n"


# ---- the parts of a finding

def pictured(study: Study, numbers: Numbers, title: str) -> str:
    """The lanes of a refusal, by the lines of the log that was given."""
    chart = views_of(study, False).chart
    given = lambda line: Line(numbers[line.at - 1], line.text)
    rows = [replace(row, line=given(row.line), set_up=tuple(map(given, row.set_up))) for row in chart.rows]
    return f'<div class="picture" tabindex="0">{Drawing(replace(chart, rows=rows), title).svg()}</div>\n'


def around(log: Log, edit: Edit) -> range:
    """The lines that are shown for an edit: those up to where it moves a line, unless that is far."""
    first, last = sorted((position_of(edit), edit.after if isinstance(edit, Move) else position_of(edit)))
    last = last if last - first < FAR else first
    return range(max(1, first - AROUND), min(log.last_event, last + AROUND) + 1)


def put_behind(log: Log, change: Change) -> dict[int, list[str]]:
    """The new lines of a change, by the line behind which they stand."""
    behind: dict[int, list[str]] = {}
    for edit in change.edits:
        if isinstance(edit, Move):
            behind.setdefault(edit.after, []).append(log.line(edit.at).text)
        elif not isinstance(edit, Drop):
            behind.setdefault(edit.at if isinstance(edit, Swap) else edit.after, []).append(edit.text)
    return behind


def diff_of(log: Log, change: Change) -> str:
    """A change as a diff of the log: each line with its number there."""
    gone, behind = {edit.at for edit in change.edits if not isinstance(edit, Put)}, put_behind(log, change)
    rows, last = [], 0
    for at in sorted({at for edit in change.edits for at in around(log, edit)}):
        rows += ['<span class="gap">..</span>'] if last and at > last + 1 else []
        line = f"{at:>7}  {text(log.line(at).text)}"
        rows.append(f"<del>- {line}</del>" if at in gone else f"<span>  {line}</span>")
        rows += [f"<ins>+ {'':>7}  {text(new)}</ins>" for new in behind.get(at, ())]
        last = at
    return numbered(rows)


def path_of(file: str) -> str:
    """The path of a file that a label names, where it is one below the folder in which this is run."""
    path, top = os.path.realpath(file), os.path.realpath(".")
    is_there = bool(file) and path.startswith(top + os.sep) and os.path.isfile(path)
    return path if is_there and os.path.getsize(path) <= MOST_BYTES else ""


def source_of(finding: formats.Finding | None) -> str:
    """The lines of the source around that which a label names."""
    path = path_of(finding.file) if finding else ""
    if not path:
        return ""
    with open(path, encoding="utf-8", errors="replace") as file:
        lines = file.read().split("\n")
    middle = finding.file_line
    first = max(1, middle - SOURCE_AROUND)
    tag = lambda at: "mark" if at == middle else "span"
    rows = [f"<{tag(at)}>{at:>7}  {text(line)}</{tag(at)}>"
            for at, line in enumerate(lines[first - 1:middle + SOURCE_AROUND], first)]
    return numbered(rows) if middle <= len(lines) else ""


def rule_told(number: int) -> str:
    rule = rule_of(number) if number else None
    told = listed([rule.sentence, f"The usual bug: {rule.bug}", f"Right: {rule.right}"]) if rule else ""
    return headed(f"Rule {rule.number} {rule.name}", told) if rule else ""


def body_of(item: Item, log: Log) -> str:
    """What stands below the line of a finding."""
    known = [f"known: {item.known}"] if item.known else []
    change = listed(item.texts) + (diff_of(log, item.change) if item.change else "")
    found = item.found
    lanes = pictured(found.study, found.numbers, found.answer.first) if found and found.study else ""
    return "".join([
        listed([*known, *filter(None, (item.before, item.often))]), headed("What the lines name", listed(item.decoded)),
        headed("What would do, tried and judged by bbm" if item.change else "What is told", change),
        headed("Lanes", lanes), headed(f"The make: {item.finding.file}", source_of(item.finding)),
        headed(f"The cause: {item.cause.file if item.cause else ''}", source_of(item.cause)),
        rule_told(item.finding.verdict.rule)])


def where(finding: formats.Finding | None) -> str:
    if finding is None:
        return ""
    return f"@{finding.verdict.label}" if finding.verdict.label else f"line {finding.verdict.line}"


def finding_of(item: Item, log: Log) -> dict:
    """A finding as the page has it: the cells of its row, and its title and body as HTML."""
    verdict = item.finding.verdict
    cells = {"rule": f"rule {verdict.number} {verdict.name}" if verdict.rule else verdict.word,
             "make": f"{where(item.finding)}, {hex(verdict.at)}", "cause": where(item.cause), "times": item.times,
             "log": f"{item.finding.log or formats.UNNAMED}:{verdict.line}",
             "known": (item.known.comment or "known") if item.known else ""}
    shown_cells = {name: shown(str(cell)) for name, cell in cells.items()}
    return {"cells": shown_cells, "is_known": bool(item.known), "body": body_of(item, log)}


def part_of(report: Report) -> dict:
    """The part of a log."""
    ends = [f"line {finding.verdict.line}: {finding.message}" for finding, _ in report.ends if finding.verdict.line]
    return {"log": shown(report.name or formats.UNNAMED), "unjudged": [shown(end) for end in ends],
            "unmet": [shown(str(it)) for it in report.unmet],
            "findings": [finding_of(item, report.teller.log) for item in report.items]}


def unread(log: str, why: str) -> dict:
    """The part of a log without an answer."""
    return {"log": shown(log), "unjudged": [shown(why)], "unmet": None, "findings": []}


def write(path: str, report: Report) -> None:
    """Writes the page of a log, or its part where the run is one of several."""
    part = os.environ.get(PART)
    files.write(part or path, json.dumps(part_of(report)) if part else page([part_of(report)]))


# ---- the page

def beside(name: str) -> str:
    """A file beside this one."""
    return read(os.path.join(os.path.dirname(os.path.realpath(__file__)), name))


def counted(count: int, what: str) -> str:
    return f"{count} {what}{'s' * (count != 1)}"


def unjudged_of(parts: list[dict]) -> str:
    """What wasn't judged, or that all was."""
    lines = [f"{part['log']}: {why}" for part in parts for why in part["unjudged"]]
    if not lines:
        what = "The log" if len(parts) == 1 else f"Each of the {len(parts)} logs"
        return f'<div class="box"><p>{what} was judged to its end.</p></div>\n'
    logs = counted(sum(bool(part["unjudged"]) for part in parts), "log")
    return f'<div class="box bad" role="alert"><h2>Not judged to the end: {logs}</h2>\n{listed(lines)}</div>\n'


def row_of(number: int, finding: dict) -> str:
    cells = {name: escape(cell) for name, cell in finding["cells"].items()}
    cells["finding"] = f'<a href="#f{number}">{number}</a>'
    known = " class=known" * finding["is_known"]
    return f"<tr{known}>" + "".join(f'<td data-head="{head}">{cells[head]}</td>' for head in HEADS) + "</tr>\n"


def section_of(number: int, finding: dict, is_open: bool) -> str:
    cells = finding["cells"]
    cause = f", by {cells['cause']}" if cells["cause"] else ""
    often = f", {cells['times']} times" if cells["times"] != "1" else ""
    title = escape(f"{number}. {cells['rule']}: {cells['make']}{cause}{often}")
    words = " class=known" * finding["is_known"] + " open" * is_open
    log = f'<p class="soft">{escape(cells["log"])}</p>'
    return f'<details id="f{number}"{words}>\n<summary>{title}</summary>\n{log}\n{finding["body"]}</details>\n'


def table_of(findings: list[dict]) -> str:
    rows = "".join(row_of(number, finding) for number, finding in enumerate(findings, 1))
    heads = "".join(f"<th>{head}</th>" for head in HEADS)
    return f"<table>\n<thead><tr>{heads}</tr></thead>\n<tbody>\n{rows}</tbody>\n</table>\n" if findings else ""


def unmet_of(parts: list[dict]) -> str:
    """The known deviations that no finding of any log that has an answer meets."""
    sets = [set(part["unmet"]) for part in parts if part["unmet"] is not None]
    lines = sorted(set.intersection(*sets)) if sets else []
    return f"<p>Known deviations that no finding meets:</p>\n{listed(lines)}" if lines else ""


def page(parts: list[dict]) -> str:
    """The page of these parts."""
    findings = [finding for part in parts for finding in part["findings"]]
    known = sum(finding["is_known"] for finding in findings)
    sections = (section_of(number, finding, len(findings) <= FEW) for number, finding in enumerate(findings, 1))
    return Template(beside("page.html")).substitute(
        title=f"bbm: {counted(len(findings), 'finding')} in {counted(len(parts), 'log')}",
        about=f"{known} known; " * bool(known) + f"program {escape(version())}", unjudged=unjudged_of(parts),
        unmet=unmet_of(parts), table=table_of(findings), sections="".join(sections), style=beside("page.css"),
        script=beside("page.js"))
