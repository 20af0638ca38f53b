# SPDX-License-Identifier: Apache-2.0
"""What `pending` answers, as text and as JSON (docs/OUTPUT.md)."""
from __future__ import annotations

import json
import os
from dataclasses import dataclass

from why.log.lines import event_of, header_of
from why.asking.leaving import Left, left_tags
from why.asking.reuses import reused_pages
from why.asking.places import stale_places
from why.asking.program import Answer, Program, Status, Unable
from why.log.stream import Front, Source, whole
from why.telling.style import BOLD, DIM, RED, Style, ranges

PHASES = {"live": RED, "broken": RED, "seen": RED, "half": RED, "cleansed": DIM}


@dataclass(frozen=True)
class Found:
    """What is named: the addresses and the lines that its line tells, by their words, and the phases."""

    addresses: dict[str, int]
    lines: dict[str, int]
    phases: tuple[str, ...]

    def by_phase(self) -> dict[str, list[int]]:
        return {phase: [pe for pe, is_now in enumerate(self.phases) if is_now == phase] for phase in PHASES if phase in self.phases}


def places_found(program: Program, front: Front) -> list[Found]:
    return [Found({"place": one.place}, {"cleared": one.cleared}, one.phases) for one in stale_places(program, front)]


def pages_found(program: Program, front: Front) -> list[Found]:
    return [Found({"page": one.page << 12, "leaf": one.leaf.place},
                  {"mapped": one.leaf.line, **({"cleared": one.cleared} if one.cleared else {}), "reused": one.line}, one.phases)
            for one in reused_pages(program, front)]


def front_of(source: Source, label: str, nth: int, answer: Answer) -> Front | None:
    """The log; or with a label up to its line, and with it unless it is that line that is refused. None where another line
    decides before."""
    if not label:
        return whole(source, answer.verdict.events) if answer.accepted else None
    ending, size, count = b" @" + os.fsencode(label.removeprefix("@")), 0, 0
    for at, line in enumerate(source.lines(), 1):
        decides = at == answer.line
        if decides and not answer.refusal:
            return None
        count += at > 1 and line.endswith(ending)
        if count == nth:
            return Front(source, size, at - 2) if decides else Front(source, size + len(line) + 1, at - 1)
        if decides:
            return None
        size += len(line) + 1
    raise Unable(Status.USAGE, f"no line number {nth} has the label {label}")


def left_found(program: Program, front: Front) -> list[Left] | None:
    """The tags that are left; None where the header doesn't say that any may be."""
    return left_tags(program, front) if header_of(front.header).unflushed else None


def labels_of(front: Front, found: list[Found], left: list[Left] | None = None) -> dict[int, str]:
    """The labels of the lines that are named."""
    wanted = {*(at for one in found for at in one.lines.values()), *(one.given_up for one in left or ())}
    return {at: event_of(line.decode("latin-1")).label for at, line in front.lines() if at in wanted} if wanted else {}


def told(one: Found, labels: dict[int, str], style: Style) -> str:
    """A line: `pending` and a place, or `page` and a page with the leaf that maps it; then the lines and the phases."""
    names = [f"{'pending' if word == 'place' else word} {style.painted(hex(address), BOLD)}" for word, address in one.addresses.items()]
    lines = [f"{word} line {at}" + (f" @{labels[at]}" if labels[at] else "") for word, at in one.lines.items()]
    phases = [style.painted(f"{phase} {ranges(pes)}", PHASES[phase]) for phase, pes in one.by_phase().items()]
    return " ".join([*names, *lines, *phases]) + "\n"


def fields(one: Found, labels: dict[int, str]) -> dict:
    lines = {word: {"line": at, **({"label": labels[at]} if labels[at] else {})} for word, at in one.lines.items()}
    return {**{word: hex(address) for word, address in one.addresses.items()}, **lines, "phases": one.by_phase()}


def told_left(one: Left, labels: dict[int, str], style: Style) -> str:
    """A line: the tag, the root that left it, the line that gave the root up, the PEs, and the TLBI that frees the tag."""
    label = f" @{labels[one.given_up]}" if labels[one.given_up] else ""
    pes = [f"pes {ranges(list(one.pes))}"] if one.pes else []
    flush = [f"flush {one.flush}"] if one.flush else []
    root = f"root {style.painted(hex(one.page), BOLD)} unroot line {one.given_up}{label}"
    return " ".join(["left", one.tag.word, str(one.tag.number), root, *pes, *flush]) + "\n"


def fields_left(one: Left, labels: dict[int, str]) -> dict:
    line = {"line": one.given_up, **({"label": labels[one.given_up]} if labels[one.given_up] else {})}
    return {"tag": one.tag.word, "number": one.tag.number, "root": hex(one.page), "unroot": line, "pes": list(one.pes),
            "flush": one.flush}


def as_json(front: Front, what: str, found: list[Found], log: str, left: list[Left] | None = None) -> str:
    labels = labels_of(front, found, left)
    named = {"verdict": "accepted", "events": front.events, what: [fields(one, labels) for one in found],
             **({} if left is None else {"left": [fields_left(one, labels) for one in left]}), **({"log": log} if log else {})}
    return json.dumps(named) + "\n"


def text_of(front: Front, what: str, found: list[Found], style: Style, left: list[Left] | None = None) -> str:
    labels = labels_of(front, found, left)
    lines = [f"accepted {front.events} events\n", f"pending {len(found)} {what}\n", *(told(one, labels, style) for one in found)]
    lines += [] if left is None else [f"left {len(left)} tags\n", *(told_left(one, labels, style) for one in left)]
    return "".join(lines)
