# SPDX-License-Identifier: Apache-2.0
"""What `pending --unlocks` answers, and what `findings --unlocks` has of it (docs/OUTPUT.md)."""
from __future__ import annotations

import json
from tempfile import TemporaryFile

from why.asking.program import Program
from why.asking.trees import Spot
from why.asking.unlocks import Unlock, held_at_unlocks
from why.log.lines import Numbers
from why.log.stream import Front, Source, whole
from why.telling.decoded import ADDRESSES, SIZES
from why.telling.stale import PHASES
from why.telling.style import BOLD, Style, ranges

UNFLUSHED = {"broken": "its clear isn't published to {}", "seen": "no TLBI that covers it is complete at {}",
             "half": "its stage 2 entries are gone, and no TLBI of the combined ones is complete at {}"}


def by_phase(one: Unlock) -> dict[str, list[int]]:
    return {phase: [pe for pe, now in enumerate(one.phases) if now == phase] for phase in PHASES if phase in one.phases}


def labelled(at: int, label: str) -> str:
    return f"line {at}" + (f" @{label}" if label else "")


def line_of(at: int, label: str) -> dict:
    return {"line": at, **({"label": label} if label else {})}


def address_of(spot: Spot) -> str:
    """The first input address of a place, the level and the size that it translates."""
    return f"{ADDRESSES[spot.kind]} {hex(spot.address)}, level {spot.level}, {SIZES[spot.level]}"


def told(one: Unlock, style: Style) -> str:
    phases = [f"{phase} {ranges(pes)}" for phase, pes in by_phase(one).items()]
    place = f"place {style.painted(hex(one.place), BOLD)} cleared {labelled(one.cleared, one.cleared_label)}"
    unlock = f"unlock {labelled(one.line, one.label)} lock {one.lock}"
    return " ".join([unlock, place, f"alike {one.alike}", *phases]) + "\n"


def fields(one: Unlock) -> dict:
    return {"unlock": line_of(one.line, one.label), "lock": int(one.lock), "place": hex(one.place),
            "decoded": address_of(one.spot), "cleared": line_of(one.cleared, one.cleared_label), "alike": one.alike,
            "phases": by_phase(one)}


def text_of(front: Front, found: list[Unlock], style: Style) -> str:
    heads = f"accepted {front.events} events\npending {len(found)} unlocks\n"
    return heads + "".join(told(one, style) for one in found)


def as_json(front: Front, found: list[Unlock], log: str) -> str:
    named = {"verdict": "accepted", "events": front.events, "unlocks": [fields(one) for one in found]}
    return json.dumps({**named, **({"log": log} if log else {})}) + "\n"


# ---- in findings

def said(one: Unlock) -> str:
    """What is wrong at the `unlock`."""
    phases = by_phase(one)
    missing = [text.format(f"PE {ranges(phases[phase])}") for phase, text in UNFLUSHED.items() if phase in phases]
    return f"cleared by {labelled(one.cleared, one.cleared_label)}, {address_of(one.spot)}: {'; '.join(missing)}"


def found_in(program: Program, data: bytes, numbers: Numbers) -> list[Unlock]:
    """Those of an accepted log, by the numbers of its lines in the log that was given."""
    with TemporaryFile() as file:
        file.write(data)
        file.flush()
        file.seek(0)
        source = Source("", file.fileno())
        answer = source.answer(program, "check")
        found = held_at_unlocks(program, whole(source, answer.verdict.events)) if answer.accepted else []
    for one in found if numbers else ():
        one.line, one.cleared = numbers[one.line - 1], numbers[one.cleared - 1]
    return found
