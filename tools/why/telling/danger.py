# SPDX-License-Identifier: Apache-2.0
"""Whether a refusal is real, in words: the run in a line, or why there is none; and in short, for the forms that builds
read."""
from __future__ import annotations

from why.asking.danger import TABLE_MAPPED, TAG_CONFLICT, Cause, Danger, Word
from why.asking.program import Verdict
from why.asking.runs import Run, Told

# What a run shows, and what is so while its entry is there, of each rule; of rule 4 where another isn't named.
OLD = "a TLB keeps the old descriptor"
SHOWS = {TAG_CONFLICT: "a TLB keeps another root's entry under the tag",
         TABLE_MAPPED: "a TLB maps the page while it is a table page"}
MEETS = "{} writes while it is there"
ENDS = {TAG_CONFLICT: "{} lets a PE read another root under the tag",
        TABLE_MAPPED: "it maps the page while that is a table page"}
CAUSES = {
    Cause.WALK: "no PE that isn't flushed could walk there since the last valid write: the order is wrong, and no harm "
                "is known that it did here",
    Cause.TOLD: "each walk there was taken by a TLBI that came before its PE was told of the break. bbm counts no such "
                "TLBI, since a PE may walk there again behind it; here none could. The order is wrong, and no harm is "
                "known that it did here",
    Cause.ALONE: "what was read there was taken by TLBIs that came while the root held several VMIDs or ASIDs: bbm "
                 "counts none that is for one of them",
    Cause.CHILDREN: "what was read of the table was taken by a TLBI that names less than its region: bbm counts none "
                    "where the table has children",
    Cause.ASID: "what was read there was taken by a TLBI for one ASID: in the upper range bbm counts those for every "
                "ASID",
    Cause.EMPTY: "no descriptor of another root could be read under the tag",
    Cause.FLUSHED: "what was read under the tag was taken by TLBIs, none of which takes all under it",
    Cause.UNREAD: "no PE could read the root of the leaf: bbm asks what is so once one does",
}
UNLOADED = "no register write of the log loads the root of the place"
# For tools that sort findings, of 100.
RANKS = {Word.REAL: 100.0, Word.UNKNOWN: 50.0, Word.STRICT: 10.0}


def heading(danger: Danger, refusal: Verdict) -> str:
    """What is said in one line. Of rules 12 and 18 it is tried, and not proved."""
    shows = SHOWS.get(refusal.rule)
    if danger.word is Word.UNKNOWN:
        return "Whether the refusal is real isn't told"
    if danger.word is Word.REAL:
        return f"Real, as tried: in a run {shows}" if shows else f"Real: in this run {OLD}"
    return f"Strict, as tried: in no run {shows}" if shows else f"Strict: no run is found in which {OLD}"


def made(run: Run) -> dict[str, tuple[int, list[str]]]:
    """For each word of the steps of TLBs the last such step: behind how many events it is made, and its fields."""
    found, row = {}, 0
    for step in run.steps:
        if step.startswith("m "):
            _, word, *fields = step.split(" ")
            found[word] = row, fields
        else:
            row += 1
    return found


def run_in_words(told: Told, refusal: Verdict) -> str:
    """Which PE walked when, what it keeps, and at which line it conflicts."""
    steps = made(told.run)
    row, (pe, kind, tag, *first) = steps["start"]
    last, (*_, place, _) = steps.get("extend", (row, first))
    under = f" under {'VMID' if kind == 's2' else 'ASID'} {tag}" if kind != "el2" else ""
    walks = f"walks to {place}{under} {told.behind(row)}" if row == last else \
        f"begins a walk{under} {told.behind(row)}, goes on to {place} {told.behind(last)}"
    joined = f", joined with a stage 1 walk {told.behind(steps['combine'][0])}" if "combine" in steps else ""
    end = ENDS.get(refusal.rule, MEETS).format(told.lines[told.run.conflict].name)
    return f"PE {pe} {walks} and keeps what it reads{joined}; {end}"


def texts_of(danger: Danger, refusal: Verdict) -> list[str]:
    """What stands below the heading."""
    told = [run_in_words(danger.told, refusal)] if danger.told else []
    told += [danger.why] if danger.why else []
    if len(danger.causes) > 1:
        told.append("several of these at each walk:")
    if danger.causes == (Cause.WALK,) and danger.is_unloaded:
        told.append(UNLOADED)
    part = f"asked of a log of {danger.asked} of the {danger.events} events up to the line"
    return [*told, *(CAUSES[cause] for cause in danger.causes), *([part] if 0 < danger.asked < danger.events else [])]


def short(danger: Danger | None) -> str:
    """The word, and the causes behind it; nothing of a rule of which nothing is said."""
    return ", ".join([danger.word.value, *(cause.value for cause in danger.causes)]) if danger else ""


def fields(danger: Danger) -> dict:
    return {"word": danger.word.value, "causes": [cause.value for cause in danger.causes]}


def of_json(danger: Danger | None) -> dict:
    """What the object of a finding has of it."""
    return {"danger": fields(danger)} if danger else {}


def of_sarif(danger: Danger | None) -> dict:
    """What the result of a finding has of it."""
    return {"rank": RANKS[danger.word], "properties": {"danger": fields(danger)}} if danger else {}
