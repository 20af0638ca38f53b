# SPDX-License-Identifier: Apache-2.0 OR GPL-2.0-or-later
"""What is told of a log: what it says otherwise than the machine did, what it leaves out, what it can't say, and what
is judged."""
from __future__ import annotations

from collections import Counter
from collections.abc import Collection, Iterable

from converter import normalisations
from converter.conversion import Conversion
from converter.ending import Status, tell
from converter.log import HELD
from converter.normalisations import WITH_NULL_PAGES, about, version_of
from converter.worlds import World

OTHER_GRANULES = {1: 64, 2: 16}  # TCR.TG0, in KiB
ALWAYS = {
    "AttrIndx": "told as the least index that has the same byte in MAIR",
    "VTTBR_EL2": "told with a null page as its base and the VMID that it has, while E2H and TGE are both 1: the "
    "architecture takes HCR_EL2.VM for 0 then",
    "unroot": "told at the first other use of a root's page, while no register names it, or, but with --follow, of any "
    "page of a root of stage 2 that is in use nowhere and is never loaded again; when it was given up isn't known",
}


def misfits(conversion: Conversion, header: str, allow: Collection[str]) -> list[str]:
    """What a log can't say, or the header of this one doesn't: with any of it the log would be judged by wrong
    addresses, or refused for its header."""
    had = conversion.form.of_kinds()
    told = [f"T1SZ is {size}, an upper range of {64 - size} bits of address: a log has 48, 39 or 30 (16, 25 or 34)"
            for size in sorted(conversion.registers.upper_sizes)]
    for (kind, start), count in sorted(conversion.trees.other_forms.items()):
        told.append(f"roots of {kind} that start {start}, {count} times: "
                    + (f"the header has those that start {had[kind]}" if start.level >= 0 else
                       "52 bits of address, which no log has. For Linux: -cpu max,lpa2=off"))
    if conversion.registers.has_cnp and "cnp" not in header.split() and "no-cnp" not in allow:
        told.append("a root register has CnP, and the header, which was written before, says that none has")
    if told:
        told.append("one header holds for a whole log, so it would be judged by wrong addresses")
    if conversion.telling.told["VTTBR_EL2"] and version_of(header) not in WITH_NULL_PAGES:
        told.append("VTTBR_EL2 is told with a null page while E2H and TGE are both 1: a log has that from version 5 on")
    if is_of_host(conversion):
        told.append("HCR_EL2 has E2H and TGE: a hypervisor with VHE, whose own tables and TLBIs aren't those of this "
                    "world. The world stage2 has its guests, and the world vhe its own tables")
    return told


def is_of_host(conversion: Conversion) -> bool:
    """Whether a log of a hypervisor without VHE is asked for, and it has VHE: then the same TLBIs are of other
    regimes."""
    return conversion.world.has_el2 and conversion.pes.was_host


def granules(conversion: Conversion) -> list[int]:
    """The sizes of pages, in KiB, that no log has."""
    return sorted({OTHER_GRANULES.get(value >> 14 & 3, 4) for value in conversion.pes.controls.values()} - {4})


def told_otherwise(conversion: Conversion, header: str, allow: Collection[str]) -> None:
    """Says which normalisations were made, and by which words of the header the log is judged."""
    for name, count in sorted(conversion.telling.made.items()):
        if name in allow and count:
            tell(about(name, f", {count} times"))
    for word in normalisations.WORDS:
        if word in header.split():
            tell(about(word))
    if "contiguous" in allow and conversion.trees.descriptors.contiguous_at_stage2:
        tell(f"contiguous, {conversion.trees.descriptors.contiguous_at_stage2} times at stage 2: a change of the "
             "Contiguous bit there isn't judged")


def report(conversion: Conversion, header: str, allow: Collection[str], judged: Counter[str],
           remarks: Iterable[str]) -> Status:
    """Says all of it, with what the trace itself doesn't tell. Answers the exit status."""
    told_otherwise(conversion, header, allow)
    for what, count in sorted(conversion.telling.told.items()):
        if count:
            tell(f"{what}, {count} times: {ALWAYS[what]}")
    for what, count in sorted(conversion.telling.left_out.items()):
        if count:
            tell(f"left out, {count} times: {what}")
    for remark in remarks:
        tell(f"the trace: {remark}")
    for size in granules(conversion):
        tell(f"the kernel has pages of {size} KiB: a log has those of 4 KiB alone, so none of its tables is told")
    if conversion.world.is_hyp and not conversion.trees.stage2_writes:
        tell("stage 2 isn't judged: no table of it is written, as where a hypervisor has no guest")
    return report_judged(conversion.world, judged, misfits(conversion, header, allow), conversion.facts.is_complete)


def missing_from(judged: Counter[str]) -> list[str]:
    """What a log has nothing of, without which it is accepted whatever was done."""
    counts = {"root": judged["root"], "table write": judged["w"] + judged[HELD], "TLBI": judged["tlbi"]}
    return [what for what, count in counts.items() if not count]


def report_judged(world: World, judged: Counter[str], wrong: Collection[str], is_complete: bool) -> Status:
    """Says what is judged, or why nothing is. Answers the exit status."""
    tell(f"judged: {judged['root']} roots, {judged['w']} writes of tables and {judged[HELD]} of what they held before, "
         f"{judged['tlbi']} TLBIs, {judged['msr']} writes of root registers")
    missing = missing_from(judged)
    for text in wrong:
        tell(text)
    if wrong:
        tell("there is no log, or one without an end")
        return Status.OTHER_FORMS
    if missing:
        tell(f"there is nothing to accept: the log has no {' and no '.join(missing)} of the world {world.name}")
        return Status.NOTHING_JUDGED
    if not is_complete:
        tell("the trace has no end, so the log has none: QEMU was ended, or still runs, or the trace couldn't be "
             "written. bbm partial judges what is there")
        return Status.NO_END
    return Status.DONE


def remarks_of(lines: Iterable[str]) -> list[str]:
    """What the plugin says at the end of a trace."""
    others = ("# bbm_trace", "# SPDX", "# end")
    return [line[2:] for line in lines if line.startswith("# ") and not line.startswith(others)]
