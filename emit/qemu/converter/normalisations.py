# SPDX-License-Identifier: Apache-2.0 OR GPL-2.0-or-later
"""The departures from what the machine did that bbm_convert can make, and what a header can say by a word: a premise,
or that more is judged. Each is off unless asked for.

For each: the worlds in which it has a meaning, and what the judgement loses by it; of a normalisation what it does, and
the versions of the header under which it is made; of a premise what it takes to be true. Of a demand what it asks, and
what it misses in such a log. `--suggest` tries them in this order, those without a word first, and takes the first of
those that get past a refusal. It tries no demand, which gets past none.
"""
from __future__ import annotations

from collections.abc import Mapping
from dataclasses import dataclass
from typing import Union

LATEST = 5  # version of the header
ANY, BEFORE_WORDS, WITH_WORDS = range(1, LATEST + 1), range(1, 5), range(5, LATEST + 1)
WITH_RANGES = range(4, LATEST + 1)
WITH_NULL_PAGES = WITH_WORDS  # of each root register
WHEN = {ANY: "", BEFORE_WORDS: "before version 5, which has the word inorder for it", WITH_WORDS: "from version 5 on",
        WITH_RANGES: "from version 4 on, which has range TLBIs"}


@dataclass(frozen=True)
class Normalisation:
    worlds: tuple[str, ...]
    does: str
    weakens: str
    versions: range = ANY


@dataclass(frozen=True)
class Premise:
    worlds: tuple[str, ...]
    premise: str
    weakens: str


@dataclass(frozen=True)
class Demand:
    worlds: tuple[str, ...]
    asks: str
    misses: str


Word = Union[Premise, Demand]
KERNEL, EL2, HYP = ("kernel", "vhe"), ("hyp",), ("hyp", "stage2")

ALL: dict[str, Normalisation] = {
    "snapshot": Normalisation(
        (*KERNEL, *HYP),
        "the log begins when the first process, or guest, is loaded, with the tables as they stand then",
        "what was done before isn't judged, and no TLB is taken to hold anything from before"),
    "contiguous": Normalisation(
        (*KERNEL, *HYP),
        "the Contiguous bit of a leaf of stage 1 is told in the place of NS, which counts for break-before-make and "
        "has no meaning in Non-secure state; at stage 2 it is told as 0",
        "an entry that stands for sixteen places is judged as sixteen entries, so a group of which one member is "
        "changed without the others isn't found, and a change of NS isn't judged"),
    "isb-between-ttbrs": Normalisation(
        KERNEL, "an ISB is told behind a write of TTBR0_EL1 that names the reserved table, and behind one of TTBR1_EL1",
        "an old value of one of the two registers could be in use for longer than is judged", BEFORE_WORDS),
    "moved-tables": Normalisation(
        KERNEL,
        "before a table that left its place is linked at another without a store to it, a range TLBI of what its old "
        "place translated, for each ASID of its root, and a DSB are told",
        "a table that is linked elsewhere before its old place is flushed isn't found", WITH_RANGES),
    "kpti": Normalisation(
        KERNEL, "a second root in TTBR1_EL1 is told as the first; of each pair of ASIDs the even one alone is told",
        "entries under the odd ASID of a process, and those of the second upper root, aren't judged"),
    "mmu-off": Normalisation(
        EL2, "while the MMU of EL2 is off its root register is told as 0",
        "that a PE makes no walk of EL2 then is taken from SCTLR_EL2.M"),
    "stage2-off": Normalisation(
        HYP,
        "while HCR_EL2.VM is 0, and E2H and TGE aren't both 1, VTTBR_EL2 is told with a null page as its base and the "
        "VMID that it has",
        "that a PE makes no walk of stage 2 then is taken from HCR_EL2.VM", WITH_NULL_PAGES),
    "out-of-context": Normalisation(
        HYP,
        "a value of VTTBR_EL2 with which a PE doesn't go below EL2 (any more) is told with a null page as its base and "
        "the VMID that it has",
        "that a PE at EL2 makes no walk of stage 2 is taken from the architecture: that regime is out of context",
        WITH_NULL_PAGES),
    "no-cnp": Normalisation(
        HYP, "bit 0 of root registers is told as 0, and the header says that TLBs aren't shared",
        "entries that one PE takes from another aren't judged"),
}


# Words of the header, in its order. They are told of no line. A premise says that something is true which no trace
# shows.
WORDS: dict[str, Word] = {
    "unflushed": Premise(
        (*KERNEL, *HYP), "no walk of a root that was given up goes on, though TLBs may keep what was read through it",
        "a walk that does isn't found"),
    "inorder": Premise(
        KERNEL, "the root registers of a PE come into use in the order in which it wrote them",
        "a walk by a newer value of one register and an older one of the other isn't found"),
    "isolated": Demand(
        HYP,
        "no page that a leaf of stage 2 maps is a table, and none that one mapped since the page's `init` becomes one",
        "an `init` stands where its page is linked, so a page that was cleared while a guest could write it, and that "
        "no guest reaches at the link, isn't found"),
}


def premises() -> dict[str, Word]:
    """The words that are premises."""
    return {name: word for name, word in WORDS.items() if isinstance(word, Premise)}


def of_world(some: Mapping[str, Normalisation | Word], world: str | None) -> list[str]:
    """The names of those normalisations, or words, that a world has; of all for None."""
    return [name for name, one in some.items() if world is None or world in one.worlds]


def version_of(header: str) -> int:
    """The version of a header that is given, or of the one that is found where none is."""
    return int(header.split()[1]) if header else LATEST


def is_of_version(name: str, header: str) -> bool:
    """Whether a normalisation is made under a header."""
    return version_of(header) in ALL[name].versions


def about(name: str, often: str = "") -> str:
    """A normalisation with what it does, or a word with its premise, and what is lost by it; or with what it asks and
    misses."""
    word = WORDS.get(name)
    if isinstance(word, Premise):
        return f"{name}, a premise that the header makes: {word.premise}. It weakens: {word.weakens}"
    if word:
        return f"{name}, which the header asks for: {word.asks}. It misses: {word.misses}"
    one = ALL[name]
    return f"{name}{often}: {one.does}. It weakens: {one.weakens}"


def listed(world: str | None) -> list[str]:
    """Those of a world, or all, as --list prints them."""
    lines = []
    for name, one in ((name, ALL[name]) for name in of_world(ALL, world)):
        when = f"; {WHEN[one.versions]}" * (one.versions != ANY)
        lines.append(f"{name} ({', '.join(one.worlds)}{when})\n    {one.does}.\n    It weakens: {one.weakens}.")
    for name, word in ((name, WORDS[name]) for name in of_world(WORDS, world)):
        says = f"The premise that {word.premise}" if isinstance(word, Premise) else f"It asks that {word.asks}"
        lost = f"It weakens: {word.weakens}" if isinstance(word, Premise) else f"It misses: {word.misses}"
        lines.append(f"{name}, a word of the header ({', '.join(word.worlds)})\n    {says}.\n    {lost}.")
    return lines


def as_asked(allow: list[str]) -> str:
    """The words of the command by which these are allowed."""
    names = [name for name in allow if name in ALL]
    words = [name for name in WORDS if name in allow]
    return "".join(f" --{option} {','.join(some)}" for option, some in (("words", words), ("allow", names)) if some)
