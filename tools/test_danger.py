# SPDX-License-Identifier: Apache-2.0
"""What `why` says of whether a refusal is real, compared with `follow` and `counterrun`. `tools/test_why` runs it.

- Each refused log of examples/ that is about rule 4, 12 or 18: where it is said to be real the run is followed to its
  end, under rules 4 and 12 to a conflict at its last step; where it is said to be strict `counterrun` has no run.
- Of the logs of examples/refusals the word and the causes, by what each log is meant to show.
- Of a log of more than 2,000 events what is asked of a part of its lines.
- So it is of the packed logs in the folder that the environment variable BBM_LOGS names, where it is set.
"""
import lzma
import os
import pathlib

import judging
from why.asking.danger import ASKED, TABLE_MAPPED, Word, asked_lines, danger_of
from why.asking.least import BREAK_BEFORE_MAKE, Shrinker
from why.asking.program import Program
from why.log.lines import Log
from why.telling.danger import short

EXAMPLES = pathlib.Path(judging.TOP, "examples")
PROGRAM = Program(judging.program())
# What is said of the logs whose names don't begin with `run`, and of some others.
SAID = {
    "refusals/none_root_never_loaded": "strict, walk", "refusals/none_left_before_the_write": "strict, walk",
    "refusals/none_loaded_after_the_publication": "strict, walk",
    "refusals/none_below_a_published_break": "strict, walk",
    "refusals/none_loaded_on_the_flushed_pe_alone": "strict, walk",
    "refusals/none_flushed_and_made_again": "strict, walk", "refusals/none_though_a_walk_goes_on": "real",
    "refusals/none_flushed_before_the_break": "strict, told", "refusals/none_below_a_flushed_table": "strict, told",
    "refusals/none_two_vmids_each_flushed": "strict, alone",
    "refusals/none_second_vmid_before_the_second_step": "strict, alone",
    "refusals/none_upper_leaf_flushed_by_its_asid": "strict, asid",
    "refusals/table_flushed_at_its_only_child": "strict, children",
    "refusals/table_of_the_upper_range_flushed_by_its_asid": "strict, asid",
    "sequences/table_to_block_by_address": "real",
    "why/asid_taken_twice": "strict, empty", "why/vmid_used_again_too_early": "real",
    "why/guest_page_not_flushed": "real",
}
KERNEL, ISOLATED = "bbmlog 1 kernel 1 1 1 ttbr0", "bbmlog 5 hyp 2 1 1 1 isolated"
ROOT = "init 0 0x40000000\nroot 0 {} - 0x40000000\n"
LOADED, MAPPED = "msr 0 {0} 0x{1}000040000000\nisb 0\n", "w 0 0x40000008 0x80000{}\n"
BROKEN, ANSWERED, LEFT = "w 0 0x40000008 0x0\n", "dsb 0 ish\n", "msr 0 ttbr0_el1 0x0\nisb 0\n"
ANOTHER = "init 0 0x40001000\nroot 0 ttbr0 - 0x40001000\nmsr 0 ttbr0_el1 0x5000040001000\n"
# a process whose page was mapped under ASID 5
PROCESS = ROOT.format("ttbr0") + LOADED.format("ttbr0_el1", 5) + MAPPED.format("f01")
# Logs of which nothing is said by name: their header and events, and what is said.
MADE = {
    # flushed by address, and not under the whole ASID
    "flushed by address": (KERNEL, PROCESS + LEFT + "tlbi 0 vae1is 0x5000000040000\n" + ANSWERED + ANOTHER,
                           "strict, flushed"),
    "not flushed": (KERNEL, PROCESS + LEFT + ANOTHER, "real"),
    # each ASID is flushed, before the break and while TLBs may hold both
    "two causes": (KERNEL, PROCESS + LOADED.format("ttbr0_el1", 6) + LEFT + "tlbi 0 aside1is 0x5000000000000\n"
                   "tlbi 0 aside1is 0x6000000000000\n" + ANSWERED + BROKEN + "w 0 0x40000008 0xc0000f01\n",
                   "strict, told, alone"),
    "never loaded": (ISOLATED, ROOT.format("s2") + "init 0 0x40010000\nroot 0 el2 - 0x40010000\n"
                     "w 0 0x40000008 0x400007fd\n", "strict, unread"),
}


def log_of(header, events):
    return f"{header}\n{events}end {events.count(chr(10))}\n".encode()


def faults_of(log):
    """What is wrong with what is said of a log, and that in short."""
    refusal = PROGRAM.check(log).refusal
    if not refusal or refusal.rule not in ASKED:
        return [], ""
    whole, shrinker = Log(log), Shrinker(PROGRAM, Log(log), refusal)
    danger = danger_of(PROGRAM, whole, refusal, shrinker)
    if danger.word is Word.REAL:
        events = [step for step in danger.told.run.steps if not step.startswith("m ")]
        run = "\n".join([whole.header, *danger.told.run.steps, f"end {len(events)}", ""])
        count = len(danger.told.run.steps)
        wanted = f"run {count} steps" + ("" if refusal.rule == TABLE_MAPPED else f" conflict line {count + 1}")
        answer = judging.run(PROGRAM.path, ["follow"], run.encode())
        lines = [whole.event(line.at).plain for line in danger.told.lines]
        return ([] if answer.first == wanted else [f"real, and its run gives {answer}, not {wanted!r}"]) \
            + ([] if events == lines else ["real, and its run is over other events"]), short(danger)
    if danger.word is Word.STRICT and refusal.rule == BREAK_BEFORE_MAKE:
        answer = judging.run(PROGRAM.path, ["counterrun"], whole.cut(asked_lines(shrinker)))
        if answer.text.startswith("bbmlog"):
            return [f"strict, and counterrun has a run: {answer.text[:200]}"], short(danger)
    return [], short(danger)


def logs():
    """The refused logs, by name."""
    for expected in sorted(EXAMPLES.rglob("*.expected")):
        log = expected.with_suffix(".log")
        yield str(log.relative_to(EXAMPLES).with_suffix("")), log.read_bytes()
    for packed in sorted(pathlib.Path(os.environ["BBM_LOGS"]).glob("*.log.xz")) if "BBM_LOGS" in os.environ else ():
        yield str(packed), lzma.decompress(packed.read_bytes())


def long_logs():
    """Logs of more events than `counterrun` takes: the lines about the place are asked, unless they are too many."""
    log = EXAMPLES / "why/run_behind_a_switch.log"
    header, *lines = log.read_text().split("\n")[:-2]
    for event, wanted in (("dmb 0 ish", "real"), ("dsb 0 ish", "unknown")):
        long = log_of(header, "".join(f"{line}\n" for line in [*lines[:10], *[event] * 2100, *lines[10:]]))
        found = danger_of(PROGRAM, Log(long), PROGRAM.check(long).refusal)
        if short(found) != wanted or found.told and not 0 < found.asked < found.events:
            yield f"2,100 lines `{event}` in {log.name}: {short(found)}, asked of {found.asked} of {found.events}"


def danger():
    """The faults in what is said of each log."""
    yield from long_logs()
    for name, log in logs():
        faults, said = faults_of(log)
        wanted = SAID.get(name, "real" if name.startswith("refusals/run_") else said)
        for fault in [*faults, *([f"{said!r}, not {wanted!r}"] if said != wanted else [])]:
            yield f"{name}: {fault}"
    for name, (header, events, wanted) in MADE.items():
        faults, said = faults_of(log_of(header, events))
        if faults or said != wanted:
            yield f"{name}: {said!r}, not {wanted!r}: {faults}"
