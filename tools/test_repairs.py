#!/usr/bin/env python3
# SPDX-License-Identifier: Apache-2.0
"""Which changes `why` finds, and in what time: on logs of a small hypervisor with one bug each (tools/hypervisor.py).

    tools/test_repairs.py [COUNT]     plants each bug so often, and says of how many logs one of the changes is accepted
                                      for the whole log, how many of these are told first, and the seconds that it took

The program is that of the environment variable BBM, else the built one. `tools/test_why` has the tests.
"""
import os
import statistics
import subprocess
import sys
import time
from itertools import count, islice

import hypervisor
import judging
from why.asking.effort import Effort, processors
from why.asking.least import FEW
from why.asking.program import Program
from why.log.lines import Log
from why.repairs.study import Studying
from why.telling.answer import views_of
from why.telling.edits import Teller

PROGRAM = os.path.realpath(judging.program())
# So often each bug is planted in a test, and so many logs have none. The time of a test is no matter: the machine may
# have other work.
PLANTED, RIGHT, PATIENT = 2, 6, 600
# What has to hold where it is measured: of how many of a hundred one change is accepted, and the seconds of half of
# them and of all.
OF_A_HUNDRED, MEDIAN, WORST = 95, 5, 30


def refused(bug):
    """The logs with this bug which are refused, by their seeds in order: in others nothing met it."""
    for seed in count():
        log = hypervisor.log_of(hypervisor.story(seed, bug))
        refusal = Program(PROGRAM).check(log).refusal
        if refusal:
            yield seed, log, refusal


def studying(log, refusal, seconds=PATIENT, jobs=1):
    return Studying(Program(PROGRAM), Log(log), refusal, Effort(seconds, jobs))


def accepted_of(repairs):
    """Which of the changes get the whole log accepted, by their numbers."""
    return [number for number, repair in enumerate(repairs, 1) if repair.whole.accepted]


# ---- tests: each yields its faults

def planted():
    """A hypervisor without a bug is accepted; with one that is met it is refused, and one of the changes gets the
    whole log accepted."""
    for seed in range(RIGHT):
        answer = Program(PROGRAM).check(hypervisor.log_of(hypervisor.story(seed)))
        if not answer.accepted:
            yield f"a hypervisor without a bug, seed {seed}: {answer.first}"
    for bug in hypervisor.BUGS:
        for seed, log, refusal in islice(refused(bug), PLANTED):
            found = list(studying(log, refusal).found())
            if not accepted_of(found):
                told = [Teller(Log(log)).repair(repair) for repair in found]
                at = f"line {refusal.line}, rule {refusal.rule}"
                yield f"{bug}, seed {seed}, {at}: none gets the whole log accepted: {told}"


def missing_clear():
    """A clear that is missing is put in before the refused line, by its PE, with its flush."""
    for seed, log, refusal in islice(refused("no break"), PLANTED):
        first, pe = next(studying(log, refusal).found()).change.edits, Log(log).event(refusal.line).pe
        if {edit.after for edit in first} != {refusal.line - 1} or not first[0].text.startswith(f"w {pe} "):
            yield f"no break, seed {seed}: first {first}"


def at_once():
    """Runs at once find the same changes in the same order; and none is told twice."""
    for bug in ("one DSB for two steps", "table cleared before its flush", "unmap without a flush"):
        for _, log, refusal in islice(refused(bug), 1):
            one, four = ([repair.change for repair in studying(log, refusal, jobs=jobs).found()] for jobs in (1, 4))
            if one != four or len({change.edits for change in one}) != len(one):
                yield f"{bug}: one run at a time finds {one}, and four {four}"


def out_of_time():
    """Without time the small log is all lines, no change is found, and both is said."""
    for _, log, refusal in islice(refused("unmap without a flush"), 1):
        under_way = studying(log, refusal, seconds=0)
        found, study = list(under_way.found()), under_way.ended()
        if found or len(study.small) != refusal.line - 1 or len(study.cut_off) != 2:
            yield f"no seconds: {found}, {study.cut_off}"


def few_lines():
    """The run of a log with locks is told over few lines, which the program refuses alike."""
    for seed, log, refusal in islice(refused("lock dropped early"), 1):
        under_way = studying(log, refusal)
        list(under_way.found())
        told = views_of(under_way.ended(), False).told
        lines = [line.at for line in told.lines] if told else []
        if not 0 < len(lines) <= FEW or not under_way.shrinker.holds(lines):
            yield f"lock dropped early, seed {seed}: the run is over lines {lines}"


TESTS = (planted, missing_clear, at_once, out_of_time, few_lines)


# ---- what it takes

def script(log, *words):
    """The seconds that the answer of `why` takes, by a process of its own, as JSON."""
    main = os.path.join(judging.TOP, "tools/why/main.py")
    begun = time.monotonic()
    subprocess.run([sys.executable, "-ESs", main, "why", "--format=json", *words], input=log, stdout=subprocess.DEVNULL,
                   check=False, env={**os.environ, "BBM": PROGRAM})
    return time.monotonic() - begun


def measured(bug, wanted):
    """Of how many logs a change is accepted, of how many the first one, and the seconds of each."""
    accepted, first, seconds = 0, 0, []
    for _, log, refusal in islice(refused(bug), wanted):
        numbers = accepted_of(studying(log, refusal, jobs=processors()).found())
        accepted, first = accepted + bool(numbers), first + (1 in numbers)
        seconds.append(script(log))
    return accepted, first, seconds


def told_of(seconds):
    return f"median {statistics.median(seconds):.1f} s, worst {max(seconds):.1f} s"


def main(wanted):
    good, all_of, times = 0, 0, []
    for bug in hypervisor.BUGS:
        accepted, first, seconds = measured(bug, wanted)
        print(f"{bug}: {accepted} of {wanted}, {first} told first; {told_of(seconds)}", flush=True)
        good, all_of, times = good + accepted, all_of + wanted, times + seconds
    print(f"all: {good} of {all_of}; {told_of(times)}")
    return int(good * 100 < OF_A_HUNDRED * all_of or statistics.median(times) > MEDIAN or max(times) > WORST)


if __name__ == "__main__":
    sys.exit(main(int(sys.argv[1]) if len(sys.argv) > 1 else 100))
