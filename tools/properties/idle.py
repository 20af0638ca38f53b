# SPDX-License-Identifier: Apache-2.0
"""Without its idle events, as `idle` tells them, and with its count corrected, an accepted log is accepted, and has no
idle event. Where a log is refused, that is the log before the line that decides. Any half of the idle events is taken out,
too.
"""
import re

import judging

COUNT = 500
NAMED = ["idle events"]


def without(log, lines):
    """The log without the events on these lines, its count corrected."""
    header, *events = log.split(b"\n")[:-2]
    return judging.joined(header, [event for number, event in enumerate(events, 2) if number not in lines], True)


def idle_lines(answer):
    return [int(number) for number in re.findall(r"^idle line (\d+)$", answer.text, re.M)]


def fault(program, log, choice):
    """What is wrong with the answer to an accepted log, or None; and how many idle events it has."""
    answer = judging.run(program, ["idle"], log)
    lines = idle_lines(answer)
    wrong = judging.fault_of(["idle"], answer)
    if wrong or answer.status != 0:
        return wrong or str(answer), len(lines)
    rest = judging.run(program, ["idle"], without(log, lines))
    if rest.status != 0 or idle_lines(rest):
        return f"without {lines}: {rest}", len(lines)
    some = {number for number in lines if choice.random() < 0.5}
    half = judging.run(program, ["check"], without(log, some))
    return (None if half.status == 0 else f"without {sorted(some)}: {half}"), len(lines)


def tried(asked, chance, log, check, _number):
    if check.status not in (0, 1):
        return None
    log = judging.cut_before(log, check)[0] if check.status else log
    wrong, events = fault(asked.program, log, chance)
    return log, {"idle events": events}, wrong
