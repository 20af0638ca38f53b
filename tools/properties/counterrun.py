# SPDX-License-Identifier: Apache-2.0
"""Of a log that break-before-make refuses `counterrun` writes a run over the events up to the refused one, which `follow`
takes to a conflict at that one; or `none`; or, where the place holds no leaf, the line of `check`.

With --plans N every run that has the form of `counterrun` is tried by `follow`, in its order, for N of the logs, and
the first that ends in the conflict has to be the text. That takes thousands of processes a log.
"""
import re

import judging

COUNT = 500
NAMED = ["runs", "without", "lines"]
LABEL = re.compile(rb" @\S+$", re.M)


# ---- the form of a run

def follows(program, text):
    """Whether `follow` finds the first conflict of the run at its last step."""
    steps = text.count(b"\n") - 2
    return judging.run(program, ["follow"], text).text == f"run {steps} steps conflict line {steps + 1}\n"


def last_valid(events, place):
    """The last valid value that was written at the place before the last event."""
    values = [int(value, 16) for word, at, value in writes(events[:-1]) if at == place and int(value, 16) & 1]
    return values[-1] if values else 0


def writes(events):
    return [(fields[0], int(fields[2], 16), fields[3]) for fields in map(bytes.split, events) if fields[0] == b"w"]


def fault_of_run(program, log, check, answer):
    """What is wrong with an answer that is a run, or None."""
    until = LABEL.sub(b"", judging.cut_before(log, check)[1])
    text = answer.text.encode()
    if judging.without_steps(text) != until:
        return "a run over another log"
    return None if follows(program, text) else "no run to a conflict at its end"


def fault(program, log, check):
    """What kind of text is written of a refused log, and what is wrong with it, or None."""
    answer = judging.run(program, ["counterrun"], log)
    wrong = judging.fault_of(["counterrun"], answer)
    if wrong or answer.status != 1:
        return "without", wrong or str(answer)
    if answer.text == "none\n":
        return "without", None
    if answer.text != check.text:
        return "runs", fault_of_run(program, log, check, answer)
    place = int(check.first.split()[7], 16)
    events = judging.cut_before(log, check)[1].split(b"\n")[1:-2]
    return "lines", "a line, though the place holds a block" if last_valid(events, place) & 3 == 1 else None


# ---- every run of the form

def walks(header, events):
    """Each walk over written values that reads the place of the last event: its kind and its reads."""
    pages = int(header.split()[6]) if header.split()[2] == b"hyp" else 1
    values = {}
    for _, place, value in writes(events[:-1]):
        if int(value, 16) & 1:
            values.setdefault(place, set()).add(int(value, 16))
    found, goal = set(), int(events[-1].split()[2], 16)
    roots = {(fields[2], int(fields[4], 16)) for fields in map(bytes.split, events) if fields[0] == b"root"}
    open_walks = [(kind, base, pages if kind == b"s2" else 1, ()) for kind, base in roots]
    while open_walks:
        kind, page, count, reads = open_walks.pop()
        for place in values:
            if page <= place < page + 4096 * count:
                for value in values[place]:
                    walk = reads + ((place, value),)
                    found.add((kind, walk))
                    if value & 3 == 3 and len(walk) < 4:
                        open_walks.append((kind, value & 0xfffffffff000, 1, walk))
    return sorted((walk for walk in found if any(place == goal for place, _ in walk[1])), key=lambda walk: walk[1])


def run_text(header, events, starts, pe, number, walk, joins):
    """The text of the run with this start and walk, and where it is combined."""
    kind, reads = walk
    steps = [b"m start %d %s %d %#x %#x" % (pe, kind, number, *reads[0])]
    steps += [b"m extend %d %#x %#x" % (entry, *read) for entry, read in enumerate(reads[1:], 1)]
    steps += [b"m drop %d" % entry for entry in range(1, len(reads))]
    if joins is None:
        behind = events[starts:]
    else:
        behind = events[starts:joins] + [b"m combine %d" % len(reads), b"m drop %d" % len(reads)] + events[joins:]
    return b"\n".join([header, *events[:starts], *steps, *behind, b"end %d" % len(events), b""])


def first_run(program, log, check):
    """The first run of the form that ends in the conflict, `none` where there is none."""
    header, *events = LABEL.sub(b"", judging.cut_before(log, check)[1]).split(b"\n")[:-2]
    numbers = sorted({0} | {int(event.split()[3], 16) >> 48 for event in events if event.startswith(b"msr ")})
    found = walks(header, events)
    for starts in range(1, len(events)):
        for pe in range(int(header.split()[3])):
            for number in numbers:
                for walk in found:
                    for joins in [None, *(range(starts, len(events)) if walk[0] == b"s2" else ())]:
                        text = run_text(header, events, starts, pe, number, walk, joins)
                        if follows(program, text):
                            return text.decode()
    return "none\n"


def options(words):
    words.add_argument("--plans", type=int, default=0, help="the logs of which every run is tried")


def tried(asked, _chance, log, check, number):
    if " rule 4 " not in check.first:
        return None
    kind, wrong = fault(asked.program, log, check)
    if not wrong and kind != "lines" and number < asked.plans:
        text = judging.run(asked.program, ["counterrun"], log).text
        first = first_run(asked.program, log, check)
        wrong = None if text == first else f"not the first run, which is\n{first}"
    return log, {kind: 1}, wrong
