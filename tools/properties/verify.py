# SPDX-License-Identifier: Apache-2.0
"""With every claim that can be true, `verify` says of a log what `check` says of it: the claims that are false count
for nothing. With a part of them it says that of a later event, or of an earlier one, by a text of its form; and then with
the claims in another order and some of them twice the same.

A log that is refused ends with the line that decides, and one that is malformed or reaches a limit is left out.
"""
import re

import judging

COUNT = 300
NAMED = ["refused"]
# The most claims that `verify` takes.
MOST = 300_000


# ---- every claim that can be true

def publishes(event, pe):
    """Whether it is a `dsb` that publishes to the PE."""
    return event[0] == "dsb" and not event[2].endswith("ld") and (not event[2].startswith("nsh") or event[1] == str(pe))


def answer_of(events, t):
    """The position of the `dsb` that answers the TLBI at position t, or None."""
    pe, op = events[t - 1][1:3]
    options = ("ish", "osh", "sy") if op.endswith("is") else ("ish", "osh", "sy", "nsh")
    return next((d for d, event in enumerate(events[t:], t + 1) if event[:2] == ["dsb", pe] and event[2] in options), None)


def publications(events, t, pe):
    """For each place that was written the positions before t at which a `dsb` may publish a write of it to the PE: of
    each issuer the last."""
    last, written, found = {}, {}, {}
    for b, event in enumerate(events[:t - 1], 1):
        if event[0] == "w":
            written.setdefault(event[1], set()).add(event[2])
        if publishes(event, pe):
            last[event[1]] = b, set(written.get(event[1], ()))
    for b, places in last.values():
        for place in places:
            found.setdefault(place, []).append(b)
    return found


def tags(events):
    """The tags that the root registers of a log can make readable."""
    numbers = {int(event[3], 16) >> 48 for event in events if event[0] == "msr"}
    return ["el2 0", "ttbr1 0", *(f"{kind} {number}" for kind in ("vmid", "asid") for number in sorted(numbers))]


def flushes(events, pe):
    """The positions of the TLBIs that reach the PE, each with that of its answer."""
    of = ((t, answer_of(events, t)) for t, event in enumerate(events, 1)
          if event[0] == "tlbi" and (event[2].endswith("is") or event[1] == str(pe)))
    return [(t, d) for t, d in of if d]


def claims_at(events, pe):
    """Every claim of the PE that can be true."""
    pairs = flushes(events, pe)
    yield from (f"c tag {pe} {tag} {t} {d}" for t, d in pairs for tag in tags(events))
    for t, d in pairs:
        for place, barriers in publications(events, t, pe).items():
            for b in barriers:
                yield f"c place {pe} {place} {b} {t} {d}"
                yield from (f"c two {pe} {place} {b} {t} {d} {t2} {d2}" for t2, d2 in pairs if t2 > d)


def claims_of(log):
    header, *lines = log.decode().split("\n")[:-2]
    events = [line.split(" ") for line in lines]
    return [claim for pe in range(int(header.split(" ")[3])) for claim in claims_at(events, pe)]


# ---- what is said by them

def as_check(answer, claims):
    """What `verify` says with claims by which every pattern counts, where `check` says this."""
    if answer.status == 0:
        return answer.text.replace("accepted", "verified").replace(" events", f" events {claims} claims")
    return re.sub(r" @\S+$", "", answer.text.replace("refused", "unverified"), flags=re.M)


def fault(program, log, check, choice):
    """What is wrong with the answers by the claims of a log, or None."""
    claims = claims_of(log)
    if len(claims) > MOST:
        return None
    answer = judging.verified(program, log, claims)
    if (answer.status, answer.text) != (check.status, as_check(check, len(claims))):
        return f"check: {check}; with {len(claims)} claims: {answer}"
    some = [claim for claim in claims if choice.random() < choice.choice([0.0, 0.5, 0.9])]
    part = judging.verified(program, log, some)
    wrong = judging.fault_of(["verify"], part)
    if wrong or part.status not in (0, 1):
        return f"with {some}: {part}"
    mixed = some + some[:3]
    choice.shuffle(mixed)
    again = judging.verified(program, log, mixed)
    if again.status != part.status or again.status == 1 and again.text != part.text:
        return f"with {some}: {part}; in another order: {again}"
    return None


def tried(asked, chance, log, check, _number):
    if check.status not in (0, 1):
        return None
    log = judging.cut_before(log, check)[1] if check.status else log
    return log, {"refused": check.status}, fault(asked.program, log, check, chance)
