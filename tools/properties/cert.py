# SPDX-License-Identifier: Apache-2.0
"""`verify` says verified of an accepted log with the certificate that `cert` writes of it, and each line of the
certificate is there once and in its order. Where a log is refused, that is the log before the line that decides.

Then the certificate is changed: a claim is taken out, or one of its numbers is another. Of an accepted log `verify` may
still say verified. But behind the log up to a line that is refused the same certificates, changed or not, must never
get that answer where `counterrun` shows a run which `follow` takes to a conflict at that line: no list of claims verifies
a log that isn't safe.
"""
import judging

COUNT = 300
NAMED = ["claims", "logs that aren't safe"]
TAGS = ["el2", "vmid", "asid", "ttbr1"]


# ---- certificates

def key(claim):
    """Where a claim stands in a certificate: its event, places before tags, the place or tag, and the PE. The last
    position of a claim is that of its event."""
    fields = claim.split(" ")
    subject = (1, TAGS.index(fields[3]), int(fields[4])) if fields[1] == "tag" else (0, int(fields[3], 16), 0)
    return int(fields[-1]), *subject, int(fields[2])


def in_order(claims):
    return all(key(one) < key(next_one) for one, next_one in zip(claims, claims[1:]))


def other_number(field, choice):
    """Another number near that of a field, in its spelling."""
    number = int(field, 0)
    step = choice.choice([-3, -2, -1, 1, 2, 3]) * (8 if field.startswith("0x") else 1)
    changed = max(number + step, 0)
    return (hex if field.startswith("0x") else str)(changed if changed != number else number + abs(step))


def changed(claims, choice):
    """The claims without one of them, or with one number of one of them changed."""
    claims, at = list(claims), choice.randrange(len(claims))
    if choice.random() < 0.3:
        del claims[at]
        return claims
    fields = claims[at].split(" ")
    number = choice.choice([i for i, field in enumerate(fields) if field[0].isdigit()])
    fields[number] = other_number(fields[number], choice)
    claims[at] = " ".join(fields)
    return claims


# ---- what is said by them

def shows_conflict(program, log):
    """Whether `counterrun` has a run of the log that `follow` takes to a conflict."""
    run = judging.run(program, ["counterrun"], log).text
    return run.startswith("bbmlog") and " conflict " in judging.run(program, ["follow"], run.encode()).text


def fault_of_made(program, log, made):
    """What is wrong with the certificate of an accepted log, or None."""
    wrong = judging.fault_of(["cert"], made)
    if wrong or made.status != 0:
        return wrong or str(made)
    claims = made.text.split("\n")[1:-2]
    if judging.certificate(claims) != made.text or not in_order(claims):
        return "another count or order"
    said = judging.verified(program, log, claims)
    wanted = f"verified {len(log.splitlines()) - 2} events {len(claims)} claims\n"
    return None if (said.status, said.text) == (0, wanted) else str(said)


def fault_of_changed(program, log, unsafe, claims):
    """What is wrong with what is said by a changed certificate, or None."""
    said = judging.verified(program, log, claims)
    wrong = judging.fault_of(["verify"], said)
    if wrong or said.status not in (0, 1, 2):
        return f"with {claims}: {wrong or said}"
    if unsafe and judging.verified(program, unsafe, claims).status == 0:
        return f"with {claims}: verified, and it isn't safe"
    return None


def fault(asked, log, unsafe, choice):
    """What is wrong with what is said of an accepted log, and of one that isn't safe, or None; and how many claims."""
    made = judging.run(asked.program, ["cert"], log)
    wrong = fault_of_made(asked.program, log, made)
    if wrong:
        return f"{made}: {wrong}", 0
    claims = made.text.split("\n")[1:-2]
    tried_claims = [claims, *(changed(claims, choice) for _ in range(asked.changes if claims else 0))]
    faults = (fault_of_changed(asked.program, log, unsafe, some) for some in tried_claims)
    return next(filter(None, faults), None), len(claims)


def options(words):
    words.add_argument("--changes", type=int, default=4, help="the changed certificates of a log")


def tried(asked, chance, log, check, _number):
    if check.status not in (0, 1):
        return None
    before, until = judging.cut_before(log, check) if check.status else (log, None)
    unsafe = until if until and shows_conflict(asked.program, until) else None
    wrong, claims = fault(asked, before, unsafe, chance)
    return unsafe or before, {"claims": claims, "logs that aren't safe": unsafe is not None}, wrong
