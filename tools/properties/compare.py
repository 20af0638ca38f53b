# SPDX-License-Identifier: Apache-2.0
"""`check` and `slow` say the same, by their text and their status, where no limit of events decides. It is counted how
often each rule and limit was reached; a log that fails is shrunk.
"""
import judging

COUNT = 500
NAMED = ["accepted", *(f"rule {number} {name}" for number, name in enumerate(judging.RULES, 1))]


def options(words):
    words.add_argument("--other", help="the program of slow, if another one")


def differ(one, other):
    return one != other and not judging.by_events(one) and not judging.by_events(other)


def tried(asked, _chance, log, check, _number):
    by_slow = lambda log: judging.run(asked.other or asked.program, ["slow"], log)
    by_check = lambda log: judging.run(asked.program, ["check"], log)
    slow = by_slow(log)
    counts = {judging.reached(slow): 1}
    if not differ(check, slow):
        return log, counts, None
    log = judging.shrunk(log, lambda fewer: differ(by_check(fewer), by_slow(fewer)))
    return log, counts, f"check: {by_check(log)}\nslow: {by_slow(log)}"
