#!/usr/bin/env python3
# SPDX-License-Identifier: Apache-2.0
"""Times programs on made logs, beside `wc -l` on the same bytes.

The logs are those of `logs.py`, by name, each with the verdict that it must have. It prints for each program the user and
system seconds, events and MB a second, the ratio to `wc -l`, and the peak memory: the best of so many runs. The programs
take turns, so that each meets the machine as the others do. Peak memory is never told below that of this script, some
15 MB. No test asserts a time. With --instructions it prints the instructions that an event takes in place of that, by
valgrind's callgrind: on a log of 100,000 events they are the same on each machine, within 1 in 100.

    bench/bench.py                             bbm check, on a log within the limits of this version
    bench/bench.py --log all --events 1900 --rounds 1 --slow
    bench/bench.py --log broken_at_once --events 3006000
    bench/bench.py --log all --events 100000 --instructions
    bench/bench.py --events 1000000 --program 'stage=PATH' --answer 'lines 1000002'
"""
import argparse
import os
import re
import shlex
import shutil
import subprocess
import sys
import tempfile
import threading

from logs import LOGS, lines, verdict

TOP = os.path.dirname(os.path.dirname(os.path.realpath(__file__)))
BUILT = os.path.join(TOP, "crates/bbm_cli/out/bbm_cli")


def run(words, log, seconds):
    """The user seconds, system seconds and peak MB of one run, and what it wrote, or None where it took too long."""
    with open(log, "rb") as bytes_in:
        process = subprocess.Popen(words, stdin=bytes_in, stdout=subprocess.PIPE)
        late = threading.Timer(seconds, process.kill)
        late.start()
        wrote = process.stdout.read().decode()
        _, status, spent = os.wait4(process.pid, 0)
        in_time = late.is_alive()
        late.cancel()
        process.returncode = os.waitstatus_to_exitcode(status)
    return (spent.ru_utime, spent.ru_stime, spent.ru_maxrss / 1024), wrote.strip() if in_time else None


def instructions(asked, name, log, programs):
    """Prints the instructions of an event, of each program but wc."""
    for program, command, answer in programs[1:]:
        counted = ["valgrind", "--tool=callgrind", "--callgrind-out-file=/dev/null", *command]
        with open(log, "rb") as bytes_in:
            ran = subprocess.run(counted, stdin=bytes_in, capture_output=True, text=True)
        if ran.stdout.strip() != answer:
            sys.exit(f"bench: {program} wrote {ran.stdout.strip()!r}, and not {answer!r}")
        count = int(re.search(r"Collected : (\d+)", ran.stderr)[1])
        print(f"{name:<24}{program:<16}{count / asked.events:>9.0f}", flush=True)


def programs_of(asked, expected):
    """Each program: its name, its command and what it has to write."""
    programs = [("wc -l", ["wc", "-l"], str(asked.events + 2))]
    if not asked.no_bbm:
        programs += [(f"bbm {word}", [BUILT, word], expected) for word in ["check"] + ["slow"] * asked.slow]
    for program in asked.program:
        name, _, command = program.partition("=")
        programs.append((name, shlex.split(command), expected))
    return programs


def best_of(asked, log, programs):
    """The run of least time of each program, by name; without those that ran too long."""
    best, late = {}, set()
    for _ in range(asked.rounds):
        for name, command, answer in programs:
            if name in late:
                continue
            spent, wrote = run(command, log, asked.seconds)
            if wrote is None:
                print(f"{name}: no answer in {asked.seconds:g} seconds")
                late.add(name)
                continue
            if wrote != answer:
                sys.exit(f"bench: {name} wrote {wrote!r}, and not {answer!r}")
            best[name] = min(best.get(name, spent), spent, key=lambda run: run[0] + run[1])
    return best


def table(asked, name, size, best):
    print(f"{name}: {asked.events} events, {size:.3f} MB, best of {asked.rounds}")
    print(f"{'program':<16}{'user s':>9}{'system s':>10}{'events/s':>14}{'MB/s':>10}{'/ wc -l':>9}{'peak MB':>9}")
    least = max(sum(best["wc -l"][:2]), 1e-6)
    for program, (user, system, peak) in best.items():
        total = max(user + system, 1e-6)
        print(f"{program:<16}{user:>9.3f}{system:>10.3f}{asked.events / total:>14.0f}{size / total:>10.1f}{total / least:>9.1f}{peak:>9.1f}")


def bench(asked, name, folder):
    """Times the programs on one log."""
    path = os.path.join(folder, "log")
    expected = asked.answer or f"accepted {asked.events} events"
    if asked.file:
        shutil.copy(asked.file, path)
    else:
        log = LOGS[name](asked.events)
        expected = asked.answer or verdict(log, asked.events)
        with open(path, "wb") as out:
            out.writelines(lines(log, asked.events))
    programs = programs_of(asked, expected)
    if asked.instructions:
        instructions(asked, asked.file or name, path, programs)
        return
    table(asked, asked.file or name, os.path.getsize(path) / 1e6, best_of(asked, path, programs))


def main():
    words = argparse.ArgumentParser(description=__doc__, formatter_class=argparse.RawDescriptionHelpFormatter)
    words.add_argument("--events", type=int, default=1900, help="the events of the log")
    words.add_argument("--log", choices=[*LOGS, "all"], default="moves", help="the log, or all of them")
    words.add_argument("--file", help="a log that is there, in place of one of those; with it give --events, and --answer")
    words.add_argument("--rounds", type=int, default=7, help="the runs of which the best counts")
    words.add_argument("--program", action="append", default=[], help="NAME=COMMAND, beside bbm check")
    words.add_argument("--seconds", type=float, default=600, help="how long a run may take")
    words.add_argument("--answer", help="what the programs write; else the verdict of the log")
    words.add_argument("--slow", action="store_true", help="bbm slow too")
    words.add_argument("--instructions", action="store_true", help="instructions of an event in place of times, by valgrind")
    words.add_argument("--no-bbm", action="store_true", help="without bbm check")
    asked = words.parse_args()
    if not asked.no_bbm:
        # The script builds the program, where that is needed, before the time is taken.
        subprocess.run([os.path.join(TOP, "bbm")], stdin=subprocess.DEVNULL, stdout=subprocess.DEVNULL)
    with tempfile.TemporaryDirectory() as folder:
        for name in LOGS if asked.log == "all" and not asked.file else [asked.log]:
            bench(asked, name, folder)


if __name__ == "__main__":
    main()
