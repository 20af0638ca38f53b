# SPDX-License-Identifier: Apache-2.0
"""Tests that are tables, by unittest: rows of commands with what they print, and the tests of a file side by side.

A row is a line of a text: `COMMAND => OUTPUT ! ERRORS ? STATUS`. The three behind the command may be left out, for no
output, no errors and 0. In the output and the errors ` / ` ends a line, `..` stands for anything on a line, `...` for
anything, and a last newline for nothing.
"""
import re
import sys
import unittest
from concurrent.futures import ThreadPoolExecutor

ROW = re.compile(r"(.*?)(?:\s+=>(?: (.*?))?)?(?:\s+! (.*?))?(?:\s+\? (\d+))?")


def rows(table):
    """The rows of a table: command, output, errors, status."""
    for line in filter(None, map(str.strip, table.splitlines())):
        command, said, told, status = ROW.fullmatch(line).groups()
        yield command, said or "", told or "", int(status or 0)


def fits(text, wanted):
    """Whether a text is as a row has it."""
    form = re.escape(wanted.replace(" / ", "\n")).replace(r"\.\.\.", "(?s:.*)").replace(r"\.\.", ".*")
    return re.fullmatch(form, text.removesuffix("\n"))


def tried(test):
    """The faults of one test, and why it was left out; each has a result of its own, since they run side by side."""
    result = unittest.TestResult()
    test.run(result)
    return [f"FAILED {of}\n{text}" for of, text in result.failures + result.errors], [f"left out {test}: {why}" for _, why in result.skipped]


def run(words, pool=None):
    """Runs the tests of the command's file whose names have one of the words, all where none is given, and prints each
    fault. Returns 0 where there is none and a test was run. Without a pool there are four threads, for tests that mostly wait."""
    cases = unittest.defaultTestLoader.loadTestsFromModule(sys.modules["__main__"])
    tests = [test for case in cases for test in case if not words or any(word in test.id() for word in words)]
    faulty = 0
    with pool or ThreadPoolExecutor(4) as pool:
        for faults, left_out in pool.map(tried, tests):
            faulty += bool(faults)
            for text in (*faults, *left_out):
                print(text, flush=True)
    print(f"{len(tests) - faulty} passed, {faulty} failed")
    return 1 if faulty or not tests else 0
