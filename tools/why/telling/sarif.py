# SPDX-License-Identifier: Apache-2.0
"""A log of SARIF 2.1.0: a result for each finding, with its rule, its cause and its change, and whether all was
judged."""
from __future__ import annotations

import hashlib
import json
import os
import re
import subprocess
from urllib.parse import quote

from why.asking.program import TOP, Verdict
from why.repairs.changes import Drop, Edit, Move, Put, Swap
from why.telling import formats
from why.telling.formats import Finding
from why.telling.known import Deviation
from why.telling.rules import cause_of_number, rule_of

SCHEMA = "https://json.schemastore.org/sarif-2.1.0.json"
VERSION, FINGERPRINT = "2.1.0", "bbmFinding/v1"
# What is said of the ids that are none of a rule.
OTHERS = {"bbm limit": "A line reaches a limit of the program, so nothing from there on is judged.",
          "bbm unreadable": "There is no answer to a log.",
          "bbm stopped": "The search stops at a line, and nothing behind it is judged.",
          "bbm unlocked": "A lock is given back before the flush of a place of its trees is answered."}


def shown(text: str) -> str:
    """A text as JSON can have it: bytes of a name that are none of UTF-8 as they are written in C."""
    return text.encode("utf-8", "surrogateescape").decode("utf-8", "backslashreplace")


def uri_of(name: str) -> str:
    """The name of a file, which can have any bytes, as the reference of a URI."""
    return quote(os.fsencode(name), safe="/")


def artifact_of(name: str) -> dict:
    return {"uri": uri_of(name or formats.UNNAMED)}


def place_of(finding: Finding) -> dict:
    """The file, and its line where one decides."""
    line = finding.file_line or finding.verdict.line
    region = {"region": {"startLine": line}} if line else {}
    return {"physicalLocation": {"artifactLocation": artifact_of(finding.file or finding.log), **region}}


def message_of(finding: Finding, note: str = "") -> dict:
    line = finding.verdict.line
    parts = (finding.message, f", line {line} of the log" if line else "", f": {note}" if note else "")
    return {"text": shown("".join(parts))}


def result_of(finding: Finding, note: str = "", known: Deviation | None = None, cause: Finding | None = None,
              fix: dict | None = None) -> dict:
    """A result: of a finding, of a line that can't be judged, or of a log without an answer."""
    more = {"suppressions": [{"kind": "external", "justification": shown(known.comment)}]} if known else {}
    if cause:
        more["relatedLocations"] = [{**place_of(cause), "message": message_of(cause)}]
    if fix:
        more["fixes"] = [fix]
    return {"ruleId": finding.tag, "level": "note" if known else "error", "message": message_of(finding, note),
            "locations": [place_of(finding)],
            "partialFingerprints": {FINGERPRINT: fingerprint_of(finding, cause)}, **more}


def fingerprint_of(finding: Finding, cause: Finding | None) -> str:
    """What stays the same over logs: the rule, the label of the make or else its place, and that of the cause."""
    verdict = finding.verdict
    parts = (finding.tag, verdict.label or hex(verdict.at), cause.verdict.label if cause else "")
    return hashlib.sha256("\0".join(parts).encode("utf-8", "surrogateescape")).hexdigest()[:32]


# ---- changes

def line_of(at: int) -> dict:
    """The region of a whole line of the log with its newline."""
    return {"startLine": at, "startColumn": 1, "endLine": at + 1, "endColumn": 1}


def replacements(edit: Edit, log) -> list[dict]:
    """What an edit replaces in the log: lines by their numbers."""
    before = lambda at: {"startLine": at, "startColumn": 1, "endLine": at, "endColumn": 1}
    put = lambda after, text: {"deletedRegion": before(after + 1), "insertedContent": {"text": f"{text}\n"}}
    if isinstance(edit, Put):
        return [put(edit.after, edit.text)]
    if isinstance(edit, Swap):
        return [{"deletedRegion": line_of(edit.at), "insertedContent": {"text": f"{edit.text}\n"}}]
    gone = {"deletedRegion": line_of(edit.at)}
    if isinstance(edit, Drop):
        return [gone]
    return [gone, put(edit.after, log.line(edit.at).text)] if isinstance(edit, Move) else []


def fix_of(item, log) -> dict:
    """The change of a finding, as it is made in the log; its `end` line has to count then what is put in and left
    out."""
    made = [one for edit in item.change.edits for one in replacements(edit, log)]
    return {"description": {"text": shown("; ".join(item.texts))},
            "artifactChanges": [{"artifactLocation": artifact_of(item.finding.log), "replacements": made}]}


# ---- the whole

def notification_of(finding: Finding, note: str = "") -> dict:
    """That not all was judged."""
    return {"level": "error", "descriptor": {"id": finding.tag}, "message": message_of(finding, note),
            "locations": [place_of(finding)]}


def rules_of(tags: list[str]) -> list[dict]:
    """What the documents say of the ids that the results have."""
    return [rule_for(tag) for tag in dict.fromkeys(tags)]


def rule_for(tag: str) -> dict:
    number = re.fullmatch(r"bbm rule (\d+)", tag)
    rule = rule_of(int(number[1])) if number else None
    if rule:
        return {"id": tag, "name": rule.name, "shortDescription": {"text": f"rule {rule.number}, {rule.name}"},
                "fullDescription": {"text": rule.sentence}, "defaultConfiguration": {"level": "error"},
                "help": {"text": f"The usual bug: {rule.bug}\n\nRight: {rule.right}"}}
    cause = re.fullmatch(r"bbm cause (\d+)", tag)
    said = cause_of_number(int(cause[1])) if cause else OTHERS.get(tag)
    about = {"shortDescription": {"text": said}} if said else {}
    return {"id": tag, **about, "defaultConfiguration": {"level": "error"}}


def version() -> str:
    """The commit of the program, as `bbm --version` says it."""
    try:
        with open(f"{TOP}/version", encoding="utf-8") as file:
            said = file.read()
    except OSError:
        how = {"capture_output": True, "text": True, "check": False, "stdin": subprocess.DEVNULL}
        try:
            said = "commit " + subprocess.run(["git", "-C", TOP, "log", "-1", "--format=%h of %cs"], **how).stdout
        except OSError:
            said = ""
    found = re.search(r"commit (\w+ of [\d-]+)", said)
    return found[1] if found else "unknown"


def log_of(results: list[dict], notifications: list[dict]) -> dict:
    driver = {"name": "bbm", "version": version(), "rules": rules_of([result["ruleId"] for result in results])}
    invocation = {"executionSuccessful": not notifications, "toolExecutionNotifications": notifications}
    run = {"tool": {"driver": driver}, "invocations": [invocation], "results": results}
    return {"$schema": SCHEMA, "version": VERSION, "runs": [run]}


def text_of(results: list[dict], notifications: list[dict]) -> str:
    return json.dumps(log_of(results, notifications)) + "\n"


def joined(logs: list[dict]) -> str:
    """One log with the results of these, and whether all of them were judged."""
    runs = [log["runs"][0] for log in logs]
    notes = [note for run in runs for note in run["invocations"][0]["toolExecutionNotifications"]]
    return text_of([result for run in runs for result in run["results"]], notes) if runs else ""


def unread(why: str, name: str, form: str) -> str:
    """What is told of a log that can't be read, or has no answer, in each form."""
    finding = Finding(Verdict(formats.UNREADABLE, name=why), name)
    if form in formats.FORMS:
        return formats.FORMS[form](finding) + "\n"
    return text_of([result_of(finding)], [notification_of(finding)])
