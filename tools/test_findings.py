# SPDX-License-Identifier: Apache-2.0
"""Tests of `findings`, `pending --unlocks` and what lines name. `tools/test_why` runs them with its own.

- A search that stops, for each reason, is an error in each form, though all findings are known; and SARIF is by its
schema. - One wrong line of the source is one finding, at each line with its label; another bug at the same make isn't
known by it. - Names of logs in any bytes, bytes behind the `end` line, and files that can't be written. - Places that
are held where a lock is given back: a lock that is dropped early, and an unmap without a flush. - The page, in a real
browser where there is one: it shows, searches, folds, loads nothing, in the light and the dark, and is no wider than
the window.
"""
import json
import os
import pathlib
import re
import shutil
import subprocess
import tempfile

import judging
from why.asking.program import Program
from why.log.lines import Log
from why.repairs.findings import Searcher, findings_of
from why.telling.findings import Report

# ---- logs

HYP = "bbmlog 3 hyp 2 1 1 1 -\n"
MAPPED = "init 0 0x40000000 @alloc\nroot 0 el2 {} 0x40000000 @begin\n"
# A block that is mapped, and remapped so often: the TLBI of each is as the test has it, at one line of the source.
FIRST = "w 0 0x40000008 0x80000701 @map.c:8\ndsb 0 ishst @map.c:9\n"
REMAP = "w 0 {place} 0x0 @map.c:20\ndsb 0 ishst @map.c:21\n{flush}dsb 0 ish @map.c:23\n" \
    "w 0 {place} {value} @map.c:24\ndsb 0 ishst @map.c:25\n"
LOCAL, RIGHT = "tlbi 0 vae2 {page} @map.c:22\n", "tlbi 0 vae2is {page} @map.c:22\n"
TIMES = 30


def remaps(flushes):
    """A log that remaps one of two blocks by each of these flushes, in turn."""
    events = MAPPED.format("-") + FIRST + FIRST.replace("0x40000008 0x8", "0x40000010 0xc")
    for number, flush in enumerate(flushes):
        place, page = (("0x40000008", "0x40000"), ("0x40000010", "0x80000"))[number % 2]
        events += REMAP.format(place=place, flush=flush.format(page=page), value=hex(0x1_4000_0701 + (number << 30)))
    return events


# Under a lock: a block that is unmapped with the flush before the `unlock`, behind it, and never.
SECTION = "lock 1 5 @take\n{}unlock 1 5 @give\n"
MAP, UNMAP = "w 1 0x40000008 {} @map\ndsb 1 ishst @map\n", "w 1 0x40000008 0x0 @unmap\n"
FLUSH = "dsb 1 ishst @flush\ntlbi 1 vae2is 0x40000 @flush\ndsb 1 ish @flush\n"
HELD = "unlock line {} @give lock 5 place 0x40000008 cleared line {} @unmap alike {} {} 0-1"
MADE = MAP.format("0x80000701")
LOCKED = {
    "flushed": ([MADE, UNMAP + FLUSH, MAP.format("0xc0000701"), UNMAP + FLUSH], "", []),
    "dropped early": ([MADE, UNMAP], FLUSH, [HELD.format(10, 9, 1, "broken")]),
    "never flushed": ([MADE, UNMAP], "", [HELD.format(10, 9, 1, "broken")]),
    "flushed for another page": ([MADE, UNMAP + FLUSH.replace("0x40000 ", "0x80000 ")], "",
                                 [HELD.format(13, 9, 1, "seen")]),
    "the second time": ([MADE, UNMAP + FLUSH, MAP.format("0xc0000701"), UNMAP], FLUSH,
                        [HELD.format(20, 19, 2, "broken")]),
}

# What `why` says of lines, by hand from the logs.
DECODED = {
    "why/flush_under_another_vmid": (
        "line 13 @unmap: IPA 0x40000000, VMID 2, that of PE 0, no hint; it is of another tag than the place",
        "line 17 @remap: IPA 0x40000000, VMID 1, level 1: 1 GiB block, cleared, to 1 GiB block",
        "  13  Too  tlbi 0 ipas2e1is 0x40000 @unmap"),
    "why/asid_of_another_process": (
        "line 9 @unmap: VA 0x40000000, ASID 8, no hint; it is of another tag than the place",),
    "a hint": ("VA 0x40000000, hint level 3 (4 KiB); it has the hint of another level than the place has",),
    "why/block_over_a_table": ("level 2: nothing to 2 MiB block",),
}

# ---- the schema of SARIF 2.1.0, as far as it is used: for each object its members with their forms, and those that it
# has to have. A form is a type, a list of one form, the name of an object, or the values that there may be.

LEVELS = {"none", "note", "warning", "error"}
SCHEMA = {
    "log": ({"$schema": str, "version": {"2.1.0"}, "runs": ["run"]}, ("version", "runs")),
    "run": ({"tool": "tool", "invocations": ["invocation"], "results": ["result"]}, ("tool",)),
    "tool": ({"driver": "driver"}, ("driver",)),
    "driver": ({"name": str, "version": str, "rules": ["rule"]}, ("name",)),
    "rule": ({"id": str, "name": str, "shortDescription": "text", "fullDescription": "text", "help": "text",
              "defaultConfiguration": "configuration"}, ("id",)),
    "configuration": ({"level": LEVELS}, ()),
    "text": ({"text": str}, ("text",)),
    "invocation": ({"executionSuccessful": bool, "toolExecutionNotifications": ["notification"]},
                   ("executionSuccessful",)),
    "notification": ({"level": LEVELS, "descriptor": "descriptor", "message": "text", "locations": ["location"]},
                     ("message",)),
    "descriptor": ({"id": str}, ()),
    "result": ({"ruleId": str, "level": LEVELS, "message": "text", "locations": ["location"],
                "relatedLocations": ["location"], "fixes": ["fix"], "partialFingerprints": dict,
                "rank": float, "properties": dict, "suppressions": ["suppression"]}, ("message",)),
    "location": ({"physicalLocation": "place", "message": "text"}, ()),
    "place": ({"artifactLocation": "artifact", "region": "region"}, ("artifactLocation",)),
    "artifact": ({"uri": str}, ()),
    "region": ({name: int for name in ("startLine", "startColumn", "endLine", "endColumn")}, ()),
    "suppression": ({"kind": {"inSource", "external"}, "justification": str}, ("kind",)),
    "fix": ({"description": "text", "artifactChanges": ["change"]}, ("artifactChanges",)),
    "change": ({"artifactLocation": "artifact", "replacements": ["replacement"]}, ("artifactLocation", "replacements")),
    "replacement": ({"deletedRegion": "region", "insertedContent": "text"}, ("deletedRegion",)),
}
URI = re.compile(r"(?:[A-Za-z0-9._~/!$&'()*+,;=@-]|%[0-9A-F]{2})+")


def faults_of_sarif(value, form="log", at="log"):
    """What of a value isn't by the schema."""
    if isinstance(form, list):
        if not isinstance(value, list):
            yield f"{at} is no list"
            return
        for i, one in enumerate(value):
            yield from faults_of_sarif(one, form[0], f"{at}[{i}]")
    elif isinstance(form, set):
        yield from [] if value in form else [f"{at} is {value!r}"]
    elif isinstance(form, type):
        yield from [] if type(value) is form else [f"{at} is {value!r}"]
        if form is int and value < 1:
            yield f"{at} is {value}"
    elif not isinstance(value, dict):
        yield f"{at} is no object"
    else:
        members, needed = SCHEMA[form]
        yield from (f"{at} has no {name}" for name in needed if name not in value)
        yield from (f"{at} has a {name}" for name in value if name not in members)
        for name in members.keys() & value.keys():
            yield from faults_of_sarif(value[name], members[name], f"{at}.{name}")
        if form == "artifact" and not URI.fullmatch(value["uri"]):
            yield f"{at} has the URI {value['uri']!r}"


def fault_of_rules(sarif):
    """Whether each result has a rule of the driver."""
    run = sarif["runs"][0]
    return {one["ruleId"] for one in run["results"]} != {rule["id"] for rule in run["tool"]["driver"]["rules"]}


def is_successful(sarif):
    return sarif["runs"][0]["invocations"][0]["executionSuccessful"]


def example(name):
    """The bytes of a log of examples/."""
    return pathlib.Path(judging.TOP, f"examples/{name}.log").read_bytes()


WITHOUT_LOCK = "worked/write_without_the_lock"


class Findings:
    """The tests, by what `tools/test_why` runs the words and makes logs with."""

    def __init__(self, run, run_on, log_of):
        self.run, self.run_on, self.log_of = run, run_on, log_of

    def tests(self):
        return [self.stops, self.out_of_time, self.once, self.causes_that_are_known, self.names_and_ends, self.files, self.unlocks,
                self.decoded, self.pages]

    # ---- no false green

    def stopping(self):
        """Logs whose search stops, the words for that, the line at which it does, as gcc names it, and the status."""
        one = remaps([LOCAL, RIGHT])
        line = one.count("\n") + 2
        another = self.log_of(one + "w 0 0x40000010 0x40000701 @other.c:9\n", HYP)
        return {"no change": (example(WITHOUT_LOCK), [], 6, 6, 1), "--most": (another, ["--most=1"], line, 9, 1),
                "malformed": (self.log_of(one + "isb 9\n", HYP), [], line, line, 2),
                "limit": (self.log_of(one + "x" * 201 + "\n", HYP), [], line, line, 7),
                "bytes behind the end": (self.log_of(one, HYP) + b"x", [], line + 1, line + 1, 2),
                "a line behind the end": (self.log_of(one, HYP) + b"isb 0\n", [], line + 1, line + 1, 2)}

    def stops(self):
        """For each reason, with all findings known: an error at the line from which nothing was judged, in each
        form."""
        for name, (log, words, line, gcc_line, status) in self.stopping().items():
            kinds = r"title=bbm (?:stopped|cause \d+|limit)::"
            forms = {"gcc": rf"(?m)^[^\n]*:{gcc_line}: error: ",
                     "github": rf"(?m)^::error [^\n]*{kinds}[^\n]*line {line} of the log",
                     "json": rf'(?m)^\{{"verdict": "(?:stopped|malformed|limit)", "line": {line},(?!.*"known")'}
            with tempfile.NamedTemporaryFile("w") as known:
                known.write("2 0x40000008\n4 0x40000008\n4 0x40000010\n")
                known.flush()
                options = [f"--known={known.name}", *words]
                for form, wanted in forms.items():
                    answer = self.run_on(["findings", f"--format={form}", *options], log)
                    fault = judging.fault_of(["findings", "--format", form], answer)
                    if not re.search(wanted, answer.text) or answer.status != status or fault:
                        yield f"findings --format {form}, {name}: {answer}, {fault}, not an error at line {line}"
                yield from self.stopped_sarif(name, self.run_on(["findings", "--format=sarif", *options], log), status)

    def stopped_sarif(self, name, answer, status):
        sarif = json.loads(answer.text)
        run = sarif["runs"][0]
        unknown = [one for one in run["results"] if "suppressions" not in one and one["level"] == "error"]
        told = run["invocations"][0]["toolExecutionNotifications"]
        if is_successful(sarif) or len(told) != 1 or len(unknown) != 1 or answer.status != status:
            yield f"findings --format sarif, {name}: {answer}"
        yield from (f"findings --format sarif, {name}: {fault}" for fault in faults_of_sarif(sarif))
        if fault_of_rules(sarif):
            yield f"findings --format sarif, {name}: other rules than those of its results"

    def out_of_time(self):
        """Where time ends the search for a change, that is said, and not that there is none."""
        log, program = self.log_of(remaps([LOCAL]), HYP), Program(os.path.realpath(judging.program()))
        findings = findings_of(Searcher(program, log, seconds=0), program.check(log), 20)
        told = Report(Log(log), "log", findings, [])
        if "in 0 seconds (--seconds) gets past it" not in told.text() or "bbm stopped" not in told.gcc():
            yield f"findings without time: {told.text()}, {told.gcc()}"

    # ---- one bug once

    def once(self):
        """One wrong line of the source is one finding, with its cause and how often; lines that are right stay as
        they are."""
        log = self.log_of(remaps([RIGHT, RIGHT] + [LOCAL, LOCAL, LOCAL, RIGHT] * (TIMES // 3)), HYP)
        found = [json.loads(line) for line in self.run_on(["findings", "--format=json"], log).text.splitlines()]
        wanted = (1, TIMES, "map.c:22", "accepted", TIMES)
        one, repair = found[0], found[0]["repair"]
        said = len(found), one["times"], one["cause"]["label"], repair["whole"]["verdict"], len(repair["edits"])
        if said != wanted:
            yield f"findings of one wrong line: {found}, not {wanted}"
        missing = self.log_of(remaps([RIGHT, ""] + [RIGHT, RIGHT, "", ""] * 5), HYP)
        told = self.run_on(["findings"], missing)
        texts = ("11 times, first at line ", "\nfindings 1: with the change of finding 1 the whole")
        if any(text not in told.text for text in texts):
            yield f"findings of one missing line: {told}"
        sarif = json.loads(self.run_on(["findings", "--format=sarif"], log).text)
        related = sarif["runs"][0]["results"][0]["relatedLocations"][0]["physicalLocation"]
        wanted = {"artifactLocation": {"uri": "map.c"}, "region": {"startLine": 22}}
        if related != wanted or [*faults_of_sarif(sarif)] or not is_successful(sarif):
            yield f"findings --format sarif of one wrong line: {sarif}"

    def causes_that_are_known(self):
        """A known deviation with a cause doesn't hide another bug at the same make."""
        local = self.log_of(remaps([RIGHT, LOCAL, RIGHT]), HYP)
        other = self.log_of(remaps([RIGHT, "", RIGHT]), HYP)
        with tempfile.TemporaryDirectory() as folder:
            made = f"{folder}/known"
            self.run_on(["findings", f"--write-known={made}"], local)
            said = pathlib.Path(made).read_text()
            found = [self.run_on(["findings", f"--known={made}"], log).status for log in (local, other)]
        if not re.fullmatch(r"4 @map.c:24 @map.c:22 # line \d+ of .*\n", said) or found != [0, 1]:
            yield f"--write-known wrote {said!r}, with which the statuses are {found}"

    # ---- names, ends and files

    def names_and_ends(self):
        """Of several logs none is lost for its name, nor where it has no answer."""
        log = self.log_of(remaps([LOCAL]).replace("@map.c:24", ""), HYP)
        with tempfile.TemporaryDirectory() as folder:
            names = [b"a\xff.log", b"b\nc.log", "d é.log".encode()]
            for name in names:
                pathlib.Path(os.fsdecode(os.fsencode(folder) + b"/" + name)).write_bytes(log)
            logs = [*map(os.fsdecode, names), "none.log"]
            sarif = json.loads(self.run(["findings", "--format", "sarif", *logs], cwd=folder).stdout)
            places = [one["locations"][0]["physicalLocation"] for one in sarif["runs"][0]["results"]]
            uris = [place["artifactLocation"]["uri"] for place in places]
            wanted = ["a%FF.log", "b%0Ac.log", "d%20%C3%A9.log", "none.log"]
            if uris != wanted or [*faults_of_sarif(sarif)] or is_successful(sarif):
                yield f"findings --format sarif of {names}: {sarif}"
            told = self.run(["findings", "--format", "gcc", *logs], cwd=folder).stdout
            said = [line.split(b":")[0] for line in told.split(b"\n") if b": error: " in line]
            if said != [b"a\xff.log", b"b\\nc.log", names[2], b"none.log"]:
                yield f"findings --format gcc of {names}: {told}"

    def files(self):
        """A write that fails leaves what was there, and a link and the mode of a file stay."""
        log = self.log_of(remaps([LOCAL]), HYP)
        with tempfile.TemporaryDirectory() as folder:
            at, link = pathlib.Path(folder, "known"), pathlib.Path(folder, "link")
            at.write_text("# kept\n")
            at.chmod(0o640)
            link.symlink_to("known")
            self.run_on(["findings", f"--write-known={link}"], log)
            is_kept = link.is_symlink() and at.stat().st_mode & 0o777 == 0o640 and len(os.listdir(folder)) == 2
            if not is_kept or "@map.c:24" not in at.read_text():
                yield f"--write-known by a link: {os.listdir(folder)}, {oct(at.stat().st_mode)}, {at.read_text()!r}"
            for words in (["findings", "--write-known"], ["findings", "--html"], ["why", "--svg"]):
                done = self.run([*words, f"{folder}/no/x"], log)
                is_told = done.stderr.endswith(b"so it isn't written\n") and b"there is no answer" not in done.stderr
                if done.returncode != 5 or not done.stdout or not is_told:
                    yield f"{words}: {done}"

    # ---- what is held where a lock is given back

    def unlocks(self):
        for name, (sections, behind, wanted) in LOCKED.items():
            events = MAPPED.format("5") + "".join(map(SECTION.format, sections)) + behind
            answer = self.run_on(["pending", "--unlocks"], self.log_of(events, HYP))
            heads = f"accepted {events.count(chr(10))} events", f"pending {len(wanted)} unlocks"
            told = "".join(line + "\n" for line in (*heads, *wanted))
            fault = judging.fault_of(["pending", "--unlocks"], answer)
            if answer.text != told or answer.status != int(bool(wanted)) or fault:
                yield f"pending --unlocks, {name}: {answer}, not {told!r}"
        log = self.log_of(MAPPED.format("5") + "".join(map(SECTION.format, LOCKED["dropped early"][0])) + FLUSH, HYP)
        with tempfile.NamedTemporaryFile("w") as known:
            known.write("unlocked @give @unmap # a known one\n")
            known.flush()
            for form in ("", "gcc", "github", "json"):
                words = ["findings", *([f"--format={form}"] if form else []), "--unlocks"]
                answers = [self.run_on([*words, *more], log) for more in ([], [f"--known={known.name}"])]
                asked = ["findings", "--format", form] if form else ["findings"]
                faults = [judging.fault_of(asked, answer) for answer in answers]
                is_told = all("unlocked" in answer.text for answer in answers)
                if [answer.status for answer in answers] != [1, 0] or faults != [None, None] or not is_told:
                    yield f"{' '.join(words)}: {[*map(str, answers)]}, {faults}"

    # ---- what lines name

    def decoded(self):
        """Addresses, tags, levels, sizes and hints, by hand from the logs."""
        hinted = self.log_of(remaps(["tlbi 0 vae2is 0x700000040000 @map.c:22\n"]), HYP)
        for name, texts in DECODED.items():
            said = self.run_on(["why"], hinted if name == "a hint" else example(name)).text
            joined = re.sub(r"\n +", " ", said)
            missing = [text for text in texts if text not in joined and text not in said]
            yield from (f"why, {name}: it doesn't say {text!r}: {joined[:3000]}" for text in missing)

    # ---- the page

    def pages(self):
        chromium = shutil.which("chromium") or shutil.which("chromium-browser")
        with tempfile.TemporaryDirectory() as folder:
            self.write_logs(folder)
            logs = ["wrong.log", "other.log", "stops.log", "none.log"]
            done = self.run(["findings", "-j", "2", "--html", "page.html", *logs], cwd=folder)
            page = pathlib.Path(folder, "page.html").read_text()
            words = ("bbm: 3 findings in 4 logs", "Not judged to the end: 2 logs", "there is no file none.log",
                     "int wrong;", "<del>-", "<svg", "3 times")
            missing = [word for word in words if word not in page]
            loads = re.findall(r"(?:src|href)=\"(?!#)|@import|url\(|https?://(?!www\.w3\.org/2000/svg)", page)
            if done.returncode != 70 or missing or loads or "<script>alert" in page:
                yield f"findings --html: {done}, without {missing}, and it loads {loads}"
            done = self.run(["findings", "--html", "other.html", "none.log"], cwd=folder)
            other = pathlib.Path(folder, "other.html").read_text()
            if done.returncode != 70 or "Not judged to the end: 1 log<" not in other:
                yield f"findings --html of a log that isn't there: {done}"
            if not chromium:
                print("left out: the page in a browser, since there is no chromium", flush=True)
                return
            for width, theme in ((400, 1), (400, 0), (1200, 1)):
                found = in_browser(chromium, folder, width, theme)
                paper = ("rgb(21, 24, 28)", "rgb(255, 255, 255)")[theme]
                wanted = {"rows": 3, "open": 3, "folded": 0, "unfolded": 3, "found": 1, "none": 0, "all": 3,
                          "loaded": 0, "width": width, "wide": False, "paper": paper, "shown": True}
                if found != wanted:
                    yield f"the page, {width} wide, theme {theme}: {found}, not {wanted}"

    def write_logs(self, folder):
        room = pathlib.Path(folder)
        (room / "wrong.log").write_bytes(self.log_of(remaps([LOCAL] * 3), HYP))
        (room / "other.log").write_bytes(self.log_of(remaps([""]).replace("@map.c:24", "@seldom"), HYP))
        (room / "stops.log").write_bytes(example(WITHOUT_LOCK))
        (room / "map.c").write_text("/* <script>alert(1)</script> */\n" * 21 + "int wrong;\n" + "/**/\n" * 20)


# What a reader does, and what is there then.
READER = """
{
const found = {}, shown = of => [...document.querySelectorAll(of)].filter(one => one.getClientRects().length).length;
const type = words => {
  const it = document.getElementById("search");
  it.value = words;
  it.dispatchEvent(new Event("input"));
};
found.rows = shown("tbody tr");
found.open = document.querySelectorAll("details[open]").length;
document.getElementById("fold").click();
found.folded = document.querySelectorAll("details[open]").length;
document.getElementById("unfold").click();
found.unfolded = document.querySelectorAll("details[open]").length;
type("SELDOM");
found.found = shown("details");
type("nothing of the kind");
found.none = shown("tbody tr");
type("");
found.all = shown("details");
found.loaded = performance.getEntriesByType("resource").length;
found.width = innerWidth;
found.wide = document.documentElement.scrollWidth > innerWidth;
found.paper = getComputedStyle(document.body).backgroundColor;
const picture = document.querySelector("svg").getBoundingClientRect();
found.shown = picture.width > 100 && picture.height > 100;
parent.postMessage(JSON.stringify(found), "*");
}
"""
# A window has a least width, and a frame in it none.
WINDOW = """<!DOCTYPE html><meta charset="utf-8"><body><script>
addEventListener("message", event => { document.body.textContent = "FOUND" + event.data + "END"; });
</script><iframe src="read.html" width="%d" height="900" style="border:0"></iframe></body>
"""


def in_browser(chromium, folder, width, theme):
    """What a reader finds on the page of a folder in a browser without a network, in the dark or the light."""
    page = pathlib.Path(folder, "page.html").read_text()
    pathlib.Path(folder, "read.html").write_text(page.replace("</body>", f"<script>{READER}</script></body>"))
    pathlib.Path(folder, "window.html").write_text(WINDOW % width)
    words = ["--headless=new", "--no-sandbox", "--disable-gpu", "--host-resolver-rules=MAP * ~NOTFOUND",
             f"--user-data-dir={folder}/browser", "--window-size=1300,1000",
             f"--blink-settings=preferredColorScheme={theme}", "--virtual-time-budget=10000", "--dump-dom",
             f"file://{folder}/window.html"]
    done = subprocess.run([chromium, *words], capture_output=True, check=False, timeout=600, text=True)
    said = re.search(r"FOUND(\{.*?\})END", done.stdout)
    return json.loads(said[1].replace("&quot;", '"')) if said else done.stderr[-500:]
