#!/usr/bin/env python3
# SPDX-License-Identifier: Apache-2.0
"""Tests of the options, the logs and the faults of the script `bbm`, over an installed copy with a false program.
`tools/test_script` runs them with its own.

    python3 tools/test_script_more.py [WORD ..]      the tests whose names have one of the words; all unless one is given

A test is a table. A row is a command for the shell, what it writes to standard output and to standard error, and its
status; in these texts `..` stands for anything on a line, and `...` for anything. The false program reads the log, says what the
environment variable SAYS has, and ends with status ENDS. The status is 0 where every test passes.
"""
import contextlib
import os
import pty
import re
import select
import shutil
import subprocess
import sys
import tempfile
import time
import unittest

import tables

TOP = os.path.dirname(os.path.dirname(os.path.realpath(__file__)))
SECONDS = 300
PROGRAM = """#!/bin/sh
[ -z "${WORDS-}" ] || echo "$@" >&2
case "${1-}" in gen) ;; *) cat >"$ROOM/read" 2>/dev/null ;; esac
[ -z "$SAYS" ] || echo "$SAYS"
exit "$ENDS"
"""
LOG = "bbmlog 1 hyp 2 1 1 1\nisb 0\nend 1\n"
# A build that takes as long as the file `wait` is there.
BUILD = """#!/usr/bin/env python3
import os, shutil, time
top = os.path.dirname(os.path.dirname(os.path.realpath(__file__)))
while os.path.exists(f"{os.environ['ROOM']}/wait"):
    time.sleep(0.05)
os.makedirs(f"{top}/crates/bbm_cli/out", exist_ok=True)
shutil.copy2(f"{top}/bbm_cli", f"{top}/crates/bbm_cli/out/bbm_cli")
os.makedirs(f"{top}/out", exist_ok=True)
open(f"{top}/out/bbm_sources", "w").write("crates.txt\\0crates/bbm_cli/src\\0crates/bbm_cli/src/main.rt\\0")
open(f"{top}/out/bbm_built", "w").write("kit\\n" + shutil.which("rt") + "\\nunknown\\n")
"""
RT = """#!/bin/sh
case "$1" in
  version) echo kit ;;
  try) shift 2; echo "$@" >"$ROOM/tried"; cat; sed 's/^/status=/' /dev/null; echo "$UNPROVED"; echo "run=ended status=$UNPROVED_ENDS runners=1" >&2; exit "$UNPROVED_ENDS" ;;
esac
"""


class Case(unittest.TestCase):
    def setUp(self):
        self.room = tempfile.mkdtemp(prefix="bbm-test-")
        self.addCleanup(shutil.rmtree, self.room, ignore_errors=True)
        for it in ("bin", "tmp", "copy/tools"):
            os.makedirs(f"{self.room}/{it}")
        for it in ("bbm", "bbm.1"):
            shutil.copy2(f"{TOP}/{it}", f"{self.room}/copy/{it}")
        shutil.copytree(f"{TOP}/tools/why", f"{self.room}/copy/tools/why", ignore=shutil.ignore_patterns("__pycache__"))
        os.symlink(f"{TOP}/docs", f"{self.room}/copy/docs")
        self.write("copy/bbm_cli", PROGRAM)
        self.write("log", LOG)
        clean = [it for it in os.environ["PATH"].split(":") if not os.path.exists(f"{it}/rt")]
        os.symlink(sys.executable, f"{self.room}/bin/python3")
        self.env = {**os.environ, "PATH": ":".join([f"{self.room}/bin", f"{self.room}/copy", *clean]), "ROOM": self.room, "LC_ALL": "C",
                    "TMPDIR": f"{self.room}/tmp", "SAYS": "accepted 1 events", "ENDS": "0"}

    def write(self, file, text):
        os.makedirs(os.path.dirname(f"{self.room}/{file}"), exist_ok=True)
        # (it may be a link to one of the system's)
        with contextlib.suppress(FileNotFoundError):
            os.remove(f"{self.room}/{file}")
        with open(f"{self.room}/{file}", "wb") as it:
            it.write(text if isinstance(text, bytes) else text.encode())
        if text[:2] in ("#!", b"#!"):
            os.chmod(f"{self.room}/{file}", 0o755)

    def run_in(self, code):
        more = {"stdin": subprocess.DEVNULL, "cwd": self.room, "env": self.env, "timeout": SECONDS}
        ran = subprocess.run(["bash", "-c", code], capture_output=True, **more)
        return ran.stdout.decode(errors="replace"), ran.stderr.decode(errors="replace"), ran.returncode

    def ask(self, *rows):
        for code, said, told, status in ((*row, *("", "", 0)[len(row) - 1:]) for row in rows):
            found = self.run_in(code)
            self.assertTrue(tables.fits(found[0], said) and tables.fits(found[1], told) and found[2] == status,
                            f"\n{code}\nis wanted to give {(said, told, status)}\nand gives        {found}")
        self.assertEqual(os.listdir(f"{self.room}/tmp"), [])


ACCEPTED = "accepted 1 events"
JUDGED = f"{ACCEPTED}\njudged 1 of 1 events"
NAMED = '{"verdict": "accepted", "events": 1'


class Options(Case):
    """One parser for all words."""

    def test_forms(self):
        self.ask(("bbm check log --format gcc", f"log: note: {ACCEPTED} [bbm]"), ("bbm check --format=gcc log", f"log: note: {ACCEPTED} [bbm]"),
                 ("bbm --quiet check --format gcc -- log", f"log: note: {ACCEPTED} [bbm]"), ("cp -- log -x; bbm check -- -x", ACCEPTED),
                 ("bbm check -- -x log", f"-x: {ACCEPTED}\nlog: {ACCEPTED}"), ("bbm slow -- --quiet", "", "bbm: there is no file --quiet", 70),
                 ("WORDS=1 bbm walk el2 0x0 0x8 -- -x", ACCEPTED, "walk el2 0x0 0x8"), ("bbm partial -- log", JUDGED))

    def test_refused(self):
        forms = {"check": "[LOG..] [--jobs N] [--format gcc|github|json]", "slow": "[LOG..]", "partial": "[LOG..]", "shrink": "[LOG..] [--least] [--rename]",
                 "why": "[LOG..] [--seconds N] [--jobs N] [--svg FILE] [--html FILE] [--whole] [--format json]", "walk": "KIND ROOT ADDR [LOG..]", "gen": "N COUNT",
                 "findings": "[LOG..] [--seconds N] [--jobs N] [--most N] [--known FILE] [--write-known FILE] [--html FILE] [--unlocks] [--format gcc|github|json|sarif]",
                 "pending": "[LOG..] [--pages] [--unlocks] [--at LABEL] [--nth N] [--format json]"}
        for words, told in (
            ("check --format xml", "--format xml: it may be gcc|github|json"), ("check --format", "--format needs a value"),
            ("check --format= log", "--format needs a value"), ("why --format gcc log", "--format gcc: it may be json"), ("findings --most 0", "--most 0: it may be a number from 1"),
            ("findings --format xml", "--format xml: it may be gcc|github|json|sarif"), ("findings --known", "--known needs a value"),
            ("check -j", "--jobs needs a value"), ("check -j 0", "--jobs 0: it may be a number from 1"), ("findings -jx log", "findings takes no -jx"), ("pending -j2 log", "pending takes no --jobs"), ("why --seconds x", "--seconds x: it may be a number from 1"), ("slow log --least", "slow takes no --least"),
            ("why --who log", "why takes no --who"), ("why -x", "why takes no -x"), ("pending --page", "pending takes no --page"), ("pending --at ''", "--at needs a value"),
            ("pending --at", "--at needs a value"), ("pending --nth 2 log", "--nth is for the lines that --at names"), ("pending --at a --nth 0", "--nth 0: it may be a number from 1"),
            ("pending --at a --nth x", "--nth x: it may be a number from 1"), ("shrink --least=yes", "--least takes no value"), ("partial --pages", "partial takes no --pages"),
            ("why log log --svg x", "--svg is for one log"), ("why --html x log log", "--html is for one log"), ("pending --pages --unlocks", "--pages and --unlocks are two questions"), ("walk el2 --x", "walk takes no --x"), ("gen 1 --quick", "gen takes no --quick"),
        ):
            self.ask((f"bbm {words}", f"usage: bbm {words.split()[0]} {forms[words.split()[0]]}", f"bbm: {told}", 3))

    def test_several_logs(self):
        """Each text begins with the log's name, but where its form has it."""
        self.ask(("cp log b; bbm partial log b", f"log: {JUDGED}\nb: {JUDGED}"), ("bbm why log b", f"log: {ACCEPTED}\nb: {ACCEPTED}"),
                 *((f"bbm {word} --format json log b", f'{NAMED}{more}, "log": "log"}}\n{NAMED}{more}, "log": "b"}}')
                   for word, more in (("check", ""), ("why", ""), ("pending", ', "places": []'), ("pending --pages", ', "pages": []'))),
                 ("echo 4 @a >k; bbm findings --known k log", "unmet line 1 of k: 4 @a\nfindings 0: the whole log is accepted"),
                 ("bbm findings --known k log b", "log: findings 0: the whole log is accepted\nb: findings 0: the whole log is accepted\nunmet line 1 of k: 4 @a"),
                 ("bbm findings --known b log", "", "bbm: b: line 1 isn't `RULE @LABEL` or `RULE PLACE`, and ..", 70),
                 ("bbm check --format json <log", f"{NAMED}}}"), ("ENDS=1 bbm check log b", f"log: {ACCEPTED}\nb: {ACCEPTED}", "", 1))

    def test_logs_at_once(self):
        """With -j the answers are those without it, in the order of the logs, also of one that is packed or can't be read."""
        self.ask(("gzip -c log >p; for i in 1 2 3 4 5 6 7; do cp log l$i; done",),
                 *((f"bbm {word} l1 no l2 p l3 - . l4 l5 <l6 >one; bbm {word} {jobs} l1 no l2 p l3 - . l4 l5 <l6 >two; echo $?; cmp one two; grep -c '{said}' two", "70\n7",
                    "\n".join(["bbm: there is no file no", "bbm: . is a folder"] * 2)) for word, jobs, said in (("check", "-j 3", "accepted"), ("check --format json", "-j3", "accepted"),
                                                                                                 ("check --format gcc", "-j 20", "accepted"))),
                 ("bbm findings -j 3 l1 l2 p >two; cat two", "l1: findings 0: the whole log is accepted\nl2: findings 0: the whole log is accepted\np: findings 0: the whole log is accepted"),
                 ("(echo '#!/bin/sh'; echo 'sleep 0.5; echo $SAYS; echo >>runs') >c; cp copy/bbm_cli d; cp c copy/bbm_cli; bbm check -j 1 l1 l2 l3 l4 l5 l6 l7 | head -n 1; cp d copy/bbm_cli;"
                  " sleep 1; [ $(wc -l <runs) -lt 5 ]", f"l1: {ACCEPTED}"),
                 ("bbm check -j 2 log", ACCEPTED), ("bbm check -j 2 <log", ACCEPTED), ("ENDS=1 bbm check -j 2 log l1", f"log: {ACCEPTED}\nl1: {ACCEPTED}", "", 1),
                 ("cat copy/bbm_cli >c; (echo '#!/bin/sh'; echo 'sleep 1; echo $SAYS') >copy/bbm_cli; timeout 4 bbm check -j 6 l1 l2 l3 l4 l5 l6 | grep -c accepted; cp c copy/bbm_cli", "6"),
                 ("(echo '#!/bin/sh'; echo 'echo $$ >>ran; exec sleep 77') >copy/bbm_cli; bbm check -j 2 l1 l2 l3 & until [ \"$(wc -l <ran)\" = 2 ]; do sleep 0.1; done 2>/dev/null; kill $!;"
                  " wait $!; echo $?; sleep 1; for it in $(cat ran); do kill -0 $it; done", "143", "...No such process\n...No such process", 1))

    def test_unread_logs(self):
        """Each form has an object or a line for a log that can't be read."""
        name = "bbm: there is no file no"
        self.ask(*((f"bbm {word} --format {form} no", said, name, 70) for word, form, said in (
            ("check", "gcc", "no: error: there is no file no [bbm unreadable]"), ("check", "github", "::error file=no,title=bbm unreadable::there is no file no"),
            *((word, "json", '{"verdict": "unreadable", "why": "there is no file no", "log": "no"}') for word in ("check", "why", "findings", "pending")),
            ("findings", "sarif", '{"$schema": ..."executionSuccessful": false, ..."results": [{"ruleId": "bbm unreadable", ..."uri": "no"}}}]...'))),
            ("bbm why --format json log no log", f'{NAMED}, "log": "log"}}\n{{"verdict": "unreadable", "why": "there is no file no", "log": "no"}}\n{NAMED}, "log": "log"}}', name, 70),
            ("bbm findings --format sarif log no log no | python3 -c 'import json, sys; print(len(json.load(sys.stdin)[\"runs\"][0][\"results\"]))'", "2", f"{name}\n{name}"))

    def test_table_of_the_documents(self):
        """docs/WHY.md has the options as the script takes them."""
        with open(f"{TOP}/docs/WHY.md", encoding="utf-8") as it:
            table = it.read().partition("| word | options |")[2]
        rows = re.findall(r"(?m)^\| `(\w+)` \| (.*?) \| (.*?) \|$", table)
        for word, options, _ in rows:
            said, _, _ = self.run_in(f"bbm {word} --no-such")
            self.assertEqual(re.findall(r"\[(--[^]]*)\]", said), re.findall(r"`(--[^`]*)`", options.replace("\\", "")), word)
        self.assertEqual([row[0] for row in rows], ["check", "why", "findings", "shrink", "pending", "partial"])


class Logs(Case):
    """Files, pipes and packed logs."""

    def test_packed(self):
        """Packed logs are read from files and pipes, and what is cut, or can't be unpacked, gets no answer."""
        self.ask(("(echo bbmlog 1 hyp 2 1 1 1; yes isb 0 | head -n 50000; echo end 50000) >log",))
        for packer in filter(shutil.which, ("gzip", "xz", "zstd")):
            self.ask((f"{packer} -cq log >p; head -c -9 p >cut",),
                     *((f"rm -f read; {code.format(words)}; cmp read log", said) for words, said in (("check", ACCEPTED), ("partial", "...judged 50000 of 50000..."))
                       for code in ("bbm {} p", "bbm {} <p", "cat p | bbm {}", "bbm {} <(cat p)")),
                     ("bbm check --format gcc cut", f"cut: error: cut is packed by {packer}, and is cut or damaged [bbm unreadable]", "bbm: cut is ..", 70),
                     *((code, "", f"bbm: {name} is packed by {packer}, and is cut or damaged", 70) for words in ("check", "why")
                       for code, name in ((f"bbm {words} cut", "cut"), (f"bbm {words} <cut", "standard input"), (f"cat cut | bbm {words}", "standard input"))))
        self.ask((r"printf '\037' | bbm check; od -An -to1 read", f"{ACCEPTED}\n 037"), ("bbm check </dev/null; wc -c <read", f"{ACCEPTED}\n0"),
                 ("(printf b; sleep 0.3; tail -c +2 log) | bbm check; cmp read log", ACCEPTED))

    def test_unpacking_that_fails(self):
        """A packer that ends by a fault is no end of the log: what judges is ended, and nothing is printed."""
        self.write("bin/gzip", f'#!/bin/sh\ncase $1 in -tq) exit 0 ;; -dcq) head -n 2 "$ROOM/log"; exit 1 ;; esac\nexec {shutil.which("gzip")} "$@"\n')
        unread = "bbm: a read of the log failed, so there is no answer"
        self.ask(("gzip -c log >p; bbm check p", "", unread, 4), ("cat p | bbm check", "", unread, 4), ("bbm partial p", "", unread, 4),
                 ("cp log q; bbm check p q", f"p: \nq: {ACCEPTED}", unread, 4))

    def test_no_answer_without_the_log(self):
        self.ask(("bbm why <&-", "", "bbm: standard input: Bad file descriptor, so there is no answer", 4),
                 ("yes isb | head -c 5000 | (ulimit -f 1; bbm pending)", "", "bbm: the log can't be kept in ../tmp: File too large, so there is no answer", 70))

    def test_no_reader(self):
        """Where nobody reads what Python says the script ends as other tools do, without a word; a full disk is told."""
        self.ask((f"{TOP}/tools/false_kit/unread bbm check --format gcc log", "-13"),
                 ("bbm check --format gcc log >/dev/full", "", "...a write of the answer failed..", 5))

    def test_many_packed_logs(self):
        self.ask(("gzip -c log >p; ulimit -n 16; bbm check $(yes p | head -n 20) | grep -c accepted", "20"), ("ulimit -n 16; bbm partial p p p | grep -c accepted", "3"))

    def test_writer_that_stays(self):
        """An answer doesn't wait for a writer that has no more to say."""
        self.write("copy/bbm_cli", "#!/bin/sh\nread -r line; echo refused; exit 1\n")
        self.ask(("mkfifo f; (cat log; exec sleep 50) >f & timeout 20 bbm check <f; echo $?; kill %1", "refused\n1"),
                 ("mkfifo g; (cat log; exec sleep 50) >g & timeout 20 bbm check g; echo $?; kill %1", "refused\n1"))

    def test_long_lines(self):
        """A line without an end takes neither time nor memory."""
        self.ask(("head -c 60000000 /dev/zero | tr '\\0' x >long",),
                 *((f"ulimit -v 100000; SAYS='limit line 1 line-bytes' ENDS=7 timeout 200 bbm {words} long", "limit line 1 line-bytes...", told, 7)
                   for words, told in (("why", ""), ("pending --at a", "bbm: the line has more than 200 bytes"), ("check", "bbm: the line has more than 200 bytes"))))

    def test_log_without_an_end(self):
        self.write("copy/bbm_cli", "#!/bin/sh\nhead -n 1 >/dev/null; echo malformed line $LINE cause 1 NoMagic; exit 2\n")
        self.ask(("set -o pipefail; yes | LINE=1 timeout 100 bbm partial", "malformed line 1 cause 1 NoMagic\njudged 0 of 0 events", "...", 2),
                 ("(echo head; yes) | LINE=2 timeout 20 bbm partial", "malformed line 2 cause 1 NoMagic", "", 124))

    def test_labels(self):
        self.ask(*((f"LC_ALL={locale} bbm pending --at 日本 log", "", "bbm: no line number 1 has the label ..", 3) for locale in ("C", "C.UTF-8")))

    def test_how_much_was_read(self):
        """At a terminal pv shows how much of a log that is read once was read; where it isn't there, that is said of a large one."""
        self.write("bin/pv", "#!/bin/sh\necho \"pv $*\" >&2\nexec cat\n")
        self.ask(("gzip -c log >p",))
        shown = f"pv -D 2\r\n{ACCEPTED}\r\n"
        for code, wanted in (("bbm check log", shown), ("bbm check <log", shown), ("cat log | bbm check", shown), ("bbm check p", shown), ("bbm check --quiet log", f"{ACCEPTED}\r\n"),
                             ("bbm check log log", f"log: {ACCEPTED}\r\n" * 2), ("bbm partial log", f"pv -D 2\r\n{ACCEPTED}\r\njudged 1 of 1 events\r\n"),
                             ("bbm why log", f"{ACCEPTED}\r\n"), ("rm bin/pv; truncate -s 200M long; bbm check long", "bbm: pv isn't on the PATH, so it isn't shown how much of "
                              f"the log was read\r\n{ACCEPTED}\r\n")):
            self.assertEqual(self.at_terminal(code), (wanted, 0), code)

    def at_terminal(self, code):
        child, terminal = pty.fork()
        if not child:
            os.chdir(self.room)
            os.execve("/bin/sh", ["sh", "-c", code], self.env)
        seen, until = b"", time.monotonic() + SECONDS
        try:
            while select.select([terminal], [], [], max(0, until - time.monotonic()))[0]:
                seen += os.read(terminal, 4096)
        except OSError:
            pass
        os.close(terminal)
        return seen.decode(), os.waitstatus_to_exitcode(os.waitpid(child, 0)[1])


class Faults(Case):
    """No fault ends with a status of an answer."""

    def test_little_memory(self):
        for words in ("check", "check --format json", "why", "partial"):
            for room in (4000, 8000, 12000, 14000, 16000, 18000, 20000, 22000):
                said, told, status = self.run_in(f"ulimit -v {room}; sh copy/bbm {words} log")
                is_right = status == 0 and ACCEPTED in said.replace('"verdict": "accepted", "events": 1', ACCEPTED)
                self.assertTrue(is_right or status in (6, 70, 127) and told, (words, room, said, told, status))

    def test_python_that_fails(self):
        for status in (0, 1, 2, 120):
            self.write("bin/python3", f'#!/bin/sh\n[ "$2" != -c ] || exec {sys.executable} "$@"\nexit {status}\n')
            self.ask(*((f"bbm {words} log", "", f"bbm: python3 ended by itself, with status {status}, so there is no answer", 70)
                       for words in ("why", "check --format json", "partial")))
        self.write("bin/python3", "#!/bin/sh\nexit 1\n")
        self.ask(("bbm why log", "", "bbm: why needs python3, and that on the PATH can't be run", 70), ("bbm check log", ACCEPTED))

    def test_part_that_is_not_there(self):
        self.ask(("rm copy/tools/why/telling/formats.py; bbm check --format json log", "", "bbm: a part of Python or of tools/why can't be loaded, so there is no answer: ..", 70),
                 ("echo 'raise ValueError' >copy/tools/why/telling/formats.py; bbm partial log", "", "Traceback...\nbbm: that is a fault of tools/why, so there is no answer", 70),
                 ("rm copy/tools/why/main.py; bbm why log", "", "...bbm: python3 ended by itself, with status 2, so there is no answer", 70))

    def test_program_that_fails(self):
        """An answer whose text isn't that of its status is none."""
        none = "bbm: the program ended with status {} and says `{}`, so there is no answer"
        for words in ("check --format json", "check --format gcc", "why --format json"):
            self.ask((f"SAYS= bbm {words} log", "", none.format(0, ""), 70), (f"ENDS=1 bbm {words} log", "", none.format(1, ACCEPTED), 70),
                     (f"ENDS=9 bbm {words} log", "", "bbm: the program ended with status 9, so there is no answer", 70))
        # of several logs none is missing in a form
        why = "there is no answer; standard error says why"
        for words in ("", "-j 2 "):
            self.ask((f"SAYS= ENDS=6 bbm check {words}--format gcc log log", f"log: error: {why} [bbm unreadable]\nlog: error: {why} [bbm unreadable]", "...", 6))
        self.ask(("SAYS= ENDS=6 bbm findings --format sarif log log | grep -o 'executionSuccessful.: [a-z]*\\|bbm unreadable. *, .level'",
                  'executionSuccessful": false\nbbm unreadable", "level\nbbm unreadable", "level', "..."))
        self.ask(("ENDS=9 bbm check log", ACCEPTED, "bbm: the program can't be run, or ended with status 9, so there is no answer", 70),
                 ("chmod a-x copy/bbm_cli; bbm check log", "", "...bbm: the program can't be run, or ended with status 12.., so there is no answer", 70),
                 ("bbm why log", "", "bbm: the program can't be run: ..", 70))

    def test_shell_that_fails(self):
        """A shell that can't go on ends with 2 by itself, which is the status of a malformed log."""
        self.ask((f"sed 's/^judge_all \"$@\"/exec 3<nowhere/' copy/bbm >copy/b; sh copy/b check log", "", "...bbm: the script ended by itself, so there is no answer", 70))


class Proof(Case):
    """Whether the program is that of its sources, and what is said while it is proved."""

    def setUp(self):
        super().setUp()
        for file, text in {"copy/crates.txt": "bbm_cli:\n", "copy/crates/bbm_cli/src/main.rt": "", "copy/crates/bbm_cli/specs/Lib.antt": "", "copy/tools/build_program": BUILD,
                           "bin/rt": RT}.items():
            self.write(file, text)
        self.env |= {"UNPROVED": ACCEPTED, "UNPROVED_ENDS": "0"}

    def test_old_program(self):
        """A source with an old time of change is seen, and a find that fails is no word that nothing changed."""
        self.ask(("bbm check --quiet log; rm -f copy/bbm_cli; bbm check log", f"{ACCEPTED}\n{ACCEPTED}"), ("touch -d 2001-01-01 old; sleep 0.1; cp -p old copy/crates/bbm_cli/src/main.rt",),
                 ("bbm check log", "", "...No such file...", 70))

    def test_find_that_fails(self):
        self.ask(("bbm check --quiet log", ACCEPTED))
        for code in ("exit 1", "echo >&2; exit 3", "[ $1 != crates.txt ] || exit 1; exit 1"):
            self.write("bin/find", f"#!/bin/sh\n{code}\n")
            self.ask(("bbm check log", "", "bbm: find doesn't tell whether the sources changed, so the program isn't run; ../bbm_cli can be run itself", 70))
        self.write("bin/find", f'#!/bin/sh\ncase "$*" in *-files0-from*) exit 1 ;; esac\nexec {shutil.which("find")} "$@"\n')
        self.ask(("bbm check log", ACCEPTED))

    def test_first_answer(self):
        """Beside the proof the sources answer unproved. What counts is the proved program's alone."""
        first = "bbm: the unproved program says: {}; the proof goes on"
        unbuilt = "rm -rf copy/out copy/crates/bbm_cli/out tried; touch wait; (until [ -e tried ]; do sleep 0.1; done; sleep 2; rm wait) & "
        self.env["RT"] = ""
        self.write("bin/rt", RT.replace("cat; sed 's/^/status=/' /dev/null; ", "cat >\"$ROOM/given\"; "))
        for words, log in (("check log", "check"), ("check <log", "check"), ("check - <log", "check"), ("walk el2 0x0 0x8 log", "walk el2 0x0 0x8")):
            self.ask((f"{unbuilt} bbm {words}; cat tried; cmp given log", f"{ACCEPTED}\n{log}", first.format(ACCEPTED)))
        self.ask((f"{unbuilt} UNPROVED='refused line 2 ..' UNPROVED_ENDS=1 bbm check log", ACCEPTED, first.format("refused line 2 ..") + "\nbbm: ATTENTION: the unproved program said: refused"
                  f" line 2 ..\nbbm: ATTENTION: the proved program says:   {ACCEPTED}\nbbm: ATTENTION: .."))
        built = "rm -rf copy/out copy/crates/bbm_cli/out tried; "
        self.ask((f"{built} bbm check --quiet log; ls tried", ACCEPTED, "ls: ..", 2), (f"{built} cat log | bbm check; ls tried", ACCEPTED, "ls: ..", 2),
                 (f"{built} gzip -c log >p; bbm check p; ls tried", ACCEPTED, "ls: ..", 2), (f"{built} bbm check log log; ls tried", f"log: {ACCEPTED}\nlog: {ACCEPTED}", "ls: ..", 2))
        # a trial that gives no answer says nothing, and one that takes longer than the proof is ended
        self.write("bin/rt", '#!/bin/sh\n[ "$1" != version ] || exit 0\necho $$ >"$ROOM/tried"; exec sleep 100\n')
        self.ask((f"{unbuilt} bbm check log; sleep 1; kill -0 $(cat tried)", ACCEPTED, "...No such process", 1))
        self.write("bin/rt", '#!/bin/sh\n: >"$ROOM/tried"; echo error >&2; exit 1\n')
        self.ask((f"{unbuilt} bbm check log", ACCEPTED))

    def test_stopped_first_answer(self):
        self.write("bin/rt", '#!/bin/sh\n[ "$1" != version ] || exit 0\necho $$ >"$ROOM/tried"; exec sleep 100\n')
        self.ask(("touch wait; bbm check log & until [ -e tried ]; do sleep 0.1; done; kill $!; rm wait; sleep 3; kill -0 $(cat tried)", "", "...No such process", 1))


if __name__ == "__main__":
    sys.exit(tables.run(sys.argv[1:]))
