# SPDX-License-Identifier: Apache-2.0
"""Several logs at once: the script is run for each of them, and what these runs say is told in the order of the logs."""
from __future__ import annotations

import contextlib
import json
import os
import re
import signal
import subprocess
import sys
from collections.abc import Iterable
from concurrent.futures import ThreadPoolExecutor
from dataclasses import dataclass, field
from tempfile import TemporaryDirectory
from threading import RLock

from why.asking.program import Status, emit

LINE = re.compile(r"[^\n]*\n|[^\n]+")
UNMET = re.compile(r"unmet line \d+ of .*|.*: note: no finding meets .* \[bbm\]|::notice .*title=bbm::no finding meets .*|\{\"verdict\": \"unmet\".*")
UNANSWERED = "there is no answer; standard error says why"
JUDGED = (Status.ACCEPTED, Status.REFUSED, Status.MALFORMED, Status.LIMIT)


@dataclass
class Many:
    """A word of the script with its options, over several logs."""

    script: str
    word: str
    options: dict[str, str]
    logs: list[str]
    running: set[subprocess.Popen] = field(default_factory=set)
    folder: TemporaryDirectory = field(default_factory=TemporaryDirectory)
    lock: RLock = field(default_factory=RLock)
    is_ended: bool = False
    unanswered: list[str] = field(default_factory=list)

    def words(self, count: int) -> list[str]:
        """What the script is given for the log of this position."""
        own = {name: value for name, value in self.options.items() if name != "jobs"}
        if "write-known" in own:
            own["write-known"] = f"{self.folder.name}/{count}.known"
        options = (f"--{name}={value}" if value else f"--{name}" for name, value in own.items())
        return ["sh", self.script, "--quiet", self.word, *options, "--", self.logs[count]]

    def part(self, count: int) -> str:
        """The file for the part of the page for the log of this position."""
        return f"{self.folder.name}/{count}.part"

    def answer(self, count: int) -> tuple[int, str, bytes]:
        """The status for one log, and what goes to standard output and error."""
        log = None if self.logs[count] == "-" else subprocess.DEVNULL
        with self.lock:
            if self.is_ended:
                return Status.UNABLE, "", b""
            pipes = {"stdin": log, "stdout": subprocess.PIPE, "stderr": subprocess.PIPE}
            run = subprocess.Popen(self.words(count), **pipes, env={**os.environ, "BBM_PAGE": self.part(count)})
            self.running.add(run)
        with run:
            text, told = run.communicate()
        with self.lock:
            self.running.discard(run)
        if run.returncode < 0:
            told += os.fsencode(f"bbm: {self.logs[count]}: the script was ended by signal {-run.returncode}, so there is no answer\n")
        return (run.returncode if run.returncode >= 0 else Status.UNABLE), text.decode("utf-8", "surrogateescape"), told

    def stop(self) -> None:
        """Ends what runs, and lets nothing begin."""
        with self.lock:
            self.is_ended = True
            for run in self.running:
                run.terminate()

    def end(self, number: int, _frame) -> None:
        """Ends what runs, and this process by the signal."""
        self.stop()
        self.folder.cleanup()
        signal.signal(number, signal.SIG_DFL)
        os.kill(os.getpid(), number)

    def tell(self) -> int:
        """Tells all, and gives the greatest status."""
        for number in (signal.SIGHUP, signal.SIGINT, signal.SIGTERM):
            signal.signal(number, self.end)
        with self.folder, ThreadPoolExecutor(int(self.options.get("jobs", "1"))) as pool:
            try:
                greatest = self.tell_all(pool.map(self.answer, range(len(self.logs))))
            except BaseException:
                self.stop()
                raise
            self.write_known()
            self.write_page()
        return greatest

    def tell_all(self, answers: Iterable[tuple[int, str, bytes]]) -> int:
        """Tells the answers, and behind them what only all of them together say: the lines that none meets, or the log of SARIF."""
        form, greatest, results, unmet = self.options.get("format", ""), 0, [], None
        for log, (status, text, told) in zip(self.logs, answers):
            with contextlib.suppress(OSError):
                os.write(2, told)
            greatest = max(greatest, status)
            self.unanswered.append(why_of(told, status) if status not in JUDGED else "")
            if form and status not in JUDGED and not text:
                from why.telling.sarif import unread

                text = unread(UNANSWERED, log, form)
            if form == "sarif":
                results.append(json.loads(text))
                continue
            lines = LINE.findall(text)
            alone = [line for line in lines if self.word == "findings" and UNMET.fullmatch(line[:-1])]
            if status in JUDGED:
                unmet = alone if unmet is None else [line for line in unmet if line in alone]
            if lines or status != Status.UNABLE:
                emit(self.named(log, "".join(line for line in lines if line not in alone), form))
        if form == "sarif":
            from why.telling import sarif

            emit(sarif.joined(results))
        else:
            emit("".join(unmet or []))
        return greatest

    def named(self, log: str, text: str, form: str) -> str:
        """A text begins with the name of its log, where its form hasn't it and there are several."""
        return text if form or len(self.logs) == 1 else f"{log}: {text or chr(10)}"

    def read(self, name: str) -> str:
        """What a run wrote to a file of the folder; nothing where it wrote none."""
        try:
            with open(f"{self.folder.name}/{name}", encoding="utf-8", errors="surrogateescape") as file:
                return file.read()
        except FileNotFoundError:
            return ""

    def write_known(self) -> None:
        """Joins the files that the runs wrote."""
        path = self.options.get("write-known")
        if path:
            from why.telling import files, known

            files.write(path, known.joined(self.read(f"{count}.known") for count in range(len(self.logs))))

    def write_page(self) -> None:
        """Makes the page of the parts that the runs wrote, and says of which logs there is none."""
        if "html" not in self.options:
            return
        from why.telling import files, page

        texts = (self.read(os.path.basename(self.part(count))) for count in range(len(self.logs)))
        parts = [json.loads(text) if text and not why else page.unread(log, why or "its part of the page is missing")
                 for log, text, why in zip(self.logs, texts, self.unanswered)]
        files.write(self.options["html"], page.page(parts))


def why_of(told: bytes, status: int) -> str:
    """What a run that gave no answer said last of that."""
    lines = told.decode("utf-8", "surrogateescape").split("\n")
    lines = [line.removeprefix("bbm: ") for line in lines if line.startswith("bbm: ")]
    return lines[-1] if lines else f"the script ended with status {status}, so there is no answer"


def run(script: str, word: str, *items: str) -> int:
    """The greatest status of the script's runs. Behind `--` stand the logs."""
    sys.stdout.reconfigure(encoding="utf-8", errors="surrogateescape")
    at = items.index("--")
    options = {name: value for name, _, value in (item.removeprefix("--").partition("=") for item in items[:at])}
    return Many(script, word, options, [*items[at + 1:]]).tell()
