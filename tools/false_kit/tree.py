# SPDX-License-Identifier: Apache-2.0
"""The room of a test: a copy of the script's tree, and the false kit on the PATH."""
import os
import shutil
import subprocess
import sys
import tempfile

TOP = os.path.dirname(os.path.dirname(os.path.dirname(os.path.realpath(__file__))))
KIT = f"{TOP}/tools/false_kit"
# What the script's tree has beside the crates.
TREE = [".ci", "bbm", "bbm.1", "README.md", "LICENSE", "docs", "examples/remap.log", "tools/why", "tools/crates.py",
        "tools/build_program", "tools/install", "tools/package", "tools/bbm.bash-completion"]
CRATES = {it: "first" for it in ("low/src/lib.rt", "mid/src/lib.rt", "aside/src/lib.rt", "bbm_cli/src/main.rt")}
CRATES |= {f"{it}/specs/Lib.antt": it for it in ("low", "mid", "aside", "bbm_cli", "bbm_rules")}
CRATES |= {"../crates.txt": "# a comment\nlow:\nmid: low arrayvec\naside:\nbbm_cli: mid\n"}


class Tree:
    """A room with a copy of the script's tree and a false toolchain, where nothing is built yet."""

    def __init__(self, rt="rt", program="program"):
        self.room = tempfile.mkdtemp(prefix="bbm-test-")
        self.top = f"{self.room}/tree"
        for it in ("also", "bin", "empty", "few", "false", "kit/bin", "tmp", "tree/crates"):
            os.makedirs(f"{self.room}/{it}")
        parts = [(f"{TOP}/{it}", f"tree/{it}") for it in TREE]
        parts += [(f"{KIT}/{it}", f"bin/{it}") for it in ("calls", "until_there", "unread")]
        parts += [(f"{KIT}/{rt}", "kit/bin/rt"), (f"{KIT}/rt", "kit/bin/rt.sh"), (f"{KIT}/{program}", "false/program")]
        for of, to in parts:
            os.makedirs(os.path.dirname(f"{self.room}/{to}"), exist_ok=True)
            (shutil.copytree if os.path.isdir(of) else shutil.copy2)(of, f"{self.room}/{to}")
        for file, text in CRATES.items():
            self.write(f"tree/crates/{file}", text)
        self.write("kit/KIT-ID", "kit logic 0123\n")
        os.symlink(f"{self.room}/kit/bin/rt", f"{self.room}/bin/rt")
        # Folders of the PATH with a real rt are left out; what else they may have stands in `also`.
        for it in filter(shutil.which, ("python3", "git", "man", "find", "setpriv", "dpkg-deb")):
            os.symlink(sys.executable if it == "python3" else shutil.which(it), f"{self.room}/also/{it}")
        clean = [it for it in os.environ["PATH"].split(":") if not os.path.exists(f"{it}/rt")]
        no_rt = ":".join([f"{self.room}/also", self.top, *clean])
        # Where this is root, whom no mode keeps out, DROP has a command run as another user.
        drop = "setpriv --reuid=65534 --regid=65534 --clear-groups" if os.geteuid() == 0 else ""
        self.env = {**os.environ, "PATH": f"{self.room}/bin:{no_rt}", "NO_RT": no_rt, "FALSE": f"{self.room}/false",
                    "TMPDIR": f"{self.room}/tmp", "LC_ALL": "C", "MANPAGER": "cat", "DROP": drop}

    def write(self, file, text):
        """Writes a file of the room, a command where it begins as one."""
        os.makedirs(os.path.dirname(f"{self.room}/{file}"), exist_ok=True)
        with open(f"{self.room}/{file}", "wb") as it:
            it.write(text if isinstance(text, bytes) else text.encode())
        if text[:2] == "#!":
            os.chmod(f"{self.room}/{file}", 0o755)

    def run(self, code, seconds=180):
        """What a command writes to standard output and to standard error, and its status."""
        how = {"stdin": subprocess.DEVNULL, "capture_output": True, "errors": "replace", "timeout": seconds}
        ran = subprocess.run(["sh", "-c", code], cwd=self.room, env=self.env, **how)
        return ran.stdout, ran.stderr, ran.returncode

    def remove(self):
        self.run("chmod -R u+rwx .")
        shutil.rmtree(self.room, ignore_errors=True)
