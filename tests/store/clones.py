"""Small clones of a repository with a library or two and a program, which the kit proves in seconds, and a stand-in at once."""
import json
import os
import pathlib
import re
import shutil
import signal
import subprocess
import sys

import runner

TOOLS = ("tools/build_program.py", "tools/package_receipts.py", "tools/proofs_lib", "bin/x25prove")
ONE = """\
//! A number.
#![tactic(auto)]

ghost use Rattle.std.specs.Prelude.{◌≡◌};

/// Returns one.
pub fn one() -> u8
    ensures { result ≡ 1 }
{
    BODY
}
"""
MAIN = """\
//! Does nothing.
#![tactic(auto)]

fn main() {
    let _ = high::one();
}
"""
LOW = ONE.replace("BODY", "1")
TEXTS = {"low/src/lib.rt": LOW, "high/src/lib.rt": ONE.replace("BODY", "low::one()"), "x25scan/src/main.rt": MAIN}
CRATES_TEXT = "# Crates.\nlow:\nhigh: low\nx25scan: low high\n"
# A library less.
FEWER_TEXTS = {"low/src/lib.rt": LOW, "x25scan/src/main.rt": MAIN.replace("high::", "low::")}
FEWER_CRATES_TEXT = "# Crates.\nlow:\nx25scan: low\n"
# What these clones need of tools/package_files.py, which reads the documents of the repository.
REFUSAL = "class Refusal(Exception):\n    pass\n"
DONE = re.compile(r"^x25prove: \d+ of \d+: (\w+) ([a-z ]+?), ", re.MULTILINE)
SECONDS = 300


class Clone:
    """A clone in a folder: its store, the folder of its kit where that is not the one on the path, and what its runs say."""

    def __init__(self, folder, store, kit=None, crates=CRATES_TEXT, texts=TEXTS):
        self.folder, self.store, self.kit, self.crates, self.texts = folder, store, kit, crates, texts

    def write(self):
        """Writes the sources and the tools."""
        for name in TOOLS:
            source, place = runner.ROOT / name, self.folder / name
            place.parent.mkdir(parents=True, exist_ok=True)
            if source.is_dir():
                shutil.copytree(source, place, ignore=shutil.ignore_patterns("__pycache__"))
            else:
                shutil.copy(source, place)
        (self.folder / "tools" / "package_files.py").write_text(REFUSAL)
        (self.folder / "crates.txt").write_text(self.crates)
        for name, text in self.texts.items():
            self.change(name, text)
        return self

    @property
    def names(self):
        """The names of the crates."""
        return [path.partition("/")[0] for path in self.texts]

    def change(self, name, text):
        """Writes a source."""
        path = self.folder / "crates" / name
        path.parent.mkdir(parents=True, exist_ok=True)
        path.write_text(text)

    def comment(self, name="low"):
        """Adds a comment to a source of a library."""
        self.change(f"{name}/src/lib.rt", TEXTS[f"{name}/src/lib.rt"].replace("{\n    ", "{\n    // A comment.\n    ", 1))

    def beside(self, name, store=None):
        """A clone of the same sources and the same kit in a folder beside this one, and a store, which is in it where none is named."""
        folder = self.folder.with_name(name)
        return Clone(folder, store or folder / "store", self.kit, self.crates, self.texts)

    def copy(self, name, with_store=False):
        """A copy of the clone beside it, with what is built, and with the store of this one or a copy of it."""
        copied = self.beside(name, None if with_store else self.store)
        shutil.copytree(self.folder, copied.folder)
        if with_store and self.store.parent != self.folder:
            shutil.copytree(self.store, copied.store)
        return copied

    def fresh(self, name):
        """A clone of the same sources with a copy of this one's store, and nothing built."""
        copied = self.beside(name).write()
        shutil.copytree(self.store, copied.store)
        return copied

    def environment(self, **more):
        path = {"PATH": f"{self.kit}/bin:{os.environ['PATH']}"} if self.kit else {}
        return {**os.environ, "X25SCAN_STORE": str(self.store), **path, **more}

    def begin(self, *words, **more):
        """Starts bin/x25prove, which a signal can end; a shell has its background jobs ignore Ctrl-C."""
        command = [sys.executable, self.folder / "bin" / "x25prove", *words]
        pipe = subprocess.PIPE
        how = {"stdin": subprocess.DEVNULL, "stdout": pipe, "stderr": pipe, "text": True, "env": self.environment(**more)}
        return subprocess.Popen(command, cwd=self.folder, preexec_fn=lambda: signal.signal(signal.SIGINT, signal.SIG_DFL), **how)

    def prove(self, *words, **more):
        """Runs bin/x25prove. Returns its status, how each crate was made, and what it said."""
        with self.begin(*words, **more) as run:
            output, said = run.communicate(timeout=SECONDS)
        return run.returncode, dict(DONE.findall(said)), output + said

    def tool(self, *words):
        """Runs tools/build_program.py. Returns its status and what it said."""
        command = [sys.executable, self.folder / "tools" / "build_program.py", *words]
        done = subprocess.run(command, cwd=self.folder, env=self.environment(), capture_output=True, text=True, check=False, timeout=SECONDS)
        return done.returncode, done.stdout + done.stderr

    def way(self, path=None):
        """How the program was proved that is built of the sources, as tools ask; the second line says whether it is stale."""
        code = "from build_program import is_stale, program_way; print(way.value if (way := program_way()) else None); print(is_stale())"
        env = self.environment(**({"PATH": path} if path else {}))
        done = subprocess.run([sys.executable, "-c", code], cwd=self.folder / "tools", env=env, capture_output=True, text=True, check=False)
        return (done.stdout + done.stderr).split("\n")[:2]

    def record(self, path):
        return json.loads((self.folder / path).read_text())

    def entries(self, name=""):
        """The files of the store, of a crate."""
        return sorted(pathlib.Path(self.store).glob(f"{name}*.proof"))


def git(folder, *words):
    """Runs git in a folder."""
    author = ("-c", "user.name=A Name", "-c", "user.email=name@example.org", "-c", "commit.gpgsign=false")
    subprocess.run(["git", *author, *words], cwd=folder, check=True, capture_output=True)
