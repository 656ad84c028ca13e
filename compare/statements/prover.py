"""One crate with edits in it, tried by the prover in a copy of the repository; what the prover said, function by function."""
import os
import re
import shutil
import signal
import subprocess
import time
from dataclasses import dataclass, field

from edits import applied

# The answer does not fit the code: it names a goal, a step, a fact or a value that is not there.
FORM = re.compile(r"(?:`[^`]*`: )?(?:record `[^`]*` has no field|module `[^`]*` has no `|this pattern needs|`[^`]*` is not in scope|`[^`]*` is no name)")
# Follows from an error that is reported elsewhere.
FOLLOWS = re.compile(r"was not admitted|was rejected, w(?:as|ere) not checked|is not admitted")
# The line of a function whose goals with no answer are left, and that of one that waits for another's proof.
LEFT = "`search` did not prove"
WAITS = re.compile(r"it calls `.* not proved")


@dataclass
class Error:
    file: str
    line: int
    column: int
    declaration: str
    text: str


@dataclass
class Verdicts:
    """What one run of the prover said."""
    said: str
    seconds: float
    functions: dict = field(default_factory=dict)  # name: what the line `fn NAME: ..` says
    errors: list = field(default_factory=list)
    source: list = field(default_factory=list)  # (file, line): refused before the prover
    goals: dict = field(default_factory=dict)  # (file, declaration): text
    unanswered: dict = field(default_factory=dict)  # function: goals that `search` did not prove
    proved: bool = False
    late: bool = False


def copied(root, work):
    """The repository's crates in another folder, without their must-fail edits; what rt keeps there, in each crate's out/, stays."""
    (work / "crates").mkdir(parents=True, exist_ok=True)
    for file in ("crates.txt", "HANDLES"):
        if (root / file).exists():
            shutil.copy(root / file, work / file)
    crates = {folder.name for folder in (root / "crates").iterdir() if folder.is_dir()}
    for gone in {folder.name for folder in (work / "crates").iterdir()} - crates:
        shutil.rmtree(work / "crates" / gone)
    for crate in crates:
        restored(root, work, crate)


def restored(root, work, crate):
    to = work / "crates" / crate
    to.mkdir(exist_ok=True)
    for path in to.iterdir():
        if path.name != "out":
            shutil.rmtree(path) if path.is_dir() else path.unlink()
    shutil.copytree(root / "crates" / crate, to, ignore=shutil.ignore_patterns("out", "must-fail"), dirs_exist_ok=True)


class Prover:
    """The prover in a copy of the repository. What rt has proved of the same text elsewhere on this machine, it begins with."""

    def __init__(self, root, work, limit):
        self.root, self.work, self.limit = root, work, limit
        copied(root, work)

    def restore(self, crate):
        restored(self.root, self.work, crate)

    def ready(self, crate):
        """Proves the crate as it is, and those below, without a limit: edits are tried over that."""
        if not self.run(crate, limit=None).proved:
            raise SystemExit(f"{crate}, or a crate that it stands on, is not proved as it is; run rt check there first")

    def put(self, crate, edits):
        self.restore(crate)
        for file in {e.file for e in edits}:
            path = self.work / "crates" / crate / file
            path.write_text(applied(path.read_text(), [e for e in edits if e.file == file]))

    def run(self, crate, *words, limit=0):
        """`rt check`, read. It goes over what it kept in out/: what no edit reaches is not proved again."""
        began = time.time()
        process = subprocess.Popen(
            ["rt", "check", *words], cwd=self.work / "crates" / crate, stdout=subprocess.PIPE, stderr=subprocess.STDOUT, text=True, start_new_session=True)
        try:
            said, late = process.communicate(timeout=self.limit if limit == 0 else limit)[0], False
        except subprocess.TimeoutExpired:
            os.killpg(process.pid, signal.SIGKILL)
            said, late = process.communicate()[0], True
        except BaseException:
            os.killpg(process.pid, signal.SIGKILL)
            raise
        v = Verdicts(said, time.time() - began, late=late)
        v.proved = process.returncode == 0 and "\nlogic=proved" in said
        self.read(v)
        return v

    @staticmethod
    def read(v):
        lines = v.said.split("\n")
        for i, line in enumerate(lines):
            if m := re.match(r"fn (\S+): (.*)", line):
                function = around(m[1])
                if function not in v.functions or not m[2].startswith("proved"):
                    v.functions[function] = m[2]
                if LEFT in m[2]:
                    v.unanswered.setdefault(function, []).extend(re.findall(r"`([^`]+)`", m[2].split(LEFT)[1].split(";")[0]))
            elif m := re.match(r"(?:\./)?(src/\S+?):(\d+):(\d+): error", line):
                v.source.append((m[1], int(m[2])))
            elif m := re.match(r"(?:\./)?(\S+?):(\d+):(\d+): error: (?:`(\S+?)`: )?(.*)", line):
                v.errors.append(Error(m[1], int(m[2]), int(m[3]), m[4] or "", m[5]))
            elif m := re.match(r"(?:\./)?(\S+?):\d+:\d+: goal \? in `(\S+)`", line):
                goal = []
                for after in lines[i + 1:]:
                    if after.startswith(("    (computed from", "  names you can use")) or not after.startswith(" "):
                        break
                    if after.startswith("  ⊢") or goal:
                        goal.append(after.strip())
                v.goals.setdefault((m[1], m[2]), shortened(" ".join(goal)))


def shortened(text):
    """Module names dropped; what the goal knows, `c.step.fact`, stays."""
    return re.sub(r"(?<![\w.◌])(?!c\.)(?:[A-Za-z][\w+-]*\.)+(?=[\w◌])", "", text)


def proof_folder(root, function):
    """Where the proof of crate::path::f stands, below the crate's folder; a recursive function's has a + before its name."""
    crate, *parts = function.split("::")
    folders = ["/".join(["proofs", *parts[:-1], sign + parts[-1]]) + "/" for sign in ("", "+")]
    return next((f for f in folders if (root / "crates" / crate / f).is_dir()), folders[0])


def function_of(crate, file):
    """The function whose proof a file is part of."""
    return around("::".join([crate, *file.split("/")[1:-1]])).replace("+", "")


def around(name):
    """The function that a closure stands in: `c::fn::T::f::map` and `c::fn::T::f::map+FnOnce::call_once` are proved apart from `c::T::f`."""
    return re.sub(r"^(\w+)::fn::((?:\+?\w+::)+?)\w+(?:\+.*)?$", lambda m: f"{m[1]}::{m[2][:-2]}", name)


def opened(text, errors):
    """A proof with a hole for each answer that was refused. None where an error is not in an answer."""
    lines = text.split("\n")
    holes = {clause_at(lines, e.declaration, e.line - 1) for e in errors}  # (first line, column, last line, column)
    if None in holes:
        return None
    for row, start, last, end in sorted(holes, reverse=True):
        lines[row:last + 1] = [lines[row][:start] + "?" + lines[last][end:]]
    return "\n".join(lines)


def clause_at(lines, name, row):
    """The right-hand side of the declaration's clause that holds a line."""
    depth = lambda line: len(line) - len(line.lstrip())
    for i in range(row, -1, -1):
        if head := re.match(rf" *{re.escape(name)}(?: [^:].*?)? =(?= |$)", lines[i]):
            break
    else:
        return None
    j = i
    while j + 1 < len(lines) and depth(lines[j + 1]) > depth(lines[i]):
        j += 1
    if j < row:
        return None
    lines[i] = lines[i][:head.end()] + " " + lines[i][head.end():].lstrip()
    return i, head.end() + 1, j, len(lines[j])
