"""Tries edits of code and of definitions by the prover. `compare/statements/try --help` says how."""
import argparse
import collections
import functools
import json
import random
import re
import shutil
import sys
import tempfile
from dataclasses import asdict, fields
from pathlib import Path

from beside import Beside
from edits import Code, Edit, edits_of
from figures import figures
from prover import FOLLOWS, FORM, LEFT, WAITS, Prover, function_of, opened, proof_folder

ROOT = Path(__file__).resolve().parents[2]


def libraries():
    """Those that do no input and output."""
    files = {name: ROOT / "crates" / name / "src/lib.rt" for name in stands_on()}
    return [name for name, file in files.items() if file.exists() and "std::io" not in file.read_text()]


@functools.cache
def body(root, unit):
    """The text of a function's body."""
    crate, file, name = unit
    code = Code(crate, file, (root / "crates" / crate / file).read_text())
    return next(code.text[u.start:u.end] for u in code.units if u.name == name)


def calls(root, a, b):
    """Whether the function a calls one of b's name."""
    return re.search(rf"\b{b[2].split('::')[-1]}\(", body(root, a)) is not None


class Chooser:
    """Hands out edits, of the kinds that were tried least first, each once, in an order that the seed fixes."""

    def __init__(self, edits, seed):
        self.left = collections.defaultdict(list)
        self.tried = collections.Counter()  # of a kind, and of a function or definition
        for e in edits:
            self.left[e.crate, e.file, e.unit].append(e)
        for unit in sorted(self.left):
            random.Random(f"{seed} {unit}").shuffle(self.left[unit])

    def units(self, crate):
        """Those that were tried least come first."""
        return sorted((u for u in self.left if u[0] == crate and self.left[u]), key=lambda u: (self.tried[u], u))

    def next(self, unit):
        if not self.left[unit]:
            return None
        e = min(self.left[unit], key=lambda e: self.tried[e.kind])
        self.left[unit].remove(e)
        self.tried.update((e.kind, unit))
        return e


class Trial:
    """`done` has the outcomes of edits that were tried before, which are not tried again."""

    def __init__(self, prover, record, done):
        self.prover, self.record, self.done = prover, record, done

    def code(self, crate, chooser):
        """Edits of functions that do not call each other, one each, in one run: a proof stands on the contracts of other functions, not on their bodies."""
        batch = {}
        for u in chooser.units(crate):
            if not any(calls(self.prover.root, u, x) or calls(self.prover.root, x, u) for x in batch):
                batch[u] = chooser.next(u)
                while batch[u] and self.done.get(batch[u]) == "no program":
                    batch[u] = chooser.next(u)
        batch = {u: e for u, e in batch.items() if e and e not in self.done}
        while batch:
            self.prover.put(crate, batch.values())
            v = self.prover.run(crate)
            if not v.source:
                return self.judge(crate, batch, v)
            wrong = {u for u in batch for file, line in v.source if file == u[1] and self.within(u, line)}
            for u in wrong or set(batch):
                self.record(batch[u], "no program", v)
                batch[u] = chooser.next(u)
            batch = {u: e for u, e in batch.items() if e}

    def within(self, unit, line):
        crate, file, name = unit
        text = (self.prover.work / "crates" / crate / file).read_text()
        spans = [(u.head, u.end) for u in Code(crate, file, text).units if u.name == name]
        return any(text.count("\n", 0, head) < line <= text.count("\n", 0, end) + 1 for head, end in spans)

    def judge(self, crate, batch, v):
        """Which edits of code were refused, and at what."""
        own = {u: proof_folder(self.prover.root, e.unit) for u, e in batch.items()}
        for u, e in batch.items():
            said = v.functions.get(e.unit, "")
            refused = any(x.file.startswith(own[u]) for x in v.errors if not FOLLOWS.search(x.text))
            if v.late:
                self.record(e, "late", v)
            elif e.unit in v.unanswered:
                self.record(e, "fact", v, v.unanswered[e.unit], f"{LEFT} it")
            elif said.startswith("proved"):
                self.record(e, "accepted", v)
            elif len(batch) > 1 and (not refused or WAITS.search(said)):  # a function that it calls is not proved, so not all of it was tried
                self.prover.put(crate, [e])
                self.judge(crate, {u: e}, self.prover.run(crate))
            elif not refused:
                self.record(e, "form", v, [], said)
            else:
                continue
            del own[u]
        if own:
            w, errors, misfits = self.left_open(crate, {own[u]: batch[u] for u in own}, v)
            for u, folder in own.items():
                mine = [x for file, xs in errors.items() if file.startswith(folder) for x in xs]
                said = w.functions.get(u[2], "")
                fits = not any(file.startswith(folder) for file in misfits) and ("depends on a hole" in said or LEFT in said)
                goals = {d: g for (f, d), g in w.goals.items() if f.startswith(folder)} if fits else {}
                self.record(batch[u], "fact" if fits else "form", v, [x.declaration for x in mine] + w.unanswered.get(u[2], []), mine[0].text, goals)

    def left_open(self, crate, edits, v):
        """Leaves refused answers open until no other is refused, to see whether the rest of the proof fits. `edits` is by the folder of the proof."""
        folder, texts, errors, misfits = self.prover.work / "crates" / crate, {}, collections.defaultdict(list), set()
        edit = lambda file: next((e for place, e in edits.items() if place is None or file.startswith(place)), None)
        for _ in range(12):
            fresh = [x for x in v.errors if not FOLLOWS.search(x.text) and x.file not in misfits and edit(x.file)]
            if not fresh:
                break
            for file in {x.file for x in fresh}:
                refused = [x for x in fresh if x.file == file]
                errors[file] += refused
                text = texts.get(file) or (self.prover.root / "crates" / crate / file).read_text()
                fits = not file.endswith("/Invariants.antt") and not any(FORM.match(x.text) for x in refused)
                texts[file] = opened(text, refused) if fits else None
                if texts[file] is None:
                    misfits.add(file)
            lost = [edit(file) for file in misfits]
            self.prover.put(crate, [e for place, e in edits.items() if (place is None or e not in lost) and e.crate == crate])
            for file, text in texts.items():
                if text:
                    (folder / file).write_text(text)
            v = self.prover.run(crate, "--allow-holes")
        return v, errors, misfits

    def definition(self, e):
        """An edit of a definition, by itself. It is refused at a fact if the proof of some function or law fits but for that."""
        if e in self.done:
            return
        self.prover.put(e.crate, [e])
        for crate in [e.crate, *users(e)]:  # a crate above may be the first to say something of it
            v = self.prover.run(crate)
            if not v.proved:
                break
        refused = [x for x in v.errors if not FOLLOWS.search(x.text)]
        if v.late or v.proved:
            self.record(e, "late" if v.late else "accepted", v)
        elif any(x.file == e.file and x.declaration == e.unit for x in refused):
            self.record(e, "no program", v, [], refused[0].text)
        else:
            w, errors, misfits = self.left_open(crate, {None: e}, v)
            still = misfits | {x.file for x in w.errors if not FOLLOWS.search(x.text)}
            said = lambda f: w.functions.get(function_of(crate, f), "depends on a hole")
            fits = lambda f: f not in still and ("depends on a hole" in said(f) or LEFT in said(f))
            goals = {f"{crate}/{f}: {d}": g for (f, d), g in w.goals.items() if fits(f)}
            facts = [f"{crate}/{x.file}: {x.declaration}" for xs in errors.values() for x in xs]
            facts += [f"{f}: {n}" for f, needs in v.unanswered.items() for n in needs]
            self.record(e, "fact" if goals or v.unanswered else "form", v, facts, refused[0].text if refused else "", goals)
        self.prover.restore(crate)
        self.prover.restore(e.crate)


def users(e):
    """The crates above that name a definition, and those between."""
    texts = lambda c: (p.read_text() for p in sources(ROOT / "crates" / c))
    named = re.compile(rf"(?<![\w◌]){re.escape(e.unit)}(?![\w◌])")
    naming = [c for c in libraries() if c != e.crate and e.crate in in_order([c]) and any(named.search(t) for t in texts(c))]
    return [c for c in in_order(naming) if c != e.crate and e.crate in in_order([c])]


def sources(folder):
    return [p for part in ("src", "specs", "proofs") for p in sorted((folder / part).rglob("*")) if p.suffix in (".rt", ".antt")]


def stands_on():
    lines = (ROOT / "crates.txt").read_text().splitlines()
    pairs = (line.split("#")[0].split(":") for line in lines if ":" in line.split("#")[0])
    return {name.split()[0]: rest.split() for name, rest in pairs}  # `NAME staticlib: ..` of a static library


def in_order(crates):
    """Each crate after those that it stands on."""
    below, done = stands_on(), []

    def visit(c):
        for d in below.get(c, ()):
            visit(d)
        if c in below and c not in done:
            done.append(c)

    for c in crates:
        visit(c)
    return done


def run_beside(rows, work, calls):
    """Runs each edited function beside the unedited one, and adds what that showed."""
    code = [r for r in rows if r["file"].startswith("src/") and r["outcome"] in ("fact", "form", "accepted")]
    beside = Beside(ROOT, work, in_order(libraries()), [edit_of(r) for r in code])
    for n, r in enumerate(code, 1):
        found = beside.differs(n, calls)
        r.update({"calls": found} if isinstance(found, int) else {"input": found[0][:400], "right": found[1][:400], "edited": found[2][:400]})


def outcomes(file):
    with open(file) as lines:
        return [json.loads(line) for line in lines]


def edit_of(row):
    values = {f.name: row[f.name] for f in fields(Edit)}
    return Edit(**{**values, "parts": tuple(map(tuple, values["parts"]))})


def main():
    p = argparse.ArgumentParser(prog="compare/statements/try", description="Edits code and definitions, one place each, and has the prover try them. See docs/STATEMENTS.md.")
    p.add_argument("--seed", type=int, default=1)
    p.add_argument("--rounds", type=int, default=1, help="runs for each crate with edits of code (default 1)")
    p.add_argument("--definitions", type=int, default=2, help="edits of definitions in each crate (default 2)")
    p.add_argument("--crates", help="names, parted by commas (default: every library)")
    p.add_argument("--limit", type=int, default=300, help="seconds for one run of the prover (default 300)")
    p.add_argument("--calls", type=int, default=2000, help="how often the functions of hosts are called to find an input (default 2000)")
    p.add_argument("--out", default=str(ROOT / "target/statements.jsonl"), help="outcomes are added here (default target/statements.jsonl)")
    p.add_argument("--work", help="folder for the copy of the repository, kept for the next run (default: a temporary one)")
    p.add_argument("--figures", action="store_true", help="try nothing; run what the file of outcomes has, and print its figures")
    a = p.parse_args()
    crates = a.crates.split(",") if a.crates else libraries()
    work = Path(tempfile.mkdtemp(prefix="statements-"))
    try:
        if not a.figures:
            try_edits(a, crates, Path(a.work) if a.work else work / "copy")
        rows = outcomes(a.out)
        run_beside(rows, work / "beside", a.calls)
        return figures(rows)
    finally:
        shutil.rmtree(work)


def try_edits(a, crates, work):
    prover = Prover(ROOT, work, a.limit)
    Path(a.out).parent.mkdir(parents=True, exist_ok=True)
    out = open(a.out, "a")
    done = {edit_of(row): row["outcome"] for row in outcomes(a.out)}

    def record(e, outcome, v, facts=(), said="", goals=None):
        facts = list(dict.fromkeys(facts))
        row = dict(asdict(e), outcome=outcome, facts=facts, said=said[:600], goals=goals or {}, seconds=round(v.seconds, 1))
        out.write(json.dumps(row, ensure_ascii=False) + "\n")
        out.flush()
        print(f"{outcome:10} {e.name[:150]}{' AT ' + ', '.join(facts) if facts else ''}", flush=True)

    code, definitions = edits_of(ROOT, libraries())
    trial = Trial(prover, record, done)
    chooser, defined = Chooser(code, a.seed), Chooser(definitions, a.seed)
    for c in crates:
        prover.ready(c)
        for _ in range(a.rounds):
            if chooser.units(c):
                trial.code(c, chooser)
        units = defined.units(c)
        random.Random(f"{a.seed} {c}").shuffle(units)
        for u in units[:a.definitions]:
            trial.definition(defined.next(u))
        prover.restore(c)


if __name__ == "__main__":
    sys.exit(main())
