"""What the outcomes come to."""
import collections
import re
from pathlib import Path

KNOWN = Path(__file__).resolve().parent / "equivalent.txt"
VERDICTS = ("fact fails", "law", "misfit, input", "misfit", "no input", "changes nothing", "accepted", "no program", "late")


def known():
    """Edits that change no answer, with the reasons."""
    lines = [line for line in KNOWN.read_text().splitlines() if line and not line.startswith("#")]
    return {edit: reason.strip() for edit, reason in zip(lines[::2], lines[1::2])}


def named(row):
    """An edit without its line number."""
    return f"{row['crate']}/{row['file']} {row['unit']}: {row['kind']}: {row['old']} -> {row['new']}"


def part(row):
    return "code" if row["file"].startswith("src/") else "definitions"


def of_function(row):
    """Whether a fact that is refused is one of a function's proof, and not of a law."""
    return any(re.search(r"/(Answers|Invariants|Proof)\.antt: ", fact) for fact in row["goals"]) or any("::" in fact for fact in row["facts"])


def verdict(row, reasons):
    differs = "input" in row
    if named(row) in reasons and (row["outcome"] == "accepted" or not differs):
        return "changes nothing"
    if row["outcome"] == "fact" and part(row) == "definitions":
        return "fact fails" if of_function(row) else "law"
    if row["outcome"] == "fact":
        return "fact fails" if differs else "no input"
    if row["outcome"] == "form":
        return "misfit, input" if differs else "misfit"
    return row["outcome"]


def table(title, rows, key, reasons):
    groups = collections.defaultdict(collections.Counter)
    for r in rows:
        groups[key(r)][verdict(r, reasons)] += 1
        groups["all"][verdict(r, reasons)] += 1
    shown = [v for v in VERDICTS if groups["all"][v]]
    print(f"\n| {title} | tried | " + " | ".join(shown) + " |")
    print("|---" * (len(shown) + 2) + "|")
    for name in sorted(groups, key=lambda n: (n == "all", n)):
        counts = groups[name]
        print(f"| {name} | {sum(counts.values())} | " + " | ".join(str(counts[v] or "") for v in shown) + " |")


def figures(rows):
    """Prints them, and the edits that are to be looked at. The status is 1 if one was accepted that is not known to change no answer."""
    reasons = known()
    for r in rows:
        if verdict(r, reasons) in ("accepted", "no input"):
            print(f"{verdict(r, reasons)}: {named(r)} (the same on {r.get('calls', 0)} calls)")
    table("part", rows, part, reasons)
    table("kind", rows, lambda r: r["kind"], reasons)
    table("crate", rows, lambda r: r["crate"], reasons)
    return int(any(verdict(r, reasons) == "accepted" for r in rows))
