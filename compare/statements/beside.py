"""Edited functions run beside the unedited ones. The code is Rust but for its contracts, ghost items and derives; it is built as Rust, outside the repository."""
import re
import subprocess
from pathlib import Path

from edits import SIGNATURE, Code, applied, parameters

HERE = Path(__file__).resolve().parent
FLAGS = ["--edition", "2021", "-Copt-level=1", "-Coverflow-checks=on", "--cap-lints=allow"]
# What contracts say of a value, where it is not all of it: the places in use.
SHOWN = {
    "Candidates": "(&self.dxs[..self.count], &self.dys[..self.count], &self.lens[..self.count])",
    "Elements": "&self.at[..self.count]",
}
# What has no place in Rust, or another there: clauses of contracts, ghost items, the trait that has only these, attributes.
DROPPED = r"^ *#!?\[(?:unsafe\(no_mangle\)|tactic\(.*\))\]\n|^ *ghost [^\n]*;\n|^use std::marker::Model;\n|(?:\n +(?:requires|ensures)\b[^\n]*)+(?=;\n)"
MODEL = r"^impl Model for \w+ \{\s*\}\n"


class Beside:
    """All crates as Rust, with every edit in them; `crates` are in the order in which they stand on each other."""

    def __init__(self, root, work, crates, edits):
        self.root, self.work, self.crates = root, work, crates
        self.numbered = dict(enumerate(edits, 1))
        work.mkdir(parents=True, exist_ok=True)
        self.compile("beside", HERE / "beside.rs", [])
        self.compile("arrayvec", HERE / "arrayvec.rs", [])
        for c in crates:
            for path in sorted((root / "crates" / c / "src").glob("*.rt")):
                target = work / c / (path.stem + ".rs")
                target.parent.mkdir(exist_ok=True)
                target.write_text(self.rust(c, f"src/{path.name}", path.read_text()))
            self.compile(c, work / c / "lib.rs", [*crates[:crates.index(c)], "beside", "arrayvec"])
        (work / "drive.rs").write_text((HERE / "drive.rs").read_text() + self.direct_calls())
        self.compile("drive", work / "drive.rs", [*crates, "beside"], kind="bin")
        for order in sorted((root / "examples").glob("*.order")):
            sheet = subprocess.run([str(work / "drive"), "0", "sheet"], input=order.read_bytes(), capture_output=True).stdout
            if sheet != order.with_suffix(".sheet").read_bytes():
                raise SystemExit(f"built as Rust, the code gives {order.name} another sheet")

    def compile(self, name, path, externs, kind="rlib"):
        words = [w for c in externs for w in ("--extern", f"{c}={self.work}/lib{c}.rlib")]
        out = self.work / ("drive" if kind == "bin" else f"lib{name}.rlib")
        made = ["--crate-type", kind, "--crate-name", name, "-o", str(out), str(path)]
        subprocess.run(["rustc", *FLAGS, "-L", str(self.work), *words, *made], check=True)

    def rust(self, crate, file, text):
        """The file as Rust, with each edited function beside the unedited one."""
        code = Code(crate, file, text)
        out, last = "", 0
        for u in code.units:
            start, end = u.start - 1, u.end + 1  # the body with its braces
            signature = signature_of(text[u.head:start])
            bodies = {0: text[start:end]}
            for n, e in self.numbered.items():
                if (e.crate, e.file, e.unit) == (crate, file, u.name):
                    bodies[n] = applied(text, [e])[start:end + sum(len(new) - (q - p) for p, q, new in e.parts)]
            before = text[last:u.head]
            public = "" if u.of_trait or not re.search(r"(?:^|\n) *$", before) else "pub "
            out += before + public + (beside(signature, bodies, u) if len(bodies) > 1 else f"{signature} {bodies[0]}")
            last = end
        out = re.sub(DROPPED, "", out + text[last:], flags=re.M).replace('extern "C" fn', "fn")
        out = re.sub(r"\bstd::num::(?=f32_|saturating_)", "beside::", out)
        out = re.sub(MODEL, "", out, flags=re.M)
        public = lambda m: re.sub(r"^    (?=\w+: )", "    pub ", m[0], flags=re.M)
        out = re.sub(r"^(?:pub )?struct \w+(?:<[^>]*>)? \{.*?^\}", public, out, flags=re.M | re.S)
        out = re.sub(r"^(?=struct |enum )", "pub ", out, flags=re.M)
        out = re.sub(r"^(?:#\[derive\((.*)\)\]\n)?(pub (?:struct|enum) (\w+))", derived, out, flags=re.M)
        out = re.sub(r"^(pub trait \w+: Copy)", r"\1 + std::fmt::Debug", out, flags=re.M)
        out = re.sub(r"\bfn (\w+)<([A-Z]\w*)>\(", r"fn \1<\2: Copy + std::fmt::Debug>(", out)
        for name, part in SHOWN.items():
            if re.search(rf"struct {name} ", out):
                out += f"""
impl std::fmt::Debug for {name} {{
    fn fmt(&self, f: &mut std::fmt::Formatter) -> std::fmt::Result {{ write!(f, "{{:?}}", {part}) }}
}}
"""
        return out

    def direct_calls(self):
        """A function that calls each function that requires nothing, on made values: `made` makes one of any declared type."""
        files = [(c, path, path.read_text()) for c in self.crates for path in sorted((self.root / "crates" / c / "src").glob("*.rt"))]
        module_of = lambda c, path: c if path.stem == "lib" else f"{c}::{path.stem}"
        kinds = [(module_of(c, path), name) for c, path, text in files for name in re.findall(r"\b(?:struct|enum) (\w+) \{", text)]
        traits = {name for _, _, text in files for name in re.findall(r"\btrait (\w+)", text)}
        makers, calls, literals = [], [], set()
        for c, path, text in files:
            literals.update(re.findall(r"\b\d+\.\d+\b", text))
            module = module_of(c, path)
            # of these `inner` makes values: types with an invariant, and those that borrow or have parameters
            unmade = {*re.findall(r"\bimpl Model for (\w+)", text), *re.findall(r"\bstruct (\w+)[<(]", text)}
            bare = re.sub(r"//[^\n]*", "", text)
            for name, body in re.findall(r"\bstruct (\w+) \{(.*?)\n\}", bare, re.S):
                if name not in unmade:
                    values = ", ".join(f"{f}: made(r)" for f in re.findall(r"(\w+): ", body))
                    makers.append(f"made!({module}::{name}, r, {module}::{name} {{ {values} }});")
            for name, body in re.findall(r"\benum (\w+) \{(.*?)\n\}", bare, re.S):
                variants = re.findall(r"(\w+)(\(.*?\))?,", body)
                values = [f"{v}({', '.join('made(r)' for _ in p.split(','))})" if p else v for v, p in variants]
                arms = "".join(f"{n} => {module}::{name}::{v}, " for n, v in enumerate(values))
                makers.append(f"made!({module}::{name}, r, match r.below({len(variants)}) {{ {arms}_ => unreachable!() }});")
            paths = {name: f"{m}::{name}" for m, name in sorted(kinds, key=lambda k: k[0] == module)}
            for u in Code(c, f"src/{path.name}", text).units:
                whole = text[u.head:u.start - 1]
                head = SIGNATURE.match(whole)
                name, params = head[1], [kind.replace("Self", u.owner) for _, kind in parameters(whole)]
                own = u.of_trait and re.match(r"\w+ (\w+)", u.header)  # a trait of the crates may require something
                if "requires" in whole or head[2] or "impl<" in u.header or own and own[1] in traits or unmade & {*re.findall(r"\w+", " ".join(params))}:
                    continue
                owner = f"{module}::{u.owner}" if u.header else module
                if u.of_trait:
                    trait, kind = re.sub(r"\b[A-Z]\w*", lambda m: paths.get(m[0], m[0]), u.header[5:]).split(" for ")
                    owner = f"<{kind} as {trait}>"
                calls.append(f"    {owner}::{name}({', '.join(map(made, params))});")
        makers.append(f"const LITERALS: [f32; {len(literals)}] = [{', '.join(sorted(literals))}];")
        return "\n" + "\n".join(makers) + "\n\nfn direct(r: &mut Random) {\n" + "\n".join(calls) + "\n}\n"

    def differs(self, number, calls, limit=60):
        """An input with the right answer and the edited function's; or how many calls gave the same."""
        try:
            said = subprocess.run([str(self.work / "drive"), str(number), str(calls)], capture_output=True, text=True, timeout=limit)
        except subprocess.TimeoutExpired:
            return "", "", "no end"
        if said.returncode:
            return "", "", f"status {said.returncode}"
        found = said.stdout.rstrip("\n").split("\t")
        return tuple(found) if len(found) == 3 else int(found[0])


def derived(m):
    """A type's head with all that a run needs of it."""
    traits = {"Clone", "Copy", "Debug", *(m[1] or "").split(", ")} - {"Drop", "", *(["Debug"] if m[3] in SHOWN else [])}
    return f"#[derive({', '.join(sorted(traits))})]\n{m[2]}"


def signature_of(text):
    """Without the clauses of the contract."""
    return re.split(r"\n\s*(?:requires|ensures)\b", text)[0].strip()


def made(kind):
    """A made argument."""
    lent = re.match(r"&(?:mut )?(?!')|", kind)[0]
    return f"{lent}made::<Vec<_>>(r)" if slice_of(kind) else f"{lent}made(r)"


def slice_of(kind):
    return "[" in kind and ";" not in kind


def beside(signature, bodies, unit):
    """A function that calls the unedited one, and where one of its edits is tried, that beside it."""
    head = SIGNATURE.match(signature)
    name, params, result = head[1], parameters(signature), signature[head.end():]
    generics = re.findall(r"(?:^|, )(?:const )?(\w+)(: Fn)?", head[2] or "")
    calls = {n for n, kind in params if (kind, ": Fn") in generics}  # closures are lent to each call, and not shown
    lent = {n: kind for n, kind in params if kind.startswith("&mut")}
    heading = f"fn {name}{f'<{head[2]}>' if head[2] else ''}({', '.join(f'{n}: {kind}' for n, kind in params)}){result}"
    types = f"::<{', '.join('_' if closure else g for g, closure in generics)}>" if generics else ""
    names = [n for n, _ in params]
    shared = [f"&{n}" if n in calls else n for n in names]
    edited = [f"&mut {n}__" if n in lent else s for n, s in zip(names, shared)]
    if unit.of_trait:  # an `impl` has no room for more functions
        taken = ", ".join(f"{n}: {kind}" for n, kind in params if n != "self")
        call = lambda n, args: f"(|{taken}|{result or ' -> ()'} {bodies[n]})({', '.join(a for a in args if a != 'self')})"
    else:
        call = lambda n, args: f"{'Self::' if unit.header else ''}{name}__{n}{types}({', '.join(args)})"
    # of a lent array with a count n contracts speak of the first n places before, and n + 1 or more after
    used = lambda n, suffix: f"&{n}{suffix}[..n + 1]" if ";" in lent[n] and "n" in names else f"&{n}{suffix}"
    shown = lambda result, suffix: f'format!("{{:?}}", (&{result}, {"".join(used(n, suffix) + ", " for n in lent)}))'
    copies = "\n".join(f"let mut {n}__ = {n}.to_vec();" if slice_of(kind) else f"let mut {n}__ = *{n};" for n, kind in lent.items())
    copied = "" if unit.of_trait else "\n".join("pub " + re.sub(r"^fn \w+", f"fn {name}__{n}", signature) + " " + body for n, body in bodies.items())
    return f"""{heading} {{
    let edit__ = beside::edit();
    if ![{', '.join(str(n) for n in bodies if n)}].contains(&edit__) {{ return {call(0, shared)}; }}
    let inputs__ = format!("{{:?}}", ({''.join(f'&{n}, ' for n in names if n not in calls)}));
    {copies}
    let tried__ = beside::outcome(|| {{
        let r__ = match edit__ {{ {' '.join(f'{n} => {call(n, edited)},' for n in bodies if n)} _ => unreachable!() }};
        {shown('r__', '__')}
    }});
    let r__ = {call(0, shared)};
    beside::compare(inputs__, {shown('r__', '')}, tried__);
    r__
}}
{copied}"""
