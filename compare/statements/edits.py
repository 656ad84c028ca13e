"""Edits of code (crates/NAME/src) and of definitions (crates/NAME/specs): each changes one place by a fixed rule."""
import re
from dataclasses import dataclass, field


@dataclass(frozen=True)
class Edit:
    crate: str
    file: str  # below crates/NAME
    unit: str  # the function, as the prover names it, or the definition
    kind: str
    parts: tuple  # (start, end, new text), by offset in the file
    old: str
    new: str
    line: int

    @property
    def name(self):
        return f"{self.crate}/{self.file}:{self.line} {self.unit}: {self.kind}: {self.old} -> {self.new}"


@dataclass
class Unit:
    name: str
    start: int  # of the text that may be edited
    end: int
    tokens: list = field(default_factory=list)
    head: int = 0  # where `fn` stands
    owner: str = ""  # the type of an `impl`, or the trait, that it stands in
    header: str = ""  # the words of that, up to its brace

    @property
    def of_trait(self):
        return re.search(r"^trait\b| for ", self.header) is not None


@dataclass(frozen=True)
class Token:
    text: str
    start: int
    kind: str  # name, number, or sign

    @property
    def end(self):
        return self.start + len(self.text)


OPEN, CLOSE = "([{", ")]}"
# A function's name, its type parameters and its parameters.
SIGNATURE = re.compile(r"\bfn (\w+)(?:<((?:->|<[^<>]*>|[^<>])*)>)?\(((?:\([^()]*\)|[^()])*)\)")


def parameters(signature):
    """Names and types."""
    found = []
    for part in re.split(r",(?![^(\[<]*[)\]>])", SIGNATURE.match(signature)[3]):
        name, _, kind = part.strip().partition(": ")
        lent, name = re.match(r"(&(?:mut )?|)(?:mut )?(\w*)$", name).groups()
        if name:
            found.append((name, kind or f"{lent}Self"))
    return found


def matching(tokens, i):
    """The index of the bracket that closes tokens[i]."""
    depth = 0
    for j in range(i, len(tokens)):
        if tokens[j].text in OPEN:
            depth += 1
        elif tokens[j].text in CLOSE:
            depth -= 1
            if depth == 0:
                return j
    raise ValueError("a bracket is not closed")


def until(tokens, i, stops):
    """The first index from i on, outside brackets, whose token is one of `stops` or closes the bracket around."""
    while i < len(tokens) and tokens[i].text not in stops and tokens[i].text not in CLOSE:
        i = matching(tokens, i) + 1 if tokens[i].text in OPEN else i + 1
    return i


def pieces(tokens, i, j, separator):
    """The spans between separators in tokens[i:j], as pairs of indices."""
    spans = []
    while i < j:
        k = min(until(tokens, i, (separator,)), j)
        spans.append((i, k))
        i = k + 1
    return spans


@dataclass
class Names:
    """What the crates declare: the types by which an edit keeps to the types."""
    fields: dict  # field: the fields that have its type beside it in every struct that has it
    records: dict  # struct: {field: type}
    arguments: dict  # function or variant, also Owner::function and crate::function: the types of its arguments; None if there are several
    defined: dict  # definition: the same
    literals: list  # the names of the f32 literals in definitions


def names_of(sources):
    """From the texts of all files, by crate and suffix."""
    fields, records, arguments, defined, literals = {}, {}, {}, {}, []

    def declare(known, name, types):
        known[name] = types if known.get(name, types) == types else None

    for crate, suffix, text in sources:
        if suffix == ".antt":
            literals += re.findall(r"^abbrev pub (k[0-9_]+) :", text, re.M)
            for name, signature in re.findall(r"^(?:abbrev |unfoldable )*pub (\S+) : ([^\n]*)$", text, re.M):
                declare(defined, name, [t.strip() for t in re.split(r"→(?![^(]*\))", signature)][:-1])
            continue
        for name, body in re.findall(r"\bstruct (\w+)(?:<[^>]*>)? \{(.*?)\n\}", text, re.S):
            records[name] = types = dict(re.findall(r"(?:pub )?(\w+): ([^,\n]+),", body))
            for field, kind in types.items():
                others = {n for n, k in types.items() if k == kind and n != field}
                fields[field] = fields.get(field, others) & others
        for body in re.findall(r"\benum \w+ \{(.*?)\n\}", text, re.S):
            for name, types in re.findall(r"(\w+)\((.*?)\)", body):
                declare(arguments, name, types.split(", "))
        for u in Code(crate, "", text).units:
            types = [kind for name, kind in parameters(text[u.head:]) if name != "self"]
            name = SIGNATURE.match(text, u.head)[1]
            declare(arguments, name, types)
            declare(arguments, f"{u.owner or crate}::{name}", types)
    return Names({f: sorted(o) for f, o in fields.items()}, records, arguments, defined, literals)


def one_more(text):
    """A number, a byte, a text's first letter or a truth value changed."""
    if text in ("true", "false"):
        return "false" if text == "true" else "true"
    if letter := re.match(r'b?"(?=[A-Y])', text):
        return f"{letter[0]}{chr(ord(text[letter.end()]) + 1)}{text[letter.end() + 1:]}"
    if text.startswith("b'"):
        return None if "\\" in text else f"b'{chr(ord(text[2]) + 1)}'"
    number = re.fullmatch(r"(0x)?([0-9a-fA-F_]+|[0-9_]+)(\.[0-9]+)?(u8|u16|u32|u64|usize|i32|f32|f64)?", text)
    if not number:
        return None
    prefix, digits, fraction, suffix = number.groups()
    digits = digits.replace("_", "")
    if prefix:
        return f"0x{int(digits, 16) ^ 1:x}{suffix or ''}"
    if fraction and digits == "0" and fraction != ".0":
        return f"{round(float(fraction) * 2, 6)}{suffix or ''}"
    return f"{int(digits) + 1}{fraction or ''}{suffix or ''}"


def owner_of(header):
    """An `impl` or a trait, as the prover names it: `impl TryFrom<u8> for Tag` is TagTryFromU8; parameters have no name there."""
    generics, rest = re.match(r"(?:impl|trait)\b(?:<((?:<[^<>]*>|[^<>])*)>)?\s*(.*)", header, re.S).groups()
    trait, _, of = rest.partition(":")[0].rpartition(" for ")
    unnamed = re.findall(r"(?:^|, )('?\w+)", generics or "")
    signs = {"&": "Ref", "[": "Slice"}
    words = re.findall(r"'?\w+|[&\[]|\([^()]*\)", f"{of} {trait}")
    words = [w for t in words for w in ([f"tuple{t.count(',') + 1}", *re.findall(r"\w+", t)] if t[0] == "(" else [t])]
    return "".join(signs.get(w) or w[0].upper() + w[1:] for w in words if w not in unnamed and w[0] != "'")


class Source:
    """What code and definitions have in common."""

    def __init__(self, crate, file, text):
        self.crate, self.file, self.text = crate, file, text

    def edit(self, unit, kind, *parts):
        parts = tuple(sorted(parts))
        old = " .. ".join(self.text[s:e] for s, e, _ in parts)
        new = " .. ".join(n if n else "(nothing)" for _, _, n in parts)
        line = self.text.count("\n", 0, parts[0][0]) + 1
        one_line = lambda s: re.sub(r"\s+", " ", s).strip()
        return Edit(self.crate, self.file, unit.name, kind, parts, one_line(old), one_line(new), line)

    def exchange(self, unit, kind, tokens, a, b):
        """Two spans of tokens exchanged, unless they are the same text."""
        (p, q), (r, s) = (tokens[a[0]].start, tokens[a[1] - 1].end), (tokens[b[0]].start, tokens[b[1] - 1].end)
        if self.text[p:q] != self.text[r:s]:
            yield self.edit(unit, kind, (p, q, self.text[r:s]), (r, s, self.text[p:q]))

    def replaced(self, unit, kind, token, new):
        return self.edit(unit, kind, (token.start, token.end, new))


class Code(Source):
    """A file of src/."""

    SIGNS = re.compile(
        r"""//[^\n]*|b'(?:\\.|[^'\\])'|b?"(?:\\.|[^"\\])*"|'[a-z]\w*|[A-Za-z_]\w*|0x[0-9a-fA-F_]+(?:u\d+|usize|i32)?"""
        r"""|\d[\d_]*(?:\.\d+)?(?:u\d+|usize|i32|f32|f64)?|\.\.=|\.\.|->|=>|==|!=|<=|>=|&&|\|\||<<|>>|::|[-+*/%|]=|\S""")
    OTHER = {"+": "-", "-": "+", "*": "/", "/": "*", "%": "/", "<<": ">>", ">>": "<<", "&": "|", "|": "&", "+=": "-=", "-=": "+=", "|=": "&="}
    COMPARED = {"<": ("<=", ">"), "<=": ("<", ">="), ">": (">=", "<"), ">=": (">", "<="), "==": ("!=",), "!=": ("==",)}
    WORDS = ("return", "in", "as", "if", "else", "mut", "match")  # what follows is no second operand
    LOWER = ("+", "-", "<", "<=", ">", ">=", "==", "!=", "&&", "||", ",", ";", "&", "|", "=>", "..")

    def __init__(self, crate, file, text, names=None):
        super().__init__(crate, file, text)
        self.names = names
        imports = re.findall(r"^use (\w+)::\{?([^;{}]*)\}?;", text, re.M)
        self.imported = {name: path for path, names in imports for name in re.findall(r"\w+", names)}
        self.units = list(self.functions())

    def tokenize(self, start, end):
        out = []
        for m in self.SIGNS.finditer(self.text, start, end):
            t = m.group()
            if not t.startswith("//"):
                kind = "number" if t[0].isdigit() or re.match(r"b'|b?\"", t) or t in ("true", "false") else "name" if re.match(r"[A-Za-z_]", t) else "sign"
                out.append(Token(t, m.start(), kind))
        return out

    def functions(self):
        tokens = self.tokenize(0, len(self.text))
        module = re.sub(r"^src/|\.rt$", "", self.file).replace("lib", "").replace("main", "")
        header, owner, owner_end = "", "", 0
        for i, t in enumerate(tokens):
            if t.text in ("impl", "trait"):
                j = next(n for n in range(i, len(tokens)) if tokens[n].text == "{")
                header, owner_end = self.text[t.start:tokens[j - 1].end], tokens[matching(tokens, j)].end
                owner = owner_of(header)
            signature = SIGNATURE.match(self.text, t.start) if t.text == "fn" else None
            if not signature:
                continue
            j = next(n for n in range(i, len(tokens)) if tokens[n].end == signature.end()) + 1
            j = until(tokens, j, ("{", ";", "requires", "ensures"))
            while tokens[j].text in ("requires", "ensures"):  # past the clauses of the contract
                j = matching(tokens, until(tokens, j, ("{",))) + 1
            if tokens[j].text == ";":  # of a trait, and each `impl` has one
                continue
            k = matching(tokens, j)
            inside = (owner, header) if t.start < owner_end else ("", "")
            path = [self.crate] + [p for p in (module, inside[0]) if p] + [tokens[i + 1].text]
            yield Unit("::".join(path), tokens[j].end, tokens[k].start, tokens[j + 1:k], t.start, *inside)

    def edits(self):
        for u in self.units:
            for rule in (self.signs, self.numbers, self.calls, self.ifs, self.stores, self.bounds, self.values):
                yield from rule(u, u.tokens)

    def signs(self, u, ts):
        """An operator, a comparison or a junction exchanged for another; a test not negated; a term left out."""
        closures = self.closures(ts)
        for i, t in enumerate(ts):
            binary = i > 0 and (ts[i - 1].kind != "sign" or ts[i - 1].text in ")]?") and ts[i - 1].text not in self.WORDS
            binary = binary and i not in closures and self.text[t.start - 1].isspace()
            if t.text in self.OTHER and binary:
                yield self.replaced(u, "operator", t, self.OTHER[t.text])
            for new in self.COMPARED.get(t.text, ()) if binary else ():
                yield self.replaced(u, "comparison", t, new)
            if t.text in ("&&", "||") and binary:
                yield self.replaced(u, "junction", t, "||" if t.text == "&&" else "&&")
            if t.text in ("any", "all") and ts[i - 1].text == ".":  # || and && of a list
                yield self.replaced(u, "junction", t, "all" if t.text == "any" else "any")
            if t.text == "!" and not (i and ts[i - 1].kind == "name" and ts[i - 1].end == t.start):  # that is a macro's
                yield self.replaced(u, "negation", t, "")
            if binary and t.text in ("&&", "||", "+", "-", "|"):
                stops = ("&&", "||", ",", ";", "{") if t.text in ("&&", "||") else self.LOWER
                j = until(ts, i + 1, stops)
                yield self.edit(u, "left out", (ts[i - 1].end, ts[j - 1].end, ""))

    @staticmethod
    def closures(ts):
        """The indices of the signs after the parameters of closures."""
        found, inside = set(), False
        for i, t in enumerate(ts):
            if t.text == "|" and inside:
                found.add(i)
                inside = False
            elif t.text == "|":
                inside = i > 0 and ts[i - 1].kind == "sign" and ts[i - 1].text not in ")]?"
        return found

    def numbers(self, u, ts):
        """A constant changed; min for max; a field for another of its type."""
        for i, t in enumerate(ts):
            before, after = ts[i - 1].text if i else "", ts[i + 1].text if i + 1 < len(ts) else ""
            length = before == ";" and after == "]"
            if t.kind == "number" and not length and before != "." and ".." not in (before, after) and one_more(t.text):
                yield self.replaced(u, "constant", t, one_more(t.text))
            if t.text in ("min", "max") and after == "(":
                yield self.replaced(u, "min and max", t, "max" if t.text == "min" else "min")
            if before == "." and after != "(":
                for other in self.names.fields.get(t.text, ()):
                    yield self.replaced(u, "field", t, other)

    def calls(self, u, ts):
        """Two arguments of one type that follow each other exchanged."""
        for i, t in enumerate(ts):
            types = self.called(u, ts, i - 1) if t.text == "(" and i else None
            if types:
                args = pieces(ts, i + 1, matching(ts, i), ",")
                for a, b, p, q in zip(args, args[1:], types, types[1:]):
                    if p == q:
                        yield from self.exchange(u, "arguments", ts, a, b)

    def called(self, u, ts, i):
        """The types of the arguments of the function that tokens[i] names."""
        name, before = ts[i].text, ts[i - 1].text if i else ""
        path = ts[i - 2].text if before == "::" else self.imported.get(name, self.crate) if before != "." else ""
        known = self.names.arguments
        return known.get(f"{u.owner if path == 'Self' else path}::{name}", known.get(name))

    def ifs(self, u, ts):
        """The branches exchanged, or the test negated where there is one branch."""
        for i, t in enumerate(ts):
            if t.text != "if":
                continue
            j = until(ts, i + 1, ("{",))
            k = matching(ts, j)
            if k + 2 < len(ts) and ts[k + 1].text == "else" and ts[k + 2].text == "{":
                yield from self.exchange(u, "branch", ts, (j, k + 1), (k + 2, matching(ts, k + 2) + 1))
            elif ts[i + 1].text != "let":
                start, end = ts[i + 1].start, ts[j - 1].end
                yield self.edit(u, "branch", (start, end, f"!({self.text[start:end]})"))

    def stores(self, u, ts):
        """A store, or a call for its effect, left out."""
        start = 0
        for i, t in enumerate(ts):
            if t.text == ";" and start < i and until(ts, start, (";",)) == i:
                words = [x.text for x in ts[start:i]]
                if words[0] not in ("let", "return", "break", "continue") and (words[-1] in ")?" or {"=", "+=", "|="} & {*words}):
                    yield self.edit(u, "store left out", (ts[start].start, t.end, ""))
            if t.text in (";", "{", "}"):
                start = i + 1

    def bounds(self, u, ts):
        """A loop or a slice that starts at 1 and not 0, or ends at 1, or one before a constant end."""
        for i, t in enumerate(ts):
            if t.text == ".." and ts[i - 1].text == "[" and ts[i + 1].text != "]":
                yield self.replaced(u, "bound", t, "1..")
                yield self.edit(u, "bound", (ts[i + 1].start, ts[until(ts, i, ()) - 1].end, "1"))
            if t.text in ("..", "..=") and ts[i - 2].text == "in":
                if ts[i - 1].text == "0":
                    yield self.replaced(u, "bound", ts[i - 1], "1")
                j = until(ts, i + 1, ("{",))
                start, end = ts[i + 1].start, ts[j - 1].end
                last = self.text[start:end]
                yield self.edit(u, "bound", (start, end, str(int(last) - 1) if last.isdigit() else "1"))

    def values(self, u, ts):
        """Two values of one type that follow each other exchanged, in a record, an array or the arms of a match."""
        for i, t in enumerate(ts):
            if t.text not in "{[" or i == 0:
                continue
            items = [s for s in pieces(ts, i + 1, matching(ts, i), ",") if s[0] < s[1]]
            if t.text == "[":
                spans = [(s, "") for s in items] if ts[i - 1].kind == "sign" and ts[i - 1].text not in ")]" and len(items) > 1 else []
            elif (record := u.owner if ts[i - 1].text == "Self" else ts[i - 1].text) in self.names.records:
                types = self.names.records[record]
                spans = [((a + 2, b), types.get(ts[a].text)) for a, b in items if b - a > 2]
            else:
                marks = [(a, b, [n for n in range(a, b) if ts[n].text == "=>"]) for a, b in items]
                spans = [((n[0] + 1, b), "") for a, b, n in marks if len(n) == 1]
            for (a, p), (b, q) in zip(spans, spans[1:]):
                if p == q:
                    yield from self.exchange(u, "order", ts, a, b)


class Definitions(Source):
    """The definitions in a file of specs/."""

    # a name by its path, `Tag.Screen`, is one token; a projection, `.w`, is one of its own
    SIGNS = re.compile(r"--[^\n]*|0x[0-9a-fA-F_]+|[0-9]+(?!\w)|[A-Z]\w*(?:\.\w+)+|\.\w+|[^\s(){};,.]+|\S")
    OTHER = {"⊕": "⊖", "⊖": "⊕", "⊗": "⊘", "⊘": "⊗", "bit_or": "bit_and", "bit_and": "bit_or", "+": "-", "-": "+"}
    COMPARED = {"lt": "le", "le": "lt", "ltb": "leb", "leb": "ltb"}
    PROSE = ("=", "in", "let", "→", "λ", "record", "with", "where", "|")

    def __init__(self, crate, file, text, names):
        super().__init__(crate, file, text)
        self.names = names
        self.units = list(self.definitions())

    def definitions(self):
        for m in re.finditer(r"^(?:abbrev |unfoldable )+pub (\S+) :[^\n]*\n((?:.|\n)*?)(?=\n\n|\n--|\Z)", self.text, re.M):
            name, start = m.group(1), m.start(2)
            for clause in re.finditer(r"^\S[^\n]*(?:\n[ \t}][^\n]*)*", m.group(2), re.M):
                head = re.match(r"[^\n]*?(?: = | =\n)", clause.group())
                if head:
                    s, e = start + clause.start() + head.end(), start + clause.end()
                    yield Unit(name, s, e, self.tokenize(s, e))

    def tokenize(self, start, end):
        out = []
        for m in self.SIGNS.finditer(self.text, start, end):
            t = m.group()
            if not t.startswith("--"):
                number = re.match(r"\d", t) or t in ("true", "false")
                out.append(Token(t, m.start(), "number" if number else "name" if re.match(r"\w", t) else "sign"))
        return out

    def named(self, unit, kind, token, new):
        """A name for a name, brought in where the old one is."""
        e = self.replaced(unit, kind, token, new)
        for shown_old, shown in ((token.text, new), (f"◌{token.text}◌", f"◌{new}◌")):
            line = re.search(r"^use [^\n]*[{ ]" + re.escape(shown_old) + r"[,}]", self.text, re.M)
            if line:
                if not re.search(r"^use [^\n]*[{ ]" + re.escape(shown) + r"[,}]", self.text, re.M):
                    at = line.end() - 1
                    e = Edit(e.crate, e.file, e.unit, e.kind, ((at, at, f", {shown}"),) + e.parts, e.old, e.new, e.line)
                return e
        return e

    def edits(self):
        for u in self.units:
            for rule in (self.signs, self.constants, self.conds, self.applications, self.lists):
                yield from rule(u, u.tokens)

    def signs(self, u, ts):
        for i, t in enumerate(ts):
            if t.text in self.OTHER:
                yield self.named(u, "operator", t, self.OTHER[t.text])
            if t.text in self.COMPARED:
                yield self.named(u, "comparison", t, self.COMPARED[t.text])
            if t.text in ("&&", "||"):
                yield self.named(u, "junction", t, "||" if t.text == "&&" else "&&")
                j = until(ts, i + 1, ("&&", "||", "in", ";"))
                yield self.edit(u, "left out", (ts[i - 1].end, ts[j - 1].end, ""))
            if t.text == "not":
                yield self.replaced(u, "negation", t, "")
            if t.text in ("⊕", "⊖"):
                j = until(ts, i + 1, ("⊕", "⊖", "in", ";", "∷", ","))
                yield self.edit(u, "left out", (ts[i - 1].end, ts[j - 1].end, ""))

    def constants(self, u, ts):
        for t in ts:
            if t.text in ("min_of", "max_of"):
                yield self.named(u, "min and max", t, "max_of" if t.text == "min_of" else "min_of")
            elif t.text in self.names.literals:
                known = self.names.literals
                yield self.named(u, "constant", t, known[(known.index(t.text) + 1) % len(known)])
            elif t.kind == "number" and one_more(t.text):
                new = one_more(t.text)
                yield (self.named if t.text in ("true", "false") else self.replaced)(u, "constant", t, new)
            elif t.text[0] == "." and len(t.text) > 1:
                for other in self.names.fields.get(t.text[1:], ()):
                    yield self.replaced(u, "field", t, "." + other)

    def atoms(self, ts, i):
        """The arguments that follow tokens[i], as spans; a projection belongs to what it follows."""
        spans, j = [], i + 1
        while j < len(ts) and ts[j].text not in CLOSE:
            t = ts[j]
            if t.text in "([":
                k = matching(ts, j) + 1
            elif t.kind in ("name", "number") and t.text not in self.PROSE:
                k = j + 1
            else:
                break
            while k < len(ts) and ts[k].text[0] == "." and ts[k].start == ts[k - 1].end:
                k += 1
            spans.append((j, k))
            j = k
        return spans

    def conds(self, u, ts):
        for i, t in enumerate(ts):
            if t.text == "cond":
                args = self.atoms(ts, i)
                if len(args) >= 3:
                    yield from self.exchange(u, "branch", ts, args[1], args[2])

    def applications(self, u, ts):
        for i, t in enumerate(ts):
            types = self.names.defined.get(t.text)
            if types and t.text != "cond":
                args = self.atoms(ts, i)
                for a, b, p, q in zip(args, args[1:], types, types[1:]):
                    if p == q:
                        yield from self.exchange(u, "arguments", ts, a, b)

    def lists(self, u, ts):
        """An element of a list left out, two exchanged; two fields of a record exchanged."""
        opening = {matching(ts, j): j for j, t in enumerate(ts) if t.text in OPEN}
        for i, t in enumerate(ts):
            if t.text == "∷":
                start = i
                while start > 0 and ts[start - 1].text not in ("∷", "=", "in") and ts[start - 1].text not in OPEN:
                    start = opening.get(start - 1, start - 1)
                yield self.edit(u, "left out", (ts[start].start, ts[i].end, ""))
                j = until(ts, i + 1, ("∷", "in", ";"))
                if j < len(ts) and ts[j].text == "∷":
                    yield from self.exchange(u, "order", ts, (start, i), (i + 1, j))
            if t.text == "record" and i + 1 < len(ts) and ts[i + 1].text == "{":
                items = [s for s in pieces(ts, i + 2, matching(ts, i + 1), ";") if s[0] < s[1]]
                spans = [(a + 2, b) for a, b in items if a + 2 < b and ts[a + 1].text == "="]
                for a, b in zip(spans, spans[1:]):
                    yield from self.exchange(u, "order", ts, a, b)


def applied(text, edits):
    """The text with the parts of all edits put in."""
    for start, end, new in sorted((p for e in edits for p in e.parts), reverse=True):
        text = text[:start] + new + text[end:]
    return text


def edits_of(root, crates):
    """All edits: those of code, and those of definitions."""
    paths = [p for c in crates for kind in ("src/*.rt", "specs/*.antt") for p in sorted((root / "crates" / c).glob(kind))]
    texts = {p: p.read_text() for p in paths}
    names = names_of((p.parent.parent.name, p.suffix, t) for p, t in texts.items())
    code, definitions = [], []
    for p, text in texts.items():
        crate, file = p.parent.parent.name, f"{p.parent.name}/{p.name}"
        if p.suffix == ".rt":
            code += Code(crate, file, text, names).edits()
        else:
            definitions += Definitions(crate, file, text, names).edits()
    return code, definitions
