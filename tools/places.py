#!/usr/bin/env python3
"""Lists the places in src/ where an older form of the language may stand, for docs/DESIGN-PASS.md.

    python3 tools/places.py [--lines] [POINT..]

Run it at the top. It prints how many places each point has; with --lines each place too. A place is found by its text, so
one that is well written as it is is counted as well: the page says of each that stays why it does.
"""
import collections, pathlib, re, sys

lines_wanted = "--lines" in sys.argv
points = [a for a in sys.argv[1:] if not a.startswith("--")]
files = sorted(pathlib.Path("crates").glob("*/src/*.rt"))
texts = {f: f.read_text() for f in files}
CLAUSE = re.compile(r"^\s*(requires|ensures|ghost)\b")


def code(text):
    """The lines of a text with their numbers: no comments, clauses or imports."""
    return [(n, line) for n, line in enumerate(text.split("\n"), 1)
            if not re.match(r"\s*//", line) and not CLAUSE.match(line) and not re.match(r"\s*(pub )?use ", line)]


def grep(pattern, of=code):
    return [(f, n, line.strip()) for f in files for n, line in of(texts[f]) if re.search(pattern, line)]


def functions():
    """Each function with a body: its file, line, name, parameters and body."""
    for f in files:
        read = set(code(texts[f]))
        kept = "\n".join(line if (n, line) in read else ";" if line.endswith("};") else ""
                         for n, line in enumerate(texts[f].split("\n"), 1))
        for m in re.finditer(r"\bfn (\w+)[^(]*\(([^()]*(?:\([^()]*\)[^()]*)*)\)", kept):
            begin = kept.find("{", m.end())
            semi = kept.find(";", m.end())
            if begin < 0 or 0 <= semi < begin:
                continue
            depth, end = 0, begin
            while True:
                depth += {"{": 1, "}": -1}.get(kept[end], 0)
                end += 1
                if depth == 0:
                    break
            yield f, kept.count("\n", 0, m.start()) + 1, m[1], m[2], kept[begin + 1:end - 1]


KEPT = {"if", "else", "match", "for", "in", "while", "let", "mut", "return", "Some", "None", "Ok", "Err", "true", "false", "self"}


def shape(body):
    """A body with its names and numbers left out."""
    return " ".join(t if t in KEPT or not re.match(r"\w", t) else "x" for t in re.findall(r"b?'[^']*'|\w+|[^\w\s]", body))


def twins():
    groups = collections.defaultdict(list)
    for f, n, name, params, body in functions():
        s = shape(body)
        if len(s.split()) >= 12:
            groups[s].append((f, n, "fn " + name))
    for f in files:
        for m in re.finditer(r"^pub struct (\w+)[^{;]*\{(.*?)^\}", texts[f], re.M | re.S):
            fields = re.sub(r"(//|ghost).*", "", m[2])
            groups["struct " + " ".join(fields.split())].append((f, texts[f].count("\n", 0, m.start()) + 1, "struct " + m[1]))
    return [place for group in groups.values() if len(group) > 1 for place in group]


def repeated_facts():
    """Premises and `requires` that stand in the contracts of three or more functions of a file."""
    found = collections.defaultdict(list)
    for f in files:
        for n, line in enumerate(texts[f].split("\n"), 1):
            m = re.match(r"\s*(requires|ensures)\*?\s*\w*\s*\{\s*(.*)\}\s*;?\s*$", line)
            if not m:
                continue
            facts = [m[2]] if m[1] == "requires" else re.split(r" → ", m[2])[:-1]
            for fact in facts:
                fact = re.sub(r"self\.(now|old|new)|self", "S", fact.strip())
                found[f, fact].append((f, n, fact))
    return [p for ps in found.values() if len({n for _, n, _ in ps}) >= 3 for p in ps]


def many_parameters():
    return [(f, n, f"fn {name}: {len(ps)} parameters") for f, n, name, params, _ in functions()
            for ps in [[p for p in re.split(r",(?![^<(\[]*[>)\]])", params) if p.strip()]] if len(ps) >= 5]


POINTS = {
    "1 enums": lambda: grep(r"^\s*(pub(\(\w+\))? )?enum \w+"),
    "1 numbers, flags and pairs": lambda: grep(r"Result<bool|^\s*pub number: u32|fn number\(self\)|spent: bool|\(Refusal, \w+\)>"),
    "1 answers taken apart": lambda: grep(r"Err\(_\) =>|unreachable\(\)|Ok\((\w+)\) => Ok\(\1\)|=> return Err\(|if let Err\(|Some\((\w+)\) => Some\(\2\)|None => None|let (Some|Ok)\(\w+\) = [^{]* else|return None;"),
    "2 twins": twins,
    "3 loops": lambda: grep(r"^\s*(for|while|loop)\b"),
    "3 counted by hand": lambda: grep(r"\b(\w+) \+= 1;|^\s*for \w+ in [^{]*\.\.[^{]*\{|^\s*while "),
    "4 tests and conversions": lambda: grep(r"fn (number|letter)\(|fn (value)\(self\)|fn (refused|by_form|by_numbers|class_of|kind_of|fault_text)\(|=> (true|false),"),
    "5 repeated facts": repeated_facts,
    "5 five or more parameters": many_parameters,
    "6 slices with a place": lambda: [(f, n, f"fn {name}") for f, n, name, params, _ in functions()
                                     if re.search(r"&(mut )?\[\w+\]", params) and re.search(r"\b(at|place|count|index|item|len|i): (usize|u32)|: Option<usize>", params)],
    "6 vectors and lent rows": lambda: grep(r"^\s*(pub(\(\w+\))? )?\w+: (Vec<|&'a (mut )?\[|\[)"),
    "7 switches": lambda: grep(r"match (kind|self\.place|\(place|phase|self\.phase|tally\.phase)|fn\(|dyn |Box<"),
}

for title, places in POINTS.items():
    if points and title.split()[0] not in points:
        continue
    found = sorted(set(places()))
    print(f"{title}: {len(found)}")
    if lines_wanted:
        for f, n, line in found:
            print(f"    {f}:{n}: {line[:140]}")
proofs = [f for f in pathlib.Path("crates").glob("*/proofs/**/*.antt")]
if not points or "8" in points:
    answers = sum(len(re.findall(r"^(?:abbrev )?pub \S+ : goal\.", f.read_text(), re.M)) for f in proofs if f.name in ("Answers.antt", "Invariants.antt"))
    print(f"8 proofs: {len(proofs)} files, {sum(f.read_text().count(chr(10)) for f in proofs)} lines, {answers} answers")
