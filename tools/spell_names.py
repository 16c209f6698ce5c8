#!/usr/bin/env python3
"""Brings the repository's own definitions and lemmas to today's spelling: words in snake case, types in camel case.

    python3 tools/spell_names.py [--dry]

Run it once, at the top, right after the kit's port.py. An own name is one that a file of specs/ or proofs/ declares or
binds: a definition, a lemma, a record, a field, a constructor, a variable. A name that Rattle makes (a goal, or a step of
a goal's context) and a name of the kit's library stay. Prints the names that would fall together, and then does nothing.
"""
import pathlib, re, sys

top = pathlib.Path(__file__).resolve().parent.parent
WORD = r"[A-Za-z][\w'₀-₉]*"
NAME = rf"{WORD}(?:-[\w'₀-₉]+)+"
TOKEN = re.compile(rf"(?<![\w'₀-₉·-])({NAME})(?![\w'₀-₉·-])")
GOAL = re.compile(rf":\s*(?:goal|need)\.({NAME})")
MADE = ("Answers.antt", "Invariants.antt")


def files(kind):
    return sorted(p for p in (top / "crates").glob(f"*/**/*.{kind}") if "out" not in p.relative_to(top).parts)


def spelled(name):
    if name[0].isupper():
        return "".join(w[0].upper() + w[1:] for w in name.split("-"))
    return name.replace("getD", "get_or").replace("-", "_")


def imported(text):
    """The names that a file takes from the kit's library."""
    found = set()
    for path, names in re.findall(r"use (Rattle\.\w+)[^{;\n]*\{([^}]*)\}", text):
        if not (top / "crates" / path.split(".")[1]).is_dir():
            for n in names.split(","):
                found |= set(n.split(" as ")[0].split())
    for path in re.findall(rf"use (Rattle\.\w+)[\w.]*\.({NAME})", text):
        if not (top / "crates" / path[0].split(".")[1]).is_dir():
            found.add(path[1])
    return found


def declared(path, text):
    """The names that a file of specs/ or proofs/ declares or binds."""
    found = set()
    made = set(GOAL.findall(text))
    bare = re.sub(r"--[^\n]*", "", text)
    for line in bare.split("\n"):
        m = re.match(rf"\s*(?:(?:abbrev|unfoldable|pub|data|record)\s+)*({NAME})\s*(?:\(.*\)\s*)*:(?!:)", line)
        if m:
            found.add(m.group(1))
        m = re.match(rf"\s*(?:abbrev\s+|pub\s+)*(?:data|record)\s+(?:pub\s+)?({NAME})", line)
        if m:
            found.add(m.group(1))
        # binders of signatures, patterns of clauses, lambdas, lets and imports under another name
        found |= set(re.findall(rf"({NAME})(?=(?:\s+{WORD}(?:-[\w'₀-₉]+)*)*\s*:\s)", line))
        found |= set(re.findall(rf"\bas ({NAME})", line))
        found |= set(re.findall(rf"\blet \(?({NAME})", line))
        m = re.match(r"\s*([^=]*?) =(?: |$)", line)
        if m and not re.match(r"\s*(let|use|λ|record|in)\b", line) and "." not in m.group(1):
            found |= set(re.findall(NAME, m.group(1)))
        for binders in re.findall(r"λ ([^.]*)\.", line):
            found |= set(re.findall(NAME, binders))
    return found - made, made


def main():
    own, made, library = set(), set(), set()
    texts = {p: p.read_text() for p in files("antt") + files("rt")}
    for p, t in texts.items():
        library |= imported(t)
        if p.suffix == ".antt":
            d, m = declared(p, t)
            own |= d
            made |= m
        else:
            own |= {n for line in re.findall(r"^ghost use [^\n]*", t, re.M) for n in re.findall(rf"\bas ({NAME})", line)}
    own = {n for n in own if not n.startswith(("invariant-", "decreases-"))} - library
    # a name that stands after a dot in an answer and is no field is a step of a goal's context
    fields = set()
    for p, t in texts.items():
        for block in re.findall(r"\brecord\b[^{\n]*\bwhere\n((?:[ \t]+[^\n]*\n|\n)*)", t):
            fields |= set(re.findall(rf"^\s+(?:pub )?({NAME})\s*:", block, re.M))
        for block in re.findall(r"record \{([^}]*)\}", t):
            fields |= set(re.findall(rf"({NAME})\s*[:=]", block))
    # what falls together
    every = set()
    for p, t in texts.items():
        every |= set(re.findall(rf"(?<![\w'₀-₉·-]){WORD}(?![\w'₀-₉·-])", t))
    clash = sorted(n for n in own if spelled(n) in every)
    if "--dry" in sys.argv:
        print(len(own), "own names;", len(own & made), "of them also a goal's:", sorted(own & made))
        print("fields:", sorted(fields & own))
        print("clash:", clash)
        steps = set()
        for p, t in texts.items():
            if p.name in MADE:
                steps |= set(m.group(1) for m in TOKEN.finditer(t) if t[m.start() - 1] == "." and m.group(1) in own)
        print("after a dot in an answer:", sorted(steps))
        twice = {}
        for n in own:
            twice.setdefault(spelled(n), []).append(n)
        print("two into one:", [v for v in twice.values() if len(v) > 1])
        return
    for p, t in texts.items():
        goals = set(GOAL.findall(t)) if p.name in MADE else set()

        def turn(m):
            n = m.group(1)
            if n not in own or n in goals:
                return n
            if m.string[m.start() - 1 : m.start()] == "." and p.name in MADE and n not in fields:
                return n
            return spelled(n)

        if p.suffix == ".antt":
            new = TOKEN.sub(turn, t)
        else:
            new = "\n".join(TOKEN.sub(turn, l) if re.match(r"\s*(ghost|ensures|requires|also)\b", l) or "≡" in l or "//" in l else l for l in t.split("\n"))
        if new != t:
            p.write_text(new)


if __name__ == "__main__":
    main()
