#!/usr/bin/env python3
"""Plants bugs, one at a time, and tells which of them the prover refuses.

    tests/plant.py [CRATE | CRATE/LABEL ...]

Each tests/planted/CRATE/LABEL.edit has three lines: file, old, new, as a must-fail edit has them. The bug is planted in a
copy of the repository, where `rt check` checks the crate and begins with what an earlier check kept. No part of the gate.
"""
import pathlib, re, shutil, subprocess, sys, tempfile, time

top = pathlib.Path(__file__).resolve().parent.parent
planted = top / "tests" / "planted"


def parts(path):
    text = path.read_text()
    name, rest = re.match(r"file: (.*)\n(old: .*)", text, re.S).groups()
    old, new = re.match(r"old: (.*?)\nnew: ?(.*)\n?\Z", rest, re.S).groups()
    return name, old, new.rstrip("\n")


def first_error(log):
    for line in log.splitlines():
        if re.search(r"error|not proved|did not prove|not met", line) and not line.startswith("so far"):
            return re.sub(r"\s+", " ", line.replace("/crates/", " ").strip())[:150]
    return "no error line"


def main():
    wanted = sys.argv[1:]
    edits = [(e.parent.name, e.stem, *parts(e)) for e in sorted(planted.glob("*/*.edit"))]
    survived = 0
    with tempfile.TemporaryDirectory() as folder:
        copy = pathlib.Path(folder) / "copy"
        shutil.copytree(top, copy, symlinks=True)
        for crate, label, name, old, new in edits:
            if wanted and crate not in wanted and f"{crate}/{label}" not in wanted:
                continue
            source = copy / "crates" / crate / name
            text = source.read_text()
            if text.count(old) != 1:
                print(f"{crate}/{label}: BAD EDIT: its old text stands {text.count(old)} times", flush=True)
                survived += 1
                continue
            source.write_text(text.replace(old, new))
            begun = time.time()
            run = subprocess.run(["timeout", "600", "rt", "check"], cwd=copy / "crates" / crate, capture_output=True, text=True)
            log = run.stdout + run.stderr
            source.write_text(text)
            passed = run.returncode == 0
            survived += passed
            verdict = "STILL PROVED" if passed else "refused: " + first_error(log.replace(str(copy), ""))
            print(f"{crate}/{label}: {verdict} ({time.time() - begun:.0f} s)", flush=True)
    print(f"{survived} not refused")
    return 1 if survived else 0


sys.exit(main())
