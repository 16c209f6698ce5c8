#!/usr/bin/env python3
"""An independent oracle for halltable: a plain reading of the sheet rules and Floyd-Warshall, tried on made-up sheets.

    tests/oracle.py crates/halltable/out/halltable [how many] [seed]

Half of the sheets are damaged: cut off, a byte changed, dropped or put in, lines swapped or repeated.
Every answer is compared byte for byte, and the exit status too.
"""
import random, re, subprocess, sys

LIMIT = 32768


def fault(number, line, layer):
    return b"ER %d %d %s\n" % (number, line, layer)


def read_sheet(sheet):
    """(points, legs) or the fault's line."""
    if len(sheet) > LIMIT:
        return fault(30, 0, b"S")
    at, line, points, bound, legs = 0, 1, None, None, []

    def fields(at, count):
        values = []
        for _ in range(count):
            if sheet[at:at + 1] != b" ":
                return 33, None
            at += 1
            run = re.match(rb"[0-9]*", sheet[at:]).group()
            if not run or len(run) > 5 or (run[0:1] == b"0" and len(run) > 1):
                return 32, None
            values.append(int(run))
            at += len(run)
        if sheet[at:at + 1] != b"\n":
            return 33, None
        return at + 1, values

    while True:
        mark = sheet[at:at + 2]
        due = [b"ST"] if line == 1 else [b"LG", b"EN"]
        if mark not in due:
            return fault(31, line, b"S")
        got, values = fields(at + 2, {b"ST": 2, b"LG": 3, b"EN": 1}[mark])
        if values is None:
            return fault(got, line, b"S")
        at = got
        if mark == b"ST":
            points, bound = values
            if not 1 <= points <= 40:
                return fault(1, line, b"J")
            if not 1 <= bound <= 4095:
                return fault(2, line, b"J")
        elif mark == b"LG":
            if values[0] >= points or values[1] >= points:
                return fault(3, line, b"J")
            if values[2] > bound:
                return fault(4, line, b"J")
            if len(legs) >= 1600:
                return fault(5, line, b"J")
            legs.append(values)
        else:
            if values[0] != len(legs):
                return fault(34, line, b"S")
            if at < len(sheet):
                return fault(35, line + 1, b"S")
            return points, legs
        line += 1


def answer(sheet):
    hall = read_sheet(sheet)
    if isinstance(hall, bytes):
        return hall, 1
    points, legs = hall
    none = float("inf")
    table = [[0 if u == v else none for v in range(points)] for u in range(points)]
    for u, v, cost in legs:
        table[u][v] = min(table[u][v], cost)
    for w in range(points):
        for u in range(points):
            through = table[u][w]
            if through < none:
                for v in range(points):
                    if through + table[w][v] < table[u][v]:
                        table[u][v] = through + table[w][v]
    lines, found = ["TB %d" % points], 0
    for u in range(points):
        for v in range(points):
            if table[u][v] < none:
                found += 1
                lines.append("PR %d %d %d" % (u, v, table[u][v]))
            else:
                lines.append("NO %d %d" % (u, v))
    lines.append("EN %d" % found)
    return ("\n".join(lines) + "\n").encode(), 0


def made_up(rnd):
    points = rnd.choice([1, 2, 3, 4, 5, 8, 13, 20, 40])
    bound = rnd.choice([1, 2, 9, 63, 64, 65, 1000, 4095])
    count = rnd.choice([0, 1, points, 2 * points, 3 * points, rnd.randrange(0, 400)])
    if rnd.random() < 0.02:
        count = rnd.choice([1599, 1600, 1601])
    lines = ["ST %d %d" % (points, bound)]
    for _ in range(count):
        cost = rnd.choice([0, bound, rnd.randrange(bound + 1)])
        lines.append("LG %d %d %d" % (rnd.randrange(points), rnd.randrange(points), cost))
    lines.append("EN %d" % count)
    return ("\n".join(lines) + "\n").encode()


def damaged(rnd, sheet):
    for _ in range(rnd.choice([1, 1, 1, 2])):
        at = rnd.randrange(min(len(sheet), 60) + 1) if rnd.random() < 0.7 else rnd.randrange(len(sheet) + 1)
        how = rnd.randrange(7)
        if how == 0:
            sheet = sheet[:at]
        elif how == 1:
            sheet = sheet[:at] + sheet[at + 1:]
        elif how == 2:
            sheet = sheet[:at] + bytes([rnd.choice(b"0123456789 \nSTLGEN\r\tx\x00\xff")]) + sheet[at:]
        elif how == 3:
            sheet = sheet[:at] + bytes([rnd.choice(b"0123456789 \nSTLGENx\xff")]) + sheet[at + 1:]
        elif how == 4:
            sheet = sheet + rnd.choice([b"\n", b"X", b"EN 0\n", b"\n" * 40000])
        elif how == 5:
            lines = sheet.split(b"\n")
            i, j = rnd.randrange(len(lines)), rnd.randrange(len(lines))
            lines[i], lines[j] = lines[j], lines[i]
            sheet = b"\n".join(lines)
        else:
            sheet = re.sub(rb"(\d+)", lambda m: rnd.choice([m.group(1), b"0", b"40", b"41", b"4096", b"99999", b"07"])
                           if rnd.random() < 0.1 else m.group(1), sheet)
    return sheet


def main():
    program, count = sys.argv[1], int(sys.argv[2]) if len(sys.argv) > 2 else 3000
    rnd = random.Random(int(sys.argv[3]) if len(sys.argv) > 3 else 1)
    kinds = {}
    for i in range(count):
        sheet = made_up(rnd)
        if i % 2:
            sheet = damaged(rnd, sheet)
        want, status = answer(sheet)
        got = subprocess.run([program], input=sheet, capture_output=True)
        kind = want.split()[1].decode() if want.startswith(b"ER") else "listing"
        kinds[kind] = kinds.get(kind, 0) + 1
        if (got.stdout, got.returncode) != (want, status):
            open("/tmp/oracle-sheet", "wb").write(sheet)
            sys.exit("sheet %d (in /tmp/oracle-sheet): wanted %r %d, got %r %d" % (i, want[:60], status, got.stdout[:60], got.returncode))
    print(count, "sheets agree:", ", ".join("%s %d" % k for k in sorted(kinds.items())))


main()
