#!/usr/bin/env python3
"""Makes the five sheets of the comparison: sheets.py FOLDER. The same bytes every time."""
import os
import random
import sys


def text(points, bound, legs):
    lines = [f"ST {points} {bound}"]
    lines += [f"LG {u} {v} {cost}" for u, v, cost in legs]
    lines.append(f"EN {len(legs)}")
    return "\n".join(lines) + "\n"


def random_legs(rng, points, count, bound):
    return [(rng.randrange(points), rng.randrange(points), rng.randint(0, bound)) for _ in range(count)]


def scattered(seed, points, count, bound):
    return text(points, bound, random_legs(random.Random(seed), points, count, bound))


def line(points, cost):
    legs = []
    for u in range(points - 1):
        legs += [(u, u + 1, cost), (u + 1, u, cost)]
    return text(points, cost, legs)


def dense(seed, points, share, bound):
    """So large a share of the ordered pairs of two different points has a leg."""
    rng = random.Random(seed)
    pairs = [(u, v) for u in range(points) for v in range(points) if u != v]
    chosen = sorted(rng.sample(pairs, round(share * len(pairs))))
    return text(points, bound, [(u, v, rng.randint(0, bound)) for u, v in chosen])


def fan(points):
    """40 legs from each point, bound 4,095."""
    rng = random.Random(points)
    return text(points, 4095, [(u, rng.randrange(points), rng.randint(0, 4095)) for u in range(points) for _ in range(40)])


SHEETS = {
    "full": lambda: scattered(1, 40, 1600, 4095),
    "low": lambda: scattered(2, 40, 1600, 9),
    "sparse": lambda: scattered(3, 40, 120, 4095),
    "line": lambda: line(40, 4095),
    "small": lambda: dense(4, 20, 0.3, 4095),
}

if __name__ == "__main__":
    folder = sys.argv[1]
    os.makedirs(folder, exist_ok=True)
    for name, make in SHEETS.items():
        with open(os.path.join(folder, name + ".sheet"), "w", newline="") as f:
            f.write(make())
