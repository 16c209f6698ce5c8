#!/usr/bin/env python3
"""What the table maker does with a sheet, counted by a simulation: counts.py SHEET...

Not taken from the program. It is the same method written once more: one queue that all pairs share, a wheel of 64
compartments, each 64 wide, over a ring of 64 slots; slots and compartments are lists with the newest in front; of the legs
that leave a point the latest laid comes first.
"""
import sys

SLOTS = WIDTH = COMPARTMENTS = 64


def read(path):
    lines = [line.split(" ") for line in open(path).read().splitlines()]
    points = int(lines[0][1])
    leaving = [[] for _ in range(points)]
    for mark, *fields in lines:
        if mark == "LG":
            u, v, cost = map(int, fields)
            leaving[u].insert(0, (v, cost))
    return points, leaving


class Wheel:
    """The keys of the waiting items, and where they lie: below in a slot, or later in a compartment."""

    def __init__(self, count):
        self.keys = {}
        self.floor = self.current = 0
        self.slots = [[] for _ in range(SLOTS)]
        self.below = 0
        self.later = [[] for _ in range(COMPARTMENTS)]
        self.count = count

    def spot(self, key):
        if key // WIDTH == self.current:
            return self.slots[key % WIDTH]
        return self.later[key // WIDTH % COMPARTMENTS]

    def offer(self, item, key):
        old = self.keys.get(item)
        if old is not None:
            if old <= key:
                return "kept"
            self.spot(old).remove(item)
            self.below -= old // WIDTH == self.current
        self.keys[item] = key
        self.spot(key).insert(0, item)
        self.below += key // WIDTH == self.current
        return "entered" if old is None else "lowered"

    def take(self):
        """Takes an item of least key; None where nothing waits."""
        if not self.keys:
            return None
        if self.below == 0:
            self.turn()
        start = self.floor % WIDTH if self.floor // WIDTH == self.current else 0
        for slot in range(start, SLOTS):
            if self.slots[slot]:
                break
            self.count["slots passed"] += 1
        item = self.slots[slot].pop(0)
        self.below -= 1
        self.floor = self.keys.pop(item)
        return item, self.floor

    def turn(self):
        """Makes the next compartment that holds something current, and deals its items below."""
        for step in range(1, COMPARTMENTS + 1):
            if self.later[(self.current + step) % COMPARTMENTS]:
                break
        place = (self.current + step) % COMPARTMENTS
        items, self.later[place] = self.later[place], []
        self.current = self.keys[items[0]] // WIDTH
        for item in items:
            self.slots[self.keys[item] % WIDTH].insert(0, item)
        self.below = len(items)
        self.count["compartments dealt"] += 1
        self.count["items dealt"] += len(items)


NAMES = ["units", "legs tried", "offers", "entered", "lowered", "kept", "compartments dealt", "items dealt", "slots passed"]


def count_of(path):
    points, leaving = read(path)
    count = dict.fromkeys(NAMES, 0)
    wheel = Wheel(count)
    settled = set()
    for u in range(points):
        count["offers"] += 1
        count[wheel.offer(u * points + u, 0)] += 1
    while True:
        drawn = wheel.take()
        if drawn is None:
            return count
        item, value = drawn
        settled.add(item)
        count["units"] += 1
        u, v = divmod(item, points)
        for w, cost in leaving[v]:
            count["legs tried"] += 1
            if u * points + w not in settled:
                count["offers"] += 1
                count[wheel.offer(u * points + w, value + cost)] += 1


if __name__ == "__main__":
    for path in sys.argv[1:]:
        print(path, count_of(path))
