#!/usr/bin/env python3
"""Runs the program on random texts, and compares what it prints with an independent model.

Usage: tools/fuzz/fuzz.py [HOW MANY] [SEED]   (from the repository's root, after `rt run` in crates/yuccaknit)
"""
import random
import subprocess
import sys
from collections import Counter

import model

PROGRAM = "crates/yuccaknit/out/yuccaknit"
SPOKEN = [model.ONE, model.TWO, model.THREE, model.BOX, model.OPEN, model.UM]


def symbol(rng):
    pick = rng.random()
    if pick < 0.85:
        return rng.choice(SPOKEN)
    if pick < 0.95:
        return rng.choice([model.LINE, model.PART, model.NUM, model.GAP])
    return rng.randrange(256)


def mark(rng):
    return rng.choice([0, 1, rng.randrange(10), rng.randrange(100), rng.randrange(65536)])


def spoken_line(rng):
    """Words one after the other, some heard in several ways."""
    words, node = [], 0
    for _ in range(rng.randrange(1, 32)):
        for _ in range(rng.choice([1, 1, 1, 2, 3])):
            words.append((node, node + 1, symbol(rng), mark(rng)))
        node += 1
    if rng.random() < 0.2:
        rng.shuffle(words)
    return words[:128]


def counted_line(rng):
    """A line of stock counts, with other words heard beside its own."""
    line = []
    while len(line) < 31 and (not line or rng.random() < 0.85):
        number = rng.choice([model.ONE, model.TWO, model.THREE])
        line += rng.choice([[number], [number, model.BOX], [model.OPEN, number], [number, model.BOX, model.OPEN], [number, model.UM]])
    line = line[:31]
    words = [(node, node + 1, x, mark(rng)) for node, x in enumerate(line)]
    for _ in range(rng.choice([0, 0, 3, 30, 90])):
        start = rng.randrange(len(line))
        words.insert(rng.randrange(len(words) + 1), (start, min(len(line), start + rng.choice([1, 1, 2, 3])), symbol(rng), mark(rng)))
    return words[:128]


def any_words(rng):
    """Words over any spans, many or few."""
    last = rng.randrange(1, 32)
    words = []
    for _ in range(rng.choice([0, 1, 5, 20, 60, 128, 129])):
        start = rng.randrange(last)
        words.append((start, min(last, start + rng.choice([1, 1, 1, 2, 3, 10])), symbol(rng), mark(rng)))
    return words


def bad_words(rng):
    words = spoken_line(rng)
    start, end, x, m = words.pop(rng.randrange(len(words)))
    words.insert(rng.randrange(len(words) + 1), rng.choice([(end, start, x, m), (start, start, x, m), (start, rng.randrange(32, 256), x, m), (40, 40, x, m)]))
    return words


def written(words):
    return b"".join(b"%d %d %d %d\n" % word for word in words)


def damaged(rng, text):
    """A text with a byte put in, changed or left out."""
    text = bytearray(text)
    for _ in range(rng.choice([1, 1, 2])):
        at = rng.randrange(len(text) + 1)
        byte = rng.choice(b"0123456789 \n-+x\r\t\0")
        pick = rng.randrange(3)
        if pick == 0:
            text.insert(at, byte)
        elif at < len(text):
            if pick == 1:
                text[at] = byte
            else:
                del text[at]
    return bytes(text)


def random_text(rng):
    pick = rng.random()
    if pick < 0.5:
        words = counted_line(rng)
    elif pick < 0.65:
        words = spoken_line(rng)
    elif pick < 0.9:
        words = any_words(rng)
    else:
        words = bad_words(rng)
    text = written(words)
    if rng.random() < 0.3:
        text = text[:-1]
    return damaged(rng, text) if rng.random() < 0.15 else text


def main():
    count = int(sys.argv[1]) if len(sys.argv) > 1 else 2000
    seed = int(sys.argv[2]) if len(sys.argv) > 2 else 1
    rng = random.Random(seed)
    kinds, differences, second, full, readings, most = Counter(), 0, 0, 0, 0, 0
    for turn in range(count):
        text = random_text(rng)
        expected, chart = model.answer(text)
        printed = subprocess.run([PROGRAM], input=text, capture_output=True, check=True).stdout.decode()
        kinds["weight" if expected.startswith("weight") else expected.strip()] += 1
        if printed != expected:
            differences += 1
            print(f"turn {turn}: the program printed {printed!r}, the model {expected!r}, for {text!r}")
        full += chart is not None and chart.full
        if printed.startswith("weight"):
            first, *lines = printed.splitlines()
            nodes = [(kind, *map(int, numbers)) for kind, *numbers in (line.split(" ") for line in lines)]
            expected = model.weight_of(model.STOCK_COUNTS, model.words_of(text), nodes, model.LINE, 0, chart.last)
            readings += 1
            most = max(most, len(nodes))
            if first != f"weight {expected}":
                differences += 1
                print(f"turn {turn}: {printed!r} is no derivation of its weight, for {text!r}")
        if chart is not None and not chart.full and len(chart.edges) < 300:
            best = model.lightest(model.STOCK_COUNTS, model.words_of(text))
            finished = {edge: chart.weights[at] for at, edge in enumerate(chart.edges) if chart.done[at]}
            second += 1
            if best != finished:
                differences += 1
                print(f"turn {turn}: the model's chart is not what going round gives, for {text!r}")
    print(f"{count} texts, {differences} differences; " + ", ".join(f"{kind}: {n}" for kind, n in sorted(kinds.items())) + f"; full charts: {full}; readings: {readings}, of up to {most} nodes; second opinions: {second}")
    return 1 if differences else 0


sys.exit(main())
