#!/usr/bin/env python3
"""Draws docs/speed.svg: times and bytes of this map next to those of std's, from the figures in docs/SPEED.md, or from those
that `make bench` has just measured. It also draws docs/tail.svg: how often a search reads many buckets, from the figures in
docs/TABLE.md."""

import functools
import itertools
import math
import pathlib
import re

OPERATIONS = "hit miss build remove churn entry_few entry_many clone retain drain".split()
DOCS = pathlib.Path(__file__).resolve().parent.parent / "docs"
PAIRS = {16: ("16 pairs, a vector", "#c0392b"), 33: ("33 pairs, a table", "#9ecae1")}
PAIRS |= {1_000: ("1,000", "#4292c6"), 100_000: ("100,000", "#084594")}
HERE, STD = "#c0392b", "#bbbbbb"
LEFT, SCALE, ROW, TOP = 140, 130, 19, 62
# Buckets of the table whose searches are counted, how full it is, and more than how many buckets these read.
BUCKETS, MANY = 1 << 18, (10, 20, 40, 80)
LOADS = {"half full": (0.5, "#084594"), "full": (0.75, HERE)}


def figures(page):
    """The times of this map and std's by operation, keys and pairs, and the bytes by keys and pairs, as the page has them."""
    drawn = {}
    for operation, line in re.findall(r"^    (\w+) .*?((?: +[\d.]+){10})$", page, re.M):
        numbers = line.split()
        drawn |= {(operation, "u64", it): both for it, both in zip(PAIRS, zip(numbers[::2], numbers[1::2]))}
    sizes = re.search(r"^    pairs a map (.*)$", page, re.M)[1].replace(",", "").split()
    for keys, here, std in re.findall(r"^    (u64|String) +here +(.*)\n +std +(.*)$", page, re.M):
        drawn |= {(keys, int(size)): both for size, both in zip(sizes, zip(here.split(), std.split()))}
    return {place: tuple(map(float, both)) for place, both in drawn.items()}


def svg(width, height, drawn):
    """The lines of a picture."""
    size = f'width="{width}" height="{height}" font-family="sans-serif" font-size="13"'
    head = f'<svg xmlns="http://www.w3.org/2000/svg" {size}>', '<rect width="100%" height="100%" fill="white"/>'
    return "\n".join([*head, *drawn, "</svg>\n"])


def text(x, y, words, anchor="start"):
    return f'<text x="{x:g}" y="{y:g}" text-anchor="{anchor}">{words}</text>'


def ratios(drawn):
    """A row for each operation, with a dot where the time of this map stands as a multiple of std's."""
    bottom = TOP + ROW * len(OPERATIONS)
    yield text(10, 20, "Time of one operation beside that of std's map: what is left of the line is faster here. Keys are numbers.")
    for x, (words, colour) in zip((0, 160, 300, 370), PAIRS.values()):
        yield f'<circle cx="{LEFT + x}" cy="36" r="5" fill="{colour}"/>' + text(LEFT + x + 10, 40, words)
    for ratio, words in ((0.25, "1/4"), (0.5, "1/2"), (1, "as long as std"), (2, "2"), (4, "4 times as long")):
        x = LEFT + SCALE * math.log2(4 * ratio)
        yield f'<path d="M{x:g} {TOP - 10}V{bottom}" stroke="{"#444" if ratio == 1 else "#ddd"}"/>' + text(x, bottom + 16, words, "middle")
    for y, operation in zip(range(TOP, bottom, ROW), OPERATIONS):
        dots = ""
        for pairs, (_, colour) in PAIRS.items():
            here, std = drawn[operation, "u64", pairs]
            dots += f'<circle cx="{LEFT + SCALE * math.log2(4 * here / std):.0f}" cy="{y}" r="5" fill="{colour}"/>'
        yield text(10, y + 4, operation) + dots


def bars(drawn, keys, top):
    """Two bars for each number of pairs a map: the bytes a pair of this map and of std's."""
    yield text(10, top, f"Bytes a pair, keys {keys}, by pairs a map: this map, and std's in grey.")
    rows = [(place[1], both) for place, both in drawn.items() if place[0] == keys]
    for y, (pairs, both) in zip(itertools.count(top + 12, 2 * ROW), rows):
        line = text(10, y + 16, f"{pairs:,}")
        for bar, bytes_, colour in zip((y, y + 13), both, (HERE, STD)):
            line += f'<rect x="{LEFT}" y="{bar}" width="{2 * bytes_:g}" height="11" fill="{colour}"/>'
            line += text(LEFT + 2 * bytes_ + 6, bar + 10, f"{bytes_:g}")
        yield line


def picture(drawn):
    """The lines of the picture of times and bytes."""
    top, sizes = TOP + ROW * len(OPERATIONS) + 60, sum(place[0] == "u64" for place in drawn)
    below = top + 2 * ROW * sizes + 40
    rows = [*ratios(drawn), *bars(drawn, "u64", top), *bars(drawn, "String", below)]
    return svg(720, 2 * below - top - 20, rows)


def proved_tail(load, many):
    """At most which part of the misses reads more than a number of buckets, as half_mean proves."""
    per_empty = max(2, math.ceil(1 / (1 - load)))
    return (1 - 1 / (per_empty * (2 * per_empty - 1))) ** many


@functools.cache
def true_tails(load):
    """Which part does, for each number of buckets, by Knuth's exact distribution, in floating point."""
    held = int(BUCKETS * load)

    def lists(buckets, held):  # The logarithm of how many lists of homes leave the last bucket empty.
        return math.log(buckets - held) + (held - 1) * math.log(buckets)

    def run(full):  # The chance that as many given neighbours are full, and the buckets next to them empty.
        chosen = math.lgamma(held + 1) - math.lgamma(full + 1) - math.lgamma(held - full + 1)
        return math.exp(chosen + lists(full + 1, full) + lists(BUCKETS - full - 1, held - full) - held * math.log(BUCKETS))

    longest_first = map(run, range(100 * MANY[-1], -1, -1))
    return list(itertools.accumulate(itertools.accumulate(longest_first)))[::-1]


def one_in(part):
    """Of how many searches one is of this part, rounded down to three digits, or a dash if none is."""
    if not part:
        return "-"
    digits = max(0, math.floor(math.log10(1 / part)) - 2)
    return f"{math.floor(10 / part) / 10:.1f}" if part > 0.1 else f"{math.floor(1 / part / 10**digits) * 10**digits:,}"


def tail_rows(load):
    """The rows of docs/TABLE.md that are computed."""
    yield " " * 24 + "true    " + "".join(f"{one_in(true_tails(load)[many]):>13}" for many in MANY)
    yield " " * 24 + "proved  " + "".join(f"{one_in(proved_tail(load, many)):>13}" for many in MANY)


def tail_picture(page):
    """The lines of the picture of long misses: one in how many reads more than each of MANY buckets, as the page has it."""
    measured = dict(re.findall(r"^    misses, (half full|full) +measured +(.*)$", page, re.M))
    place = lambda many, count: f"{90 + 6 * many:g} {70 + 50 * math.log10(count):.1f}"
    yield text(10, 20, "How many misses there are for each one that reads more than 0 to 80 buckets.")
    yield text(10, 40, "Dashed: what is proved. Solid: Knuth's distribution. Dots: measured.")
    for digits in range(7):
        yield f'<path d="M90 {70 + 50 * digits}H570" stroke="#ddd"/>' + text(84, 74 + 50 * digits, f"{10**digits:,}", "end")
    yield from (text(90 + 6 * many, 395, many, "middle") for many in range(0, 81, 20))
    for words, (load, colour) in LOADS.items():
        for dashes, parts in (("6 4", [proved_tail(load, many) for many in range(81)]), ("none", true_tails(load)[:81])):
            points = [place(many, 1 / part) for many, part in enumerate(parts) if part > 1e-6]
            yield f'<path d="M{"L".join(points)}" fill="none" stroke="{colour}" stroke-dasharray="{dashes}"/>'
        x, y = map(float, points[-1].split())
        yield text(x + 6, y, words)
        for many, count in zip(MANY, measured[words].replace(",", "").split()):
            if count != "-":
                x, y = place(many, float(count)).split()
                yield f'<circle cx="{x}" cy="{y}" r="4" fill="{colour}"/>'


def pictures():
    """Each picture's file, and what it has by the figures of the pages."""
    yield DOCS / "speed.svg", picture(figures((DOCS / "SPEED.md").read_text()))
    yield DOCS / "tail.svg", svg(650, 410, tail_picture((DOCS / "TABLE.md").read_text()))


if __name__ == "__main__":
    for path, drawn in pictures():
        path.write_text(drawn)
