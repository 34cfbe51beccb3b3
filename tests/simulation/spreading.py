"""Simulates how facts spread among many sites whose links are down at times: rounds and bytes until all are equal.

    python3 -m tests.simulation.spreading [--write]

In each round every site calls one partner, in an order by chance, and both then hold the union, as after `cadf-sync`: in a ring the
next one, in a star the middle one, else any other, as Demers and others have it ("Epidemic algorithms", 1987). Three calls of ten fail.
At the start all sites are equal in LISTED windows, and each has FACTS of its own of a day that is new. A site's facts are the bits of
a number. The bytes of a call are those that docs/SYNC.md and docs/FORMATS.md say of the messages of `cadf-sync`.

Without --write it says whether docs/PERFORMANCE.md has the table that it makes, and docs/spreading.svg the picture; the status is then 1.
"""
import argparse
import math
import os
import random
import statistics
import sys
from typing import NamedTuple

from tests import TOP, text_of

PAGE, PICTURE = "docs/PERFORMANCE.md", "docs/spreading.svg"
SITES, SEEDS, DOWN = (10, 100, 1000), 3, 0.3
FACTS, LISTED = 10, 365
EQUAL, LINE = 28685, 78  # bytes of a call that finds LISTED windows equal, as bench/RESULTS.md has it, and of a window's line in a list
CELLS, CELL, COUNTS = 198, 81, 650  # a first sketch's cells, the bytes of one, and of a sketch beside them
DIGEST, FACT, HEAD = 65, 203, 104  # bytes of a fact in an inventory and by itself, in RESULTS too, and of a file beside them
HEADING = "| Sites | Each calls | Rounds until all are equal | kB of all calls | of a site, on average | of the busiest site |\n|---|---|---|---|---|---|\n"
COLOURS = {"the next": "#b3541e", "the middle": "#2b6cb0", "any other": "#3a7d44"}  # by whom a site calls


def count(facts):
    return bin(facts).count("1")


def asked(held, apart):
    """The bytes by which an end says what it holds of a window: sketches of which the last has enough cells, or the inventory if that is no longer."""
    sent, cells = 0, CELLS
    while COUNTS + CELL * cells < HEAD + DIGEST * held:
        sent += COUNTS + CELL * cells
        if 2 * apart <= cells:
            return sent
        cells = 2 * apart + 30
    return sent + HEAD + DIGEST * held


def call(own, other):
    """The bytes of a call between sites that hold these facts of the day, both ways together."""
    sent = EQUAL + LINE
    if own == other:
        return sent
    apart = count(own ^ other)
    for one, far in ((own, other), (other, own)):
        sent += asked(count(one), apart) if one else 0
        sent += HEAD + FACT * count(far & ~one) if far & ~one else 0
    return sent


class Spread(NamedTuple):
    """How a simulation ended: its rounds, the bytes of all calls, those of the site that had most, and which part of all facts a site held after each round."""
    rounds: int
    total: int
    most: int
    shares: list


def partner(way, site, sites, chance):
    if way == "the next":
        return (site + 1) % sites
    if way == "the middle":
        return 0
    other = chance.randrange(sites - 1)
    return other + (other >= site)


def spread(way, sites, chance, down=DOWN):
    """Has sites call one another until all are equal."""
    held = [(2 ** FACTS - 1) << FACTS * site for site in range(sites)]
    of_site, shares, rounds = [0] * sites, [1 / sites], 0
    while any(each != held[0] for each in held):
        rounds += 1
        for site in chance.sample(range(sites), sites):
            other = partner(way, site, sites, chance)
            if other != site and chance.random() >= down:
                sent = call(held[site], held[other])
                of_site[site], of_site[other] = of_site[site] + sent, of_site[other] + sent
                held[site] = held[other] = held[site] | held[other]
        shares.append(sum(map(count, held)) / (FACTS * sites * sites))
    return Spread(rounds, sum(of_site) // 2, max(of_site), shares)


def simulations(numbers=SITES):
    """Some of each kind and number of sites, by these."""
    return {(way, sites): [spread(way, sites, random.Random("%s %d %d" % (way, sites, seed))) for seed in range(SEEDS)] for sites in numbers for way in COLOURS}


def shown(size):
    return format(round(size / 1000), ",")


def rows(found):
    """The rows of the page's table: medians."""
    for (way, sites), each in found.items():
        rounds, total, most = (statistics.median_high(getattr(one, name) for one in each) for name in ("rounds", "total", "most"))
        yield "| %s | %s | %d | %s | %s | %s |\n" % (format(sites, ","), way, rounds, shown(total), shown(2 * total / sites), shown(most))


def picture(found):
    """Which part of all facts a site holds, after how many rounds: a drawing, its rounds by their logarithm."""
    width, height, sites = 640, 300, SITES[-1]
    longest = max(each.rounds for way in COLOURS for each in found[way, sites])

    def point(rounds, share):
        return "%.1f,%.1f" % (50 + (width - 70) * math.log(rounds + 1) / math.log(longest + 1), height - 40 - (height - 60) * share)

    lines = ['<svg xmlns="http://www.w3.org/2000/svg" viewBox="0 0 %d %d" font-family="sans-serif" font-size="13">' % (width, height),
             '<rect width="%d" height="%d" fill="#fff"/>' % (width, height)]
    marks = [0] + [number for power in range(4) for number in (10 ** power, 3 * 10 ** power) if number < longest] + [longest]
    for mark in marks:
        lines.append('<text x="%s" y="%d" text-anchor="middle">%d</text>' % (point(mark, 0).split(",")[0], height - 22, mark))
    for share in (0, 0.5, 1):
        at = point(0, share).split(",")[1]
        lines.append('<path d="M50,%s H%d" stroke="#ccc"/><text x="44" y="%s" text-anchor="end">%d %%</text>' % (at, width - 20, at, 100 * share))
    for place, (way, colour) in enumerate(COLOURS.items()):
        own = found[way, sites][0]
        lines.append('<polyline fill="none" stroke="%s" stroke-width="2" points="%s"/>' % (colour, " ".join(point(*each) for each in enumerate(own.shares))))
        lines.append('<text x="%d" y="%d" fill="%s">%s</text>' % (width - 110, height - 70 - 18 * place, colour, way))
    lines.append('<text x="%d" y="%d" text-anchor="middle">rounds</text>\n</svg>\n' % (width // 2, height - 4))
    return "\n".join(lines)


def main():
    parser = argparse.ArgumentParser(description=__doc__, formatter_class=argparse.RawDescriptionHelpFormatter)
    parser.add_argument("--write", action="store_true")
    options = parser.parse_args()
    found, page = simulations(), text_of(PAGE)
    head, _, rest = page.partition(HEADING)
    made = {PAGE: head + HEADING + "".join(rows(found)) + rest[rest.index("\n\n") + 1:], PICTURE: picture(found)}
    if options.write:
        for name, text in made.items():
            with open(os.path.join(TOP, name), "w", encoding="utf-8") as file:
                file.write(text)
    wrong = [name for name, text in made.items() if not os.path.exists(os.path.join(TOP, name)) or text_of(name) != text]
    sys.exit("other than it is simulated: %s: run with --write" % ", ".join(wrong) if wrong else 0)


if __name__ == "__main__":
    main()
