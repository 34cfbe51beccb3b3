#!/usr/bin/env python3
"""Puts the numbers of bench/RESULTS.md into docs/PERFORMANCE.md, docs/GUIDE.md and README.md, and its chart.

    bench/figures.py [--write]

FIGURES has each place of a page that tells a measurement, and the cells of RESULTS whose numbers it tells, rounded as the page
has them. Without --write it prints each number that differs, and each that has a unit and isn't among FIGURES or LIMITS; the
status is then 1. tests/docs/test_told.py runs it.
"""
import math
import os
import re
import sys

TOP = os.path.dirname(os.path.dirname(os.path.abspath(__file__)))
RESULTS, PERFORMANCE, GUIDE, README = (os.path.join(TOP, *name.split("/")) for name in (
    "bench/RESULTS.md", "docs/PERFORMANCE.md", "docs/GUIDE.md", "README.md"))
NUMBER = r"\d[\d,]*(?:\.\d+)?"
MEASURED = re.compile(r"(?<![\w^.,-])(?:%s (?:[kKMGT]?B|bytes|m?s)\b|\d\.\d+\b(?!\.\d))" % NUMBER)
SHOW, JOIN, MISSING, SYNC, TAKES = "\n| 100 MB, ", "| join |", "| missing |", "## Exchanges over a line", "## Takes into a site"
PAGE, LARGE_PAGE, MEMORY = "## The page of", "A page of 1,000,000 events of", "Bytes of memory a byte:"
FOUND_TIME, FOUND_MEMORY = "Found, processor time a byte", "Found, bytes of memory a byte"
QUESTIONS = "## Questions to a site"
SKETCHES, SALTS, DISK = "\n1,000,000 facts:\n", "How many of 100 salts", "| Calls a second |"
COMMANDS, BOTH, A_CALL = ((JOIN, "`cadf join`"), (MISSING, "`cadf missing`")), ("Sent", "Received"), ("MB a day", "GB a year")
OPENSSL, SHA256SUM = "`openssl dgst -sha256`", "`sha256sum`"
# Of each page its places: the text, in which `{}` is a number, `{/1000}` a thousandth of one; and for each number its table, by a
# text before it, the beginning of its row and that of its column, each with `:1` for the second number of the cell; with several
# columns it is their sum.
FIGURES = {
    PERFORMANCE: [
        ("| `show` of 100 MB, 113,705 events | {} s and {} MB of memory: {} times the time of C++", (
            SHOW, "`cadf show`", "User"), (SHOW, "`cadf show`", "Memory"), (SHOW, "C++", "`cadf show`")),
        ("| {} of the time of orjson, {} of node, {} of Rust by hand. Of `jq` it takes {} of the time, and {} of the memory (the aim was {})",
         *((SHOW, name, "`cadf show`") for name in ("orjson", "node", "Rust", "jq")), (SHOW, "jq", "`cadf show`:2"), (SHOW, "jq", "Aim:1")),
        ("`join` of files of format 1 takes {} times the time of `sort` with digests by OpenSSL, and {} with `sha256sum`; "
         "`missing` {} with `comm` and OpenSSL, and {} with `sha256sum`.",
         *((where, tool, command + ", format 1") for where, command in COMMANDS for tool in (OPENSSL, SHA256SUM))),
        ("`join` takes {} s, {} MB and {} of the time with `sha256sum` (the aim was {}), `missing` {} s, {} MB and {} ({}).", *(
            cell for where, command in COMMANDS for cell in (
                (where, command + ", format 2", "User"), (where, command + ", format 2", "Memory"),
                (where, SHA256SUM, command + ", format 2"), (where, SHA256SUM, "Aim")))),
        ("A file: {} s and {} MB of memory, all of it written anew. sqlite: {} s. | A folder: {} s and {} MB.",
         *((TAKES, "1,000 MB, 1 event", column) for column in ("File", "File:1", "sqlite", "Folder", "Folder:1"))),
        ("window sends {} bytes, if somebody names the window; `cadf-sync` sends {}.", (SYNC, "`rdiff`", *BOTH), (SYNC, "`cadf-sync`, ", *BOTH)),
        ("`rsync` sends {}, and 50 facts are lost. If nothing differs: {} bytes, `rsync` {}.",
         (SYNC, "`rsync -a", *BOTH), (SYNC, "`cadf-sync` again", *BOTH), (SYNC, "`rsync` again", *BOTH)),
        ("Written in {} s, {} of the time of reading and writing the JSON in Python. | Loaded in a browser in {} s,",
         (PAGE, "Written", "10^5"), (PAGE, "The writer alone", "10^5"), (PAGE, "Loaded, by the clock", "10^5")),
        ("The first makes the index: {} s, {} times the time of `cadf show` of all windows (the aim was {}).",
         (QUESTIONS, "the first question", "Processors"), (QUESTIONS, "the first question", "Processors:1"), (QUESTIONS, "the first question", "Aim")),
        ("A day takes {} s, a user's month {} s, an identifier {} s, counts by action {} s. Without an index a day takes {} s.",
         *((QUESTIONS, row, "Processors") for row in ("a day,", "a user's month", "an identifier", "`--count-by action`")), (QUESTIONS, "a day,", "Without")),
        ("take up to {} bytes for each byte of a document of ordinary events. `join` takes {} for each byte of files of format 2, and `missing` {}.",
         (MEMORY, "ordinary events, document", "`check`"), (MEMORY, "ordinary events, file", "`join`"), (MEMORY, "ordinary events, file", "`missing`")),
        ("A take into a folder takes {} MB, if no files", (TAKES, "1,000 MB, 1 event", "Folder:1")),
        ("by up to {} times the time a byte, in `verify` {}, and {} bytes of memory a byte,",
         (FOUND_TIME, "a list of `0` in 125 such objects, beside", "`show`"), (FOUND_TIME, "short tags of an event", "`verify --absent`"),
         (FOUND_MEMORY, "short tags in no order", "`missing-by-sketch`")),
        ("written in {} s with {} GB, and loads in {} s", *((LARGE_PAGE, "69 bytes", column) for column in ("Written", "Memory", "Loaded"))),
    ],
    GUIDE: [
        ("cadf missing-by-sketch {/1000} KB, or once more", (SKETCHES, "0", "Sketch")),
        ("in {/1000} KB, which are enough for 100 differences in {} of 100 cases", (SKETCHES, "0", "Sketch"), (SALTS, "100,", "198")),
        ("take {} bytes in a site", ("| Recorded calls", "45", "Bytes")),
        ("| 0.1 | {} MB | {} GB | `month` | {} MB |", *((DISK, "0.1", column) for column in (*A_CALL, "MB a month"))),
        ("| 1 | {} MB | {} GB | `day` | {} MB |", *((DISK, "1,", column) for column in (*A_CALL, "MB a day"))),
        ("| 10 | {/1000} GB | {} GB | `hour` | {} MB |", *((DISK, "10,", column) for column in (*A_CALL, "MB an hour"))),
        ("| 100 | {/1000} GB | {/1000} TB | `hour` | {} MB |", *((DISK, "100,", column) for column in (*A_CALL, "MB an hour"))),
        ("and a take that merges nothing takes {} MB.", (TAKES, "1,000 MB, 1 event", "Folder:1")),
    ],
    README: [
        ("`show` of 100 MB takes {} s of user time and {} MB of memory. A take of one event into a folder of 1,000 MB takes {} s and {} MB, and into one file of that size {} s.",
         (SHOW, "`cadf show`", "User"), (SHOW, "`cadf show`", "Memory"), *((TAKES, "1,000 MB, 1 event", column) for column in ("Folder", "Folder:1", "File"))),
    ],
}
# What the pages say with units that is no measurement.
LIMITS = {
    PERFORMANCE: ["2.5 GHz", "a site of 1,000 MB", "a year of a site, 1,006 MB", "65 bytes a fact", "81 bytes a cell"],
    GUIDE: ["65 bytes a fact", "PCI DSS 4.0", "81 bytes a cell", "up to 16 MB", "smaller files, 1 MB together"],
    README: ["2.5 GHz", "Python 3.9", "8 s  unbuilt"],
}
CHART = (("inventory", "sketch", "rdiff", "rdiff -b 1024"), "\n1,000,000 facts:\n", 1 << 10)  # bytes of the first column
SIZES = ((1000 ** 3, "GB"), (1000 ** 2, "MB"), (1000, "KB"))


def read(path):
    with open(path, encoding="utf-8") as file:
        return file.read()


def table(text, where):
    """The first table at that text or after it: its heads, and its rows as lists of cells."""
    lines = text[text.rindex("\n", 0, text.index(where) + 1):].split("\n|", 1)[1].split("\n\n")[0].split("\n|")
    heads, _, *rows = [[cell.strip() for cell in line.rstrip().strip("|").split("|")] for line in lines]
    return heads, rows


def numbers(cell):
    return [float(number.replace(",", "")) for number in re.findall(NUMBER, cell)]


def cell_sum(text, where, row, *columns):
    """The number of a cell of RESULTS, or the sum of several in a row."""
    heads, rows = table(text, where)
    cells, = [cells for cells in rows if ", ".join(cells).startswith(row)]
    found = 0
    for column in columns:
        head, _, place = column.partition(":")
        found += numbers(cells[next(at for at, name in enumerate(heads) if name.startswith(head))])[int(place or 0)]
    return found


def with_figures(page, results, figures):
    """The page with the numbers of RESULTS, of as many decimals as it has; and what of it isn't a place that tells them."""
    rest = page
    for template, *cells in figures:
        parts = re.split(r"\{(?:/(\d+))?\}", template)
        texts = [r"\s+".join(map(re.escape, part.split(" "))) for part in parts[::2]]
        place = re.search(NUMBER.join("(%s)" % text for text in texts), page)
        if not place:
            sys.exit("no page says: %s" % template)
        said = ""
        for at, (cell, scale) in enumerate(zip(cells, parts[1::2])):
            old = page[place.end(at + 1):place.start(at + 2)]
            said += place[at + 1] + "{:,.{}f}".format(cell_sum(results, *cell) / int(scale or 1), len(old.partition(".")[2]))
        page, rest = page.replace(place[0], said + place[len(cells) + 1]), rest.replace(place[0], "")
    return page, rest


def size(count):
    """Names a number of bytes by two digits at least."""
    unit, name = next((unit, name) for unit, name in SIZES if count >= unit)
    return "%.*f %s" % (0 if count >= 10 * unit else 1, count / unit, name)


def chart(text):
    """The chart of the bytes of an exchange, line by line: a column more is twice the bytes."""
    ways, where, least = CHART
    yield "differences  way            bytes sent, both ways together"
    for differences, *cells in table(text, where)[1]:
        for at, (way, cell) in enumerate(zip(ways, cells)):
            count = sum(numbers(cell)[:2])
            bar = "#" * max(1, round(math.log2(count / least)) + 1)
            yield "%11s  %-13s  %-20s  %s" % ("" if at else differences, way, bar, size(count))


def pages():
    """Of each page: its path, its text, the text that it should have, and what it says of units that is told nowhere."""
    results = read(RESULTS)
    for path, figures in FIGURES.items():
        page = read(path)
        wanted, rest = with_figures(page, results, figures)
        if path == PERFORMANCE:
            drawn = "```text\n%s\n```\n" % "\n".join(chart(results))
            wanted, rest = (re.sub(r"```text\n(.*\n)*?```\n", lambda _: drawn, wanted), re.sub(r"```text\n(.*\n)*?```\n", "", rest))
        rest = re.sub(r"(?m)^    .*|\]\([^)]*\)", "", rest)
        for limit in LIMITS[path]:
            rest = re.sub(r"\s+".join(map(re.escape, limit.split(" "))), "", rest)
        yield path, page, wanted, MEASURED.findall(rest)


def main():
    status = 0
    for path, page, wanted, untold in pages():
        if "--write" in sys.argv[1:]:
            with open(path, "w", encoding="utf-8") as file:
                file.write(wanted)
            page = wanted
        wrong = ["%s\n    RESULTS: %s" % lines for lines in zip(page.splitlines(), wanted.splitlines()) if lines[0] != lines[1]]
        for what in wrong + ["no cell of RESULTS for %s" % number for number in untold]:
            print("%s: %s" % (os.path.relpath(path, TOP), what))
            status = 1
    return status


if __name__ == "__main__":
    sys.exit(main())
