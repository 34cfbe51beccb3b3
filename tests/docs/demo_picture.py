"""Makes docs/demo.svg, the picture of what ./demo prints: equal digests of sites have one colour.

    python3 -m tests.docs.demo_picture

The demo runs anew, by the command that it chooses: all print the same behind their own name.
"""
import os
import re
import subprocess
from xml.sax.saxutils import escape

from tests import TOP

PICTURE = os.path.join(TOP, "docs", "demo.svg")
SIZE, ADVANCE, LEADING, MARGIN = 13, 7.8, 18, 16  # of the font, of a character in it, from line to line, and around all
PAPER, INK, PALE = "#16191d", "#c9d1d9", "#8b949e"
COLOURS = ("#e5a03c", "#62a8ea", "#c58af0", "#4cc2b1", "#ff7b72", "#7fd46b")  # of digests, in the order in which they come
DIGEST = re.compile(r"\b[0-9a-f]{16}\b")
HEADING = re.compile(r"\d\. |Three ")


def shown_by(*words):
    """What the demo prints behind the lines on its command."""
    done = subprocess.run([os.path.join(TOP, "demo"), *words], stdin=subprocess.DEVNULL, stdout=subprocess.PIPE, check=True, text=True)
    return done.stdout.split("\n\n", 1)[1]


def style(line):
    """How a line is drawn, beside its digests."""
    if HEADING.match(line):
        return ' fill="#fff" font-weight="bold"'
    return ' fill="%s"' % PALE if line.startswith("  $ ") else ""


def picture(text):
    """The picture of these lines."""
    lines = text.splitlines()
    digests = list(dict.fromkeys(DIGEST.findall(text)))
    colours = dict(zip(digests, COLOURS))
    assert len(digests) == len(COLOURS), digests
    width, height = 2 * MARGIN + ADVANCE * max(map(len, lines)), 2 * MARGIN + LEADING * len(lines)
    rows = ['<svg xmlns="http://www.w3.org/2000/svg" viewBox="0 0 %d %d" font-family="monospace" font-size="%d" fill="%s">' % (width, height, SIZE, INK),
            '<rect width="100%%" height="100%%" rx="6" fill="%s"/>' % PAPER]
    for number, line in enumerate(lines):
        if line:
            said = DIGEST.sub(lambda found: '<tspan fill="%s">%s</tspan>' % (colours[found[0]], found[0]), escape(line))
            place = MARGIN + SIZE + LEADING * number
            rows.append('<text x="%d" y="%d" textLength="%.1f" xml:space="preserve"%s>%s</text>' % (MARGIN, place, ADVANCE * len(line), style(line), said))
    return "\n".join([*rows, "</svg>\n"])


if __name__ == "__main__":
    made = picture(shown_by())
    with open(PICTURE, "w", encoding="utf-8") as file:
        file.write(made)
