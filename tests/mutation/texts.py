"""The mutants of texts that are no Python: of scripts by patterns, of units and the like by lines, of pages by what they state."""
import re

from tests.docs import stated
from tests.mutation.operators import Mutant

CODE = r"(?<=\()([\w *&.]+), ([\w *&.]+)(?=[,)])"
NUMBER = r"(?<![\w.#\\-])\d+\b(?![\w.%])"


def one_more(found):
    return str(int(found[0]) + 1)


# Of a script, JavaScript or C: an operator, its pattern, and what stands in its place.
SCRIPT = [
    ("comparison", r"[!=]==", lambda found: "===" if found[0] == "!==" else "!=="),
    ("comparison", r"(?<= )[<>]=?(?= )", lambda found: found[0][0] if found[0][1:] else found[0] + "="),
    ("condition", r"&&|\|\|", lambda found: "||" if found[0] == "&&" else "&&"),
    ("condition", r"(?<=[(\s])!(?=[\w(])", lambda found: ""),
    ("branches", r"(?<=\bif )\(((?:[^()\n]|\([^()\n]*\))*)\)", lambda found: "(!(%s))" % found[1]),
    ("branches", r"(?<=\? )([^?:\n]+) : ([^?:;,\n]+?)(?=[;,)])", lambda found: "%s : %s" % (found[2], found[1])),
    ("arithmetic", r"(?<= )[-+](?= \w)", lambda found: "-" if found[0] == "+" else "+"),
    ("arguments", CODE, lambda found: "%s, %s" % (found[2], found[1])),
    ("constant", NUMBER, one_more),
    ("constant", r"\b(?:true|false)\b", lambda found: "false" if found[0] == "true" else "true"),
    ("constant", r'"[^"\n]+"', lambda found: found[0][:-1] + 'X"'),
    ("statement", r"^ +(?:[\w.]+\(.*\)|[\w.]+ [-+]?= .*|(?:if|for) \(.*\) .*);$", lambda found: ""),
]
# Of a text of lines: a unit, a completion, a maintainer script.
LINES = [
    ("line", r"^(?!\[).*\S.*$", lambda found: ""),
    ("constant", NUMBER, one_more),
    ("constant", r"\b(?:yes|no|true)\b", lambda found: "no" if found[0] in ("yes", "true") else "yes"),
    ("constant", r"(?<==)[\w/~-][^\s=]*$", lambda found: found[0] + "X"),
]
COMMENT = re.compile(r"/\*[\s\S]*?\*/|(?<![:\"'])//.*|^#.*", re.M)


BLOCK = re.compile(r"(?ms)^ *```.*?^ *```$|^    [^\n]*$")  # of a page: what it shows of files and commands


def mutants(operators, file, text, left_out=COMMENT):
    """The mutants of a text by these operators, given its bytes, in the order of its lines; none is in a comment, or what else is left
    out."""
    string = text.decode()
    lines = string.split("\n")
    comments = [found.span() for found in left_out.finditer(string)]
    made = set()
    for operator, pattern, change in operators:
        for found in re.finditer(pattern, string, re.M):
            new = change(found)
            if new != found[0] and not any(begin <= found.start() < end for begin, end in comments):
                begin, end = (len(string[:place].encode()) for place in found.span())
                number = string.count("\n", 0, found.start()) + 1
                made.add(Mutant(file, " ".join(lines[number - 1].split())[:60], operator, number, begin, end, found[0], new))
    return sorted(made)


def of_script(file, text):
    return mutants(SCRIPT, file, text)


def of_lines(file, text):
    return mutants(LINES, file, text)


# ---- What a page states

def number_like(found):
    """Another number, of as many digits or one more."""
    number, figure = found[1] or found[4], found[0]
    return figure.replace(number, "%s0" % number if number[-1] == "0" else str(int(number[-1]) + 1).join([number[:-1], ""]), 1)


def without_a_letter(found):
    """A word without one of its letters, the last but one."""
    return found[0][:-2] + found[0][-1]


def without_a_word(found):
    """Words without the one in their middle."""
    words = found[0].split(" ")
    return " ".join(words[:len(words) // 2] + words[len(words) // 2 + 1:])


def of_page(file, text):
    options = sorted(set().union(*map(stated.options, ["cadf", *stated.tools()])))
    after = dict(zip(options, options[1:] + options[:1]))
    return mutants([
        ("number", stated.NUMBER.pattern, number_like),
        ("option", r"(?<=[` \[])--[a-z][a-z-]*(?=[^`\n]*`)", lambda found: after.get(found[0], found[0] + "s")),
        ("option", r"(?<=`)--[a-z][a-z-]*(?=[^`\n]*`)", without_a_letter),
        ("name", r"(?<=`)[\w./-]{4,}(?=`)", without_a_letter),
        ("message", r"(?<=`)[A-Za-z](?!adf[ -]|pg )[^`\n|()]* [^`\n|()]* [^`\n|()]*(?=`)", without_a_word),
    ], file, text, BLOCK)
