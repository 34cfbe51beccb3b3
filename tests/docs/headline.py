"""Checks that a law speaks of each run that the command and the library for C make, and of each request.

    python3 -m tests.docs.headline

What is asked is a request. So each call of cadf_tool by the command or by cadf_memory that has a clause on a run of sources
must have `IsRequestRun`, and each function of cadf_memory and each that cadf_c exports one on what is made of bytes in memory
(`IsMadeFor`, which is in `IsCall`). Both must be the premise of a law of LAWS. These speak of all requests: each must have a
row of `IsAnswered` that says something, or a law of OTHERS, on seals and on schedules.
"""
import re
import sys

from tests import text_of
from tests.proofs import corpus

LAWS = ("crates/cadf_tool/src/exchange.rt", "crates/cadf_memory/src/laws.rt")
REQUESTED, TASKS, REQUEST = ("crates/cadf_tool/" + name for name in ("specs/Requested.antt", "specs/Request.antt", "src/request.rt"))
CALL = "crates/cadf_c/specs/Statuses.antt"
# What is made of sources where no file comes of it, and the laws that speak of that.
OTHERS = {
    "proof_for": ("cadf_evidence", "made_proofs_are_told"),
    "keys_proof_for": ("cadf_evidence", "made_proofs_are_told"),
    "growth_for": ("cadf_evidence", "made_proofs_are_told"),
    "growth_line": ("cadf_evidence", "told_growth_is_so"),
    "verdict_of": ("cadf_evidence", "told_facts_are_so"),
    "key_verdict_of": ("cadf_evidence", "told_keys_are_so"),
    "final_sites": ("cadf_rehearsal", "rehearsal_equals_full_exchange"),
}
CLAUSE = re.compile(r"\bIs(?:Run|RunBy|RequestRun|MadeFor)\b")
FUNCTION = re.compile(r"(?ms)^(?:#\[.*?\]\n)?pub (?:extern \"C\" )?fn (\w+).*?^\{")
LAW = re.compile(r"(?ms)^pub fn \w+[^\n]*\n(?:(?!^\{).)*?^\{\}$")
VARIANT = re.compile(r"(?m)^    ([A-Z]\w*)(?: \{|,)")


def sources(crate):
    return [text_of(path) for path in corpus.files_of(crate, "src")]


def called(call=None):
    """Yields each function that the callers call or export, with the relations in its clause; with that text of `IsCall`, if it is
    given."""
    calls = "\n".join(text for crate in ("cadf", "cadf_memory") for text in sources(crate))
    record = re.search(r"(?ms)^pub record IsCall\b.*", text_of(CALL) if call is None else call).group()
    for crate in ("cadf_tool", "cadf_memory", "cadf_c"):
        for text in sources(crate):
            for found in FUNCTION.finditer(text):
                name, clauses = found.group(1), set(CLAUSE.findall(found.group().replace("IsCall ", record)))
                is_law = text[found.end():].startswith("}\n") and text[found.end() - 1:found.end()] == "{"
                is_export = crate == "cadf_c" and "length: &mut usize" in found.group()
                if is_export or clauses and not is_law and (crate != "cadf_tool" or re.search(r"\b%s\(" % name, calls)):
                    yield name, clauses


def unsaid(requested, tasks, request):
    """Yields each request of which `IsAnswered` says nothing, nor another law."""
    for name in VARIANT.findall(re.search(r"(?s)pub enum Request \{(.*?)^\}", request, re.M).group(1)):
        row = re.search(r"(?m)^IsAnswered \(?ask\.%s\b[^=]*= (.*)$" % name, requested)
        work = re.search(r"(?ms)^task \(?ask\.%s\b.*?(?=^task |\Z)" % name, tasks)
        others = [law for word, law in OTHERS.items() if work and re.search(r"\b%s\b" % word, work.group())]
        if not (row and "Unit" not in row.group(1)) and not any(is_law(*law) for law in others):
            yield "no law speaks of the request %s" % name


def is_law(crate, name):
    """Whether the crate has that law."""
    return re.search(r"(?m)^pub fn %s\(" % name, text_of("crates/%s/src/laws.rt" % crate)) is not None


def faults(laws=None, requested=None, call=None):
    """Yields a line for each call, or request, of which no law speaks; with these texts of the laws, the rows of `IsAnswered` and
    `IsCall`, if they are given."""
    known = {clause for text in laws or map(text_of, LAWS) for law in LAW.findall(text) if "IsAnswered" in law for clause in CLAUSE.findall(law)}
    for name, clauses in called(call):
        if not clauses or clauses - known:
            yield "no law has the clause of %s as its premise: %s" % (name, " ".join(sorted(clauses - known)) or "it has none")
    yield from unsaid(text_of(REQUESTED) if requested is None else requested, text_of(TASKS), text_of(REQUEST))


def main():
    found = list(faults())
    for line in found:
        print("headline: " + line)
    print("headline: a law speaks of %d of %d calls, and of each request" % (len(list(called())) - len(found), len(list(called()))))
    sys.exit(bool(found))


if __name__ == "__main__":
    main()
