"""That each lemma of the proofs is cited, but for those inside of a module: an abandoned one costs its reader and the gate time."""
import collections
import functools
import os
import re

from tests import TOP, text_of
from tests.proofs import corpus

USE = re.compile(r"use Rattle\.[\w.+]+(?:\.\{[^}]*\}|\s+as\s+\w+)")
COMMENT = re.compile(r"--.*")
WORD = re.compile(r"[^\s(){}\[\],;:.λ]+")
DECLARED = re.compile(r"(?m)^(?:abbrev |unfoldable )?(?:pub )?([^\s(){}\[\],;:.]+) : ")
GENERATED = ("Answers.antt", "Goals.antt", "Invariants.antt", "Lib.antt")  # what the prover looks up by its place


@functools.lru_cache(None)
def sources():
    """The text of each source and proof by its path, without imports and comments."""
    paths = [path for part in ("src", "specs", "proofs") for path in corpus.files_of("*", part)]
    return {os.path.relpath(path, TOP): COMMENT.sub("", USE.sub("", text_of(path))) for path in paths}


def definition(text, start, name):
    """The lines of a definition: its type, and its equations, which begin with its name."""
    first, *lines = text[start:].split("\n")
    taken = [first]
    for line in lines:
        if line[:1].strip(" })]") and WORD.findall(line)[:1] != [name]:
            break
        taken.append(line)
    return "\n".join(taken)


def uncited(texts):
    """The names that a proof declares, and no text cites outside of what declares them."""
    cited = collections.Counter(word for text in texts.values() for word in WORD.findall(text))
    for path, text in sorted(texts.items()):
        if "/proofs/" in path and not path.endswith(GENERATED):
            for found in DECLARED.finditer(text):
                own = WORD.findall(definition(text, found.start(), found[1])).count(found[1])
                if cited[found[1]] <= own:
                    yield path, found[1]


def test_each_lemma_is_cited():
    assert list(uncited(sources())) == []


def test_one_that_is_not_is_named():
    texts = {**sources()}
    path = next(path for path in sorted(texts) if path.endswith("/proofs/HashStates.antt"))
    texts[path] += "\nabandoned : (n : ℕ) → n ≡ n\nabandoned zero = refl\nabandoned (suc n) = ap suc (abandoned n)\n"
    assert (path, "abandoned") in uncited(texts)
