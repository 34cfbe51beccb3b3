"""The commands of cadf, an entry each: their words, and the command lines on which the scripts of this folder run them.

A further command is an entry here (CONTRIBUTING.md). The script that runs its lines makes the files that they name.
"""
from typing import NamedTuple, Sequence


class Command(NamedTuple):
    """What the scripts know of a command."""
    operands: str = ""  # as its help shows them
    writes_pieces: bool = False  # as it goes, so that a refused allocation may leave a prefix of the output
    small: Sequence[str] = ()  # tests/command/test_faults.py: each place of a fault is tried
    worked: Sequence[str] = ()  # likewise: a producer's event, chains, a conflict, deltas, facts of a log
    large: Sequence[str] = ()  # tests/command/test_faults.py: a sample of the places
    limited: Sequence[str] = ()  # tests/command/test_limits.py: on inputs of about 1 MB
    deep: Sequence[str] = ()  # tests/command/test_limits.py: on values that nest as deep as can be read

COMMANDS = {
    "join": Command(
        operands='FILE...', writes_pieces=True,
        small=["join log.json", "join log.json other.json", "join log.cadf other.cadf event.json",
               "join event.json --log g", "join log.json stranger.json", "join log.cadf absent.cadf",
               "join event.json", "join log.cadf longer.cadf", "join --log g log.json cut.json",
               "join --log= log.json", "join log.1.cadf other.cadf", "join log.cadf other.1.cadf"],
        worked=["join chain.json chains.json", "join chain.json failed.json", "join chains.cadf chains.cadf",
                "join north.json south.json"],
        large=["join many.json", "join many.cadf log.json", "join many.1.cadf many.cadf"],
        limited=["join log.json", "join one.cadf two.cadf", "join one.1.cadf two.cadf"],
        deep=["join deep.json", "join deep.cadf deep.json"],
    ),
    "split": Command(
        operands='FILE...', writes_pieces=True,
        small=["split --by day log.json", "split --by month both.cadf", "split --by=hour both.1.cadf other.cadf",
               "split --by day event.json --log g", "split --by day log.json stranger.json", "split --by day log.cadf absent.cadf",
               "split --by day event.json", "split log.json", "split --by week log.json", "split --by hour --log= log.json"],
        worked=["split --by day chains.cadf", "split --by month conflict.cadf facts.cadf", "split --by hour ruled.cadf"],
        large=["split --by hour many.json", "split --by day many.cadf log.json"],
        limited=["split --by day log.json", "split --by month one.cadf two.cadf"],
        deep=["split --by day deep.json"],
    ),
    "missing": Command(
        operands='FROM TO', writes_pieces=True,
        small=["missing both.cadf log.cadf", "missing log.json other.json", "missing both.cadf both.cadf",
               "missing log.cadf changed.cadf", "missing both.1.cadf log.cadf", "missing both.cadf log.1.cadf",
               "missing log.cadf log.json --from other.cadf --to other.json", "missing log.cadf event.json --to other.json",
               "missing both.cadf log.cadf --to stranger.json", "missing log.cadf absent.cadf --from cut.json"],
        worked=["missing tagged.cadf one.cadf", "missing chains.cadf one.cadf"],
        large=["missing many.cadf log.cadf"],
        limited=["missing one.cadf two.cadf", "missing one.cadf two.1.cadf", "missing one.cadf two.cadf --from two.cadf"],
        deep=["missing deep.cadf small.json"],
    ),
    "missing-by": Command(
        operands='FROM INVENTORY', writes_pieces=True,
        small=["missing-by both.cadf log.inventory", "missing-by both.1.cadf log.inventory",
               "missing-by log.json log.inventory", "missing-by log.cadf cut.inventory",
               "missing-by log.cadf log.inventory --from other.json"],
        worked=["missing-by chains.cadf one.inventory", "missing-by one.cadf one.inventory"],
        large=["missing-by many.cadf log.inventory"],
        limited=["missing-by one.cadf two.inventory"],
    ),
    "inventory": Command(
        operands='FILE...', writes_pieces=True,
        small=["inventory log.json", "inventory both.cadf", "inventory both.1.cadf", "inventory changed.cadf",
               "inventory log.cadf other.json"],
        worked=["inventory one.cadf"],
        large=["inventory many.cadf"],
        limited=["inventory one.cadf"],
        deep=["inventory deep.cadf"],
    ),
    "sketch": Command(
        operands='FILE...', writes_pieces=True,
        small=["sketch log.json", "sketch --cells 9 log.cadf other.json",
               "sketch --cells 9 --salt 1 both.cadf", "sketch --cells=33 both.1.cadf", "sketch changed.cadf",
               "sketch --cells 4 both.cadf", "sketch --salt 2 both.cadf"],
        worked=["sketch --cells 12 one.cadf"],
        large=["sketch many.cadf"],
        limited=["sketch one.cadf", "sketch --cells 9999 one.1.cadf"],
        deep=["sketch deep.cadf"],
    ),
    "missing-by-sketch": Command(
        operands='FROM SKETCH', writes_pieces=True,
        small=["missing-by-sketch both.cadf log.sketch", "missing-by-sketch both.1.cadf log.sketch",
               "missing-by-sketch log.json log.sketch", "missing-by-sketch log.cadf cut.sketch",
               "missing-by-sketch both.cadf few.sketch", "missing-by-sketch log.cadf few.sketch --from other.json"],
        worked=["missing-by-sketch chains.cadf one.sketch", "missing-by-sketch one.cadf one.sketch"],
        large=["missing-by-sketch many.cadf log.sketch"],
        limited=["missing-by-sketch one.cadf two.sketch"],
    ),
    "seal": Command(
        operands='FILE...', writes_pieces=True,
        small=["seal log.json", "seal both.cadf", "seal both.1.cadf", "seal changed.cadf", "seal log.cadf other.json"],
        worked=["seal one.cadf"],
        large=["seal many.cadf"],
        limited=["seal one.cadf"],
        deep=["seal deep.cadf"],
    ),
    "prove": Command(
        operands='FACTS FILE...', writes_pieces=True,
        small=["prove log.json both.cadf", "prove both.1.cadf log.cadf", "prove event.json log.cadf other.json",
               "prove log.cadf event.json", "prove stranger.json both.cadf", "prove both.cadf log.cadf stranger.json",
               "prove both.cadf changed.cadf", "prove both.cadf absent.cadf",
               "prove --keys asked.keys both.cadf", "prove asked.keys --keys event.json log.cadf other.json", "prove --keys asked.keys event.json",
               "prove --keys cut.keys both.cadf", "prove --keys asked.keys stranger.json", "prove --keys both.cadf both.cadf"],
        worked=["prove one.cadf chains.cadf", "prove chains.cadf one.cadf", "prove --keys asked.keys one.cadf"],
        large=["prove log.cadf many.cadf"],
        limited=["prove two.cadf one.cadf", "prove one.1.cadf one.cadf"],
        deep=["prove deep.cadf deep.json", "prove small.json deep.cadf"],
    ),
    "verify": Command(
        operands='SEAL FACTS PROOF', writes_pieces=False,
        small=["verify both.seal both.cadf both.proof", "verify --absent both.seal event.json event.proof",
               "verify both.seal event.json event.proof", "verify both.seal log.json event.proof",
               "verify both.seal changed.cadf both.proof", "verify both.seal stranger.json both.proof",
               "verify log.seal both.cadf both.proof", "verify both.seal both.cadf cut.proof", "verify cut.seal absent.json both.proof",
               "verify --keys both.seal asked.keys asked.proof", "verify --keys --absent both.seal asked.keys asked.proof",
               "verify --keys both.seal cut.keys asked.proof", "verify --keys both.seal asked.keys both.proof",
               "verify --keys log.seal asked.keys asked.proof", "verify --keys both.seal both.cadf asked.proof"],
        worked=["verify one.seal chains.cadf chains.proof"],
        large=["verify many.seal many.cadf many.proof"],
        limited=["verify one.seal one.cadf one.proof"],
        deep=["verify deep.seal deep.json deep.proof"],
    ),
    "sealed": Command(
        operands='FILE...', writes_pieces=True,
        small=["sealed log.json", "sealed both.cadf", "sealed both.1.cadf", "sealed changed.cadf", "sealed log.cadf other.json"],
        worked=["sealed one.cadf", "sealed ruled.cadf"],
        large=["sealed many.cadf"],
        limited=["sealed one.cadf"],
        deep=["sealed deep.cadf"],
    ),
    "growth": Command(
        operands='SEALED FILE...', writes_pieces=True,
        small=["growth log.sealed both.cadf", "growth both.sealed log.1.cadf", "growth log.sealed event.json log.cadf other.json",
               "growth log.sealed event.json", "growth log.sealed stranger.json", "growth log.sealed log.cadf stranger.json",
               "growth cut.sealed both.cadf", "growth log.erased both.cadf", "growth log.sealed absent.cadf"],
        worked=["growth one.sealed chains.cadf"],
        large=["growth log.sealed many.cadf"],
        limited=["growth two.sealed one.cadf", "growth two.sealed one.1.cadf"],
        deep=["growth no.sealed deep.cadf"],
    ),
    "grew": Command(
        operands='OLD NEW PROOF', writes_pieces=False,
        small=["grew log.seal both.seal both.growth", "grew log.seal both.seal both.growth --erased log.erased",
               "grew both.seal log.seal log.growth", "grew --erased log.erased both.seal log.seal log.growth",
               "grew both.seal log.seal both.growth", "grew log.seal both.seal cut.growth", "grew cut.seal both.seal both.growth",
               "grew log.seal both.seal both.growth --erased cut.erased", "grew log.seal absent.seal both.growth"],
        worked=["grew one.seal many.seal many.growth"],
        large=["grew log.seal many.seal many.growth"],
        limited=["grew two.seal one.seal one.growth --erased two.erased"],
        deep=["grew no.seal deep.seal deep.growth"],
    ),
    "omit": Command(
        operands='LIST FILE...', writes_pieces=True,
        small=["omit log.erased both.cadf", "omit log.erased both.1.cadf", "omit log.erased event.json log.json other.cadf",
               "omit log.erased event.json", "omit log.erased stranger.json", "omit log.erased changed.cadf", "omit cut.erased both.cadf",
               "omit log.sealed both.cadf", "omit log.erased absent.cadf"],
        worked=["omit one.erased conflict.cadf", "omit one.erased ruled.cadf"],
        large=["omit log.erased many.cadf"],
        limited=["omit two.erased one.cadf", "omit two.erased one.1.cadf"],
        deep=["omit no.erased deep.cadf"],
    ),
    "rule": Command(
        operands='LETTER KEY PLACE FILE...', writes_pieces=True,
        small=["rule E e2 1 both.cadf", "rule E e2 1 event.json log.json other.cadf",
               "rule P name 2 both.1.cadf", "rule E e1 2 both.cadf", "rule X e1 1 both.cadf"],
        worked=["rule E e1 1 conflict.cadf", "rule E e1 2 ruled.cadf"],
        limited=["rule E e7 1 one.cadf"],
        deep=["rule E e1 1 deep.cadf"],
    ),
    "rehearse": Command(
        operands='LOG SITES SCRIPT', writes_pieces=False,
        small=["rehearse g 3 plan.script", "rehearse g 2 plan.script", "rehearse g 3 bad.script",
               "rehearse g 3 absent.script"],
        limited=["rehearse g 2 plan.script"],
        deep=["rehearse g 2 deep.script"],
    ),
    "show": Command(
        operands='FILE...', writes_pieces=False,
        small=["show log.json", "show log.json event.json other.cadf", "show --conflicts log.cadf changed.cadf",
               "show --conflicts both.cadf", "show both.cadf", "show both.1.cadf", "show event.json",
               "show cut.json", "show absent.json", "show ."],
        worked=["show real.json", "show chains.cadf", "show conflict.cadf", "show --conflicts conflict.cadf",
                "show facts.cadf", "show --conflicts facts.cadf", "show ruled.cadf", "show --conflicts ruled.1.cadf"],
        large=["show many.json", "show --conflicts many.cadf"],
        limited=["show log.json", "show one.cadf", "show --conflicts both.cadf"],
        deep=["show deep.json", "show deeper.json", "show deep.cadf", "show deep.1.cadf"],
    ),
    "check": Command(
        operands='FILE...', writes_pieces=False,
        small=["check log.json", "check log.json other.cadf", "check event.json log.cadf absent.cadf",
               "check log.json stranger.json", "check both.cadf", "check changed.cadf", "check cut.cadf", "check longer.cadf",
               "check short.cadf", "check both.1.cadf", "check changed.1.cadf", "check cut.1.cadf",
               "check unended.cadf", "check siblings.cadf"],
        worked=["check conflict.cadf"],
        large=["check many.cadf"],
        limited=["check one.cadf", "check one.1.cadf"],
        deep=["check deep.cadf", "check deep.1.cadf"],
    ),
    "help": Command(
        small=["--help", "join --help", "--version", "show", "shows log.json"],
        limited=["--help"],
    ),
}
PIECES = [name for name, command in COMMANDS.items() if command.writes_pieces]


def lines(kind, listed):
    """The command lines of one kind, of those commands that are listed."""
    return [line for name, command in COMMANDS.items() if name in listed for line in getattr(command, kind)]


def refused():
    """The command lines with a word too few, and with one too many where a command takes no list of files."""
    yield ""
    for name, command in COMMANDS.items():
        words = ["log.json" for _ in command.operands.split()]
        if words:
            yield " ".join([name] + words[1:])
        if words and not command.operands.endswith("..."):
            yield " ".join([name, "log.json"] + words)
