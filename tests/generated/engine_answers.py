"""What the driver of engines answers: generated command lines as calls of engines over memory, with readers and writers
that cut, readers whose bytes can be borrowed, and their answers by the second implementation.

Each of `KINDS` makes a driver's name, a call with its words and the fields of its answer.
"""
from tests.generated.generate import Case
from tests.reference.command import DIRECTORY, OPTIONS, Call, Usage, answer
from tests.tables.engine_calls import CALLS

LARGEST = 20000  # bytes of a file; a larger one takes too many reads
LONGEST_PIECE = 9


def engine(call):
    """The name of the engine of a command line, and its own words: `run` of the request, where it has no call of its own on so
    many files."""
    is_several = call.command != b"join" and len(call.files) > (2 if call.again else 1)
    name = call.command.decode().replace("-", "_")
    name += "_keys" if call.of_keys else ""
    name = ("run_" if "run_" + name in CALLS and not is_several else "ask_") + name
    own = {
        b"join": lambda: [call.log or b""], b"rehearse": lambda: [call.log, call.sites], b"rule": lambda: call.ruling,
        b"split": lambda: [call.unit, call.log or b""], b"show": lambda: ["conflicts" if call.flag else "log"],
        b"verify": lambda: ["absent" if call.flag else "present"], b"grew": lambda: ["erased" if b"--erased" in call.given else "all"],
        b"missing": lambda: [call.senders] if is_several else [],
        b"sketch": lambda: [call.given.get(option, b"") for option in OPTIONS[b"sketch"]]}
    return name, own.get(call.command, lambda: [])()


def reader(content, piece):
    """The words of a reader, whose bytes can be borrowed if a piece has none; at a folder the first read fails."""
    return [b"", max(piece, 1), 1] if content is DIRECTORY else [content, piece, 0]


def called(case, pieces):
    """The call that the case's command line stands for, with its words and the fields of its answer, or None.

    Words that are refused before anything is read, and files that are not there, come to no engine."""
    wanted = answer(case.words, case.files)
    try:
        call = Call(case.words)
    except Usage:
        return None
    contents = [case.files.get(name) for name in call.files]
    if wanted.status == 2 or None in contents or any(one is not DIRECTORY and len(one) > LARGEST for one in contents):
        return None
    name, own = engine(call)
    words = [next(pieces), "never", 0, *own, *(word for one in contents for word in reader(one, next(pieces)))]
    if wanted.status == 0:
        return [name, *words], ["ok", wanted.output]
    return ["fault", name, *words], [wanted.status, wanted.error.decode()[len("cadf: "):-1]]


def engines(chance):
    """A call of an engine; those of the command's cases that come to none are left out."""
    pieces = iter(lambda: chance.randint(0, LONGEST_PIECE), -1)
    made = None
    while made is None:
        made = called(Case(chance.randrange(2 ** 32), 0), pieces)
    return ("engine", *made)

KINDS = [engines]
