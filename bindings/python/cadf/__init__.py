"""The engines of cadf over bytes, in the process; and sites, by the tools.

    >>> import cadf
    >>> a, b = '{"id":"g","events":[],"name":"a"}', '{"id":"g","events":[],"name":"b"}'
    >>> both = cadf.join([a, b])
    >>> cadf.check(both)
    Check(log='g', atoms=2, conflicts=1)

An input is a replica file, a log document or one event, as bytes or as a text. A `str` is always a text and never a path.
Each function returns what the command of its name writes, and raises a CadfError where the command refuses: Refused for an
input, WrongArgument for another argument, OutOfMemory. What is no input at all is a TypeError. The first call raises
ImportError if there is no library, or one that lacks a function.

A call releases the interpreter's lock while it works, and any number of threads may call. Don't call in the forked child of
a process that has threads: start multiprocessing's workers by `spawn` or `forkserver`.

A Site is a site's file or folder. It needs no library: each of its calls starts a tool.
"""
import ctypes
import json
import re
import sys
from typing import Any, Iterable, List, NamedTuple, Optional, Tuple

from . import _library
from ._errors import ERRORS, NO_MEMORY, CadfError, CadfWarning, Failed, OutOfMemory, Refused, WrongArgument
from ._inputs import Input, bytes_of as _of
from ._site import Conflicts, Event, Events, Site

__version__ = "0.1.0"
__all__ = ["CadfError", "CadfWarning", "Check", "Conflicts", "Event", "Events", "Failed", "OutOfMemory", "Refused", "Site", "WrongArgument",
           "check", "grew", "growth", "inventory", "join", "missing", "missing_by", "missing_by_sketch", "omit", "prove", "rehearse", "rule",
           "seal", "sealed", "show", "sketch", "split", "verify", "version"]

_CHECKED = re.compile(rb"ok (.*) atoms (\d+) conflicts (\d+)\n", re.DOTALL)
# What a call is given room for at first, beyond twice the size of its inputs.
_ROOM = 4096
_MOST_CELLS = 12_582_912
_loaded: Optional[ctypes.CDLL] = None
# Bytes of a length up to that of the largest object, whose contents the one who asked for them may still write.
_new_bytes = ctypes.PYFUNCTYPE(ctypes.py_object, ctypes.c_void_p, ctypes.c_ssize_t)(
    ("PyBytes_FromStringAndSize", ctypes.pythonapi))


class Check(NamedTuple):
    """What an input holds: its log, the number of its facts, and the number of keys with several values."""

    log: str
    atoms: int
    conflicts: int


def _given(value: bytes) -> _library.Bytes:
    """The address and the length of bytes, which have to live as long."""
    return _library.Bytes(value, len(value))


def _whole(value: int, name: str) -> int:
    """A number of 64 bits without a sign, by no method of a derived class either. Any other is handed on as 0, which the library refuses."""
    if isinstance(value, bool) or not isinstance(value, int):
        raise TypeError("%s is a whole number, not %s" % (name, type(value).__name__))
    value = int.__index__(value)
    return value if 0 <= value < 1 << 64 else 0


def _chosen(value: Optional[int], name: str) -> int:
    """A number of a sketch, 0 for none. One that no sketch has is handed on as 2, which the library refuses: 0 would be none."""
    return 0 if value is None else _whole(value, name) or 2


def _functions() -> ctypes.CDLL:
    """The library, loaded at the first call."""
    global _loaded
    if _loaded is None:
        _loaded = _library.load()
    return _loaded


def _call(name: str, room: int, *arguments: Any) -> bytes:
    """The text that a function hands out, with so much room at first or, where that is too little, with as much as it takes.

    The library writes into the bytes that are returned. They are copied only where there was more room.
    """
    function, length = getattr(_functions(), "cadf_" + name), ctypes.c_size_t()
    try:
        while True:
            text: bytes = _new_bytes(None, min(room, sys.maxsize))
            status = function(*arguments, text, room, ctypes.byref(length))
            if length.value <= room:
                break
            room, text = length.value, b""
        text = text[:length.value]
    except (MemoryError, OverflowError):
        raise OutOfMemory(NO_MEMORY) from None
    if status:
        raise ERRORS[status](text.decode("utf-8", "replace") or NO_MEMORY)
    return text


def _texts(inputs: Iterable[Input]) -> List[bytes]:
    """The bytes of each of several inputs."""
    if isinstance(inputs, (str, bytes, bytearray, memoryview)):
        raise TypeError("inputs is a list of inputs, not one input")
    try:
        return [_of(value) for value in inputs]
    except MemoryError:
        raise OutOfMemory(NO_MEMORY) from None


def _listed(texts: List[bytes]) -> Tuple[Any, int]:
    """An array of inputs, and their number. The array is never empty."""
    try:
        return (_library.Bytes * max(len(texts), 1))(*map(_given, texts or [b""])), len(texts)
    except MemoryError:
        raise OutOfMemory(NO_MEMORY) from None


def _if_any(value: Optional[Input]) -> bytes:
    """The bytes of what may be given: none for none. What is given without bytes is handed on as a control character, which is refused."""
    return b"" if value is None else _of(value) or b"\0"


def _room(*inputs: bytes) -> int:
    return _ROOM + 2 * sum(map(len, inputs))


def version() -> Tuple[int, int, int]:
    """Returns the version of the library: major, minor, patch."""
    number = _functions().cadf_version()
    return number >> 16, number >> 8 & 255, number & 255


def join(inputs: Iterable[Input], log: Optional[str] = None) -> bytes:
    """Returns the replica file of all inputs, under `log` or the first that an input names.

    Refused: an input is refused, is of another log, or none names a log. WrongArgument: `log` is no name. OutOfMemory.
    """
    texts, name = _texts(inputs), _if_any(log)
    return _call("join", _room(*texts), *_listed(texts), _given(name))


def split(by: str, inputs: Iterable[Input], log: Optional[str] = None) -> bytes:
    """Returns the split file of all inputs: a replica file for each window of time, with a digest of all of them.

    `by` is "month", "day" or "hour", in UTC. Refused: as by `join`. WrongArgument: `by` is no unit, or `log` no name.
    OutOfMemory.
    """
    unit, texts, name = _of(by), _texts(inputs), _if_any(log)
    return _call("split", _room(*texts), _given(unit), *_listed(texts), _given(name))


def missing(source: Input, target: Input) -> bytes:
    """Returns the delta: the replica file of what `target` lacks of `source`.

    Refused: one of them is refused, or they are of two logs. OutOfMemory.
    """
    texts = _of(source), _of(target)
    return _call("missing", _room(texts[0]), *map(_given, texts))


def missing_by(source: Input, inventory: Input) -> bytes:
    """Returns the delta for the holder of an inventory.

    Refused: `source` or the inventory is refused, or they are of two logs. OutOfMemory.
    """
    texts = _of(source), _of(inventory)
    return _call("missing_by", _room(texts[0]), *map(_given, texts))


def missing_by_sketch(source: Input, sketch: Input) -> bytes:
    """Returns the delta for the holder of what was sketched.

    Refused: `source` or the sketch is refused, they are of two logs, or the sketch has too few cells: the text says how many
    to ask for. OutOfMemory.
    """
    texts = _of(source), _of(sketch)
    return _call("missing_by_sketch", _room(texts[0]), *map(_given, texts))


def sketch(value: Input, cells: Optional[int] = None, salt: Optional[int] = None) -> bytes:
    """Returns the sketch file of an input: of 198 cells and with a salt that the input makes, if none are given.

    Refused: the input is refused. WrongArgument: `cells` is no multiple of 3 from 3 to 12,582,912, or `salt` no odd number of
    64 bits. OutOfMemory.
    """
    text, numbers = _of(value), (_chosen(cells, "cells"), _chosen(salt, "salt"))
    room = 81 * (numbers[0] or 198) if numbers[0] <= _MOST_CELLS else 0
    return _call("sketch", _ROOM + room, *numbers, _given(text))


def inventory(value: Input) -> bytes:
    """Returns the inventory file of an input: the SHA-256 digests of all its facts.

    Refused: the input is refused. OutOfMemory.
    """
    text = _of(value)
    return _call("inventory", _room(text), _given(text))


def seal(value: Input) -> bytes:
    """Returns the seal file of an input: its log, the number and the root of its facts, and those of their keys.

    Refused: the input is refused. OutOfMemory.
    """
    return _call("seal", _ROOM, _given(_of(value)))


def prove(facts: Input, inputs: Iterable[Input], keys: bool = False) -> bytes:
    """Returns the proof file, under the seal of all inputs, of which facts they have and which they don't.

    With `keys`, `facts` is a key file, and the proof is of which of its keys facts of the inputs have.

    Refused: `facts` or an input is refused, or is of another log, or no input names a log. `facts` is input 1. OutOfMemory.
    """
    asked, texts = _of(facts), _texts(inputs)
    return _call("prove", _ROOM + 4 * len(asked), bool(keys), _given(asked), *_listed(texts))


def verify(seal: Input, facts: Input, proof: Input, absent: bool = False, keys: bool = False) -> bytes:
    """Returns a line for each fact, with its digest: by the proof it is among what was sealed; with `absent` it isn't.

    With `keys`, `facts` is a key file, and each key is that of a fact among what was sealed, or of none.

    Refused: one of them is refused or of another log, there is no fact, a fact isn't as asked, or the proof doesn't show
    it, with its number in `place`. OutOfMemory.
    """
    texts = _of(seal), _of(facts), _of(proof)
    return _call("verify", _room(texts[1]), bool(keys), bool(absent), *map(_given, texts))


def sealed(value: Input) -> bytes:
    """Returns the sealed list of an input: the SHA-256 digests of all its facts, and of their keys.

    Refused: the input is refused. OutOfMemory.
    """
    text = _of(value)
    return _call("sealed", _room(text), _given(text))


def growth(listed: Input, inputs: Iterable[Input]) -> bytes:
    """Returns the proof of growth from what a sealed list has to all inputs.

    Refused: `listed` or an input is refused, or is of another log, or no input names a log. `listed` is input 1. OutOfMemory.
    """
    first, texts = _of(listed), _texts(inputs)
    return _call("growth", _room(first, *texts), _given(first), *_listed(texts))


def grew(old: Input, new: Input, proof: Input, erased: Optional[Input] = None) -> bytes:
    """Returns a line: how many facts were added between two seals, and with `erased` how many were erased.

    Refused: one of them is refused or of another log, the proof doesn't show how the one sealed set came of the other, or
    something is gone that an erased list doesn't have. OutOfMemory.
    """
    texts = _if_any(erased), _of(old), _of(new), _of(proof)
    return _call("grew", _ROOM, *map(_given, texts))


def omit(listed: Input, inputs: Iterable[Input]) -> bytes:
    """Returns the replica file of all inputs, without what an erased list has.

    Refused: `listed` or an input is refused, or is of another log, or no input names a log. `listed` is input 1. OutOfMemory.
    """
    first, texts = _of(listed), _texts(inputs)
    return _call("omit", _room(*texts), _given(first), *_listed(texts))


def show(value: Input, conflicts: bool = False) -> bytes:
    """Returns the log, or with `conflicts` the list of conflicts and rulings, as canonical JSON.

    Refused: the input is refused. OutOfMemory.
    """
    text = _of(value)
    return _call("show", _room(text), bool(conflicts), _given(text))


def check(value: Input) -> Check:
    """Returns what an input holds.

    Refused: the input is refused. OutOfMemory.
    """
    text = _of(value)
    found = _CHECKED.fullmatch(_call("check", _ROOM, _given(text)))
    assert found, "the library's line is another"
    return Check(json.loads(found[1]), int(found[2]), int(found[3]))


def rule(letter: str, key: str, place: int, value: Input) -> bytes:
    """Returns the input's replica file with a ruling more: the value at `place`, from 1, of the key is to be shown.

    `letter` is E for an event, R for a resource, G for a geolocation, M for a metric, P for a property. Refused: the input is
    refused, or has no such value. WrongArgument: `letter`, `key` or `place` is none. OutOfMemory.
    """
    kind, texts = _of(letter), (_of(key), _of(value))
    number = kind[0] if len(kind) == 1 else 0
    return _call("rule", _room(texts[1]), number, _given(texts[0]), _whole(place, "place"), _given(texts[1]))


def rehearse(log: str, sites: int, script: Input) -> bytes:
    """Returns a line for each site of the log after the schedule of a script.

    Refused: a line of the script is refused. WrongArgument: `log` is no name, or `sites` not 1 to 64. OutOfMemory.
    """
    texts = _of(log), _of(script)
    return _call("rehearse", _ROOM, _given(texts[0]), _whole(sites, "sites"), _given(texts[1]))
