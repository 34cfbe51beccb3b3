"""Finds and loads the shared library, and declares its functions."""
import ctypes
import os
from typing import Any, Dict, List, Optional

NAME = "libcadf.so.0"
VARIABLE = "CADF_LIBRARY"


class Bytes(ctypes.Structure):
    """An address and a length: `struct cadf_bytes`."""

    _fields_ = [("bytes", ctypes.c_char_p), ("length", ctypes.c_size_t)]


_INPUT: List[Any] = [ctypes.POINTER(Bytes)]
OUTPUT: List[Any] = [ctypes.c_void_p, ctypes.c_size_t, ctypes.POINTER(ctypes.c_size_t)]

# The arguments of each function, before those of the output.
FUNCTIONS: Dict[str, List[Any]] = {
    "show": [ctypes.c_bool, *_INPUT],
    "check": _INPUT,
    "join": [*_INPUT, ctypes.c_size_t, *_INPUT],
    "split": [*_INPUT * 2, ctypes.c_size_t, *_INPUT],
    "missing": _INPUT * 2,
    "missing_by": _INPUT * 2,
    "missing_by_sketch": _INPUT * 2,
    "sketch": [ctypes.c_uint64, ctypes.c_uint64, *_INPUT],
    "inventory": _INPUT,
    "seal": _INPUT,
    "prove": [ctypes.c_bool, *_INPUT * 2, ctypes.c_size_t],
    "verify": [ctypes.c_bool, ctypes.c_bool, *_INPUT * 3],
    "sealed": _INPUT,
    "growth": [*_INPUT * 2, ctypes.c_size_t],
    "grew": _INPUT * 4,
    "omit": [*_INPUT * 2, ctypes.c_size_t],
    "rule": [ctypes.c_uint8, *_INPUT, ctypes.c_uint64, *_INPUT],
    "rehearse": [*_INPUT, ctypes.c_uint64, *_INPUT],
}


def find(package: str = os.path.dirname(os.path.abspath(__file__))) -> str:
    """Returns the library to load: the one that CADF_LIBRARY names, the one in the package, or its name, for the loader.

    No other folder is looked into: one above the package may be a folder that others write to.
    """
    beside = os.path.join(package, NAME)
    return os.environ.get(VARIABLE) or (beside if os.path.exists(beside) else NAME)


def load(path: Optional[str] = None) -> ctypes.CDLL:
    """Loads the library and declares its functions. ImportError: there is none with all of them, in one line that says what to do."""
    try:
        library = ctypes.CDLL(path or find())
        for name, arguments in FUNCTIONS.items():
            function = getattr(library, "cadf_" + name)
            function.argtypes, function.restype = [*arguments, *OUTPUT], ctypes.c_int
        library.cadf_version.argtypes, library.cadf_version.restype = [], ctypes.c_uint32
    except (OSError, AttributeError, UnicodeError) as error:  # the last where the loader tells of a path that is no text
        raise ImportError("cadf: no library (%s): install it (build/library, install/install), or name it in the variable %s"
                          % (error, VARIABLE)) from None
    return library
