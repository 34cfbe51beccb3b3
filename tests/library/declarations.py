"""What the crate cadf_c exports, and what the header and the package for Python declare."""
import os
import re
import sys

from tests import TOP, text_of
from install import library_files

HEADERS, PYTHON = os.path.join(TOP, "bindings", "c"), os.path.join(TOP, "bindings", "python")
sys.path.insert(0, PYTHON)  # where the package cadf is

STRICT = ["-std=c11", "-O1", "-Wall", "-Wextra", "-Werror"]
# What an argument of Rattle's is in C, and what one of C's is by ctypes.
IN_C = {"Global": [], "bool": ["bool"], "u8": ["uint8_t"], "u64": ["uint64_t"], "&CadfBytes": ["const struct cadf_bytes *"],
        "&[CadfBytes]": ["const struct cadf_bytes *", "size_t"], "&mut [u8]": ["uint8_t *", "size_t"], "&mut usize": ["size_t *"],
        "i32": ["int"], "u32": ["uint32_t"]}
IN_PYTHON = {"bool": "c_bool", "uint8_t": "c_ubyte", "uint64_t": "c_ulong", "size_t": "c_ulong", "size_t *": "LP_c_ulong",
             "uint8_t *": "c_void_p", "const struct cadf_bytes *": "LP_Bytes"}


def exported():
    """Each function that the crate exports, with its arguments and its result as C has them."""
    for name, words, result in re.findall(r'(?s)pub extern "C" fn (\w+)\((.*?)\) -> (\w+)', text_of("crates", library_files.CRATE, "src", "lib.rt")):
        kinds = [re.sub(r"<.*?>", "", word.split(":")[1]).strip() for word in words.split(",") if ":" in word]
        yield name, [one for kind in kinds for one in IN_C[kind]], IN_C[result][0]


def declared():
    """The same of the header."""
    for result, name, words in re.findall(r"(?m)^(int|uint32_t) (cadf_\w+)\(([^)]*)\);", text_of("bindings", "c", "cadf.h")):
        kinds = [re.sub(r"\w+$", "", " ".join(word.split())).strip() for word in words.split(",") if word.strip() != "void"]
        yield name, kinds, result


def called():
    """The arguments of each function as the package for Python declares them, but for cadf_version."""
    from cadf import _library

    for name, kinds in _library.FUNCTIONS.items():
        yield "cadf_" + name, [kind.__name__ for kind in [*kinds, *_library.OUTPUT]]
