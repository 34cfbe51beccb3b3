"""The library for C: its archive, what is linked of it, and the files of it that are installed.

The archive that is installed has the kit's allocator in it, so `-lcadf` alone links; it and the shared library show
`cadf_*` and nothing else. build/library makes the archive that both are linked of.
"""
import os
import re
import runpy
import subprocess
import tempfile

from build import record
from install import contents

CRATE = "cadf_c"
BINDINGS, PACKAGE = "bindings/c", "bindings/python"
SONAME = "libcadf.so.0"
# What is linked: no relocation in the code, nothing left to find, and no symbol to bind later.
SHARED = ["-shared", "-Wl,-soname," + SONAME, "-Wl,-z,noexecstack", "-Wl,-z,text", "-Wl,-z,defs", "-Wl,-z,relro", "-Wl,-z,now"]


def archive(top):
    """What build/library makes."""
    return os.path.join(top, "crates", CRATE, "out", "lib%s.a" % CRATE)


def built(top):
    """The record of what the archive was made of."""
    return archive(top) + ".built"


def version(top):
    """The version of the package for Python, which is that of the library too."""
    with open(os.path.join(top, PACKAGE, "cadf", "__init__.py"), encoding="utf-8") as file:
        return re.search(r'(?m)^__version__ = "(.*)"$', file.read()).group(1)


def functions(top):
    """The names of the functions that the header declares."""
    with open(os.path.join(top, BINDINGS, "cadf.h"), encoding="utf-8") as file:
        return re.findall(r"(?m)^\w+ (cadf_\w+)\([^)]*\);", file.read())


def why_not(top, names):
    """Why the archive is not that of the sources as they are; None where it is."""
    found = record.read_file(built(top))
    if not os.path.exists(archive(top)) or not found:
        return "there is no %s" % os.path.relpath(archive(top), top)
    if found.get("archive") != record.digest_of_file(archive(top)):
        return "%s is not what build/library left there" % os.path.relpath(archive(top), top)
    if found.get("sources") != record.digest_of_sources(top, names):
        return "%s was built of other sources" % os.path.relpath(archive(top), top)
    return None


def link(top, folder):
    """Links libcadf.a and the shared library in the folder, by gcc and binutils. Raises CalledProcessError."""
    def run(*words):
        subprocess.run(words, cwd=folder, stdin=subprocess.DEVNULL, check=True)

    allocator = os.path.join(record.kit_folder(top), "c", "liblibc_c.a")
    run("ld", "-r", "-o", "cadf.o", "--whole-archive", archive(top), allocator)
    run("objcopy", "--wildcard", "--keep-global-symbol=cadf_*", "--remove-section=.comment", "cadf.o")
    run("ar", "rcsD", "libcadf.a", "cadf.o")
    script = "-Wl,--version-script," + os.path.join(top, BINDINGS, "cadf.map")
    run("gcc", *SHARED, script, "-o", SONAME, "cadf.o")
    run("strip", "--strip-unneeded", "--remove-section=.comment", SONAME)  # so it has no names but those that it shows
    os.remove(os.path.join(folder, "cadf.o"))


def run_time(top, made, lib="lib"):
    """Yields what a program needs that runs with the library, of a folder in which it was linked, by its place under the prefix."""
    shared = "libcadf.so." + version(top)
    yield contents.file_of(made, SONAME, "%s/%s" % (lib, shared))
    yield contents.Link("%s/%s" % (lib, SONAME), shared)


def development(top, made, lib="lib"):
    """Yields what is needed to compile one."""
    yield contents.file_of(made, "libcadf.a", lib + "/libcadf.a")
    yield contents.Link(lib + "/libcadf.so", SONAME)
    yield contents.file_of(top, BINDINGS + "/cadf.h", "include/cadf.h")
    facts = contents.file_of(top, BINDINGS + "/cadf.pc", lib + "/pkgconfig/cadf.pc")
    for mark, text in {"@UP@": up_from(lib), "@LIB@": lib, "@VERSION@": version(top)}.items():
        facts = facts._replace(content=facts.content.replace(mark.encode(), text.encode()))
    yield facts


def up_from(lib):
    """The way from the folder of pkg-config in that one to the prefix."""
    return "/".join([".."] * (lib.count("/") + 2))


def in_python(top, folder):
    """Yields the package for Python, in a folder of such packages, with what is said of it."""
    backend = runpy.run_path(os.path.join(top, PACKAGE, "backend.py"))
    for name in backend["sources"]():
        yield contents.file_of(top, "%s/%s" % (PACKAGE, name), "%s/%s" % (folder, name))
    yield contents.File("%s/cadf-%s.dist-info/METADATA" % (folder, version(top)), 0o644, backend["metadata"]())


def files(top):
    """Yields what is installed of the library, by its place under the prefix."""
    with tempfile.TemporaryDirectory() as folder:
        link(top, folder)
        yield from run_time(top, folder)
        yield from development(top, folder)
    for name in contents.names_below(top, "bindings"):
        yield contents.file_of(top, name, "%s/%s" % (contents.DOC, name))


def wheel(top, folder):
    """Puts the wheel of the package for Python, with the shared library in it, into the folder at once. Returns its name.

    Raises CalledProcessError and OSError.
    """
    with tempfile.TemporaryDirectory() as room:
        link(top, room)
        library = contents.file_of(room, SONAME, "").content
        name = runpy.run_path(os.path.join(top, PACKAGE, "backend.py"))["write_wheel"](room, library)
        file = contents.file_of(room, name, os.path.join(folder, name))
    with contents.replacing(file.place, file.place + ".new"):
        contents.write(file.place + ".new", file.content, file.mode)
    return name
