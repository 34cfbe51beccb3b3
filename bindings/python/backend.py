"""Builds the wheel and the source archive of the package, with nothing but Python.

The wheel carries the library that build/library made, if that is of the sources as they are: then it is for Linux on x86-64 with the C
library that this needs. Without one it is for any platform, and made only if a library is found here already (cadf/_library.py), or if
none is wanted: `pip install --config-settings library=none`. `pip install` needs no network: pyproject.toml names this module, and
nothing else is required.
"""
import ast
import base64
import gzip
import hashlib
import importlib.util
import io
import os
import re
import subprocess
import sys
import tarfile
import tempfile
import zipfile

HERE = os.path.dirname(os.path.abspath(__file__))
TOP = os.path.dirname(os.path.dirname(HERE))  # of the repository, if it is one
LIBRARY = "cadf/libcadf.so.0"
ASKED = re.compile(rb"\0GLIBC_(\d+)\.(\d+)(?=[.\d]*\0)")  # a version of the C library that a library names
OLDEST = 2, 5  # of which a wheel can have a tag
LACKING = """cadf: there is no library for the package: %s.
build/library makes it, and then this carries it; or install it (install/install, or the package libcadf0), or name it by CADF_LIBRARY.
For sites alone, which need none: pip install --config-settings library=none %s"""
# The same bytes each time: what is in a wheel has this time, the least that it can.
TIME = (1980, 1, 1, 0, 0, 0)


def _read(name):
    with open(os.path.join(HERE, name), "rb") as file:
        return file.read()


def _field(name):
    """A text of pyproject.toml's table `project`."""
    return re.search(r'(?m)^%s = (?:\[\{ name = )?"([^"]*)"' % name, _read("pyproject.toml").decode()).group(1)


def sources():
    """The files of the package."""
    names = sorted(os.listdir(os.path.join(HERE, "cadf")))
    return ["cadf/" + name for name in names if name.endswith((".py", ".typed"))]


def metadata():
    """What is said of the package, with the first text of its module as its description."""
    fields = "".join("%s: %s\n" % line for line in (
        ("Metadata-Version", "2.1"), ("Name", _field("name")), ("Version", _version()), ("Summary", _field("description")),
        ("Author", _field("authors")), ("Requires-Python", _field("requires-python")), ("Description-Content-Type", "text/plain")))
    return ("%s\n%s\n" % (fields, ast.get_docstring(ast.parse(_read("cadf/__init__.py"))))).encode()


def _version():
    return re.search(r'(?m)^__version__ = "([^"]*)"', _read("cadf/__init__.py").decode()).group(1)


def _tag(files):
    """The platforms of a wheel of these files: those with a C library that has all that the carried library asks of it."""
    if LIBRARY not in files:
        return "py3-none-any"
    asked = [(int(major), int(minor)) for major, minor in ASKED.findall(files[LIBRARY])]
    return "py3-none-manylinux_%d_%d_x86_64" % max([OLDEST, *asked])


def _name(kind=""):
    return "%s-%s%s" % (_field("name"), _version(), kind)


def _info(tag):
    """The files of the wheel's folder of facts, without the list of all files."""
    pure = "true" if tag.endswith("any") else "false"
    wheel = "Wheel-Version: 1.0\nGenerator: cadf\nRoot-Is-Purelib: %s\nTag: %s\n" % (pure, tag)
    folder = _name(".dist-info/")
    return {folder + "METADATA": metadata(), folder + "WHEEL": wheel.encode()}


def _line(name, content):
    """The line of a file in the list of all files."""
    digest = base64.urlsafe_b64encode(hashlib.sha256(content).digest()).rstrip(b"=").decode()
    return "%s,sha256=%s,%d\n" % (name, digest, len(content))


def _write_wheel(folder, files):
    """Writes the wheel of these files. Returns its name."""
    tag = _tag(files)
    files = {**files, **_info(tag)}
    name, record = "%s-%s.whl" % (_name(), tag), _name(".dist-info/RECORD")
    listed = "".join(_line(*file) for file in files.items()) + "%s,,\n" % record
    with zipfile.ZipFile(os.path.join(folder, name), "w", zipfile.ZIP_DEFLATED) as archive:
        for place, content in {**files, record: listed.encode()}.items():
            entry = zipfile.ZipInfo(place, TIME)
            entry.compress_type, entry.external_attr = zipfile.ZIP_DEFLATED, 0o644 << 16
            archive.writestr(entry, content)
    return name


def write_wheel(folder, library=None):
    """Writes the wheel of the package, with these bytes of the library, if there are any. Returns its name."""
    return _write_wheel(folder, {**{name: _read(name) for name in sources()}, **({LIBRARY: library} if library else {})})


def _built():
    """The library that build/library made of the sources as they are, linked. Raises OSError why there is none."""
    if not os.path.exists(os.path.join(TOP, "install", "library_files.py")):
        raise OSError("this isn't in the repository, where build/library would make it")
    sys.path.insert(0, TOP)
    sys.dont_write_bytecode = True
    from build.plan import Plan
    from install import library_files
    why = library_files.why_not(TOP, Plan(TOP, library_files.CRATE).names)
    if why:
        raise OSError(why)
    with tempfile.TemporaryDirectory() as folder:
        library_files.link(TOP, folder)
        with open(os.path.join(folder, library_files.SONAME), "rb") as file:
            return file.read()


def _is_here():
    """Whether the package will find a library at run time, as it does here."""
    found = importlib.util.spec_from_file_location("library", os.path.join(HERE, "cadf", "_library.py"))
    module = importlib.util.module_from_spec(found)
    found.loader.exec_module(module)
    try:
        module.load()
    except ImportError:
        return False
    return True


def build_wheel(wheel_directory, config_settings=None, metadata_directory=None):
    if (config_settings or {}).get("library") == "none":
        return write_wheel(wheel_directory)
    try:
        return write_wheel(wheel_directory, _built())
    except (OSError, subprocess.CalledProcessError, SystemExit) as why:  # the last where the kit isn't there, whose allocator is linked
        if _is_here():
            return write_wheel(wheel_directory)
        sys.exit(LACKING % (why, HERE))


def build_editable(wheel_directory, config_settings=None, metadata_directory=None):
    return _write_wheel(wheel_directory, {"cadf.pth": (HERE + "\n").encode()})


def build_sdist(sdist_directory, config_settings=None):
    files = {name: _read(name) for name in ["pyproject.toml", "backend.py", *sources()]}
    packed = io.BytesIO()
    with tarfile.open(fileobj=packed, mode="w", format=tarfile.PAX_FORMAT) as archive:
        for place, content in {**files, "PKG-INFO": metadata()}.items():
            entry = tarfile.TarInfo(_name("/") + place)  # of no time and no owner
            entry.size = len(content)
            archive.addfile(entry, io.BytesIO(content))
    name = _name(".tar.gz")
    with open(os.path.join(sdist_directory, name), "wb") as file:
        file.write(gzip.compress(packed.getvalue(), mtime=0))
    return name
