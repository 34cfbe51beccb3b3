"""install/package --library on a copy of the tree, with stand-ins for the command and for the library, which prove and do nothing."""
import io
import os
import re
import subprocess
import sys
import tarfile
import zipfile

import pytest

from build import record
from build.plan import Plan
from install import library_files, needs
from tests import TOP
from tests.library.declarations import STRICT, declared
from tests.machine import said
from tests.package.test_packages import COMMIT_TIME, FIRST, NO_TEXT, RT, archived, clone, first_tree, put, read, stand_in

pytestmark = [pytest.mark.xdist_group("packages"), pytest.mark.needs("git", "dpkg-deb", "gcc"), pytest.mark.timeout(600)]

COMMAND = '#include <stdio.h>\nint main(void) { puts("cadf 0.1.0"); return 0; }\n'
LIB, IN_PYTHON = "usr/lib/x86_64-linux-gnu/", "usr/lib/python3/dist-packages/"
NAMES = ["cadf", "libcadf-dev", "libcadf0", "python3-cadf"]
PROGRAM = '#include <cadf.h>\n#include <stdio.h>\nint main(void) { return printf("%d\\n", (int)cadf_version()) < 0; }\n'


def compiled(source, *words):
    put(words[-1] + ".c", source.encode())
    subprocess.run(["gcc", *STRICT, words[-1] + ".c", "-o", *reversed(words)], check=True)


def library_source():
    """A library whose functions do nothing, in version 0.1.0."""
    bodies = ("return 256;" if name == "cadf_version" else "return CADF_INPUT_REFUSED;" for name, _, _ in declared())
    heads = ("%s (%s)(%s)" % (result, name, ", ".join("%s a%d" % (kind, at) for at, kind in enumerate(kinds)) or "void") for name, kinds, result in declared())
    return '#include "cadf.h"\n' + "".join("%s { %s%s }\n" % (head, "".join("(void)%s; " % each for each in re.findall(r"\ba\d\b", head)), body)
                                           for head, body in zip(heads, bodies))


def put_library(tree, folder):
    """Has a copy of the tree look as build/library leaves it."""
    archive = library_files.archive(tree.folder)
    os.makedirs(os.path.dirname(archive), exist_ok=True)
    compiled(library_source(), "-c", "-fPIC", "-I" + os.path.join(TOP, "bindings", "c"), os.path.join(folder, "library.o"))
    subprocess.run(["ar", "rcsD", archive, os.path.join(folder, "library.o")], check=True)
    record.write_file(archive + ".built", {
        "archive": record.digest_of_file(archive), "commit": record.commit(tree.folder), "kit": "stand-in", "processor": tree.processor,
        "sources": record.digest_of_sources(tree.folder, Plan(tree.folder, library_files.CRATE).names)})


@pytest.fixture(scope="module")
def tree(tmp_path_factory):
    folder = str(tmp_path_factory.mktemp("library packages"))
    stand_in(os.path.join(folder, "kit"))
    put(os.path.join(folder, "bin", "rt"), (RT % os.path.join(folder, "kit")).encode(), 0o755)
    compiled(COMMAND, os.path.join(folder, "cadf"))
    tree = first_tree(folder, os.path.join(folder, "cadf"))
    put_library(tree, folder)
    return tree


@pytest.fixture(scope="module")
def packages(tree, tmp_path_factory):
    """The packages by their names, made twice with the same bytes."""
    made = tree.packed("--library", **FIRST)
    before = {os.path.basename(path): read(path) for path in made}
    assert {os.path.basename(path): read(path) for path in tree.packed("--library", TZ="Asia/Tokyo")} == before
    folder = tmp_path_factory.mktemp("made")
    for name, data in before.items():
        (folder / name).write_bytes(data)
    return {name.split("_")[0]: str(folder / name) for name in before}


def files_of(package):
    """The regular files of a package by their places, each of root and of the commit's time."""
    data, found = subprocess.run(["dpkg-deb", "--fsys-tarfile", package], check=True, stdout=subprocess.PIPE).stdout, {}
    with tarfile.open(fileobj=io.BytesIO(data)) as archive:
        for entry in archive:
            assert (entry.uid, entry.gid, entry.mtime) == (0, 0, COMMIT_TIME), entry.name
            if entry.isreg():
                found[entry.name[2:]] = archive.extractfile(entry).read()
    return found


def fields(package):
    text = archived(package, "ctrl")["control"][1].decode()
    return dict(re.findall(r"(?m)^([A-Z][\w-]+): (.*)$", text))


def test_names(packages):
    assert sorted(packages) == NAMES
    assert [packages[name].rsplit("_", 1)[1] for name in NAMES] == ["amd64.deb", "amd64.deb", "amd64.deb", "all.deb"]


def test_what_is_where(packages, tree):
    """Each file of the library is in one package, by Debian's places, beside what each package has."""
    own = {name: {"usr/share/doc/%s/%s" % (name, each) for each in ("changelog.gz", "built", "copyright")} for name in NAMES[1:]}
    own = {name: places | ({"usr/share/lintian/overrides/" + name} if os.path.exists(os.path.join(TOP, "install", "debian", name + ".lintian-overrides")) else set())
           for name, places in own.items()}
    found = {name: {line.split()[5][2:] for line in listed(packages[name]) if not line.startswith("d")} - own[name] for name in NAMES[1:]}
    number = library_files.version(tree.folder)
    assert found["libcadf0"] == {LIB + "libcadf.so.0", LIB + "libcadf.so." + number}
    assert found["libcadf-dev"] == {"usr/include/cadf.h", LIB + "libcadf.a", LIB + "libcadf.so", LIB + "pkgconfig/cadf.pc"}
    modules = {IN_PYTHON + "cadf/" + name for name in os.listdir(os.path.join(TOP, "bindings", "python", "cadf")) if not name.startswith("__pycache")}
    assert found["python3-cadf"] == modules | {IN_PYTHON + "cadf-%s.dist-info/METADATA" % number}


def listed(package):
    """What the package has, a line each."""
    return subprocess.run(["dpkg-deb", "-c", package], check=True, stdout=subprocess.PIPE, universal_newlines=True).stdout.splitlines()


def test_control(packages):
    """The packages need one another in the same version; the shared library says since when it has each function, and has ldconfig run."""
    found = {name: fields(packages[name]) for name in NAMES}
    version = found["cadf"]["Version"]
    assert {each["Version"] for each in found.values()} == {version} and version.startswith("0.1.0~")
    assert [found[name].get("Multi-Arch") for name in NAMES] == [None, "same", "same", None]
    assert found["libcadf-dev"]["Depends"] == "libcadf0 (= %s)" % version
    assert found["python3-cadf"]["Depends"] == "libcadf0 (= {0}), cadf (= {0}), python3:any (>= 3.9)".format(version)
    control = {name: data.decode() for name, (_, data) in archived(packages["libcadf0"], "ctrl").items()}
    symbols = control["symbols"].splitlines()
    assert symbols[:2] == ["libcadf.so.0 libcadf0 #MINVER#", "* Build-Depends-Package: libcadf-dev"]
    assert symbols[2:] == [" %s@Base 0.1.0~" % name for name in sorted(each for each, _, _ in declared())]
    assert (control["shlibs"], control["triggers"]) == ("libcadf 0 libcadf0 (>= 0.1.0~)\n", "activate-noawait ldconfig\n")
    assert subprocess.run(["dpkg", "--compare-versions", "0.1.0~", "le", version], check=False).returncode == 0


def test_copyright(packages):
    """What is linked into the library is named where it is, and not in the package for Python, which has no such part."""
    for name, place in (("libcadf0", LIB + "libcadf.so.0.1.0"), ("libcadf-dev", LIB + "libcadf.a")):
        told = files_of(packages[name])["usr/share/doc/%s/copyright" % name].decode()
        assert "\nFiles: %s\n" % place in told and "serde_json" in told and " clap" not in told and "@" not in told
    told = files_of(packages["python3-cadf"])["usr/share/doc/python3-cadf/copyright"].decode()
    assert told.count("\nFiles: ") == 1 and "@" not in told


@pytest.mark.needs("lintian")
def test_lintian(packages):
    """lintian has no remark on any."""
    status, told = said("lintian", "-I", "-E", "--pedantic", "--suppress-tags", NO_TEXT, *(packages[name] for name in NAMES[1:]))
    assert ([line for line in told.splitlines() if line[1:2] == ":" and line[0] != "N"], status) == ([], 0), told


@pytest.mark.needs("pkg-config")
def test_used(packages, tmp_path):
    """From where they are unpacked, a program is compiled by what pkg-config says and runs with the shared library; Python finds it too."""
    for name in NAMES[1:]:
        subprocess.run(["dpkg-deb", "-x", packages[name], tmp_path], check=True)
    environment = {**os.environ, "PKG_CONFIG_PATH": str(tmp_path / LIB / "pkgconfig"), "LD_LIBRARY_PATH": str(tmp_path / LIB),
                   "PYTHONPATH": str(tmp_path / IN_PYTHON), "PKG_CONFIG_ALLOW_SYSTEM_LIBS": "1", "PKG_CONFIG_ALLOW_SYSTEM_CFLAGS": "1"}
    flags = subprocess.run(["pkg-config", "--cflags", "--libs", "cadf"], check=True, stdout=subprocess.PIPE, env=environment).stdout.decode().split()
    (tmp_path / "try.c").write_text(PROGRAM)
    for words in ([], ["-static-pie"]):
        subprocess.run(["gcc", *words, "try.c", *flags, "-o", "try"], cwd=tmp_path, check=True)
        assert said(tmp_path / "try", env=environment) == (0, "256\n")
    program = "import cadf, importlib.metadata; print(cadf.version(), cadf.__file__, importlib.metadata.version('cadf') == cadf.__version__)"
    status, told = said(sys.executable, "-c", program, env=environment, cwd=tmp_path)
    assert (status, told) == (0, "(0, 1, 0) %s True\n" % (tmp_path / IN_PYTHON / "cadf/__init__.py"))


def test_pip_carries_what_is_built(tree, tmp_path):
    """In the repository the package is built with the library; with one of other sources it isn't, and says so."""
    words = ["-c", "import backend, sys; print(backend.build_wheel(sys.argv[1]))", str(tmp_path)]
    environment = {**os.environ, "PATH": os.path.join(os.path.dirname(tree.folder), "bin") + os.pathsep + os.environ["PATH"], "CADF_LIBRARY": "/nowhere",
                   "PYTHONDONTWRITEBYTECODE": "1"}
    status, told = said(sys.executable, *words, cwd=os.path.join(tree.folder, "bindings", "python"), env=environment)
    assert (status, told) == (0, "cadf-0.1.0-py3-none-manylinux_2_5_x86_64.whl\n")
    with zipfile.ZipFile(tmp_path / told.strip()) as wheel:
        assert needs.is_program(wheel.read("cadf/libcadf.so.0"))
    source = os.path.join(tree.folder, "crates", library_files.CRATE, "src", "lib.rt")
    before = read(source)
    put(source, before + b"// More.\n")
    status, told = said(sys.executable, *words, cwd=os.path.join(tree.folder, "bindings", "python"), env=environment)
    put(source, before)
    assert status == 1 and "was built of other sources" in told and "build/library makes it" in told, told


def test_without_a_library(tree):
    """One that isn't built isn't packed; without the word none is needed."""
    other = clone(tree, "without", record.binary(tree.folder))
    status, told, made = other.pack("--library")
    assert (status, made) == (1, []) and "build/library failed" in told, told
    assert [os.path.basename(path).split("_")[0] for path in other.packed()] == ["cadf"]
