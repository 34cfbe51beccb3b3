"""install/package on copies of the tree, with the command that is built here and a stand-in for `rt`, which proves nothing."""
import gzip
import hashlib
import io
import json
import os
import re
import shutil
import subprocess
import tarfile

import pytest

from build import record
from build.plan import Plan
from install import contents, needs, sbom
from tests import TOP, tracked
from tests.machine import said
from tests.tools.programs import loaded

pytestmark = [pytest.mark.xdist_group("packages"), pytest.mark.needs("git", "dpkg-deb"), pytest.mark.timeout(600)]

COMMIT_TIME = 1700000000
RT = '#!/bin/sh\ncase $1 in version) echo stand-in ;; doc) echo "%s/START-HERE.md" ;; *) exit 1 ;; esac\n'
OWN = {"changelog.gz", "built", "copyright"}  # what Debian asks for, beside the files of the tree
OVERRIDES = "usr/share/lintian/overrides/cadf"
SCRIPTS = ("postinst", "prerm", "postrm")
# Bytes of machine code that happen to be letters, others with each build: no override fits each of them.
NO_TEXT = "spelling-error-in-binary"
# What surrounds the two copies: none of it may reach the package.
FIRST = {"TZ": "UTC", "LC_ALL": "C"}
SECOND = {"TZ": "Asia/Tokyo", "LC_ALL": "C.UTF-8", "GZIP": "-1", "XZ_OPT": "-0", "SOURCE_DATE_EPOCH": "1", "PYTHONHASHSEED": "7",
          "TAR_OPTIONS": "--mode=0777", "DPKG_DEB_COMPRESSOR_TYPE": "gzip"}
# Builds a container of the folder $0 and runs it, by the words that call buildah.
CONTAINER = '"$@" build --isolation chroot -q -t cadf "$0"; "$@" run --isolation chroot $("$@" from cadf) /cadf --version'
WITH_LIBM = """#include <math.h>
#include <stdio.h>
int main(int count, char **words) { return printf("cadf 0.1.%d\\n", (int)floor(count / 2.0)) < 0; }
"""


def git(tree, *words, time=COMMIT_TIME):
    values = {"NAME": "A Name", "EMAIL": "name@example.org", "DATE": "%d +0000" % time}
    named = {"GIT_%s_%s" % (who, name): value for who in ("AUTHOR", "COMMITTER") for name, value in values.items()}
    done = subprocess.run(["git", *words], cwd=tree, check=True, env={**os.environ, **named}, stdout=subprocess.PIPE)
    return done.stdout.decode().strip()


def put(path, data, mode=0o644):
    os.makedirs(os.path.dirname(path), exist_ok=True)
    with open(path, "wb") as file:
        file.write(data)
    os.chmod(path, mode)


def read(path):
    with open(path, "rb") as file:
        return file.read()


def has_object(binary):
    """Whether what the binary was linked from is there: `rt ci` leaves it only when it has proved the crate anew."""
    return os.path.exists(binary + ".o")


class Tree:
    """A copy of the tree, with a history and a built command."""

    def __init__(self, folder, binary):
        self.folder, self.out = folder, folder + ".out"
        self.processor = needs.processor(read(binary))
        put(record.binary(folder), read(binary), 0o755)
        put(record.object_file(folder), read(binary + ".o") if has_object(binary) else b"")
        self.write_record()

    def write_record(self):
        """Writes what build/command would write: the copy's command is that of its sources."""
        top, names = self.folder, Plan(self.folder, record.PROGRAM).names
        record.write(top, {"binary": record.digest_of_file(record.binary(top)), "object": record.digest_of_file(record.object_file(top)),
                           "sources": record.digest_of_sources(top, names), "commit": record.commit(top), "kit": "stand-in",
                           "processor": self.processor})

    def pack(self, *words, **environment):
        """What install/package answers: its status, all that it said, and the names of what it made."""
        shutil.rmtree(self.out, ignore_errors=True)
        path = os.path.join(os.path.dirname(self.folder), "bin") + os.pathsep + os.environ["PATH"]
        command = [os.path.join(self.folder, "install", "package"), "--cpu", self.processor, *words, self.out]
        done = said(*command, env={**os.environ, "PATH": path, **environment})
        made = sorted(os.listdir(self.out)) if os.path.isdir(self.out) else []
        return (*done, [os.path.join(self.out, name) for name in made])

    def packed(self, *words, **environment):
        """The files that install/package makes."""
        status, told, made = self.pack(*words, **environment)
        assert status == 0 and made, told
        return made

    def refuses(self, why):
        """Expects that nothing is made, for that reason."""
        status, told, made = self.pack()
        assert (status, made) == (1, []) and why in told, told


def first_tree(folder, binary):
    """The files of this tree as they are now, committed in a copy."""
    tree = os.path.join(folder, "first")
    for name in tracked():
        put(os.path.join(tree, name), read(os.path.join(TOP, name)), os.stat(os.path.join(TOP, name)).st_mode & 0o777)
    for words in (["init", "-q"], ["add", "."], ["commit", "-qm", "Begin"]):
        git(tree, *words)
    return Tree(tree, binary)


def clone(tree, name, binary, *words):
    """A clone of a tree, with the built command."""
    folder = os.path.join(os.path.dirname(tree.folder), name)
    git(tree.folder, "clone", "-q", *words, "file://" + tree.folder, folder)
    return Tree(folder, binary)


def packed_twice(first, second, *words):
    """Expects that both trees make the same files. Returns their paths in the folder of both."""
    made = first.packed(*words, **FIRST)
    before = os.umask(0o077)
    others = second.packed(*words, **SECOND)
    os.umask(before)
    assert [(os.path.basename(path), read(path)) for path in made] == [(os.path.basename(path), read(path)) for path in others]
    return [shutil.copy2(path, os.path.dirname(first.folder)) for path in made]


def archived(package, part):
    """The files of a part of the package, by place, with their modes and contents. Each entry has to be of root and of the commit's time."""
    data, found = subprocess.run(["dpkg-deb", "--%s-tarfile" % part, package], check=True, stdout=subprocess.PIPE).stdout, {}
    with tarfile.open(fileobj=io.BytesIO(data)) as archive:
        for entry in archive:
            assert (entry.uid, entry.gid, entry.uname, entry.gname, entry.mtime) == (0, 0, "root", "root", COMMIT_TIME), entry.name
            if not entry.isdir():
                found[entry.name[2:]] = entry.mode, archive.extractfile(entry).read()
            assert not entry.isdir() or entry.mode == 0o755, entry.name
    return found


def stand_in(folder):
    """A kit that proves nothing. What the static command is linked with is the real one's."""
    put(os.path.join(folder, "bin", "rattle"), b"#!/bin/sh\nexit 1\n", 0o755)
    os.symlink(os.path.join(record.kit_folder(TOP), "c"), os.path.join(folder, "c"))


@pytest.fixture(scope="module")
def first(cadf, tmp_path_factory):
    """A copy of the tree, beside a stand-in for the kit."""
    folder = str(tmp_path_factory.mktemp("packages"))
    stand_in(os.path.join(folder, "kit"))
    put(os.path.join(folder, "bin", "rt"), (RT % os.path.join(folder, "kit")).encode(), 0o755)
    return first_tree(folder, cadf)


@pytest.fixture(scope="module")
def second(first, cadf):
    """Another copy, on a file system where each file may be run."""
    tree = clone(first, "the second, elsewhere", cadf)
    git(tree.folder, "config", "core.fileMode", "false")
    for name in git(tree.folder, "ls-files").splitlines():
        os.chmod(os.path.join(tree.folder, name), 0o755)
    return tree


@pytest.fixture(scope="module")
def package(first, second):
    """The package, made twice: in other folders, zones and languages and with other permissions, with the same bytes."""
    made, = packed_twice(first, second)
    return made


@pytest.fixture
def copy(first, cadf, request):
    """A clone of its own."""
    return clone(first, request.node.name, cadf)


def test_contents(package, first):
    """The package has the files of install/contents.py and its own, with the sums that it tells, and the scripts of install/debian."""
    files, told = archived(package, "fsys"), archived(package, "ctrl")
    wanted_sums = "".join("%s  %s\n" % (hashlib.md5(files[place][1]).hexdigest(), place) for place in sorted(files))
    assert told.pop("md5sums") == (0o644, wanted_sums.encode())
    assert told.pop("control")[0] == 0o644
    assert told == {name: (0o755, read(os.path.join(TOP, "install", "debian", "cadf." + name))) for name in SCRIPTS}
    for file in contents.files(first.folder):
        place = "usr/" + file.place.replace("share/zsh/site-functions", "share/zsh/vendor-completions")
        is_page = file.place.startswith("share/man/")
        mode, data = files.pop(place + ".gz" * is_page, (0, b""))
        assert (mode, gzip.decompress(data) if is_page else data) == (file.mode, file.content), place
    assert set(files) == {OVERRIDES, *("usr/share/doc/cadf/" + name for name in OWN)}


def test_units(package):
    """The units are where systemd finds them, and nothing enables one; what they need beside is there too."""
    files = archived(package, "fsys")
    units = {name.rsplit("/", 1)[1] for name in files if name.startswith("usr/lib/systemd/system/")}
    assert units == {name for name in os.listdir(os.path.join(TOP, "examples", "systemd")) if name.endswith((".service", ".timer"))}
    assert {"usr/lib/sysusers.d/cadf.conf", "usr/lib/tmpfiles.d/cadf.conf"} <= set(files)
    assert not [name for name in files if ".wants/" in name or name.startswith("etc/")]


@pytest.mark.needs("readelf")
def test_depends(package, cadf):
    """It depends on the C library from the version on that the command asks for."""
    asked = subprocess.run(["readelf", "-VW", cadf], check=True, stdout=subprocess.PIPE, universal_newlines=True).stdout
    versions = [tuple(map(int, text.split("."))) for text in re.findall(r"Name: GLIBC_(\d+\.\d+)", asked)]
    told = archived(package, "ctrl")["control"][1].decode()
    assert re.search(r"libc6 \(>= (\d+\.\d+)\)", told).group(1) == "%d.%d" % max(versions)


def linked_libraries(folder):
    """The libraries of the kit that crates.txt gives the command's crates."""
    needed = Plan(folder, record.PROGRAM).names
    with open(os.path.join(folder, "crates.txt"), encoding="utf-8") as file:
        lines = [line.split(":") for line in file if ":" in line and not line.startswith("#")]
    return {word for name, words in lines if name.strip() in needed for word in words.split()} - needed


def test_copyright(package, first):
    """The copyright file names each library of the kit that the command needs."""
    told = archived(package, "fsys")["usr/share/doc/cadf/copyright"][1].decode()
    assert linked_libraries(first.folder) - set(told.replace(",", " ").replace(":", " ").split()) == set()
    assert "@" not in told


def check_materials(data, binary, folder, linked, needed):
    """Expects a bill of materials with the binary's own digest, each library of the kit, what else is linked, and what it runs with."""
    told = json.loads(data)
    parts = {part["name"]: part for part in told["packages"]}
    assert (told["spdxVersion"], parts["cadf"]["checksums"]) == ("SPDX-2.3", [{"algorithm": "SHA256", "checksumValue": record.digest_of_file(binary)}])
    assert {"rattle/" + name for name in linked_libraries(folder)} <= set(parts)
    found = {(relation["relationshipType"], relation["relatedSpdxElement"]) for relation in told["relationships"]}
    assert {("STATIC_LINK", parts[name]["SPDXID"]) for name in linked} | {("DEPENDS_ON", parts[name]["SPDXID"]) for name in needed} <= found
    assert [kind for kind, _ in found].count("DEPENDS_ON") == len(needed)
    assert len({part["SPDXID"] for part in told["packages"]}) == len(told["packages"])
    known = {part["SPDXID"] for part in told["packages"]} | {"SPDXRef-DOCUMENT"}
    assert all({relation["spdxElementId"], relation["relatedSpdxElement"]} <= known for relation in told["relationships"])
    assert {relation["relatedSpdxElement"] for relation in told["relationships"]} == known - {"SPDXRef-DOCUMENT"}


def test_materials(package, first, cadf):
    """The package has the bill of materials of its command."""
    data = archived(package, "fsys")["usr/share/doc/cadf/sbom.spdx.json"][1]
    check_materials(data, cadf, first.folder, ["GCC start-up code", "GNU C Library start-up code"], ["GNU C Library", "Python"])


def test_versions_of_materials():
    """The kit's page of a library, or of the one that brings it, says which version of a Rust crate it follows, and no older one."""
    for name, of in sbom.FOLLOWED.items():
        bringing = [library for library, brought in sbom.WITH.items() if name in brought]
        pages = [os.path.join(record.kit_folder(TOP), "rattle", library, "README.md") for library in (name, *bringing)]
        told = "".join(read(page).decode() for page in pages if os.path.exists(page))
        assert re.search(r"\b%s`? %s\b" % (re.escape(of.crate), re.escape(of.version)), told), name


@pytest.mark.needs("lintian")
def test_lintian(package):
    """lintian has no remark."""
    status, told = said("lintian", "-I", "-E", "--pedantic", "--suppress-tags", NO_TEXT, package)
    assert ([line for line in told.splitlines() if line[1:2] == ":" and line[0] != "N"], status) == ([], 0), told


def test_what_is_made_is_no_change(tmp_path, monkeypatch):
    """Nor what a killed run leaves, which the next one takes away: the folder may be the top, and a tree with changes isn't packed."""
    def killed(*_):
        raise KeyboardInterrupt

    program, folder = loaded(os.path.join(TOP, "install", "package")), str(tmp_path)
    git(folder, "init", "-q")
    put(os.path.join(folder, ".gitignore"), read(os.path.join(TOP, ".gitignore")))
    program.put(folder, "cadf-0.1-amd64-static", b"x", 0o755)
    program.put(folder, "cadf-0.1-amd64-static.spdx.json", b"x", 0o644)
    with monkeypatch.context() as patched, pytest.raises(KeyboardInterrupt):
        patched.setattr(os, "replace", killed)
        program.put(folder, "cadf_0.1_amd64.deb", b"x", 0o644)
    assert len(os.listdir(folder)) == 5 and git(folder, "status", "--porcelain") == "?? .gitignore"
    program.put(folder, "cadf_0.2_amd64.deb", b"x", 0o644)
    made = ["cadf-0.1-amd64-static", "cadf-0.1-amd64-static.spdx.json", "cadf_0.2_amd64.deb"]
    assert sorted(os.listdir(folder)) == [".git", ".gitignore", *made] and git(folder, "status", "--porcelain") == "?? .gitignore"


def test_stray_file(copy):
    put(os.path.join(copy.folder, "stray"), b"")
    copy.refuses("not as it was committed")


def test_changed_file(copy):
    put(os.path.join(copy.folder, "README.md"), b"changed\n")
    copy.refuses("not as it was committed")


def test_history_cut_off(first, cadf):
    clone(first, "shallow", cadf, "--depth=1").refuses("the history is cut off")


def test_no_history(copy):
    shutil.rmtree(os.path.join(copy.folder, ".git"))
    copy.refuses("not a git repository")


@pytest.mark.needs("gcc")
def test_other_command(copy):
    """A command that is not what was built; one that needs what no package has; one for another processor."""
    source = copy.folder + ".c"
    put(source, WITH_LIBM.encode())
    subprocess.run(["gcc", "-o", record.binary(copy.folder), source, "-lm"], check=True)
    copy.refuses("build/command failed")  # the stand-in proves nothing
    copy.processor = needs.LOWEST
    copy.write_record()
    copy.refuses("usr/bin/cadf needs libm.so.6")


def test_other_processor(copy):
    copy.processor = "x86-64-v3"
    copy.write_record()
    copy.refuses("usr/bin/cadf was made for ")


@pytest.mark.needs("dpkg")
def test_versions(copy):
    """Versions rise from commit to commit, before a tag, at it and after it, also by a clock that goes back."""
    found, number = [], record.answer([record.binary(copy.folder), "--version"], copy.folder).split()[1]
    for tag in (None, None, "v" + number, None, None):
        git(copy.folder, "commit", "-q", "--allow-empty", "-m", "Go on", time=COMMIT_TIME - len(found))
        if tag:
            git(copy.folder, "tag", tag)
        found.append(os.path.basename(copy.packed()[0])[len("cadf_"):-len("_amd64.deb")])
    for lower, higher in zip(found, found[1:]):
        assert subprocess.run(["dpkg", "--compare-versions", lower, "lt", higher], check=False).returncode == 0, found


@pytest.fixture(scope="module")
def made_static(first, second, cadf):
    """The static command and its bill of materials, made twice."""
    if not has_object(cadf):
        pytest.skip("object: what the command was linked from isn't there")
    return packed_twice(first, second, "--static")


@pytest.fixture(scope="module")
def static(made_static):
    return made_static[0]


def tells_version(static, *words):
    """Expects that a call ends well with the version."""
    status, told = said(*words)
    assert status == 0 and told.endswith("cadf %s\n" % os.path.basename(static)[len("cadf-"):].split("~")[0]), told


def skip_unless(*words):
    """Skips a test where the program may not do what the words say."""
    if said(*words)[0]:
        pytest.skip("%s isn't allowed" % words[0])


def test_static_materials(made_static, first):
    """The bill of materials beside the static command has the C library among what is linked, and nothing that it runs with."""
    static, bill = made_static
    assert bill == static + ".spdx.json"
    check_materials(read(bill), static, first.folder, ["GCC start-up code and support library", "GNU C Library"], [])


def test_static(static, tmp_path):
    """It needs no library, and runs where `install` puts it."""
    assert list(needs.libraries(read(static))) == []
    assert said("install", static, tmp_path / "cadf")[0] == 0
    tells_version(static, tmp_path / "cadf", "--version")


@pytest.mark.needs("bwrap")
def test_static_alone(static):
    """It runs in a folder that has no other file."""
    skip_unless("bwrap", "--unshare-all", "--ro-bind", "/", "/", "true")
    tells_version(static, "bwrap", "--unshare-all", "--ro-bind", static, "/cadf", "/cadf", "--version")


@pytest.mark.needs("buildah")
def test_container(static, tmp_path):
    """It runs in a container of three lines."""
    buildah = ["buildah", "--root", tmp_path / "images", "--runroot", tmp_path / "run", "--storage-driver", "vfs"]
    skip_unless(*buildah, "from", "scratch")
    context = tmp_path / "context"
    context.mkdir()
    shutil.copy2(static, context)
    shutil.copy2(os.path.join(TOP, "examples", "Containerfile"), context)
    tells_version(static, "sh", "-ec", CONTAINER, context, *buildah)
