"""Debian packages. dpkg-deb packs them: they depend on the files, the fields and the time that are given, and on its release alone."""
import hashlib
import os
import subprocess
import tempfile

from install.contents import File, Link, write


def put_all(folder, files):
    """Puts the files below the folder, all with the permissions that they are given, whatever those of this call are."""
    for file in files:
        path = os.path.join(folder, file.place)
        os.makedirs(os.path.dirname(path), exist_ok=True)
        if isinstance(file, Link):
            os.symlink(file.name, path)
        else:
            write(path, file.content, file.mode)
    for at, _, _ in os.walk(folder):
        os.chmod(at, 0o755)


def package(fields, control, files, time):
    """The bytes of a package: the fields of its control file, what is beside that, and its files by their places under `/`.

    CalledProcessError: dpkg-deb refuses them. OSError: it isn't there, or the disk is full.
    """
    regular = sorted((file for file in files if isinstance(file, File)), key=lambda file: file.place.encode())
    sums = "".join("%s  %s\n" % (hashlib.md5(file.content).hexdigest(), file.place) for file in regular)
    with tempfile.TemporaryDirectory() as room:
        folder, made = os.path.join(room, "package"), os.path.join(room, "made.deb")
        put_all(folder, files)
        size = sum(-(-len(file.content) // 1024) for file in regular) + len(list(os.walk(folder)))  # KB: each folder is one
        text = "".join("%s: %s\n" % field for field in {**fields, "Installed-Size": size}.items())
        put_all(folder, [File("DEBIAN/control", 0o644, text.encode()), File("DEBIAN/md5sums", 0o644, sums.encode()),
                         *(file._replace(place="DEBIAN/" + file.place) for file in control)])
        subprocess.run(["dpkg-deb", "--root-owner-group", "-Zxz", "--build", folder, made], check=True, stdin=subprocess.DEVNULL,
                       stdout=subprocess.DEVNULL, env={"PATH": os.environ["PATH"], "SOURCE_DATE_EPOCH": str(time)})
        with open(made, "rb") as file:
            return file.read()
