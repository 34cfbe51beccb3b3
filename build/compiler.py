"""The calls of the kit's compiler and linker, as `rattle build --help` and `rattle-link --help` describe them.

`rt lib` keeps a crate's proofs for the next `rt check`, and passes them on to the crates above. Here a crate is proved from
scratch and its library has statements alone, as in `rt ci`: that takes less time and memory.
"""
import os

from build import record
from build.plan import listed, static_libraries

PROCESSORS = ["x86-64", "x86-64-v2", "x86-64-v3"]
TARGET = "x86_64-unknown-linux-gnu"


class Compiler:
    def __init__(self, top):
        self.top, self.kit = top, record.kit_folder(top)

    def library_of_kit(self, name):
        return os.path.join(self.kit, "rlibs", name + ".rlib")

    def proof(self, name, libraries, jobs, made):
        """The call that proves the crate and builds it. `libraries` has each crate below with its library."""
        words = [os.path.join(self.kit, "bin", "rattle"), "build", "--crate-name", name, self.root(name)]
        for used in ["std", *listed(self.top)[name]]:
            words += ["--extern", "%s=%s" % (used, libraries.get(used) or self.library_of_kit(used))]
        folders = {os.path.dirname(library) for library in libraries.values()}
        for folder in [os.path.join(self.kit, "rlibs"), *sorted(folders)]:
            words += ["-L", "dependency=" + folder]
        words += ["--antt-project", os.path.join(self.kit, "rattle", "logic", "antt-project.json")]
        words += ["--logic-built", os.path.join(self.kit, "logic_built"), "--links", name + "=", "--jobs", str(jobs)]
        return [*words, "-o", made]

    def check(self, name, libraries, jobs):
        """The call that proves the crate and makes nothing of it."""
        words = self.proof(name, libraries, jobs, "")
        return [words[0], "check", *words[2:-2], *(["--crate-type", "staticlib"] if name in static_libraries(self.top) else [])]

    def root(self, name):
        """The crate's root file, in its folder."""
        program = os.path.join("src", "main.rt")
        return program if os.path.exists(os.path.join(self.top, "crates", name, program)) else os.path.join("src", "lib.rt")

    def library(self, name, libraries, jobs, made):
        """The call that makes a library for other crates."""
        return [*self.proof(name, libraries, jobs, made), "--statements"]

    def code(self, name, libraries, jobs, made, processor):
        """The call that makes a program's object."""
        words = self.proof(name, libraries, jobs, made)
        return [*words, "--toolchain", os.path.join(self.kit, "toolchain"), "--backend", "llvm", "--cpu=" + processor]

    def archive(self, name, libraries, jobs, made, processor):
        """The call that makes a library for C."""
        return [*self.code(name, libraries, jobs, made, processor), "--crate-type", "staticlib"]

    def link(self, item, made):
        """The call that links a program's object."""
        words = [os.path.join(self.kit, "bin", "rattle-link"), "--target", TARGET, "--toolchain", os.path.join(self.kit, "toolchain")]
        return [*words, "-o", made, item, *(os.path.join(self.kit, "c", name) for name in ("libos_c.a", "liblibc_c.a"))]
