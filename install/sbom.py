"""The bill of materials of the command, or of the static one, as SPDX 2.3: what is linked into it, under which licences, and what it runs with."""
import hashlib
import json
import time
from typing import NamedTuple

from build import record
from build.plan import Plan, listed

UNKNOWN = "NOASSERTION"
EITHER = "MIT OR Apache-2.0"


class Follows(NamedTuple):
    """The Rust crate that a library of the kit follows, and whose copyright it is, as the kit says."""
    crate: str
    version: str
    licence: str
    holder: str = ""


FOLLOWED = {
    "arrayvec": Follows("arrayvec", "0.7.8", EITHER, "2015-2023 Ulrik Sverdrup \"bluss\""),
    "clap": Follows("clap_builder", "4.6.7", EITHER, "Individual contributors"),
    "clap_lex": Follows("clap_lex", "1.1.1", EITHER, "Individual contributors"),
    "fast_float": Follows("fast-float2", "0.2.4", EITHER),
    "hex": Follows("hex", "0.4.3", EITHER, "2013-2014 The Rust Project Developers, 2015-2020 The rust-hex Developers"),
    "itoa": Follows("itoa", "1.0.18", EITHER),
    "jiff": Follows("jiff", "0.2.39", "Unlicense OR MIT", "2015 Andrew Gallant"),
    "jiff_core": Follows("jiff-core", "0.1.2", "Unlicense OR MIT", "2015 Andrew Gallant"),
    "memchr": Follows("memchr", "2.8.3", "Unlicense OR MIT", "2015 Andrew Gallant"),
    "serde_json": Follows("serde_json", "1.0.154", EITHER),
    "sha2": Follows("sha2", "0.11.1", EITHER, "2016-2026 The RustCrypto Project Developers, 2016 Artyom Pavlov, 2009-2013 Mozilla Foundation"),
    "strsim": Follows("strsim", "0.11.1", "MIT", "2015 Danny Guo, 2016 Titus Wormer, 2018 Akash Kurdekar"),
    "thiserror": Follows("thiserror", "2.0.21", EITHER),
}
WITH = {"clap": ["clap_lex", "strsim"]}  # what a library of the kit brings with it
OF_GCC, OF_C_LIBRARY = "GPL-3.0-or-later WITH GCC-exception-3.1", "LGPL-2.1-or-later"


class Linking(NamedTuple):
    """What the system's linker adds, and what the program runs with, each with its licence."""
    adds: dict
    needs: dict


SHARED = Linking({"GCC start-up code": OF_GCC, "GNU C Library start-up code": OF_C_LIBRARY}, {"GNU C Library": OF_C_LIBRARY, "Python": "PSF-2.0"})
STATIC = Linking({"GCC start-up code and support library": OF_GCC, "GNU C Library": OF_C_LIBRARY}, {})


def libraries(top, target=record.PROGRAM):
    """The names of the kit's libraries that are linked into the command, or into the library for C, in order."""
    uses = listed(top)
    found = {name for crate in Plan(top, target).names for name in uses[crate] if name not in uses}
    return sorted(found.union(*(WITH.get(name, []) for name in found)))


def copyright_lines(top, target):
    """The lines of Debian's copyright file on these libraries."""
    followed = [(name, FOLLOWED[name]) for name in libraries(top, target) if name in FOLLOWED]
    return "\n".join(" %s%s %s: %s, %s" % (name, "" if of.crate == name else " (%s)" % of.crate, of.version, of.licence.replace("OR", "or"),
                                           "copyright (c) " + of.holder if of.holder else "no holder named") for name, of in followed)


def package(name, licence, version=UNKNOWN, **more):
    """A part, as SPDX names it."""
    return {"SPDXID": "SPDXRef-" + "".join(each if each.isalnum() else "-" for each in name), "name": name, "versionInfo": version,
            "downloadLocation": UNKNOWN, "filesAnalyzed": False, "licenseConcluded": UNKNOWN, "licenseDeclared": licence,
            "copyrightText": UNKNOWN, **more}


def linked(top, kit, linking):
    """The parts that are linked into the command."""
    for name in libraries(top):
        of = FOLLOWED.get(name)
        comment = of and {"comment": "follows the Rust crate %s %s" % (of.crate, of.version), "copyrightText": of.holder or UNKNOWN}
        yield package("rattle/" + name, of.licence if of else UNKNOWN, kit, **(comment or {}))
    yield package("rattle/std", UNKNOWN, kit, comment="with core, io, os and libc of the toolchain")
    yield from (package(name, licence) for name, licence in linking.adds.items())


def text(top, static=None):
    """The document of the built command, or of the static one that has these bytes.

    It depends on the binary, its record, the sources and the commit's time alone.
    """
    built, linking = record.read(top), SHARED if static is None else STATIC
    binary = record.digest_of_file(record.binary(top)) if static is None else hashlib.sha256(static).hexdigest()
    said = record.answer([record.binary(top), "--version"], top).split()
    own = package("cadf", UNKNOWN, said[-1] if said else UNKNOWN, checksums=[{"algorithm": "SHA256", "checksumValue": binary}],
                  comment="commit %s, sources %s" % (record.commit(top), built.get("sources", "unknown")))
    parts = list(linked(top, built.get("kit") or UNKNOWN, linking))
    around = [package(name, licence) for name, licence in linking.needs.items()]
    relations = [("SPDXRef-DOCUMENT", "DESCRIBES", own), *((own["SPDXID"], "STATIC_LINK", part) for part in parts),
                 *((own["SPDXID"], "DEPENDS_ON", part) for part in around)]
    made = time.gmtime(int(record.answer(["git", "log", "-1", "--format=%ct"], top) or 0))
    content = {
        "spdxVersion": "SPDX-2.3", "dataLicense": "CC0-1.0", "SPDXID": "SPDXRef-DOCUMENT", "name": "cadf",
        "documentNamespace": "urn:cadf:sbom:" + hashlib.sha256((binary + own["comment"]).encode()).hexdigest(),
        "creationInfo": {"created": time.strftime("%Y-%m-%dT%H:%M:%SZ", made), "creators": ["Tool: cadf-install-sbom"]},
        "packages": [own, *parts, *around],
        "relationships": [{"spdxElementId": one, "relationshipType": kind, "relatedSpdxElement": other["SPDXID"]} for one, kind, other in relations],
    }
    return (json.dumps(content, indent=1) + "\n").encode()
