"""What a site, or any file that `cadf join` reads, holds, as atoms in their order. Of a folder that has an index few windows are read."""
import itertools
import subprocess

import cadf_logs
from cadf_keys import Windows, spelled
from cadf_plan import picked
from cadf_site import Folder, is_folder
from cadf_toolkit import check_end, check_written, naming_temporary, opened, started_cadf, temporary_folder

LONGEST_FIRST = 2 ** 14  # bytes in which a first line is looked for


def joined(inputs, *options, is_whole=None):
    """Yields the line of the log that the files name, and then the atoms of their union in their order, as cadf_logs.atoms has them."""
    with started_cadf(["join", *options], inputs, subprocess.PIPE) as child:
        first = child.stdout.readline(LONGEST_FIRST)
        if not first:
            check_end(child, child.stderr.read(), inputs)
        check_written("join", first)
        yield next(child.stdout, b"")
        try:
            yield from cadf_logs.atoms(child.stdout, is_whole)
        except (TypeError, ValueError):  # the text ends too soon, or is another program's
            child.stdout.close()
            check_end(child, child.stderr.read(), inputs)
            check_written("join", b"")
        check_end(child, child.stderr.read(), inputs)


def atoms_in(inputs, *options, is_whole=None):
    """Yields the atoms of open files together, in their order, as cadf_logs.atoms has them."""
    return itertools.islice(joined(inputs, *options, is_whole=is_whole), 1, None)


def held(name, wanted, damaged, keys=(), options=(), is_whole=None):
    """Yields the line of the log that a file or a folder names, and then what `wanted` yields of its atoms, those of a key in their order.

    Of a folder that has an index only those keys of events are read that have several bodies, or are these. `damaged` gets the parts that are left out.
    `is_whole` says of which keys more is read than values.
    """
    if not is_folder(name):
        with opened([name]) as inputs:
            atoms = joined(inputs, *options, is_whole=is_whole)
            yield next(atoms)
            yield from wanted(atoms)
        return
    with temporary_folder() as folder, naming_temporary(), Folder(name, damaged) as site:
        found = picked(site, keys, folder)
        if found:
            with opened(found.names) as inputs:
                yield found.head
                yield from wanted(atoms_in(inputs, *options, is_whole=is_whole))
            return

        def made(windows, _, inputs):
            atoms = atoms_in(inputs, *options, is_whole=is_whole)
            return list(wanted(atom for atom in atoms if atom[0] != "E" or not windows.common or spelled(atom[1]) not in windows.common))

        windows = Windows(name, cadf_logs.Range(None, None), folder, made)
        damaged.update(windows.damaged)
        yield windows.head
        yield from itertools.chain.from_iterable(windows.made.values())
        for names in windows.facts:
            with opened(names) as facts:
                yield from wanted(atoms_in(facts, *options, is_whole=is_whole))
