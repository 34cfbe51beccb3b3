"""What has to be read of a site that is a folder to answer a question, as its index names it.

A plan is of one moment: all its files are open before anything of them is shown, and stay open. Of keys that are in one window those
that may answer are read there, of many windows at a call of `cadf`. Of keys that are in several all facts are put together first.
"""
import contextlib
import functools
import json
import os
from collections import Counter

from cadf_index import KEY_BYTES, check_read, files_of, key_of, lines_at, located
from cadf_index_file import keep, planned
from cadf_keys import NODES, RULINGS, Windows, at_once, contents, keys_in, rulings_in, rulings_of, spelled
from cadf_logs import Range
from cadf_question import Pattern, Question
from cadf_site import CHANGED, SHARED, TRIES, opened_parts
from cadf_toolkit import Fault, grouped, most_files, opened

MOST_BYTES, MOST_FILES = 2 ** 22, 64  # that are shown at a call, of many windows
RECORDS = "records 1"  # the kind under which the index keeps where records of rulings are
OTHERS = 64  # files that are open beside those of a site


def lines_of(each, places):
    """Yields the lines at the places of keys in an open file, in the file's order."""
    return lines_at(each, sorted(places.values()))


def ruled_in(folder):
    """The keys of events on which an open folder has rulings, as an index has them."""
    with folder.leaving_out(SHARED), opened_parts(folder, [SHARED]) as (_, inputs):
        return {key_of(key) for (_, digest), each in inputs.items() for key, _ in rulings_in(contents(digest, each))}
    return set()


def keys_of(joined):
    """The keys that stand one after another."""
    return frozenset(joined[place:place + KEY_BYTES] for place in range(0, len(joined), KEY_BYTES))


class Plan(Windows):
    """The windows of a folder that may answer, in order of time, each with its keys, or None if all of it has to be shown.

    `counts` has what the index has counted, if that was asked, of events and of bodies that contradict, and of how many keys these are: all else is
    then of what it can't count, and of keys that are ruled on.
    """

    def __init__(self, folder, question, count_by, is_only_open, working, index, site):
        super(Windows, self).__init__(working)
        self.site_folder, self.damaged = folder, folder.damaged
        self.question, self.site, self.unit, self.head, self.split = question, site, site.unit, b"L %s\n" % site.log.encode(), ([], {})
        index.ask(question)
        is_narrow = bool(question.patterns.keys() - (set() if question.has_ids else {"id"}))
        self.keys, several, of_several, self.counts = {}, set(), index.keys_of_several(), None
        if count_by and question.is_indexed:
            shown = index.keys_unknown()
            apart = set().union(ruled_in(folder), *shown.values()) if of_several else set()
            self.counts = (Counter() if is_only_open else index.counts(count_by), *index.counts_of_several(count_by, apart))
            of_several = {part: keys & apart for part, keys in of_several.items()}
        for part in self.within(question.limits, self.windows_asked(index)):
            own = of_several.get(part, set())
            if self.counts is not None:
                keys = b"".join(own if is_only_open else own | shown.get(part, set()))
            elif is_only_open:
                keys = b"".join(own)
            else:
                keys = index.keys(part) if is_narrow else None
            if keys != b"":
                self.keys[part] = keys
                several |= own
        self.several = {key: index.windows_with(key) for key in several}
        self.apart = {key for key, parts in self.several.items() if len(parts) > 1}
        self.open = {part for parts in self.several.values() if len(parts) == 1 for part in parts}
        self.places, self.sizes = index.places(several), index.sizes()
        self.parts = [*([SHARED] if several else []), *sorted({*self.keys, *(part for part, _ in self.places)})]

    def windows_asked(self, index):
        """The windows that whole identifiers are in, if such are asked for; else all."""
        asked = self.question.patterns.get("id", ()) if self.question.has_ids else ()
        found = set().union(*(index.windows_with(key_of(spelled(each.text()))) for each in asked))
        return [part for part in self.site.parts() if part != SHARED and (part in found or not asked)]

    def take(self, inputs):
        """Takes the files of its parts, which are open, and puts together what has to be. Returns whether all of them could be read."""
        self.inputs, rulings, names, texts = {}, [], [], set()
        for (part, digest), each in inputs.items():
            self.inputs.setdefault(part, {})[digest] = each
        with self.site_folder.leaving_out(SHARED):
            for item in self.inputs.pop(SHARED, {}).items():
                data = contents(*item)
                place = data.find(RULINGS)
                rulings += [self.put([data[place + 1:]])] if place >= 0 else []
        for part in sorted({part for key in self.apart for part in self.several[key]}):
            with self.site_folder.leaving_out(part):
                check_read(self.inputs[part], self.sizes[part])
                for digest, each in self.inputs[part].items():
                    places = self.places.get((part, digest), {})
                    lines = list(lines_of(each, {key: place for key, place in places.items() if key in self.apart}))
                    texts.update(key for each in lines for key, _ in keys_in(b"\n" + each))
                    names += [self.put([NODES[1:], *lines])] if lines else []
        if not self.damaged.keys().isdisjoint(self.parts):
            return False
        self.common, self.rulings = frozenset(texts), self.joined(rulings)
        self.facts = list(self.common_facts(names))
        self.ruled_in = {}  # the keys that are in one window and have several bodies
        for key in (key for name in self.rulings for key, _ in rulings_of(name)):
            parts = self.several.get(key_of(key), ())
            if len(parts) == 1:
                self.ruled_in.setdefault(*parts, []).append(key)
        return True

    def calls(self, is_reversed):
        """Yields of each call of `cadf` that shows windows, in order, these, their files, those of their rulings, and whether they may have conflicts."""
        order = sorted(self.keys, reverse=is_reversed)
        for files, parts in self.groups(order):
            with opened(self.ruled_of(key for part in parts for key in self.ruled_in.get(part, ()))) as rulings:
                yield parts, files, rulings, not self.open.isdisjoint(parts)

    def groups(self, order):
        """Yields the files of each call, and the windows that they are of."""
        if self.question.has_ids and None in self.keys.values():
            for part in order:
                with self.site_folder.leaving_out(part):
                    for item in self.inputs[part].items():
                        contents(*item)  # a file that can't be read would end a program that maps it
                if part not in self.damaged:
                    yield list(self.inputs[part].values()), [part]
            return
        for group in grouped(self.of_keys(order), lambda item: os.path.getsize(item[1]), MOST_BYTES, MOST_FILES):
            with opened([name for _, name in group]) as files:
                yield files, [part for part, _ in group]
            for _, name in group:
                os.unlink(name)

    def of_keys(self, order):
        """Yields the names of files with all of those keys of each window that may answer, and with that of the window."""
        for part in order:
            keys = None if self.keys[part] is None else keys_of(self.keys[part])
            names = []
            with self.site_folder.leaving_out(part):
                is_placed = keys is not None and keys <= self.several.keys()
                if is_placed:
                    check_read(self.inputs[part], self.sizes[part])
                for digest, each in self.inputs[part].items():
                    if is_placed:
                        places = self.places.get((part, digest), {})
                        data = b"".join([b"\n", *lines_of(each, {key: places[key] for key in keys & places.keys()})])
                    else:
                        data = contents(digest, each)
                    lines = [lines for key, lines in keys_in(data) if self.may_answer(key, keys)]
                    names += [self.put([NODES[1:], *lines])] if lines else []
            if part not in self.damaged:
                yield from ((part, name) for name in names)

    def may_answer(self, key, keys):
        """Whether a key may answer that is in one window, whose keys may be narrowed to these."""
        found = key_of(key)
        return (keys is None or found in keys) and found not in self.apart and (self.question.has_ids or self.question.has_key(json.loads(key)))

    def passes_over(self, identifier):
        """Whether an event is one of the keys that are in several windows."""
        return bool(self.apart) and key_of(spelled(identifier)) in self.apart


@contextlib.contextmanager
def plan_of(folder, *words):
    """The plan for an open folder, whose files are open; None where there is no index, or the files are too many to be open."""
    for _ in range(TRIES):
        plan = planned(folder, functools.partial(Plan, folder, *words))
        if plan is None or 2 * sum(len(plan.site.digests(part)) for part in plan.parts) + OTHERS > most_files():
            yield None
            return
        with opened_parts(folder, plan.parts) as (now, inputs):
            if now.lines == plan.site.lines and plan.take(inputs):
                yield plan
                return
    raise Fault(CHANGED % folder.shown())


class Picked(Windows):
    """What a site has of those keys of events that have several bodies or are wanted, of records of rulings, and of no event, as `names` of replica files.

    Without records only the windows are opened that have such keys.
    """

    def __init__(self, wanted, with_records, working, index, site):
        super(Windows, self).__init__(working)
        self.site, self.head, self.names = site, b"L %s\n" % site.log.encode(), []
        several = index.several()
        self.places, self.sizes, self.keys = index.places(), index.sizes(), {}
        for key in wanted - several:
            for part in index.windows_with(key):
                self.keys.setdefault(part, set()).add(key)
        self.records, self.new = {}, {}  # where the lines of records are in windows, as was noted or is found; of each file a list
        if with_records:
            from cadf_rulings import ACTION
            index.ask(Question(Range(None, None), {"action": [Pattern(ACTION)]}))
            noted = index.kept(RECORDS)
            for part, digests in site.parts().items():
                own = keys_of(index.keys(part))
                known = places_noted(noted.get(files_of(digests)), digests) if own else {}
                if known is not None:
                    self.records[part] = known
                else:
                    self.new[part] = own, {digest: [] for digest in digests}
        self.parts = {part: digests for part, digests in site.parts().items() if with_records or part in {SHARED, *self.keys, *(part for part, _ in self.places)}}

    def take(self, folder):
        """Takes what it needs of the folder's files, of one part after another. Returns whether they are those that the index names, and could be read."""
        found, size, self.names = {}, 0, [self.put([])]
        for part, digests in self.parts.items():
            with folder.leaving_out(part), opened_parts(folder, [part]) as (_, inputs):
                folder.check(part)
                files = {digest: each for (_, digest), each in inputs.items()}
                if list(files) != digests:
                    return False
                check_read(files, self.sizes.get(part))
                for digest, each in files.items():
                    if part == SHARED:
                        self.names.append(self.put([contents(digest, each).split(b"\n", 2)[2]]))
                    for lines in self.lines_in(part, digest, each):
                        key, _ = next(keys_in(b"\n" + lines))
                        found.setdefault(key, []).append(lines)
                        size += len(lines)
            if size > MOST_BYTES:
                self.names += self.put_layers(found)
                found, size = {}, 0
        self.names += self.put_layers(found)
        self.names = self.names if len(self.names) <= at_once() else self.joined(self.names)
        keep(folder, RECORDS, {files_of(own): (json.dumps(own), self.sizes[part], 0) for part, (_, own) in self.new.items() if part not in folder.damaged})
        return folder.damaged.keys().isdisjoint(self.site.parts())

    def lines_in(self, part, digest, each):
        """Yields the lines of each key in a window's file. Where those of its records are is noted, so that it isn't read whole again for them."""
        yield from lines_of(each, self.places.get((part, digest), {}))
        yield from lines_at(each, self.records.get(part, {}).get(digest, ()))
        if part in self.keys or part in self.new:
            records, places = self.new.get(part, (frozenset(), {}))
            for key, lines, (_, begin, length, found) in located({digest: each}):
                stands = key_of(key)
                if stands in records:
                    places[digest].append((begin, length, found.hex()))
                if stands in records or stands in self.keys.get(part, ()):
                    yield lines


def places_noted(row, digests):
    """Where lines are in files, by digest, as a row of what is kept says; None if there is none, or it is of other files that had the same facts."""
    found = {} if row is None else {digest: [(begin, length, bytes.fromhex(own)) for begin, length, own in places] for digest, places in json.loads(row[0]).items()}
    return found if found.keys() == set(digests) else None


def picked(folder, keys, working, with_records=True):
    """What an open folder has of these keys of events, and of those that have several bodies: Picked, or None where there is no index."""
    wanted = {key_of(spelled(key)) for key in keys}
    for _ in range(TRIES):
        found = planned(folder, functools.partial(Picked, wanted, with_records, working))
        if found is None or found.take(folder):
            return found
    raise Fault(CHANGED % folder.shown())
