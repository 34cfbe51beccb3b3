"""How long the texts of events are that `cadf show` writes, by the lines of replica files: before any of them is made.

A replica file has a step that many chains share once, and the text of an event has it in each of them: so a file of some
kilobytes can have an event of gigabytes. Of such an event the bodies are shown, which anybody may have added chains to, and all else
of it is counted. A body that is too long by itself is only counted too; beside others something stands in its place, so that
it contradicts them. A tool imports this as it imports cadf_toolkit, and uses `showable`.
"""
import contextlib
import hashlib
import json
import mmap
import operator
import os
import secrets
import tempfile
from typing import NamedTuple

from cadf_toolkit import DIFFERS, DONE, Input, cadf, say, whole_number

LARGEST_SHOWN = 2 ** 24  # bytes of an event's texts, unless more are allowed
SECOND, EVENTS, LETTER, KEY = b"CADF-REPLICA 2\n", b'\n[1,0,"E"]\n', b"\n[1,0,", b"\n[2,0,"
BODY, CHAINS = 3, 5  # depths of a body, and of what begins a chain, or is a tag or an attachment
SHORTEST = len(b'[5,1,"{}"]\n')  # bytes of a line of an event's facts
NO_EVENT = (ValueError, KeyError, IndexError, TypeError, RecursionError)
MOST_SAID = 100  # lines of events of which something is left out
BLOCK = 2 ** 20  # bytes that are copied at once
LEFT_OUT = "left out by --largest, %s: a body of " % secrets.token_hex(16)  # how the initiator begins of what stands in its place, and of no body that was sent


def add_largest(parser):
    """Has a tool take the option that says which events it leaves out."""
    parser.add_argument("--largest", metavar="BYTES", type=whole_number(1, 2 ** 50), default=LARGEST_SHOWN,
                        help="of an event whose texts have more bytes show only the bodies (default: %d)" % LARGEST_SHOWN)


class Long(NamedTuple):
    """An event whose texts are long: their bytes, the bodies' times, how many bodies there are, and how many bodies and other parts are left out."""
    size: int
    times: tuple
    bodies: int
    left_bodies: int
    left_parts: int

    def words(self, key):
        """What is said of it."""
        if self.left_bodies == self.bodies:
            return "the event " + key
        left = ["%d of %d bodies" % (self.left_bodies, self.bodies)] * bool(self.left_bodies)
        left += ["%d chains, tags and attachments" % self.left_parts] * bool(self.left_parts)
        return "%s of the event %s" % (" and ".join(left), key)


def tell_long(long):
    """Says what of which events was left out, by their keys. Returns the status."""
    for key, each in sorted(long.items())[:MOST_SAID]:
        say("left out %s, whose texts have %d bytes: give more by --largest, or have `cadf show` write it" % (each.words(key.decode()), each.size))
    if len(long) > MOST_SAID:
        say("left out something of %d events, whose texts are long" % len(long))
    return DIFFERS if long else DONE


def long_within(long, limits):
    """Those of some events of which a body is of a range of times."""
    return {key: each for key, each in long.items() if any(map(limits.has_time, each.times))}


def is_stand_in(event):
    """Whether an event is what stands in the place of a body that was left out."""
    return str(event.get("initiatorId")).startswith(LEFT_OUT)


@contextlib.contextmanager
def mapped(input):
    """The bytes of an input that is a replica file of format 2, which aren't read before they are looked at; none of another."""
    if input.first(len(SECOND)) != SECOND:
        yield b""
        return
    with mmap.mmap(input.file.fileno(), 0, access=mmap.ACCESS_READ) as data:
        yield data


def events_in(data, least=0):
    """Yields of each event in a replica file that has more bytes than that where its lines begin and end. Those that have fewer together are passed over at once."""
    place = data.find(EVENTS)
    if place < 0:
        return
    end = data.find(LETTER, place + 1)
    end = (end if end >= 0 else data.rfind(b"\nZ ")) + 1
    place = data.find(KEY, place, end) + 1
    while place:
        passed = data.rfind(KEY, place, min(place + least, end)) + 1
        after = passed or data.find(KEY, place, end) + 1
        if not passed and (after or end) - place > least:
            yield place, after or end
        place = after


def is_shown(body, most):
    """Whether a body by itself may be shown."""
    return len(body.encode("utf-8", "replace")) + len(",") <= most


def shown_of(lines, most):
    """What of an event's lines is long, if a body may have so many bytes: a Long that says what is left out of it once its texts have more."""
    total, before, times, left, parts = 0, {}, [], 0, 0
    for line in lines:
        depth, mark, text = json.loads(line)
        size = len(text.encode("utf-8", "replace")) + len(",")
        if depth == BODY:
            total += size
            times.append(json.loads(text)["eventTime"])
            left += not is_shown(text, most)
        elif depth >= CHAINS:
            before[depth] = size + (before[depth - 1] if depth > CHAINS else 0)
            total += before[depth] * mark
            parts += mark
    return Long(total, tuple(times), len(times), left, parts)


def long_events(inputs, most):
    """The events of which the files together may show more bytes than that, by their keys, as JSON texts.

    What fewer bytes of lines can't show isn't looked at: n lines of b bytes show at most n * b.
    """
    least, found = int((most * SHORTEST / max(1, len(inputs))) ** 0.5), {}
    for each in inputs:
        with mapped(each) as data:
            for begin, end in events_in(data, least):
                key, *lines = data[begin:end].splitlines()
                with contextlib.suppress(*NO_EVENT):  # which `cadf` refuses
                    before, shown = found.get(key[len(KEY) - 1:-1], Long(0, (), 0, 0, 0)), shown_of(lines, most)
                    found[key[len(KEY) - 1:-1]] = Long(*map(operator.add, before, shown))
    return {key: each for key, each in found.items() if each.size > most}


def stand_in(body):
    """The text of what stands in the place of a body that is left out: a body of its time, which says what is left out."""
    data = body.encode("utf-8", "replace")
    found = {"initiatorId": "%s%d bytes, %s" % (LEFT_OUT, len(data), hashlib.sha256(data).hexdigest()), "eventType": "activity"}
    found.update(dict.fromkeys(("action", "outcome", "targetId", "observerId"), "unknown"), eventTime=json.loads(body)["eventTime"])
    return json.dumps(found, sort_keys=True, separators=(",", ":"))


def bodies_of(lines, most):
    """The lines of the bodies among an event's that have at most so many bytes, and of what stands in the place of others; none if none has."""
    texts = {text: line for line in lines for depth, _, text in [json.loads(line)] if depth == BODY}
    found = {text: line for text, line in texts.items() if is_shown(text, most)}
    if found:
        apart = [stand_in(text) for text in texts if text not in found]
        found.update((text, b"[%d,1,%s]" % (BODY, json.dumps(text).encode())) for text in apart)
    return [found[text] for text in sorted(found, key=lambda text: text.encode("utf-8", "surrogatepass"))]


def shortened(input, keys, most):
    """A replica file of the facts of another, but of the events of these keys the bodies alone, as an input of its name."""
    file, hash_all = tempfile.TemporaryFile(), hashlib.sha256()

    def put(block):
        hash_all.update(block)
        file.write(block)

    def copy(data, begin, end):
        for place in range(begin, end, BLOCK):
            put(data[place:min(place + BLOCK, end)])

    with mapped(input) as data:
        others, changed = 0, []
        for begin, end in events_in(data):
            first, *lines = data[begin:end].splitlines()
            if first[len(KEY) - 1:-1] in keys:
                bodies = bodies_of(lines, most)
                changed.append((begin, end, b"".join(line + b"\n" for line in [first, *bodies]) if bodies else b""))
            else:
                others += 1
        if not (others or any(lines for *_, lines in changed)):
            changed = [(data.find(EVENTS) + 1, changed[-1][1], b"")]  # with the node above them
        at = 0
        for begin, end, lines in changed:
            copy(data, at, begin)
            put(lines)
            at = end
        copy(data, at, data.rfind(b"\nZ ") + 1)
    file.write(b"Z %s\n" % hash_all.hexdigest().encode())
    file.flush()
    return Input(input.name, file)


@contextlib.contextmanager
def showable(inputs, most):
    """The inputs for `cadf show`, with the bodies alone of events of which more bytes would be shown than that; and these, as `long_events` has them.

    Facts that several files have count once.
    """
    with contextlib.ExitStack() as files:
        large = [each for each in inputs if os.fstat(each.file.fileno()).st_size > most]
        long = long_events(inputs, most)
        if long and len(inputs) > 1 or any(each.first(len(SECOND)) != SECOND for each in large):
            file = files.enter_context(tempfile.TemporaryFile())
            cadf(["join"], inputs, file.fileno())
            inputs = [Input("the files together", file)]
            long = long_events(inputs, most)
        if long:
            inputs = [shortened(inputs[0], long, most)]
            files.enter_context(inputs[0].file)
        yield inputs, long
