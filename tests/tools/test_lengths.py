"""Which events of a replica file have more bytes than some, and where their lines are."""
import os
import random
import sys

from tests import TOP

sys.path.insert(0, os.path.join(TOP, "share", "cadf"))
from cadf_lengths import events_in


def test_events_with_more_bytes():
    chance = random.Random(1)
    for _ in range(400):
        events = [b'[2,0,"%d"]\n[3,1,"%s"]\n' % (number, b"x" * chance.choice((0, 1, 20, chance.randrange(200)))) for number in range(chance.randrange(12))]
        before = b'CADF-REPLICA 2\nL "a"\n' + b'[1,0,"E"]\n' * bool(events)
        data = before + b"".join(events) + chance.choice((b"", b'[1,0,"R"]\n[2,0,"q"]\n[3,1,"%s"]\n' % (b"z" * 99))) + b"Z 00\n"
        places = [(len(before) + sum(map(len, events[:number])), len(each)) for number, each in enumerate(events)]
        for least in 0, 1, 23, 60, 100, 1000:
            assert list(events_in(data, least)) == [(begin, begin + size) for begin, size in places if size > least]
