#!/usr/bin/env python3
"""Times `cadf show` beside other programs on generated log documents.

    bench/show.py [--sizes 10,100] [--runs 5] [--conflicts] [BINARY ..]

BINARY is crates/cadf/out/cadf unless given; of several each is timed. With --conflicts two events each have one identifier, and
the conflict list is shown in place of the log. All programs run on the same file, in turn. The peers in Rust and C++
(bench/peer), which that with --conflicts has not, must write the same bytes; jq, node and orjson sort names and do no more, and
must write the same bytes as each other. Prints a table for each size: the least user time and the greatest memory of the runs.
"""
import os
import tempfile

from measure import asked, check_same_bytes, identifier_of, key_of, tell
from peer import rust, simdjson, sorters

AIMS = {10: {"jq": "0.20; 0.30"}, 100: {"jq": "0.24; 0.30"}}


def event(n, name):
    """An event as OpenStack's audit middleware writes it, its identifier from the name and its time from n."""
    key, ident = key_of(n), identifier_of(name)
    seconds = n % 86400
    stamp = "2014-02-%02dT%02d:%02d:%02d.%06d+0000" % (
        1 + n // 86400 % 28, seconds // 3600, seconds // 60 % 60, seconds % 60, n * 7919 % 1000000)
    return (
        '{"typeURI": "http://schemas.dmtf.org/cloud/audit/1.0/event", "eventType": "activity", "id": "%s", '
        '"eventTime": "%s", "action": "read/list", "outcome": "success", "observer": {"id": "target"}, '
        '"initiator": {"id": "user-%d", "typeURI": "service/security/account/user", "name": "demo", '
        '"host": {"address": "192.168.0.%d", "agent": "python-novaclient"}, "project_id": "%s"}, '
        '"target": {"id": "urn:uuid:%s", "typeURI": "service/compute/servers", "name": "nova"}, '
        '"requestPath": "/v2.1/servers/detail?marker=%d", "tags": ["correlation_id?value=%s"], '
        '"reason": {"reasonType": "HTTP", "reasonCode": "200"}, '
        '"reporterchain": [{"role": "modifier", "reporterTime": "%s", "reporter": {"id": "target"}}]}'
        % (ident, stamp, n % 997, n % 250, key[:32], key[32:], n, key[20:52], stamp))


def document(path, size, bodies):
    """A log document of that size, of which so many events each have one identifier."""
    with open(path, "w") as out:
        out.write('{"id": "openstack:audit", "events": [')
        written, n = 0, 0
        while written < size:
            text = (", " if n else "") + event(n, n // bodies)
            out.write(text)
            written += len(text)
            n += 1
        out.write("]}\n")
    return n


def main():
    options = asked(__doc__, sizes="10,100", runs=5, conflicts=False, binaries=True)
    shown = ["--conflicts"] if options.conflicts else []
    for size in map(int, options.sizes.split(",")):
        with tempfile.TemporaryDirectory() as folder:
            path = os.path.join(folder, "log.json")
            events = document(path, size * 1000000, 2 if options.conflicts else 1)
            ours = {binary if len(options.binaries) > 1 else "`cadf show`": [binary, "show", *shown, path] for binary in options.binaries}
            peers = {} if options.conflicts else {**rust("show"), **simdjson(folder)}
            others = {name: [*words, path] for name, words in sorters()}
            peers = {name: [*words, path] for name, words in peers.items()}
            check_same_bytes(others.values())
            check_same_bytes([*ours.values(), *peers.values()])
            aims = {"Rust by hand": "0.28", **AIMS.get(size, {})}
            tell("%d MB, %s events" % (size, format(events, ",")), ours, {**others, **peers}, options.runs, aims)


if __name__ == "__main__":
    main()
