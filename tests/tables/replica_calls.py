"""Calls of atoms, replicas, inventories, rulings, scripts and schedules, with what they answer."""
from tests.tables.texts import B1, BF, C1, C2, CF, K1, KF, S1, S2, S3, V1, V2, VF, digits, document, event, line, nested

CALLS = {
    "atom.read": ["Atom::read", "Atom::parts"],
    "atom.line": ["Atom::line"],
    "atom.digest": ["Atom::digest"],
    "atom.compare": ["Atom::compare"],
    "atom.new": ["Atom::new", "Atom::into_parts"],
    "atom.letter": ["Letter::text", "Letter::char"],
    "atom.kind": ["KeyKind::of", "KeyKind::letter"],
    "atom.kind_of_text": ["KeyKind::read"],
    "path.kind": ["path_kind"],
    "path.log_name": ["log_name"],
    "replica.copy": ["Replica::new", "Replica::log", "Replica::copy"],
    "replica.atom_count": ["Replica::atom_count"],
    "replica.conflict_count": ["Replica::conflict_count"],
    "replica.walk": ["Replica::walk"],
    "replica.digests": ["Replica::digests"],
    "replica.inventory": ["Replica::inventory", "Inventory::log", "Inventory::digests"],
    "replica.inventory_of": ["Inventory::of"],
    "replica.least_atom": ["Replica::atom_after"],
    "replica.atom_after": ["Replica::atom_after"],
    "replica.holds": ["Replica::holds"],
    "replica.put": ["Replica::put"],
    "replica.put_after": ["Replica::put_after"],
    "replica.push_if_last": ["Replica::push_if_last"],
    "pair.same": ["Replica::same"],
    "pair.join": ["Replica::join"],
    "pair.join_twice": ["Replica::join_twice"],
    "pair.missing": ["Replica::missing"],
    "pair.missing_by": ["Replica::missing_by"],
    "pair.missing_by_digests": ["Replica::missing_by_digests"],
    "key.keys": ["Replica::keys"],
    "key.least_key": ["Replica::key_after"],
    "key.key_after": ["Replica::key_after"],
    "key.values": ["Replica::values"],
    "key.ruled": ["Replica::ruled"],
    "key.shown": ["Replica::shown"],
    "key.conflicted_keys": ["Replica::conflicted_keys"],
    "body.chains": ["Replica::chains"],
    "body.longest_chain": ["Replica::longest_chain"],
    "body.tags": ["Replica::tags"],
    "body.attachments": ["Replica::attachments"],
    "document.take": ["Replica::take_document"],
    "document.take_sightings": ["Replica::take"],
    "document.take_entities": ["Replica::take_entity"],
    "document.take_properties": ["Replica::take_property"],
    "ruling.read": ["Ruling::read", "Ruling::letter", "Ruling::key", "Ruling::digest"],
    "ruling.of": ["Ruling::of"],
    "ruling.take": ["Replica::take_ruling"],
    "ruling.rulings": ["Replica::rulings", "Ruling::kind"],
    "inventory.has": ["Inventory::has"],
    "inventory.put": ["Inventory::new", "Inventory::put"],
    "inventory.remove": ["Inventory::remove"],
    "inventory.least_digest": ["Inventory::digest_after"],
    "inventory.digest_after": ["Inventory::digest_after"],
    "schedule.read_script": ["read_script"],
    "schedule.rehearse": ["rehearse"],
    "fault.atom": [],
    "fault.replica": [],
    "fault.ruling": [],
    "fault.schedule": [],
    "fault.script": [],
}

REPLICA = "CONTRACTS: A replica"

ROWS = []


def row(heading, call, words, *fields):
    ROWS.append((call, words, list(fields), heading))


def held(*lines, log="g"):
    """A replica of the log with the atoms of these lines, or an inventory of it with these digests."""
    return "\n".join((log,) + lines)


def option(text):
    return ["none"] if text is None else ["some", text]

# Atoms, in order, beside those that all tables share.
CA = ["E", "e1", B1, "A", '{"a":1,"b":2}']
CT = ["E", "e1", B1, "T", "x"]
K12 = ["E", "e1", B1, "C", S1, S2]
ATOMS = [
    ["E", "e1", BF], ["E", "e1", BF, "C", S2], ["E", "e1", B1], CA, ["E", "e1", B1, "C", S1], K12, CT, ["E", "e2", B1],
    ["G", "g1", '{"id":"g1"}'], ["M", "m1", '{"metricId":"m1"}'], ["P", "name", '"north"'], ["P", "name", '"south"'],
    ["R", "r1", '{"id":"r1","typeURI":"storage"}'], ["U", "E", "e1", digits(B1)]]
LA, LT, L12 = line(*CA), line(*CT), line(*K12)
G1, M1, NORTH, SOUTH, R1 = (line(*atom) for atom in ATOMS[8:13])
UB, UF = line("U", "E", "e1", digits(B1)), line("U", "E", "e1", digits(BF))

# ---- Atoms from their lines.
for atom in ATOMS:
    text = line(*atom)
    row("Atoms", "atom.read", [text], "ok", *atom)
    row("Format 1: a line for each atom", "atom.line", [text], "ok", text)
row("Atoms", "atom.new", [L12], "ok", *K12)
for atom in [["P", "n", "18446744073709551615"], ["P", "n", "-9223372036854775808"], ["P", "n", "null"], ["P", "n", '"1.5"'],
             ["E", "e1", B1, "C"] + [S1] * 256, ["P", "n", nested(100)], ["R", "r1", '{"id":"r1","x":%s}' % nested(99)],
             ["E", "a\\b", B1.replace("read", "/"), "T", "é\u2028"], ["U", "P", "id", "0" * 64], ["E", "e1", B1, "A", "{}"]]:
    row("Atoms", "atom.read", [line(*atom)], "ok", *atom)

SWAPPED = B1.replace('"action":"read","eventTime":"2024-03-01T12:00:00Z"', '"eventTime":"2024-03-01T12:00:00Z","action":"read"')
for text, fault in [
        ("", "Json"), ("{", "Json"), ("[1.5", "Json"), ('["P","n",1.5]', "Json"), ('["P","n","1"] x', "Json"),
        ('["P", "n","1"]', "NotCanonical"), (' ["P","n","1"]', "NotCanonical"), ('["P","n","\\u0031"]', "NotCanonical"),
        ('["P","n",1]', "Shape"), ('["X","a"]', "Shape"), ("[]", "Shape"), ("7", "Shape"), ("{}", "Shape"), ('"P"', "Shape")]:
    row("What is refused", "atom.read", [text], "err", fault)
for atom in [
        ["P", "n", "1.5"], ["P", "n", "1 "], ["P", "id", "1"], ["P", "", "1"], ["P", "n"], ["P", "n", "1", "T", "x"],
        ["P", "n", nested(101)], ["R", "r1", '{"id":"r2"}'], ["R", "r1", "[]"], ["M", "m1", '{"id":"m1"}'], ["G", "g1", '{"id": "g1"}'],
        ["R", "r1", '{"id":"r1","x":%s}' % nested(100)], ["E", "e1"], ["E", "", B1], ["E", "e1", "{}"], ["E", "e1", SWAPPED], ["E", "e1", V1],
        ["E", "e1", B1.replace("12:00:00Z", "12:00:00.0Z")], ["E", "e1", B1.replace("{", '{"a":%s,' % nested(100), 1)],
        ["E", "e1", B1, "C"], ["E", "e1", B1, "C", "{}"], ["E", "e1", B1, "C"] + [S1] * 257,
        ["E", "e1", B1, "C", '{"reporterId":"s1","reporterTime":"2024-03-01T12:00:00+00:00","role":"relay"}'],
        ["E", "e1", B1, "T"], ["E", "e1", B1, "T", ""], ["E", "e1", B1, "T", "x", "y"], ["E", "e1", B1, "A", "1"], ["E", "e1", B1, "A", "{ }"],
        ["E", "e1", B1, "X", "x"], ["U", "E", "e1", "0123"], ["U", "X", "e1", digits(B1)], ["U", "E", "", digits(B1)],
        ["U", "E", "e1", digits(B1).upper()], ["U", "E", "e1", digits(B1), "x"], ["e", "e1", B1]]:
    row("Atoms", "atom.read", [line(*atom)], "err", "Shape")

# The digest of an atom is SHA-256 of its line.
row("Inventory file", "atom.digest", [C1], "ok", "e3c7c4b821fba7aefa60dc6e052a2a547b9a1778e825109f2261cd3246cb12f8")
for text in [L12, NORTH, UB]:
    row("Inventory file", "atom.digest", [text], "ok", digits(text))

# Text by text, texts by their bytes, a prefix first: by the texts themselves and not by their lines.
for one, other, order in [
        (C1, LT, "Less"), (LT, CF, "Greater"), (LT, LT, "Equal"), (C1, C2, "Less"), (UB, R1, "Greater"),
        (line("P", "a\\", "1"), line("P", "a]", "1"), "Less"), (line("P", "a\"", "1"), line("P", "a#", "1"), "Less"),
        (line("P", "\uffff", "1"), line("P", "\U00010000", "1"), "Less"), (line("P", "a", "1"), line("P", "a ", "1"), "Less")]:
    row("Atoms", "atom.compare", [one, other], order)

for name, letter in [("Event", "E"), ("Geolocation", "G"), ("Metric", "M"), ("Property", "P"), ("Resource", "R"), ("Ruling", "U"),
                     ("Attachment", "A"), ("Chain", "C"), ("Tag", "T")]:
    row("Atoms", "atom.letter", [name], letter, letter)
for letter in "EGMPR":
    row("Atoms", "atom.kind", [letter], "some", letter)
    row("Atoms", "atom.kind_of_text", [letter], "some", letter)
for letter in "UACTXe":
    row("Atoms", "atom.kind", [letter], "none")
    row("Atoms", "atom.kind_of_text", [letter], "none")
for text in ["", "EG", "E "]:
    row("Atoms", "atom.kind_of_text", [text], "none")

# ---- Lists of texts that are atoms, begin one, or do neither.
for kind, texts in [
        ("Prefix", []), ("Prefix", ["E"]), ("Prefix", ["G"]), ("Not", ["X"]), ("Not", [""]), ("Not", ["A"]), ("Prefix", ["U"]),
        ("Prefix", ["U", "E"]), ("Not", ["U", "X"]), ("Not", ["U", "U"]), ("Prefix", ["U", "P", "id"]), ("Not", ["U", "P", ""]),
        ("Whole", ["U", "P", "id", digits(B1)]), ("Not", ["U", "P", "id", "0123"]), ("Not", ["U", "P", "id", digits(B1), "x"]),
        ("Prefix", ["P", "name"]), ("Not", ["P", "id"]), ("Prefix", ["M", "id"]), ("Not", ["E", ""]), ("Prefix", ["E", "e1"]),
        ("Not", ["E", "e1", "{}"]), ("Whole", ["E", "e1", B1]), ("Prefix", ["E", "e1", B1, "C"]), ("Prefix", ["E", "e1", B1, "A"]),
        ("Prefix", ["E", "e1", B1, "T"]), ("Not", ["E", "e1", B1, "X"]), ("Not", ["E", "e1", "{}", "C"]), ("Whole", ["E", "e1", B1, "T", "x"]),
        ("Not", ["E", "e1", B1, "T", "x", "y"]), ("Whole", ["E", "e1", B1, "C", S1]), ("Whole", ["E", "e1", B1, "C", S1, S2]),
        ("Whole", ["E", "e1", B1, "C"] + [S1] * 256), ("Not", ["E", "e1", B1, "C"] + [S1] * 257),
        ("Whole", ["P", "name", "1"]), ("Not", ["P", "name", "1", "x"]), ("Not", ["P", "name", "1", "T"]), ("Not", ["R", "r1", "{}"])]:
    row("What is refused", "path.kind", texts, "ok", kind)

for text, name in [('"g"', "g"), ('"openstack:audit"', "openstack:audit"), ('"a\\\\b"', "a\\b"), ("g", None), ('""', None), ("7", None),
                   (' "g"', None), ('"\\u0067"', None), ('"\x7f"', None)]:
    row("Replica file", "path.log_name", [text], "ok", *option(name))

# ---- What a replica takes.
ENTITIES = document(log="g", more=',"geolocations":[{"id":"g1"}],"metrics":[{"metricId":"m1"}],"name":"north",'
                    '"resources":[{"typeURI":"storage","id":"r1"}],"typeURI":7')
SEEN = event(eventTime='"2024-03-01T12:00:00+0000"')[:-1] + ',"tags":["x"],"attachments":[{"b":2,"a":1}],"reporterchain":[]}'
CHAINED = event(reporterchain="[%s]" % S1)
FAILED = VF[:-1] + ',"reporterchain":[%s]}' % S2
for before, text, after in [
        (held(), ENTITIES, held(G1, M1, NORTH, R1)),
        (held(), SEEN, held(C1, LA, LT)),
        (held(G1, M1, NORTH, R1), SEEN, held(C1, LA, LT, G1, M1, NORTH, R1)),
        (held(), document(), held()),
        # An event whose time is spelled in two ways is one event.
        (held(), document(event(eventTime='"2024-03-01T12:00:00+0000"')), held(C1)),
        (held(C1), document(event(eventTime='"2024-03-01T12:00:00.000+00:00"')), held(C1)),
        # A chain that goes on from another one is another one; an empty one adds nothing.
        (held(), document(CHAINED), held(C1, K1)),
        (held(C1, K1), document(event(reporterchain="[%s,%s]" % (S1, S2))), held(C1, K1, L12)),
        (held(), document(event(reporterchains="[[%s,%s],[],[%s,%s]]" % (S1, S3, S1, S2))), held(C1, L12, line("E", "e1", B1, "C", S1, S3))),
        # Two bodies of one event are both kept, each with what came with it.
        (held(C1, K1), document(FAILED), held(CF, KF, C1, K1)),
        (held(CF, KF), document(CHAINED), held(CF, KF, C1, K1)),
        (held(CF, KF, C1, K1), document(CHAINED, FAILED), held(CF, KF, C1, K1)),
        (held(), document(V1, event(eventTime='"2024-03-01T13:00:00+01:00"')),
         held(C1, line("E", "e1", B1.replace("12:00:00Z", "13:00:00+01:00")))),
        (held(NORTH), document(more=',"name":"south"'), held(NORTH, SOUTH)),
        (held(SOUTH), ENTITIES, held(G1, M1, NORTH, SOUTH, R1)),
        # A tag of a body that is held, and another event; two chains of it.
        (held(C1), document(event(tags='["x"]'), V2), held(C1, LT, C2)),
        (held(C1), document(event(reporterchains="[[%s],[%s,%s]]" % (S1, S1, S2))), held(C1, K1, L12)),
        # An event by itself names no log, and is taken by any.
        (held(log="h"), V1, held(C1, log="h"))]:
    row("Atoms", "document.take", [before, text], "ok", after)
row(REPLICA, "document.take", [held(C1, K1), document(log="h")], "err", "OtherLog", held(C1, K1))
row(REPLICA, "document.take", [held(), document(V1, log="h")], "err", "OtherLog", held())
row("Atoms", "document.take_sightings", [held(), SEEN], "ok", held(C1, LA, LT))
row("Atoms", "document.take_sightings", [held(NORTH), document(V1, V2, more=',"name":"south"')], "ok", held(C1, C2, NORTH))
row("Atoms", "document.take_entities", [held(), ENTITIES], "ok", held(G1, M1, R1))
row("Atoms", "document.take_properties", [held(), ENTITIES], "ok", held(NORTH))

# ---- Atoms that are put.
# Chains of 256 steps, the most, which differ in their last step. A step's text is longer than what a call keeps beside it.
FIRST, LAST = ('{"reporterId":"%s","role":"relay","x":"%s"}' % (who, "x" * 256) for who in "st")
DEEP, OTHER = (line("E", "e1", B1, "C", *[FIRST] * 255, last) for last in (FIRST, LAST))
row(REPLICA, "replica.put", [held(C1, OTHER), DEEP], "ok", held(C1, DEEP, OTHER))
for call in ["replica.put", "replica.put_after"]:
    row(REPLICA, call, [held(), C1], "ok", held(C1))
    row(REPLICA, call, [held(C1), K1], "ok", held(C1, K1))
    row(REPLICA, call, [held(C1, K1), C1], "ok", held(C1, K1))
    row(REPLICA, call, [held(), K1], "err", "Ungrounded", held())
    row(REPLICA, call, [held(CF), K1], "err", "Ungrounded", held(CF))
    row(REPLICA, call, [held(C2), LT], "err", "Ungrounded", held(C2))
    row(REPLICA, call, [held(C1), UF], "ok", held(C1, UF))
for before, text, after in [(held(C1), K1, held(C1, K1)), (held(C1, K1), C2, held(C1, K1, C2)), (held(), R1, held(R1))]:
    row(REPLICA, "replica.push_if_last", [before, text], "ok", after)
for before, text in [(held(C1, K1), CF), (held(C1), C1), (held(C1, LT), K1)]:
    row(REPLICA, "replica.push_if_last", [before, text], "not above")
row(REPLICA, "replica.push_if_last", [held(CF), K1], "err", "Ungrounded", held(CF))

# ---- What a replica says of itself.
CONFLICT = held(CF, KF, C1, K1)
for replica, atoms, conflicts in [
        (held(), 0, 0), (CONFLICT, 4, 1), (held(C1), 1, 0), (held(CF, C1, UB), 3, 1), (held(CF, C1, UB, UF), 4, 1),
        (held(NORTH, SOUTH, CF, C1), 4, 2), (held(C1, C2, R1), 3, 0)]:
    row("Check line", "replica.atom_count", [replica], atoms)
    row("Check line", "replica.conflict_count", [replica], conflicts)
for lines in [(), (C1,), (CF, KF, C1, LA, K1, L12, LT, C2, G1, M1, NORTH, SOUTH, R1, UB)]:
    row(REPLICA, "replica.copy", [held(*lines)], "ok", held(*lines))
    row(REPLICA, "replica.walk", [held(*lines)], "ok", *lines)
row(REPLICA, "replica.copy", [held(C1, log="openstack:audit")], "ok", held(C1, log="openstack:audit"))
row(REPLICA, "replica.walk", [held(R1, C1, LT, K1)], "ok", C1, K1, LT, R1)
for text, is_held in [(C1, True), (K1, True), (SOUTH, True), (CF, False), (L12, False), (LT, False), (NORTH, False), (G1, False)]:
    row(REPLICA, "replica.holds", [held(C1, K1, SOUTH), text], is_held)
row(REPLICA, "replica.holds", [held(C1, UB), UB], True)
row(REPLICA, "replica.least_atom", [held()], "ok", "none")
row(REPLICA, "replica.least_atom", [held(SOUTH, C1)], "ok", "some", C1)
for text, found in [(CF, C1), (LA, L12), (K1, L12), (LT, C2), (C2, SOUTH), (G1, SOUTH), (SOUTH, None), (R1, None)]:
    row(REPLICA, "replica.atom_after", [held(C1, L12, C2, SOUTH), text], "ok", *option(found))

# ---- Keys, and their values.
KEYED = held(CF, C1, C2, NORTH)
for letter, keys in [("E", ["e1", "e2"]), ("P", ["name"]), ("R", [])]:
    row(REPLICA, "key.keys", [KEYED, letter], "ok", *keys)
for letter, key in [("E", "e1"), ("P", "name"), ("G", None), ("X", None)]:
    row(REPLICA, "key.least_key", [KEYED, letter], "ok", *option(key))
row(REPLICA, "key.least_key", [held(C1, UB), "U"], "ok", "none")
for letter, text, key in [
        ("E", "", "e1"), ("E", "e", "e1"), ("E", "e1", "e2"), ("E", "e10", "e2"), ("E", "e2", None), ("P", "a", "name"), ("G", "a", None)]:
    row(REPLICA, "key.key_after", [KEYED, letter, text], "ok", *option(key))
for replica, letter, key, values in [
        (CONFLICT, "E", "e1", [BF, B1]), (CONFLICT, "E", "e2", []), (held(SOUTH, NORTH, M1), "P", "name", ['"north"', '"south"']),
        (held(SOUTH, NORTH, M1), "P", "other", []), (held(SOUTH, NORTH, M1), "M", "m1", ['{"metricId":"m1"}']), (held(C1, UB), "U", "E", []),
        (held(CF, C1, UB, UF), "E", "e1", [BF, B1]), (CONFLICT, "X", "e1", []),
        # By the bytes of the text, not of its escaped line.
        (held(line("P", "n", '"\\\\"'), line("P", "n", '"]"')), "P", "n", ['"\\\\"', '"]"'])]:
    row(REPLICA, "key.values", [replica, letter, key], "ok", *values)

# ---- What came with a body.
CAME = held(CF, C1, LA, K1, L12, LT, line("E", "e1", B1, "T", "a"), line("E", "e1", B1, "A", "{}"))
for call, id, body, fields in [
        ("chains", "e1", B1, [line(S1), line(S1, S2)]), ("chains", "e1", BF, []), ("chains", "e2", B1, []),
        ("longest_chain", "e1", B1, ["some", line(S1, S2)]), ("longest_chain", "e1", BF, ["none"]),
        ("tags", "e1", B1, ["a", "x"]), ("tags", "e1", BF, []),
        ("attachments", "e1", B1, ['{"a":1,"b":2}', "{}"]), ("attachments", "e1", BF, [])]:
    row(REPLICA, "body." + call, [CAME, id, body], "ok", *fields)
for body, step in [(B1, S1), (BF, S2)]:
    row(REPLICA, "body.chains", [CONFLICT, "e1", body], "ok", line(step))
    row(REPLICA, "body.longest_chain", [CONFLICT, "e1", body], "ok", "some", line(step))
row(REPLICA, "body.longest_chain", [held(C1, line("E", "e1", B1, "C", S1, S3), L12), "e1", B1], "ok", "some", line(S1, S2))

# ---- Replicas that are joined.
FIVE = held(C1, K1, L12)
for call in ["pair.join", "pair.join_twice"]:
    for ours, theirs, union in [
            (held(C1), held(C1), held(C1)), (held(C1, K1), held(C1, L12), FIVE), (held(C1, L12), held(C1, K1), FIVE), (FIVE, FIVE, FIVE),
            (FIVE, held(), FIVE), (held(), FIVE, FIVE), (held(C1, K1), held(CF, KF), CONFLICT), (held(CF, KF), held(C1, K1), CONFLICT),
            (held(C1), held(C1, C2), held(C1, C2)), (held(C1, UB), held(CF), held(CF, C1, UB)), (held(C1), FIVE, FIVE),
            (held(C1), held(C1, LT, C2), held(C1, LT, C2)), (held(SOUTH), held(NORTH, R1), held(NORTH, SOUTH, R1)),
            (held(C1, DEEP), held(C1, OTHER), held(C1, DEEP, OTHER))]:
        row("What the commands write", call, [ours, theirs], "ok", union)
    row(REPLICA, call, [held(C1), held(C2, log="h")], "err", "OtherLog", held(C1))
for ours, theirs, same in [
        (held(), held(), True), (CONFLICT, held(C1, K1, CF, KF), True), (held(C1), held(C1, K1), False), (held(C1, K1), held(C1), False),
        (held(C1), held(C2), False), (held(), held(log="h"), False), (held(C1), held(C1, log="h"), False)]:
    row(REPLICA, "pair.same", [ours, theirs], same)

# What the first has and the other lacks, with carriers.
for ours, theirs, part in [
        (held(C1, LT), held(C1), held(C1, LT)), (held(C1, C2), held(C1), held(C2)), (held(C1, C2), held(C1, C2), held()),
        (held(), held(C1), held()), (CONFLICT, held(C1), CONFLICT), (CONFLICT, held(C1, K1), held(CF, KF)),
        (CONFLICT, held(CF, C1, K1), held(CF, KF)), (CONFLICT, held(C1, K1, C2), held(CF, KF)), (held(C1, C2), held(), held(C1, C2)),
        (held(CF, C1, UB), held(CF, C1), held(UB)), (held(NORTH, R1), held(SOUTH, R1), held(NORTH))]:
    row("What the commands write", "pair.missing", [ours, theirs], "ok", part)
row(REPLICA, "pair.missing", [held(C1), held(log="h")], "err", "OtherLog")

# ---- Inventories.


def noted(*lines, log="g"):
    """The inventory of the log with the digests of these lines."""
    return held(*sorted(digits(text) for text in lines), log=log)


for lines in [(), (C1,), (CF, KF, C1, K1), (C1, LA, K1, L12, LT, NORTH, UB)]:
    row("Inventory file", "replica.inventory", [held(*lines)], "ok", noted(*lines))
    row("Inventory file", "replica.inventory_of", [held(*lines)], "ok", noted(*lines))
    row("Inventory file", "replica.digests", [held(*lines)], "ok", *(digits(text) for text in lines))
row("Inventory file", "replica.inventory", [held(C1, log="h")], "ok", noted(C1, log="h"))
row("Inventory file", "replica.inventory_of", [held(C1, log="h")], "ok", noted(C1, log="h"))
BY = ("pair.missing_by", "pair.missing_by_digests")
for lines, part in [
        ((C1, K1), held(CF, KF)), ((K1,), held(CF, KF, C1)), ((C1,), CONFLICT), ((), CONFLICT), ((CF, KF, C1, K1), held()),
        ((CF, KF, C1, K1, NORTH), held()), ((KF, K1), held(CF, C1))]:
    for call in BY:
        row("What the commands write", call, [CONFLICT, noted(*lines)], "ok", part)
for call in BY:
    row("What the commands write", call, [held(C1), noted(C1)], "ok", held())
    row("What the commands write", call, [FIVE, noted(C1)], "ok", FIVE)
    row(REPLICA, call, [CONFLICT, noted(C1, log="h")], "err", "OtherLog")
    row(REPLICA, call, [held(log="h"), noted(C1)], "err", "OtherLog")
LOW, MIDDLE, HIGH = "00" * 32, digits(C1), "ff" * 32
for digest, has in [(MIDDLE, True), (LOW, False), (MIDDLE[:-1] + "9", False)]:
    row("Inventory file", "inventory.has", [held(MIDDLE), digest], has)
row("Inventory file", "inventory.has", [held(), MIDDLE], False)
for before, digest, after in [((), MIDDLE, (MIDDLE,)), ((MIDDLE,), MIDDLE, (MIDDLE,)), ((MIDDLE,), LOW, (LOW, MIDDLE)), ((HIGH,), MIDDLE, (MIDDLE, HIGH))]:
    row("Inventory file", "inventory.put", [held(*before), digest], "ok", held(*after))
for before, digest, after in [((), MIDDLE, ()), ((MIDDLE,), MIDDLE, ()), ((MIDDLE,), LOW, (MIDDLE,)), ((LOW, MIDDLE, HIGH), MIDDLE, (LOW, HIGH))]:
    row("Inventory file", "inventory.remove", [held(*before), digest], "ok", held(*after))
row(REPLICA, "inventory.least_digest", [held()], "none")
row(REPLICA, "inventory.least_digest", [held(HIGH, MIDDLE)], "some", MIDDLE)
for digest, found in [(LOW, MIDDLE), (MIDDLE, HIGH), (HIGH, None)]:
    row(REPLICA, "inventory.digest_after", [held(HIGH, MIDDLE), digest], *option(found))

# ---- Rulings.
DIGEST = "d581ec5f7f08d29f2a0967a79466927a2704d1a52bab805a6390a1f1190cd00c"
for letter in "EGMPR":
    row("Atoms", "ruling.read", [letter, "e1", DIGEST], "ok", letter, "e1", DIGEST)
row("Atoms", "ruling.read", ["P", "id", DIGEST], "ok", "P", "id", DIGEST)
row("Atoms", "ruling.of", ["E", "e1", B1], "ok", "E", "e1", DIGEST)
row("Atoms", "ruling.of", ["P", "name", '"south"'], "ok", "P", "name", digits('"south"'))
for letter, key, digest, fault in [
        ("U", "", "", "Letter"), ("A", "e1", DIGEST, "Letter"), ("e", "e1", DIGEST, "Letter"), ("P", "", "", "Key"),
        ("P", "a" * 1025, DIGEST, "Key"), ("P", "a\x7f", "", "Key"), ("P", "id", "0123", "Digest"), ("P", "id", DIGEST.upper(), "Digest"),
        ("P", "id", DIGEST + "0", "Digest"), ("P", "id", "g" * 64, "Digest")]:
    row("Atoms", "ruling.read", [letter, key, digest], "err", fault)
for letter, key, fault in [("U", "e1", "Letter"), ("E", "", "Key")]:
    row("Atoms", "ruling.of", [letter, key, B1], "err", fault)
BOTH = held(CF, C1, LT)
row("Atoms", "ruling.take", [BOTH, "E", "e1", digits(BF)], "ok", held(CF, C1, LT, UF))
row("Atoms", "ruling.take", [held(CF, C1, LT, UF), "E", "e1", digits(BF)], "ok", held(CF, C1, LT, UF))
row("Atoms", "ruling.take", [held(), "P", "n", LOW], "ok", held(line("U", "P", "n", LOW)))
assert digits(B1) < digits(BF)
row("Conflict text", "ruling.rulings", [held(C1)], "ok")
row("Conflict text", "ruling.rulings", [held(CF, C1, UF, UB)], "ok", "E", "e1", digits(B1), "E", "e1", digits(BF))
row("Conflict text", "ruling.rulings", [held(UB, line("U", "P", "a", LOW))], "ok", "E", "e1", digits(B1), "P", "a", LOW)

# What is shown of a key, and what settles it.
OTHER = line("U", "E", "e1", digits("{}"))
SOUTHERN = line("U", "P", "name", digits('"south"'))
for replica, letter, key, shown, ruled in [
        (BOTH, "E", "e1", None, None),
        (held(CF, C1, LT, UB), "E", "e1", B1, B1),
        (held(CF, C1, LT, UF), "E", "e1", BF, BF),
        (held(CF, C1, LT, UB, UF), "E", "e1", None, None),
        (held(CF, C1, OTHER), "E", "e1", None, None),
        (held(CF, C1, OTHER, UB), "E", "e1", B1, B1),
        (held(CF, C1, UB), "E", "e3", None, None),
        (held(C1, UF), "E", "e1", B1, None),
        (held(C1, UB), "E", "e1", B1, None),
        (held(NORTH, SOUTHERN), "P", "name", '"north"', None),
        (held(NORTH, SOUTH, SOUTHERN), "P", "name", '"south"', '"south"'),
        (held(NORTH, SOUTH), "R", "name", None, None)]:
    row("Atoms", "key.shown", [replica, letter, key], "ok", *option(shown))
    row("Atoms", "key.ruled", [replica, letter, key], "ok", *option(ruled))
row("Atoms", "key.ruled", [held(C1, UB), "U", "E"], "ok", "none")
for replica, letter, keys in [
        (CONFLICT, "E", ["e1"]), (held(CF, C1, UB), "E", ["e1"]), (held(C1, C2), "E", []), (held(NORTH, SOUTH), "P", ["name"]),
        (held(NORTH, SOUTH), "E", []), (held(CF, C1, C2, line("E", "e2", BF)), "E", ["e1", "e2"])]:
    row("Atoms", "key.conflicted_keys", [replica, letter], "ok", *keys)

# ---- Scripts, and the schedules that they spell.
EXCHANGE = ["learn 0 " + V1, "ask 1", "learn 1 " + V2, "answer 0 1", "send 0", "deliver 3 1", "deliver 2 1", "deliver 2 1", "send 1", "deliver 4 0"]
ASKING = ["learn 0 " + V1, "ask 1", "learn 1 " + VF, "answer 0 1", "deliver 2 1", "ask 0", "answer 1 3", "deliver 4 0"]
SCRIPT = "Rehearsal script"


def script(*lines):
    return "".join(one + "\n" for one in lines)


row(SCRIPT, "schedule.read_script", [script(*EXCHANGE)], "ok", "learn 0 1", "ask 1", "learn 1 1", *EXCHANGE[3:])
for text, turns in [
        ("", []), ("ask 0", ["ask 0"]), ("ask 0\nsend 999999999", ["ask 0", "send 999999999"]), (script("deliver 10 2"), ["deliver 10 2"]),
        (script("learn 3 " + document(V1, V2)), ["learn 3 g 2"]), (script("learn 0  " + V1 + " \r"), ["learn 0 1"]),
        (script("learn 0 " + document(log="h")), ["learn 0 h 0"])]:
    row(SCRIPT, "schedule.read_script", [text], "ok", *turns)
NO_SCRIPTS = [
    "ask 00", "ask  0", "learn 0 [", "\n", "ask", "ask ", "ask 0 ", "ask 0\r", " ask 0", "ask 0 1", "Ask 0", "ask -1", "ask +1", "ask 1000000000",
    "answer 0", "answer 0 1 2", "deliver 0", "send", "learn 0", "learn x " + V1, "learn 0 {}", "learn 0 1.5", "hello", "ask\t0", b"ask 0\xff", b"\xff"]
for text in NO_SCRIPTS:
    row(SCRIPT, "schedule.read_script", [text], "err", "Line", 1)
row(SCRIPT, "schedule.read_script", [script(*EXCHANGE, "hello", "hello")], "err", "Line", 11)
row(SCRIPT, "schedule.read_script", [script("ask 0", "", "ask 0")], "err", "Line", 2)

row(SCRIPT, "schedule.rehearse", ["g", 3, script(*EXCHANGE)], "ok", held(C1, C2), held(C1, C2), held())
row(SCRIPT, "schedule.rehearse", ["g", 2, script(*ASKING)], "ok", held(CF, C1), held(CF, C1))
row(SCRIPT, "schedule.rehearse", ["g", 2, ""], "ok", held(), held())
row(SCRIPT, "schedule.rehearse", ["g", 1, script("learn 0 " + V1, "send 0", "deliver 1 0")], "ok", held(C1))
row(SCRIPT, "schedule.rehearse", ["h", 1, script("learn 0 " + V1)], "ok", held(C1, log="h"))
# An answer carries what its sender holds when its turn comes; a copy what its sender held when it was made.
row(SCRIPT, "schedule.rehearse", ["g", 2, script("ask 1", "learn 0 " + V1, "answer 0 1", "send 0", "learn 0 " + V2, "deliver 2 1")],
    "ok", held(C1, C2), held(C1))
row(SCRIPT, "schedule.rehearse", ["g", 2, script("send 0", "learn 0 " + V1, "deliver 1 1", "ask 0", "deliver 2 1")], "ok", held(C1), held())
# An answer leaves out what the asker held when it asked.
row(SCRIPT, "schedule.rehearse", ["g", 3, script("learn 0 " + V1, "learn 1 " + V1, "ask 1", "learn 0 " + V2, "answer 0 1", "send 1", "deliver 2 1")],
    "ok", held(C1, C2), held(C1, C2), held())
# Turns that are refused behind the exchange. The first of the checks is answered.
STOPPED = [
    ("deliver 2 2", "WrongAddressee"), ("deliver 2 0", "WrongAddressee"), ("ask 3", "NoSite"), ("learn 3 " + V1, "NoSite"), ("send 3", "NoSite"),
    ("answer 3 1", "NoSite"), ("deliver 3 3", "NoSite"), ("deliver 9 0", "NoMessage"), ("deliver 0 0", "NoMessage"), ("answer 0 5", "NoMessage"),
    ("answer 0 2", "NotInventory"), ("answer 0 3", "NotInventory"), ("learn 0 " + document(log="h"), "OtherLog"),
    ("answer 3 9", "NoSite"), ("deliver 9 3", "NoSite"), ("learn 3 " + document(log="h"), "NoSite")]
for last, fault in STOPPED:
    row(SCRIPT, "schedule.rehearse", ["g", 3, script(*EXCHANGE, last, "ask 3")], "err", fault, 11)
row(SCRIPT, "schedule.rehearse", ["g", 2, "answer 5 9"], "err", "NoSite", 1)
row(SCRIPT, "schedule.rehearse", ["g", 2, script("ask 3", "hello")], "err", "Line", 2)

# ---- What faults are shown as.
for kind, name, shown in [
        ("atom", "Json", "not JSON"), ("atom", "NotCanonical", "not canonical"), ("atom", "Shape", "shape"),
        ("replica", "OtherLog", "other log"), ("replica", "Ungrounded", "ungrounded"),
        ("ruling", "Letter", "letter"), ("ruling", "Key", "key"), ("ruling", "Digest", "digest"),
        ("atom", "Memory", "out of memory"), ("replica", "Memory", "out of memory"), ("ruling", "Memory", "out of memory"),
        ("schedule", "Memory", "out of memory"), ("script", "Memory", "out of memory")]:
    row("ARCHITECTURE: What faults are shown as", "fault." + kind, [name], shown)
TURN_FAULTS = {"NoSite": "no such site", "NoMessage": "no such message", "NotInventory": "not an inventory", "WrongAddressee": "wrong addressee",
               "OtherLog": "other log"}
for name, shown in TURN_FAULTS.items():
    row(SCRIPT, "fault.schedule", [name, 11], "line 11: " + shown)
row(SCRIPT, "fault.script", ["Line", 11], "line 11: script")
