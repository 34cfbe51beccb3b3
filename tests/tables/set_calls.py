"""Calls of sets of lists of texts, with what they answer.

In this table a stroke stands between the texts of a list, a blank between the lists of a set, and `-` is the empty list.
The driver is given the JSON lists.
"""
import json

CALLS = {
    "value.join": ["Join::join"],
    "value.missing_from": ["Join::missing_from"],
    "value.copy": ["Join::copy"],
    "value.same": ["Join::same"],
    "value.is_empty": ["Join::is_empty"],
    "value.list_count": ["Join::list_count"],
    "value.append_lists": ["Join::append_lists"],
    "texts.insert": ["TextSet::new", "TextSet::insert"],
    "texts.contains": ["TextSet::contains"],
    "texts.least": ["TextSet::after"],
    "texts.after": ["TextSet::after"],
    "map.get": ["JoinMap::get"],
    "map.join_at": ["JoinMap::new", "JoinMap::join_at"],
    "map.least": ["JoinMap::after"],
    "map.after": ["JoinMap::after"],
    "tree.insert": ["ChainTree::new", "ChainTree::insert"],
    "tree.contains": ["ChainTree::contains"],
    "tree.count": ["ChainTree::count"],
    "tree.least": ["ChainTree::after"],
    "tree.after": ["ChainTree::after"],
    "tree.longest": ["ChainTree::longest"],
    "tree.walk": ["ChainTree::walk"],
    "paths.union_with": ["PathSet::union_with"],
    "paths.take": ["PathSet::take"],
    "paths.missing_with_carriers": ["PathSet::missing_with_carriers", "Carrier::length"],
    "paths.gathered": ["PathSetBuilder::new", "PathSetBuilder::push", "PathSetBuilder::build"],
    "paths.holds": ["PathSet::holds"],
    "paths.contains": ["PathSet::contains"],
    "paths.last_starts_with": ["PathSet::last_starts_with"],
    "paths.walk": ["Walk::walk", "Visitor::visit"],
    "paths.least": ["PathSet::list_after"],
    "paths.list_after": ["PathSet::list_after"],
    "paths.is_above": ["PathSet::is_above"],
    "paths.insert": ["PathSet::new", "PathSet::insert"],
    "paths.suffixes": ["PathSet::suffixes"],
    "paths.least_text": ["PathSet::next_child"],
    "paths.next_child": ["PathSet::next_child"],
    "paths.child_texts": ["PathSet::child_texts"],
    "paths.multi_valued_count_at": ["PathSet::multi_valued_count_at"],
    "paths.longest_suffix": ["PathSet::longest_suffix"],
    "prefix.copied": ["copy_texts"],
    "example.two_sites": [],
}

SETS = "CONTRACTS: Sets that join"

ROWS = []


def texts(written):
    return [] if written == "-" else written.split("/")


def spelled(value):
    return json.dumps(value, ensure_ascii=False, separators=(",", ":"))


def lst(written):
    """The list that is written so."""
    return spelled(texts(written))


def lists(written):
    """The lists that are written so."""
    return spelled([texts(one) for one in written.split()])


def row(call, words, *fields):
    ROWS.append((call, words, list(fields), SETS))


def option(written):
    """Some list, or none where nothing is written."""
    return ["some", lst(written)] if written else ["none"]


def value(call, kind, *words):
    return "value." + call, [kind, *(lists(word) for word in words)]

# Values of every kind: what is joined, what the first has and the other lacks, and what both say of themselves.
# Kind, first set, second set, union, missing part.
PAIRS = [
    ("texts", "a b", "b c", "a b c", "a"),
    ("texts", "a", "a b", "a b", ""),
    ("texts", "", "a", "a", ""),
    ("texts", "a", "", "a", "a"),
    ("map of texts", "k/a", "k/a k/b l/c", "k/a k/b l/c", ""),
    ("map of texts", "k/a k/b l/c", "k/a", "k/a k/b l/c", "k/b l/c"),
    ("map of texts", "k/a", "l/a", "k/a l/a", "k/a"),
    ("map of maps", "o/k/a p/k/a", "o/k/a", "o/k/a p/k/a", "p/k/a"),
    ("map of maps", "o/k/a", "o/l/a o/k/b", "o/k/a o/k/b o/l/a", "o/k/a"),
    ("map of trees", "body/s body/s/t", "body/s other/s", "body/s body/s/t other/s", "body/s/t"),
    ("tree", "a a/b a/c", "a", "a a/b a/c", "a/b a/c"),
    ("tree", "a", "a a/b a/c", "a a/b a/c", ""),
    ("tree", "a a/b", "a/b", "a a/b", "a"),
    ("tree", "a/b", "a a/b", "a a/b", ""),
    ("tree", "a/b/c", "a/b/d a/e", "a/b/c a/b/d a/e", "a/b/c"),
    ("paths", "a b/a", "- a a/a", "- a a/a b/a", "b/a"),
    ("paths", "- a a/a", "a b/a", "- a a/a b/a", "- a/a"),
    ("paths", "- a a/a a/b/a a/b/b c/b", "d a/b/a a/b", "- a a/a a/b a/b/a a/b/b c/b d", "- a a/a a/b/b c/b"),
    ("paths", "a", "a", "a", ""),
]

for kind, ours, theirs, union, part in PAIRS:
    row(*value("join", kind, ours, theirs), "ok", lists(union))
    row(*value("missing_from", kind, ours, theirs), "ok", *(["some", lists(part)] if part else ["none"]))

SAME = [
    ("texts", "a b", "b a", True), ("texts", "a b", "a c", False), ("texts", "a", "a b", False),
    ("map of texts", "k/a", "k/a k/b l/c", False), ("map of texts", "k/a k/b l/c", "l/c k/b k/a", True),
    ("map of maps", "o/k/a p/k/a", "o/k/a", False),
    ("map of trees", "body/s body/s/t", "body/s/t body/s", True),
    ("tree", "a/b", "a a/b", False), ("tree", "a a/b", "a/b", False), ("tree", "a a/b", "a/b a", True),
    ("paths", "- a", "a -", True), ("paths", "a", "- a", False), ("paths", "a/b", "a b", False),
]

for kind, ours, theirs, same in SAME:
    row(*value("same", kind, ours, theirs), same)

# Kind, and a set in order, of one kind of value each.
ALONE = [
    ("texts", ""), ("texts", "a b"), ("map of texts", ""), ("map of texts", "k/a k/b l/c"), ("map of maps", "o/k/a o/l/a p/k/a"),
    ("map of trees", "body/s body/s/t"), ("tree", ""), ("tree", "a a/b a/c"), ("paths", ""), ("paths", "-"), ("paths", "- a a/b b"),
]

for kind, written in ALONE:
    row(*value("copy", kind, written), "ok", lists(written))
    row(*value("is_empty", kind, written), not written)
    row(*value("list_count", kind, written), len(written.split()))

# Kind, a set, a prefix, and the lists of the set behind the prefix.
PREFIXED = [
    ("texts", "b a", "p", "p/a p/b"), ("texts", "a", "-", "a"), ("map of texts", "k/a k/b l/c", "p", "p/k/a p/k/b p/l/c"),
    ("map of maps", "o/k/a", "p/q", "p/q/o/k/a"), ("map of trees", "body/s body/s/t", "p", "p/body/s p/body/s/t"),
    ("tree", "a a/b", "p/q", "p/q/a p/q/a/b"), ("paths", "- a", "p", "p p/a"), ("paths", "- a", "-", "- a"),
]

for kind, written, prefix, wanted in PREFIXED:
    row("value.append_lists", [kind, lists(written), lst(prefix)], "ok", lists(wanted))

# A value's texts are any texts: the empty one, those that JSON escapes, and those whose order is that of their bytes.
row("value.copy", ["texts", spelled([["\U00010000"], ["\uffff"], ["é"], ["z"], [""], ["a\"\\\n\t\x01\x7f"]])],
    "ok", '[[""],["a\\"\\\\\\n\\t\\u0001\x7f"],["z"],["é"],["\uffff"],["\U00010000"]]')
row("value.copy", ["paths", spelled([["a", ""], ["a"], [""], []])], "ok", spelled([[], [""], ["a"], ["a", ""]]))

# Sets of texts.
for written, text, new, after in [("", "b", True, "b"), ("b", "a", True, "a b"), ("a b", "b", False, "a b")]:
    row("texts.insert", [lists(written), text], "ok", new, lists(after))
for text, held in [("a", True), ("c", False), ("", False), ("ab", False)]:
    row("texts.contains", [lists("a b"), text], held)
row("texts.least", [lists("b a")], "some", "a")
row("texts.least", [lists("")], "none")
for text, found in [("a", "b"), ("ab", "b"), ("b", ""), ("", "a"), ("B", "a")]:
    row("texts.after", [lists("b a"), text], *(["some", found] if found else ["none"]))

# Maps. The first word is the kind of the values.
LARGE = "k/a k/b l/c"
for kind, written, key, found in [
        ("texts", LARGE, "k", "a b"), ("texts", LARGE, "l", "c"), ("texts", LARGE, "m", None), ("texts", "", "k", None),
        ("tree", "body/s/t body/s", "body", "s s/t"), ("tree", "body/s", "s", None), ("map of texts", "o/k/a", "o", "k/a")]:
    row("map.get", [kind, lists(written), key], *(["none"] if found is None else ["some", lists(found)]))
for kind, written, key, added, after in [
        ("texts", "", "k", "a", "k/a"), ("texts", "k/a", "k", "b", "k/a k/b"), ("texts", "k/a", "l", "c", "k/a l/c"),
        ("texts", "k/a", "k", "a", "k/a"), ("tree", "", "body", "s/t s", "body/s body/s/t"),
        ("map of texts", "o/k/a", "p", "k/a", "o/k/a p/k/a"), ("map of texts", "o/k/a", "o", "k/a k/b l/c", "o/k/a o/k/b o/l/c"),
        # An empty value is not held.
        ("texts", "", "z", "", ""), ("texts", "k/a", "z", "", "k/a"), ("texts", "k/a", "k", "", "k/a")]:
    row("map.join_at", [kind, lists(written), key, lists(added)], "ok", lists(after))
row("map.least", ["texts", lists(LARGE)], "some", "k")
row("map.least", ["texts", lists("")], "none")
for text, found in [("k", "l"), ("l", ""), ("ka", "l"), ("", "k"), ("j", "k")]:
    row("map.after", ["texts", lists(LARGE), text], *(["some", found] if found else ["none"]))

# Trees of chains.
for written, chain, new, after in [
        ("", "a/b", True, "a/b"), ("a/b", "a", True, "a a/b"), ("a a/b", "a/c", True, "a a/b a/c"),
        ("a a/b a/c", "a", False, "a a/b a/c")]:
    row("tree.insert", [lists(written), lst(chain)], "ok", new, lists(after))
TREE = "a/b a a/c"
for written, chain, held in [
        ("a/b", "a", False), ("a/b", "a/b", True), (TREE, "a", True), (TREE, "a/d", False), (TREE, "-", False), (TREE, "a/b/c", False)]:
    row("tree.contains", [lists(written), lst(chain)], held)
for written, count in [(TREE, 3), ("", 0), ("a/b/c", 1)]:
    row("tree.count", [lists(written)], count)
row("tree.walk", [lists(TREE)], "ok", lists("a a/b a/c"))
row("tree.least", [lists(TREE)], "ok", *option("a"))
row("tree.least", [lists("")], "ok", "none")
for given, found in [
        ("-", "a"), ("a", "a/b"), ("a/b", "a/c"), ("a/bb", "a/c"), ("a/c", ""), ("A", "a"), ("a/b/a", "a/c"), ("b", "")]:
    row("tree.after", [lists(TREE), lst(given)], "ok", *option(found))
for written, found in [(TREE, "a/b"), ("b a", "a"), ("b/a a", "b/a"), ("", "")]:
    row("tree.longest", [lists(written)], "ok", *option(found))

# A chain of 256 steps is the longest; two that differ in their last step alone share the others.
DEEP, OTHER = spelled(["s"] * 256), spelled(["s"] * 255 + ["t"])
row("tree.insert", ["[]", DEEP], "ok", True, "[" + DEEP + "]")
row("tree.insert", ["[" + DEEP + "]", OTHER], "ok", True, "[" + DEEP + "," + OTHER + "]")
row("tree.contains", ["[" + DEEP + "]", DEEP], True)
row("tree.contains", ["[" + DEEP + "]", OTHER], False)
row("tree.walk", ["[" + DEEP + "]"], "ok", "[" + DEEP + "]")
row("value.join", ["tree", "[" + OTHER + "]", "[" + DEEP + "]"], "ok", "[" + DEEP + "," + OTHER + "]")

# Flat sets.
FIVE, SIX = "a a/a a/b a/b/a c", "- a a/a a/b/a a/b/b c/b"
row("paths.gathered", [lists("c/b a/b/a a - a/a c/b a/b/b")], "ok", lists(SIX))
row("paths.gathered", ["[]"], "ok", "[]")
for call in ["paths.union_with", "paths.take"]:
    for ours, theirs, union in [
            (SIX, "d a/b/a a/b", "- a a/a a/b a/b/a a/b/b c/b d"), ("", SIX, SIX), (SIX, "", SIX), ("a", "a", "a")]:
        row(call, [lists(ours), lists(theirs)], "ok", lists(union))
# The driver's carriers are the empty list, which a missing part that is not empty so has.
for ours, theirs, part in [("a b", "a", "- b"), ("a b", "b a", ""), ("a", "", "- a"), ("- a", "-", "- a")]:
    row("paths.missing_with_carriers", [lists(ours), lists(theirs)], "ok", lists(part))
for given, held in [("a", True), ("-", True), ("a/b", False), ("a/b/b", True), ("b", False), ("c/b/a", False), ("c", False)]:
    row("paths.holds", [lists(SIX), lst(given)], held)
    row("paths.contains", [lists(SIX), lst(given)], held)
ALL = "- a a/a a/a/a a/a/b a/b a/b/a a/b/b b b/a b/a/a b/a/b b/b b/b/a b/b/b"
for given in ["b/b/b/b", "a/c", "c", "a/b/a/b"]:
    row("paths.holds", [lists(ALL), lst(given)], False)
    row("paths.contains", [lists(ALL), lst(given)], False)
for written, front, ends in [
        (SIX, "-", True), (SIX, "c", True), (SIX, "c/b", True), (SIX, "c/b/a", False), (SIX, "a", False), ("", "-", False)]:
    row("paths.last_starts_with", [lists(written), lst(front)], ends)
row("paths.least", [lists(SIX)], "ok", *option("-"))
row("paths.least", [lists("c b/a")], "ok", *option("b/a"))
row("paths.least", [lists("")], "ok", "none")
for given, found in [("-", "a"), ("a", "a/a"), ("a/b", "a/b/a"), ("a/b/b", "c/b"), ("b", "c/b"), ("c", "c/b"), ("c/b", "")]:
    row("paths.list_after", [lists(SIX), lst(given)], "ok", *option(found))
for written, given, above in [
        ("a b", "b/a", True), ("a b", "c", True), ("a b", "b", False), ("a b", "a/z", False), ("", "-", True), ("-", "-", False)]:
    row("paths.is_above", [lists(written), lst(given)], above)
for written, given, after in [
        ("b", "a", "a b"), ("a b", "a", "a b"), ("", "-", "-"), ("a b", "a/a", "a a/a b"), ("a", "-", "- a"), ("a", "b", "a b"),
        ("-", "a", "- a"), ("a a/b", "a/b/a", "a a/b a/b/a")]:
    row("paths.insert", [lists(written), lst(given)], "ok", lists(after))
for prefix, found in [
        ("-", FIVE), ("a", "- a b b/a"), ("a/b", "- a"), ("a/b/a", "-"), ("a/b/b", ""), ("b", ""), ("c", "-"), ("d", "")]:
    row("paths.suffixes", [lists(FIVE), lst(prefix)], "ok", lists(found))
for written, path, shown in [("", "-", ""), ("-", "-", "-"), ("b a/b a -", "-", "- a a/b b"), ("a -", "p", "p p/a")]:
    row("paths.walk", [lists(written), lst(path)], "ok", lists(shown))
for prefix, found in [("-", "a"), ("a", "a"), ("a/b", "a"), ("c", "b"), ("c/b", ""), ("d", "")]:
    row("paths.least_text", [lists(SIX), lst(prefix)], *(["some", found] if found else ["none"]))
for prefix, text, found in [
        ("-", "a", "c"), ("-", "b", "c"), ("-", "c", ""), ("a", "a", "b"), ("a", "b", ""), ("a/b", "a", "b"), ("c", "a", "b")]:
    row("paths.next_child", [lists(SIX), lst(prefix), text], *(["some", found] if found else ["none"]))
for prefix, found in [("-", ["a", "c"]), ("a", ["a", "b"]), ("a/b", ["a", "b"]), ("c/b", []), ("d", [])]:
    row("paths.child_texts", [lists(SIX), lst(prefix)], "ok", *found)
for prefix, count in [("-", 1), ("a", 1), ("a/b", 0), ("c", 0), ("d", 0)]:
    row("paths.multi_valued_count_at", [lists(SIX), lst(prefix)], count)
for prefix, found in [("-", "a/b/a"), ("a", "b/a"), ("a/b", "a"), ("c", "b"), ("c/b", "-"), ("d", "")]:
    row("paths.longest_suffix", [lists(SIX), lst(prefix)], "ok", *option(found))

# Prefixes of lists.
row("prefix.copied", [lst("a/b")], "ok", lst("a/b"))
row("prefix.copied", [lst("-")], "ok", lst("-"))

# The example of the README: a site takes what it lacks of another one.
row("example.two_sites", [], True)
