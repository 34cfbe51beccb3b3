"""Generated replica files of format 2 with something odd in their nodes."""
from tests.generated.odd_files import DIGITS, atoms_of, documents_told, with_rulings
from tests.generated.odd_lines import ODD_LINES, damaged
from tests.generated.odd_values import PIECES, odd_name
from tests.reference.json_text import spelled
from tests.reference.replica_files import FIRST_LINES, nodes_of
from tests.reference.sealed_files import head, sealed

DEPTHS = [-1, 0, 1, 2, 3, 4, 5, 6, 2 ** 32, 2 ** 64 - 1, 2 ** 64, None, True, "1", [1], {}]
MARKS = [0, 1, 2, 2, 2, -1, 2 ** 64 - 1, None, True, False, "0", "1", [], {}]
ELEMENTS = ["", "A", "C", "E", "G", "M", "P", "R", "T", "U", "X", "Z", "e", "EE", "\u0415", "e1", "e2", "zz", "id", "typeURI", "{}",
            "[]", "1", "null", '"x"', '{"id":"e1"}', *DIGITS[:3], None, 0, True, [], ["E"], {}]
LINES = [b'[1,0,"E"]', b'[1,0,"R"]', b'[1,1,"E"]', b'[1,0,"X"]', b'[1,0,"U"]', b"[1,0]", b"[1]", b'[1,0,"E",0]', b'[1,0,"E","E"]', b'{"1":0}',
         b'[1,0,E]', b'[1.0,0,"E"]', b'[1,0.0,"E"]', b'[01,0,"E"]', b'[-0,0,"E"]', b'[1e0,0,"E"]', b'[1,0,"\\u0045"]', b'[1, 0,"E"]',
         b'[18446744073709551615,0,"E"]', b'[18446744073709551616,0,"E"]', b'["E","e1","{}"]', b'[99,1,"x"]', b"[99,7,7]",
         b"[5,null,null]", b"[4,0]", b'[0,0,"E"]', b'[0,0,"X"]', b'[0,1,""]', b'[-1,0,"E"]', b"[2,0,{}]", b'[3,1,"\xff"]', b'[4,0,"C"']


def is_node(value):
    return isinstance(value, list) and len(value) == 3


def some_place(chance, nodes):
    return chance.randrange(len(nodes))


def subtree(nodes, place):
    """The end of what stands below the node at that place."""
    end = place + 1
    while end < len(nodes) and is_node(nodes[end]) and str(nodes[end][0]).isdigit() and nodes[end][0] > nodes[place][0]:
        end += 1
    return end


def with_part(chance, nodes, part, value):
    """Changes one part of a node."""
    nodes[some_place(chance, nodes)][part] = value


def move_depth(chance, nodes):
    """Makes a node deeper or less deep, perhaps with all that stands below it."""
    place, step = some_place(chance, nodes), chance.choice([-2, -1, -1, 1, 1, 2])
    for node in nodes[place:subtree(nodes, place) if chance.random() < 0.5 else place + 1]:
        node[0] += step


def turn_mark(chance, nodes):
    node = chance.choice(nodes)
    node[1] = 1 - node[1]


def unmark_body(chance, nodes):
    bodies = [node for node in nodes if node[0] == 3]
    if bodies:
        chance.choice(bodies)[1] = 0


def change_element(chance, nodes):
    node = chance.choice(nodes)
    node[2] = chance.choice([
        chance.choice(nodes)[2], node[2][:-1], node[2] + chance.choice("a!\u00e9\uffff\U00010000"), node[2] + node[2], odd_name(chance),
        chance.choice(ELEMENTS), chance.choice(["", " "]) + node[2], node[2].replace(",", ", ", 1), node[2].upper(), node[2].lower(),
        damaged(chance, node[2].encode() or b"x", 1).decode(errors="replace")])


def repeat_node(chance, nodes):
    """A node twice, or with all that stands below it."""
    place = some_place(chance, nodes)
    end = subtree(nodes, place) if chance.random() < 0.5 else place + 1
    nodes[end:end] = [list(node) for node in nodes[place:end]]


def drop_node(chance, nodes):
    place = some_place(chance, nodes)
    del nodes[place:chance.choice([place + 1, subtree(nodes, place), len(nodes)])]


def drop_below(chance, nodes):
    """Leaves a node without what stands below it."""
    place = some_place(chance, nodes)
    del nodes[place + 1:subtree(nodes, place)]


def swap_siblings(chance, nodes):
    """Two subtrees in the wrong order."""
    place = some_place(chance, nodes)
    middle = subtree(nodes, place)
    if middle < len(nodes) and nodes[middle][0] == nodes[place][0]:
        end = subtree(nodes, middle)
        nodes[place:end] = nodes[middle:end] + nodes[place:middle]


def swap_nodes(chance, nodes):
    first, second = some_place(chance, nodes), some_place(chance, nodes)
    nodes[first], nodes[second] = nodes[second], nodes[first]


def swap_elements(chance, nodes):
    first, second = chance.choice(nodes), chance.choice(nodes)
    first[2], second[2] = second[2], first[2]


def insert_node(chance, nodes):
    """A further node, mostly one that could stand somewhere, without a mark or with one."""
    place = chance.randint(0, len(nodes))
    depth = nodes[place - 1][0] + chance.choice([-1, 0, 1]) if place else 1
    nodes.insert(place, [depth, chance.choice([0, 0, 1]), chance.choice(ELEMENTS)])


def insert_leaf(chance, nodes):
    """A leaf without a mark, where its element may stand."""
    place = some_place(chance, nodes)
    depth, _, element = nodes[place]
    likely = {1: chance.choice("GMPR"), 2: element + "a", 4: chance.choice("CT")}
    leaf = likely.get(depth, chance.choice(PIECES).decode(errors="replace"))
    nodes.insert(subtree(nodes, place), [depth, 0, leaf])


def insert_line(chance, nodes):
    nodes.insert(chance.randint(0, len(nodes)), chance.choice(chance.choice([LINES, ODD_LINES])))


def insert_below(chance, nodes):
    """Something odd behind a node without a mark: which of both lines is refused?"""
    open_places = [place for place, node in enumerate(nodes) if node[1] == 0]
    place = chance.choice(open_places) if open_places else len(nodes) - 1
    depth = nodes[place][0]
    nodes.insert(place + 1, chance.choice([
        chance.choice(LINES), chance.choice(ODD_LINES), [depth + 1, chance.choice(MARKS), chance.choice(ELEMENTS)],
        [depth + 2, 0, "x"], [depth, 0, "x"], [depth + 1], [depth + 1], [depth + 1, 7, 7, 7], [0, 0, "X"],
        b'[%d,0,"x"' % (depth + 1), b'[%d,0,"\xff"]' % (depth + 1),
        b'[%d, 0,"x"]' % (depth + 1), [depth + 1, None, {}], [str(depth + 1), 0, "x"]]))

DAMAGES = [
    lambda chance, nodes: with_part(chance, nodes, 0, chance.choice(DEPTHS)),
    lambda chance, nodes: with_part(chance, nodes, 1, chance.choice(MARKS)),
    lambda chance, nodes: with_part(chance, nodes, 1, chance.choice(MARKS)),
    move_depth, move_depth, turn_mark, turn_mark, unmark_body, change_element, change_element, repeat_node, repeat_node, drop_node,
    drop_below, drop_below, swap_siblings, swap_siblings, swap_nodes, swap_elements, insert_node, insert_leaf, insert_leaf, insert_line,
    insert_below, insert_below, insert_below]


def spelled_node(node):
    return node if isinstance(node, bytes) else spelled(node).encode()


def odd_nodes_file(chance):
    """A file of a small set, of which something about the nodes was changed once, or a line damaged too."""
    nodes = [list(node) for node in nodes_of(with_rulings(chance, atoms_of(documents_told(chance, 1, 3))))]
    if nodes:
        chance.choice(DAMAGES)(chance, nodes)
    lines = [spelled_node(node) for node in nodes]
    if lines and chance.random() < 0.15:
        place = some_place(chance, lines)
        lines[place] = damaged(chance, lines[place], 1)
    if chance.random() < 0.1:
        lines.insert(chance.randint(0, len(lines)), chance.choice(LINES))
    made = sealed(head(FIRST_LINES[2] if chance.random() < 0.97 else FIRST_LINES[1], "g") + lines)
    return made if chance.random() < 0.95 else made[:-3] + b"x" + made[-2:]
