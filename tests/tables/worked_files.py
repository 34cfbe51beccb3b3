"""Files that the worked rows share, in both formats: those of format 2 are named as trees.

    from worked_files import CHAINS, CHAINS_TREE
"""
from tests.tables.texts import B1, BF, C1, C2, CF, K1, KF, S1, S2, digits, line, replica, tree

R1 = '{"id":"r1","typeURI":"storage"}'
K12 = line("E", "e1", B1, "C", S1, S2)
FRONT = ((1, 0, "E"), (2, 0, "e1"))
BODY_NODE, OTHER_NODE = (3, 1, B1), (3, 1, BF)
CHAIN_NODES, OTHER_CHAIN_NODES = ((4, 0, "C"), (5, 1, S1)), ((4, 0, "C"), (5, 1, S2))
SECOND = ((2, 0, "e2"), BODY_NODE)
NAMES = ((1, 0, "P"), (2, 0, "name"), (3, 1, '"north"'), (3, 1, '"south"'))
STORAGE = ((1, 0, "R"), (2, 0, "r1"), (3, 1, R1))

# Files of both formats: nothing, an event, it with two chains, with two bodies, and a property with two values.
NOTHING, NOTHING_TREE = replica(), tree()
EVENT_FILE, EVENT_TREE = replica(C1), tree(*FRONT, BODY_NODE)
CHAINS = replica(C1, K1, K12)
CHAINS_TREE = tree(*FRONT, BODY_NODE, *CHAIN_NODES, (6, 1, S2))
CONFLICT = replica(CF, KF, C1, K1)
CONFLICT_TREE = tree(*FRONT, OTHER_NODE, *OTHER_CHAIN_NODES, BODY_NODE, *CHAIN_NODES)
NAMED = replica(line("P", "name", '"north"'), line("P", "name", '"south"'), line("R", "r1", R1))
NAMED_TREE = tree(*NAMES, *STORAGE)
TAGGED, TAGGED_TREE = replica(C1, line("E", "e1", B1, "T", "x")), tree(*FRONT, BODY_NODE, (4, 0, "T"), (5, 1, "x"))
TWO, TWO_TREE = replica(C1, C2), tree(*FRONT, BODY_NODE, *SECOND)
SECOND_TREE = tree((1, 0, "E"), *SECOND)
OTHER_TREE = tree(*FRONT, OTHER_NODE, *OTHER_CHAIN_NODES)
CHAIN_TREE = tree(*FRONT, BODY_NODE, *CHAIN_NODES)

# The same with rulings.
RULING_NODES = ((1, 0, "U"), (2, 0, "E"), (3, 0, "e1"))
RULING_NODE, RULING = (4, 1, digits(BF)), line("U", "E", "e1", digits(BF))
BOTH_RULINGS = [(4, 1, one) for one in sorted([digits(B1), digits(BF)])]
BODIES = (*FRONT, OTHER_NODE, *OTHER_CHAIN_NODES, BODY_NODE, *CHAIN_NODES)
RULED_TREE, TWICE_RULED_TREE = tree(*BODIES, *RULING_NODES, RULING_NODE), tree(*BODIES, *RULING_NODES, *BOTH_RULINGS)
RULING_TREE = tree(*RULING_NODES, RULING_NODE)
SOUTH_TREE = tree(*NAMES, *STORAGE, (1, 0, "U"), (2, 0, "P"), (3, 0, "name"), (4, 1, digits('"south"')))
UNHELD = replica(C1, RULING)
HELD_TREE = tree(*FRONT, OTHER_NODE, BODY_NODE, *RULING_NODES, RULING_NODE)
