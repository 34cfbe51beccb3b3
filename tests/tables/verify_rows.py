"""Worked rows of proofs: proofs that are made, facts that are verified by them, and what is refused.

    from verify_rows import WRITTEN, REFUSED

The files stand behind the command's words.
"""
from tests.tables.document_rows import FAILED, ONE
from tests.tables.proof_rows import RIGHT, WRONG, told
from tests.tables.seal_rows import proof, seal
from tests.tables.texts import C1, C2, CF, K1, KF, V1, V2, digits, document, line, replica
from tests.tables.worked_files import (
    CHAIN_TREE, CONFLICT, CONFLICT_TREE, EVENT_FILE, EVENT_TREE, NOTHING, NOTHING_TREE, RULED_TREE, RULING, RULING_TREE, SECOND_TREE,
    TWO, TWO_TREE,
)

D1, D2 = digits(C1), digits(C2)
HELD = [CF, KF, C1, K1]
BODIES = [digits(atom) for atom in HELD]
QUOTED = document(more=',"a\\"\u00e9":1')
OF_QUOTED = line("P", 'a"\u00e9', "1")
OTHER_LOG = document(log="h")
OTHER_PROOF = proof([D1], [D1], log='"h"')

# FACTS and files, and the proof.
PROVED = [
    ("a fact that is there", [EVENT_TREE, EVENT_TREE], proof([D1], [D1])),
    ("a fact that is there, in format 1", [EVENT_FILE, TWO], proof([D1], [D1, D2])),
    ("a fact that is not there", [SECOND_TREE, EVENT_TREE], proof([D2], [D1])),
    ("one that is there and one that is not", [TWO_TREE, CONFLICT_TREE], proof([D1, D2], BODIES)),
    ("an event by itself", [V1, TWO_TREE], proof([D1], [D1, D2])),
    ("a document", [document(V1, V2), TWO_TREE], proof([D1, D2], [D1, D2])),
    ("a chain and its body", [CHAIN_TREE, CONFLICT], proof([D1, digits(K1)], BODIES)),
    ("a document of chains", [document(ONE), document(ONE, FAILED)], proof([D1, digits(K1)], BODIES)),
    ("a ruling that is there", [RULING_TREE, RULED_TREE], proof([digits(RULING)], [*BODIES, digits(RULING)])),
    ("no facts", [document(), TWO_TREE], proof([], [D1, D2])),
    ("facts of nothing", [TWO_TREE, NOTHING], proof([D1, D2], [])),
    ("nothing of nothing", [NOTHING_TREE, document()], proof([], [])),
    ("facts of two files", [V2, EVENT_TREE, SECOND_TREE], proof([D2], [D1, D2])),
    ("facts of a file and an event", [V2, V2, EVENT_TREE], proof([D2], [D1, D2])),
]

# Words before the files, the files, and what is written.
WRITTEN = [(name, "prove", files, output) for name, files, output in PROVED] + [
    ("a fact that is there", "verify", [seal(C1), EVENT_TREE, proof([D1], [D1])], told("present", [C1])),
    ("an event by itself", "verify", [seal(C1, C2), V2, proof([D2], [D1, D2])], told("present", [C2])),
    ("an event by itself under another log", "verify", [seal(C1, log='"h"'), V1, OTHER_PROOF], told("present", [C1])),
    ("facts in their order", "verify", [seal(C1, C2), TWO, proof([D1, D2], [D1, D2])], told("present", [C1, C2])),
    ("all parts of an event", "verify", [seal(*HELD), CONFLICT_TREE, proof(BODIES, BODIES)], told("present", HELD)),
    ("a key that is quoted", "verify", [seal(OF_QUOTED), QUOTED, proof([digits(OF_QUOTED)], [digits(OF_QUOTED)])],
     'present P "a\\"\u00e9" %s\n' % digits(OF_QUOTED)),
    ("a ruling", "verify", [seal(RULING), RULING_TREE, proof([digits(RULING)], [digits(RULING)])], 'present U "e1" %s\n' % digits(RULING)),
    ("a fact that is absent", "verify --absent", [seal(C1), V2, proof([D2], [D1])], told("absent", [C2])),
    ("facts of nothing", "verify --absent", [seal(), TWO_TREE, proof([D1, D2], [])], told("absent", [C1, C2])),
    ("a fact that is absent among others", "verify --absent", [seal(*HELD), SECOND_TREE, proof([D2], BODIES)], told("absent", [C2])),
]
ASKS = {"present": "verify", "absent": "verify --absent"}
WRITTEN += [("what is %s, %d" % (word, number), ASKS[word], [of, replica(*facts), by], told(word, facts))
            for number, (of, by, word, facts) in enumerate(RIGHT, 1)]

# A call, its files, and what is refused.
REFUSED = [
    ("FACTS that are damaged, before a file", "prove", ["{", "CADF-REPLICA 3\n"], "input 1: not JSON"),
    ("a file that is damaged", "prove", [V1, "CADF-REPLICA 3\n"], "input 2: version"),
    ("a second file that is damaged, and no log", "prove", [OTHER_LOG, V1, "{"], "input 3: not JSON"),
    ("events by themselves, and no log but that of FACTS", "prove", [NOTHING, V1, V2], "no log named"),
    ("another log of FACTS", "prove", [OTHER_LOG, V1, NOTHING], "input 1: other log"),
    ("another log of FACTS and of a file", "prove", [OTHER_LOG, NOTHING, V1, OTHER_LOG], "input 4: other log"),
    ("a seal as FACTS", "prove", [seal(), NOTHING], "input 1: version"),
    ("a proof as a file", "prove", [NOTHING, proof([], [])], "input 2: version"),
    ("a file as a seal", "verify", [EVENT_TREE, EVENT_TREE, proof([D1], [D1])], "input 1: version"),
    ("a proof as a seal", "verify", [proof([D1], [D1]), "{", "{"], "input 1: version"),
    ("a seal that is cut", "verify", [seal(C1)[:-1], V1, proof([D1], [D1])], "input 1: truncated"),
    ("facts that are damaged, before a proof", "verify", [seal(C1), "{", ""], "input 2: not JSON"),
    ("a seal as facts", "verify", [seal(C1), seal(C1), ""], "input 2: version"),
    ("a seal as a proof, before another log", "verify", [seal(C1), OTHER_LOG, seal(C1)], "input 3: version"),
    ("facts and a proof of another log", "verify", [seal(C1), OTHER_LOG, OTHER_PROOF], "input 2: other log"),
    ("a proof of another log", "verify", [seal(C1), V1, OTHER_PROOF], "input 3: other log"),
    ("a proof of another log and another count", "verify", [seal(C1, C2), EVENT_TREE, OTHER_PROOF], "input 3: other log"),
    ("no facts, and a proof of another log", "verify", [seal(C1), NOTHING, OTHER_PROOF], "input 3: other log"),
    ("no facts", "verify", [seal(C1), NOTHING, proof([], [D1])], "input 2: no facts"),
    ("no facts of nothing", "verify", [seal(), document(), proof([], [])], "input 2: no facts"),
    ("no facts that are absent", "verify --absent", [seal(C1), document(), proof([], [D1])], "input 2: no facts"),
    ("no facts, and another count", "verify", [seal(C1), NOTHING_TREE, proof([], [])], "input 2: no facts"),
    ("no facts, and a leaf", "verify --absent", [seal(C1), document(), proof([D1], [D1])], "input 2: no facts"),
    ("another count and another root", "verify", [seal(C2), V1, proof([D1, D2], [D1, D2])], "input 3: other count"),
    ("a fact that isn't shown, behind one that is", "verify", [seal(*HELD, C2), TWO, proof([D1], [*BODIES, D2])], "fact 2: not shown"),
]
SAID = {"OtherCount": "input 3: other count", "NoTree": "input 3: no tree", "OtherRoot": "input 3: other root", "Order": "input 3: order",
        "NeighbourHidden": "input 3: neighbour hidden", "NotNeeded": "input 3: not needed",
        "NotShown": "fact %s: not shown", "Absent": "fact %s: absent", "Present": "fact %s: present"}
for number, (of, by, word, facts, fault) in enumerate(WRONG, 1):
    said, *places = fault.split()
    REFUSED.append(("what isn't %s, %d" % (word, number), ASKS[word], [of, replica(*facts), by], SAID[said] % tuple(places)))
