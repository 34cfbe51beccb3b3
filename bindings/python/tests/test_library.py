"""Calls of the library itself, which CADF_LIBRARY names or which is found; left out where there is none."""
import doctest
import hashlib
import os
import sys
import threading
import unittest

HERE = os.path.dirname(os.path.abspath(__file__))
sys.path.insert(0, os.path.dirname(HERE))

import cadf
from cadf import _library

try:
    _library.load()
    ABSENT = ""
except ImportError as error:
    ABSENT = str(error)

A, B = '{"id":"g","events":[],"name":"a"}', '{"id":"g","events":[],"name":"b"}'
SCRIPT = "learn 0 %s\nsend 0\ndeliver 1 1\n" % A
SITES = b"site 0 atoms 1 as 0\nsite 1 atoms 1 as 0\nsite 2 atoms 0 as 2\n"


@unittest.skipIf(ABSENT, ABSENT)
class Calls(unittest.TestCase):
    def refuses(self, status, text, call, *arguments, **named):
        with self.assertRaises(cadf.CadfError) as caught:
            call(*arguments, **named)
        self.assertEqual((caught.exception.status, caught.exception.text), (status, text))
        return caught.exception

    def test_example(self):
        failed, tried = doctest.testmod(cadf)
        self.assertEqual((failed, tried > 0), (0, True))

    def test_version(self):
        self.assertEqual(len(cadf.version()), 3)

    def test_join_is_the_same_in_any_order(self):
        both = cadf.join([A, B])
        self.assertEqual(both, cadf.join((text.encode() for text in (B, A, B))))
        self.assertEqual(both, cadf.join([both, bytearray(both), memoryview(both)], log="g"))
        self.assertEqual(cadf.check(both), cadf.Check("g", 2, 1))
        self.refuses(1, "input 1: other log", cadf.join, [A], log="h")
        self.refuses(1, "no log named", cadf.join, [])
        self.refuses(2, "log name", cadf.join, [A], log="")
        self.refuses(2, "log name", cadf.join, [A], log="\x01")

    def test_split(self):
        whole = cadf.split("day", [A, B])
        self.assertEqual(whole, cadf.split("day", [cadf.join([B, A])], log="g"))
        self.assertTrue(whole.startswith(b'CADF-SPLIT 1\nL "g"\nB day\nP shared\n' + cadf.join([A, B])))
        self.refuses(1, "input 1: other log", cadf.split, "day", [A], log="h")
        self.refuses(1, "no log named", cadf.split, "hour", [])
        self.refuses(2, "log name", cadf.split, "day", [A], log="")
        for unit in ("week", "", "Day", "day\x00"):
            self.refuses(2, "unit", cadf.split, unit, [A])

    def test_a_delta_gives_what_the_whole_gives(self):
        delta = cadf.missing(A, B)
        self.assertEqual(cadf.join([B, delta]), cadf.join([A, B]))
        self.assertEqual(cadf.missing_by(A, cadf.inventory(B)), delta)
        self.refuses(1, "input 2: other log", cadf.missing, A, '{"id":"h","events":[]}')

    def test_one_set_has_one_seal(self):
        seal = cadf.seal(cadf.join([A, B]))
        self.assertEqual(seal, cadf.seal(cadf.join([B, A, B])))
        lines = [line.split() for line in seal.splitlines()]
        self.assertEqual([line[0] for line in lines], [b"CADF-SEAL", b"L", b"N", b"R", b"M", b"S", b"Z"])
        self.assertEqual((lines[2][1], lines[4][1]), (b"2", b"1"))  # two facts of one key
        self.assertNotEqual(seal, cadf.seal(A))
        self.refuses(1, "input 1: version", cadf.seal, seal)

    def test_facts_are_shown(self):
        both = [A, B]
        seal, proof = cadf.seal(cadf.join(both)), cadf.prove(A, both)
        digest, other = (hashlib.sha256(b'["P","name","\\"%s\\""]' % name) for name in (b"a", b"b"))
        hidden, digest = hashlib.sha256(b"\0" + other.digest()).hexdigest().encode(), digest.hexdigest().encode()
        self.assertTrue(proof.startswith(b'CADF-PROOF 1\nL "g"\nN\nH %s\nP %s\nZ ' % (hidden, digest)))
        self.assertEqual(proof, cadf.prove(A, [cadf.join(both)]))
        self.assertEqual(cadf.verify(seal, A, proof), b'present P "name" %s\n' % digest)
        self.assertEqual(self.refuses(1, "fact 1: present", cadf.verify, seal, A, proof, True).place, "fact 1")
        absent = cadf.prove(A, [B])
        self.assertEqual(cadf.verify(cadf.seal(B), A, absent, absent=True), b'absent P "name" %s\n' % digest)
        self.refuses(1, "fact 1: absent", cadf.verify, cadf.seal(B), A, absent)
        self.refuses(1, "input 3: other count", cadf.verify, seal, A, absent)
        self.refuses(1, "input 1: other log", cadf.prove, '{"id":"h","events":[]}', both)
        self.refuses(1, "no log named", cadf.prove, A, [])

    def test_keys_are_shown(self):
        def listed(*lines, log="g"):
            text = "".join(line + "\n" for line in ("CADF-KEYS 1", 'L "%s"' % log, *lines)).encode()
            return text + b"Z " + hashlib.sha256(text).hexdigest().encode() + b"\n"

        both, key, other = [A, B], '["P","name"]', '["P","none"]'
        seal, digest = cadf.seal(cadf.join(both)), hashlib.sha256(key.encode()).hexdigest().encode()
        proof = cadf.prove(listed(key), both, keys=True)
        self.assertTrue(proof.startswith(b'CADF-PROOF 1\nL "g"\nK\nP %s\nZ ' % digest))
        self.assertEqual(cadf.verify(seal, listed(key), proof, keys=True), b'present P "name" %s\n' % digest)
        self.assertEqual(self.refuses(1, "key 1: present", cadf.verify, seal, listed(key), proof, True, True).place, "key 1")
        absent = cadf.prove(listed(other), both, True)
        self.assertTrue(cadf.verify(seal, listed(other), absent, absent=True, keys=True).startswith(b'absent P "none" '))
        self.refuses(1, "key 1: absent", cadf.verify, seal, listed(other), absent, False, True)
        self.refuses(1, "input 3: no tree", cadf.verify, seal, listed(key), cadf.prove(A, both), False, True)
        self.refuses(1, "input 2: no keys", cadf.verify, seal, listed(), proof, False, True)
        self.refuses(1, "input 1: other log", cadf.prove, listed(key, log="h"), both, True)

    def test_growth_is_shown(self):
        both = cadf.join([A, B])
        proof, back = cadf.growth(cadf.sealed(A), [A, B]), cadf.growth(cadf.sealed(both), [A])
        self.assertEqual(cadf.grew(cadf.seal(A), cadf.seal(both), proof), b"added 1\n")
        gone = hashlib.sha256(b'["P","name","\\"b\\""]').hexdigest()
        self.refuses(1, "input 2: facts: gone: " + gone, cadf.grew, cadf.seal(both), cadf.seal(A), back)
        listed = self.listed("F " + gone)
        self.assertEqual(cadf.grew(cadf.seal(both), cadf.seal(A), back, erased=listed), b"added 0, erased 1\n")
        self.refuses(1, "input 4: truncated", cadf.grew, cadf.seal(both), cadf.seal(A), back, b"")
        self.refuses(1, "input 3: facts: other count", cadf.grew, cadf.seal(both), cadf.seal(A), proof)
        self.refuses(1, "input 1: version", cadf.growth, cadf.seal(A), [A])

    def test_what_is_erased_is_left_out(self):
        name = self.listed("K " + hashlib.sha256(b'["P","name"]').hexdigest())
        self.assertEqual(cadf.omit(name, [A, B]), cadf.join(['{"id":"g","events":[]}']))
        self.assertEqual(cadf.omit(self.listed(), [A, B]), cadf.join([A, B]))
        self.refuses(1, "input 1: version", cadf.omit, cadf.sealed(A), [A])
        self.refuses(1, "no log named", cadf.omit, name, [])

    @staticmethod
    def listed(*lines):
        """The erased list with these lines."""
        text = "".join(line + "\n" for line in ("CADF-ERASED 1", 'L "g"', *lines)).encode()
        return text + b"Z %s\n" % hashlib.sha256(text).hexdigest().encode()

    def test_a_sketch_gives_the_same_delta(self):
        delta, sketch = cadf.missing(A, B), cadf.sketch(B)
        self.assertEqual(cadf.missing_by_sketch(A, sketch), delta)
        self.assertEqual(cadf.missing_by_sketch(A, cadf.sketch(B, cells=6, salt=1)), delta)
        self.assertEqual(sketch, cadf.sketch(cadf.join([B]), cells=198))
        self.assertEqual(cadf.sketch(B, salt=3).split()[5:7], [b"198", b"3"])
        self.refuses(1, "input 2: too few cells: ask for 36", cadf.missing_by_sketch, A, cadf.sketch(B, cells=3))
        self.refuses(1, "input 2: truncated", cadf.missing_by_sketch, A, B[:10])
        for cells in (0, 1, 4, -3, 12_582_915, 1 << 64):
            self.refuses(2, "cells", cadf.sketch, B, cells=cells)
        for salt in (0, 2, -1, 1 << 64, (1 << 64) + 1):
            self.refuses(2, "salt", cadf.sketch, B, salt=salt)

    def test_show_and_rule(self):
        both = cadf.join([A, B])
        self.assertNotIn(b'"name"', cadf.show(both))
        self.assertIn(b'"values":["a","b"]', cadf.show(both, conflicts=True))
        ruled = cadf.rule("P", "name", 2, both)
        self.assertIn(b'"name":"b"', cadf.show(ruled))
        self.refuses(1, "no such value", cadf.rule, "P", "name", 3, both)
        for letter in ("X", "", "PP", "\u0150", "p"):
            self.refuses(2, "letter", cadf.rule, letter, "name", 1, both)
        for place in (0, -1, 10 ** 9, 1 << 64):
            self.refuses(2, "place", cadf.rule, "P", "name", place, both)
        self.refuses(2, "key", cadf.rule, "P", "", 1, both)

    def test_rehearse(self):
        self.assertEqual(cadf.rehearse("g", 3, SCRIPT), SITES)
        for sites in (0, 65, -1, 1 << 64):
            self.refuses(2, "sites", cadf.rehearse, "g", sites, SCRIPT)
        self.refuses(1, "line 2: script", cadf.rehearse, "g", 3, "ask 0\nask 00\n")

    def test_a_text_may_have_any_bytes(self):
        self.refuses(1, "input 1: not JSON", cadf.show, b'{"id":"g\x00')
        self.refuses(1, "input 1: not JSON", cadf.show, "")
        self.refuses(1, "input 1: not JSON", cadf.check, '{"id":"\ud800","events":[]}')
        self.refuses(2, "log name", cadf.join, [A], log="\ud800")
        self.refuses(2, "key", cadf.rule, "P", "\udfff", 1, A)
        self.assertEqual(cadf.check('{"id":"Zürich \\u0000\U0001f600","events":[]}'.replace("\\u0000", "")).log, "Zürich \U0001f600")

    def test_a_text_larger_than_the_first_room(self):
        many = '{"id":"g","events":[],%s}' % ",".join('"n%d":""' % number for number in range(2000))
        self.assertEqual(cadf.check(cadf.join([many])), cadf.Check("g", 2000, 0))

    def test_threads(self):
        answers, expected = [], cadf.join([A, B])
        threads = [threading.Thread(target=lambda: answers.append(cadf.join([A, B]))) for _ in range(8)]
        for thread in threads:
            thread.start()
        for thread in threads:
            thread.join()
        self.assertEqual(answers, [expected] * 8)


if __name__ == "__main__":
    unittest.main()
