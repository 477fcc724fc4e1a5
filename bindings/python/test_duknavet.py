"""Each call through the shared object, on the small rules of docs/FORMATS.md and on rules from fixed seeds."""

import array
import copy
import ctypes
import doctest
import inspect
import os
import pickle
import random
import re
import typing
import unittest
import zlib

import duknavet
from duknavet import FINAL, INITIAL, NONE, PLAIN, Graded, Mark, Monitor, Reduction, Refused, Rounds, Rule

W = bytes([2, 0, 0, 0, 1, 2, 0, 1, 1, 0, 0, 0, 3])
THREE_GRADES = bytes([2, 0, 0, 0, 1, 2, 0, 1, 3, 0, 0, 0, 3, 0, 1, 2, 1, 1, 1])
Z = bytes([2, 0, 1, 1, 0, 2, 1, 0, 1, 0, 0, 0, 3])
TWICE = bytes([4, 0, 1, 2, 3, 1, 2, 3, 3, 2, 3, 3, 3, 3, 3, 3, 3, 2, 0, 1, 1, 0, 2, 0, 3])
AUTOMATON = bytes([2, 1, 2, 2, 4, 0, 0, 0, 1, 0, 1, 0, 1, 0, 1, 1, 1, 0])


HEADER = os.path.join(os.path.dirname(os.path.abspath(__file__)), "..", "..", "include", "duknavet.h")


def word(*letters):
    return bytes(letters)


def remainders(m, *images, marks=()):
    """The file of a rule whose products are sums modulo m, with the letters' elements modulo m too."""
    products = [[(a + b) % m for b in range(m)] for a in range(m)]
    return Rule(products, [image % m for image in images], list(marks)).to_bytes()


def left_zeros(n, marks=()):
    """The file of a rule whose products are a * b = a, with a letter for each element up to 16."""
    return Rule([[a] * n for a in range(n)], list(range(min(n, 16))), list(marks)).to_bytes()


def unions(sets, marks=()):
    """The file of a rule whose elements are the sets of some letters that are not empty, by number less 1, and whose products are unions."""
    count = (1 << sets) - 1
    products = [[((a + 1) | (b + 1)) - 1 for b in range(count)] for a in range(count)]
    return Rule(products, [(1 << letter) - 1 for letter in range(sets)], list(marks)).to_bytes()


def exactly(times):
    """The file of a rule that counts letter 1 up to one more than so often, and gives grade 3 where it comes just so often."""
    last = times + 1
    products = [[min(a + b, last) for b in range(last + 1)] for a in range(last + 1)]
    return Rule(products, [0, 1], [Mark(times, 0, 3)]).to_bytes()


class Calls(unittest.TestCase):
    def refused(self, number, input, place, call, *arguments):
        with self.assertRaises(Refused) as caught:
            call(*arguments)
        found = caught.exception
        self.assertEqual((found.number, found.input, found.place), (number, input, place))

    def test_strong(self):
        self.assertTrue(duknavet.strong(W))
        self.assertFalse(duknavet.strong(Z))
        self.refused(5, 1, 1, duknavet.strong, bytes([2, 1, 0, 0, 0, 2, 0, 1, 0, 0]))
        self.refused(1, 1, 0, duknavet.strong, b"")

    def test_member(self):
        self.assertEqual(duknavet.member(W, word(1), word(0)), Graded(3, 1))
        self.assertEqual(duknavet.member(W, b"", word(1)), Graded(0, 1))
        self.assertEqual(duknavet.member(Z, word(0), word(0)), Graded(3, 2))
        self.assertEqual(duknavet.member(THREE_GRADES, bytearray([0]), word(1)), Graded(2, 1))
        self.refused(10, 2, 2, duknavet.member, W, word(0), word(0, 1, 2))
        self.refused(11, 2, 0, duknavet.member, W, word(0), b"")

    def test_classes(self):
        found = duknavet.classes(Z)
        self.assertEqual(found.least, [0, None, 0, None])
        self.assertEqual((found.linked, found.classes, found.joins), (2, 1, 1))
        found = duknavet.classes(remainders(3, 1))
        self.assertEqual((found.linked, found.classes, found.joins), (3, 1, 2))

    def test_large_numbers(self):
        """Each field of an answer above 255, and a place above 65,535."""
        self.assertEqual(duknavet.classes(unions(6))[1:], (665, 665, 0))
        # 4 letters that among themselves leave the first as it is; 12 others, and what each of the 4 makes of them, which no product changes.
        actors, others = range(4), range(4, 16)
        named = {(actor,): actor for actor in actors}
        for other in others:
            for way in [(other,)] + [(actor, other) for actor in actors]:
                named[way] = len(named)

        def product(a, b):
            if len(a) == 2 or a[0] >= 4:
                return a
            return a if b[0] < 4 and len(b) == 1 else (a[0], b[-1])

        products = [[named[product(a, b)] for b in named] for a in named]
        images = [named[(letter,)] for letter in range(16)]
        file = Rule(products, images, []).to_bytes()
        self.assertEqual(duknavet.classes(file)[1:], (3856, 124, 3732))
        broken = bytearray(left_zeros(64))
        broken[1 + 40 * 64 + 5] = 7
        self.refused(5, 1, 163845, duknavet.strong, broken)

    def test_written_rules(self):
        self.assertEqual(duknavet.complement(W), bytes([2, 0, 0, 0, 1, 2, 0, 1, 2, 0, 0, 1, 3, 1, 1, 3]))
        self.assertEqual(duknavet.reduce(duknavet.automaton_rule(AUTOMATON)), W)
        self.refused(12, 1, 0, duknavet.reduce, Z)

    def test_maps_of_reductions(self):
        self.assertEqual(duknavet.reduce_with_map(W), Reduction(W, word(0, 1)))
        found = duknavet.reduce_with_map(duknavet.automaton_rule(AUTOMATON))
        self.assertEqual(found, Reduction(W, word(0, 1, 0)))
        all_of_one_grade = remainders(64, 1, marks=[Mark(0, 0, 2)])
        one_element = remainders(1, 0, marks=[Mark(0, 0, 2)])
        self.assertEqual(duknavet.reduce_with_map(all_of_one_grade), Reduction(one_element, bytes(64)))
        self.refused(12, 1, 0, duknavet.reduce_with_map, Z)
        self.refused(1, 1, 0, duknavet.reduce_with_map, b"")

    def test_confirm(self):
        exchanged = bytes([2, 0, 1, 1, 1, 2, 1, 0, 1, 0, 1, 1, 3])
        self.assertTrue(duknavet.confirm(W, exchanged, word(1, 0)))
        self.assertFalse(duknavet.confirm(W, exchanged, word(0, 1)))
        self.assertTrue(duknavet.confirm(W, bytearray(W), bytearray([0, 1])))
        for map in (b"", word(0), word(0, 1, 0), word(0, 2), word(0, 255), word(1, 0)):
            self.assertFalse(duknavet.confirm(W, W, map))
        self.assertFalse(duknavet.confirm(W, THREE_GRADES, word(0, 1)))
        self.assertFalse(duknavet.confirm(W, Z, word(0, 1)))
        self.assertFalse(duknavet.confirm(W, remainders(1, 0), word(0, 0)))
        rule = duknavet.automaton_rule(AUTOMATON)
        self.assertTrue(duknavet.confirm(rule, W, word(0, 1, 0)))
        self.assertFalse(duknavet.confirm(rule, rule, word(0, 1, 2)))
        self.refused(12, 1, 0, duknavet.confirm, Z, W, b"")
        self.refused(1, 2, 12, duknavet.confirm, Z, W[:12], word(0, 1))
        self.refused(5, 1, 1, duknavet.confirm, bytes([2, 1, 0, 0, 0, 2, 0, 1, 0, 0]), W[:12], b"")

    def test_two_rules(self):
        others = duknavet.complement(W)
        self.assertEqual(duknavet.both(W, others), W[:8] + bytes([0, 0]))
        self.assertEqual(duknavet.either(W, others), W[:8] + bytes([3, 0, 0, 0, 3, 0, 1, 3, 1, 1, 3]))
        self.assertEqual(duknavet.without(W, others), W)
        self.assertEqual(duknavet.without(others, W), others)
        self.assertEqual(duknavet.without(THREE_GRADES, bytearray(W)), W[:8] + bytes([2, 0, 0, 1, 2, 1, 1, 1]))

    def test_two_rules_refused(self):
        for call in (duknavet.both, duknavet.either, duknavet.without):
            self.refused(1, 2, 12, call, Z, W[:12])
            self.refused(5, 1, 1, call, bytes([2, 1, 0, 0, 0, 2, 0, 1, 0, 0]), W[:12])
            self.refused(18, 1, 0, call, Z, bytes([1, 0, 1, 0, 0, 0]))
            self.refused(12, 1, 0, call, Z, Z)
            self.refused(12, 2, 0, call, W, Z)
            self.refused(19, 1, 0, call, remainders(8, 1), remainders(9, 1))
            self.assertEqual(call(remainders(8, 1), remainders(8, 1))[0], 8)
        with self.assertRaises(Refused) as caught:
            duknavet.both(W, remainders(1, 1))
        self.assertEqual(caught.exception.kind, "LettersDiffer")
        said = "the first rule has 2 letters, but the second has 1 (refusal 18, input 1, place 0)"
        self.assertEqual(str(caught.exception), said)

    def test_temporal_rules(self):
        ones = duknavet.first_letter(2, 0b10, 2)
        self.assertEqual(ones, bytes([2, 0, 0, 1, 1, 2, 0, 1, 2, 0, 1, 0, 2, 1, 1, 2]))
        self.assertEqual(duknavet.constant(2, 3), bytes([1, 0, 2, 0, 0, 1, 0, 0, 0, 3]))
        self.assertEqual(duknavet.first_letter(2, 0b11, 3), duknavet.constant(2, 3))
        # Grade 3 for letter 0 first and 1 for letter 1: of 0, then 1 for ever, this, the other, what is next and until have four grades.
        graded = duknavet.either(duknavet.first_letter(2, 0b01, 3), duknavet.first_letter(2, 0b10, 1))
        rules = (graded, ones, duknavet.next(graded), duknavet.until(graded, ones))
        self.assertEqual([duknavet.member(rule, word(0), word(1)).grade for rule in rules], [3, 0, 1, 2])
        # The other way about letter 0 comes at once.
        self.assertEqual(duknavet.member(duknavet.until(ones, graded), word(0), word(1)).grade, 3)

    def test_temporal_rules_refused(self):
        self.refused(2, 1, 0, duknavet.constant, 0, 1)
        self.refused(2, 1, 0, duknavet.first_letter, 17, 0, 4)
        self.refused(3, 1, 0, duknavet.constant, 16, 4)
        self.refused(10, 1, 5, duknavet.first_letter, 3, 0b1100001, 1)
        self.refused(12, 1, 0, duknavet.next, Z)
        self.refused(23, 1, 0, duknavet.next, left_zeros(8))
        self.assertEqual(duknavet.next(left_zeros(7))[0], 56)
        self.refused(18, 1, 0, duknavet.until, W, remainders(1, 0))
        self.refused(12, 1, 0, duknavet.until, Z, Z)
        self.refused(12, 2, 0, duknavet.until, W, Z)
        self.refused(19, 1, 0, duknavet.until, remainders(8, 1), remainders(9, 1))
        self.assertRaises(ValueError, duknavet.first_letter, 2, 1 << 64, 1)
        self.assertRaises(ValueError, duknavet.constant, 2, -1)

    def test_rounds(self):
        self.assertEqual(duknavet.reduce_rounds(TWICE, 0), Rounds(0, False, [0, 1, 2, 1]))
        self.assertEqual(duknavet.reduce_rounds(TWICE, 1), Rounds(1, True, [0, 1, 2, 3]))
        self.assertEqual(duknavet.reduce_rounds(TWICE), Rounds(1, True, [0, 1, 2, 3]))
        # Finished is not whether a round was done, and without a limit all are.
        self.assertEqual(duknavet.reduce_rounds(W), Rounds(0, True, [0, 1]))
        found = duknavet.reduce_rounds(exactly(5), 2)
        self.assertEqual((found.rounds, found.finished), (2, False))
        found = duknavet.reduce_rounds(exactly(40))
        self.assertEqual((found.finished, found.blocks), (True, list(range(42))))
        self.assertGreater(found.rounds, 30)
        self.assertEqual(inspect.signature(duknavet.reduce_rounds).parameters["limit"].default, 64)
        self.refused(20, 1, 0, duknavet.reduce_rounds, TWICE, 65)
        self.refused(12, 1, 0, duknavet.reduce_rounds, Z)
        self.refused(1, 1, 24, duknavet.reduce_rounds, TWICE[:24])
        for limit in (-1, 1 << 64):
            self.assertRaises(ValueError, duknavet.reduce_rounds, TWICE, limit)

    def test_states(self):
        self.assertEqual(duknavet.state_kind(W, 0, 0), INITIAL)
        self.assertEqual(duknavet.state_kind(W, 0, 1), PLAIN)
        self.assertEqual(duknavet.state_kind(W, NONE, 1), FINAL)
        self.assertEqual([duknavet.state_kind(THREE_GRADES, s, e) for s, e in ((0, 0), (0, 1), (1, 1))], [INITIAL] * 3)
        self.assertEqual([duknavet.state_kind(THREE_GRADES, 0, 1, least) for least in (1, 2, 3)], [INITIAL, INITIAL, PLAIN])
        self.refused(17, 1, 0, duknavet.state_kind, Z, 0, 1)
        self.refused(3, 1, 0, duknavet.state_kind, Z, 0, 1, 0)
        self.refused(1, 1, 0, duknavet.state_kind, b"", 0, 0)
        for state in ((0, 0, 257), (1 << 64, 0, 1), (0, -1, 1)):
            self.assertRaises(ValueError, duknavet.state_kind, W, *state)

    def test_successors(self):
        self.assertEqual(duknavet.successors(W, NONE, 0, 0), [0, 1, NONE])
        self.assertEqual(duknavet.successors(W, NONE, 0, 1), [0])
        self.assertEqual(duknavet.successors(W, 1, 1, 0), [])
        self.refused(17, 1, 0, duknavet.successors, Z, 0, 1, 7)
        self.refused(10, 1, 0, duknavet.successors, Z, 0, 0, 2)
        self.refused(4, 1, 13, duknavet.successors, W + b"\0", 0, 0, 0)
        self.assertRaises(ValueError, duknavet.successors, W, 0, 0, 256)

    def test_kinds_of_refusals(self):
        with open(HEADER) as file:
            named = re.findall(r"^    DUKNAVET_(\w+) = (\d+)", file.read(), re.MULTILINE)
        kinds = {int(number): name.title().replace("_", "") for name, number in named if name != "RESULT"}
        self.assertEqual(duknavet.KINDS, kinds)
        self.assertEqual(sorted(kinds), [number for number in range(1, 25) if number != 9])
        found = {number: kind for number, kind in duknavet.KINDS.items() if number > 14}
        points = {15: "NameOutOfRange", 16: "NameNeverKept"}
        later = {17: "NoSuchState", 18: "LettersDiffer", 19: "TooManyPairs", 20: "LimitOutOfRange"}
        names = {21: "NameNotFree", 22: "NameNotPresent", 23: "TooManyClasses", 24: "UnbalancedFormula"}
        self.assertEqual(found, {**points, **later, **names})
        with self.assertRaises(Refused) as caught:
            duknavet.successors(Z, 0, 1, 0)
        self.assertEqual(caught.exception.kind, "NoSuchState")
        said = "(0, 1) is no state: 1·1 = 0, so 1 is not idempotent (refusal 17, input 1, place 0)"
        self.assertEqual(str(caught.exception), said)

    def test_included(self):
        self.assertIsNone(duknavet.included(W, bytes([1, 0, 0, 0, 3])))
        self.assertEqual(duknavet.included(THREE_GRADES, bytes([1, 0, 0, 0, 3])), (word(0), word(1)))
        self.refused(7, 2, 2, duknavet.included, W, bytes([1, 0, 1, 0, 3]))
        # u and v have lengths of their own.
        thirds = remainders(3, 1, marks=[Mark(1, 0, 3)])
        self.assertEqual(duknavet.included(thirds, bytes(2)), (word(0), word(0, 0, 0)))

    def test_monitor(self):
        monitor = Monitor(W)
        self.assertEqual((monitor.before, monitor.since), (duknavet.NONE, duknavet.NONE))
        self.refused(11, 1, 0, monitor.verdict)
        monitor.event(1)
        monitor.keep(3)
        monitor.mark()
        monitor.event(0)
        self.assertEqual(monitor.verdict(), Graded(3, 1))
        self.refused(10, 1, 0, monitor.event, 7)
        self.refused(16, 1, 0, monitor.return_to, 4)
        self.refused(15, 1, 0, monitor.keep, 8)
        self.assertEqual((monitor.before, monitor.since), (1, 0))
        monitor.return_to(3)
        self.assertEqual((monitor.before, monitor.since), (duknavet.NONE, 1))
        self.assertRaises(ValueError, monitor.event, 256)
        # A name that does not fit is none that does.
        for name in (-1, 1 << 64, (1 << 64) + 3, 5 - (1 << 64)):
            self.assertRaises(ValueError, monitor.keep, name)
            self.assertRaises(ValueError, monitor.return_to, name)
        self.refused(15, 1, 0, monitor.keep, (1 << 64) - 1)
        self.refused(16, 1, 0, monitor.return_to, 5)

    def test_advance(self):
        monitor = Monitor(W)
        self.assertIsNone(monitor.advance_stay())
        self.assertEqual(monitor.advance_event(1), Graded(0, 1))
        self.assertIsNone(monitor.advance_mark())
        self.assertEqual((monitor.before, monitor.since), (1, duknavet.NONE))
        self.assertEqual(monitor.advance_word(word(1, 0, 1)), Graded(3, 1))
        self.assertEqual(monitor.advance_word(b""), Graded(3, 1))
        self.assertEqual(monitor.advance_stay(), Graded(3, 1))
        self.refused(10, 1, 0, monitor.advance_event, 2)
        self.refused(10, 1, 2, monitor.advance_word, word(0, 1, 2, 7))
        self.assertEqual((monitor.before, monitor.since), (1, 0))
        self.assertRaises(ValueError, monitor.advance_event, 256)
        # A weak rule is refused before a foreign letter.
        self.refused(12, 1, 0, Monitor(Z).advance_event, 255)
        self.refused(12, 1, 0, Monitor(Z).advance_word, word(255))
        # A letter of order two settles after two turns, and the longest word is taken.
        flips = Monitor(remainders(2, 1, marks=[Mark(0, 0, 2)]))
        self.assertEqual(flips.advance_word(bytes(3)), flips.verdict())
        self.assertEqual(flips.verdict().turns, 2)
        self.assertEqual(flips.advance_word(bytes(duknavet.LOG)).turns, 2)
        self.refused(11, 1, 0, flips.advance_word, bytes(duknavet.LOG + 1))

    def test_feed(self):
        monitor = Monitor(Z)
        monitor.feed(b"")
        self.assertEqual((monitor.before, monitor.since), (duknavet.NONE, duknavet.NONE))
        monitor.feed(word(0, 1, 0))
        fed = (monitor.before, monitor.since)
        letters = Monitor(Z)
        for letter in (0, 1, 0):
            letters.event(letter)
        self.assertEqual(fed, (letters.before, letters.since))
        self.refused(10, 1, 1, monitor.feed, word(0, 7, 9))
        self.assertEqual((monitor.before, monitor.since), fed)

    def test_formula_rule(self):
        proper = duknavet.constant(2, 3)
        # Letter 0 at every place, or not.
        self.assertEqual(duknavet.formula_rule(2, word(0, 3, 1, 0, 9, 12, 0, 2, 4)), proper)
        self.assertEqual(duknavet.formula_rule(2, [1, 3]), proper)
        self.refused(24, 1, 0, duknavet.formula_rule, 2, b"")
        self.refused(24, 1, 2, duknavet.formula_rule, 2, word(1, 3, 7))
        self.refused(3, 1, 1, duknavet.formula_rule, 2, word(1, 4))
        self.refused(10, 1, 2, duknavet.formula_rule, 2, word(0, 3, 4, 0))

    def test_counts_and_stretches(self):
        self.assertEqual(duknavet.inspect(W), (W[0], 2, 1))
        self.refused(1, 1, len(W) - 1, duknavet.inspect, W[:-1])
        self.assertEqual(duknavet.stretch(word(0, 1, 0), word(1, 0), 1), word(1, 0))
        self.assertEqual(duknavet.stretch(word(0, 1, 0), word(1, 0), 6), word(0))
        self.assertEqual(duknavet.stretch(word(0, 1, 0), b"", 6), b"")

    def test_rules(self):
        rule = Rule.from_bytes(THREE_GRADES)
        self.assertEqual(rule.products, [[0, 0], [0, 1]])
        self.assertEqual(rule.images, [0, 1])
        self.assertEqual(rule.marks[1], Mark(0, 1, 2))
        self.assertEqual(rule.to_bytes(), THREE_GRADES)
        self.refused(4, 1, 13, Rule.from_bytes, W + b"\0")
        # A count has two bytes, and no room for one mark more than they write.
        many = [Mark(0, 0, 3)] * 65535
        self.assertEqual(Rule([[0]], [0], many).to_bytes()[4:9], bytes([255, 255, 0, 0, 3]))
        self.assertRaises(ValueError, Rule([[0]], [0], many + many[:1]).to_bytes)
        pairs = [Mark(s, e, 2) for s in range(16) for e in range(16)]
        self.assertEqual(Rule.from_bytes(left_zeros(16, pairs)).marks, pairs)

    def test_signatures_of_the_header(self):
        """Without types ctypes would hand numbers over, and take answers, as ints."""
        types = {"*": ctypes.c_char_p, "size_t": ctypes.c_size_t, "uint8_t": ctypes.c_uint8}
        with open(HEADER) as file:
            declared = re.findall(r"^uint64_t (duknavet_\w+)\(([^)]*)\);", file.read(), re.MULTILINE)
        self.assertGreater(len(declared), 19)
        for name, arguments in declared:
            function = getattr(duknavet._library, name)
            self.assertEqual(function.restype, ctypes.c_uint64, name)
            kinds = re.findall(r"\*|\bsize_t\b|\buint8_t (?!\*)", arguments)
            self.assertEqual(function.argtypes, [types[kind.strip()] for kind in kinds], name)

    def test_documented_example(self):
        self.assertEqual(doctest.testmod(duknavet).failed, 0)


class Cyclic(unittest.TestCase):
    """Sums modulo m, where the grade of v for ever can be said outright: that of the best marked sum of letters from its start."""

    def test_grades(self):
        numbers = random.Random(2015)
        seen = set()
        for _ in range(300):
            m = numbers.randint(1, 9)
            images = [1, numbers.randrange(m)]
            marks = [Mark(s, 0, numbers.randint(1, 3)) for s in range(m) if numbers.random() < 0.4]
            file = remainders(m, *images, marks=marks)
            grade = {mark.s: mark.grade for mark in marks}
            v = [numbers.randrange(2) for _ in range(numbers.randint(1, 5))]
            letters = v * m
            sums = [sum(images[letter] for letter in letters[:cut]) % m for cut in range(1, len(letters) + 1)]
            expected = max(grade.get(start, 0) for start in sums)
            self.assertEqual(duknavet.member(file, b"", bytes(v)).grade, expected)
            seen.add(expected)
        self.assertEqual(seen, {0, 1, 2, 3})


class Boards(unittest.TestCase):
    """Rules that enter and leave, against the grades of the lassos that each has heard."""

    def refused(self, number, input, place, call, *arguments):
        with self.assertRaises(Refused) as caught:
            call(*arguments)
        found = caught.exception
        self.assertEqual((found.number, found.input, found.place), (number, input, place))

    def test_refusals(self):
        board = duknavet.Board()
        self.assertEqual((board.lowest, board.names), (None, []))
        board.event(200)
        board.enter(3, W)
        self.refused(21, 1, 0, board.enter, 3, W)
        self.refused(21, 1, 0, board.enter, 8, W)
        self.refused(22, 1, 0, board.leave, 4)
        self.refused(12, 6, 0, board.enter, 6, Z)
        self.refused(1, 0, 12, board.enter, 0, W[:12])
        self.refused(10, 3, 0, board.event, 2)
        for name in (-1, 1 << 64):
            self.assertRaises(ValueError, board.enter, name, W)
            self.assertRaises(ValueError, board.leave, name)
        self.assertRaises(ValueError, board.event, 256)
        self.assertEqual((board.lowest, board.names), (None, [3]))

    def test_lent_bytes(self):
        """A state that is too short, a longer one, and a byte of a file that a foreign hand changed."""
        state, files = ctypes.create_string_buffer(b"\7" * 24, 24), ctypes.create_string_buffer(duknavet.BOARD_FILES)
        self.refused(13, 1, 0, duknavet._call, "board_empty", state)
        self.refused(13, 1, 0, duknavet._call, "board_mark", state, files)
        self.refused(13, 1, 0, duknavet._call, "board_enter", state, 0, W, files)
        self.assertEqual((state.raw, files.raw[:1]), (b"\7" * 24, b"\0"))
        board = duknavet.Board()
        board.enter(5, W)
        board._files[5 * duknavet.RULE_OUT + len(W)] = 9
        board.mark()
        board._files[5 * duknavet.RULE_OUT + 12] = 4
        self.refused(3, 5, 12, board.mark)

    def test_histories(self):
        numbers = random.Random(1414)
        seen = set()
        for _ in range(20):
            board, heard = duknavet.Board(), {}
            for _ in range(40):
                name, deed = numbers.randrange(8), numbers.randrange(8)
                if deed < 2 and name not in heard:
                    file = numbers.choice((W, THREE_GRADES, TWICE))
                    board.enter(name, file)
                    heard[name] = (file, b"", b"")
                elif deed == 2 and name in heard:
                    board.leave(name)
                    del heard[name]
                elif deed == 3:
                    board.mark()
                    heard = {name: (file, u + v, b"") for name, (file, u, v) in heard.items()}
                else:
                    letter = numbers.randrange(2)
                    board.event(letter)
                    heard = {name: (file, u, v + bytes([letter])) for name, (file, u, v) in heard.items()}
                grades = [duknavet.member(file, u, v).grade for file, u, v in heard.values() if v]
                self.assertEqual(board.lowest, min(grades, default=None))
                self.assertEqual(board.names, sorted(heard))
                seen.add((board.lowest, len(heard)))
        self.assertGreater(len(seen), 12)


class Pairs(unittest.TestCase):
    """Two rules made one, against the grades that both give to lassos. With every sum marked alike cyclic rules are strong."""

    def test_grades(self):
        numbers = random.Random(2026)
        ways = ((duknavet.both, min), (duknavet.either, max), (duknavet.without, lambda one, two: min(one, 3 - two)))
        seen = set()
        for _ in range(60):
            cyclic = []
            for _ in range(2):
                m, grade = numbers.randint(1, 6), numbers.randint(0, 3)
                marks = [Mark(s, 0, grade) for s in range(m) if grade > 0]
                cyclic.append(remainders(m, 1, numbers.randrange(m), marks=marks))
            first, second = (numbers.choice((W, THREE_GRADES, TWICE, own)) for own in cyclic)
            call, combined = numbers.choice(ways)
            file = call(first, second)
            self.assertTrue(duknavet.strong(file))
            for _ in range(10):
                u = bytes(numbers.randrange(2) for _ in range(numbers.randint(0, 3)))
                v = bytes(numbers.randrange(2) for _ in range(numbers.randint(1, 3)))
                one, two = (duknavet.member(own, u, v).grade for own in (first, second))
                self.assertEqual(duknavet.member(file, u, v).grade, combined(one, two))
                seen.add((call, one, two))
        self.assertGreater(len(seen), 20)


class Reductions(unittest.TestCase):
    """Sums modulo m with every sum marked alike, and the letters that come without end beside them: of such a rule the sums are not needed."""

    def test_maps(self):
        numbers = random.Random(1313)
        seen = set()
        for _ in range(80):
            m, image = numbers.randint(1, 7), numbers.randrange(7)
            # An element is a sum and whether letter 0 came: 2 * sum + 1 if it did not.
            products = [[2 * ((a // 2 + b // 2) % m) + (a & b & 1) for b in range(2 * m)] for a in range(2 * m)]
            images = [2 * (1 % m), 2 * (image % m) + 1]
            reached, waiting = set(), list(images)
            while waiting:
                a = waiting.pop()
                if a not in reached:
                    reached.add(a)
                    waiting.extend(products[a][b] for b in images)
            number = {a: at for at, a in enumerate(sorted(reached))}
            grade = {kind: numbers.randint(0, 3) for kind in (0, 1)}
            rows = [[number[products[a][b]] for b in sorted(reached)] for a in sorted(reached)]
            linked = [(s, e) for s in number.values() for e in number.values() if rows[e][e] == e and rows[s][e] == s]
            kind = [a & 1 for a in sorted(reached)]
            marks = [Mark(s, e, grade[kind[e]]) for s, e in linked if grade[kind[e]] > 0]
            file = Rule(rows, [number[a] for a in images], marks).to_bytes()
            found = duknavet.reduce_with_map(file)
            # Two elements where letter 0 without end has another grade than no letter 0 from some place on, else one.
            expected = bytes(kind) if grade[0] != grade[1] else bytes(len(rows))
            self.assertEqual(found.map, expected)
            self.assertTrue(duknavet.confirm(file, found.rule, found.map))
            self.assertEqual(duknavet.confirm(file, file, bytes(range(len(rows)))), len(rows) == found.rule[0])
            for at in range(len(rows)):
                other = bytearray(found.map)
                other[at] = (other[at] + 1) % 3
                self.assertFalse(duknavet.confirm(file, found.rule, other))
            seen.add((len(rows), found.rule[0]))
        self.assertGreater(len(seen), 10)


class Automata(unittest.TestCase):
    """The automaton of a rule against the grades of lassos: sets of states, letter by letter."""

    def accepts(self, file, least, u, v):
        n = file[0]
        idempotents = [e for e in range(n) if file[1 + e * n + e] == e]
        states = [(s, e) for e in idempotents for s in list(range(n)) + [NONE]]
        kinds = {state: duknavet.state_kind(file, *state, least) for state in states}
        letters = sorted(set(u + v))
        leads = {(state, a): [(t, state[1]) for t in duknavet.successors(file, *state, a)] for state in states for a in letters}

        def turn(start):
            """The states that v leads to from one, and whether a final state is met on some way there."""
            reached = {(start, False)}
            for a in v:
                reached = {(to, met or kinds[to] == FINAL) for state, met in reached for to in leads[state, a]}
            return reached

        now = {state for state in states if kinds[state] == INITIAL}
        for a in u:
            now = {to for state in now for to in leads[state, a]}
        turns = {state: turn(state) for state in states}

        def after(begun):
            found, waiting = set(), list(begun)
            while waiting:
                point = waiting.pop()
                if point not in found:
                    found.add(point)
                    waiting.extend((to, point[1] or met) for to, met in turns[point[0]])
            return found

        visited = {state for state, _ in after((state, False) for state in now)}
        return any((state, True) in after(turns[state]) for state in visited)

    def test_lassos(self):
        numbers = random.Random(2024)
        seen = set()
        for _ in range(60):
            m = numbers.randint(1, 4)
            marks = [Mark(s, 0, numbers.randint(1, 3)) for s in range(m) if numbers.random() < 0.5]
            file = remainders(m, 1, numbers.randrange(m), marks=marks)
            for file in (file, W, THREE_GRADES, TWICE):
                u = bytes(numbers.randrange(2) for _ in range(numbers.randint(0, 3)))
                v = bytes(numbers.randrange(2) for _ in range(numbers.randint(1, 3)))
                least = numbers.randint(1, 3)
                expected = duknavet.member(file, u, v).grade >= least
                self.assertEqual(self.accepts(file, least, u, v), expected)
                seen.add((duknavet.strong(file), expected))
        self.assertEqual(len(seen), 4)


class Inputs(unittest.TestCase):
    """What is taken for bytes, and what is refused before it is handed over."""

    def test_lists_do_for_bytes(self):
        for rule in (list(W), tuple(W), bytearray(W), memoryview(W), array.array("B", W), Rule.from_bytes(W), iter(list(W))):
            self.assertTrue(duknavet.strong(rule))
        self.assertEqual(duknavet.member(list(W), [1], (0,)), Graded(3, 1))
        self.assertEqual(duknavet.member(Rule.from_bytes(W), [], range(1)), Graded(3, 1))
        self.assertEqual(duknavet.both(list(W), Rule.from_bytes(W)), W)
        self.assertEqual(duknavet.included(list(W), [0, 0]), (word(0), word(0)))
        self.assertEqual(duknavet.automaton_rule(list(AUTOMATON)), duknavet.automaton_rule(AUTOMATON))
        self.assertTrue(duknavet.confirm(list(W), W, [0, 1]))
        self.assertEqual(duknavet.classes(list(Z)), duknavet.classes(Z))
        self.assertEqual(duknavet.reduce_with_map(list(W)), Reduction(W, word(0, 1)))
        self.assertEqual(duknavet.reduce_rounds(list(W)).blocks, [0, 1])
        monitor = Monitor(list(W))
        monitor.advance_word([1, 0])
        self.assertEqual(monitor.verdict(), Graded(3, 1))
        board = duknavet.Board()
        board.enter(0, list(W))
        self.assertEqual(board.names, [0])

    def test_other_things_are_refused_clearly(self):
        with self.assertRaisesRegex(TypeError, "a rule is bytes or a list of numbers, not str: read a text with `duknavet-tool convert`"):
            duknavet.strong("duknavet rule 1")
        with self.assertRaisesRegex(TypeError, "u is bytes or a list of numbers, not str"):
            duknavet.member(W, "1", word(0))
        with self.assertRaisesRegex(TypeError, "the second rule is bytes or a list of numbers, not NoneType"):
            duknavet.both(W, None)
        for odd in (7, 1.5, {0, 1}, {0: 1}, None):
            with self.assertRaisesRegex(TypeError, "v is bytes or a list of numbers, not "):
                duknavet.member(W, b"", odd)
        with self.assertRaisesRegex(TypeError, "v has '1' at 1, which is no number"):
            duknavet.member(W, b"", [0, "1"])
        for odd in (256, -1):
            with self.assertRaisesRegex(ValueError, f"v has {odd} at 2, which is no byte"):
                duknavet.member(W, b"", [0, 1, odd])

    def test_ragged_tables_are_refused(self):
        with self.assertRaisesRegex(ValueError, "row 1 of the products has 1, but there are 2 rows"):
            Rule([[0, 0], [0]], [0, 1], []).to_bytes()
        with self.assertRaisesRegex(ValueError, "row 0 of the products has 3, but there are 2 rows"):
            duknavet.strong(Rule([[0, 0, 1], [0]], [0, 1], []))
        with self.assertRaisesRegex(ValueError, "mark 1 has 2 numbers, not s, e and a grade"):
            Rule([[0]], [0], [Mark(0, 0, 3), (0, 0)]).to_bytes()
        with self.assertRaisesRegex(ValueError, "row 0 of the products has 256 at 0, which is no byte"):
            Rule([[256]], [0], []).to_bytes()
        with self.assertRaisesRegex(ValueError, "too many elements or letters"):
            Rule([[0]], [0] * 256, []).to_bytes()
        self.assertEqual(Rule.from_bytes(THREE_GRADES).to_bytes(), THREE_GRADES)

    def test_type_hints(self):
        named = [(name, own) for name, own in vars(duknavet).items() if not name.startswith("_")]
        functions = [(name, own) for name, own in named if inspect.isfunction(own) and own.__module__ == "duknavet"]
        for kind in (Monitor, duknavet.Board, Rule, Refused):
            own = [(name, getattr(part, "__func__", part)) for name, part in vars(kind).items()]
            functions += [(name, part) for name, part in own if inspect.isfunction(part) and not name.startswith("_")]
            functions.append((kind.__name__, kind.__init__)) if kind is not Rule else None
        self.assertGreater(len(functions), 35)
        for name, function in functions:
            hints = typing.get_type_hints(function)
            parameters = [own for own in inspect.signature(function).parameters if own != "self"]
            self.assertEqual(sorted(hints), sorted(parameters + ["return"]), name)


class Words(unittest.TestCase):
    """Refusals in words; that they are those of the Rust package is tested there."""

    def said(self, expected, call, *arguments):
        with self.assertRaises(Refused) as caught:
            call(*arguments)
        self.assertTrue(str(caught.exception).startswith(f"{expected} (refusal "), str(caught.exception))

    def test_words(self):
        self.said("(0·0)·1 = 0 but 0·(0·1) = 1", duknavet.strong, [2, 1, 0, 0, 0, 2, 0, 1, 0, 0])
        self.said("the file is empty", duknavet.strong, b"")
        self.said("letter 2 at position 2 of v: the rule has 2 letters", duknavet.member, W, [0], [0, 1, 2])
        why = "is weak: u: 0  v: 0 0 has grade 3, but u: 0  v: 1 has grade 0, both with the values 1 and 0"
        self.said(f"the rule {why}", duknavet.complement, Z)
        self.said(f"the second rule {why}", duknavet.both, W, Z)
        self.said("words have 72 pairs of values in the two rules, more than 64", duknavet.both, remainders(8, 1), remainders(9, 1))
        self.said("the name 3 was never kept", Monitor(W).return_to, 3)
        self.said("the name 8 is above 7", Monitor(W).keep, 8)
        self.said("letter 5: the rule has 2 letters", Monitor(W).event, 5)
        self.said("no event came since the last mark", Monitor(W).verdict)
        self.said("17 letters, not 1 to 16", duknavet.constant, 17, 3)
        self.said("the limit of 65 rounds is above 64", duknavet.reduce_rounds, W, 65)
        board = duknavet.Board()
        board.enter(3, W)
        self.said("the name 3 is taken", board.enter, 3, W)
        self.said("the name 4 is that of no rule on the board", board.leave, 4)
        self.said("letter 7: rule 3 has 2 letters", board.event, 7)
        self.said(f"entering as rule 4: the rule {why}", board.enter, 4, Z)
        self.said("entering as rule 5: the file is empty", board.enter, 5, b"")

    def test_long_words_are_told_what_to_do(self):
        long = [0] * 4225
        advice = "; Monitor(rule) takes longer ones: feed(u), mark(), feed(v), verdict()"
        self.said(f"u has 4225 letters, more than 4224{advice}", duknavet.member, W, long, [0])
        self.said(f"v has 4225 letters, more than 4224{advice}", duknavet.member, W, [], long)
        self.said("v has no letter", duknavet.member, W, long[1:], [])

    def test_feed(self):
        numbers = random.Random(46)
        for file in (W, Z, THREE_GRADES, TWICE):
            u, v = ([numbers.randrange(2) for _ in range(length)] for length in (4000, 200))
            by_feeding, event_by_event = Monitor(file), Monitor(file)
            by_feeding.feed(u)
            by_feeding.mark()
            by_feeding.feed(bytes(v))
            for letter in u:
                event_by_event.event(letter)
            event_by_event.mark()
            for letter in v:
                event_by_event.event(letter)
            self.assertEqual(by_feeding.save(), event_by_event.save())
            if duknavet.strong(file):
                self.assertEqual(by_feeding.verdict().grade, duknavet.member(file, u, v).grade)
            stood = by_feeding.save()
            with self.assertRaises(Refused) as caught:
                by_feeding.feed(v + [2] + v)
            self.assertEqual((caught.exception.number, caught.exception.place), (10, 200))
            self.assertEqual(caught.exception.words, "letter 2 at position 200 of the word: the rule has 2 letters")
            self.assertEqual(by_feeding.save(), stood)
        with self.assertRaises(TypeError):
            Monitor(W).feed("01")
        monitor = Monitor(W)
        monitor.feed([])
        self.assertEqual((monitor.before, monitor.since), (NONE, NONE))


class Saved(unittest.TestCase):
    """Monitors and boards copied, pickled and saved."""

    def copies(self, own):
        kind = type(own)
        yield copy.copy(own)
        yield copy.deepcopy(own)
        yield copy.deepcopy([own])[0]
        for protocol in range(pickle.HIGHEST_PROTOCOL + 1):
            yield pickle.loads(pickle.dumps(own, protocol))
        yield kind.from_saved(own.save())
        yield kind.from_saved(list(own.save()))

    def test_monitors(self):
        monitor = Monitor(THREE_GRADES)
        for step in (monitor.event, monitor.keep):
            step(1)
        monitor.mark()
        for other in self.copies(monitor):
            self.assertEqual(other.save(), monitor.save())
            other.event(1)
            self.assertEqual(other.verdict(), Graded(1, 1))
            other.keep(2)
            other.return_to(1)
            self.assertEqual((other.before, other.since), (NONE, 1))
            # What happens to the copy does not happen to the monitor.
            self.assertEqual((monitor.before, monitor.since), (1, NONE))
            with self.assertRaises(Refused):
                monitor.return_to(2)

    def test_boards(self):
        board = duknavet.Board()
        board.enter(3, W)
        board.enter(5, THREE_GRADES)
        board.event(1)
        for other in self.copies(board):
            self.assertEqual((other.names, other.lowest), ([3, 5], 0))
            other.leave(3)
            self.assertEqual((other.names, other.lowest), ([5], 1))
            self.assertEqual((board.names, board.lowest), ([3, 5], 0))

    def test_damage_is_noticed(self):
        monitor, board = Monitor(W), duknavet.Board()
        monitor.event(1)
        board.enter(0, W)
        for own in (monitor, board):
            kind, saved = type(own), own.save()
            for at in range(0, len(saved), 7):
                changed = bytearray(saved)
                changed[at] ^= 1
                with self.assertRaises(ValueError):
                    kind.from_saved(changed)
                with self.assertRaises(ValueError):
                    kind.from_saved(saved[:at])
        with self.assertRaises(ValueError):
            Monitor.from_saved(board.save())
        with self.assertRaises(ValueError):
            duknavet.Board.from_saved(monitor.save())
        # Bytes that are whole and say what cannot be are refused by the library.
        with self.assertRaises(Refused):
            Monitor.from_saved(duknavet.saved.seal("monitor", bytes([9, 9]) + bytes(24) + W))
        with self.assertRaises(Refused):
            Monitor.from_saved(duknavet.saved.seal("monitor", bytes([NONE, NONE]) + bytes(24) + b"x"))
        short = duknavet.saved.seal("monitor", bytes([NONE]))
        with self.assertRaises(ValueError):
            Monitor.from_saved(short)
        state = bytearray(board._state.raw)
        state[1] = 9
        with self.assertRaises(Refused):
            duknavet.Board.from_saved(duknavet.saved.seal("board", bytes(state) + zlib.compress(board._files.raw)))

    def test_refusals_are_pickled(self):
        try:
            duknavet.strong([2, 1, 0, 0, 0, 2, 0, 1, 0, 0])
        except Refused as refused:
            again = pickle.loads(pickle.dumps(refused))
            self.assertEqual((str(again), again.kind, again.place), (str(refused), refused.kind, refused.place))
        self.assertEqual(str(Refused(12, 1, 0)), "the rule is weak (refusal 12, input 1, place 0)")


if __name__ == "__main__":
    unittest.main()
