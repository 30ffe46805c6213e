"""Tests of the test side itself: brute.py is held to the text of document 01 and of Tickets 1 to 5.

    python3 -m unittest discover -s tests        (or: python3 tests/test_brute.py)
"""

import contextlib
import io
import itertools
import os
import random
import struct
import tempfile
import unittest

import brute
import comparing
import files
import large
import large_word_test
import run_cases
import run_compare
import run_paths
import run_permit
import run_word_test
import run_write
import script
import stored
import unknowns


def hexadecimal(text):
    return bytes.fromhex(text)


def file_with(n, edges, permits=(), labels=1, language=0, longest=2, unknown=()):
    """A file that says this."""
    matter = files.Matter(n, labels, language, longest, set(edges), set(permits), set(unknown))
    return files.lay_out(matter, random.Random(1)).bytes()


def house_with(n, edges, permits=(), labels=1, language=0, longest=2, unknown=()):
    return brute.decode(file_with(n, edges, permits, labels, language, longest, unknown))


CASES = "ABCDEFGHIJ"

# 01's verdict of each case.
VERDICTS = {
    "A": ("convertible", 7),
    "B": ("rival", (0, 1), (1, 2)),
    "C": ("no-word", (2, 0)),
    "D": ("no-word", (0, 2)),
    "E": ("convertible", 2),
    "F": ("convertible", 6),
    "G": ("convertible", 7),
    "H": ("convertible", 8),
    "I": ("rival", (0, 1), (1, 0)),
    "J": ("convertible", 6),
}

# 01's list of each convertible case.
LISTS = {
    "A": "01 00 01 00 02 00 00",
    "E": "00 00",
    "F": "01 00 01 00 01 00",
    "G": "01 00 01 00 02 02 02",
    "H": "01 00 02 00 01 00 01 04",
    "J": "01 00 01 00 01 01",
}

# What permitconv prints. 01 writes out A, B and C; the others follow from its rules.
TEXTS = {
    "A": "convertible 7\n00.00\n",
    "B": "not-convertible 0 1 rival 1 2\n",
    "C": "not-convertible 2 0 no-word\n",
    "D": "not-convertible 0 2 no-word\n",
    "E": "convertible 2\n",
    "F": "convertible 6\n00\n",
    "G": "convertible 7\n02.02\n",
    "H": "convertible 8\n00 & 04\n",
    "I": "not-convertible 0 1 rival 1 0\n",
    "J": "convertible 6\n01\n",
}

# The pairs that each mined list permits, as places 32a + b of scratch.
SCRATCH = {"A": [2], "E": [], "F": [1, 34], "G": [64], "H": [1], "J": [32]}


class TenCases(unittest.TestCase):

    LENGTH_OF_A = 26

    def file(self, letter):
        return stored.case_file(letter)

    def test_files_are_accepted(self):
        for letter in CASES:
            self.assertEqual(brute.call_check(self.file(letter)), ("accepted",), letter)

    def test_the_length_of_a(self):
        self.assertEqual(len(self.file("A")), self.LENGTH_OF_A)

    def test_verdicts(self):
        for letter in CASES:
            self.assertEqual(brute.call_verdict(self.file(letter)), VERDICTS[letter], letter)

    def test_mined_lists(self):
        for letter, text in LISTS.items():
            listed = hexadecimal(text)
            reply, scratch, output = brute.call_mining(
                self.file(letter), b"\xAA" * 1030, b"\xBB" * 20)
            self.assertEqual(reply, ("length", len(listed)), letter)
            self.assertEqual(output, listed + b"\xBB" * (20 - len(listed)), letter)
            ones = [at for at in range(1024) if scratch[at] == 1]
            self.assertEqual(ones, SCRATCH[letter], letter)
            self.assertEqual(scratch.count(0), 1024 - len(ones), letter)
            self.assertEqual(scratch[1024:], b"\xAA" * 6, letter)

    def test_output_of_exactly_the_length_is_enough(self):
        for letter, text in LISTS.items():
            listed = hexadecimal(text)
            reply, _, output = brute.call_mining(
                self.file(letter), bytes(1024), b"\xBB" * len(listed))
            self.assertEqual((reply, output), (("length", len(listed)), listed), letter)

    def test_others_are_refused_13(self):
        for letter in CASES:
            if letter not in LISTS:
                self.assertEqual(brute.call_mining(self.file(letter), b"\xAA" * 1024, b""),
                                 (("refused", 13), b"\xAA" * 1024, b""), letter)

    def test_permit_of_each_list(self):
        for letter, text in LISTS.items():
            house = brute.decode(self.file(letter))
            for u, v in brute.pairs(house):
                answer = brute.call_permit(self.file(letter), hexadecimal(text), u, v)
                wanted = ("yes",) if (u, v) in house.permits else ("no",)
                self.assertEqual(answer, wanted, (letter, u, v))

    def test_permitconv(self):
        for letter in CASES:
            self.assertEqual(brute.permitconv(self.file(letter)), TEXTS[letter], letter)

    def test_permitconv_refused(self):
        self.assertEqual(brute.permitconv(stored.case_file("A with record 2's next 01 00")), "refused 4\n")
        self.assertEqual(brute.permitconv(self.file("A") + bytes(50000)), "refused 1\n")
        self.assertEqual(brute.permitconv(b"\3" + self.file("A")[1:] + bytes(50000)), "refused 2\n")

    def test_permitconv_list_too_long(self):
        self.assertEqual(brute.permitconv(self.file("A"), room=7), "convertible 7\n00.00\n")
        self.assertEqual(brute.permitconv(self.file("A"), room=6), "convertible 7\nrefused 14\n")

    def test_permitconv_two_terms(self):
        data = file_with(3, [(0, 1, 0), (1, 2, 1)], [(0, 1), (1, 2)], labels=2, longest=1)
        self.assertEqual(brute.permitconv(data), "convertible 10\n00\n04\n")


class TenCasesInEdition2(TenCases):
    """02: verdicts and mined lists are those of the same matter in edition 1. A's file has 8 + 6 + 15 bytes."""

    LENGTH_OF_A = 29

    def file(self, letter):
        made = files.lay_out(brute.decode(stored.case_file(letter)), random.Random(7), 2).bytes()
        self.assertEqual(made[0], 2)
        return made


# Changes of A in edition 2: the place that is changed, its new byte, and the numbers that hold at the first
# fault, the refusal first. Records stand at 14, 19 and 24, of parties 0, 0 and 1; the heads stand at 8, 10, 12.
FIRST_FAULTS = [
    (18, 1, [15]), (23, 1, [15]), (23, 2, [15]), (23, 3, [15]), (23, 255, [15]), (28, 0, [15]), (28, 2, [15]), (28, 3, [15]),
    (10, 1, [4, 15, 6]),     # record 1 of party 0 goes to party 1
    (10, 2, [4, 15]),
    (12, 3, [4, 15, 6]),     # record 3 of party 1 goes to party 2
    (10, 4, [3]), (26, 4, [3]), (26, 3, [4, 8]), (10, 0, [5]),
    (24, 1, [6]), (24, 3, [6]), (25, 1, [7]), (19, 0, [6]), (20, 1, [7]),
    (8, 3, [15]),            # record 3 of party 1 stands first in party 0's chain
    (8, 0, [5]), (16, 0, [5]), (16, 3, [15]),
    (0, 1, 1), (0, 3, 2), (0, 0, 2), (0, 255, 2), (6, 2, 1), (6, 4, 1),
]

# Two changes of A in edition 2, and the same.
TWO_CHANGES = [
    ((28, 0), (24, 3), [15, 6]), ((28, 0), (24, 1), [15, 6]), ((28, 3), (25, 1), [15, 7]), ((18, 2), (15, 1), [15, 7]),
    ((10, 0), (28, 2), [5]), ((10, 0), (28, 255), [5]), ((28, 0), (26, 9), [15]), ((14, 3), (28, 0), [6]),
    ((14, 3), (18, 3), [15, 6]), ((0, 3), (6, 4), 2),
]


class Owners(unittest.TestCase):
    """02's refusal 15, after 4 and before 6."""

    A2 = hexadecimal("02 03 01 00 02 00 03 00  01 00 03 00 00 00  01 00 02 00 00  02 FF 00 00 00  02 00 00 00 01")

    def changed(self, *changes):
        data = bytearray(self.A2)
        for at, new in changes:
            data[at] = new
        return bytes(data)

    def faults(self, data, wanted):
        """The refusal of a file, and where it is for its chains, all numbers that hold at the first fault."""
        if isinstance(wanted, list):
            self.assertEqual(brute.first_fault(data).numbers, wanted, data.hex(" "))
            wanted = wanted[0]
        self.assertEqual(brute.check(data), wanted, data.hex(" "))

    def test_accepted(self):
        self.assertEqual(brute.check(self.A2), 0)
        self.assertIsNone(brute.first_fault(self.A2))
        self.assertEqual(brute.decode(self.A2), brute.decode(stored.case_file("A")))

    def test_one_change(self):
        for at, new, wanted in FIRST_FAULTS:
            self.faults(self.changed((at, new)), wanted)

    def test_two_changes(self):
        for one, other, wanted in TWO_CHANGES:
            self.faults(self.changed(one, other), wanted)

    def test_15_is_before_8(self):
        # Record 2 becomes the relation (0,1) once more.
        self.faults(self.changed((19, 1), (20, 0)), [8])
        self.faults(self.changed((19, 1), (20, 0), (23, 1)), [15, 8])

    def test_edition_1_has_no_owner(self):
        self.assertIsNone(brute.owner_of(stored.case_file("A"), 1))
        self.assertEqual([brute.owner_of(self.A2, number) for number in (1, 2, 3)], [0, 0, 1])
        self.faults(hexadecimal("01 03 01 00 02 00 02 00  02 00 01 00 00 00  02 00 00 00  02 00 00 00"), 0)

    def test_lengths(self):
        for length in (0, 7, 8, 14, 26, 28):
            self.assertEqual(brute.check(self.A2[:length]), 1, length)
        self.assertEqual(brute.check(self.A2 + b"\0"), 1)
        self.assertEqual(brute.check(b"\3" + self.A2[1:-1]), 2)
        self.assertEqual(brute.check(b"\2" + stored.case_file("A")[1:]), 1)
        self.assertEqual(brute.PROGRAM_INPUT, 8 + 2 * 32 + 5 * 8928 + 1)

    def test_the_same_replies_in_both_editions(self):
        rng = random.Random(61)
        for _ in range(60):
            matter = run_permit.with_pairs(rng, 60)
            one, other = (brute.Known(files.lay_out(matter, rng, edition).bytes()) for edition in (1, 2))
            self.assertEqual((one.edition, other.edition, one.house), (1, 2, other.house))
            self.assertEqual(brute.program_text(one), brute.program_text(other))
            self.assertEqual(brute.mining_reply(one, b"\7" * 1030, b"\7" * 3000), brute.mining_reply(other, b"\7" * 1030, b"\7" * 3000))
            lister = run_permit.Lister(rng, one)
            for asked in lister.calls(lister.some_pair()):
                given = script.given_bytes(asked.length, asked.symbols)
                lent = b"\7" * (asked.room + 32)
                self.assertEqual(*(script.word_reply(asked.call, known, asked.first, asked.second, given, lent) for known in (one, other)))


class RuledOut(unittest.TestCase):

    def test_one_rival_for_all_words(self):
        # In H each word of (0,1) is also a word of an unpermitted pair, but no pair has both.
        house = brute.decode(stored.case_file("H"))
        self.assertEqual(brute.words(house, 0, 2), [(0,)])
        self.assertEqual(brute.words(house, 1, 2), [(4,)])
        self.assertIsNone(brute.first_rival(house, brute.word_table(house), (0, 1)))

    def test_no_party_twice(self):
        house = brute.decode(stored.case_file("I"))
        self.assertEqual(brute.words(house, 0, 1), [(0,)])

    def test_the_pairs_second_party_only_at_the_end(self):
        house = house_with(3, [(0, 1, 0), (1, 2, 0), (2, 1, 0)], longest=3)
        self.assertEqual(brute.words(house, 0, 1), [(0,)])

    def test_no_term_without_words(self):
        self.assertEqual(brute.call_permit(stored.case_file("A"), hexadecimal("01 00 00 00"), 0, 2),
                         ("refused", 9))

    def test_no_absence_between_a_party_and_itself(self):
        house = brute.decode(stored.case_file("J"))
        for u in range(2):
            for symbol in range(4):
                self.assertFalse(brute.holds(house, u, u, symbol))
        self.assertEqual(brute.words(house, 1, 0), [(1,)])

    def test_a_rival_is_unpermitted(self):
        # In F the two permitted pairs have the same words.
        house = brute.decode(stored.case_file("F"))
        self.assertEqual(brute.words(house, 0, 1), brute.words(house, 1, 2))
        self.assertEqual(brute.call_verdict(stored.case_file("F"))[0], "convertible")

    def test_all_relations_of_a_pair_count(self):
        house = brute.decode(stored.case_file("H"))
        self.assertEqual(brute.words(house, 0, 1), [(0,), (4,)])


class Symbols(unittest.TestCase):

    def test_kinds_of_the_languages(self):
        wanted = {0: [0, 4], 1: [0, 1, 4, 5], 2: [0, 2, 4, 6], 3: [0, 1, 2, 3, 4, 5, 6, 7]}
        for language, symbols in wanted.items():
            self.assertEqual(brute.symbols(house_with(2, [], labels=2, language=language)), symbols)

    def test_holds(self):
        # One edge, (0, 1) with label 1, of two labels.
        house = house_with(2, [(0, 1, 1)], labels=2, language=3)
        held = [s for s in range(12) if brute.holds(house, 0, 1, s)]
        self.assertEqual(held, [1, 3, 4, 7])
        held = [s for s in range(12) if brute.holds(house, 1, 0, s)]
        self.assertEqual(held, [1, 3, 5, 6])

    def test_a_symbol_outside_the_language_does_not_hold(self):
        house = house_with(2, [(0, 1, 0)], language=0)
        self.assertEqual([s for s in range(40) if brute.holds(house, 0, 1, s)], [0])


# 02's Ticket 5 by hand: L, the language, the known and the unknown relations, and the symbols from 0 to 1 and from 1 to 0.
UNKNOWN_SYMBOLS = [
    (1, 3, [], [(0, 1, 0)], [3], [1]),
    (1, 3, [], [(1, 0, 0)], [1], [3]),
    (1, 3, [], [(0, 1, 0), (1, 0, 0)], [], []),
    (1, 3, [(1, 0, 0)], [(0, 1, 0)], [2], [0]),
    (1, 3, [(0, 1, 0)], [(1, 0, 0)], [0], [2]),
    (1, 3, [], [], [1, 3], [1, 3]),
    (1, 2, [(1, 0, 0)], [(0, 1, 0)], [2], [0]),
    (1, 2, [], [(0, 1, 0)], [], []),
    (1, 1, [], [(0, 1, 0)], [], [1]),
    (1, 1, [(1, 0, 0)], [(0, 1, 0)], [], [0]),
    (1, 0, [(1, 0, 0)], [(0, 1, 0)], [], [0]),
    (2, 3, [(0, 1, 1)], [(0, 1, 0)], [3, 4, 7], [1, 5, 6]),
    (2, 3, [], [(0, 1, 1)], [1, 3, 7], [1, 3, 5]),
    (8, 1, [], [(0, 1, 7)], [1, 5, 9, 13, 17, 21, 25], [1, 5, 9, 13, 17, 21, 25, 29]),
]

# Kind bytes to one target in a chain of L 2, in both editions: the refusals that hold at the first fault, or none.
KINDS_IN_A_CHAIN = [
    ("00 80", [16]), ("80 00", [16]), ("80 80", [8]), ("00 00", [8]), ("00 81", []), ("81 00", []), ("01 81", [16]), ("81 80", []),
    ("82", [7]), ("02", [7]), ("7F", [7]), ("88", [7]), ("FE", [7]), ("81", []), ("FF FF", [8]), ("FF 7F", [7]), ("FF 80", []),
    ("00 01 FF", []), ("80 81 FF", []), ("80 01 FF 81", [16]), ("80 01 FF 00", [16]), ("00 FF 80 00", [16]), ("80 00 80", [16]),
    ("80 82 00", [7]), ("80 FE", [7]),
]


class UnknownRelations(unittest.TestCase):
    """02's Ticket 5."""

    def test_symbols(self):
        for labels, language, edges, unknown, there, back in UNKNOWN_SYMBOLS:
            house = house_with(2, edges, labels=labels, language=language, unknown=unknown)
            for pair, wanted in (((0, 1), there), ((1, 0), back)):
                held = [symbol for symbol in range(40) if brute.holds(house, *pair, symbol)]
                self.assertEqual(held, wanted, (labels, language, edges, unknown, pair))

    def test_verdicts_and_lists(self):
        for name, verdict, text in (("(0,1) unknown, permit (1,0)", ("convertible", 6), "convertible 6\n01\n"),
                                    ("(0,1) unknown, permit (1,0), edition 2", ("convertible", 6), "convertible 6\n01\n"),
                                    ("(0,1) unknown, permit (0,1)", ("no-word", (0, 1)), "not-convertible 0 1 no-word\n"),
                                    ("nothing unknown, permit (1,0)", ("rival", (1, 0), (0, 1)), "not-convertible 1 0 rival 0 1\n")):
            data = stored.case_file(name)
            self.assertEqual((brute.call_verdict(data), brute.permitconv(data)), (verdict, text), name)
        reply, scratch, output = brute.call_mining(stored.case_file("(0,1) unknown, permit (1,0)"), bytes(1024), b"\7" * 7)
        self.assertEqual((reply, output), (("length", 6), hexadecimal("01 00 01 00 01 01 07")))
        self.assertEqual([at for at in range(1024) if scratch[at]], [32])

    def test_kinds_in_a_chain(self):
        for edition in (1, 2):
            for text, numbers in KINDS_IN_A_CHAIN:
                kinds = hexadecimal(text)
                draft = files.Draft(2, 2, 0, 1, edition)
                for number, kind in enumerate(kinds, 1):
                    draft.add_record(1, kind, number + 1 if number < len(kinds) else 0, 0)
                draft.heads[0] = 1
                fault = brute.first_fault(draft.bytes())
                self.assertEqual(fault.numbers if fault else [], numbers, text)
                self.assertEqual(brute.check(draft.bytes()), numbers[0] if numbers else 0, text)

    def test_labels_of_kind_bytes(self):
        for labels in (1, 2, 7, 8):
            found = {kind: brute.label_of(kind, labels) for kind in range(256)}
            for label in range(labels):
                self.assertEqual((found.pop(label), found.pop(128 + label)), ((label, True), (label, False)))
            self.assertEqual({*found.values()}, {(None, None)})

    def test_nothing_else_has_the_relation(self):
        # A known and an unknown relation are told apart by owner, target and label.
        for edges, unknown in (([(0, 2, 0)], [(1, 2, 0)]), ([(0, 1, 0)], [(0, 2, 0)]), ([(0, 1, 0)], [(1, 0, 0)]),
                               ([(0, 1, 0)], [(0, 1, 1)])):
            house = house_with(3, edges, [(0, 1)], labels=2, unknown=unknown)
            self.assertEqual((house.edges, house.unknown, house.permits), (set(edges), set(unknown), {(0, 1)}))

    def some_houses(self, seed):
        """Houses of small matters, with an absent relation of each."""
        rng = random.Random(seed)
        for _ in range(400):
            house = brute.House(*small_matter(rng))
            absent = files.absent_relations(house)
            if absent:
                yield house, rng.choice(absent)

    def test_only_the_relations_own_symbols_go(self):
        # Made unknown, a relation takes its absent symbol from its pair and its absent inverse one from the turned pair.
        for house, (u, v, label) in self.some_houses(71):
            before, after = (brute.enlarged(one) for one in (house, files.made_unknown(house, [(u, v, label)])))
            gone = {(pair, symbol) for pair in before for symbol in set(before[pair]) - set(after[pair])}
            wanted = {((u, v), 4 * label + 1)} if house.language in (1, 3) else set()
            wanted |= {((v, u), 4 * label + 3)} if house.language == 3 else set()
            self.assertEqual(gone, wanted)
            self.assertTrue(all(set(after[pair]) <= set(before[pair]) for pair in before))

    def test_languages_without_absence_stay(self):
        stays, changes = 0, 0
        for house, one in self.some_houses(72):
            verdicts = [brute.verdict(other, brute.word_table(other)) for other in (house, files.made_unknown(house, [one]))]
            if house.language in (0, 2):
                self.assertEqual(*verdicts)
                stays += 1
            else:
                changes += verdicts[0] != verdicts[1]
        self.assertGreater(stays, 100)
        self.assertGreater(changes, 20)

    def test_nothing_unknown_is_as_before(self):
        for house, _ in self.some_houses(73):
            house = house._replace(unknown=frozenset())
            for u, v in brute.pairs(house):
                for label in range(house.labels):
                    said = [(u, v, label) in house.edges, (u, v, label) not in house.edges,
                            (v, u, label) in house.edges, (v, u, label) not in house.edges]
                    held = [brute.holds(house, u, v, 4 * label + kind) for kind in range(4)]
                    self.assertEqual(held, [is_so and kind in brute.KINDS[house.language] for kind, is_so in enumerate(said)])

    def test_decode_lines(self):
        house = house_with(3, [(0, 1, 0), (0, 1, 2), (2, 0, 3)], [(0, 1)], labels=8, unknown=[(0, 1, 1), (0, 1, 7), (0, 2, 0), (1, 0, 0)])
        self.assertEqual(script.relations_text(house), "relation 0 1 05\nunknown 0 1 82\nunknown 0 2 01\nunknown 1 0 01\nrelation 2 0 08\n")


class NextWord(unittest.TestCase):

    # Base graph in language 3. From 0 to 2: absent and absent inverse directly;
    # over 1 each step is plain or absent inverse.
    BASE_3 = file_with(3, [(0, 1, 0), (1, 2, 0)], language=3)
    BASE_3_WORDS = [(1,), (3,), (0, 0), (0, 3), (3, 0), (3, 3)]

    def walk(self, data, u, v):
        """The words that next-word gives one after the other, from the empty word."""
        found, word = [], ()
        while True:
            reply, output = brute.call_next_word(data, u, v, word, b"\xAA" * 33)
            if reply == ("none",):
                self.assertEqual(output, b"\xAA" * 33)
                return found
            self.assertEqual(reply[0], "length")
            length = reply[1]
            self.assertEqual(output[length:], b"\xAA" * (33 - length))
            word = tuple(output[:length])
            self.assertNotIn(word, found)
            found.append(word)

    def test_walks(self):
        self.assertEqual(self.walk(self.BASE_3, 0, 2), self.BASE_3_WORDS)
        self.assertEqual(self.walk(stored.case_file("A"), 0, 2), [(0, 0)])
        self.assertEqual(self.walk(stored.case_file("C"), 2, 0), [])
        self.assertEqual(self.walk(stored.case_file("D"), 0, 2), [])
        self.assertEqual(self.walk(stored.case_file("G"), 2, 0), [(2, 2)])
        self.assertEqual(self.walk(stored.case_file("H"), 0, 1), [(0,), (4,)])
        self.assertEqual(self.walk(stored.case_file("I"), 0, 1), [(0,)])

    def test_the_given_word_need_not_be_the_pairs(self):
        house = brute.decode(self.BASE_3)
        self.assertEqual(brute.next_word(house, 0, 2, (0,)), (1,))
        self.assertEqual(brute.next_word(house, 0, 2, (2,)), (3,))
        self.assertEqual(brute.next_word(house, 0, 2, (0, 1)), (0, 3))
        self.assertEqual(brute.next_word(house, 0, 2, (3, 2)), (3, 3))

    def test_the_given_word_may_be_longer_than_any_word(self):
        data = file_with(3, [(0, 1, 0), (1, 2, 0)], language=3, longest=5)
        self.assertEqual(self.walk(data, 0, 2), self.BASE_3_WORDS)
        self.assertEqual(brute.call_next_word(data, 0, 2, (0,) * 5, bytes(31)),
                         (("none",), bytes(31)))

    def test_word_order(self):
        given = [(0, 0), (4,), (0,), (1, 0, 0), (0, 4), (1,), ()]
        self.assertEqual(sorted(given, key=brute.word_key),
                         [(), (0,), (1,), (4,), (0, 0), (0, 4), (1, 0, 0)])


class Path(unittest.TestCase):

    def test_written_and_returned(self):
        self.assertEqual(brute.call_path(stored.case_file("A"), 0, 2, (0, 0), b"\xAA" * 5),
                         (("parties", 3), hexadecimal("00 01 02 AA AA")))
        self.assertEqual(brute.call_path(stored.case_file("G"), 2, 0, (2, 2), b"\xAA" * 3),
                         (("parties", 3), hexadecimal("02 01 00")))

    def test_lacks(self):
        self.assertEqual(brute.call_path(stored.case_file("A"), 0, 2, (0,), b"\xAA" * 5),
                         (("lacks",), b"\xAA" * 5))

    def test_the_lower_party_at_the_first_difference(self):
        two_ways = house_with(4, [(0, 1, 0), (0, 2, 0), (1, 3, 0), (2, 3, 0)])
        self.assertEqual(brute.least_path(two_ways, 0, 3, (0, 0)), (0, 1, 3))

    def test_a_lower_party_that_leads_nowhere(self):
        house = house_with(4, [(0, 1, 0), (0, 2, 0), (2, 3, 0)])
        self.assertEqual(brute.least_path(house, 0, 3, (0, 0)), (0, 2, 3))

    def test_the_first_difference_counts_not_the_last(self):
        # 0 1 4 5 and 0 2 3 5: the first difference is 1 against 2.
        house = house_with(6, [(0, 1, 0), (1, 4, 0), (4, 5, 0), (0, 2, 0), (2, 3, 0), (3, 5, 0)],
                           longest=3)
        self.assertEqual(brute.least_path(house, 0, 5, (0, 0, 0)), (0, 1, 4, 5))

    def test_no_party_twice(self):
        house = house_with(3, [(0, 1, 0), (1, 0, 0), (0, 2, 0)], longest=3)
        self.assertEqual(brute.words(house, 0, 2), [(0,)])
        self.assertIsNone(brute.least_path(house, 0, 2, (0, 0, 0)))


class WordTest(unittest.TestCase):
    """02's Ticket 4: beside yes or no a length."""

    def answers(self, house, *rows):
        """Each row: the pair, the word, whether it has it, the length."""
        for first, second, word, has, length in rows:
            self.assertEqual(brute.word_test(house, first, second, word), (has, length), (first, second, word))

    def test_two_steps(self):
        house = house_with(4, [(1, 2, 0), (2, 3, 0)], longest=5)
        self.answers(house, (1, 3, (0, 0), True, 2), (0, 3, (0, 0, 0), False, 2), (0, 3, (0, 0, 0, 0), False, 2),
                     (1, 3, (0, 0, 0), False, 1), (2, 3, (0, 0), False, 0), (0, 3, (0,), False, 0))
        self.answers(house, (2, 3, (0,), True, 1), (0, 3, (0, 0), False, 1), (3, 1, (0, 0, 0), False, 0), (3, 2, (0, 0), False, 1),
                     (0, 3, (0, 0, 0, 0, 0), False, 2))

    def test_one_symbol(self):
        # On no there is no k below 1, whoever has the symbol.
        house = house_with(3, [(0, 2, 0), (1, 0, 0)], labels=2)
        self.answers(house, (0, 2, (0,), True, 1), (1, 2, (0,), False, 0), (0, 2, (4,), False, 0), (2, 0, (0,), False, 0))

    def test_a_longer_way_touches_the_first_party(self):
        # To 4 lead 0, 1, 2, 4 and 3, 4; the first has three symbols.
        house = house_with(5, [(0, 1, 0), (1, 2, 0), (2, 4, 0), (3, 4, 0)], longest=4)
        four = (0, 0, 0, 0)
        self.answers(house, (3, 4, four, False, 3), (0, 4, four, False, 2), (1, 4, four, False, 1), (2, 4, four, False, 1))
        self.answers(house, (0, 4, four[1:], True, 3), (1, 4, four[2:], True, 2), (2, 4, four[2:], False, 1), (3, 4, four[1:], False, 2))

    def test_the_first_symbol_counts_only_on_yes(self):
        # 0 to 1 to 2 to 3, each step with another label.
        house = house_with(4, [(0, 1, 0), (1, 2, 1), (2, 3, 2)], labels=3, longest=3)
        self.answers(house, (0, 3, (0, 4, 8), True, 3), (0, 3, (4, 4, 8), False, 2), (0, 3, (0, 0, 8), False, 1),
                     (0, 3, (0, 4, 4), False, 0), (1, 3, (0, 4, 8), False, 1), (2, 3, (0, 4, 8), False, 0))

    def test_the_word_itself_of_another_pair(self):
        # The whole word doesn't count, only its ends: 1, 2, 3 has 00.00, which is all of the word.
        house = house_with(4, [(1, 2, 0), (2, 3, 0)])
        self.answers(house, (0, 3, (0, 0), False, 1))

    def test_no_party_twice(self):
        # 0 and 1 each to the other, and 1 to 2: a walk to 2 could go on for ever.
        house = house_with(4, [(0, 1, 0), (1, 0, 0), (1, 2, 0)], longest=6)
        for k in range(1, 7):
            self.answers(house, (3, 2, (0,) * k, False, min(k - 1, 2)))
        # 2 and 1 each to the other: 2 stands at the end alone.
        house = house_with(4, [(2, 1, 0), (1, 2, 0)], longest=6)
        for k in range(1, 7):
            self.answers(house, (3, 2, (0,) * k, False, min(k - 1, 1)))

    def test_words_of_n_symbols_or_more(self):
        # Every two parties are related: without the first, n - 1 parties have n - 2 steps.
        for n in (2, 3, 4, 5):
            house = house_with(n, [(a, b, 0) for a, b in large.all_pairs(n)], longest=31)
            for k in range(1, 32):
                self.answers(house, (0, 1, (0,) * k, k < n, k if k < n else n - 2))

    def test_kinds(self):
        # 0 to 1 alone. 01 holds for all other steps, 02 from 1 to 0, 03 for all but that.
        house = house_with(3, [(0, 1, 0)], language=3, longest=4)
        self.answers(house, (1, 0, (2,), True, 1), (2, 0, (1, 2), True, 2), (2, 0, (1, 1, 2), False, 1), (2, 0, (0, 2), False, 1),
                     (1, 0, (1, 2), False, 0), (2, 1, (1, 0), True, 2), (2, 1, (0, 0), False, 1), (0, 1, (1, 0), False, 0),
                     (0, 2, (3, 3, 3), False, 1), (0, 2, (0, 1), True, 2), (0, 2, (2, 1, 1), False, 1),
                     (1, 2, (2, 3), True, 2), (1, 2, (0, 0, 1), False, 1))

    def test_shorter_ends_are_had_too(self):
        # What the definition asks of the greatest k holds of all lower ones.
        rng = random.Random(51)
        for _ in range(150):
            matter = small_matter(rng)
            house = brute.decode(files.lay_out(matter, rng).bytes())
            for u, v in rng.sample(brute.pairs(house), min(2, len(brute.pairs(house)))):
                listed = brute.paths_to(house, v)
                word = tuple(rng.choices(brute.symbols(house), k=house.longest))
                has, length = brute.word_test(house, u, v, word)
                self.assertEqual((has, length), brute.word_test(house, u, v, word, listed))
                self.assertEqual(has, word in brute.words(house, u, v))
                for k in range(1, length if has else length + 1):
                    self.assertTrue(any(has or u not in parties for parties in listed[word[-k:]]), (matter, u, v, word))


class Mining(unittest.TestCase):

    def test_two_terms(self):
        data = file_with(3, [(0, 1, 0), (1, 2, 1)], [(0, 1), (1, 2)], labels=2, longest=1)
        reply, scratch, output = brute.call_mining(data, bytes(1024), bytes(10))
        self.assertEqual(reply, ("length", 10))
        self.assertEqual(output, hexadecimal("02 00  01 00 01 00  01 00 01 04"))
        self.assertEqual([at for at in range(1024) if scratch[at]], [1, 34])

    def test_a_pair_that_an_earlier_term_permits_is_left_out(self):
        # (0,1) has label 0 and (2,3) has labels 0 and 1; the term 00 permits both.
        data = file_with(4, [(0, 1, 0), (2, 3, 0), (2, 3, 1)], [(0, 1), (2, 3)],
                         labels=2, longest=1)
        self.assertEqual(brute.call_mining(data, bytes(1024), bytes(6))[2],
                         hexadecimal("01 00  01 00 01 00"))

    def test_a_later_pair_may_be_permitted_only_by_its_own_term(self):
        # (0,1) has labels 0 and 1, (0,2) has 0 and is unpermitted, (2,3) has 1 and is permitted.
        data = file_with(4, [(0, 1, 0), (0, 1, 1), (0, 2, 0), (2, 3, 1)], [(0, 1), (2, 3)],
                         labels=2, longest=1)
        self.assertEqual(brute.call_mining(data, bytes(1024), bytes(20))[2][:12],
                         hexadecimal("02 00  02 00 01 00 01 04  01 00 01 04"))

    def test_words_are_added_in_the_order_of_the_unpermitted_pairs(self):
        # (0,1) has labels 0, 1, 2. (0,2) lacks label 2, so it adds 08; (0,3) lacks label 1
        # and meets 00 & 08, so it adds 04.
        data = file_with(4, [(0, 1, 0), (0, 1, 1), (0, 1, 2), (0, 2, 0), (0, 2, 1),
                             (0, 3, 0), (0, 3, 2)], [(0, 1)], labels=3, longest=1)
        self.assertEqual(brute.call_mining(data, bytes(1024), bytes(10))[2],
                         hexadecimal("01 00  03 00  01 00  01 08  01 04"))

    def test_a_house_of_one_party(self):
        data = hexadecimal("01 01 01 03 1F 00 00 00 00 00")
        self.assertEqual(brute.call_verdict(data), ("convertible", 2))
        self.assertEqual(brute.call_mining(data, b"\1" * 1024, b"\1\1"),
                         (("length", 2), bytes(1024), bytes(2)))


class Writing(unittest.TestCase):

    A = "01 03 01 00 02 00 03 00  01 00 03 00 00 00  01 00 02 00  02 FF 00 00  02 00 00 00"
    A2 = "02 03 01 00 02 00 03 00  01 00 03 00 00 00  01 00 02 00 00  02 FF 00 00 00  02 00 00 00 01"

    def becomes(self, data, text):
        """The copy of this file, reckoned by hand, and the copy of the copy."""
        copy = hexadecimal(text)
        for one in (data, copy):
            self.assertEqual(brute.check(one), 0)
            self.assertEqual(brute.write_reply(one, b"\xAA" * (len(copy) + 3)),
                             (("length", len(copy)), copy + b"\xAA" * 3))

    def layout_of_a(self, numbers, permit_first, edition):
        """A's file with these numbers of the relation (0,1), the permit (0,2) and the relation (1,2)."""
        related, permit, other = numbers
        head, after_related, after_permit = (permit, 0, related) if permit_first else (related, permit, 0)
        owners = ("", "") if edition == 1 else (" 00", " 01")
        records = {related: "01 00 %02X 00" % after_related + owners[0], permit: "02 FF %02X 00" % after_permit + owners[0],
                   other: "02 00 00 00" + owners[1]}
        return hexadecimal("%02X 03 01 00 02 00 03 00  %02X 00 %02X 00 00 00" % (edition, head, other)
                           + records[1] + records[2] + records[3])

    def test_every_order_of_a(self):
        # Three records have six numberings, party 0's chain of two has two orders, and there are two editions.
        layouts = [self.layout_of_a(numbers, permit_first, edition)
                   for numbers in ((1, 2, 3), (1, 3, 2), (2, 1, 3), (2, 3, 1), (3, 1, 2), (3, 2, 1))
                   for permit_first in (False, True) for edition in (1, 2)]
        self.assertEqual(len(set(layouts)), 24)
        self.assertIn(hexadecimal(self.A2), layouts)
        for data in layouts:
            self.becomes(data, self.A2)
        header = "01 03 01 00 02 00 03 00"
        for rest in ("01 00 03 00 00 00  01 00 02 00  02 FF 00 00  02 00 00 00",
                     "02 00 03 00 00 00  01 00 00 00  02 FF 01 00  02 00 00 00",
                     "01 00 03 00 00 00  02 FF 02 00  01 00 00 00  02 00 00 00",
                     "01 00 02 00 00 00  01 00 03 00  02 00 00 00  02 FF 00 00",
                     "03 00 01 00 00 00  02 00 00 00  01 00 00 00  02 FF 02 00"):
            self.assertIn(hexadecimal(header + rest), layouts)

    def test_by_target_and_then_by_kind(self):
        # Party 3 has labels 0 and 7 and a permit to 0, then label 2 to 1; parties 1 and 2 have nothing.
        data = file_with(4, [(3, 1, 2), (3, 0, 7), (3, 0, 0)], [(3, 0), (0, 3)], labels=8, language=3)
        self.becomes(data, "02 04 08 03 02 00 05 00  01 00 00 00 00 00 02 00"
                           "  03 FF 00 00 00  00 00 03 00 03  00 07 04 00 03  00 FF 05 00 03  01 02 00 00 03")
        # The same with labels 1 and 5 to 0 unknown: they stand between label 7 and the permit.
        data = file_with(4, [(3, 1, 2), (3, 0, 7), (3, 0, 0)], [(3, 0), (0, 3)], labels=8, language=3, unknown=[(3, 0, 5), (3, 0, 1)])
        self.becomes(data, "02 04 08 03 02 00 07 00  01 00 00 00 00 00 02 00  03 FF 00 00 00"
                           "  00 00 03 00 03  00 07 04 00 03  00 81 05 00 03  00 85 06 00 03  00 FF 07 00 03  01 02 00 00 03")

    def test_empty_chains(self):
        self.becomes(file_with(5, [(1, 0, 0), (3, 0, 0)], [(3, 4)]),
                     "02 05 01 00 02 00 03 00  00 00 01 00 00 00 02 00 00 00"
                     "  00 00 00 00 01  00 00 03 00 03  04 FF 00 00 03")
        self.becomes(file_with(2, []), "02 02 01 00 02 00 00 00  00 00 00 00")
        self.becomes(file_with(1, []), "02 01 01 00 02 00 00 00  00 00")

    def test_nothing_is_tidied(self):
        self.becomes(file_with(2, [(1, 0, 1)], labels=8, language=2, longest=31),
                     "02 02 08 02 1F 00 01 00  00 00 01 00  00 01 00 00 01")

    def test_numbers_of_two_bytes(self):
        # Party 0 has all that can be: 31 targets, each with 8 labels and a permit. Party 1 has one record.
        edges = [(0, v, label) for v in range(1, 32) for label in range(8)] + [(1, 0, 0)]
        data = file_with(32, edges, [(0, v) for v in range(1, 32)], labels=8)
        copy = brute.canonical(brute.decode(data))
        self.assertEqual(len(copy), 8 + 64 + 5 * 280)
        self.assertEqual(copy[:14], hexadecimal("02 20 08 00 02 00 18 01  01 00 18 01 00 00"))
        records = copy[8 + 64:]
        for number, text in ((1, "01 00 02 00 00"), (9, "01 FF 0A 00 00"), (10, "02 00 0B 00 00"), (254, "1D 01 FF 00 00"),
                             (255, "1D 02 00 01 00"), (256, "1D 03 01 01 00"), (279, "1F FF 00 00 00"), (280, "00 00 00 00 01")):
            self.assertEqual(records[5 * number - 5:5 * number], hexadecimal(text), number)

    # A with changes. Each row: what is changed, a file in another order than its copy's, its copy.
    CHANGED = [
        ("no permit",
         "01 03 01 00 02 00 02 00  02 00 01 00 00 00  02 00 00 00  01 00 00 00",
         "02 03 01 00 02 00 02 00  01 00 02 00 00 00  01 00 00 00 00  02 00 00 00 01"),
        ("permit (1,0) too",
         "01 03 01 00 02 00 04 00  02 00 03 00 00 00  01 00 00 00  02 FF 01 00  02 00 04 00  00 FF 00 00",
         "02 03 01 00 02 00 04 00  01 00 03 00 00 00  01 00 02 00 00  02 FF 00 00 00  00 FF 04 00 01  02 00 00 00 01"),
        ("permit (1,2) in place of (0,2)",
         "01 03 01 00 02 00 03 00  03 00 01 00 00 00  02 FF 02 00  02 00 00 00  01 00 00 00",
         "02 03 01 00 02 00 03 00  01 00 02 00 00 00  01 00 00 00 00  02 00 03 00 01  02 FF 00 00 01"),
        ("no relation (1,2)",
         "01 03 01 00 02 00 02 00  02 00 00 00 00 00  01 00 00 00  02 FF 01 00",
         "02 03 01 00 02 00 02 00  01 00 00 00 00 00  01 00 02 00 00  02 FF 00 00 00"),
        ("relation (0,2) too",
         "01 03 01 00 02 00 04 00  02 00 03 00 00 00  01 00 04 00  02 FF 01 00  02 00 00 00  02 00 00 00",
         "02 03 01 00 02 00 04 00  01 00 04 00 00 00  01 00 02 00 00  02 00 03 00 00  02 FF 00 00 00  02 00 00 00 01"),
        ("relation (1,0) in place of (1,2)",
         "01 03 01 00 02 00 03 00  03 00 02 00 00 00  01 00 00 00  00 00 00 00  02 FF 01 00",
         "02 03 01 00 02 00 03 00  01 00 03 00 00 00  01 00 02 00 00  02 FF 00 00 00  00 00 00 00 01"),
        ("D 3",
         "01 03 01 00 03 00 03 00  02 00 03 00 00 00  01 00 00 00  02 FF 01 00  02 00 00 00",
         "02 03 01 00 03 00 03 00  01 00 03 00 00 00  01 00 02 00 00  02 FF 00 00 00  02 00 00 00 01"),
        ("L 2",
         "01 03 02 00 02 00 03 00  02 00 03 00 00 00  01 00 00 00  02 FF 01 00  02 00 00 00",
         "02 03 02 00 02 00 03 00  01 00 03 00 00 00  01 00 02 00 00  02 FF 00 00 00  02 00 00 00 01"),
        ("L 2, and label 1 at the relation (1,2)",
         "01 03 02 00 02 00 03 00  02 00 03 00 00 00  01 00 00 00  02 FF 01 00  02 01 00 00",
         "02 03 02 00 02 00 03 00  01 00 03 00 00 00  01 00 02 00 00  02 FF 00 00 00  02 01 00 00 01"),
        ("language 1",
         "01 03 01 01 02 00 03 00  02 00 03 00 00 00  01 00 00 00  02 FF 01 00  02 00 00 00",
         "02 03 01 01 02 00 03 00  01 00 03 00 00 00  01 00 02 00 00  02 FF 00 00 00  02 00 00 00 01"),
        ("relation (1,2) unknown",
         "01 03 01 00 02 00 03 00  02 00 03 00 00 00  01 00 00 00  02 FF 01 00  02 80 00 00",
         "02 03 01 00 02 00 03 00  01 00 03 00 00 00  01 00 02 00 00  02 FF 00 00 00  02 80 00 00 01"),
        ("relation (0,1) unknown",
         "01 03 01 00 02 00 03 00  02 00 03 00 00 00  01 80 00 00  02 FF 01 00  02 00 00 00",
         "02 03 01 00 02 00 03 00  01 00 03 00 00 00  01 80 02 00 00  02 FF 00 00 00  02 00 00 00 01"),
        ("relation (0,2) unknown too",
         "01 03 01 00 02 00 04 00  02 00 03 00 00 00  01 00 04 00  02 FF 01 00  02 00 00 00  02 80 00 00",
         "02 03 01 00 02 00 04 00  01 00 04 00 00 00  01 00 02 00 00  02 80 03 00 00  02 FF 00 00 00  02 00 00 00 01"),
        ("relation (2,1) unknown too",
         "01 03 01 00 02 00 04 00  02 00 03 00 04 00  01 00 00 00  02 FF 01 00  02 00 00 00  01 80 00 00",
         "02 03 01 00 02 00 04 00  01 00 03 00 04 00  01 00 02 00 00  02 FF 00 00 00  02 00 00 00 01  01 80 00 00 02"),
        ("n 4",
         "01 04 01 00 02 00 03 00  02 00 03 00 00 00 00 00  01 00 00 00  02 FF 01 00  02 00 00 00",
         "02 04 01 00 02 00 03 00  01 00 03 00 00 00 00 00  01 00 02 00 00  02 FF 00 00 00  02 00 00 00 01"),
    ]

    def written(self, text):
        """What write makes of this file."""
        return brute.write_reply(hexadecimal(text), bytes(40))[1]

    def test_another_matter_has_another_copy(self):
        copies = {self.written(self.A)}
        for what, text, copy in self.CHANGED:
            self.assertNotEqual(text, copy, what)
            self.becomes(hexadecimal(text), copy)
            self.assertNotIn(self.written(text), copies, what)
            copies.add(self.written(text))


class RuleLists(unittest.TestCase):

    def broken(self, text, data=None):
        data = stored.case_file("A") if data is None else data
        self.assertEqual(brute.call_permit(data, hexadecimal(text), 0, 2), ("refused", 9), text)

    def test_layout(self):
        self.broken("")
        self.broken("00")
        self.broken("00 00 00")
        self.broken("01 00")
        self.broken("01 00 01")
        self.broken("01 00 00 00")
        self.broken("01 00 01 00")
        self.broken("01 00 01 00 00")
        self.broken("01 00 01 00 02 00")
        self.broken("01 00 01 00 02 00 00 00")
        self.broken("01 00 02 00 02 00 00")
        self.broken("02 00 01 00 02 00 00")
        self.broken("00 01")

    def test_length_above_d(self):
        self.broken("01 00 01 00 03 00 00 00")

    def test_symbols(self):
        self.broken("01 00 01 00 01 01")
        self.broken("01 00 01 00 01 02")
        self.broken("01 00 01 00 01 04")
        self.broken("01 00 01 00 01 FF")
        self.broken("01 00 01 00 01 02", file_with(3, [(0, 1, 0)], language=1))
        self.broken("01 00 01 00 01 01", file_with(3, [(0, 1, 0)], language=2))
        self.broken("01 00 01 00 01 20", file_with(3, [(0, 1, 0)], labels=8, language=3))

    def test_the_whole_list_is_checked(self):
        self.broken("02 00  01 00 02 00 00  00 00")
        self.broken("02 00  01 00 02 00 00  01 00 01 04")

    def test_the_empty_list_permits_nothing(self):
        self.assertEqual(brute.call_permit(stored.case_file("A"), hexadecimal("00 00"), 0, 2), ("no",))

    def test_a_pair_meets_a_term_when_it_has_all_its_words(self):
        data = stored.case_file("H")
        both = hexadecimal("01 00  02 00  01 00  01 04")
        either = hexadecimal("02 00  01 00 01 00  01 00 01 04")
        self.assertEqual(brute.call_permit(data, both, 0, 1), ("yes",))
        self.assertEqual(brute.call_permit(data, both, 0, 2), ("no",))
        self.assertEqual(brute.call_permit(data, either, 0, 2), ("yes",))
        self.assertEqual(brute.call_permit(data, either, 1, 2), ("yes",))
        self.assertEqual(brute.call_permit(data, either, 1, 0), ("no",))

    def test_bytes_and_back(self):
        rng = random.Random(5)
        for _ in range(200):
            house = house_with(3, [], labels=rng.randint(1, 8), language=rng.randint(0, 3),
                               longest=rng.randint(1, 31))
            symbols = brute.symbols(house)
            terms = [[tuple(rng.choices(symbols, k=rng.randint(1, house.longest)))
                      for _ in range(rng.randint(1, 4))] for _ in range(rng.randint(0, 4))]
            self.assertEqual(brute.decode_list(house, brute.encode_list(terms)), terms)


class RefusalOrder(unittest.TestCase):

    BAD_FILE = b"\x03" + stored.case_file("A")[1:]
    A = stored.case_file("A")
    A2 = stored.case_file("A in edition 2")

    def test_mining(self):
        scratch, output = b"\xAA" * 1030, b"\xBB" * 9
        b = stored.case_file("B")
        self.assertEqual(brute.call_mining(self.BAD_FILE, b"", b""), (("refused", 2), b"", b""))
        short = b"\xAA" * 1023
        self.assertEqual(brute.call_mining(b, short, b""), (("refused", 12), short, b""))
        self.assertEqual(brute.call_mining(self.A, short, b""), (("refused", 12), short, b""))
        self.assertEqual(brute.call_mining(b, scratch, b""), (("refused", 13), scratch, b""))
        self.assertEqual(brute.call_mining(b, scratch, output), (("refused", 13), scratch, output))
        self.assertEqual(brute.call_mining(self.A, scratch, output[:6]),
                         (("refused", 14), bytes(1024) + b"\xAA" * 6, output[:6]))
        self.assertEqual(brute.call_mining(self.A, scratch, output[:7])[0], ("length", 7))

    def path(self, data, u, v, word, room):
        output = b"\xAA" * room
        reply, after = brute.call_path(data, u, v, word, output)
        if reply[0] != "parties":
            self.assertEqual(after, output)
        return reply

    def test_path(self):
        self.assertEqual(self.path(self.BAD_FILE, 9, 9, (), 0), ("refused", 2))
        self.assertEqual(self.path(self.A, 0, 0, (), 0), ("refused", 10))
        self.assertEqual(self.path(self.A, 0, 3, (), 0), ("refused", 10))
        self.assertEqual(self.path(self.A, 3, 0, (), 0), ("refused", 10))
        self.assertEqual(self.path(self.A, 255, 0, (), 0), ("refused", 10))
        self.assertEqual(self.path(self.A, 0, 2, (), 0), ("refused", 11))
        self.assertEqual(self.path(self.A, 0, 2, (), 9), ("refused", 11))
        self.assertEqual(self.path(self.A, 0, 2, (0, 0, 0), 0), ("refused", 11))
        self.assertEqual(self.path(self.A, 0, 2, (0, 1), 0), ("refused", 11))
        self.assertEqual(self.path(self.A, 0, 2, (4, 0), 9), ("refused", 11))
        self.assertEqual(self.path(self.A, 0, 2, (0, 0), 2), ("refused", 14))
        self.assertEqual(self.path(self.A, 2, 0, (0, 0), 2), ("refused", 14))
        self.assertEqual(self.path(self.A, 2, 0, (0, 0), 3), ("lacks",))
        self.assertEqual(self.path(self.A, 0, 2, (0, 0), 3), ("parties", 3))

    def following(self, data, u, v, word, room):
        output = b"\xAA" * room
        reply, after = brute.call_next_word(data, u, v, word, output)
        if reply[0] != "length":
            self.assertEqual(after, output)
        return reply

    def test_next_word(self):
        self.assertEqual(self.following(self.BAD_FILE, 9, 9, (9,), 0), ("refused", 2))
        self.assertEqual(self.following(self.A, 1, 1, (9,), 0), ("refused", 10))
        self.assertEqual(self.following(self.A, 1, 3, (9,), 0), ("refused", 10))
        self.assertEqual(self.following(self.A, 0, 2, (9,), 0), ("refused", 11))
        self.assertEqual(self.following(self.A, 0, 2, (0, 0, 0), 0), ("refused", 11))
        self.assertEqual(self.following(self.A, 0, 2, (), 30), ("refused", 14))
        self.assertEqual(self.following(self.A, 2, 0, (), 30), ("refused", 14))
        self.assertEqual(self.following(self.A, 2, 0, (), 31), ("none",))
        self.assertEqual(self.following(self.A, 0, 2, (), 31), ("length", 2))
        self.assertEqual(self.following(self.A, 0, 2, (0, 0), 31), ("none",))

    def test_word_test(self):
        self.assertEqual(brute.call_word_test(self.BAD_FILE, 9, 9, ()), ("refused", 2))
        self.assertEqual(brute.call_word_test(b"", 9, 9, ()), ("refused", 1))
        for pair in ((0, 0), (0, 3), (3, 0), (255, 0), (3, 3)):
            self.assertEqual(brute.call_word_test(self.A, *pair, ()), ("refused", 10))
            self.assertEqual(brute.call_word_test(self.A, *pair, (0,)), ("refused", 10))
        for word in ((), (0, 0, 0), (0, 1), (4, 0), (0,) * 200):
            self.assertEqual(brute.call_word_test(self.A, 0, 2, word), ("refused", 11))
        for data in (self.A, self.A2):
            self.assertEqual(brute.call_word_test(data, 0, 2, (0, 0)), ("yes", 2))
            self.assertEqual(brute.call_word_test(data, 2, 0, (0, 0)), ("no", 0))
            self.assertEqual(brute.call_word_test(data, 0, 2, (0,)), ("no", 0))

    def test_permit(self):
        self.assertEqual(brute.call_permit(self.BAD_FILE, b"", 9, 9), ("refused", 2))
        self.assertEqual(brute.call_permit(self.A, b"", 2, 2), ("refused", 10))
        self.assertEqual(brute.call_permit(self.A, b"", 0, 3), ("refused", 10))
        self.assertEqual(brute.call_permit(self.A, b"", 0, 2), ("refused", 9))

    def test_verdict(self):
        self.assertEqual(brute.call_verdict(self.BAD_FILE), ("refused", 2))
        self.assertEqual(brute.call_verdict(b""), ("refused", 1))

    def test_write(self):
        owner_wrong = self.A2[:-1] + b"\0"
        for room in (0, 25, 26, 28, 29, 40):
            output = b"\xAA" * room
            self.assertEqual(brute.write_reply(self.BAD_FILE, output), (("refused", 2), output))
            self.assertEqual(brute.write_reply(owner_wrong, output), (("refused", 15), output))
            self.assertEqual(brute.write_reply(b"", output), (("refused", 1), output))
            wanted = (("refused", 14), output) if room < 29 else (("length", 29), self.A2 + output[29:])
            self.assertEqual(brute.write_reply(self.A, output), wanted)
            self.assertEqual(brute.write_reply(self.A2, output), wanted)


# ------------------------------------------- second reckonings, written differently

# How struct writes a record of each edition: target, kind byte, next, and in edition 2 the owner.
RECORDS = {1: "<BBH", 2: "<BBHB"}


def well_formed(data):
    """01's and 02's statement of a house file, without any order of checks."""
    if len(data) < 8:
        return False
    edition, n, labels, language, longest, spare, count = struct.unpack("<6BH", data[:8])
    if edition not in RECORDS or spare != 0 or count > 32 * 31 * 9 or language > 3:
        return False
    if n not in range(1, 33) or labels not in range(1, 9) or longest not in range(1, 32):
        return False
    if len(data) != 8 + 2 * n + struct.calcsize(RECORDS[edition]) * count:
        return False
    records, chains = records_and_chains(data)
    if sorted(itertools.chain(*chains)) != list(range(1, count + 1)):
        return False
    for party, chain in enumerate(chains):
        sorts = [records[number][:2] for number in chain]
        # A permit, and each label whether it is known or not, stands once at most for a target.
        subjects = {(target, "permit" if kind == 255 else kind % 128) for target, kind in sorts}
        if len(subjects) != len(sorts) or any(records[number][3:] not in [(), (party,)] for number in chain):
            return False
        for target, kind in sorts:
            if target not in range(n) or target == party or kind not in [*range(labels), *range(128, 128 + labels), 255]:
                return False
    return True


def records_and_chains(data):
    """The records of a file of the right length, by number, and the links of each party's chain."""
    n = data[1]
    heads = struct.unpack("<%dH" % n, data[8:8 + 2 * n])
    records = [None] + list(struct.iter_unpack(RECORDS[data[0]], data[8 + 2 * n:]))
    return records, [follow(head, records) for head in heads]


def copy_by_chains(data):
    """The copy of an accepted file: its own records moved, chain by chain."""
    records, chains = records_and_chains(data)
    heads, moved = b"", b""
    for party, chain in enumerate(chains):
        sorts = sorted(records[number][:2] for number in chain)
        first = len(moved) // 5 + 1
        heads += struct.pack("<H", first if sorts else 0)
        followers = [*range(first + 1, first + len(sorts)), 0]
        moved += b"".join(struct.pack("<BBHB", *sort, following, party) for sort, following in zip(sorts, followers))
    return b"\2" + data[1:8] + heads + moved


def follow(link, records):
    """The links of a chain; a chain longer than all records is cut, since it repeats one."""
    links = []
    while link != 0 and len(links) <= len(records):
        links.append(link)
        if link >= len(records):
            break
        link = records[link][2]
    return links


def symbols_of_step(matter, a, b):
    """The symbols from a to b: bit 0 of a kind means absent, bit 1 means inverse. Of an unknown relation there is none."""
    found = []
    for label in range(matter.labels):
        for kind in range(4):
            ends = (b, a) if kind & 2 else (a, b)
            if (*ends, label) in matter.unknown:
                continue
            related = (*ends, label) in matter.edges
            if kind & ~matter.language == 0 and related != bool(kind & 1):
                found.append(4 * label + kind)
    return found


def words_by_permutations(matter, u, v):
    """Each word of the pair with its least path: all choices of the parties between."""
    between = [party for party in range(matter.n) if party not in (u, v)]
    found = {}
    for how_many in range(min(matter.longest, matter.n - 1)):
        for middle in itertools.permutations(between, how_many):
            parties = (u, *middle, v)
            steps = [symbols_of_step(matter, a, b) for a, b in zip(parties, parties[1:])]
            for word in itertools.product(*steps):
                found.setdefault(word, parties)
    return found


def word_test_by_permutations(matter, u, v, word):
    """Yes or no, and the length: all choices of parties before v, with u at the front or nowhere."""
    others = [party for party in range(matter.n) if party not in (u, v)]

    def fits(parties, symbols):
        return all(s in symbols_of_step(matter, a, b) for s, a, b in zip(symbols, parties, parties[1:]))

    if any(fits((u, *middle, v), word) for middle in itertools.permutations(others, len(word) - 1)):
        return True, len(word)
    k = len(word) - 1
    while k > 0 and not any(fits((*chosen, v), word[len(word) - k:]) for chosen in itertools.permutations(others, k)):
        k -= 1
    return False, k


def has_word(data, pair, word):
    return brute.call_path(data, *pair, word, bytes(32))[0][0] == "parties"


def first_words(data, pair):
    """The pair's words, by next-word calls."""
    word = b""
    while True:
        reply, output = brute.call_next_word(data, *pair, word, bytes(31))
        if reply[0] != "length" or output[:reply[1]] == word:
            return
        word = output[:reply[1]]
        yield word


def mine_by_calls(data, matter):
    """The bytes of the mined list, by path and next-word calls alone."""
    everyone = list(itertools.permutations(range(matter.n), 2))
    terms = []
    for pair in [p for p in everyone if p in matter.permits]:
        if any(all(has_word(data, pair, word) for word in term) for term in terms):
            continue
        term = [next(first_words(data, pair))]
        for other in [p for p in everyone if p not in matter.permits]:
            if all(has_word(data, other, word) for word in term):
                term.append(next(w for w in first_words(data, pair)
                                 if not has_word(data, other, w)))
        terms.append(term)
    return bytes_of_list(terms)


def bytes_of_list(terms):
    out = struct.pack("<H", len(terms))
    for term in terms:
        out += struct.pack("<H", len(term)) + b"".join(bytes([len(w), *w]) for w in term)
    return out


def small_matter(rng):
    """Matter small enough to list all paths, with a good part of its relations."""
    n = rng.randint(1, 5)
    labels = 1 if n > 4 else rng.randint(1, 2)
    language = rng.randint(0, 3)
    return files.random_matter(rng, n=n, labels=labels, language=language,
                               longest=rng.randint(1, 5), most=n * n)


def convertible_matter(rng):
    """Like small_matter, but its permitted pairs are those of a random rule list."""
    matter = small_matter(rng)
    table = {pair: set(words_by_permutations(matter, *pair))
             for pair in itertools.permutations(range(matter.n), 2)}
    every = sorted(set().union(*table.values()))
    permits = set()
    for _ in range(rng.randint(0, 3) if every else 0):
        term = set(rng.choices(every, k=rng.randint(1, 2)))
        permits |= {pair for pair in table if term <= table[pair]}
    return matter._replace(permits=permits)


class SecondReckonings(unittest.TestCase):

    def test_words_and_least_paths(self):
        rng = random.Random(11)
        for _ in range(250):
            matter = small_matter(rng)
            house = brute.decode(files.lay_out(matter, rng).bytes())
            for u, v in itertools.permutations(range(matter.n), 2):
                other = words_by_permutations(matter, u, v)
                self.assertEqual(brute.words(house, u, v),
                                 sorted(sorted(other), key=len), (matter, u, v))
                for word in rng.sample(sorted(other), min(3, len(other))):
                    self.assertEqual(brute.least_path(house, u, v, word), other[word])

    def test_calls_agree_with_the_definitions(self):
        # The calls go through the words that are kept for a file; least_path and next_word don't.
        rng = random.Random(16)
        for _ in range(150):
            matter = small_matter(rng)
            data = files.lay_out(matter, rng).bytes()
            house, known = brute.decode(data), brute.Known(data)
            for pair in rng.sample(brute.pairs(house), min(3, len(brute.pairs(house)))):
                self.assertEqual(known.words(*pair), brute.words(house, *pair))
                for word in self.words_to_ask(rng, house, known.words(*pair)):
                    self.agrees(data, house, pair, word)

    def words_to_ask(self, rng, house, listed):
        """Words of the pair, and legal words at random."""
        legal = [tuple(rng.choices(brute.symbols(house), k=rng.randint(1, house.longest)))
                 for _ in range(3)]
        return rng.sample(listed, min(3, len(listed))) + legal

    def agrees(self, data, house, pair, word):
        output = b"\xAA" * 40
        parties = brute.least_path(house, *pair, word)
        wanted = (("lacks",), output) if parties is None else \
            (("parties", len(parties)), bytes(parties) + output[len(parties):])
        self.assertEqual(brute.call_path(data, *pair, word, output), wanted)
        following = brute.next_word(house, *pair, word)
        wanted = (("none",), output) if following is None else \
            (("length", len(following)), bytes(following) + output[len(following):])
        self.assertEqual(brute.call_next_word(data, *pair, word, output), wanted)

    def test_word_test(self):
        rng = random.Random(19)
        replies = {}
        for _ in range(800):
            matter = small_matter(rng)
            known = brute.Known(files.lay_out(matter, rng).bytes())
            for u, v in rng.sample(brute.pairs(known.house), min(3, len(brute.pairs(known.house)))):
                for word in self.words_to_ask(rng, known.house, known.words(u, v)):
                    wanted = word_test_by_permutations(matter, u, v, word)
                    self.assertEqual(brute.word_test(known.house, u, v, word), wanted, (matter, u, v, word))
                    reply = brute.word_test_reply(known, u, v, word)
                    self.assertEqual(reply, ("yes" if wanted[0] else "no", wanted[1]))
                    replies[reply] = replies.get(reply, 0) + 1
        for reply in [("yes", k) for k in range(1, 5)] + [("no", k) for k in range(4)]:
            self.assertGreater(replies[reply], 15, reply)

    def test_verdicts(self):
        rng = random.Random(12)
        kinds = {"convertible": 0, "no-word": 0, "rival": 0}
        for number in range(800):
            matter = convertible_matter(rng) if number % 2 else small_matter(rng)
            data = files.lay_out(matter, rng).bytes()
            answer = brute.call_verdict(data)
            kinds[answer[0]] += 1
            self.assertEqual(answer, self.verdict_by_sets(data, matter))
        for kind, times in kinds.items():
            self.assertGreater(times, 30, kind)

    def verdict_by_sets(self, data, matter):
        """The verdict by sets of words; the length is taken from mining."""
        everyone = list(itertools.permutations(range(matter.n), 2))
        table = {pair: set(words_by_permutations(matter, *pair)) for pair in everyone}
        for pair in sorted(matter.permits):
            rivals = [q for q in everyone if q not in matter.permits and table[pair] <= table[q]]
            if not table[pair]:
                return ("no-word", pair)
            if rivals:
                return ("rival", pair, min(rivals))
        reply, _, _ = brute.call_mining(data, bytes(1024), bytes(100000))
        return ("convertible", reply[1])

    def test_a_rule_lists_pairs_are_convertible(self):
        rng = random.Random(13)
        several, added = 0, 0
        for _ in range(250):
            matter = convertible_matter(rng)
            data = files.lay_out(matter, rng).bytes()
            reply, scratch, output = brute.call_mining(data, b"\7" * 1025, b"\7" * 3000)
            self.assertEqual(reply[0], "length")
            listed = output[:reply[1]]
            house = brute.decode(data)
            terms = brute.decode_list(house, listed)
            several += len(terms) > 1
            added += any(len(term) > 1 for term in terms)
            self.assertEqual({divmod(at, 32) for at in range(1024) if scratch[at]}, matter.permits)
            self.assertEqual(scratch[1024:], b"\7")
            self.assertEqual(output[reply[1]:], b"\7" * (3000 - reply[1]))
            for pair in itertools.permutations(range(matter.n), 2):
                answer = brute.call_permit(data, listed, *pair)
                self.assertEqual(answer == ("yes",), pair in matter.permits)
        self.assertGreater(several, 20)
        self.assertGreater(added, 20)

    def test_mining_by_calls(self):
        rng = random.Random(14)
        for _ in range(60):
            matter = convertible_matter(rng)
            if matter.n > 4:
                continue
            data = files.lay_out(matter, rng).bytes()
            reply, _, output = brute.call_mining(data, bytes(1024), bytes(3000))
            self.assertEqual(output[:reply[1]], mine_by_calls(data, matter))

    def test_compare(self):
        rng = random.Random(18)
        replies = {"same": 0, "file": 0, "list": 0}
        for number in range(400):
            matter = convertible_matter(rng) if number % 2 else small_matter(rng)
            data = files.lay_out(matter, rng).bytes()
            table = {pair: set(words_by_permutations(matter, *pair)) for pair in itertools.permutations(range(matter.n), 2)}
            every = sorted(set().union(*table.values()))
            for _ in range(4 if every else 0):
                terms = [rng.choices(every, k=rng.randint(1, 2)) for _ in range(rng.randint(0, 3))]
                reply = brute.call_compare(data, bytes_of_list(terms))
                self.assertEqual(reply, self.compare_by_sets(matter, table, terms))
                replies[reply[-1]] += 1
            if brute.call_verdict(data)[0] == "convertible":
                listed = brute.call_mining(data, bytes(1024), bytes(3000))
                self.assertEqual(brute.call_compare(data, listed[2][:listed[0][1]]), ("same",))
        for reply, times in replies.items():
            self.assertGreater(times, 50, reply)

    def compare_by_sets(self, matter, table, terms):
        """The least of the pairs that are in one of two sets alone."""
        listed = {pair for pair in table if any(set(term) <= table[pair] for term in terms)}
        for pair in sorted(matter.permits ^ listed):
            return ("differs", *pair, "list" if pair in listed else "file")
        return ("same",)

    def test_copies(self):
        rng = random.Random(17)
        for number in range(600):
            matter = files.random_matter(rng, most=400 if number % 10 == 0 else None)
            data = files.lay_out(matter, rng).bytes()
            copy = brute.canonical(brute.decode(data))
            self.assertEqual(copy, copy_by_chains(data))
            self.assertEqual(copy, copy_by_chains(copy))
            self.assertTrue(well_formed(copy))
            self.assertEqual(tuple(brute.decode(copy)), tuple(matter))

    def test_accepted_means_well_formed(self):
        rng = random.Random(15)
        made = [files.random_file(rng) for _ in range(1000)]
        made += [files.twice_damaged_file(rng) for _ in range(1000)]
        made += [files.byte_changed(files.random_file(rng), rng) for _ in range(1000)]
        made += [files.random_links(rng) for _ in range(4000)]
        made += [files.of_two_editions(rng) for _ in range(600)]
        for damage in files.DAMAGES:
            made += [files.damaged_draft(rng, damage).bytes() for _ in range(50)]
        for data in made:
            self.assertEqual(brute.check(data) == 0, well_formed(data), data.hex(" "))


class Files(unittest.TestCase):

    def test_decode_gives_the_matter_back(self):
        rng = random.Random(21)
        for _ in range(1000):
            matter = files.random_matter(rng)
            data = files.lay_out(matter, rng).bytes()
            self.assertEqual(brute.check(data), 0)
            self.assertEqual(tuple(brute.decode(data)), tuple(matter))

    # The refusals of a damage, or 0; where the editions differ, those of each.
    DAMAGES = {
        files.link_too_high: {3}, files.cycle: {4}, files.crossed: ({4, 6, 8, 16}, {4, 15}),
        files.crossed_at_own_party: {4}, files.led_back: {4}, files.tails_exchanged: ({0, 6, 8, 16}, {0, 6, 8, 15, 16}),
        files.chain_cut_off: {5}, files.record_skipped: {5}, files.record_unnamed: {5},
        files.cycle_unreached: {5}, files.target_too_high: {6}, files.target_own_party: {6},
        files.kind_wrong: {7}, files.target_and_kind_wrong: {6},
        files.repeat_in_chain: {8}, files.repeat_in_other_chain: {0},
        files.kind_turned: {0, 7}, files.repeat_of_unknown: {8}, files.repeat_as_opposite: {16},
        files.opposite_in_other_chain: {0}, files.led_back_to_opposite: {4},
        files.owner_another_party: (set(), {15}), files.owner_too_high: (set(), {15}),
        files.owner_and_target_wrong: (set(), {15}), files.owner_and_kind_wrong: (set(), {15}),
        files.owner_wrong_at_repeat: (set(), {15}), files.owner_wrong_at_opposite: (set(), {15}),
        files.owner_wrong_unreached: (set(), {5}),
        files.header_field_wrong: {2}, files.header_of_other_edition: {0, 1}, files.count_off_by_one: {1},
    }

    def test_each_damage_has_its_number(self):
        rng = random.Random(22)
        for damage, numbers in self.DAMAGES.items():
            found = {1: set(), 2: set()}
            for _ in range(3000 if damage in (files.crossed, files.tails_exchanged) else 600):
                draft = files.damaged_draft(rng, damage)
                found[draft.body].add(brute.check(draft.bytes()))
            wanted = numbers if isinstance(numbers, tuple) else (numbers, numbers)
            self.assertEqual((found[1], found[2]), wanted, damage.__name__)
        self.assertEqual({*files.DAMAGES} - {*self.DAMAGES}, {files.header_field_other})

    # The numbers that hold together at the first fault of a damaged draft of edition 2.
    TOGETHER = {files.led_back: [4, 15], files.crossed_at_own_party: [4, 15, 6], files.owner_and_target_wrong: [15, 6],
                files.owner_and_kind_wrong: [15, 7], files.owner_wrong_at_repeat: [15, 8],
                files.owner_wrong_at_opposite: [15, 16], files.led_back_to_opposite: [4, 15, 16]}

    def test_faults_that_hold_together(self):
        rng = random.Random(27)
        for damage, wanted in self.TOGETHER.items():
            drafts = [files.damaged_draft(rng, damage) for _ in range(200)]
            for data in [draft.bytes() for draft in drafts if draft.body == 2]:
                self.assertEqual(brute.first_fault(data).numbers[:len(wanted)], wanted, damage.__name__)

    def test_both_editions_about_half_each(self):
        # Owners can be damaged in edition 2 only, so that fewer damaged files are of edition 1.
        rng = random.Random(28)
        for make, fewest in ((files.random_file, 120), (files.random_links, 120), (files.of_two_editions, 120),
                             (lambda rng: run_paths.file_of(rng, files.random_matter(rng)), 120),
                             (lambda rng: files.middle_files(rng, 1)[0], 120), (files.twice_damaged_file, 80)):
            editions = [make(rng)[0] for _ in range(300)]
            for edition in (1, 2):
                self.assertGreater(editions.count(edition), fewest, make)
        for make in (files.deep_files, files.limit_files, files.highest_values, files.full_files, files.limit_of_count_files):
            editions = [data[0] for data in make(rng)]
            for edition in (1, 2):
                self.assertGreater(editions.count(edition), 5, make)

    def test_the_other_edition(self):
        e, a = stored.case_file("A in edition 2"), stored.case_file("A")
        self.assertEqual((files.in_edition_1(e), files.in_edition_1(a)), (a, a))
        self.assertEqual((files.length_in(1, e), files.length_in(2, e)), (26, 29))
        self.assertEqual(files.of_length_in(1, e), e[:26])
        self.assertEqual(files.of_length_in(2, a), a + bytes(3))

    def test_owners_follow_the_chains(self):
        draft = files.lay_out(files.Matter(3, 1, 0, 2, {(0, 1, 0), (1, 2, 0)}, set()), random.Random(1), 2)
        draft.heads[1], draft.heads[2] = 0, draft.heads[1]
        self.assertEqual(brute.check(draft.bytes()), 15)
        draft.records[draft.heads[2] - 1][0] = 1
        draft.give_owners()
        self.assertEqual(brute.decode(draft.bytes()).edges, {(0, 1, 0), (2, 1, 0)})
        self.assertEqual(brute.check(draft.bytes()), 0)

    def test_cut_and_lengthened(self):
        rng = random.Random(23)
        for _ in range(300):
            data = files.random_file(rng)
            self.assertEqual(brute.check(files.cut(data, rng)), 1)
            self.assertEqual(brute.check(files.lengthened(data, rng)), 1)

    def test_full_file(self):
        for edition, length in ((1, 35784), (2, 44712)):
            data = files.full_draft(random.Random(24), 3, 31, edition).bytes()
            self.assertEqual((len(data), files.LONGEST_FILES[edition]), (length, length))
            self.assertEqual((brute.check(data), brute.check(data + b"\0"), brute.check(data[:-1])), (0, 1, 1))
            house = brute.decode(data)
            self.assertEqual((len(house.edges), len(house.permits)), (7936, 992))

    def test_the_longest_legal_chain(self):
        rng = random.Random(25)
        replies = [brute.check(files.one_chain_draft(rng, 31, *size).bytes())
                   for size in ((279, 279), (280, 280), (279, 280), (8928, 8928))]
        self.assertEqual(replies, [0, 8, 5, 8])


class Script(unittest.TestCase):

    def test_a_frame_by_hand(self):
        self.assertEqual(
            script.frame("p", b"\x11\x12", 3, 4, b"\x13", b"\x14\x15\x16", b"\x17" * 4),
            hexadecimal("70 03 04 00  02 00 00 00  01 00 00 00  03 00 00 00  04 00 00 00"
                        "  00 00 00 00  11 12  13  14 15 16  17 17 17 17"))
        self.assertEqual(len(script.frame("c", b"")), 24)

    def test_a_frame_taken_apart_and_put_together(self):
        for case in stored.cases():
            self.assertEqual(script.frame_of(script.parts_of(case.frame)), case.frame)

    def test_stored_rows(self):
        self.assertEqual(stored.disagreements(), [])

    def test_the_full_file_prints_992_relations(self):
        data = files.full_draft(random.Random(26), 0, 31).bytes()
        lines = script.decode_text(data).splitlines()
        self.assertEqual(len(lines), 994)
        self.assertEqual(lines[0], "decode 32 8 0 31")
        self.assertEqual(lines[1].split()[:3], ["permits", "FFFFFFFE", "FFFFFFFD"])
        self.assertEqual(lines[2], "relation 0 1 FF")
        self.assertEqual(lines[-1], "relation 31 30 FF")

    def test_missing_output_never_passes(self):
        frames = [("c", stored.case_file("A")), ("d", stored.case_file("A")), ("c", b"")]
        texts = [script.expected(call, data) for call, data in frames]
        whole = "".join(texts)
        self.assertEqual(comparing.compare(texts, whole)[0], [])
        self.assertEqual(comparing.compare(texts, "")[0], [0, 1, 2])
        self.assertEqual(comparing.compare(texts, texts[0])[0], [1, 2])
        self.assertEqual(comparing.compare(texts, whole[:-1])[0], [2])
        self.assertEqual(comparing.compare(texts, whole + "check accepted\n")[2], 1)


class GuardedCalls(unittest.TestCase):
    """Guards of an output, and the lines that show it."""

    BEFORE, AFTER = bytes(range(0xA0, 0xB0)), bytes(range(0xC0, 0xD0))
    BEFORE_TEXT, AFTER_TEXT = "A0A1A2A3A4A5A6A7A8A9AAABACADAEAF", "C0C1C2C3C4C5C6C7C8C9CACBCCCDCECF"

    def lines(self, answer, lent):
        return "%s\noutput %s%s%s\n" % (answer, self.BEFORE_TEXT, lent, self.AFTER_TEXT)


class WordCalls(GuardedCalls):
    """Frames and lines of path and next-word."""

    def given(self, *word):
        """The given bytes of a word, with symbols after it that are none."""
        return script.given_bytes(len(word), bytes(word) + b"\xEE" * (31 - len(word)))

    def text(self, call, letter, first, second, given, lent):
        output = self.BEFORE + lent + self.AFTER
        known = brute.Known(stored.case_file(letter))
        return script.output_text(call, *script.word_reply(call, known, first, second, given, output))

    def test_a_frame_by_hand(self):
        given = self.given(0, 4)
        made = script.word_frame("n", b"\x11\x12", 3, 4, given, self.BEFORE + b"\x13" + self.AFTER)
        wanted = hexadecimal("6E 03 04 00  02 00 00 00  20 00 00 00  01 00 00 00  00 00 00 00"
                             "  00 00 00 00  11 12  02 00 04" + 29 * " EE")
        self.assertEqual(made, wanted + self.BEFORE + b"\x13" + self.AFTER)
        self.assertEqual(script.parts_of(made),
                         ("n", 3, 4, b"\x11\x12", given, self.BEFORE + b"\x13" + self.AFTER, b""))

    def test_given_words(self):
        self.assertEqual(script.word_of(self.given()), ())
        self.assertEqual(script.word_of(self.given(0, 4, 9)), (0, 4, 9))
        self.assertEqual(script.word_of(script.given_bytes(31, bytes(range(31)))), tuple(range(31)))
        for length in (32, 33, 255):
            self.assertEqual(len(script.word_of(script.given_bytes(length, bytes(31)))), length)

    def test_path_texts(self):
        self.assertEqual(self.text("p", "A", 0, 2, self.given(0, 0), hexadecimal("91 92 93 94")),
                         self.lines("path 3", "00010294"))
        self.assertEqual(self.text("p", "G", 2, 0, self.given(2, 2), hexadecimal("91 92 93")),
                         self.lines("path 3", "020100"))
        self.assertEqual(self.text("p", "A", 0, 2, self.given(0), hexadecimal("91 92 93")),
                         self.lines("path none", "919293"))
        self.assertEqual(self.text("p", "A", 0, 2, self.given(0, 0), hexadecimal("91 92")),
                         self.lines("path refused 14", "9192"))
        self.assertEqual(self.text("p", "A", 0, 2, self.given(0, 1), b""),
                         self.lines("path refused 11", ""))
        self.assertEqual(self.text("p", "A", 0, 2, self.given(), b""),
                         self.lines("path refused 11", ""))
        self.assertEqual(self.text("p", "A", 0, 3, self.given(), b""),
                         self.lines("path refused 10", ""))

    def test_next_word_texts(self):
        lent = b"\x91" * 31
        self.assertEqual(self.text("n", "H", 0, 1, self.given(), lent),
                         self.lines("next-word 1", "00" + "91" * 30))
        self.assertEqual(self.text("n", "H", 0, 1, self.given(0), lent + b"\x92"),
                         self.lines("next-word 1", "04" + "91" * 30 + "92"))
        self.assertEqual(self.text("n", "H", 0, 1, self.given(4), lent),
                         self.lines("next-word none", "91" * 31))
        self.assertEqual(self.text("n", "H", 0, 1, self.given(), lent[1:]),
                         self.lines("next-word refused 14", "91" * 30))
        self.assertEqual(self.text("n", "A", 0, 1, script.given_bytes(32, bytes(31)), b""),
                         self.lines("next-word refused 11", ""))

    def test_a_length_above_31_is_refused_at_d_31(self):
        data = file_with(2, [(0, 1, 0)], longest=31)
        for length in (32, 255):
            given = script.given_bytes(length, bytes(31))
            for call in ("p", "n"):
                output = bytes(100 + 32)
                reply, after = script.word_reply(call, brute.Known(data), 0, 1, given, output)
                self.assertEqual((reply, after), (("refused", 11), output))

    def test_a_refused_file(self):
        known = brute.Known(b"")
        for call, name in (("p", "path"), ("n", "next-word")):
            reply, after = script.word_reply(call, known, 9, 9, self.given(), self.BEFORE + self.AFTER)
            self.assertEqual(script.output_text(call, reply, after), self.lines(name + " refused 1", ""))


class WordTestCalls(unittest.TestCase):
    """Frames and lines of the word test, and what the suite counts."""

    def test_a_frame_by_hand(self):
        given = script.given_bytes(2, hexadecimal("00 04" + 29 * " EE"))
        made = script.test_frame(b"\x11\x12", 3, 4, given)
        self.assertEqual(made, hexadecimal("74 03 04 00  02 00 00 00  20 00 00 00  00 00 00 00  00 00 00 00"
                                           "  00 00 00 00  11 12  02 00 04" + 29 * " EE"))
        self.assertEqual(script.parts_of(made), ("t", 3, 4, b"\x11\x12", given, b"", b""))
        self.assertEqual(script.frame_of(script.parts_of(made)), made)
        for length in (0, 31, 33):
            with self.assertRaises(ValueError):
                script.test_frame(b"", 0, 1, bytes(length))

    def test_lines(self):
        texts = [script.test_text(reply) for reply in (("yes", 2), ("no", 1), ("no", 0), ("refused", 10))]
        self.assertEqual(texts, ["test yes 2\n", "test no 1\n", "test no 0\n", "test refused 10\n"])
        self.assertEqual(comparing.compare(texts, "".join(texts)), ([], texts, 0))
        self.assertEqual(comparing.compare(texts, "".join(texts).replace("no 1", "no 2"))[0], [1])

    def occurrences(self, known, first, second, word):
        asked = run_word_test.Asked(first, second, len(word), bytes(word) + bytes(31 - len(word)))
        reply = brute.word_test_reply(known, first, second, word)
        return set(run_word_test.occurrences(known, asked, reply, word))

    def test_what_is_counted(self):
        # To 4 lead 0, 1, 2, 4 and 3, 4; 2 and 1 each to the other.
        known = brute.Known(file_with(5, [(0, 1, 0), (1, 2, 0), (2, 1, 0), (2, 4, 0), (3, 4, 0)], longest=31))
        touched, walked = "the deepest way touches the first party", "a walk that repeats a party is longer"
        lower, higher = "a lower party leads less far", "a higher party leads less far"
        found = self.occurrences(known, 0, 4, (0,) * 4)
        self.assertLessEqual({"no", "no with length 2", touched, walked, higher, "no in language 0"}, found)
        self.assertFalse({lower, "word longer than n - 1", "length one below the word's"} & found)
        found = self.occurrences(known, 3, 4, (0,) * 4)
        self.assertLessEqual({"no with length 3", "length one below the word's"}, found)
        self.assertFalse({touched, walked, higher, lower} & found)
        found = self.occurrences(known, 2, 4, (0,) * 31)
        self.assertLessEqual({"no with length 1", touched, "word longer than n - 1", "word of 31 symbols"}, found)
        self.assertFalse({walked, higher, lower} & found)
        self.assertIn("a word of another pair", self.occurrences(known, 3, 4, (0, 0)))
        self.assertIn("yes with 3 symbols", self.occurrences(known, 0, 4, (0, 0, 0)))
        # The same with 3 at the end of the longer one.
        known = brute.Known(file_with(5, [(0, 1, 0), (1, 3, 0), (3, 4, 0), (2, 4, 0)], longest=4))
        found = self.occurrences(known, 2, 4, (0,) * 4)
        self.assertFalse({lower, higher, touched} & found)
        known = brute.Known(file_with(6, [(0, 1, 0), (1, 3, 0), (3, 4, 0), (2, 4, 0)], longest=4))
        self.assertIn(lower, self.occurrences(known, 5, 4, (0,) * 4))

    def test_changed_symbols_are_counted(self):
        known = brute.Known(file_with(4, [(0, 1, 0), (1, 2, 0), (2, 3, 0)], labels=2, longest=3))
        names = ["a word of the pair but for " + what for what in ("its first symbol", "a symbol between", "its last symbol")]
        for word, name in zip([(4, 0, 0), (0, 4, 0), (0, 0, 4)], names):
            self.assertEqual(self.occurrences(known, 0, 3, word) & set(names), {name})
        for word in ((4, 4, 0), (0, 0), (4,)):
            self.assertFalse(self.occurrences(known, 0, 3, word) & set(names))

    def test_refusals_are_counted(self):
        known = brute.Known(file_with(4, [(0, 1, 0)], longest=3))
        for first, second, word, name in (
                (0, 0, (0,), "same party twice"), (4, 1, (0,), "first party too high"), (0, 4, (0,), "second party too high"),
                (0, 4, (), "faults of pair and word"), (0, 4, (1,), "faults of pair and word"), (0, 1, (), "empty word"),
                (0, 1, (0,) * 4, "longer than D"), (0, 1, (4,), "label too high"), (0, 1, (1,), "kind not of the language")):
            refusal = "refused 10" if "part" in name or "pair" in name else "refused 11"
            self.assertEqual(self.occurrences(known, first, second, word), {"frames", refusal, name})

    def test_the_arguments_hold_for_few_parties(self):
        rng = random.Random(52)
        held = {}
        for n, rounds in ((4, 3), (5, 2), (6, 1)):
            known = {}
            for row in [row for _ in range(rounds) for row in large_word_test.rows(rng, n)]:
                if row.data not in known:
                    known[row.data] = brute.Known(row.data)
                house, symbols = known[row.data].house, max(len(on_step) for on_step in known[row.data].graph.values())
                if run_paths.expected_paths(n, house.longest, symbols) < 10000:
                    self.assertEqual(brute.word_test_reply(known[row.data], row.first, row.second, row.word), row.reply, (n, row))
                    held[row.name] = held.get(row.name, 0) + 1
        self.assertEqual(set(held), {row.name for row in large_word_test.rows(rng, 4)})

    def test_all_larger_files_are_accepted(self):
        made = {row.data for row in large_word_test.rows(random.Random(53), 32)}
        for data in made:
            self.assertEqual((brute.check(data), data[1], data[4]), (0, 32, 31))
        self.assertEqual({data[3] for data in made}, {0, 1, 2, 3})
        self.assertEqual({data[0] for data in made}, {1, 2})


class WriteCalls(GuardedCalls):
    """Frames and lines of write."""

    def text(self, data, lent):
        return script.output_text("w", *script.write_reply(data, self.BEFORE + lent + self.AFTER))

    def test_a_frame_by_hand(self):
        output = self.BEFORE + b"\x13\x14\x15" + self.AFTER
        made = script.write_frame(b"\x11\x12", output)
        self.assertEqual(made, hexadecimal("77 00 00 00  02 00 00 00  00 00 00 00  03 00 00 00  00 00 00 00"
                                           "  00 00 00 00  11 12") + output)
        self.assertEqual(script.parts_of(made), ("w", 0, 0, b"\x11\x12", b"", output, b""))

    def test_the_longest_output(self):
        script.write_frame(b"", bytes(60000 + 32))
        for length in (31, 60001 + 32):
            with self.assertRaises(ValueError):
                script.write_frame(b"", bytes(length))

    def test_texts(self):
        data = hexadecimal("01 02 01 00 01 00 02 00  02 00 00 00  01 FF 00 00  01 00 01 00")
        copy = "020201000100020001000000010002000001FF000000"
        self.assertEqual(self.text(data, b"\x91" * 22), self.lines("write 22", copy))
        self.assertEqual(self.text(data, b"\x91" * 24), self.lines("write 22", copy + "9191"))
        self.assertEqual(self.text(hexadecimal(copy), b"\x91" * 22), self.lines("write 22", copy))
        self.assertEqual(self.text(data, b"\x91" * 21), self.lines("write refused 14", "91" * 21))
        self.assertEqual(self.text(data, b"\x91" * 20), self.lines("write refused 14", "91" * 20))
        self.assertEqual(self.text(data, b""), self.lines("write refused 14", ""))
        self.assertEqual(self.text(data[:-1], b"\x91" * 20), self.lines("write refused 1", "91" * 20))
        self.assertEqual(self.text(data[:-1], b""), self.lines("write refused 1", ""))

    def test_a_change_is_of_one_thing(self):
        rng = random.Random(41)
        changed_fields = {"one permit": ["permits"], "one relation": ["edges"], "D": ["longest"], "L": ["labels"],
                          "language": ["language"], "n": ["n"], "absent to unknown": ["unknown"], "unknown to absent": ["unknown"],
                          "known to unknown": ["edges", "unknown"], "unknown to known": ["edges", "unknown"]}
        self.assertEqual(set(changed_fields), set(run_write.CHANGES))
        seen = set()
        for number in range(3000):
            matter = files.random_matter(rng)
            name = sorted(changed_fields)[number % 10]
            changed = run_write.CHANGES[name](rng, matter)
            if changed is not None:
                seen.add(name)
                self.assertEqual(brute.check(files.lay_out(changed, rng).bytes()), 0)
                differing = [field for field in matter._fields if getattr(matter, field) != getattr(changed, field)]
                self.assertEqual(differing, changed_fields[name])
                for one, other in ((matter.permits, changed.permits), (matter.edges, changed.edges), (matter.unknown, changed.unknown)):
                    self.assertLessEqual(len(one ^ other), 1)
        self.assertEqual(seen, set(changed_fields))

    def test_a_change_of_one_unknown_relation(self):
        # Each row: a change, and the edges and unknown ones before and after it.
        one, rng = {(0, 1, 0)}, random.Random(42)
        for name, before, after in (("known to unknown", (one, set()), (set(), one)), ("unknown to known", (set(), one), (one, set())),
                                    ("unknown to absent", (set(), one), (set(), set()))):
            matter = files.Matter(2, 1, 0, 1, before[0], set(), before[1])
            changed = run_write.CHANGES[name](rng, matter)
            self.assertEqual((changed.edges, changed.unknown), after, name)
        added = run_write.CHANGES["absent to unknown"](rng, files.Matter(2, 1, 0, 1, one, set(), set()))
        self.assertEqual((added.edges, added.unknown), (one, {(1, 0, 0)}))
        full = files.Matter(2, 1, 0, 1, one, set(), {(1, 0, 0)})
        self.assertIsNone(run_write.CHANGES["absent to unknown"](rng, full))
        self.assertIsNone(run_write.CHANGES["unknown to absent"](rng, files.Matter(2, 1, 0, 1, one, set())))
        for _ in range(20):
            changed = run_write.CHANGES["one relation"](rng, full)
            self.assertTrue(changed is None or (changed.edges, changed.unknown) == (set(), full.unknown))


class ListCalls(unittest.TestCase):
    """The expected lines of permit and of the text of a list."""

    def permit(self, letter, text, first, second):
        return script.permit_text(brute.permit_reply(brute.Known(stored.case_file(letter)), first, second, hexadecimal(text)))

    def text(self, letter, text):
        return script.list_text(brute.text_reply(brute.Known(stored.case_file(letter)), hexadecimal(text)))

    def test_frames_by_hand(self):
        frame = script.list_frame("r", b"\x01\x02", b"\x00\x00\x05", 3, 4)
        self.assertEqual(frame, b"r\x03\x04\x00" + struct.pack("<5I", 2, 3, 0, 0, 0) + b"\x01\x02\x00\x00\x05")
        self.assertEqual(script.parts_of(frame), ("r", 3, 4, b"\x01\x02", b"\x00\x00\x05", b"", b""))
        self.assertEqual(script.list_frame("x", b"", b"\x00\x00"),
                         b"x\x00\x00\x00" + struct.pack("<5I", 0, 2, 0, 0, 0) + b"\x00\x00")
        script.list_frame("x", b"", bytes(20000))
        with self.assertRaises(ValueError):
            script.list_frame("x", b"", bytes(20001))

    def test_permit_lines(self):
        self.assertEqual(self.permit("A", LISTS["A"], 0, 2), "permit yes\n")
        self.assertEqual(self.permit("A", LISTS["A"], 0, 1), "permit no\n")
        self.assertEqual(self.permit("A", "00 00", 0, 2), "permit no\n")
        self.assertEqual(self.permit("A", LISTS["A"] + " 00", 0, 2), "permit refused 9\n")
        self.assertEqual(self.permit("A", "", 1, 1), "permit refused 10\n")
        self.assertEqual(self.permit("A", "", 0, 3), "permit refused 10\n")
        self.assertEqual(script.permit_text(brute.permit_reply(brute.Known(b""), 9, 9, b"")), "permit refused 1\n")

    def test_text_lines(self):
        self.assertEqual(self.text("A", LISTS["A"]), "text 30302E30300A\n")
        self.assertEqual(bytes.fromhex("30302E30300A"), b"00.00\n")
        self.assertEqual(self.text("H", LISTS["H"]), "text 303020262030340A\n")
        self.assertEqual(bytes.fromhex("303020262030340A"), b"00 & 04\n")
        self.assertEqual(self.text("A", "02 00 01 00 01 00 01 00 02 00 00"),
                         "text %s\n" % b"00\n00.00\n".hex().upper())
        self.assertEqual(self.text("A", "00 00"), "text \n")
        self.assertEqual(self.text("A", ""), "text refused 9\n")
        self.assertEqual(self.text("D", LISTS["A"]), "text refused 9\n")
        self.assertEqual(self.text("A", LISTS["G"]), "text refused 9\n")
        self.assertEqual(self.text("A", LISTS["H"]), "text refused 9\n")
        self.assertEqual(script.list_text(brute.text_reply(brute.Known(b""), b"")), "text refused 1\n")
        self.assertEqual(brute.list_text([[(0x1F, 0x0A)]]), "1F.0A\n")

    def test_replies_are_told_apart(self):
        texts = ["text \n", "permit yes\n", "text 30300A\n", "permit refused 9\n", "text refused 9\n"]
        self.assertEqual(comparing.compare(texts, "".join(texts)), ([], texts, 0))
        for text in texts:
            self.assertEqual(comparing.compare([text], "")[0], [0])
        self.assertEqual(comparing.compare(["text \n"], "text\n")[0], [0])

    def test_every_byte_of_a_list_is_changed(self):
        listed = hexadecimal(LISTS["H"])
        changed = list(run_permit.byte_by_byte(random.Random(5), listed))
        self.assertEqual(len(changed), 3 * len(listed) + 2)
        self.assertNotIn(listed, changed)
        for at in range(len(listed)):
            self.assertIn(listed[:at], changed)
            self.assertEqual(sum(len(one) == len(listed) and one[at] != listed[at] for one in changed), 2)

    def test_faults_are_named(self):
        known = brute.Known(stored.case_file("A"))
        for text, terms, fault in (
                ("01 00 01 00 02 00 00", [[(0, 0)]], None),
                ("01 00 01 00 01 00", [[(0,)]], None),
                ("02 00 01 00 01 00 01 00 00", [[(0,)]], "a word of length 0"),
                ("02 00 01 00 01 00 01 00 03 00 00 00", [[(0,)]], "a word longer than D"),
                ("01 00 01 00 01 01", [], "a kind not of the language"),
                ("01 00 01 00 01 04", [], "a label too high"),
                ("01 00 01 00 01 00 00", [[(0,)]], "bytes follow the last term"),
                ("02 00 01 00 01 00 00 00", [[(0,)]], "a term of no words"),
                ("01", [], "cut short in a number"),
                ("01 00 02 00 01 00", [], "cut short before a word"),
                ("01 00 01 00 02 00", [], "cut short in a word"),
                # once more, after lists with faults: what is kept of a sound list is still its own
                ("01 00 01 00 01 00", [[(0,)]], None)):
            self.assertEqual(run_permit.until_fault(known, hexadecimal(text)), (terms, fault), text)


class LargerFiles(unittest.TestCase):

    def listing_answer(self, known, call):
        """The answer of the listing, as large.py writes it."""
        room = 100 if call.room is None else call.room
        reply = brute.path_reply if call.call == "p" else brute.next_word_reply
        reply, after = reply(known, call.first, call.second, call.word, bytes(room))
        if reply[0] == "refused":
            return reply[1]
        return None if len(reply) == 1 else tuple(after[:reply[1]])

    def most_paths(self, n, graph):
        """The most paths that a pair of the file can have."""
        house = brute.decode(graph.data)
        symbols = max(len(held) for held in brute.enlarged(house).values())
        return run_paths.expected_paths(n, house.longest, symbols)

    def test_the_arguments_hold_for_few_parties(self):
        rng = random.Random(31)
        held = {}
        for n, rounds in ((4, 4), (5, 3), (6, 2)):
            for graph in [graph for _ in range(rounds) for graph in large.graphs(rng, n)]:
                if self.most_paths(n, graph) < 10000:
                    known = brute.Known(graph.data)
                    for call in graph.calls:
                        self.assertEqual(self.listing_answer(known, call), call.answer, (n, graph.name, call))
                    held[graph.name] = held.get(graph.name, 0) + len(graph.calls)
        self.assertEqual(set(held), {graph.name for graph in large.graphs(rng, 4)})

    def test_all_files_are_accepted(self):
        made = large.graphs(random.Random(32), 32)
        for graph in made:
            self.assertEqual(brute.check(graph.data), 0, graph.name)
            self.assertEqual(graph.data[1], 32, graph.name)
        self.assertEqual({graph.data[3] for graph in made}, {0, 1, 2, 3})
        self.assertEqual({graph.data[0] for graph in made}, {1, 2})

    def test_runs_turned_round(self):
        self.assertEqual(large.turned_runs([]), [1])
        self.assertEqual(large.turned_runs([0, 0]), [1, 2, 3])
        self.assertEqual(large.turned_runs([1, 1]), [3, 2, 1])
        self.assertEqual(large.turned_runs([0, 1, 1, 0, 1]), [1, 4, 3, 2, 6, 5])

    def test_first_after(self):
        sets = [{0, 4}, {2}, {1, 3}]
        self.assertEqual(large.first_after(sets, (9, 9)), (0, 2, 1))
        self.assertEqual(large.first_after(sets, (0, 2, 1)), (0, 2, 3))
        self.assertEqual(large.first_after(sets, (0, 2, 3)), (4, 2, 1))
        self.assertEqual(large.first_after(sets, (0, 0, 3)), (0, 2, 1))
        self.assertEqual(large.first_after(sets, (1, 2, 3)), (4, 2, 1))
        self.assertIsNone(large.first_after(sets, (4, 2, 3)))
        self.assertIsNone(large.first_after(sets, (0, 0, 0, 0)))


class Running(unittest.TestCase):
    """A program that doesn't print the expected lines never passes."""

    TEXTS = ["path 2\noutput 00\n", "next-word none\noutput 01\n", "path refused 10\noutput 02\n"]

    def run_program(self, lines, stack=None):
        """The exit status and the last line for a program of the shell with these lines."""
        cases = [script.Case(script.frame("p", b""), text) for text in self.TEXTS]
        tally, shown = comparing.Tally(), io.StringIO()
        with tempfile.TemporaryDirectory() as folder, contextlib.redirect_stdout(shown):
            program = os.path.join(folder, "program")
            self.write_program(program, lines)
            comparing.run(program, cases, tally, stack)
            status = tally.close()
        return status, shown.getvalue().splitlines()[-1]

    def write_program(self, program, lines):
        with open(program, "w") as out:
            out.write("#!/bin/sh\n" + lines)
        os.chmod(program, 0o755)

    def printing(self, text):
        return "printf '%s'\n" % text.replace("\n", "\\n")

    def test_the_expected_lines_pass(self):
        self.assertEqual(self.run_program(self.printing("".join(self.TEXTS))), (0, "3 passed, 0 failed"))

    def test_nothing_else_does(self):
        whole = "".join(self.TEXTS)
        self.assertEqual(self.run_program(""), (1, "0 passed, 3 failed"))
        self.assertEqual(self.run_program(self.printing(self.TEXTS[0])), (1, "1 passed, 2 failed"))
        self.assertEqual(self.run_program(self.printing(whole[:-1])), (1, "2 passed, 1 failed"))
        self.assertEqual(self.run_program(self.printing(whole) + "exit 3\n"), (1, "3 passed, 1 failed"))
        self.assertEqual(self.run_program(self.printing(whole + self.TEXTS[0])), (1, "3 passed, 1 failed"))
        self.assertEqual(self.run_program(self.printing(whole + "output 03\n")), (1, "2 passed, 1 failed"))
        without_second_lines = "".join(text.splitlines(keepends=True)[0] for text in self.TEXTS)
        self.assertEqual(self.run_program(self.printing(without_second_lines)), (1, "0 passed, 3 failed"))

    def test_the_stack_is_limited(self):
        lines = "test $(ulimit -s) = 1024 || exit 1\n" + self.printing("".join(self.TEXTS))
        self.assertEqual(self.run_program(lines, run_paths.STACK), (0, "3 passed, 0 failed"))

    def test_no_frames_and_no_program(self):
        with contextlib.redirect_stdout(io.StringIO()):
            self.assertEqual(comparing.Tally().close(), 1)
            tally = comparing.Tally()
            comparing.run("/nowhere/at/all", [script.Case(script.frame("c", b""), "check refused 1\n")], tally)
            self.assertEqual(tally.close(), 1)

    def run_prepared(self, arguments, lacking, *wrong):
        """The exit status and the last line of a run of one case that passes."""
        cases = [script.Case(script.frame("p", b""), "path 2\noutput 00\n")]
        shown = io.StringIO()
        with tempfile.TemporaryDirectory() as folder, contextlib.redirect_stdout(shown):
            program = os.path.join(folder, "program")
            self.write_program(program, self.printing(cases[0].text))
            status = comparing.run_prepared(["run.py"] + [program] * arguments, lambda: comparing.Prepared(
                [(cases, None), (cases, run_paths.STACK)], "a text", lacking, *wrong))
        return status, shown.getvalue().splitlines()

    def test_a_demand_that_is_not_met_fails(self):
        self.assertEqual(self.run_prepared(1, []), (0, ["a text", "2 passed, 0 failed"]))
        self.assertEqual(self.run_prepared(1, ["a demand"]), (1, ["a text", "a demand", "2 passed, 1 failed"]))
        for arguments in (0, 2):
            self.assertEqual(self.run_prepared(arguments, []),
                             (1, ["usage: run.py PATH_OF_CASES_BINARY", "0 passed, 1 failed"]))

    def test_what_is_wrong_in_all_replies_fails(self):
        replies = 2 * ["path 2\noutput 00\n"]
        for found, lines in ((replies, []), (replies[:1], ["other replies"])):
            status = self.run_prepared(1, [], lambda given: ["other replies"] if given != found else [])
            self.assertEqual(status, (len(lines), ["a text", *lines, "2 passed, %d failed" % len(lines)]))

    def test_every_demand_is_missed_by_nothing(self):
        lines = run_paths.lacking(run_paths.Collection(random.Random(1)), [])
        self.assertEqual(len(lines), len(run_paths.DEMANDS) + unknowns.LINES + 2)
        lines = run_word_test.lacking(run_word_test.Collection(random.Random(1)), [])
        self.assertEqual(len(lines), len(run_word_test.DEMANDS) + unknowns.LINES + 2)
        lines = run_permit.lacking(run_permit.Collection(random.Random(1)))
        self.assertEqual(len(lines), len(run_permit.DEMANDS) + unknowns.LINES + 2)
        lines = run_write.lacking(run_write.Collection(random.Random(1)))
        self.assertEqual(len(lines), len(run_write.DEMANDS) + unknowns.LINES)
        lines = run_compare.lacking(run_compare.Collection(random.Random(1)))
        self.assertEqual(len(lines), len(run_compare.DEMANDS) + unknowns.LINES + 2)
        account = run_cases.Account()
        lines = 1 + len(brute.FILE_REFUSALS) + 4 + len(account.limits) + len(run_cases.DEMANDS) + unknowns.LINES
        self.assertEqual(len(account.lacking()), lines)


if __name__ == "__main__":
    unittest.main()
