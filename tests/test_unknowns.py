"""Tests of unknown relations on the test side: what is counted of them, and that every generator makes them.

    python3 -m unittest discover -s tests        (or: python3 tests/test_unknowns.py)
"""

import random
import unittest
from collections import Counter

import alike
import brute
import converting
import files
import large
import run_cases
import run_paths
import run_permit
import run_word_test
import stored
import unknowns

A = stored.case_file("A")
UNKNOWN_1 = stored.case_file("(0,1) unknown, permit (1,0)")

# Each row: a file by its name, its refusal, and what it is counted as.
NAMES = [
    ("A", 0, ["accepted: edition 1 in language 0"]),
    ("A in edition 2", 0, ["accepted: edition 2 in language 0"]),
    ("(0,1) unknown, permit (1,0)", 0, ["accepted: edition 1 in language 1", "unknown: edition 1 in language 1"]),
    ("(0,1) unknown, permit (1,0), edition 2", 0, ["accepted: edition 2 in language 1", "unknown: edition 2 in language 1"]),
    ("(0,1) unknown, language 3", 0, ["accepted: edition 1 in language 3", "unknown: edition 1 in language 3"]),
    ("L 8: kind 87", 0, ["accepted: edition 1 in language 0", "unknown: edition 1 in language 0"]),
    ("label 0 known, then unknown", 16, [unknowns.KNOWN_FIRST]),
    ("label 0 unknown, then known", 16, [unknowns.UNKNOWN_FIRST]),
    ("label 0 known, a permit, then unknown", 16, [unknowns.KNOWN_FIRST]),
    ("label 0 known, then unknown, edition 2", 16, [unknowns.KNOWN_FIRST]),
    ("label 0 unknown, then known, edition 2", 16, [unknowns.UNKNOWN_FIRST]),
    ("label 0 unknown, then unknown", 8, [unknowns.TWO_UNKNOWN]),
    ("label 0 unknown, then unknown, edition 2", 8, [unknowns.TWO_UNKNOWN]),
    ("(0,1) with label 0 twice", 8, []),
    ("permit (0,2) twice, a record between them", 8, []),
    ("L 2: kind 82", 7, []),
    ("the empty file", 1, []),
]


class Counting(unittest.TestCase):

    def test_names(self):
        for name, refusal, names in NAMES:
            data = stored.case_file(name)
            self.assertEqual(brute.check(data), refusal, name)
            self.assertEqual(unknowns.names_of(data, refusal), names, name)

    def test_a_file_counts_once(self):
        account, seen = Counter(), set()
        for data in (A, UNKNOWN_1, A, UNKNOWN_1):
            unknowns.count(account, seen, data, 0)
        self.assertEqual(account, {"accepted: edition 1 in language 0": 1, "accepted: edition 1 in language 1": 1,
                                   "unknown: edition 1 in language 1": 1})

    def test_has_unknown(self):
        rng, found = random.Random(81), Counter()
        for _ in range(600):
            data = files.random_file(rng)
            found[unknowns.has_unknown(data)] += 1
            self.assertEqual(unknowns.has_unknown(data), bool(brute.decode(data).unknown))
        self.assertGreater(min(found[True], found[False]), 100)

    def account(self, accepted, with_unknown):
        account = Counter({unknowns.KNOWN_FIRST: 7, unknowns.UNKNOWN_FIRST: 8, unknowns.TWO_UNKNOWN: 3})
        for name in unknowns.CLASSES:
            account["accepted: " + name], account["unknown: " + name] = accepted, with_unknown
        return account

    def test_demands(self):
        self.assertEqual(len(unknowns.lacking(Counter(), 1, 1)), unknowns.LINES)
        for with_unknown, lines in ((24, 8), (25, 0), (33, 0), (50, 0), (51, 8)):
            self.assertEqual(len(unknowns.lacking(self.account(100, with_unknown), 7, 3)), lines, with_unknown)
        for fewest, lines in (((7, 3), 0), ((8, 3), 1), ((9, 3), 2), ((7, 4), 1)):
            self.assertEqual(len(unknowns.lacking(self.account(100, 33), *fewest)), lines, fewest)
        self.assertEqual(len(unknowns.lacking_accepted(Counter())), len(unknowns.CLASSES))
        account = self.account(100, 33)
        account["unknown: edition 2 in language 3"] = 0
        self.assertEqual(unknowns.lacking(account, 7, 3), ["0 of 100 files of edition 2 in language 3 have unknown relations"])


class Matters(unittest.TestCase):

    MATTER = files.Matter(3, 2, 1, 2, {(0, 1, 0), (1, 2, 1)}, {(0, 1)}, {(0, 1, 1)})

    def test_absent_relations(self):
        self.assertEqual(len(files.every_relation(3, 2)), 12)
        absent = files.absent_relations(self.MATTER)
        self.assertEqual(len(absent), 9)
        self.assertFalse(set(absent) & {(0, 1, 0), (1, 2, 1), (0, 1, 1)})
        self.assertEqual(absent, sorted(absent))

    def test_made_unknown(self):
        made = files.made_unknown(self.MATTER, [(0, 1, 0), (2, 0, 0)])
        self.assertEqual((made.edges, made.unknown), ({(1, 2, 1)}, {(0, 1, 0), (0, 1, 1), (2, 0, 0)}))
        self.assertEqual(made._replace(edges=0, unknown=0), self.MATTER._replace(edges=0, unknown=0))

    def test_some_unknown(self):
        rng, counts = random.Random(82), Counter()
        given = {(0, 1, 0), (1, 2, 1), (2, 0, 0), (2, 1, 1)}
        for _ in range(400):
            made = files.some_unknown(rng, self.MATTER._replace(unknown=set()), given)
            self.assertLessEqual(made.unknown, given)
            self.assertFalse(made.edges & made.unknown)
            counts[len(made.unknown)] += 1
        self.assertEqual(sorted(counts), [0, 1, 2, 3, 4])
        self.assertTrue(200 < counts[0] < 300, counts)
        self.assertEqual(files.some_unknown(rng, self.MATTER, []), self.MATTER)

    def test_full_drafts(self):
        for part, fewest, most in ((0, 0, 0), (0.5, 3500, 4500), (1, 7936, 7936)):
            for edition in files.EDITIONS:
                data = files.full_draft(random.Random(83), 1, 31, edition, part).bytes()
                self.assertEqual((brute.check(data), len(data)), (0, files.LONGEST_FILES[edition]))
                house = brute.decode(data)
                self.assertEqual(len(house.edges) + len(house.unknown), 7936)
                self.assertTrue(fewest <= len(house.unknown) <= most)


class Generators(unittest.TestCase):
    """Each of them makes unknown relations in about a third of its files, in the languages and editions that it has."""

    def held(self, name, houses, languages=(0, 1, 2, 3)):
        houses = [house for house in houses if house.n > 1]
        part = sum(bool(house.unknown) for house in houses) / len(houses)
        self.assertTrue(0.2 < part < 0.5, (name, part))
        self.assertEqual({house.language for house in houses if house.unknown}, set(languages), name)

    def test_matters(self):
        rng = random.Random(84)
        for name, make, languages in (
                ("random", files.random_matter, (0, 1, 2, 3)),
                ("small", lambda rng: run_paths.small_matter(rng, 200), (0, 1, 2, 3)),
                ("small for lists", run_permit.small_matter, (0, 1, 2, 3)),
                ("sparse", lambda rng: run_paths.sparse_matter(rng)[0], (0, 2)),
                ("chained", lambda rng: run_word_test.chained_matter(rng)[0], (0, 1, 2, 3)),
                ("forest", converting.forest, (0, 2)), ("short words", converting.short_words, (1, 3)),
                ("middle", middle_house, (0, 1, 2, 3))):
            self.held(name, [make(rng) for _ in range(300)], languages)

    def test_houses_with_parties_alike(self):
        # Of those with many words it is a third; of all that are drawn it is more.
        houses = [alike.drawn(random.Random(seed)) for seed in range(80)]
        self.held("alike", houses)
        for house in houses:
            self.assertFalse(house.edges & house.unknown)

    def test_editions(self):
        rng = random.Random(85)
        made = [files.random_file(rng) for _ in range(400)] + [large.file_of(rng, 6, 2, 2, [(0, 1, 0)]) for _ in range(100)]
        editions = Counter(data[0] for data in made if unknowns.has_unknown(data))
        self.assertGreater(min(editions[1], editions[2]), 40)

    def test_links_at_random(self):
        rng, replies = random.Random(86), Counter()
        for _ in range(4000):
            data = files.random_links(rng)
            replies.update(unknowns.names_of(data, brute.check(data)))
        for name in (unknowns.KNOWN_FIRST, unknowns.UNKNOWN_FIRST):
            self.assertGreater(replies[name], 0, name)
        self.assertGreater(sum(replies["unknown: " + name] for name in unknowns.CLASSES), 5)

    def test_larger_files(self):
        # In languages 1 and 3 a relation that is not said to be unknown is absent.
        rng = random.Random(87)
        for language in (1, 3):
            for _ in range(20):
                self.assertFalse(unknowns.has_unknown(large.file_of(rng, 5, 1, language, [(0, 1, 0)])))
            self.assertTrue(unknowns.has_unknown(large.file_of(rng, 5, 1, language, [(0, 1, 0)], unknown=[(1, 0, 0)])))


def middle_house(rng):
    return brute.decode(files.middle_files(rng, 1)[0])


# Known and unknown relations of three parties with L 3, and how they stand beside each other.
LAST, PAIR, OWNER, TARGET, BACK = (
    "kind: unknown, label L - 1", *("known beside unknown: " + what for what in (
        "one pair, two labels", "one owner and label, two targets", "one target and label, two owners", "one label there and back")))
BESIDE = [
    ([(0, 1, 0)], [], []), ([], [(0, 1, 0)], []), ([], [(0, 1, 2)], [LAST]),
    ([(0, 1, 0)], [(0, 1, 1)], [PAIR]), ([(0, 1, 0)], [(0, 2, 0)], [OWNER]), ([(0, 2, 0)], [(1, 2, 0)], [TARGET]),
    ([(0, 1, 0)], [(1, 0, 0)], [BACK]), ([(0, 1, 0)], [(1, 0, 1)], []), ([(0, 1, 0)], [(0, 2, 1)], []), ([(0, 1, 0)], [(2, 1, 1)], []),
    ([(0, 1, 0), (2, 1, 2)], [(0, 1, 2)], [LAST, PAIR, TARGET]),
]


class NamesOfCases(unittest.TestCase):
    """What run_cases.py counts."""

    def test_beside(self):
        for edges, unknown, names in BESIDE:
            house = brute.House(3, 3, 0, 2, set(edges), set(), set(unknown))
            self.assertEqual(run_cases.beside(house), names, (edges, unknown))
        self.assertIn("kind: unknown, label 7", run_cases.beside(brute.House(3, 8, 0, 2, set(), set(), {(0, 1, 7)})))

    def test_kinds(self):
        for labels, kind, names in ((2, 2, ["L"]), (2, 0x82, ["80 + L"]), (2, 0x7F, ["7F"]), (2, 0x88, ["88"]), (2, 0xFE, ["FE"]),
                                    (8, 0x88, ["80 + L", "88"]), (2, 0x83, []), (2, 3, [])):
            self.assertEqual(run_cases.kind_names(kind, labels), ["kind: %s refused 7" % name for name in names])


if __name__ == "__main__":
    unittest.main()
