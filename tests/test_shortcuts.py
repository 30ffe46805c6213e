"""Tests of the quicker reckoning and of the files for run_shortcuts.py.

    python3 -m unittest discover -s tests
"""

import os
import random
import unittest
from collections import Counter

import alike
import brute
import quick
import run_permit
import run_shortcuts
import shortcuts
import stored

MOST_STATES = 400000


def small_houses(rng, how_many):
    """Houses whose words can be listed, with permits at random."""
    for _ in range(how_many):
        matter = run_permit.small_matter(rng, rng.choice([8, 50, 200]))
        house = brute.House(*matter)
        part = rng.choice([0.1, 0.3, 0.7])
        yield house._replace(permits={pair for pair in brute.pairs(house) if rng.random() < part})


class Reckoning(unittest.TestCase):
    """quick.py against brute.py."""

    def test_01s_cases(self):
        for name in "ABCDEFGHIJ":
            known = brute.Known(stored.case_file(name))
            judged = quick.Reckoner(known.house).judged()
            self.assertEqual(judged.reply, known.verdict(), name)
            self.assertEqual(judged.terms, known.terms() if judged.terms is not None else None, name)

    def test_verdict_and_list(self):
        replies = Counter()
        for house in small_houses(random.Random(61), 400):
            table = brute.word_table(house)
            judged = quick.Reckoner(house).judged()
            self.assertEqual(judged.reply, brute.verdict(house, table), house)
            if judged.terms is not None:
                self.assertEqual(judged.terms, brute.mine(house, table), house)
            replies[judged.reply[0]] += 1
        for reply in ("convertible", "rival", "no-word"):
            self.assertGreater(replies[reply], 30, reply)

    def test_words(self):
        rng = random.Random(62)
        for house in small_houses(rng, 150):
            reckoner, table = quick.Reckoner(house), brute.word_table(house)
            for pair, listed in table.items():
                ends = reckoner.ends[pair]
                self.assertEqual(ends.words(), len(listed))
                self.assertEqual(ends.first_word(), listed[0] if listed else None)
                for place, word in list(enumerate(listed))[::7]:
                    self.assertEqual(ends.before(word), place)
                other = rng.choice(sorted(table))
                lacked = [word for word in listed if word not in table[other]]
                self.assertEqual(reckoner.lacked(pair, other), lacked[0] if lacked else None)
                for word in table[other][:5]:
                    self.assertEqual(ends.has(word), word in listed)

    def test_words_before_the_one_lacked(self):
        seen = Counter()
        for house in small_houses(random.Random(63), 200):
            judged, table = quick.Reckoner(house).judged(), brute.word_table(house)
            if judged.reply[0] == "rival":
                self.assertEqual(judged.before, [len(table[judged.reply[1]])])
            elif judged.reply[0] == "convertible":
                self.assertEqual(len(judged.before), sum(len(term) - 1 for term in judged.terms))
            seen[judged.reply[0]] += 1
        self.assertGreater(min(seen.values()), 10)

    def test_the_limit(self):
        with self.assertRaises(quick.TooMany):
            quick.Reckoner(brute.Known(stored.case_file("I")).house, 1).judged()


class Rows(unittest.TestCase):
    """The rows of shortcuts.py."""

    def setUp(self):
        self.rows = shortcuts.rows()

    def test_answers_that_can_be_reckoned(self):
        reckoned = [row for row in self.rows if not row.slow]
        self.assertGreater(len(reckoned), 90)
        for row in reckoned:
            judged = quick.Reckoner(brute.decode(row.data), MOST_STATES).judged()
            self.assertEqual((judged.reply, judged.terms), (row.reply, row.terms), row.name)

    def test_how_many_words_come_before(self):
        """First lacked words of each length, with more than 64 and more than 600 before where there can be so many."""
        most = {}
        for given in shortcuts.LACKING:
            row = shortcuts.lacking_one(random.Random(1), *given)
            before = max(quick.Reckoner(brute.decode(row.data)).judged().before)
            most[given[0]] = max(before, most.get(given[0], 0))
        self.assertEqual(sorted(most), list(range(1, 9)))
        self.assertTrue(all(most[length] > 64 for length in range(2, 9)), most)
        self.assertTrue(all(most[length] > 600 for length in range(4, 9)), most)

    def test_small_ones_of_the_slow_sorts(self):
        rng = random.Random(64)
        rows = [shortcuts.turned_ring(rng, n, language, 4, False) for n in (6, 7) for language in range(4)]
        rows += [shortcuts.exchanged(rng, n, language, 4, 2, False) for n in (4, 5, 6) for language in range(4)]
        rows += [shortcuts.copied(rng, 3, copies, language, 3, False) for copies in (2, 3) for language in range(4)]
        rows += [shortcuts.turned_ring(rng, n, language, 4, False, True) for n in (6, 7) for language in (1, 3)]
        rows += [shortcuts.exchanged(rng, n, language, 4, 2, False, True) for n in (4, 5, 6) for language in (1, 3)]
        rows += [shortcuts.copied(rng, 3, copies, language, 3, False, True) for copies in (2, 3) for language in (1, 3)]
        rows += [shortcuts.tournament(rng, language, 3, True) for language in (1, 3)]
        rows += [shortcuts.smaller_clique(rng, size, less, False) for size in (3, 4, 5) for less in (1, 2) if size > less + 1]
        rows += [shortcuts.two_sides(rng, few, many, False) for few in (2, 3) for many in (3, 4)]
        for row in rows:
            judged = quick.Reckoner(brute.decode(row.data)).judged()
            self.assertEqual((judged.reply, judged.terms), (row.reply, row.terms), row.name)

    def test_lists_about_the_longest_kept(self):
        lengths = [row.reply[1] for row in shortcuts.list_rows(random.Random(65))]
        self.assertEqual(lengths, [65535, 65536, 65537])

    def test_the_smallest_against_the_listing(self):
        rng = random.Random(66)
        for row in [shortcuts.walked_only(rng, 3), shortcuts.walked_round(rng, 4), shortcuts.two_sides(rng, 2, 2, False),
                    shortcuts.lacking_one(rng, 2, "012", [3, 8], False), shortcuts.lacking_one(rng, 3, "[01][2]", [7], True),
                    shortcuts.lacking_one(rng, 2, "01", [3], False, with_rival=True),
                    shortcuts.nearly_together(rng, 3, "01", [(0, 1), (2, 1)]),
                    shortcuts.two_cliques(rng, 3, 1, 2), shortcuts.smaller_clique(rng, 4, 1, False), shortcuts.tournament(rng, 1, 3)]:
            known = brute.Known(row.data)
            self.assertEqual(known.verdict(), row.reply, row.name)
            if row.terms is not None:
                self.assertEqual(known.terms(), row.terms, row.name)

    def test_permit_calls(self):
        rng = random.Random(67)
        for asked in shortcuts.full_clique(rng, 3, False) + shortcuts.full_clique(rng, 5, False):
            self.assertEqual(brute.call_permit(asked.data, asked.listed, *asked.pair), asked.reply, asked.name)
        example = [asked for asked in shortcuts.permit_rows() if asked.data[1] == 14 and asked.name.startswith("12 symbols")]
        self.assertEqual([(asked.pair, asked.reply) for asked in example], [((1, 13), ("no",))])
        self.assertEqual(example[0].listed, bytes([1, 0, 1, 0, 13] + 12 * [0] + [4]))


class Alike(unittest.TestCase):
    """The files at random."""

    def test_maps(self):
        ring = brute.House(4, 1, 0, 3, {(u, (u + 1) % 4, 0) for u in range(4)}, set())
        star = brute.House(4, 1, 0, 3, {(0, u, 0) for u in range(1, 4)}, set())
        for house, pair, other, name in ((ring, (0, 1), (1, 2), "another map"), (ring, (0, 1), (0, 2), "no map"),
                                         (star, (0, 1), (0, 3), "an exchange of two"), (star, (1, 2), (2, 3), "another map")):
            self.assertEqual(alike.map_name(house, brute.enlarged(house), pair, other), name, (pair, other))

    def test_a_map_shows_a_rival(self):
        rng = random.Random(68)
        for _ in range(60):
            house = alike.drawn(rng)._replace(longest=3)
            reckoner, graph = quick.Reckoner(house), brute.enlarged(house)
            pair, other = rng.sample(brute.pairs(house), 2)
            if alike.map_name(house, graph, pair, other) != "no map":
                self.assertIsNone(reckoner.lacked(pair, other))

    def test_symbols_that_follow_on_walks_only(self):
        rng = random.Random(69)
        chain = brute.House(4, 1, 0, 3, {(u, u + 1, 0) for u in range(3)}, set())
        couples = chain._replace(edges=alike.couples(rng, 5, 1, 0.5), n=5)
        for house, expected in ((chain, False), (couples, True), (couples._replace(language=3), True),
                                (chain._replace(edges=alike.any_relations(rng, 4, 1, 1.0)), False)):
            self.assertEqual(alike.walked_only(house, brute.enlarged(house)), expected, house)

    def test_symbols_among_others(self):
        for language, edges, unknown, wanted in (
                (1, {(0, 1, 0)}, set(), False), (3, {(0, 1, 0)}, set(), False), (1, set(), {(0, 1, 0)}, True),
                (3, {(0, 1, 0)}, {(1, 2, 0)}, True), (0, {(0, 1, 0)}, set(), True)):
            house = brute.House(3, 1, language, 2, edges, set(), unknown)
            self.assertEqual(alike.contained(brute.enlarged(house)), wanted, house)

    def test_every_demand_can_be_met(self):
        names = {"convertible", "rival"} | {"rival by " + way for way in ("an exchange of two", "another map", "no map")}
        for kind in ("convertible", "rival"):
            names |= {kind + ", very many words", "symbols that hold for the same pairs, " + kind}
            names |= {"symbols that follow on walks only, " + kind, "unknown relations, " + kind}
            names |= {"language %d, %s" % (language, kind) for language in range(4)}
        names |= {"a word of 5 symbols or more is added", "several words are added"}
        names |= {"a pair's symbols among another's in language 1 or 3" + more for more in ("", ", very many words")}
        self.assertEqual(set(alike.DEMANDS), names)


class InTime(unittest.TestCase):
    """Calls in a process of their own."""

    def test_calls_come_back(self):
        held = run_shortcuts.Held("verdict", "", ("no",), ("yes",))
        self.assertEqual(run_shortcuts.in_time(lambda: [held]), [held])

    def test_a_process_that_is_ended(self):
        self.assertIsNone(run_shortcuts.in_time(lambda: os._exit(3)))


if __name__ == "__main__":
    unittest.main()
