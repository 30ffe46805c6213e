"""A second reckoning of words, verdict and mining, for files with more words than brute.py can list.

The paths of a word's beginning are followed all at once: its states are the
parties that they have reached, each with the parties visited so far. Two words
with the same states go on alike, so each set of states is looked at once. It is
written from document 01 alone, and shares with brute.py only what a file says
and which symbols hold; test_shortcuts.py holds the two against each other.
"""

from collections import namedtuple

import brute

# What is reckoned of a file. before has, for each pair that met a term and was told apart by the first word that it
# lacks, how many words of the named pair come before that one; for a rival, how many words the named pair has.
Judged = namedtuple("Judged", "reply terms before")


class TooMany(Exception):
    """More states than the caller allows."""


class Ends:
    """The words of one pair."""

    def __init__(self, reckoner, first, second):
        self.reckoner = reckoner
        self.first, self.second = first, second
        self.start = frozenset([self.state(1 << first, first)])
        self.steps = {}
        self.lasting = {}
        self.counts = {}

    @staticmethod
    def state(visited, party):
        return visited << 5 | party

    def step(self, states, symbol):
        """The states after one more symbol that doesn't lead to the second party."""
        key = states, symbol
        if key not in self.steps:
            self.reckoner.spend(len(states))
            leads, after = self.reckoner.leads[symbol], set()
            for state in states:
                visited = state >> 5
                open_parties = leads[state & 31] & ~visited & ~(1 << self.second)
                while open_parties:
                    bit = open_parties & -open_parties
                    open_parties ^= bit
                    after.add(self.state(visited | bit, bit.bit_length() - 1))
            self.steps[key] = frozenset(after)
        return self.steps[key]

    def closes(self, states, symbol):
        """Whether the symbol leads from one of the states to the second party."""
        leads = self.reckoner.leads[symbol]
        return any(leads[state & 31] >> self.second & 1 for state in states)

    def lasts(self, states, length):
        """Whether just so many symbols can follow, the last of them to the second party."""
        if not states:
            return False
        key = states, length
        if key not in self.lasting:
            symbols = self.reckoner.symbols
            if length == 1:
                found = any(self.closes(states, symbol) for symbol in symbols)
            else:
                found = any(self.lasts(self.step(states, symbol), length - 1) for symbol in symbols)
            self.lasting[key] = found
        return self.lasting[key]

    def count(self, states, length):
        """How many different words of so many symbols can follow."""
        if not states:
            return 0
        key = states, length
        if key not in self.counts:
            symbols = self.reckoner.symbols
            if length == 1:
                found = sum(self.closes(states, symbol) for symbol in symbols)
            else:
                found = sum(self.count(self.step(states, symbol), length - 1) for symbol in symbols)
            self.counts[key] = found
        return self.counts[key]

    def has(self, word):
        states = self.start
        for symbol in word[:-1]:
            states = self.step(states, symbol)
        return self.closes(states, word[-1])

    def first_word(self):
        """The pair's first word, or None."""
        return self.reckoner.first_lacked(self, None)

    def words(self):
        """How many words the pair has."""
        return sum(self.count(self.start, length) for length in self.reckoner.lengths)

    def before(self, word):
        """How many of the pair's words come before this one."""
        total = sum(self.count(self.start, length) for length in range(1, len(word)))
        states = self.start
        for place, symbol in enumerate(word):
            left = len(word) - place - 1
            for lower in [s for s in self.reckoner.symbols if s < symbol]:
                total += self.count(self.step(states, lower), left) if left else self.closes(states, lower)
            states = self.step(states, symbol)
        return total


class Reckoner:
    """The words of all pairs of a house. most is how many states may be followed in all."""

    def __init__(self, house, most=None):
        self.house = house
        self.left = most
        self.symbols = brute.symbols(house)
        self.lengths = range(1, min(house.longest, house.n - 1) + 1)
        graph = brute.enlarged(house)
        self.leads = {symbol: [sum(1 << v for v in range(house.n) if v != u and symbol in graph[(u, v)])
                               for u in range(house.n)] for symbol in self.symbols}
        self.ends = {pair: Ends(self, *pair) for pair in brute.pairs(house)}
        self.found = {}

    def spend(self, states):
        if self.left is not None:
            self.left -= states
            if self.left < 0:
                raise TooMany

    def lacked(self, pair, other):
        """The pair's first word that the other lacks, or None."""
        if (pair, other) not in self.found:
            self.found[(pair, other)] = self.first_lacked(self.ends[pair], self.ends[other])
        return self.found[(pair, other)]

    def first_lacked(self, own, other):
        """The same for the words of two pairs; without another pair, the first word of all."""
        none_after = set()
        for length in self.lengths:
            begun = frozenset() if other is None else other.start
            word = self.lacked_after(own, own.start, other, begun, length, none_after)
            if word is not None:
                return word
        return None

    def lacked_after(self, own, states, other, others, length, none_after):
        """The first way to go on from these states with so many symbols that the other can't go."""
        key = states, others, length
        if key in none_after or not own.lasts(states, length):
            return None
        self.spend(1)
        for symbol in self.symbols:
            if length == 1:
                if own.closes(states, symbol) and not (others and other.closes(others, symbol)):
                    return (symbol,)
                continue
            after = other.step(others, symbol) if others else others
            rest = self.lacked_after(own, own.step(states, symbol), other, after, length - 1, none_after)
            if rest is not None:
                return (symbol,) + rest
        none_after.add(key)
        return None

    def meets(self, pair, term):
        return all(self.ends[pair].has(word) for word in term)

    # ------------------------------------------------------------------ verdict and mining, from 01

    def verdict(self):
        """("no-word", pair), ("rival", pair, rival), or None where the file is convertible."""
        unpermitted = brute.unpermitted_pairs(self.house)
        for pair in brute.permitted_pairs(self.house):
            if self.ends[pair].first_word() is None:
                return ("no-word", pair)
            for other in unpermitted:
                if self.lacked(pair, other) is None:
                    return ("rival", pair, other)
        return None

    def term_for(self, pair, before):
        term = [self.ends[pair].first_word()]
        for other in brute.unpermitted_pairs(self.house):
            if self.meets(other, term):
                word = self.lacked(pair, other)
                before.append(self.ends[pair].before(word))
                term.append(word)
        return term

    def judged(self):
        answer = self.verdict()
        if answer is not None:
            return Judged(answer, None, [self.ends[answer[1]].words()])
        terms, before = [], []
        for pair in brute.permitted_pairs(self.house):
            if not any(self.meets(pair, term) for term in terms):
                terms.append(self.term_for(pair, before))
        return Judged(("convertible", len(brute.encode_list(terms))), terms, before)
