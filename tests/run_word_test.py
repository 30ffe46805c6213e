"""Hold the word test of the program `cases` against brute.py on many files.

    python3 tests/run_word_test.py PATH_OF_CASES_BINARY

Most files are small, so that all paths to a party can be listed. The larger files
of large_word_test.py are run with 1 MiB of stack. The seeds are fixed, so each run
has the same frames. The last line printed is `N passed, M failed`: N counts frames;
M counts frames and, beside them, demands on the set of frames that are not met. The
exit status is 0 only where M is 0.
"""

import random
import sys
from collections import namedtuple

import brute
import comparing
import files
import large
import large_word_test
import run_paths
import script
import unknowns

SMALL_FILES = 1600
CHAINED_FILES = 2000
DAMAGED_FILES = 3700
MOST_PATHS = 300          # about how many paths a pair of a small file may have

# The arguments of a test beside the file. symbols are 31.
Asked = namedtuple("Asked", "first second length symbols")


# ------------------------------------------------------------------ the files

def chained_matter(rng):
    """n 5 to 8: a line through most of the parties in any order, and some relations more; some absent ones may be unknown. In languages
    1 and 3, where each two parties of which all is known are a step, n is 6 at most. Returns the matter, and the parties of the line."""
    language = rng.randint(0, 3)
    n = rng.choice({0: [5, 6, 7, 8], 1: [5, 6], 2: [5, 6, 7, 8], 3: [5, 5, 5, 6]}[language])
    labels = 1 if language in (1, 3) else rng.randint(1, 2)
    order = rng.sample(range(n), rng.randint(n - 1, n))
    steps = list(zip(order, order[1:])) + rng.choices(large.all_pairs(n), k=rng.randint(0, n))
    edges = {step + (rng.randrange(labels),) for step in steps}
    permits = set(rng.sample(large.all_pairs(n), 3))
    longest = rng.choice([5, 5, 6, 6, rng.randint(1, 8), rng.randint(n, 31), 31])
    matter = files.Matter(n, labels, language, longest, edges, permits)
    return files.some_unknown(rng, matter, files.absent_relations(matter)), order


# ------------------------------------------------------------------- the tests

class Tester(run_paths.Asker):
    """Makes word tests for one file."""

    def test(self, pair, word):
        return Asked(*pair, len(word), (bytes(word[:31]) + self.rng.randbytes(31))[:31])

    def another_symbol(self, word, at):
        """The word with another legal symbol at this place, where the house has more than one."""
        others = [symbol for symbol in brute.symbols(self.house) if symbol != word[at]]
        return word[:at] + (self.rng.choice(others),) + word[at + 1:] if others else word

    def some_way(self, second):
        """The parties and the word of some path to the party, most often of a long one; None where there are none."""
        listed = self.known.paths_to(second)
        if not listed:
            return None
        most = self.rng.choice([1, 3, max(map(len, listed))])
        word = self.rng.choice([word for word in listed if len(word) >= min(most, max(map(len, listed)))])
        return self.rng.choice(listed[word]), word

    def end_after_others(self, word, shortest=1):
        """The word with legal symbols before it, as many as D allows or fewer, so that they are this many at least in all."""
        most = self.house.longest - len(word)
        least = min(most, max(1, shortest - len(word)))
        more = self.rng.choice([least, least, self.rng.randint(least, most), most]) if most > 0 else 0
        return self.legal_of_length(more) + word

    def tests_of_ways(self, second):
        """Tests along a path to the party: with symbols before it, also so many that no path has them all, and with a first party
        that is on the path."""
        way = self.some_way(second)
        if way is None:
            return []
        parties, word = way
        rng = self.rng
        first = rng.choice([party for party in range(self.house.n) if party != second])
        aside = [party for party in range(self.house.n) if party not in parties] or [first]
        on_it = rng.choice(parties[:-1])
        return [
            self.test((rng.choice(aside), second), self.end_after_others(word)),
            self.test((rng.choice(aside), second), word),
            self.test((first, second), self.end_after_others(word, self.house.n)),
            self.test((on_it, second), self.end_after_others(word)),
            self.test((on_it, second), word),
            self.test((first, second), self.another_symbol(word, rng.randrange(len(word)))),
        ]

    def odd_test(self):
        """A test that is to be refused, sometimes for two reasons."""
        rng = self.rng
        if self.house.n == 1:
            return self.test(self.wrong_pair(), rng.choice([self.legal_word(), self.above_31(), ()]))
        pair = self.some_pair()
        word = self.own_word(pair)
        faults = rng.choice(["pair", "word", "word", "word", "pair word"])
        if "word" in faults:
            word = rng.choice([self.label_too_high(pair), self.kind_not_there(pair), self.above_d(), self.above_31(), ()])
        return self.test(self.wrong_pair() if "pair" in faults else pair, word)

    def tests(self, pair):
        """The tests on one file, mostly with this pair."""
        own, other = self.own_word(pair), self.some_pair()
        return [
            self.test(pair, own),
            self.test(pair, self.own_word(pair)),
            self.test(pair, self.another_symbol(own, 0)),
            self.test(pair, self.another_symbol(own, self.rng.randrange(len(own)))),
            self.test(pair, self.another_symbol(own, len(own) - 1)),
            self.test(pair, self.own_word(other)),
            self.test(other, own),
            self.test(other, self.legal_word()),
            self.test(pair, self.highest_word(pair)),
            self.test(pair, self.word_too_long_for_a_path(pair)),
            self.odd_test(),
        ] + self.tests_of_ways(pair[1])


def any_test(rng):
    """Arguments without plan, for files that are refused whatever the others are."""
    asked = run_paths.any_call(rng, script.TEST)
    return Asked(asked.first, asked.second, asked.length, asked.symbols)


# ----------------------------------------------------------------- the frames

class Collection(run_paths.Collection):
    """The cases so far, and an account of what occurs in them."""

    def add(self, data, known, asked):
        """One more case."""
        given = script.given_bytes(asked.length, asked.symbols)
        word = script.word_of(given)
        reply = brute.word_test_reply(known, asked.first, asked.second, word)
        self.cases.append(script.Case(script.test_frame(data, asked.first, asked.second, given), script.test_text(reply)))
        unknowns.count(self.account, self.files, data, known.refusal)
        self.account.update("test: " + what for what in occurrences(known, asked, reply, word))


def add_tests(collection):
    """Several tests on each of the small and the chained files."""
    rng = collection.rng
    for number in range(SMALL_FILES + CHAINED_FILES):
        matter, order = (run_paths.small_matter(rng, MOST_PATHS), None) if number < SMALL_FILES else chained_matter(rng)
        data = run_paths.file_of(rng, matter)
        known = brute.Known(data)
        tester = Tester(rng, known)
        if matter.n == 1:
            made = [tester.odd_test()]
        else:
            made = tester.tests((rng.choice(order[:-1]), order[-1]) if order and rng.random() < 0.7 else tester.some_pair())
        for asked in made:
            collection.add(data, known, asked)


def add_damaged(collection):
    """Tests on damaged files that are refused."""
    rng = collection.rng
    for _ in range(DAMAGED_FILES):
        data = run_paths.damaged_file(rng)
        known = brute.Known(data)
        if known.refusal:
            collection.add(data, known, any_test(rng))


# -------------------------------------------------------- what is demanded

def occurrences(known, asked, reply, word):
    """The names of what occurs in a case."""
    found = ["frames"]
    if reply[0] == "refused":
        found.append("refused %d" % reply[1])
        return found + (faults(known.house, asked, word) if known.house is not None else [])
    kind, length = reply
    found += [kind, "%s in language %d" % (kind, known.house.language), "%s in edition %d" % (kind, known.edition),
              "tests in language %d" % known.house.language]
    if kind == "yes":
        return found + ["yes with %d symbols" % length] + (["yes with symbol 1F"] if 31 in word else [])
    return found + ["no with length %d" % length, "no with length %d in language %d" % (length, known.house.language)] \
        + no_occurrences(known, asked, length, word)


def faults(house, asked, word):
    """What is wrong in a refused test on an accepted file."""
    wrong_pair = not brute.is_pair(house, asked.first, asked.second)
    if wrong_pair and (not word or brute.bad_word(house, word)):
        return ["faults of pair and word"]
    if wrong_pair:
        if asked.first == asked.second:
            return ["same party twice"]
        return ["first party too high" if asked.first >= house.n else "second party too high"]
    if not word:
        return ["empty word"]
    if len(word) > house.longest:
        return ["longer than 31" if len(word) > 31 else "longer than D"]
    bad = [symbol for symbol in word if not brute.is_symbol(house, symbol)]
    return ["label too high" if all(symbol // 4 >= house.labels for symbol in bad) else "kind not of the language"]


def no_occurrences(known, asked, length, word):
    """What is special in a test whose answer is no."""
    found = []
    listed, own = known.paths_to(asked.second), known.least_paths(asked.first, asked.second)
    n, legal = known.house.n, brute.symbols(known.house)
    if len(word) >= n:
        found += ["word longer than n - 1", "word longer than n - 1, length %d" % length]
    if len(word) == 31:
        found.append("word of 31 symbols")
    if length > 0 and length == len(word) - 1:
        found.append("length one below the word's")
    if any(word[-k:] in listed for k in range(length + 1, len(word))):
        found.append("the deepest way touches the first party")
    if longest_walk(known, asked, word) > length:
        found.append("a walk that repeats a party is longer")
    if word in listed:
        found.append("a word of another pair")
    for at, place in ((0, "first"), (len(word) - 1, "last")):
        if len(word) > 1 and any(word[:at] + (symbol,) + word[at + 1:] in own for symbol in legal):
            found.append("a word of the pair but for its %s symbol" % place)
    if any(word[:at] + (symbol,) + word[at + 1:] in own for at in range(1, len(word) - 1) for symbol in legal):
        found.append("a word of the pair but for a symbol between")
    return found + ["a %s party leads less far" % which for which in branches(listed, asked.first, length, word)]


def longest_walk(known, asked, word):
    """How many of the word's last symbols, short of the word, a walk to the second party has that doesn't touch the first. It may
    pass other parties twice."""
    reached, length = {asked.second}, 0
    for symbol in reversed(word[1:]):
        reached = {u for v in reached for u in range(known.house.n) if u not in (v, asked.first) and symbol in known.graph[(u, v)]}
        if not reached:
            break
        length += 1
    return length


def branches(listed, first, length, word):
    """Whether among the parties just before the second party the lowest, or the highest, leads less far back than another."""
    depths = {}
    for k in range(1, length + 1):
        for parties in listed.get(word[-k:], []):
            if first not in parties:
                depths[parties[-2]] = k
    return [which for which, of in (("lower", min), ("higher", max)) if depths and depths[of(depths)] < length]


# The least number of times that each must occur.
DEMANDS = {
    "test: frames": 40000, "test: yes": 10000, "test: no": 20000,
    "test: refused 10": 500, "test: refused 11": 1000,
    "test: the deepest way touches the first party": 2000,
    "test: a walk that repeats a party is longer": 2000,
    "test: length one below the word's": 2000,
    "test: word longer than n - 1": 2000, "test: word of 31 symbols": 200,
    "test: a word of another pair": 2000,
    "test: a word of the pair but for its first symbol": 1000,
    "test: a word of the pair but for a symbol between": 1000,
    "test: a word of the pair but for its last symbol": 1000,
    "test: a lower party leads less far": 500, "test: a higher party leads less far": 500,
    "test: yes with symbol 1F": 50,
    "test: faults of pair and word": 100,
    "larger files: frames of edition 1": 500, "larger files: frames of edition 2": 500,
}
DEMANDS.update({"larger files: frames with unknown relations in language %d" % language: 50 for language in range(4)})
DEMANDS.update({"test: no with length %d" % k: 1000 for k in range(5)})
DEMANDS.update({"test: no with length %d in language %d" % (k, language): 200 for k in range(5) for language in range(4)})
DEMANDS.update({"test: word longer than n - 1, length %d" % k: 200 for k in range(5)})
DEMANDS.update({"test: yes with %d symbols" % k: 500 for k in range(1, 5)})
DEMANDS.update({"test: tests in language %d" % language: 5000 for language in range(4)})
DEMANDS.update({"test: %s in language %d" % (kind, language): 1000 for kind in ("yes", "no") for language in range(4)})
DEMANDS.update({"test: %s in edition %d" % (kind, edition): 2000 for kind in ("yes", "no") for edition in files.EDITIONS})
DEMANDS.update({"test: refused %d" % number: 100 for number in brute.FILE_REFUSALS})
DEMANDS.update({"test: %s" % fault: 100 for fault in (
    "same party twice", "first party too high", "second party too high",
    "label too high", "kind not of the language", "longer than D", "longer than 31", "empty word")})
DEMANDS.update({"larger files: %s" % reply: 1 for reply in ("yes 31", "no 30", "no 29", "no 15", "no 0", "refused 10", "refused 11")})

FEWEST_FILES = 5000
FEWEST_LARGE = 2000
FEWEST_16, FEWEST_8 = 200, 60   # files, with 16 in each order and with 8 for two unknown relations


def large_occurrences(cases):
    """The names of what occurs in the frames of the larger files."""
    yield from run_paths.large_occurrences(cases)
    for case in cases:
        yield "larger files: " + case.text[len("test "):-1]


def lacking(collection, large_cases):
    """The demands that are not met, as lines of text."""
    lines = []
    if len(collection.files) < FEWEST_FILES:
        lines.append("only %d different files" % len(collection.files))
    if len(large_cases) < FEWEST_LARGE:
        lines.append("only %d frames of larger files" % len(large_cases))
    return lines + run_paths.unmet(collection.account, DEMANDS) + unknowns.lacking(collection.account, FEWEST_16, FEWEST_8)


# ------------------------------------------------------------------- the run

def collect():
    collection = Collection(random.Random(1212))
    add_tests(collection)
    add_damaged(collection)
    return collection


def prepare():
    collection = collect()
    large_cases = large_word_test.cases(random.Random(1313))
    collection.account.update(large_occurrences(large_cases))
    text = "%d different files, %d frames, and %d frames of larger files\n" % (
        len(collection.files), len(collection.cases), len(large_cases))
    return comparing.Prepared([(collection.cases, None), (large_cases, run_paths.STACK)],
                              text + run_paths.account_text(collection.account), lacking(collection, large_cases))


if __name__ == "__main__":
    sys.exit(comparing.run_prepared(sys.argv, prepare))
