"""Files at which the shortcuts of verdict, mining and permit are taken, with their answers.

The shortcuts: a one-to-one map of parties that shows a rival once many words are
had; pairs left out that cannot walk a term's words; the list kept while it is
short; symbols that hold for the same pairs taken as one, and prefixes, where very
many words are had; a pair's first 64 words kept; and words that ask for more
parties than there are. None of them may change an answer. Each sort of file has
a comment that says why its answer is what it is; test_shortcuts.py holds those
that can be reckoned against quick.py. Rows marked `slow` take very long, most of
them for ever, where words or paths are gone through one after another.
"""

import random
from collections import namedtuple

import brute
import large
import large_console

# A file with its verdict and list; terms is None where it isn't convertible.
Row = namedtuple("Row", "name data reply terms slow")

# A permit call: a file, a list, a pair and the reply.
Asked = namedtuple("Asked", "name data listed pair reply slow")


def convertible(name, data, terms, slow=False):
    return Row(name, data, ("convertible", len(brute.encode_list(terms))), terms, slow)


def rival(name, data, pair, other, slow=False):
    return Row(name, data, ("rival", pair, other), None, slow)


# ----------------------------------------------- a pair that lacks just one word of the named pair

# Length of the words, the labels (those in brackets stand together at each step), the words lacked by number, and
# whether a direct step with all labels goes beside them. Numbers are chosen about 64, 512 and 600, and at the ends.
LACKING = [
    (1, "01234567", [1, 2, 3, 5, 6, 7], False),
    (2, "01234567", [1, 31, 60, 61, 62, 63], False),
    (2, "01234567", [50, 54, 55, 56, 57, 62, 63], True),
    (2, "01234567", [63, 1, 62, 63, 2], False),
    (3, "01234567", [62, 63, 64, 65], False), (3, "01234567", [511, 510, 509, 1], False),
    (3, "01234567", [54, 55, 56, 57], True), (3, "01234567", [504, 505, 510, 511], True),
    (4, "01234567", [63, 64, 65], False), (4, "01234567", [510, 511, 512], False),
    (4, "01234567", [513, 575, 576], False), (4, "01234567", [577, 600, 4095], False),
    (5, "0123", [64, 65], False), (5, "0123", [511, 512], False), (5, "0123", [576, 640], True), (5, "0123", [1022, 1023], False),
    (6, "012", [64, 601], False), (6, "012", [576, 728], False), (6, "0123", [65, 3000], False),
    (7, "012", [64], False), (7, "012", [700], True), (7, "012", [2186], False),
    (8, "01", [64], False), (8, "01", [255], True), (8, "012", [65], False), (8, "012", [650], False), (8, "012", [6560], False),
    # labels that stand together; the number is that of the word of brackets
    (3, "[07][16][25][34]", [20, 40, 63], False), (4, "[04][15][26][37]", [10, 100, 255], False),
    (4, "[01][23][45][67]", [7, 128, 254], True), (5, "[03][12]", [20, 31], False), (5, "[01][2][3]", [81, 242], False),
    (6, "[01][2]", [40, 63], False), (6, "[13][2]", [9, 62], False), (6, "1[23]", [21, 63], False),
    (7, "[12][3]", [100], False), (8, "[01][2]", [255], False), (8, "2[3]", [200], True),
]

# The same beside parties with many different sets of labels: from five to so many others. The sets and the labels together are
# more than 32 in each; with six others so are the sets. The last rows have a part with all words.
AMONG_MANY = [
    (2, "01234567", [62, 63, 1], False, 5), (3, "01234567", [64, 300, 511], False, 5), (4, "01234567", [600, 4095], False, 5),
    (5, "[03][12]", [31], False, 5), (6, "012", [650], False, 5), (7, "[01][2]", [127], False, 5),
    (4, "01234567", [600, 4095], False, 6), (5, "0123", [900], False, 6), (6, "012", [601], False, 6),
]

RIVAL_AMONG_MANY = [
    (4, "01234567", [900], False, 5), (6, "012", [], False, 5), (4, "01234567", [700], False, 6), (3, "01234567", [], True, 6),
]

# The same with a last part that has all words.
WITH_RIVAL = [
    (1, "01234567", [7], False), (2, "01234567", [63], True), (3, "01234567", [100, 500], False), (4, "01234567", [70], False),
    (5, "0123", [900], True), (4, "[04][15][26][37]", [9], False), (3, "01234567", [], False), (6, "012", [], False),
    (7, "[01][2]", [], True), (8, "01", [], False),
]


def label_sets(text):
    """The sets of labels that stand together, in order."""
    sets, inside = [], False
    for letter in text:
        if letter == "[":
            sets.append([])
        if letter in "[]":
            inside = letter == "["
        elif inside:
            sets[-1].append(int(letter))
        else:
            sets.append([int(letter)])
    return sets


def word_number(sets, length, number):
    """The word of this number, as the places of its sets, of those of this length in word order."""
    digits = []
    for _ in range(length):
        number, digit = divmod(number, len(sets))
        digits.append(digit)
    return tuple(reversed(digits))


def part_edges(sets, first, word):
    """A part that begins at this party, and its last party. From the one to the other go all words of this length
    but one. There are two ways of parties: along the first the word has been followed so far, along the second
    it has been left; the step to the last party doesn't close the word. With all words (a word of None at the
    last place) it does."""
    length, edges = len(word), []
    every = range(len(sets))
    followed = [first] + [first + place for place in range(1, length)]
    left = [None] + [first + length - 1 + place for place in range(1, length)]
    last = first + 2 * length - 1

    def add(u, v, chosen):
        edges.extend((u, v, label) for number in chosen for label in sets[number])

    for place in range(length):
        to_end = place + 1 == length
        others = [number for number in every if number != word[place]]
        if to_end:
            add(followed[place], last, others)
        else:
            add(followed[place], followed[place + 1], [word[place]])
            add(followed[place], left[place + 1], others)
        if place > 0:
            add(left[place], last if to_end else left[place + 1], every)
    return edges, last


def many_sets(rng, first, others):
    """Parties from this one on: from each of five to each of so many others goes another set of labels."""
    chosen = iter(rng.sample(range(1, 256), 5 * others))
    return [(first + u, first + 5 + v, label) for u in range(5) for v in range(others) for label in labels_of(next(chosen))]


def labels_of(byte):
    return [label for label in range(8) if byte >> label & 1]


def lacking_one(rng, length, labels, numbers, direct, among_many=0, with_rival=False):
    """A line of so many steps with all labels, language 0, and parts that lack one word of it each; permitted is the
    line from its first to its last party. Only a part from its first to its last party has words of this length,
    so the list is the line's first word, and then the word lacked by each part, in order; a part that lacks a
    word of the term already doesn't meet it. Where the labels of a set stand together, a part lacks all words
    of the same sets, and the first of them takes the least label of each. With the direct steps the first word has
    one symbol; the first other pair that has it is the line's first step, which lacks the line's longer words.

    with_rival adds a last part that has all words: no map of parties takes the line to it, which has more parties.
    among_many adds parties between which no word has more than one symbol, five and so many others."""
    sets = label_sets(labels)
    edges = [(place, place + 1, label) for place in range(length) for chosen in sets for label in chosen]
    ends, n = [(0, length)], length + 1
    words = [word_number(sets, length, number) for number in numbers]
    for word in words + ([(0,) * (length - 1) + (None,)] if with_rival else []):
        made, last = part_edges(sets, n, word)
        edges += made
        ends.append((n, last))
        n = last + 1
    if direct:
        edges += [(first, last, label) for first, last in ends for chosen in sets for label in chosen]
    if among_many:
        edges += many_sets(rng, n, among_many)
        n += 5 + among_many
    count = 1 + max(label for _, _, label in edges)
    data = large.file_of(rng, n, count, 0, edges, {(0, length)}, length + rng.randrange(3))
    beside = ", among %d sets" % (5 * among_many) if among_many else ""
    name = "lacking one of %s^%d, %s%s%s" % (labels, length, numbers, ", direct" * direct, beside)
    if with_rival:
        return rival(name + ", rival", data, ends[0], ends[-1])
    least = [4 * min(chosen) for chosen in sets]
    shortest = [(least[0],)] if direct and length > 1 else []
    listed = shortest + [tuple(least[digit] for digit in word) for word in [(0,) * length] + words]
    return convertible(name, data, [list(dict.fromkeys(listed))])


# Labels of each step of the line, labels lacked at a place by each other line.
NEARLY_TOGETHER = [
    (5, "01234", [(4, 1), (0, 3), (2, 2)]), (6, "012", [(0, 1), (5, 2), (3, 1)]), (8, "012", [(0, 2), (7, 1)]),
    (4, "01234567", [(0, 7), (1, 1), (3, 6), (2, 4)]), (10, "01", [(0, 1)]), (10, "01", [(3, 1)]), (5, "0123", [(0, 3), (0, 2), (0, 1)]),
]


def nearly_together(rng, length, labels, lacked):
    """Lines with the same labels at each step, but that each other line lacks one label, not the first, at one step,
    language 0. Labels that stand together everywhere else are told apart by it: of the words lacked, the first has
    that label there and the first label elsewhere. The permitted line is the first."""
    labels = [int(letter) for letter in labels]
    edges = [(place, place + 1, label) for place in range(length) for label in labels]
    n, terms = length + 1, [(0,) * length]
    for at, missing in lacked:
        edges += [(n + place, n + place + 1, label) for place in range(length) for label in labels
                  if (place, label) != (at, missing)]
        terms.append(tuple(4 * missing if place == at else 0 for place in range(length)))
        n += length + 1
    data = large.file_of(rng, n, 1 + max(labels), 0, edges, {(0, length)}, length)
    return convertible("nearly together %s" % lacked, data, [terms])


# ----------------------------------------------------------------- rivals by a map, and without one

def turned_ring(rng, n, language, longest, slow, unknown=False):
    """A ring of label 0, with label 1 two steps on and five; permitted (0, 1). Its word 00 is had by the ring's steps
    alone, and turning the ring shows that they have all its words. The first of them is (1, 2). Label 0 three steps on
    and label 1 one step on may be unknown, which turning the ring carries too."""
    edges = [(u, (u + 1) % n, 0) for u in range(n)] + [(u, (u + k) % n, 1) for u in range(n) for k in (2, 5)]
    name = "turned ring of %d in language %d, D %d%s" % (n, language, longest, ", unknown ones" if unknown else "")
    nowhere = [(u, (u + k) % n, label) for u in range(n) for k, label in ((3, 0), (1, 1)) if unknown]
    return rival(name, large.file_of(rng, n, 2, language, edges, {(0, 1)}, longest, nowhere), (0, 1), (1, 2), slow)


def free_labels(language):
    """Labels beside label 1 for relations at random; two where one would give few words."""
    return (0, 2) if language in (0, 2) else (0,)


def exchanged(rng, n, language, longest, alike, slow, unknown=False):
    """Parties 0 and some that follow it have the same relations at random to and from all others, and none with each
    other; label 1 goes from them to the last party only. Permitted is 0 to the last. Its word 04 is had by those
    alike alone, and exchanging 0 for one of them shows that they have all its words. Of the relations at random some
    may be unknown, for all alike the same ones."""
    others, labels = range(alike, n), free_labels(language)
    edges = {(u, v, label) for u in others for v in others for label in labels if u != v and rng.random() < 0.3}
    for v in others:
        for label in labels:
            if rng.random() < 0.5:
                edges |= {(u, v, label) for u in range(alike)}
            if rng.random() < 0.5:
                edges |= {(v, u, label) for u in range(alike)}
    nowhere = {(u, v, 0) for u in range(alike) for v in others if unknown and v % 3 == 0}
    edges = edges - nowhere | {(u, n - 1, 1) for u in range(alike)}
    name = "%d alike of %d in language %d, D %d%s" % (alike, n, language, longest, ", unknown ones" if unknown else "")
    data = large.file_of(rng, n, max(2, 1 + labels[-1]), language, edges, {(0, n - 1)}, longest, nowhere)
    return rival(name, data, (0, n - 1), (1, n - 1), slow)


def copied(rng, size, copies, language, longest, slow, unknown=False):
    """Copies of a graph at random beside each other; in each, label 1 goes from its first to its last party only.
    Permitted is that pair of the last copy. Its word 04 is had by the same pairs of the others alone, and a map that
    turns the copies shows that they have all its words. The first of them is that of the first copy. What the second
    party of a copy has with the others of it may be unknown, in each copy the same."""
    labels = free_labels(language)
    one = {(u, v, label) for u in range(size) for v in range(size) for label in labels if u != v and rng.random() < 0.5}
    one.add((0, size - 1, 1))
    nowhere = {(1, v, 0) for v in range(size) if unknown and v != 1}

    def in_all(relations):
        return {(u + size * k, v + size * k, label) for u, v, label in relations for k in range(copies)}

    last = size * (copies - 1)
    name = "%d copies of %d in language %d, D %d%s" % (copies, size, language, longest, ", unknown ones" if unknown else "")
    data = large.file_of(rng, size * copies, max(2, 1 + labels[-1]), language, in_all(one - nowhere), {(last, last + size - 1)}, longest,
                         in_all(nowhere))
    return rival(name, data, (last, last + size - 1), (0, size - 1), slow)


def tournament(rng, language, longest, unknown=False):
    """Seven parties; u is related to u + 1, u + 2 and u + 4 round. Permitted (0, 1). Doubling all numbers takes it to
    (0, 2), leaves 0 where it is, and carries every relation; no pair between them in order has the relation 00. Label 1
    to the others, u + 3, u + 5 and u + 6, may be unknown, which doubling carries too; it is nowhere known."""
    edges = [(u, (u + k) % 7, 0) for u in range(7) for k in (1, 2, 4)]
    nowhere = [(u, (u + k) % 7, 1) for u in range(7) for k in (3, 5, 6) if unknown]
    name = "tournament in language %d, D %d%s" % (language, longest, ", unknown ones" if unknown else "")
    data = large.file_of(rng, 7, 2 if unknown else 1, language, edges, {(0, 1)}, longest, nowhere)
    return rival(name, data, (0, 1), (0, 2))


def petersen(rng, language, longest):
    """The Petersen graph, both ways: an outer ring of five, an inner one two steps on, and five spokes. Every edge can
    be taken to every other; permitted (0, 1), and the first other edge in pair order is (0, 4)."""
    edges = [(u, (u + 1) % 5) for u in range(5)] + [(5 + u, 5 + (u + 2) % 5) for u in range(5)] + [(u, u + 5) for u in range(5)]
    both = [(a, b, 0) for u, v in edges for a, b in ((u, v), (v, u))]
    name = "Petersen graph in language %d, D %d" % (language, longest)
    return rival(name, large.file_of(rng, 10, 1, language, both, {(0, 1)}, longest), (0, 1), (0, 4))


def clique(first, size, labels):
    return [(u, v, label) for u in range(first, first + size) for v in range(first, first + size) if u != v
            for label in range(labels)]


def two_cliques(rng, size, more, labels):
    """All pairs of a smaller clique are permitted, language 0, and none of a larger one. A pair of a clique has all
    words over its labels of fewer symbols than it has parties. So the larger one's first pair is a rival of the
    smaller one's, and no map takes the one to the other: it would have to carry a clique to a larger one and back."""
    n = 2 * size + more
    permits = {(u, v) for u, v in large.all_pairs(size)}
    data = large.file_of(rng, n, labels, 0, clique(0, size, labels) + clique(size, size + more, labels), permits, n - 1)
    return rival("clique of %d beside one of %d, %d labels" % (size, size + more, labels), data, (0, 1), (size, size + 1))


def folded(rng, tail):
    """From a first party, label by label with all eight, to a middle one, by a tail of parties on to the last, and direct;
    a further party is related with the middle one both ways. So goes the first part; the second, whose pair from first
    to last is permitted, has two middle parties alike. A map that takes both to the one middle party carries every
    symbol and isn't one-to-one: from the one to the further party and back to the other is a path there, and in the
    first part only a walk. So the first part has the direct words and those with the tail, and lacks the longer ones
    by two symbols. Before it in pair order comes its first step, which has the direct words alone."""
    edges, n = [], 0
    for middles in (1, 2):
        first, middle, further = n, range(n + 1, n + 1 + middles), n + 1 + middles
        last = further + tail + 1
        steps = [(first, last)] + [(first, one) for one in middle] + [(one, further + 1) for one in middle]
        steps += [(one, further) for one in middle] + [(further, one) for one in middle]
        steps += [(place, place + 1) for place in range(further + 1, last)]
        edges += [(u, v, label) for u, v in steps for label in range(8)]
        n = last + 1
    data = large.file_of(rng, n, 8, 0, edges, {(first, last)}, 31)
    return convertible("folded, tail %d" % tail, data, [[(0,), (0,) * (2 + tail), (0,) * (4 + tail)]])


# --------------------------------------------------------- words that ask for more parties than there are

def smaller_clique(rng, size, less, slow):
    """All pairs of a larger clique of one label are permitted, language 0, and none of a smaller one, which has no path of
    as many symbols as it has parties. That is the first word lacked, since a pair has one word of each length."""
    small = size - less
    permits = {(u, v) for u, v in large.all_pairs(size)}
    data = large.file_of(rng, size + small, 1, 0, clique(0, size, 1) + clique(size, small, 1), permits, 31)
    return convertible("clique of %d beside one of %d" % (size, small), data, [[(0,), (0,) * small]], slow)


def two_sides(rng, few, many, slow):
    """Label 0 goes from each of a few parties to each of many, label 1 back; a second such part has one party fewer on
    the first side. A pair from the first side to the second has the words 00, 00.04.00 and so on, each time with one
    more party of either side, until the first side has no more. The second part has them up to one fewer, and its pairs
    are unpermitted. many is at least few."""
    edges, sides = [], []
    first = 0
    for size in (few, few - 1):
        one, two = range(first, first + size), range(first + size, first + size + many)
        edges += [(u, v, 0) for u in one for v in two] + [(v, u, 1) for u in one for v in two]
        sides.append((one, two))
        first += size + many
    permits = {(u, v) for u in sides[0][0] for v in sides[0][1]}
    data = large.file_of(rng, first, 2, 0, edges, permits, 31)
    return convertible("sides of %d and %d" % (few, many), data, [[(0,), (0, 4) * (few - 1) + (0,)]], slow)


def full_clique(rng, size, slow):
    """Parties 1 to the size are a clique of label 0; from the last of them label 1 goes to one more. From party 1 to that
    one a path must end its symbols 00 at the last party of the clique: one symbol 00 fewer than the clique has parties
    is the most, and any other number above none will do."""
    data = large.file_of(rng, size + 2, 2, 0, clique(1, size, 1) + [(size, size + 1, 1)], (), 31)
    rows = []
    for symbols in sorted({1, size // 2, size - 1, size, min(size + 1, 30)}):
        word = (0,) * symbols + (4,)
        answer = ("yes",) if symbols < size else ("no",)
        rows.append(Asked("%d symbols in a clique of %d" % (symbols, size), data, brute.encode_list([[word]]),
                          (1, size + 1), answer, slow and symbols == size))
    both = brute.encode_list([[(0,) * (size - 1) + (4,), (0,) * size + (4,)], [(4,), (0, 4)]])
    return rows + [Asked("several words in a clique of %d" % size, data, both, (1, size + 1), ("no",), slow)]


def walked_only(rng, longest):
    """A line of three steps, and two parties related both ways: between these a walk of three symbols goes to and fro,
    but no path. Permitted is the line, whose only word no other pair has."""
    edges = [(0, 1, 0), (1, 2, 0), (2, 3, 0), (4, 5, 0), (5, 4, 0)]
    return convertible("walked only, D %d" % longest, large.file_of(rng, 6, 1, 0, edges, {(0, 3)}, longest), [[(0, 0, 0)]])


def growing_ring(rng, plain):
    """A ring of 32 parties, language 0: so many steps with label 0, the others with labels 0 and 1. Permitted is party 0 to
    the last before it, a whole round but one step; so its words have 31 symbols. Those of party 1 to party 0 begin one step
    on, where no label is lacking, so it has them all; it comes first of all such pairs. The longest words, sought by
    letters: the most stack that a call takes."""
    edges = [(u, (u + 1) % 32, label) for u in range(32) for label in range(2 if u >= plain else 1)]
    data = large.file_of(rng, 32, 2, 0, edges, {(0, 31)}, 31)
    return rival("growing ring, %d plain steps" % plain, data, (0, 31), (1, 0))


def walked_round(rng, size):
    """A ring, language 0, and one of two parties fewer. Permitted are the ring's pairs that are a whole round but one step
    apart. Their only word is as long; it leads round the other ring and one step on, by a walk and by no path."""
    less = size - 2
    edges = [(u, (u + 1) % size, 0) for u in range(size)] + [(size + u, size + (u + 1) % less, 0) for u in range(less)]
    permits = {(u, (u + size - 1) % size) for u in range(size)}
    data = large.file_of(rng, size + less, 1, 0, edges, permits, 31)
    return convertible("walked round a ring of %d" % less, data, [[(0,) * (size - 1)]])


# -------------------------------------------------------------------------------- lists about 65,536 bytes

# The ring of large_console.py without these distances: the list has just so many bytes.
LIST_LENGTHS = {65535: (15, 19, 23, 26, 27), 65536: (13, 16, 23, 27, 29), 65537: (14, 18, 24, 26, 28)}


def list_rows(rng):
    return [Row(*large_console.long_list(rng, 32, length, left_out), True) for length, left_out in LIST_LENGTHS.items()]


# -------------------------------------------------------------------------------------------- all of them

def rows():
    """All rows, the same each time."""
    rng = random.Random(1012)
    made = [lacking_one(rng, *given) for given in LACKING]
    made += [lacking_one(rng, *given, with_rival=True) for given in WITH_RIVAL]
    made += [lacking_one(rng, *given) for given in AMONG_MANY]
    made += [lacking_one(rng, *given, with_rival=True) for given in RIVAL_AMONG_MANY]
    made += [nearly_together(rng, *given) for given in NEARLY_TOGETHER]
    for n, language, longest, slow in ((12, 0, 10, False), (9, 2, 5, False), (8, 1, 4, False), (8, 3, 3, False), (7, 3, 4, False),
                                       (32, 0, 31, True), (32, 1, 31, True), (31, 2, 31, True), (32, 3, 31, True), (16, 3, 6, True)):
        made.append(turned_ring(rng, n, language, longest, slow))
    made += [turned_ring(rng, *given, True) for given in ((8, 1, 4, False), (7, 3, 3, False), (32, 1, 31, True), (32, 3, 31, True))]
    for n, language, longest, alike, slow in ((6, 1, 5, 2, False), (7, 2, 5, 3, False), (6, 3, 4, 2, False), (10, 0, 6, 4, False),
                                              (16, 1, 31, 2, True), (16, 3, 31, 2, True), (32, 1, 31, 3, True), (32, 3, 31, 2, True),
                                              (32, 2, 31, 5, True)):
        made.append(exchanged(rng, n, language, longest, alike, slow))
    made += [exchanged(rng, *given, True)
             for given in ((6, 1, 5, 2, False), (6, 3, 4, 2, False), (32, 1, 31, 3, True), (16, 3, 31, 2, True))]
    for size, copies, language, longest, slow in ((4, 2, 1, 4, False), (3, 3, 3, 3, False), (6, 2, 2, 5, False), (7, 3, 0, 6, False),
                                                  (8, 4, 1, 31, True), (10, 3, 3, 31, True), (16, 2, 3, 31, True), (12, 2, 2, 31, True)):
        made.append(copied(rng, size, copies, language, longest, slow))
    made += [copied(rng, *given, True) for given in ((4, 2, 1, 4, False), (3, 3, 3, 3, False), (8, 4, 1, 31, True), (10, 3, 3, 31, True))]
    made += [tournament(rng, language, longest) for language in (1, 2, 3) for longest in (5, 6)]
    made += [tournament(rng, *given, True) for given in ((1, 5), (3, 3))]
    made += [petersen(rng, language, longest) for language, longest in ((1, 6), (2, 6), (3, 4))]
    made += [folded(rng, tail) for tail in (0, 1, 2)]
    made += [two_cliques(rng, *given) for given in ((4, 1, 8), (5, 1, 5), (5, 2, 4), (4, 3, 6))]
    made += [smaller_clique(rng, *given) for given in ((5, 1, False), (7, 2, False), (9, 1, False), (17, 2, True), (16, 1, True))]
    made += [two_sides(rng, *given) for given in ((2, 2, False), (3, 4, False), (4, 5, False), (5, 7, False), (8, 8, True))]
    made += [walked_only(rng, longest) for longest in (3, 5, 31)] + [walked_round(rng, size) for size in (4, 6, 16)]
    made += [growing_ring(rng, plain) for plain in (20, 21)]
    return made + list_rows(rng)


def permit_rows():
    """All permit calls, the same each time."""
    rng = random.Random(1013)
    return [row for size, slow in ((3, False), (6, False), (8, False), (12, True), (20, True), (30, True))
            for row in full_clique(rng, size, slow)]
