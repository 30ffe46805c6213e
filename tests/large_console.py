"""Larger files whose verdict and mined list follow by argument.

Listing all paths of 32 parties would not end, so each sort of graph here has a
comment that says why its answers are what they are. All sorts take the number
of parties, and test_console.py holds the small ones against the listing.

Only files are here whose words a search finds soon. In languages 1 and 3 each
two parties have a symbol, where nothing is unknown, so that a pair has words
without number; where such a file isn't convertible all of them would have to be
tried, and D is 3 or less.
"""

import random
from collections import namedtuple

import brute
import converting
import large
import unknowns

LONGEST_MINED_TWICE = 20000   # a longer list is mined once only, so that a run ends soon

# A file and its verdict; terms is the list that mining writes, None where the file isn't convertible.
Row = namedtuple("Row", "name data reply terms")


def convertible(name, data, terms):
    return Row(name, data, ("convertible", len(brute.encode_list(terms))), terms)


def no_word(name, data, pair):
    return Row(name, data, ("no-word", pair), None)


def rival(name, data, pair, other):
    return Row(name, data, ("rival", pair, other), None)


# ------------------------------------------------------- pairs told apart by distance

def line_edges(n):
    return [(u, u + 1, 0) for u in range(n - 1)]


def ring_edges(n):
    return [(u, (u + 1) % n, 0) for u in range(n)]


def apart(n, steps):
    """The pairs whose second party is this many steps on round the ring."""
    return {(a, (a + steps) % n) for a in range(n)}


def lines(rng, n):
    """0 to 1, 1 to 2, ..., language 0: a pair (a, b) with a below b has the one word of b - a symbols
    00, any other pair has none. So the permits of a distance are one term, that of distance n - 1 is
    its only pair, and at D n - 2 that pair has no word."""
    def on_line(steps):
        return {(a, a + steps) for a in range(n - steps)}

    middle = n // 2
    three = on_line(1) | on_line(middle) | on_line(n - 1)
    last = (n - 1 - middle, n - 1)
    return [
        convertible("line, the whole line", large.file_of(rng, n, 1, 0, line_edges(n), {(0, n - 1)}), [[(0,) * (n - 1)]]),
        convertible("line, three distances", large.file_of(rng, n, 1, 0, line_edges(n), three),
                    [[(0,)], [(0,) * middle], [(0,) * (n - 1)]]),
        rival("line, a distance but for its last pair",
              large.file_of(rng, n, 1, 0, line_edges(n), on_line(middle) - {last}), (0, middle), last),
        no_word("line, back again", large.file_of(rng, n, 1, 0, line_edges(n), {(0, n - 1), (n - 1, 0)}), (n - 1, 0)),
        no_word("line, D too low", large.file_of(rng, n, 1, 0, line_edges(n), {(0, n - 1)}, n - 2), (0, n - 1)),
    ]


def rings(rng, n):
    """0 to 1, 1 to 2, ..., and from the last to 0. Language 0: a pair has the one word of as many
    symbols 00 as there are steps on. Language 2: and the one of as many 02 as there are steps back. So
    a distance is one term, of the shorter word (00 before 02 at half way round), and a distance but
    for one pair has that pair as its rival."""
    rows, half = [], n // 2
    for language in (0, 2):
        for steps in (1, half, n - 1):
            shorter = (2,) * (n - steps) if language == 2 and n - steps < steps else (0,) * steps
            data = large.file_of(rng, n, 1, language, ring_edges(n), apart(n, steps))
            rows.append(convertible("ring in language %d, %d steps" % (language, steps), data, [[shorter]]))
        lacked = (n - 1, half - 1)
        data = large.file_of(rng, n, 1, language, ring_edges(n), apart(n, half) - {lacked})
        rows.append(rival("ring in language %d, one pair lacking" % language, data, (0, half), lacked))
    data = large.file_of(rng, n, 1, 0, ring_edges(n), apart(n, half), half - 1)
    rows.append(no_word("ring, D too low", data, (0, half)))
    return rows


def rings_with_absence(rng, n):
    """The ring in languages 1 and 3, D 3, permits of one step on but for the last pair. (0, 1) has the
    word 00. No other unpermitted pair has it, and turning the ring shows that the last has all words
    of (0, 1); also where all relations two steps on are unknown."""
    two_on = {(*pair, 0) for pair in apart(n, 2)}
    return [rival("ring in language %d, one pair lacking%s" % (language, ", two steps on unknown" if unknown else ""),
                  large.file_of(rng, n, 1, language, ring_edges(n), apart(n, 1) - {(n - 1, 0)}, 3, unknown), (0, 1), (n - 1, 0))
            for language in (1, 3) for unknown in (set(), two_on)]


def two_rings(rng, n):
    """Two rings beside each other, language 2: the first permitted pairs, one step on, have the word
    00 that no unpermitted pair has; a pair across has no word."""
    half = n // 2
    one = ring_edges(half)
    edges = one + [(u + half, v + half, label) for u, v, label in one]
    permits = {(u, v) for u, v, _ in edges} | {(0, half)}
    return [no_word("two rings", large.file_of(rng, n, 1, 2, edges, permits), (0, half))]


# -------------------------------------------- pairs with one path, and sets of symbols along it

def first_lacked(own, other):
    """The first word that takes a symbol of each set of `own` in order and that `other` lacks, or None.

    Where the first word of all is had, the other lacks a word only by a symbol that it lacks at some
    place. A word that differs from the first word later comes before one that differs earlier; so the
    symbol stands at the last such place, is the least there, and the others are the least of all."""
    least = tuple(min(choice) for choice in own)
    if len(own) != len(other) or not all(symbol in choice for symbol, choice in zip(least, other)):
        return least
    for place in reversed(range(len(own))):
        lacked = own[place] - other[place]
        if lacked:
            return least[:place] + (min(lacked),) + least[place + 1:]
    return None


def mined_of_sets(sets, permits):
    """The list where a pair's words take a symbol of each of its sets in order, or the verdict that
    is in the way. A pair without words has None."""
    terms, unpermitted = [], [pair for pair in sorted(sets) if pair not in permits]

    def meets(pair, term):
        return sets[pair] is not None and all(
            len(word) == len(sets[pair]) and all(s in c for s, c in zip(word, sets[pair])) for word in term)

    for pair in sorted(permits):
        if sets[pair] is None:
            return ("no-word", pair)
        if any(meets(pair, term) for term in terms):
            continue
        term = [tuple(min(choice) for choice in sets[pair])]
        for other in unpermitted:
            if meets(other, term):
                word = first_lacked(sets[pair], sets[other])
                if word is None:
                    return ("rival", pair, other)
                term.append(word)
        terms.append(term)
    return terms


def row_of_sets(name, data, sets, permits):
    mined = mined_of_sets(sets, permits)
    return convertible(name, data, mined) if isinstance(mined, list) else Row(name, data, mined, None)


# A ring of 32 parties with a long list, found by trying: bit l of a step's byte says that the step has
# label l, and bit a of the mask for k steps, k from 2 on, that the pair from a to k steps on is permitted.
# Pairs of different distances have no word in common, so a distance can be left out without the others
# changing: without these distances the list is just as long as permitconv prints, and one byte longer.
LEFT_OUT = {65536: (4, 19, 25, 30, 31), 65537: (2, 5, 8, 9, 10, 11, 30, 31)}
LONG_LIST_STEPS = bytes.fromhex("DFF3AFDD7FF77BCF6F7BBF7FAFBFFBF57FEFAF6FBFEBFDFBFBBF7F77DFDFDFCF")
LONG_LIST_PERMITS = [int(mask, 16) for mask in (
    "7347DC30 B30A7DE3 D9079BF3 EC82CFF9 7661EEAE 3B71BDDC 1DB85FEE 9ED8DC1F E79E6E8A 77CE1F93 "
    "B99B8FAA 5CEDC3FC AE76E0EE 377CE0EB 239E7CF6 9F9ED89C CBC76E8E 64E2B78F B2F1D786 C99DADA3 "
    "ECBC75A8 B6DE2B7C 7B2D9E7A 3D91CBBF 1EC9C59F 8F64E2EF 853EF1BB 83C9F9F3 41E4FCF9 20F67E3B").split()]


def ring_of_sets(rng, n):
    """The ring in language 0; each step has several labels, the first among them. A pair has one path,
    and its words take a label of each step."""
    steps = [1 | rng.randrange(128) << 1 | 1 << rng.randint(1, 7) for _ in range(n)]
    permits = {pair for k in range(2, n) for pair in rng.sample(sorted(apart(n, k)), n // 2)}
    rows = [row_of_ring(rng, n, "ring of sets", steps, permits)]
    while rows[-1].terms is None:
        permits = permits | {rows[-1].reply[2]}
        rows.append(row_of_ring(rng, n, "ring of sets", steps, permits))
    if n == 32:
        rows += [long_list(rng, n, length, left_out) for length, left_out in LEFT_OUT.items()]
    return rows[-4:]


def long_list(rng, n, length, left_out):
    """The ring of 32 parties without these distances, whose list has this length."""
    permits = {(a, (a + k) % n) for k, mask in enumerate(LONG_LIST_PERMITS, start=2) if k not in left_out
               for a in range(n) if mask >> a & 1}
    row = row_of_ring(rng, n, "ring with a list of %d bytes" % length, LONG_LIST_STEPS, permits)
    if row.reply != ("convertible", length):
        raise AssertionError("a list of another length")
    return row


def row_of_ring(rng, n, name, steps, permits):
    """The row of a ring whose steps have the labels of these bytes."""
    symbols = [frozenset(4 * label for label in range(8) if step >> label & 1) for step in steps]
    edges = [(u, (u + 1) % n, symbol // 4) for u in range(n) for symbol in symbols[u]]
    sets = {(a, b): [symbols[(a + i) % n] for i in range((b - a) % n)] for a, b in large.all_pairs(n)}
    return row_of_sets(name, large.file_of(rng, n, 8, 0, edges, permits), sets, permits)


def telling_line(rng, n):
    """A line whose steps have one label each, so that no two labels follow each other twice. Language 0:
    the words of different pairs two or more steps apart differ, and each such pair that is permitted has
    a term of its own. Language 2: also the pairs back again, whose words have inverse symbols."""
    labels = telling_labels(rng, n - 1)
    edges = [(u, u + 1, labels[u]) for u in range(n - 1)]
    rows = []
    for language in (0, 2):
        sets = {(a, b): [{4 * label} for label in labels[a:b]] if a < b else
                [{4 * label + 2} for label in labels[b:a][::-1]] if language == 2 else None
                for a, b in large.all_pairs(n)}
        permits = {pair for pair in sets if abs(pair[0] - pair[1]) > 1 and sets[pair]}
        data = large.file_of(rng, n, 8, language, edges, permits)
        terms = [[tuple(min(choice) for choice in sets[pair])] for pair in sorted(permits)]
        rows.append(convertible("telling line in language %d" % language, data, terms))
    return rows


def telling_labels(rng, count):
    """Labels in which no two follow each other twice."""
    while True:
        labels = [rng.randrange(8)]
        while len(labels) < count:
            free = [label for label in range(8) if (labels[-1], label) not in zip(labels, labels[1:])]
            if not free:
                break
            labels.append(rng.choice(free))
        if len(labels) == count:
            return labels


def star(rng, n):
    """Each party but 0 has a relation to party 0 and no other, language 2: between two of them the
    only path passes 0, so the pair's word is the one's label and the other's label inverse. Permitted
    are those of equal label: a term for each label that two have, in the order of its first party."""
    labels = [None] + [rng.randrange(8) for _ in range(n - 1)]
    edges = [(u, 0, labels[u]) for u in range(1, n)]
    permits = {(a, b) for a, b in large.all_pairs(n) if a and b and labels[a] == labels[b]}
    shared = sorted({a for a, _ in permits})
    order = list(dict.fromkeys(labels[a] for a in shared))
    rows = [convertible("star", large.file_of(rng, n, 8, 2, edges, permits),
                        [[(4 * label, 4 * label + 2)] for label in order])]
    if order:
        members = [a for a in shared if labels[a] == order[-1]]
        first, lacked = (members[0], members[1]), (members[-1], members[-2])
        data = large.file_of(rng, n, 8, 2, edges, permits - {lacked})
        rows.append(rival("star, one pair lacking", data, first, lacked))
    return rows


# --------------------------------------------------- words of one symbol decide

def one_symbol(rng, n, language, labels):
    """Relations by the throw of a coin; permitted are the pairs that have each of some symbols. An
    unpermitted pair lacks one of them, so that of a permitted pair's words it lacks one of one symbol,
    and these come before the others: mining is that of the sets of symbols."""
    edges, unknown = large.thrown(rng, n, labels)
    sets = symbol_sets(n, labels, language, edges, unknown)
    some = rng.choice([choice for (choice,) in sets.values() if choice])
    chosen = set(rng.sample(sorted(some), min(2, len(some))))
    permits = {pair for pair, (choice,) in sets.items() if chosen <= choice}
    data = large.file_of(rng, n, labels, language, edges, permits, unknown=unknown)
    return row_of_sets("one symbol in language %d" % language, data, only_with_symbols(sets), permits)


def one_step(rng, n, language, labels, part):
    """Any permits at D 1: all words have one symbol, and verdict and mining are those of the sets of
    symbols, whatever stands in the way."""
    edges, unknown = large.thrown(rng, n, labels)
    sets = symbol_sets(n, labels, language, edges, unknown)
    permits = {pair for pair in sets if rng.random() < part}
    data = large.file_of(rng, n, labels, language, edges, permits, 1, unknown)
    return row_of_sets("D 1 in language %d" % language, data, only_with_symbols(sets), permits)


def symbol_sets(n, labels, language, edges, unknown):
    """For each pair the list of one set, that of the symbols that hold."""
    house = brute.House(n, labels, language, 1, edges, set(), unknown)
    return {pair: [frozenset(symbols)] for pair, symbols in brute.enlarged(house).items()}


def only_with_symbols(sets):
    return {pair: choices if choices[0] else None for pair, choices in sets.items()}


def full(rng, n):
    """All relations of eight labels, language 0. With all pairs permitted none is unpermitted, and the
    first pair's first word, 00, is the whole list. With all but the last pair and D 1, that one has all
    symbols of the first."""
    every = large.all_pairs(n)
    edges = [(a, b, label) for a, b in every for label in range(8)]
    return [convertible("full", large.file_of(rng, n, 8, 0, edges, every), [[(0,)]]),
            rival("full but for a permit", large.file_of(rng, n, 8, 0, edges, every[:-1], 1), every[0], every[-1])]


def rows(rng, n):
    """All sorts, with n parties."""
    made = lines(rng, n) + rings(rng, n) + rings_with_absence(rng, n) + two_rings(rng, n)
    made += ring_of_sets(rng, n) + telling_line(rng, n) + star(rng, n)
    made += [one_symbol(rng, n, language, labels) for language in range(4) for labels in (2, 3)]
    made += [one_step(rng, n, language, labels, part) for language in range(4)
             for labels, part in ((8, 0.5), (8, 0.02), (2, 0.01))]
    return made + full(rng, n)


# ------------------------------------------------------------------------ the calls

def permits_of(data):
    return brute.decode(data).permits


def scratch_of(data):
    """What mining leaves in scratch: a list permits just the permitted pairs of a convertible file."""
    table = bytearray(brute.SCRATCH_LENGTH)
    for a, b in permits_of(data):
        table[32 * a + b] = 1
    return bytes(table)


def table():
    """The rows of 32 parties, the same each time."""
    return rows(random.Random(909), 32)


def ask_all(run):
    """Verdict, mining and permit on each row, each compared with the row."""
    for row in table():
        made = converting.Made(row.name, row.data, None)
        run.hold("verdict", made, row.name, row.reply, run.functions.verdict(row.data))
        run.count("larger files", ["rows", row.reply[0], "edition %d" % row.data[0]])
        run.count("larger files", ["unknown relations in language %d" % row.data[3]] if unknowns.has_unknown(row.data) else [])
        if row.terms is None:
            hold_mining(run, made, ("refused", 13), 40)
            continue
        listed = brute.encode_list(row.terms)
        run.count("larger files", ["a list above 65,535 bytes"] if len(listed) > 65535 else [])
        if len(listed) <= LONGEST_MINED_TWICE:
            hold_mining(run, made, ("refused", 14), len(listed) - 1, bytes(brute.SCRATCH_LENGTH))
        hold_mining(run, made, ("length", len(listed)), len(listed) + run.rng.randrange(9), scratch_of(row.data), listed)
        for pair in large.some_pairs(run.rng, 32):
            expected = ("yes",) if pair in permits_of(row.data) else ("no",)
            run.hold("permit", made, pair, expected, run.functions.permit(row.data, listed, *pair))


def hold_mining(run, made, reply, room, table=b"", listed=b""):
    """One mining call: what is not written over keeps its old bytes."""
    scratch, output = run.rng.randbytes(brute.SCRATCH_LENGTH + 5), run.rng.randbytes(room)
    expected = reply, brute.written_over(scratch, table), brute.written_over(output, listed)
    run.hold("mining", made, "%s output %d" % (made.kind, room), expected, run.functions.mining(made.data, scratch, output))
