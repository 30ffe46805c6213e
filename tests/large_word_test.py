"""Larger files whose word tests follow by argument.

Listing all paths of 32 parties would not end, so each sort of graph here has a
comment that says why its answers are what they are. All sorts take the number
of parties, and test_brute.py holds the small ones against the listing.

Only tests are asked here that a search from the word's last symbol back to its
first can answer soon: where many paths lead to the second party along the word's
last symbols, it may pass all of them before it can say no.
"""

from collections import namedtuple

import brute
import large
import script

# A word test on a file, with its reply.
Row = namedtuple("Row", "name data first second word reply")

# A path, and for each of its steps the set of symbols that hold.
Way = namedtuple("Way", "parties sets")

PAIRS_OF_GRAPH = 40
LONGEST_PLANTED = 20


def has_end(way, word):
    """Whether the word's last symbols, as many as the way has steps, are a word of the way."""
    k = len(way.sets)
    return k <= len(word) and all(symbol in held for symbol, held in zip(word[-k:], way.sets))


def reply_of(ways, first, word):
    """The reply where these are all paths to the second party, from the definition."""
    if any(way.parties[0] == first and len(way.sets) == len(word) and has_end(way, word) for way in ways):
        return ("yes", len(word))
    lengths = [len(way.sets) for way in ways
               if len(way.sets) < len(word) and first not in way.parties and has_end(way, word)]
    return ("no", max(lengths, default=0))


def with_symbol(word, at, symbol):
    return word[:at] + (symbol,) + word[at + 1:]


def words_to_ask(rng, ways, legal, longest):
    """A word of one of the paths; the same with a symbol changed at the front, between and at the end, and with symbols before it."""
    asked = [tuple(rng.choices(legal, k=rng.randint(1, longest)))]
    if ways:
        furthest = max(len(way.sets) for way in ways)
        way = rng.choice([way for way in ways if len(way.sets) >= rng.choice([1, furthest // 2, furthest])])
        own = tuple(rng.choice(sorted(held)) for held in way.sets)
        asked += [own] + [with_symbol(own, at, rng.choice(legal)) for at in (0, rng.randrange(len(own)), len(own) - 1)]
        more = rng.choices(legal, k=longest - len(own))
        asked += [(*more, *own), (*more[:1], *own)]
    return asked


def few_ways(rng, n, name, labels, language, edges, ways_to):
    """Rows for a graph in which ways_to(b) gives all paths to b."""
    data = large.file_of(rng, n, labels, language, edges)
    legal, rows = large.legal_symbols(labels, language), []
    for first, second in rng.sample(large.all_pairs(n), min(PAIRS_OF_GRAPH, n * (n - 1))):
        ways = ways_to(second)
        for word in words_to_ask(rng, ways, legal, n - 1):
            rows.append(Row(name, data, first, second, word, reply_of(ways, first, word)))
    return rows


def ring(rng, n, language):
    """0 to 1, 1 to 2, ..., and from the last to 0. Language 0: a walk to b comes round the ring from behind, and before it repeats
    a party it has n - 1 steps at most. Language 2: the same the other way round with 02; turning back would repeat a party."""
    def ways_to(b):
        ways = [Way(tuple((b - i) % n for i in range(k, -1, -1)), [{0}] * k) for k in range(1, n)]
        if language == 2:
            ways += [Way(tuple((b + i) % n for i in range(k, -1, -1)), [{2}] * k) for k in range(1, n)]
        return ways

    edges = [(u, (u + 1) % n, 0) for u in range(n)]
    return few_ways(rng, n, "ring in language %d" % language, 1, language, edges, ways_to)


def followed(rng, n):
    """One relation from each party, language 0: the walk from c is forced. It is a path to b where it comes to b before it comes
    to a party again."""
    onward = [rng.choice([v for v in range(n) if v != u]) for u in range(n)]
    labels = [rng.randrange(2) for _ in range(n)]

    def ways_to(b):
        ways = []
        for c in range(n):
            walk = [c]
            while walk[-1] != b and onward[walk[-1]] not in walk:
                walk.append(onward[walk[-1]])
            if walk[-1] == b and c != b:
                ways.append(Way(tuple(walk), [{4 * labels[u]} for u in walk[:-1]]))
        return ways

    edges = [(u, onward[u], labels[u]) for u in range(n)]
    return few_ways(rng, n, "one relation from each", 2, 0, edges, ways_to)


def two_trees(rng, n):
    """Two trees beside each other, language 2: in a tree there is one path between two parties, from one tree to the other there
    is none. A step's symbols are plain or inverse by its relations."""
    names = rng.sample(range(n), n)
    parent = {names[i]: names[rng.randrange(max(0, i - 3), i)] for i in range(1, n) if i != n - 2}
    edges = set()
    for child, above in parent.items():
        for _ in range(rng.randint(1, 2)):
            edges.add(rng.choice([(child, above), (above, child)]) + (rng.randrange(2),))

    def symbols(a, b):
        return {4 * l for x, y, l in edges if (x, y) == (a, b)} | {4 * l + 2 for x, y, l in edges if (y, x) == (a, b)}

    def ways_to(b):
        found = [large.tree_path(parent, c, b) for c in range(n) if c != b]
        return [Way(parties, [symbols(*step) for step in zip(parties, parties[1:])]) for parties in found if parties is not None]

    return few_ways(rng, n, "two trees", 2, 2, edges, ways_to)


# ------------------------------------------------------------------------------ others

def uniform(rng, n, labels, language, present, unknown=0):
    """The labels below `present` hold between all parties, the last ones are unknown between all, and the others hold nowhere, so that
    each step has the same symbols and every row of different parties is a path. A pair has each word of those symbols with up to n - 1
    of them. Another symbol holds nowhere, so that no path has an end of the word with it: the length counts the symbols after its last
    place. Those are three at most, since the search may pass all paths that have them; n - 2 is the most where the first party isn't
    touched."""
    edges = [(a, b, label) for a, b in large.all_pairs(n) for label in range(present)]
    nowhere = [(a, b, label) for a, b in large.all_pairs(n) for label in range(labels - unknown, labels)]
    legal = large.legal_symbols(labels, language)
    alphabet = [s for s in legal if s // 4 < labels - unknown and (s // 4 < present) == (s % 2 == 0)]
    outside = [s for s in legal if s not in alphabet]
    data, rows = large.file_of(rng, n, labels, language, edges, unknown=nowhere), []
    name = large.uniform_name(labels, language, present, unknown)
    for first, second in rng.sample(large.all_pairs(n), 6):
        for k in {1, 2, rng.randint(1, n - 1), n - 1}:
            word = tuple(rng.choices(alphabet, k=k))
            rows.append(Row(name, data, first, second, word, ("yes", k)))
            after = rng.randint(0, min(k - 1, 3))
            if outside:
                changed = with_symbol(word, k - 1 - after, rng.choice(outside))
                rows.append(Row(name, data, first, second, changed, ("no", min(after, n - 2))))
    return rows


def rare_label(rng, n):
    """Label 0 by the throw of a coin, and label 1 on a line of a few parties to b alone, language 0. A word that ends with more
    symbols 04 than the line has steps fails on the line: its length is that of the line, or of the line after the first party."""
    rows = []
    for _ in range(12):
        chain = rng.sample(range(n), rng.randint(2, n - 1))
        k = len(chain) - 1
        edges = {(a, b, 0) for a, b in large.all_pairs(n) if rng.random() < 0.5} | {step + (1,) for step in zip(chain, chain[1:])}
        data = large.file_of(rng, n, 2, 0, edges)
        aside = rng.choice([party for party in range(n) if party not in chain])
        at = rng.randrange(k)
        ends = [(4,) * j for j in range(1, n)]
        for end in [ends[k - 1]] + rng.sample(ends, min(4, len(ends))):
            for first, most in ((aside, k), (chain[at], k - at - 1)):
                reply = ("yes", len(end)) if (first, len(end)) == (chain[at], k - at) else ("no", min(most, len(end) - 1))
                rows.append(Row("a rare label", data, first, chain[-1], end, reply))
                if most < len(end):  # whatever stands before, the end isn't had
                    word = (*rng.choices([0, 4], k=n - 1 - len(end)), *end)
                    if len(word) > len(end):
                        rows.append(Row("a rare label", data, first, chain[-1], word, ("no", most)))
    return rows


def planted(rng, n):
    """Relations by the throw of a coin, language 3. A path is chosen and with it a word: yes."""
    edges, unknown = large.thrown(rng, n, 8)
    data, rows = large.file_of(rng, n, 8, 3, edges, unknown=unknown), []
    graph = brute.enlarged(brute.decode(data))
    for _ in range(60):
        parties = rng.sample(range(n), rng.randint(2, min(n, LONGEST_PLANTED)))
        word = tuple(rng.choice(graph[step]) for step in zip(parties, parties[1:]))
        rows.append(Row("planted words", data, parties[0], parties[-1], word, ("yes", len(word))))
    return rows


def line(rng, n):
    """0 to 1, 1 to 2, ..., with label 0, and label 1 nowhere, language 0: to b lead b paths, one from each lower party. Every limit."""
    data = large.file_of(rng, n, 2, 0, [(u, u + 1, 0) for u in range(n - 1)])
    whole, last = (0,) * (n - 1), n - 1
    rows = [(0, last, whole, ("yes", n - 1)),
            (last, 0, whole, ("no", 0)),
            (last, n - 2, whole, ("no", n - 2)),              # the path from 0 to n - 2; the last party isn't on it
            (0, last, with_symbol(whole, 0, 4), ("no", n - 2)),  # the path from 1, not touching 0
            (1, last, whole, ("no", n - 3)),                  # from 1 on it would touch 1
            (1, last, whole[1:], ("yes", n - 2)),
            (0, n - 2, whole, ("no", n - 3)),
            (last, n - 2, whole[1:], ("no", n - 3)),          # all of the word would be n - 2
            (0, last, (*whole[1:], 4), ("no", 0)),
            (0, last, whole + (0,), ("refused", 11)), (0, last, (), ("refused", 11)), (0, last, (0,) * 200, ("refused", 11)),
            (0, last, (*whole[1:], 1), ("refused", 11)), (0, last, (8, *whole[1:]), ("refused", 11)),
            (0, n, whole, ("refused", 10)), (n, 0, whole, ("refused", 10)), (255, last, (), ("refused", 10)),
            (last, last, whole, ("refused", 10))]
    rows += [(0, last, with_symbol(whole, at, 4), ("no", n - 2 - at)) for at in range(n - 1)]
    for a, b in large.some_pairs(rng, n):
        k = rng.randint(1, n - 1)
        most = b - a - 1 if a < b else b
        rows.append((a, b, (0,) * k, ("yes", k) if k == b - a else ("no", min(most, k - 1))))
    return [Row("line", data, *row) for row in rows]


def rows(rng, n):
    """All sorts, with n parties."""
    made = [line(rng, n), ring(rng, n, 0), ring(rng, n, 2), followed(rng, n), followed(rng, n), two_trees(rng, n), two_trees(rng, n)]
    made += [uniform(rng, n, labels, language, present)
             for language in range(4) for labels, present in ((2, 1), (1, 0), (8, 8))
             if (language, present) not in ((0, 0), (2, 0))]  # those two have no words at all
    made += [uniform(rng, n, labels, language, present, unknown) for labels, language, present, unknown in large.PARTLY_UNKNOWN]
    made += [rare_label(rng, n), planted(rng, n)]
    return [row for rows_of_graph in made for row in rows_of_graph]


# ------------------------------------------------------------------------ as frames

def case(rng, row):
    """The frame of a row, with random bytes after the word's symbols, and its line."""
    given = script.given_bytes(len(row.word), (bytes(row.word) + rng.randbytes(31))[:31])
    return script.Case(script.test_frame(row.data, row.first, row.second, given), script.test_text(row.reply))


def cases(rng, n=32):
    return [case(rng, row) for row in rows(rng, n)]
