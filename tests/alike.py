"""Small house files in which many pairs have nearly the same words.

A graph is drawn with parties that are alike: a turned ring, parties with the same
relations, two copies, couples, or none; then a relation or two may be changed, labels
may be made to stand together, and relations to go both ways. In some graphs relations
of one label are unknown, for parties that are alike mostly the same ones. The permits are chosen
so that the verdict must go far into a pair's words. Nothing here decides a reply;
that is quick.py's part.
"""

import brute
import files
import quick

MANY = 64           # a pair's first words, after which other ways may be taken
VERY_MANY = 600
PAIRS_TRIED = 6
MOST_STATES = 60000   # of a file that is reckoned
UNKNOWN_PART = 0.5    # of the files drawn; about a third of those with many words

# How often each must occur at least.
DEMANDS = {
    "convertible": 200, "convertible, very many words": 25, "rival": 350, "rival, very many words": 100,
    "rival by an exchange of two": 80, "rival by another map": 80, "rival by no map": 80,
    "symbols that hold for the same pairs, convertible": 80, "symbols that hold for the same pairs, rival": 150,
    "a word of 5 symbols or more is added": 15, "several words are added": 100,
    "symbols that follow on walks only, convertible": 5, "symbols that follow on walks only, rival": 40,
    "unknown relations, convertible": 50, "unknown relations, rival": 100,
    "a pair's symbols among another's in language 1 or 3": 80,
    "a pair's symbols among another's in language 1 or 3, very many words": 20,
}
DEMANDS.update({"language %d, %s" % (language, reply): 8 for language in range(4) for reply in ("convertible", "rival")})


# ------------------------------------------------------------------------ the files

def drawn(rng):
    """A house of 4 to 7 parties, 1 to 3 labels and D 3 to 8. In language 0 there must be more of them for many words;
    with absence and three labels a short word comes after very many others."""
    n, labels, language, longest = rng.randint(4, 7), rng.randint(1, 3), rng.choice([0, 1, 2, 3, 3]), rng.choice([3, 3, 4, 4, 5, 6, 7, 8])
    if language == 0:
        n, labels, longest = rng.randint(5, 7), rng.randint(2, 3), rng.randint(5, 8)
    if language in (1, 3) and rng.random() < 0.6:
        n, labels, longest = rng.randint(5, 7), 3, rng.choice([3, 4])
    sort = rng.choice([turned, same_relations, two_copies, couples, any_relations])
    edges, unknown = sort(rng, n, labels, rng.choice([0.2, 0.5, 0.8, 0.9])), set()
    if rng.random() < UNKNOWN_PART:
        chosen = rng.randrange(labels)
        unknown = {one for one in sort(rng, n, labels, rng.choice([0.1, 0.3])) if one[2] == chosen}
    if rng.random() < 0.3:
        edges |= {(v, u, label) for u, v, label in edges}
    if labels > 1 and rng.random() < 0.4:
        edges, unknown = (together(relations, labels - 1) for relations in (edges, unknown))
    for _ in range(rng.choice([0, 0, 1, 1, 2])):
        edges ^= {(*rng.sample(range(n), 2), rng.randrange(labels))}
    names = rng.sample(range(n), n)
    edges, unknown = ({(names[u], names[v], label) for u, v, label in relations} for relations in (edges - unknown, unknown))
    house = brute.House(n, labels, language, longest, edges, set(), unknown)
    return house._replace(permits=some_permits(rng, house))


def together(relations, last):
    """The relations with the last label where label 0 is, and nowhere else."""
    return {one for one in relations if one[2] != last} | {(u, v, last) for u, v, label in relations if label == 0}


def turned(rng, n, labels, _):
    """Each label goes from every party so many steps on round a ring."""
    return {(u, (u + steps) % n, label) for label in range(labels) for steps in rng.sample(range(1, n), rng.randint(0, n - 1))
            for u in range(n)}


def any_relations(rng, n, labels, part):
    return {(u, v, label) for u in range(n) for v in range(n) if u != v for label in range(labels) if rng.random() < part}


def same_relations(rng, n, labels, part):
    """The last two parties have the same relations with the others, and none with each other."""
    edges = any_relations(rng, n - 1, labels, part)
    return edges | {(n - 1, v, label) for u, v, label in edges if u == n - 2} | {(u, n - 1, label) for u, v, label in edges if v == n - 2}


def two_copies(rng, n, labels, part):
    """A graph twice; a last party, where the number is odd, has the same relations with both."""
    half = n // 2
    edges = any_relations(rng, half, labels, part)
    edges |= {(u + half, v + half, label) for u, v, label in edges}
    if n % 2:
        for u in range(half):
            for label in range(labels):
                if rng.random() < part:
                    edges |= {(u, n - 1, label), (u + half, n - 1, label)}
                if rng.random() < part:
                    edges |= {(n - 1, u, label), (n - 1, u + half, label)}
    return edges


def couples(rng, n, labels, part):
    """Label 0 joins each party with the one beside it, both ways, so that on a path it never follows itself; one may be left
    alone. The other labels are at random."""
    edges = {(u, v, 0) for first in range(0, n - 1, 2) for u, v in ((first, first + 1), (first + 1, first))}
    return edges | {edge for edge in any_relations(rng, n, labels, part) if edge[2] > 0}


def some_permits(rng, house):
    """Pairs at random; one pair; or those with its symbols, or with its symbols there and back, or with all of its words.
    At times one of these is left out."""
    every, graph = brute.pairs(house), brute.enlarged(house)
    way = rng.choice(["random", "one", "symbols", "there and back", "words", "words"])
    if way == "random":
        part = rng.choice([0.1, 0.5, 0.9])
        return {pair for pair in every if rng.random() < part}
    u, v = rng.choice(every)
    chosen = {(u, v)}
    if way == "words":
        chosen = with_all_words(rng, house)
    elif way != "one":
        chosen = {(a, b) for a, b in every if graph[(a, b)] == graph[(u, v)] and (way == "symbols" or graph[(b, a)] == graph[(v, u)])}
    if len(chosen) > 1 and rng.random() < 0.3:
        chosen.discard(rng.choice(sorted(chosen)))
    return chosen


def with_all_words(rng, house):
    """The pairs with all words of one: of a few, the one that has most words before the first that another lacks."""
    reckoner, every = quick.Reckoner(house, MOST_STATES), brute.pairs(house)
    deepest, chosen = -1, set(every)
    try:
        for pair in rng.sample(every, PAIRS_TRIED):
            lacked = {other: reckoner.lacked(pair, other) for other in every}
            depth = max([reckoner.ends[pair].before(word) for word in lacked.values() if word is not None], default=-1)
            if depth > deepest:
                deepest, chosen = depth, {other for other in every if lacked[other] is None}
    except quick.TooMany:
        pass
    return chosen


def file_of(rng, house):
    return files.lay_out(files.Matter(*house), rng).bytes()


# ------------------------------------------------------------------------ what occurs

def occurrences(house, judged, most):
    """What a file has, in the names of DEMANDS."""
    kind = judged.reply[0]
    names = [kind, "language %d, %s" % (house.language, kind)]
    graph = brute.enlarged(house)
    if most > VERY_MANY:
        names.append("%s, very many words" % kind)
    if house.unknown:
        names.append("unknown relations, %s" % kind)
    if house.language in (1, 3) and contained(graph):  # only with unknown relations
        contains = "a pair's symbols among another's in language 1 or 3"
        names += [contains] + ([contains + ", very many words"] if most > VERY_MANY else [])
    held = [frozenset(pair for pair in graph if symbol in graph[pair]) for symbol in brute.symbols(house)]
    held = [pairs for pairs in held if pairs]
    if len(set(held)) < len(held):
        names.append("symbols that hold for the same pairs, %s" % kind)
    if most > VERY_MANY and walked_only(house, graph):
        names.append("symbols that follow on walks only, %s" % kind)
    if kind == "rival":
        names.append("rival by " + map_name(house, graph, *judged.reply[1:]))
    else:
        if any(len(word) > 4 for term in judged.terms for word in term[1:]):
            names.append("a word of 5 symbols or more is added")
        if any(len(term) > 2 for term in judged.terms):
            names.append("several words are added")
    return names


def contained(graph):
    """Whether some pair has all symbols of another one and more."""
    held = {frozenset(symbols) for symbols in graph.values()}
    return any(one < other for one in held for other in held)


def walked_only(house, graph):
    """Whether some symbol leads on after another only back to the party it came from."""
    walked, passed = set(), set()
    for u, v in graph:
        for w in range(house.n):
            if w != v:
                (walked if w == u else passed).update((s, t) for s in graph[(u, v)] for t in graph[(v, w)])
    return not walked <= passed


def map_name(house, graph, pair, other):
    """How a map of parties that carries every symbol takes the one pair to the other."""
    moved = [sum(image[u] != u for u in image) for image in maps(house.n, graph, dict(zip(pair, other)))]
    if not moved:
        return "no map"
    return "an exchange of two" if min(moved) == 2 else "another map"


def maps(n, graph, image):
    """All one-to-one maps that carry every symbol and begin with these images, as dictionaries."""
    if any(not set(graph[(u, v)]) <= set(graph[(image[u], image[v])]) for u in image for v in image if u != v):
        return
    if len(image) == n:
        yield dict(image)
        return
    party = min(set(range(n)) - set(image))
    for to in set(range(n)) - set(image.values()):
        yield from maps(n, graph, {**image, party: to})
