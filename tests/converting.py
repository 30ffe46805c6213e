"""House files for verdict and mining, with what is known of each.

A graph is used for several files that differ in their permits: those of a rule
list (they convert), the same with one pair changed, and permits at random. Then
files that are damaged in their bytes or in their parts. Of a file there can be one
more in which an absent relation is unknown. The random source is the caller's.
Nothing here decides a reply; that is brute.py's part.
"""

from collections import namedtuple

import brute
import files
import run_paths
import run_permit

MOST_PATHS = (8, 20, 50, 120)     # about how many paths a pair may have
MOST_PATHS_OF_DAMAGED = 100

# kind says how the file was made. rules is the rule list whose pairs a file of the same graph permits, or None.
Made = namedtuple("Made", "kind data known rules", defaults=[None])


def drawn(rng, graphs, wide_graphs, damaged_files):
    """The files of so many small and wide graphs, and so many damaged files."""
    for number in range(graphs + wide_graphs):
        yield from of_one_graph(rng) if number < graphs else of_wide_graph(rng)
    count = 0
    while count < damaged_files:
        made = damaged(rng, rng.choice(of_one_graph(rng)).data)
        if made is not None:
            count += 1
            yield made


def of_one_graph(rng):
    """Files of one small graph."""
    return of_matter(rng, run_permit.small_matter(rng, rng.choice(MOST_PATHS)))


def of_wide_graph(rng):
    """Files of one graph of more parties, whose words are few nevertheless."""
    return of_matter(rng, rng.choice([forest, forest, short_words])(rng))


def forest(rng):
    """Up to 32 parties in languages 0 and 2. A party but for a few has relations with an earlier one
    and with no other, so that a pair has one path at most. Some absent ones may be unknown."""
    n, labels = rng.randint(7, 32), rng.choice([1, 2, 4, 8])
    names = rng.sample(range(n), n)
    edges = set()
    for i in range(1, n):
        if rng.random() < 0.9:
            ends = [names[i], names[rng.randrange(max(0, i - 4), i)]]
            for _ in range(rng.choice([1, 1, 1, 2])):
                if rng.random() < 0.3:
                    ends.reverse()
                edges.add((*ends, rng.randrange(labels)))
    matter = files.Matter(n, labels, rng.choice([0, 2]), rng.choice([2, 4, 31]), edges, set())
    return files.some_unknown(rng, matter, files.absent_relations(matter))


def short_words(rng):
    """Up to 14 parties in languages 1 and 3, with words of one or two symbols."""
    part = rng.choice([0.1, 0.5, 0.9])
    return run_paths.matter_with(rng, rng.randint(7, 14), rng.randint(1, 2), rng.choice([1, 3]), rng.randint(1, 2), part)


def of_matter(rng, matter):
    """Files with these relations, three or more; one file where there is one party only."""
    data, known = run_permit.known_file(rng, matter)
    if matter.n == 1:
        return [Made("one party", data, known)]
    lister = run_permit.Lister(rng, known)
    rules = lister.own_terms()
    listed = lister.permitted_by(rules)
    every = brute.pairs(known.house)
    sets = [("rules", listed), ("one pair changed", listed ^ {rng.choice(every)}),
            ("random permits", {pair for pair in every if rng.random() < rng.choice([0.1, 0.5, 0.9])})]
    if rng.random() < 0.05:
        sets.append(("no permits", set()))
    return [with_permits(rng, matter, known, kind, permits)._replace(rules=rules) for kind, permits in sets]


def with_permits(rng, matter, known, kind, permits):
    data = run_paths.file_of(rng, matter._replace(permits=permits))
    return Made(kind, data, brute.Known(data, known))


def with_one_unknown(rng, made):
    """An accepted file with one absent relation made unknown; None where no relation is absent."""
    absent = files.absent_relations(made.known.house)
    if not absent:
        return None
    matter = files.made_unknown(made.known.house, [rng.choice(absent)])
    data = files.lay_out(matter, rng, made.known.edition).bytes()
    return Made("one made unknown", data, brute.Known(data))


def in_other_edition(rng, made):
    """A file of the other edition with the matter of an accepted one, its records in another order."""
    return files.lay_out(made.known.house, rng, files.other_edition(made.known.edition)).bytes()


def damaged(rng, data):
    """A damaged file: this one with its bytes changed, cut or extended, or another; None where its
    words would be too many to list."""
    if rng.random() < 0.5:
        data = run_paths.damaged_file(rng)
    else:
        data = rng.choice([files.byte_changed, files.byte_changed, files.cut, files.lengthened])(data, rng)
    known = brute.Known(data)
    if known.refusal or affordable(known):
        return Made("damaged", data, known)
    return None


def affordable(known):
    """Whether the words of an accepted file's pairs are soon listed."""
    house = known.house
    steps = sum(len(symbols) for symbols in known.graph.values()) / max(1, len(known.graph))
    return run_paths.expected_paths(house.n, house.longest, steps) <= MOST_PATHS_OF_DAMAGED
