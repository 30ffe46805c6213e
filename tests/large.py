"""Larger files whose path and next-word answers follow by argument.

Listing all paths of 32 parties would not end, so each sort of graph here has a
comment that says why its answers are what they are. All sorts take the number
of parties, and test_brute.py holds the small ones against the listing.

Only calls are asked here that a search can answer soon: a search may pass the
parties in every order before it can say no.
"""

from collections import namedtuple
from itertools import product

import brute
import files
import script

# A house file with calls on it.
Graph = namedtuple("Graph", "name data calls")

# A call with its answer: the bytes that are written, None for none, or a refusal's number.
# room is the output's length; None leaves it open, but large enough.
Call = namedtuple("Call", "call first second word answer room")

PAIRS_OF_GRAPH = 60
MOST_UNKNOWN = 300


def path(first, second, word, answer, room=None):
    return Call(script.PATH, first, second, tuple(word), answer, room)


def next_word(first, second, word, answer, room=None):
    return Call(script.NEXT_WORD, first, second, tuple(word), answer, room)


def file_of(rng, n, labels, language, edges, permits=(), longest=None, unknown=()):
    """A house file; D is n - 1 where it isn't given. Languages 0 and 2 have no symbol for what is absent, so that there an absent
    relation may as well be unknown; in a part of the files some are."""
    matter = files.Matter(n, labels, language, longest or n - 1, set(edges), set(permits), set(unknown))
    if language in (0, 2):
        absent = files.absent_relations(matter)
        matter = files.some_unknown(rng, matter, rng.sample(absent, min(MOST_UNKNOWN, len(absent))))
    return files.lay_out(matter, rng).bytes()


def all_pairs(n):
    return [(a, b) for a in range(n) for b in range(n) if a != b]


def some_pairs(rng, n):
    """Some pairs, with those of the first and the last party."""
    chosen = rng.sample(all_pairs(n), min(PAIRS_OF_GRAPH, n * (n - 1)))
    return sorted(set(chosen) | {(0, n - 1), (n - 1, 0)})


def legal_symbols(labels, language):
    return [4 * label + kind for label in range(labels) for kind in brute.KINDS[language]]


# ------------------------------------- pairs with one path, and sets of symbols along it

def first_after(sets, word):
    """The first word after the given one of those that take a symbol of each set in order."""
    if len(word) < len(sets):
        return tuple(min(choice) for choice in sets)
    if len(word) == len(sets):
        for place in reversed(range(len(sets))):
            higher = [symbol for symbol in sets[place] if symbol > word[place]]
            kept = all(word[i] in sets[i] for i in range(place))
            if kept and higher:
                return word[:place] + (min(higher),) + tuple(min(c) for c in sets[place + 1:])
    return None


def one_path_calls(rng, parties, sets, legal, longest):
    """Calls for the two ends of the only path between them; its steps have these symbols."""
    first, second, k = parties[0], parties[-1], len(sets)
    lowest, highest = tuple(min(c) for c in sets), tuple(max(c) for c in sets)
    own = tuple(rng.choice(sorted(c)) for c in sets)
    calls = [path(first, second, own, parties),
             path(first, second, highest, parties, room=k + 1),
             path(first, second, own, 14, room=k),
             next_word(first, second, (), lowest),
             next_word(first, second, own, first_after(sets, own), room=31),
             next_word(first, second, highest, None),
             next_word(first, second, own, 14, room=30)]
    if k > 1:
        calls.append(path(first, second, own[:-1], None))
        calls.append(next_word(first, second, tuple(max(legal) for _ in own[1:]), lowest))
    if k < longest:
        longer = own + (rng.choice(legal),)
        calls.append(path(first, second, longer, None))
        calls.append(next_word(first, second, longer, None))
    at = rng.randrange(k)
    outside = [symbol for symbol in legal if symbol not in sets[at]]
    if outside:
        changed = own[:at] + (rng.choice(outside),) + own[at + 1:]
        calls.append(path(first, second, changed, None))
        calls.append(next_word(first, second, changed, first_after(sets, changed)))
    return calls


def no_path_calls(rng, first, second, legal, longest):
    """Calls for a pair that has no word at all."""
    word = tuple(rng.choices(legal, k=rng.randint(1, longest)))
    return [path(first, second, word, None), next_word(first, second, word, None),
            next_word(first, second, (), None)]


def ring(rng, n):
    """0 to 1, 1 to 2, ..., and from the last to 0. Language 0: from a the walk is forced, and it
    comes to b after b - a steps (counted round the ring), each with symbol 00."""
    calls = []
    for a, b in some_pairs(rng, n):
        parties = tuple((a + i) % n for i in range((b - a) % n + 1))
        calls += one_path_calls(rng, parties, [{0}] * (len(parties) - 1), [0], n - 1)
    data = file_of(rng, n, 1, 0, [(u, (u + 1) % n, 0) for u in range(n)])
    return Graph("ring", data, calls)


def ring_both_ways(rng, n):
    """The ring in language 2: a path goes on round one way, since turning back would repeat a party.
    So a pair has two words: 00 all the way forward and 02 all the way back."""
    calls = []
    for a, b in some_pairs(rng, n):
        forward = tuple((a + i) % n for i in range((b - a) % n + 1))
        back = tuple((a - i) % n for i in range((a - b) % n + 1))
        paths = {(0,) * (len(forward) - 1): forward, (2,) * (len(back) - 1): back}
        low, high = sorted(paths, key=brute.word_key)
        calls += [path(a, b, low, paths[low]), path(a, b, high, paths[high]),
                  next_word(a, b, (), low), next_word(a, b, low, high), next_word(a, b, high, None)]
        mixed = low[:-1] + (2 - low[-1],)
        if len(mixed) > 1:
            calls.append(path(a, b, mixed, None))
    data = file_of(rng, n, 1, 2, [(u, (u + 1) % n, 0) for u in range(n)])
    return Graph("ring in language 2", data, calls)


def line(rng, n, language):
    """0 to 1, 1 to 2, ..., each step with one to three labels. Language 0: from a to a higher b
    the only path takes the steps between, to a lower b there is none. Language 2: from a to a
    lower b it takes them back, with the inverse symbols."""
    chosen = [sorted(rng.sample(range(8), rng.randint(1, 3))) for _ in range(n - 1)]
    edges = [(u, u + 1, label) for u in range(n - 1) for label in chosen[u]]
    legal, calls = legal_symbols(8, language), []
    for a, b in some_pairs(rng, n):
        if a < b:
            sets = [{4 * label for label in chosen[u]} for u in range(a, b)]
            calls += one_path_calls(rng, tuple(range(a, b + 1)), sets, legal, n - 1)
        elif language == 2:
            sets = [{4 * label + 2 for label in chosen[u - 1]} for u in range(a, b, -1)]
            calls += one_path_calls(rng, tuple(range(a, b - 1, -1)), sets, legal, n - 1)
        else:
            calls += no_path_calls(rng, a, b, legal, n - 1)
    return Graph("line in language %d" % language, file_of(rng, n, 8, language, edges), calls)


def followed(rng, n):
    """One relation from each party, language 0: the walk from a is forced. The pair (a, b) has one
    word where the walk comes to b before it comes to a party again, and else none."""
    onward = [rng.choice([v for v in range(n) if v != u]) for u in range(n)]
    labels = [rng.randrange(8) for _ in range(n)]
    legal, calls = legal_symbols(8, 0), []
    for a, b in some_pairs(rng, n):
        walk = [a]
        while walk[-1] != b and onward[walk[-1]] not in walk:
            walk.append(onward[walk[-1]])
        if walk[-1] == b:
            sets = [{4 * labels[u]} for u in walk[:-1]]
            calls += one_path_calls(rng, tuple(walk), sets, legal, n - 1)
        else:
            calls += no_path_calls(rng, a, b, legal, n - 1)
    edges = [(u, onward[u], labels[u]) for u in range(n)]
    return Graph("one relation from each", file_of(rng, n, 8, 0, edges), calls)


def two_trees(rng, n):
    """Two trees beside each other, language 2: in a tree there is one path between two parties,
    from one tree to the other there is none. A step's symbols are plain or inverse by its edges."""
    names = list(range(n))
    rng.shuffle(names)
    parent = {names[i]: names[rng.randrange(max(0, i - 3), i)] for i in range(1, n) if i != n - 2}
    edges = set()
    for child, above in parent.items():
        for _ in range(rng.randint(1, 3)):
            ends = rng.choice([(child, above), (above, child)])
            edges.add(ends + (rng.randrange(8),))
    legal, calls = legal_symbols(8, 2), []
    for a, b in some_pairs(rng, n):
        parties = tree_path(parent, a, b)
        if parties is None:
            calls += no_path_calls(rng, a, b, legal, n - 1)
        else:
            sets = [{4 * l for (x, y, l) in edges if (x, y) == step}
                    | {4 * l + 2 for (x, y, l) in edges if (y, x) == step}
                    for step in zip(parties, parties[1:])]
            calls += one_path_calls(rng, parties, sets, legal, n - 1)
    return Graph("two trees", file_of(rng, n, 8, 2, edges), calls)


def tree_path(parent, a, b):
    """The parties from a up to the first that is also above b, and down to b; None in two trees."""
    above = [[a], [b]]
    for chain in above:
        while chain[-1] in parent:
            chain.append(parent[chain[-1]])
    meeting = [party for party in above[0] if party in above[1]]
    if not meeting:
        return None
    up = above[0][:above[0].index(meeting[0])]
    down = above[1][:above[1].index(meeting[0])]
    return tuple(up + [meeting[0]] + down[::-1])


# ---------------------------------------------------- every step has the same symbols

def uniform(rng, n, labels, language, present, unknown=0):
    """The labels below `present` hold between all parties, the last ones are unknown between all, and
    the others hold nowhere, so that each step has the same symbols. The pair's words are all words of
    those symbols with up to n - 1 of them, and the least path of each takes the lowest other parties,
    in order."""
    edges = [(a, b, label) for a, b in all_pairs(n) for label in range(present)]
    known = labels - unknown
    # Plain and inverse hold of a label that is present, absent and absent inverse of another, and none of an unknown one.
    alphabet = [s for s in legal_symbols(labels, language) if s // 4 < known and (s // 4 < present) == (s % 2 == 0)]
    outside = [s for s in legal_symbols(labels, language) if s not in alphabet]
    calls = []
    for a, b in some_pairs(rng, n)[::3]:
        others = [party for party in range(n) if party not in (a, b)]
        for k in {1, 2, rng.randint(1, n - 1), n - 1}:
            word = rng.choices(alphabet, k=k)
            calls.append(path(a, b, word, (a, *others[:k - 1], b), room=rng.choice([k + 1, None])))
            if outside:
                early = rng.randrange(min(k, 3))
                calls.append(path(a, b, word[:early] + [rng.choice(outside)] + word[early + 1:], None))
        calls += uniform_next_words(rng, n, a, b, alphabet, outside)
    data = file_of(rng, n, labels, language, edges, all_pairs(n) if present == 8 else (),
                   unknown=[(a, b, label) for a, b in all_pairs(n) for label in range(known, labels)])
    return Graph(uniform_name(labels, language, present, unknown), data, calls)


# Numbers of labels, the language, labels that hold everywhere, and unknown ones.
PARTLY_UNKNOWN = [(3, 0, 1, 1), (3, 1, 1, 1), (3, 2, 1, 1), (3, 3, 1, 1), (8, 1, 1, 7), (8, 3, 2, 6)]


def uniform_name(labels, language, present, unknown):
    return "language %d, %d of %d labels everywhere, %d unknown" % (language, present, labels, unknown)


def uniform_next_words(rng, n, a, b, alphabet, outside):
    """Short given words; long ones where their own length is soon seen to have nothing more."""
    least, most = min(alphabet), max(alphabet)
    calls = [next_word(a, b, (), (least,)), next_word(a, b, (most,), (least,) * 2),
             next_word(a, b, (most,) * 2, (least,) * 3)]
    for k in (1, 2, 3):
        word = tuple(rng.choices(alphabet + outside, k=k))
        answer = first_after([alphabet] * k, word)
        if answer is None and k < n - 1:
            answer = (least,) * (k + 1)
        calls.append(next_word(a, b, word, answer))
    past = [symbol for symbol in outside if symbol > most]
    if least == 0 and past:
        for k in {rng.randint(1, n - 1), n - 2, n - 1}:
            word = (rng.choice(past),) + tuple(rng.choices(alphabet + outside, k=k - 1))
            calls.append(next_word(a, b, word, (0,) * (k + 1) if k < n - 1 else None))
    return calls


# --------------------------------------------------------------------------- others

def ranks(rng, n):
    """From each party to each higher one, language 1: symbol 00 goes up and 01 goes down. From the
    lowest party to the highest the first and the last step go up, and any others may stand between
    them. The least path takes the parties in order, each run of downs turned round: a party before
    d downs needs d lower ones that are free."""
    first, second, calls = 0, n - 1, [next_word(0, n - 1, (), (0,))]
    for k in sorted(rng.sample(range(2, n), min(n - 2, 20)) + [n - 1] * 5):
        middle = [rng.choice([0, 0, 1]) for _ in range(k - 2)]
        for place in range(6, len(middle)):  # at most six downs in a row, so that the search is short
            if all(middle[place - 6:place]):
                middle[place] = 0
        word = (0, *middle, 0)
        calls.append(path(first, second, word, (first, *turned_runs(middle), second)))
        calls.append(path(first, second, (1,) + word[1:], None))
    for k in range(2, min(4, n - 1)):
        listed = [(0, *middle, 0) for middle in product((0, 1), repeat=k - 2)]
        for word, following in zip(listed, listed[1:] + [(0,) * (k + 1)]):
            calls.append(next_word(first, second, word, following))
    edges = [(a, b, 0) for a, b in all_pairs(n) if a < b]
    return Graph("ranks", file_of(rng, n, 1, 1, edges), calls)


def turned_runs(middle):
    """Parties from 1 on, one more than there are steps; each run of downs is turned round."""
    out, run = [], [1]
    for party, step in enumerate(middle, start=2):
        if step == 0:
            out += run[::-1]
            run = []
        run.append(party)
    return out + run[::-1]


def forced_start(rng, n, language, rest):
    """A line in language 1 or 3. From 0, plain symbols force the walk along the line. So the words
    that begin with n - rest plains go on like the words of the last `rest` parties, which are a line
    of their own; those are few enough to be listed. Two relations there may be unknown, and others
    elsewhere, which the walk doesn't ask for."""
    unknown = {(2, 0, 0), (1, 3, 0)} if rng.random() < 0.5 else set()
    small = file_of(rng, rest, 1, language, [(u, u + 1, 0) for u in range(rest - 1)], unknown=unknown)
    tails = brute.Known(small).least_paths(0, rest - 1)
    start, legal, calls = n - rest, legal_symbols(1, language), []
    plains = (0,) * start

    def whole(parties):
        return (*range(start), *(start + party for party in parties))

    listed = list(tails)
    chosen = rng.sample(range(len(listed)), min(150, len(listed)))
    for i in chosen:
        calls.append(path(0, n - 1, plains + listed[i], whole(tails[listed[i]])))
        if i + 1 < len(listed) and len(listed[i + 1]) == len(listed[i]):
            calls.append(next_word(0, n - 1, plains + listed[i], plains + listed[i + 1]))
    for _ in range(100):
        tail = tuple(rng.choices(legal, k=rng.randint(1, rest - 1)))
        later = [other for other in listed if len(other) == len(tail) and other > tail]
        if tail not in tails:
            calls.append(path(0, n - 1, plains + tail, None))
        if later:
            calls.append(next_word(0, n - 1, plains + tail, plains + later[0]))
    elsewhere = {(v, u, 0) for u in range(start) for v in range(u + 1, n) if unknown and rng.random() < 0.2}
    data = file_of(rng, n, 1, language, [(u, u + 1, 0) for u in range(n - 1)],
                   unknown={(start + u, start + v, 0) for u, v, _ in unknown} | elsewhere)
    return Graph("line in language %d, forced start" % language, data, calls)


def thrown(rng, n, labels):
    """Relations by the throw of a coin, and unknown ones; in some throws none is unknown."""
    part = rng.choice([0, 0, 0.3])
    edges, unknown = set(), set()
    for one in files.every_relation(n, labels):
        if rng.random() < part:
            unknown.add(one)
        elif rng.random() < 0.5:
            edges.add(one)
    return edges, unknown


def planted(rng, n):
    """Relations by the throw of a coin, language 3. A path is chosen and with it a word; the word one
    lower in its last symbol is given. No word stands between the two, so the chosen one is next."""
    edges, unknown = thrown(rng, n, 8)
    data, calls = file_of(rng, n, 8, 3, edges, unknown=unknown), []
    graph = brute.enlarged(brute.decode(data))
    while len(calls) < 60:
        parties = rng.sample(range(n), rng.randint(2, n))
        word = tuple(rng.choice(graph[step]) for step in zip(parties, parties[1:]))
        if word[-1] > 0:
            calls.append(next_word(parties[0], parties[-1], word[:-1] + (word[-1] - 1,), word))
    return Graph("planted words", data, calls)


def refusals(rng, n):
    """The limits of pair, word and output in a file with the largest n that is tried here."""
    edges = [(u, u + 1, 0) for u in range(n - 1)]
    whole, parties = (0,) * (n - 1), tuple(range(n))
    calls = [path(0, n - 1, whole, parties, room=n), path(0, n - 1, whole, 14, room=n - 1),
             path(n - 1, 0, whole, None, room=n), path(n - 1, 0, whole, 14, room=0),
             path(0, n, whole, 10), path(n, 0, whole, 10), path(255, 0, whole, 10), path(n - 1, n - 1, whole, 10),
             path(0, n - 1, whole + (0,), 11), path(0, n - 1, (), 11), path(0, n - 1, whole[1:] + (1,), 11),
             next_word(0, n - 1, (), whole, room=31), next_word(0, n - 1, (), 14, room=30),
             next_word(0, n, (), 10), next_word(255, 0, (), 10), next_word(n - 1, n - 1, (), 10),
             next_word(0, n - 1, whole + (0,), 11), next_word(0, n - 1, whole[1:] + (4,), 11),
             next_word(0, n - 1, whole, None), next_word(0, n - 1, (0,) * 200, 11)]
    return Graph("limits", file_of(rng, n, 1, 0, edges), calls)


def shorter_limit(rng, n):
    """The line with D one below what its ends need: they have no word, and theirs is too long."""
    edges, whole = [(u, u + 1, 0) for u in range(n - 1)], (0,) * (n - 1)
    calls = [path(0, n - 1, whole, 11), next_word(0, n - 1, whole, 11), next_word(0, n - 1, (), None),
             path(0, n - 2, whole[1:], tuple(range(n - 1))), next_word(1, n - 1, (), whole[1:])]
    return Graph("D below n - 1", file_of(rng, n, 1, 0, edges, longest=n - 2), calls)


def graphs(rng, n):
    """All sorts, with n parties."""
    rest = 6 if n > 8 else 4
    made = [ring(rng, n), ring_both_ways(rng, n), line(rng, n, 0), line(rng, n, 2),
            followed(rng, n), followed(rng, n), two_trees(rng, n), two_trees(rng, n)]
    made += [uniform(rng, n, labels, language, present)
             for language in range(4) for labels, present in ((2, 1), (1, 0), (8, 8))
             if (language, present) not in ((0, 0), (2, 0))]  # those two have no words at all
    made += [uniform(rng, n, labels, language, present, unknown) for labels, language, present, unknown in PARTLY_UNKNOWN]
    made += [ranks(rng, n), forced_start(rng, n, 1, rest), forced_start(rng, n, 3, rest)]
    made += [planted(rng, n), refusals(rng, n), shorter_limit(rng, n)]
    return made


# ------------------------------------------------------------------------ as frames

def case(rng, graph, call):
    """The frame of a call with random bytes around and in the output, and the expected lines."""
    needed = len(call.word) + 1 if call.call == script.PATH else 31
    room = rng.randint(min(needed, 100), 100) if call.room is None else call.room
    symbols = (bytes(call.word) + rng.randbytes(31))[:31]
    given = script.given_bytes(len(call.word), symbols)
    output = rng.randbytes(room + 2 * script.GUARD)
    frame = script.word_frame(call.call, graph.data, call.first, call.second, given, output)
    if call.answer is None:
        return script.Case(frame, script.output_text(call.call, ("none",), output))
    if isinstance(call.answer, int):
        return script.Case(frame, script.output_text(call.call, ("refused", call.answer), output))
    written = script.GUARD + len(call.answer)
    after = output[:script.GUARD] + bytes(call.answer) + output[written:]
    return script.Case(frame, script.output_text(call.call, ("written", len(call.answer)), after))


def cases(rng, n=32):
    return [case(rng, graph, call) for graph in graphs(rng, n) for call in graph.calls]
