"""Hold path and next-word of the program `cases` against brute.py on many files.

    python3 tests/run_paths.py PATH_OF_CASES_BINARY

Most files are small, so that all paths of a pair can be listed. Output buffers
have random old bytes and random guard bytes on both sides. The larger files of
large.py are run with 1 MiB of stack. The seeds are fixed, so each run has the
same frames. The last line printed is `N passed, M failed`: N counts frames; M
counts frames and, beside them, demands on the set of frames that are not met.
The exit status is 0 only where M is 0.
"""

import random
import sys
from collections import Counter, namedtuple

import brute
import comparing
import files
import large
import script
import unknowns

SMALL_FILES = 9000
SPARSE_FILES = 600
DAMAGED_FILES = 3700
WALKED_FILES = 1500
MOST_PATHS = 1200         # about how many paths a pair of a small file may have
MOST_WORDS_WALKED = 200   # over all pairs of a file whose pairs are walked
STACK = 1 << 20

PATH, NEXT_WORD = script.PATH, script.NEXT_WORD
NEXT_ROOM = brute.NEXT_WORD_ROOM

# The arguments of a call beside the file. symbols are 31, room is the output's length.
Asked = namedtuple("Asked", "call first second length symbols room")


# ------------------------------------------------------------------ the files

def expected_paths(n, longest, per_step):
    """About how many paths a pair has where a step has this many symbols."""
    total, ways = 0, 1
    for k in range(1, min(longest, n - 1) + 1):
        total += ways * per_step ** k
        ways *= n - 1 - k
    return total


def few_paths(rng, most_paths, draw):
    """Matter of the first drawn (n, labels, language, longest, part) with few enough paths."""
    while True:
        n, labels, language, longest, part = draw()
        held = {0: part, 1: 1, 2: 2 * part, 3: 2}[language]
        if expected_paths(n, longest, labels * held) <= most_paths:
            return matter_with(rng, n, labels, language, longest, part)


def small_matter(rng, most_paths):
    """Matter with n up to 6 and few enough paths; permits are there and must not matter."""
    all_symbols = rng.random() < 0.04

    def draw():
        return (rng.choice([1, 2, 2, 3, 3, 3, 4, 4, 4, 4, 5, 5, 5, 5, 6, 6, 6, 6]),
                8 if all_symbols else rng.choice([1, 1, 1, 2, 2, 3, rng.randint(1, 8), 8]),
                3 if all_symbols else rng.randint(0, 3),
                rng.randint(9, 31) if rng.random() < 0.12 else rng.randint(1, 8),
                rng.choice([0.15, 0.3, 0.5, 0.5, 0.7, 1.0]))

    return few_paths(rng, most_paths, draw)


def matter_with(rng, n, labels, language, longest, part, known_label=None):
    """Matter that has this part of the relations that can be, and some permits. In a part of the matters some relations become
    unknown, known and absent ones; none of them has the known label."""
    every = files.every_relation(n, labels)
    edges = {one for one in every if rng.random() < part}
    permits = {pair for pair in large.all_pairs(n) if rng.random() < 0.2}
    matter = files.Matter(n, labels, language, longest, edges, permits)
    return files.some_unknown(rng, matter, [one for one in every if one[2] != known_label])


def sparse_matter(rng):
    """n 7 or 8 in language 0 or 2: a line through all parties in any order, and some relations
    more; some absent ones may be unknown. Returns the matter, and a pair that is far apart on the line."""
    n, labels = rng.randint(7, 8), rng.randint(1, 2)
    order = rng.sample(range(n), n)
    steps = list(zip(order, order[1:])) + rng.choices(large.all_pairs(n), k=rng.randint(0, n))
    edges = {step + (rng.randrange(labels),) for step in steps}
    permits = set(rng.sample(large.all_pairs(n), 3))
    longest = rng.choice([rng.randint(1, 8), 7, 8])
    pair = (order[0], order[rng.choice([n - 1, n - 1, n - 2])])
    matter = files.Matter(n, labels, rng.choice([0, 2]), longest, edges, permits)
    return files.some_unknown(rng, matter, files.absent_relations(matter)), pair


def file_of(rng, matter):
    return files.lay_out(matter, rng).bytes()


# Of a known and an unknown record either can be the first, so that there are more of these.
DAMAGES = files.DAMAGES + 5 * [files.repeat_as_opposite]


def damaged_file(rng):
    """A file that is most often refused: damaged in its parts, in its bytes or in its length."""
    part = rng.random()
    if part < 0.8:
        return files.damaged_draft(rng, rng.choice(DAMAGES), n=rng.randint(3, 6), most=20).bytes()
    data = file_of(rng, small_matter(rng, MOST_PATHS))
    return rng.choice([files.byte_changed, files.cut, files.lengthened])(data, rng)


# ------------------------------------------------------------------- the words

class Asker:
    """Makes calls for one file."""

    def __init__(self, rng, known):
        self.rng = rng
        self.known = known
        self.house = known.house

    def some_pair(self):
        return tuple(self.rng.sample(range(self.house.n), 2))

    def own_word(self, pair):
        """A word of the pair, or a legal one where it has none."""
        listed = self.known.words(*pair)
        return self.rng.choice(listed) if listed else self.legal_word()

    def changed_word(self, pair):
        """A word of the pair with one symbol changed, left out or added."""
        word = self.own_word(pair)
        at = self.rng.randrange(len(word))
        symbol = self.rng.choice(brute.symbols(self.house))
        change = self.rng.random()
        if change < 0.15 and len(word) > 1:
            return word[:at] + word[at + 1:]
        if change < 0.3 and len(word) < self.house.longest:
            return word[:at] + (symbol,) + word[at:]
        return word[:at] + (symbol,) + word[at + 1:]

    def legal_word(self, shortest=1):
        """Legal symbols at random; most often not many more than a path can have."""
        most = self.house.longest
        if self.rng.random() < 0.8:
            most = min(most, max(shortest, self.house.n + 1))
        return tuple(self.rng.choices(brute.symbols(self.house), k=self.rng.randint(shortest, most)))

    def highest_word(self, pair):
        """A word of the pair with its highest symbol at the end, or the highest legal symbol some times."""
        highest = max(brute.symbols(self.house))
        ending = [word for word in self.known.words(*pair) if word[-1] == highest]
        if ending and self.rng.random() < 0.7:
            return self.rng.choice(ending)
        return (highest,) * self.rng.randint(1, min(self.house.longest, self.house.n))

    def word_too_long_for_a_path(self, pair):
        """A legal word of n or more symbols where D allows one; it may begin like a word of the pair."""
        if self.house.longest < self.house.n:
            return self.legal_word()
        start = self.own_word(pair) if self.rng.random() < 0.5 else ()
        word = self.legal_word(self.house.n)
        return start[:len(word)] + word[len(start):]

    def label_too_high(self, pair):
        """A word with one symbol whose label is L or more; some are a legal symbol plus 32."""
        kinds = brute.KINDS[self.house.language]
        kind, legal = self.rng.choice(kinds), self.rng.choice(brute.symbols(self.house))
        label = self.rng.choice([self.house.labels, self.rng.randint(self.house.labels, 63)])
        return self.with_symbol(pair, self.rng.choice([4 * label + kind, legal + 32 * self.rng.randint(1, 7)]))

    def kind_not_there(self, pair):
        """A word with one symbol whose kind isn't the language's; language 3 has all kinds."""
        kinds = [kind for kind in range(4) if kind not in brute.KINDS[self.house.language]]
        if not kinds:
            return self.label_too_high(pair)
        return self.with_symbol(pair, 4 * self.rng.randrange(self.house.labels) + self.rng.choice(kinds))

    def with_symbol(self, pair, symbol):
        word = self.own_word(pair) if self.rng.random() < 0.5 else self.legal_word()
        at = self.rng.choice([0, len(word) - 1, self.rng.randrange(len(word))])
        return word[:at] + (symbol,) + word[at + 1:]

    def above_d(self):
        """A word of D + 1 to 31 legal symbols, or of 32 at D 31."""
        longest = self.house.longest
        length = longest + 1 if self.rng.random() < 0.5 else self.rng.randint(longest + 1, max(31, longest + 1))
        return self.legal_of_length(length)

    def above_31(self):
        return self.legal_of_length(self.rng.choice([32, 33, 64, 127, 128, 254, 255, self.rng.randint(32, 255)]))

    def legal_of_length(self, length):
        return tuple(self.rng.choices(brute.symbols(self.house), k=length))

    # -------------------------------------------------- a whole call

    def asked(self, call, pair, word, room=None):
        """The call with this word; where no room is given, one that is enough."""
        rng = self.rng
        needed = len(word) + 1 if call == PATH else NEXT_ROOM
        if room is None:
            needed = min(needed, script.LONGEST_OUTPUT)
            room = rng.choice([needed, needed, min(needed + 1, script.LONGEST_OUTPUT),
                               rng.randint(needed, script.LONGEST_OUTPUT), script.LONGEST_OUTPUT])
        symbols = (bytes(word[:31]) + rng.randbytes(31))[:31]
        return Asked(call, pair[0], pair[1], len(word), symbols, room)

    def short_room(self, call, word):
        """An output that is too short: empty, one byte short, or something between."""
        most = min(len(word), script.LONGEST_OUTPUT) if call == PATH else NEXT_ROOM - 1
        return self.rng.choice([0, most, self.rng.randint(0, most)])

    def wrong_pair(self):
        """A pair with a party of n or more, or the same party twice."""
        n, rng = self.house.n, self.rng
        inside, outside = rng.randrange(n), rng.choice([n, n, 31, 32, 255, rng.randint(n, 255)])
        return rng.choice([(inside, inside), (inside, outside), (outside, inside), (outside, outside)])

    def odd_call(self, call):
        """A call that is to be refused, sometimes for more than one reason."""
        rng = self.rng
        if self.house.n == 1:
            word = rng.choice([self.legal_word(), self.above_31(), ()])
            room = self.short_room(call, word) if rng.random() < 0.3 else None
            return self.asked(call, self.wrong_pair(), word, room)
        pair = self.some_pair()
        word = self.own_word(pair) if rng.random() < 0.6 else self.legal_word()
        faults = rng.choice(["pair", "pair", "word", "word", "word", "word", "word", "room", "room",
                             "pair word", "pair room", "word room", "pair word room"])
        if "word" in faults:
            word = rng.choice([self.label_too_high(pair), self.kind_not_there(pair), self.above_d(),
                               self.above_31(), () if call == PATH else self.above_d()])
        if "pair" in faults:
            pair = self.wrong_pair()
        room = self.short_room(call, word) if "room" in faults else None
        return self.asked(call, pair, word, room)

    def calls(self, one):
        """The calls on one file, mostly with this pair."""
        other = self.some_pair()
        made = [
            self.asked(PATH, one, self.own_word(one)),
            self.asked(PATH, one, self.own_word(one)),
            self.asked(PATH, other, self.own_word(one)),
            self.asked(PATH, one, self.changed_word(one)),
            self.asked(PATH, other, self.legal_word()),
            self.asked(NEXT_WORD, one, self.own_word(one)),
            self.asked(NEXT_WORD, one, self.changed_word(one)),
            self.asked(NEXT_WORD, other, self.legal_word()),
            self.asked(NEXT_WORD, other, ()),
            self.odd_call(PATH),
            self.odd_call(NEXT_WORD),
        ]
        call = self.rng.choice([PATH, NEXT_WORD])
        made.append(self.asked(call, one, self.word_too_long_for_a_path(one)))
        call = self.rng.choice([PATH, NEXT_WORD])
        made.append(self.asked(call, one, self.highest_word(one)))
        return made


def any_call(rng, call):
    """Arguments without plan, for files that are refused whatever the others are."""
    length = rng.choice([0, 1, 2, 3, rng.randrange(256)])
    symbols = bytes(rng.choice([0, 0, rng.randrange(256)]) for _ in range(31))
    return Asked(call, rng.randrange(4), rng.randrange(4), length, symbols, rng.choice([0, 1, 31, 40, 100]))


# ----------------------------------------------------------------- the frames

class Collection:
    """The cases so far, and an account of what occurs in them."""

    def __init__(self, rng):
        self.rng = rng
        self.cases = []
        self.files = set()
        self.account = Counter()

    def add(self, data, known, asked):
        """One more case. Returns its reply."""
        given = script.given_bytes(asked.length, asked.symbols)
        output = self.rng.randbytes(asked.room + 2 * script.GUARD)
        reply, after = script.word_reply(asked.call, known, asked.first, asked.second, given, output)
        frame = script.word_frame(asked.call, data, asked.first, asked.second, given, output)
        self.cases.append(script.Case(frame, script.output_text(asked.call, reply, after)))
        unknowns.count(self.account, self.files, data, known.refusal)
        self.account.update(occurrences(known, asked, reply, script.word_of(given)))
        return reply


def add_calls(collection):
    """Several calls on each of the small and the sparse files."""
    rng = collection.rng
    for number in range(SMALL_FILES + SPARSE_FILES):
        matter, pair = sparse_matter(rng) if number < SPARSE_FILES else (small_matter(rng, MOST_PATHS), None)
        data = file_of(rng, matter)
        known = brute.Known(data)
        asker = Asker(rng, known)
        if matter.n == 1:
            made = [asker.odd_call(PATH), asker.odd_call(NEXT_WORD)]
        else:
            made = asker.calls(pair or asker.some_pair())
        for asked in made:
            collection.add(data, known, asked)


def add_damaged(collection):
    """Calls on damaged files; some of them are accepted nevertheless."""
    rng = collection.rng
    for _ in range(DAMAGED_FILES):
        data = damaged_file(rng)
        known = brute.Known(data)
        if known.refusal:
            collection.add(data, known, any_call(rng, PATH))
            collection.add(data, known, any_call(rng, NEXT_WORD))


def add_walks(collection):
    """Next-word from the empty word to the end, for every pair of a file."""
    rng = collection.rng
    walked = 0
    while walked < WALKED_FILES:
        matter = sparse_matter(rng)[0] if rng.random() < 0.05 else small_matter(rng, 60)
        data = file_of(rng, matter)
        known = brute.Known(data)
        every = brute.pairs(known.house)
        if 0 < sum(len(known.words(*pair)) for pair in every) <= MOST_WORDS_WALKED:
            for pair in every:
                walk(collection, data, known, pair)
            walked += 1
            collection.account["files walked in language %d" % known.house.language] += 1
            collection.account["files walked in edition %d" % known.edition] += 1
    collection.account["files walked"] = walked


def walk(collection, data, known, pair):
    """Each step's given word is the word before it; the last step has no later word."""
    asker = Asker(collection.rng, known)
    listed = known.words(*pair)
    for word in [()] + listed:
        reply = collection.add(data, known, asker.asked(NEXT_WORD, pair, word))
    if reply != ("none",):
        raise AssertionError("a walk must end")
    collection.account["pairs walked"] += 1
    if len(listed) > 9:
        collection.account["pairs walked with ten words or more"] += 1


# -------------------------------------------------------- what is demanded

def occurrences(known, asked, reply, word):
    """The names of what occurs in a case, each with its call."""
    name = script.NAMES[asked.call]
    found = ["frames"]
    if reply[0] == "refused":
        found.append("refused %d" % reply[1])
        if known.house is not None:
            found += faults(known, asked, word)
    else:
        kind = "none" if len(reply) == 1 else "found"
        found += [kind, "%s in language %d" % (kind, known.house.language), "%s in edition %d" % (kind, known.edition)]
        if asked.room == (len(word) + 1 if asked.call == PATH else NEXT_ROOM):
            found.append("output just long enough")
        if len(word) >= known.house.n:
            found.append("longer than n - 1")
        listed = known.least_paths(asked.first, asked.second)
        found += path_occurrences(known, asked, word) if asked.call == PATH \
            else next_word_occurrences(listed, reply, word)
    return ["%s: %s" % (name, what) for what in found]


def large_occurrences(cases):
    """The names of what occurs in the frames of the larger files."""
    for case in cases:
        data = script.parts_of(case.frame).data
        yield "larger files: frames of edition %d" % data[0]
        if unknowns.has_unknown(data):
            yield "larger files: frames with unknown relations in language %d" % data[3]


def faults(known, asked, word):
    """What is wrong in a refused call on an accepted file."""
    house = known.house
    wrong_pair = not brute.is_pair(house, asked.first, asked.second)
    wrong_word = brute.bad_word(house, word) or (asked.call == PATH and not word)
    needed = len(word) + 1 if asked.call == PATH else NEXT_ROOM
    short = asked.room < needed
    if wrong_pair + wrong_word + short > 1:
        return ["faults of " + " and ".join(what for what, is_there in (
            ("pair", wrong_pair), ("word", wrong_word), ("output", short)) if is_there)]
    if wrong_pair:
        if asked.first == asked.second:
            return ["same party twice"]
        return ["first party too high" if asked.first >= house.n else "second party too high"]
    if short:
        has = ["output of 0"] if asked.room == 0 else []
        has += ["output one byte short"] if asked.room == needed - 1 else []
        listed = known.words(asked.first, asked.second)
        answer = word in listed if asked.call == PATH else \
            any(brute.word_key(other) > brute.word_key(word) for other in listed)
        return has + ["output short though %s" % ("there is an answer" if answer else "there is none")]
    if not word:
        return ["empty word"]
    if len(word) > house.longest:
        return ["longer than 31" if len(word) > 31 else "longer than D"]
    bad = [symbol for symbol in word if not brute.is_symbol(house, symbol)]
    high = all(symbol // 4 >= house.labels for symbol in bad)
    return ["label too high" if high else "kind not of the language"]


def path_occurrences(known, asked, word):
    """What is special in a path call that isn't refused."""
    found = []
    listed = known.least_paths(asked.first, asked.second)
    if word in listed:
        found.append("%d parties" % len(listed[word]))
        if lower_party_fails(known, listed[word], word):
            found.append("a lower party that leads nowhere")
        if higher_path_too(known, listed[word], word):
            found.append("several paths")
        if 31 in word:
            found.append("symbol 1F")
    elif walk_exists(known, asked.first, asked.second, word):
        found.append("none though a walk that repeats a party has the word")
    return found


def lower_party_fails(known, parties, word):
    """Whether at some place a lower party that is free has the symbol, and yet isn't taken."""
    for place in range(len(word) - 1):
        for party in range(parties[place + 1]):
            if party not in parties[:place + 1] and party != parties[-1] \
                    and word[place] in known.graph[(parties[place], party)]:
                return True
    return False


def higher_path_too(known, parties, word):
    """Whether another path with the word differs in its second party alone."""
    for party in range(parties[1] + 1, known.house.n):
        if len(word) > 1 and party not in parties and word[0] in known.graph[(parties[0], party)] \
                and word[1] in known.graph[(party, parties[2])]:
            return True
    return False


def walk_exists(known, first, second, word):
    """Whether a walk has the word that may pass a party twice."""
    reached = {first}
    for symbol in word:
        reached = {v for u in reached for v in range(known.house.n)
                   if v != u and symbol in known.graph[(u, v)]}
    return second in reached


def next_word_occurrences(listed, reply, word):
    """What is special in a next-word call that isn't refused."""
    own = "the pair's own word given" if word in listed else "another word given"
    found = ["empty word given" if not word else own]
    if word and word[-1] == 31:
        found.append("symbol 1F given last")
    if reply[0] == "length":
        ahead = reply[1] - len(word)
        found.append("as long as the given word" if ahead == 0 else "longer than the given word")
        if word and ahead > 1:
            found.append("longer by two or more")
        if ahead == 0 and own == "another word given":
            found.append("as long as a given word that isn't the pair's")
    return found


# The least number of times that each must occur.
DEMANDS = {
    "path: frames": 40000, "next-word: frames": 60000,
    "path: found": 10000, "path: none": 10000,
    "next-word: found": 20000, "next-word: none": 10000,
    "path: refused 10": 1000, "path: refused 11": 2000, "path: refused 14": 1000,
    "next-word: refused 10": 1000, "next-word: refused 11": 2000, "next-word: refused 14": 1000,
    "path: output just long enough": 5000, "next-word: output just long enough": 5000,
    "path: longer than n - 1": 1000, "next-word: longer than n - 1": 1000,
    "path: empty word": 300,
    "path: several paths": 1000,
    "path: a lower party that leads nowhere": 1000,
    "path: none though a walk that repeats a party has the word": 1000,
    "path: symbol 1F": 100, "next-word: symbol 1F given last": 100,
    "next-word: empty word given": 5000,
    "next-word: the pair's own word given": 10000, "next-word: another word given": 5000,
    "next-word: as long as the given word": 5000, "next-word: longer than the given word": 5000,
    "next-word: longer by two or more": 500,
    "next-word: as long as a given word that isn't the pair's": 1000,
    "files walked": 1500, "pairs walked": 10000, "pairs walked with ten words or more": 1000,
}
DEMANDS.update({"path: %d parties" % k: 1000 for k in range(2, 6)})
DEMANDS.update({"path: 6 parties": 500, "path: 7 parties": 20, "path: 8 parties": 10})
DEMANDS.update({"files walked in language %d" % language: 200 for language in range(4)})
DEMANDS.update({"files walked in edition %d" % edition: 500 for edition in files.EDITIONS})
DEMANDS.update({"larger files: frames of edition %d" % edition: 1000 for edition in files.EDITIONS})
DEMANDS.update({"larger files: frames with unknown relations in language %d" % language: 200 for language in range(4)})
for call in ("path", "next-word"):
    DEMANDS.update({"%s: refused %d" % (call, number): 100 for number in brute.FILE_REFUSALS})
    DEMANDS.update({"%s: %s in edition %d" % (call, kind, edition): 5000
                    for kind in ("found", "none") for edition in files.EDITIONS})
    DEMANDS.update({"%s: %s in language %d" % (call, kind, language): 1000
                    for kind in ("found", "none") for language in range(4)})
    DEMANDS.update({"%s: %s" % (call, fault): 100 for fault in (
        "same party twice", "first party too high", "second party too high",
        "label too high", "kind not of the language", "longer than D", "longer than 31",
        "output of 0", "output one byte short",
        "output short though there is an answer", "output short though there is none",
        "faults of pair and word", "faults of pair and output", "faults of word and output",
        "faults of pair and word and output")})

FEWEST_FILES = 10000
FEWEST_LARGE = 5000
FEWEST_16, FEWEST_8 = 200, 60   # files, with 16 in each order and with 8 for two unknown relations


def lacking(collection, large_cases):
    """The demands that are not met, as lines of text."""
    lines = []
    if len(collection.files) < FEWEST_FILES:
        lines.append("only %d different files" % len(collection.files))
    if len(large_cases) < FEWEST_LARGE:
        lines.append("only %d frames of larger files" % len(large_cases))
    return lines + unmet(collection.account, DEMANDS) + unknowns.lacking(collection.account, FEWEST_16, FEWEST_8)


def unmet(account, demands):
    """The demands on how often things occur that are not met, as lines of text."""
    return ["only %d times %s" % (account[name], name) for name, fewest in demands.items()
            if account[name] < fewest]


def account_text(account, others="walks"):
    """How often each thing occurs: a line for each call, and one for the others."""
    lines = {}
    for name, times in sorted(account.items()):
        call, _, what = name.rpartition(": ")
        lines.setdefault(call or others, []).append("%s %d times" % (what, times))
    return "\n".join("%s: %s" % (call, "; ".join(parts)) for call, parts in lines.items())


# ------------------------------------------------------------------- the run

def collect():
    collection = Collection(random.Random(303))
    add_calls(collection)
    add_damaged(collection)
    add_walks(collection)
    return collection


def prepare():
    collection = collect()
    large_cases = large.cases(random.Random(404))
    collection.account.update(large_occurrences(large_cases))
    text = "%d different files, %d frames, and %d frames of larger files\n" % (
        len(collection.files), len(collection.cases), len(large_cases))
    return comparing.Prepared([(collection.cases, None), (large_cases, STACK)],
                              text + account_text(collection.account), lacking(collection, large_cases))


if __name__ == "__main__":
    sys.exit(comparing.run_prepared(sys.argv, prepare))
