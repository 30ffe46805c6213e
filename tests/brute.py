"""A slow and plain reckoning of document 01 and Tickets 1 to 5 of document 02, for small files.

It is written from these alone and shares nothing with the product.
Words are tuples of symbols, pairs are tuples of two parties, and a rule list
is a list of terms, each a list of words.
The calls at the end return tuples such as ("refused", 4) or ("length", 7).
"""

from collections import namedtuple

PERMIT_KIND = 0xFF
UNKNOWN = 0x80            # and a label: the kind byte of an unknown relation
LARGEST_R = 8928
FILE_REFUSALS = (1, 2, 3, 4, 5, 6, 7, 8, 15, 16)
SCRATCH_LENGTH = 1024
NEXT_WORD_ROOM = 31
PROGRAM_INPUT = 44713
PROGRAM_LIST = 65536

# The bytes of a record in each edition. In edition 2 the owner follows the four of edition 1.
RECORD_SIZES = {1: 4, 2: 5}

# The kinds that each language uses: 0 plain, 1 absent, 2 inverse, 3 absent inverse.
KINDS = {0: (0,), 1: (0, 1), 2: (0, 2), 3: (0, 1, 2, 3)}

# What an accepted file says. edges and unknown hold (u, v, label), permits holds (u, v).
House = namedtuple("House", "n labels language longest edges permits unknown", defaults=[frozenset()])

# The first fault along the chains: the numbers that hold there, the refusal first; the party whose chain
# it is, and the number of the record. At refusal 5 the record is the first one that is never reached.
Fault = namedtuple("Fault", "numbers party record")


# ---------------------------------------------------------------- the file

def two_bytes(data, at):
    """The two-byte field at this place, low byte first."""
    return data[at] + 256 * data[at + 1]


def head_of(data, party):
    """The record that the party's head names, or 0."""
    return two_bytes(data, 8 + 2 * party)


def place_of(data, number):
    """Where a record begins; records are numbered from 1."""
    return 8 + 2 * data[1] + RECORD_SIZES[data[0]] * (number - 1)


def record_of(data, number):
    """Target, kind byte and next of a record."""
    at = place_of(data, number)
    return data[at], data[at + 1], two_bytes(data, at + 2)


def owner_of(data, number):
    """The owner on a record of edition 2. None in edition 1, where no owner stands on it."""
    return None if data[0] == 1 else data[place_of(data, number) + 4]


def header_in_range(data):
    """Whether each header field is in its range. Any fault is refusal 2."""
    if data[0] not in RECORD_SIZES:
        return False
    if not 1 <= data[1] <= 32:
        return False
    if not 1 <= data[2] <= 8:
        return False
    if not 0 <= data[3] <= 3:
        return False
    if not 1 <= data[4] <= 31:
        return False
    if data[5] != 0:
        return False
    return two_bytes(data, 6) <= LARGEST_R


def check(data):
    """0 when the file is accepted, else the number of its refusal."""
    if len(data) < 8:
        return 1
    if not header_in_range(data):
        return 2
    if len(data) != 8 + 2 * data[1] + RECORD_SIZES[data[0]] * two_bytes(data, 6):
        return 1
    fault = first_fault(data)
    return fault.numbers[0] if fault else 0


def first_fault(data):
    """Follow the chains of all parties in order; the first fault, or None."""
    reached, count = set(), two_bytes(data, 6)
    for party in range(data[1]):
        in_chain = set()
        link = head_of(data, party)
        while link != 0:
            if link > count:
                return Fault([3], party, link)
            numbers = record_faults(data, party, link, reached, in_chain)
            if numbers:
                return Fault(numbers, party, link)
            target, kind, following = record_of(data, link)
            reached.add(link)
            in_chain.add((target, kind))
            link = following
    missed = [number for number in range(1, count + 1) if number not in reached]
    return Fault([5], None, missed[0]) if missed else None


def record_faults(data, party, number, reached, in_chain):
    """The numbers that hold at a record of the party's chain, in the order in which they are checked."""
    n, labels = data[1], data[2]
    target, kind, _ = record_of(data, number)
    label, is_known = label_of(kind, labels)
    tests = [
        (4, number in reached),
        (15, owner_of(data, number) not in (None, party)),
        (6, target >= n or target == party),
        (7, label is None and kind != PERMIT_KIND),
        (8, (target, kind) in in_chain),
        (16, label is not None and (target, UNKNOWN + label if is_known else label) in in_chain),
    ]
    return [refusal for refusal, holds_here in tests if holds_here]


def label_of(kind, labels):
    """The label that a kind byte has and whether it says that the relation is known; no label for a permit and for other bytes."""
    if kind < labels:
        return kind, True
    if UNKNOWN <= kind < UNKNOWN + labels:
        return kind - UNKNOWN, False
    return None, None


def decode(data):
    """What an accepted file says. The file must have passed check."""
    edges, permits, unknown = set(), set(), set()
    for party in range(data[1]):
        link = head_of(data, party)
        while link != 0:
            target, kind, link = record_of(data, link)
            label, is_known = label_of(kind, data[2])
            if label is None:
                permits.add((party, target))
            else:
                (edges if is_known else unknown).add((party, target, label))
    return House(data[1], data[2], data[3], data[4], edges, permits, unknown)


def entries(house):
    """The relations, unknown ones and permits as (owner, target, kind byte), by owner, target and kind byte."""
    return sorted([*house.edges] + [(u, v, UNKNOWN + label) for u, v, label in house.unknown]
                  + [(u, v, PERMIT_KIND) for u, v in house.permits])


def canonical(house, edition=2):
    """The file that write makes of this matter: its records stand in the order of entries."""
    listed = entries(house)
    owners = [owner for owner, _, _ in listed]
    out = bytearray([edition, house.n, house.labels, house.language, house.longest, 0])
    out += len(listed).to_bytes(2, "little")
    for party in range(house.n):
        head = owners.index(party) + 1 if party in owners else 0
        out += head.to_bytes(2, "little")
    for number, (owner, target, kind) in enumerate(listed, 1):
        following = number + 1 if owners[number:number + 1] == [owner] else 0
        out += bytes([target, kind]) + following.to_bytes(2, "little") + bytes([owner] if edition == 2 else [])
    return bytes(out)


# ------------------------------------------------- pairs, symbols, paths, words

def pairs(house):
    """All ordered pairs of two different parties, in pair order."""
    return [(u, v) for u in range(house.n) for v in range(house.n) if u != v]


def permitted_pairs(house):
    return [pair for pair in pairs(house) if pair in house.permits]


def unpermitted_pairs(house):
    return [pair for pair in pairs(house) if pair not in house.permits]


def is_pair(house, u, v):
    """Whether (u, v) is a pair of the house; if not, it is refusal 10."""
    return u < house.n and v < house.n and u != v


def is_symbol(house, symbol):
    """Whether the symbol's label is below L and its kind is one of the language's."""
    return symbol // 4 < house.labels and symbol % 4 in KINDS[house.language]


def symbols(house):
    """The symbols of the house, lower first."""
    return [4 * label + kind for label in range(house.labels) for kind in KINDS[house.language]]


def holds(house, u, v, symbol):
    """Whether the symbol is one of the house's and holds from u to v. Of an unknown relation neither symbol holds."""
    if u == v or not is_symbol(house, symbol):
        return False
    label, kind = symbol // 4, symbol % 4
    if kind == 0:
        return (u, v, label) in house.edges
    if kind == 1:
        return (u, v, label) not in house.edges and (u, v, label) not in house.unknown
    if kind == 2:
        return (v, u, label) in house.edges
    return (v, u, label) not in house.edges and (v, u, label) not in house.unknown


def enlarged(house):
    """The enlarged graph: for each pair the symbols that hold, lower first."""
    every = symbols(house)
    return {(u, v): [s for s in every if holds(house, u, v, s)] for u, v in pairs(house)}


def all_paths(house, u, v, graph=None):
    """Every path from u to v of at most D symbols, as (parties, word)."""
    found = []
    extend(house, graph or enlarged(house), (u,), (), v, found)
    return found


def extend(house, graph, parties, word, goal, found):
    """Add to found every path to goal that begins with these parties and symbols."""
    if parties[-1] == goal:
        found.append((parties, word))
        return
    if len(word) == house.longest:
        return
    for party in range(house.n):
        if party not in parties:
            for symbol in graph[(parties[-1], party)]:
                extend(house, graph, parties + (party,), word + (symbol,), goal, found)


def word_key(word):
    """Sorting by this key is word order: shorter first, then lower symbol first."""
    return len(word), tuple(word)


def words(house, u, v):
    """The pair's words in word order, each once."""
    return sorted({word for _, word in all_paths(house, u, v)}, key=word_key)


def word_table(house):
    """The words of every pair: a dictionary from pairs to lists in word order."""
    return {pair: words(house, *pair) for pair in pairs(house)}


def least_path(house, u, v, word):
    """Of the pair's paths with this word the least, as parties; None if it has none."""
    with_word = [parties for parties, w in all_paths(house, u, v) if w == tuple(word)]
    return min(with_word) if with_word else None


def next_word(house, u, v, word):
    """The pair's first word after the given one, or None."""
    for candidate in words(house, u, v):
        if word_key(candidate) > word_key(word):
            return candidate
    return None


def paths_to(house, v, graph=None):
    """Every path to v of at most D symbols, from every other party: a dictionary from words to lists of the paths' parties."""
    graph, found = graph or enlarged(house), {}
    for c in range(house.n):
        if c != v:
            for parties, word in all_paths(house, c, v, graph):
                found.setdefault(word, []).append(parties)
    return found


def word_test(house, u, v, word, listed=None):
    """Whether the pair has the word, and a length: on yes the word's, on no that of the word's longest end, short of the word,
    which a path to v has that u isn't on; 0 if there is none. listed, where it is given, is paths_to of v."""
    listed = paths_to(house, v) if listed is None else listed
    word = tuple(word)
    if any(parties[0] == u for parties in listed.get(word, [])):
        return True, len(word)
    lengths = [k for k in range(1, len(word)) if any(u not in parties for parties in listed.get(word[-k:], []))]
    return False, max(lengths, default=0)


class Known:
    """A file's check, edition and house, the words of its pairs and its verdict, each reckoned once.

    other is known of a file that differs in its permits at most; graph and words are taken from it."""

    def __init__(self, data, other=None):
        self.refusal = check(data)
        self.edition = None if self.refusal else data[0]
        self.house = None if self.refusal else decode(data)
        if other is None:
            self.graph = None if self.refusal else enlarged(self.house)
            self.tables, self.ways = {}, {}
        else:
            if self.house._replace(permits=other.house.permits) != other.house:
                raise ValueError("the files differ in more than permits")
            self.graph, self.tables, self.ways = other.graph, other.tables, other.ways
        self.lists = None
        self.answer = None
        self.mined = None
        self.listed = (None, None)

    def least_paths(self, u, v):
        """A dictionary from the pair's words, in word order, to the least path of each."""
        if (u, v) not in self.tables:
            least = {}
            for parties, word in all_paths(self.house, u, v, self.graph):
                least[word] = min(parties, least.get(word, parties))
            self.tables[(u, v)] = {word: least[word] for word in sorted(least, key=word_key)}
        return self.tables[(u, v)]

    def words(self, u, v):
        """The pair's words in word order."""
        return list(self.least_paths(u, v))

    def paths_to(self, v):
        """Every path to v, by words."""
        if v not in self.ways:
            self.ways[v] = paths_to(self.house, v, self.graph)
        return self.ways[v]

    def table(self):
        """The words of every pair."""
        if self.lists is None:
            self.lists = {pair: self.words(*pair) for pair in pairs(self.house)}
        return self.lists

    def verdict(self):
        """The verdict of an accepted file."""
        if self.answer is None:
            self.answer = verdict(self.house, self.table())
        return self.answer

    def terms(self):
        """The rule list of a convertible file."""
        if self.mined is None:
            self.mined = mine(self.house, self.table())
        return self.mined

    def decoded(self, listed):
        """The terms of a rule list, or BrokenList. Those of the last sound list are kept."""
        if self.listed[0] != listed:
            self.listed = (bytes(listed), decode_list(self.house, listed))
        return self.listed[1]


# ------------------------------------------------------- terms and rule lists

def meets(pair_words, term):
    """Whether a pair with these words has all words of the term."""
    return all(word in pair_words for word in term)


def permits_by(terms, pair_words):
    """Whether the rule list permits a pair with these words."""
    return any(meets(pair_words, term) for term in terms)


def encode_list(terms):
    """The bytes of a rule list."""
    out = bytearray(len(terms).to_bytes(2, "little"))
    for term in terms:
        out += len(term).to_bytes(2, "little")
        for word in term:
            out.append(len(word))
            out += bytes(word)
    return bytes(out)


class BrokenList(Exception):
    """The bytes are no rule list of the house: refusal 9."""


def decode_list(house, data):
    """The terms of a rule list, or BrokenList."""
    terms = []
    count, at = take_number(data, 0)
    for _ in range(count):
        term, at = take_term(house, data, at)
        terms.append(term)
    if at != len(data):
        raise BrokenList("bytes follow the last term")
    return terms


def take_number(data, at):
    """A two-byte number and the place after it."""
    if at + 2 > len(data):
        raise BrokenList("cut short in a number")
    return two_bytes(data, at), at + 2


def take_term(house, data, at):
    """A term and the place after it."""
    count, at = take_number(data, at)
    if count == 0:
        raise BrokenList("a term of no words")
    term = []
    for _ in range(count):
        word, at = take_word(house, data, at)
        term.append(word)
    return term, at


def take_word(house, data, at):
    """A word and the place after it."""
    if at >= len(data):
        raise BrokenList("cut short before a word")
    length = data[at]
    if length == 0:
        raise BrokenList("a word of length 0")
    if length > house.longest:
        raise BrokenList("a word longer than D")
    word = tuple(data[at + 1:at + 1 + length])
    if len(word) < length:
        raise BrokenList("cut short in a word")
    for symbol in word:
        if not is_symbol(house, symbol):
            high = symbol // 4 >= house.labels
            raise BrokenList("a label too high" if high else "a kind not of the language")
    return word, at + 1 + length


# --------------------------------------------------------- verdict and mining

def first_rival(house, table, pair):
    """The first unpermitted pair that has all words of the pair, or None."""
    for other in unpermitted_pairs(house):
        if meets(table[other], table[pair]):
            return other
    return None


def verdict(house, table):
    """("convertible", length), ("no-word", pair) or ("rival", pair, rival)."""
    for pair in permitted_pairs(house):
        if not table[pair]:
            return ("no-word", pair)
        rival = first_rival(house, table, pair)
        if rival is not None:
            return ("rival", pair, rival)
    return ("convertible", len(encode_list(mine(house, table))))


def mine(house, table):
    """The rule list of a convertible house."""
    terms = []
    for pair in permitted_pairs(house):
        if not permits_by(terms, table[pair]):
            terms.append(term_for(house, table, pair))
    return terms


def term_for(house, table, pair):
    """The term that mining makes for a permitted pair without a rival."""
    term = [table[pair][0]]
    for other in unpermitted_pairs(house):
        if meets(table[other], term):
            lacked = [word for word in table[pair] if word not in table[other]]
            term.append(lacked[0])
    return term


def scratch_table(house, table, terms):
    """The 1,024 bytes that mining leaves in scratch: byte 32a + b for (a, b)."""
    out = bytearray(SCRATCH_LENGTH)
    for a, b in pairs(house):
        if permits_by(terms, table[(a, b)]):
            out[32 * a + b] = 1
    return bytes(out)


# ------------------------------------------------------------------ the calls

def written_over(old, new):
    """A buffer whose first bytes are replaced; the bytes after them are kept."""
    return bytes(new) + bytes(old[len(new):])


def call_check(data):
    number = check(data)
    return ("refused", number) if number else ("accepted",)


def call_verdict(data):
    return verdict_reply(Known(data))


def verdict_reply(known):
    """The same for a file of which something is known."""
    return ("refused", known.refusal) if known.refusal else known.verdict()


def call_mining(data, scratch, output):
    """The reply, scratch afterwards, output afterwards."""
    return mining_reply(Known(data), scratch, output)


def mining_reply(known, scratch, output):
    """The same for a file of which something is known."""
    if known.refusal:
        return ("refused", known.refusal), scratch, output
    if len(scratch) < SCRATCH_LENGTH:
        return ("refused", 12), scratch, output
    if known.verdict()[0] != "convertible":
        return ("refused", 13), scratch, output
    listed = encode_list(known.terms())
    if len(output) < len(listed):
        return ("refused", 14), written_over(scratch, bytes(SCRATCH_LENGTH)), output
    scratch = written_over(scratch, scratch_table(known.house, known.table(), known.terms()))
    return ("length", len(listed)), scratch, written_over(output, listed)


def bad_word(house, word):
    """Whether a given word is longer than D or has a symbol outside L or the language."""
    if len(word) > house.longest:
        return True
    return not all(is_symbol(house, symbol) for symbol in word)


def call_path(data, u, v, word, output):
    """The reply and output afterwards."""
    return path_reply(Known(data), u, v, word, output)


def path_reply(known, u, v, word, output):
    """The same for a file of which something is known."""
    if known.refusal:
        return ("refused", known.refusal), output
    if not is_pair(known.house, u, v):
        return ("refused", 10), output
    if len(word) == 0 or bad_word(known.house, word):
        return ("refused", 11), output
    if len(output) < len(word) + 1:
        return ("refused", 14), output
    parties = known.least_paths(u, v).get(tuple(word))
    if parties is None:
        return ("lacks",), output
    return ("parties", len(parties)), written_over(output, parties)


def call_next_word(data, u, v, word, output):
    """The reply and output afterwards."""
    return next_word_reply(Known(data), u, v, word, output)


def next_word_reply(known, u, v, word, output):
    """The same for a file of which something is known."""
    if known.refusal:
        return ("refused", known.refusal), output
    if not is_pair(known.house, u, v):
        return ("refused", 10), output
    if bad_word(known.house, word):
        return ("refused", 11), output
    if len(output) < NEXT_WORD_ROOM:
        return ("refused", 14), output
    after = word_key(word)
    for candidate in known.least_paths(u, v):
        if word_key(candidate) > after:
            return ("length", len(candidate)), written_over(output, candidate)
    return ("none",), output


def call_word_test(data, u, v, word):
    return word_test_reply(Known(data), u, v, word)


def word_test_reply(known, u, v, word):
    """The same for a file of which something is known. It refuses as path does, but nothing is lent."""
    if known.refusal:
        return ("refused", known.refusal)
    if not is_pair(known.house, u, v):
        return ("refused", 10)
    if len(word) == 0 or bad_word(known.house, word):
        return ("refused", 11)
    has, length = word_test(known.house, u, v, word, known.paths_to(v))
    return ("yes" if has else "no", length)


def call_permit(data, listed, u, v):
    return permit_reply(Known(data), u, v, listed)


def permit_reply(known, u, v, listed):
    """The same for a file of which something is known."""
    if known.refusal:
        return ("refused", known.refusal)
    if not is_pair(known.house, u, v):
        return ("refused", 10)
    try:
        terms = known.decoded(listed)
    except BrokenList:
        return ("refused", 9)
    return ("yes",) if permits_by(terms, known.least_paths(u, v)) else ("no",)


def call_compare(data, listed):
    return compare_reply(Known(data), listed)


def compare_reply(known, listed):
    """The same for a file of which something is known."""
    if known.refusal:
        return ("refused", known.refusal)
    try:
        terms = known.decoded(listed)
    except BrokenList:
        return ("refused", 9)
    found = differences(known, terms)
    return ("differs", *found[0]) if found else ("same",)


def differences(known, terms):
    """The pairs that the file permits and the list doesn't, or the list and not the file: in pair order, as
    (first party, second party, side), where the side is the one that permits the pair."""
    found = []
    for pair in pairs(known.house):
        by_file, by_list = pair in known.house.permits, permits_by(terms, known.least_paths(*pair))
        if by_file and not by_list:
            found.append((*pair, "file"))
        if by_list and not by_file:
            found.append((*pair, "list"))
    return found


def write_reply(data, output):
    """The reply and output afterwards."""
    number = check(data)
    if number:
        return ("refused", number), output
    copy = canonical(decode(data))
    if len(output) < len(copy):
        return ("refused", 14), output
    return ("length", len(copy)), written_over(output, copy)


# --------------------------------------------------------- program permitconv

def word_text(word):
    return ".".join("%02X" % symbol for symbol in word)


def list_text(terms):
    """A line for each term."""
    return "".join(" & ".join(word_text(word) for word in term) + "\n" for term in terms)


def text_reply(known, listed):
    """("text", the list's text), or refused: the file's number, else 9."""
    if known.refusal:
        return ("refused", known.refusal)
    try:
        return ("text", list_text(known.decoded(listed)))
    except BrokenList:
        return ("refused", 9)


def permitconv(data, room=PROGRAM_LIST):
    """What the program prints for this standard input. room is its longest list."""
    return program_text(Known(data[:PROGRAM_INPUT]), room)


def program_text(known, room=PROGRAM_LIST):
    """The same for a file of which something is known."""
    if known.refusal:
        return "refused %d\n" % known.refusal
    answer = known.verdict()
    if answer[0] == "no-word":
        return "not-convertible %d %d no-word\n" % answer[1]
    if answer[0] == "rival":
        return "not-convertible %d %d rival %d %d\n" % (answer[1] + answer[2])
    text = "convertible %d\n" % answer[1]
    if answer[1] > room:
        return text + "refused 14\n"
    return text + list_text(known.terms())
