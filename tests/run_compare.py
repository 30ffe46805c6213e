"""Hold compare of the program `cases` against brute.py on many rule lists.

    python3 tests/run_compare.py PATH_OF_CASES_BINARY

A list is the one that mining makes of the file, or other rules; such a list in
another order, with something repeated, dropped or added; another file's list; the
list of a file in which a relation was absent that is unknown here; one made at
random; or its bytes are broken. Lists that are the same but for order and
repetition must have the same reply. Each reply must follow from permit's replies
at all pairs: in the reckoning for every list, and in what the program prints for
some of them. The seeds are fixed, so each run has the same frames. The last line
printed is `N passed, M failed`: N counts frames; M counts frames and, beside them,
demands on the set of frames that are not met. The exit status is 0 only where M
is 0.
"""

import random
import sys
from collections import namedtuple

import brute
import comparing
import converting
import files
import large
import run_paths
import run_permit
import script
import unknowns

GRAPHS = 880
WIDE_GRAPHS = 40
BYTEWISE_FILES = 200
DAMAGED_FILES = 1000
LONG_FILES = 12
NUMBERS_OF_PARTIES = (2, 3, 6, 8, 9, 16, 17, 31, 32)
LISTS_KEPT = 200          # of earlier files, to be given with a later one
MOST_PARTIES = 6          # of a small file
MADE_UNKNOWN_PART = 0.4   # of the mined lists, which are given with the file in which one more relation is unknown
WIDE_HELD_PART = 1 / 10   # of the lists for other files, for which the program's permit is asked at every pair

MINED, OTHER = "the mined list", "other rules"

# A case of compare and the cases of permit for all pairs in order, by their places; house is the file's.
Held = namedtuple("Held", "house compare permits")


# ------------------------------------------------------------------- the lists

class Changer(run_permit.Lister):
    """Makes rule lists for one file, most of them of another list. A change gives None where the list has
    no place for it."""

    def with_one_more(self, members, one):
        """The members and one more, at any place."""
        at = self.rng.randint(0, len(members))
        return members[:at] + [one] + members[at:]

    def in_one_term(self, terms, change):
        """The list with one of its terms changed."""
        if not terms:
            return None
        at = self.rng.randrange(len(terms))
        return terms[:at] + [change(terms[at])] + terms[at + 1:]

    # ------------------------------------------- the same but for order and repetition

    def terms_moved(self, terms):
        return self.rng.sample(terms, len(terms))

    def words_moved(self, terms):
        return [self.rng.sample(term, len(term)) for term in terms]

    def all_moved(self, terms):
        return self.terms_moved(self.words_moved(terms))

    def term_repeated(self, terms):
        return self.with_one_more(terms, self.rng.choice(terms)) if terms else None

    def word_repeated(self, terms):
        return self.in_one_term(terms, lambda term: self.with_one_more(term, self.rng.choice(term)))

    def all_repeated(self, terms):
        """A term and a word repeated, and all moved."""
        return self.all_moved(self.term_repeated(self.word_repeated(terms))) if terms else None

    # -------------------------------------------------------------- something else

    def term_dropped(self, terms):
        return without_one(self.rng, terms) if terms else None

    def word_dropped(self, terms):
        """A word less in a term that keeps another."""
        several = [at for at, term in enumerate(terms) if len(term) > 1]
        if not several:
            return None
        at = self.rng.choice(several)
        return terms[:at] + [without_one(self.rng, terms[at])] + terms[at + 1:]

    def term_added(self, terms):
        """A term more: some pair's words, legal words, or a term of the list with a word more."""
        more = [self.own_term(self.some_pair(), 2), self.legal_terms(1)[0]]
        if terms:
            more.append(self.with_one_more(self.rng.choice(terms), self.own_word(self.some_pair())))
        return self.with_one_more(terms, self.rng.choice(more))

    def word_added(self, terms):
        """A word more in a term: some pair's, or a legal one."""
        word = self.rng.choice([self.own_word(self.some_pair()), self.legal_word()])
        return self.in_one_term(terms, lambda term: self.with_one_more(term, word))

    # ------------------------------------------------------------------- at random

    def any_terms(self, most):
        """Terms of some pair's words, or of legal words."""
        return [self.rng.choice([self.own_term(self.some_pair(), 3), self.legal_terms(1)[0]])
                for _ in range(self.rng.randint(1, most))]

    def longer(self, length):
        """A list at random of more bytes than this."""
        terms = self.any_terms(3)
        while len(brute.encode_list(terms)) <= length:
            terms += self.any_terms(2)
        return brute.encode_list(terms)

    def shorter(self, length):
        """A list at random of fewer bytes than this, where a few trials find one."""
        for _ in range(8):
            listed = brute.encode_list(self.any_terms(2))
            if len(listed) < length:
                return listed
        return None

    # ---------------------------------------------------------------------- broken

    def deciding_terms(self):
        """A term for each pair, met by it, up to the first pair that the file doesn't permit; None where one
        of these pairs has no word."""
        terms = []
        for pair in brute.pairs(self.house):
            if not self.known.words(*pair):
                return None
            terms.append(self.own_term(pair, 2))
            if pair not in self.house.permits:
                break
        return terms

    def broken_lists(self, terms):
        """Lists with a damage, each with its sort. Where one stands after some terms, these are whole."""
        rng = self.rng
        pair = self.some_pair()
        made = [("a damage in a list", self.damaged(pair, terms)),
                ("a damage after a list", self.damaged(pair, terms, start=len(terms))),
                ("a damage after a list", brute.encode_list(terms) + self.tail(pair)),
                ("random bytes", self.bytes_at_random())]
        deciding = self.deciding_terms()
        if deciding is not None:
            later = rng.choice([[], self.any_terms(2)])
            made.append(("a damage after terms that decide", self.damaged(pair, deciding + later, start=len(deciding))))
        return made


def without_one(rng, members):
    at = rng.randrange(len(members))
    return members[:at] + members[at + 1:]


# The lists that have the reply of the one they are made of, and others.
ALIKE = {"terms in another order": Changer.terms_moved, "words in another order": Changer.words_moved,
         "both in another order": Changer.all_moved, "a term repeated": Changer.term_repeated,
         "a word repeated": Changer.word_repeated, "both repeated, in another order": Changer.all_repeated}
CHANGES = {"a term dropped": Changer.term_dropped, "a word dropped": Changer.word_dropped,
           "a term added": Changer.term_added, "a word added": Changer.word_added}


# ----------------------------------------------------------------- the frames

class Collection(run_permit.Collection):
    """The cases so far, and an account of what occurs in them."""

    def __init__(self, rng):
        super().__init__(rng)
        self.asked = {}       # the replies, by file and list
        self.held = []
        self.earlier = []

    def add(self, made, sort, listed):
        """One more case, unless this list was given with this file before. Returns the reply."""
        listed = bytes(listed)
        if (made.data, listed) in self.asked:
            return self.asked[(made.data, listed)]
        reply = self.asked[(made.data, listed)] = brute.compare_reply(made.known, listed)
        text, lines = script.compare_text(reply), permit_lines(made.known, listed)
        if lines and text != by_permits(made.known.house, lines):
            raise AssertionError("the reply %s does not follow from permit" % (reply,))
        self.cases.append(script.Case(script.list_frame(script.COMPARE, made.data, listed), text))
        is_held = self.rng.random() < WIDE_HELD_PART
        if lines and (is_held or not is_wide(made.known)):
            self.hold(made, listed, lines, name_of(reply))
        unknowns.count(self.account, self.files, made.data, made.known.refusal)
        self.lists.add(listed)
        self.account["%s: %s" % (sort, name_of(reply))] += 1
        self.account.update("compare: " + what for what in occurrences(made.known, listed, reply))
        return reply

    def hold(self, made, listed, lines, answer):
        """The cases of permit for all pairs beside the last case; for a refused file one."""
        start = len(self.cases)
        self.cases += [script.Case(script.list_frame(script.PERMIT, made.data, listed, *pair), line)
                       for pair, line in zip(asked_pairs(made.known), lines)]
        self.held.append(Held(made.known.house, start - 1, range(start, len(self.cases))))
        self.account.update(["held against permit: lists", "held against permit: " + answer])
        if is_wide(made.known):
            self.account["held against permit: above %d parties" % MOST_PARTIES] += 1

    def keep(self, listed):
        """A list that may be given with a later file."""
        self.earlier = self.earlier[1 - LISTS_KEPT:] + [listed]


def is_wide(known):
    """Whether the file has too many pairs for permit to be asked each time."""
    return known.house is not None and known.house.n > MOST_PARTIES


def asked_pairs(known):
    """All pairs in order; for a refused file one. One party has no pair."""
    return [(0, 1)] if known.refusal else brute.pairs(known.house)


def permit_lines(known, listed):
    return [script.permit_text(brute.permit_reply(known, *pair, listed)) for pair in asked_pairs(known)]


def by_permits(house, lines):
    """The line of compare that follows from the lines of permit. Where permit refuses, it does so for every
    pair, and compare does; None where permit refuses some pairs only."""
    if any(line.startswith("permit refused") for line in lines):
        return lines[0].replace("permit", "compare") if len(set(lines)) == 1 else None
    for pair, line in zip(brute.pairs(house), lines):
        if line == "permit no\n" and pair in house.permits:
            return "compare %d %d file\n" % pair
        if line == "permit yes\n" and pair not in house.permits:
            return "compare %d %d list\n" % pair
    return "compare same\n"


def add_list(collection, made, name, terms):
    """A list, the same in another order or with repetitions, and with something dropped or added. Returns
    the list's own reply."""
    changer = Changer(collection.rng, made.known)
    reply = collection.add(made, name, brute.encode_list(terms))
    for what, change in {**ALIKE, **CHANGES}.items():
        changed = change(changer, terms)
        if changed is not None:
            other = collection.add(made, "%s, %s" % (name, what), brute.encode_list(changed))
            if what in ALIKE and other != reply:
                raise AssertionError("%s: another reply for %s" % (what, name))
    return reply


def add_file(collection, made):
    """Lists of each sort on an accepted file."""
    rng, known = collection.rng, made.known
    if known.house.n == 1:
        return add_one_party(collection, made)
    changer = Changer(rng, known)
    own = known.terms() if known.verdict()[0] == "convertible" else None
    base = made.rules if own is None else own
    if own is None:
        add_list(collection, made, OTHER, made.rules)
    else:
        if add_list(collection, made, MINED, own) != ("same",):
            raise AssertionError("the mined list is not the same as its file")
        collection.add(made, OTHER, brute.encode_list(made.rules))
    length = len(brute.encode_list(base))
    for sort, listed in [("random and longer", changer.longer(length)), ("random and shorter", changer.shorter(length)),
                         ("the empty list", b"\0\0")] + changer.broken_lists(base):
        if listed is not None:
            collection.add(made, sort, listed)
    if collection.earlier:
        collection.add(made, "another file's list", rng.choice(collection.earlier))
    if own:
        collection.keep(brute.encode_list(own))
        if rng.random() < MADE_UNKNOWN_PART:
            add_made_unknown(collection, made, own)


def add_made_unknown(collection, made, terms):
    """A mined list with the file in which one absent relation is unknown. A pair may lose words by that, and gets none."""
    other = converting.with_one_unknown(collection.rng, made)
    if other is not None:
        reply = collection.add(other, MINED + " before one was unknown", brute.encode_list(terms))
        if name_of(reply) == "list":
            raise AssertionError("a list permits a pair by an unknown relation")


def add_one_party(collection, made):
    """Without pairs every legal list is the same."""
    rng = collection.rng
    sound = brute.encode_list(Changer(rng, made.known).legal_terms())
    broken = rng.sample(list(run_permit.byte_by_byte(rng, sound)), 4)
    for listed in [b"\0\0", sound, *broken, *rng.sample(collection.earlier, min(1, len(collection.earlier)))]:
        collection.add(made, "lists for one party", listed)


def add_files(collection):
    """Files of small graphs and of wide ones."""
    rng = collection.rng
    for number in range(GRAPHS + WIDE_GRAPHS):
        for made in converting.of_one_graph(rng) if number < GRAPHS else converting.of_wide_graph(rng):
            add_file(collection, made)


def add_places(collection):
    """Files of up to 32 parties that differ from a list at one chosen pair, or there and at later pairs."""
    rng = collection.rng
    for n in NUMBERS_OF_PARTIES:
        every = large.all_pairs(n)
        chosen = {(0, 1), (0, n - 1), (1, 0), (n - 2, n - 1), (n - 1, 0), (n - 1, n - 2), *rng.sample(every, 2)}
        for pair in sorted(chosen):
            add_place(collection, n, {pair})
            add_place(collection, n, {pair, *(other for other in every if other > pair and rng.random() < 0.3)})


def add_place(collection, n, differing):
    """Two files: these pairs are permitted, with the empty list; all others are, with a list that permits all pairs. No relation of
    label 0 is unknown, so that each pair has its plain or its absent symbol."""
    rng = collection.rng
    graph = run_paths.matter_with(rng, n, rng.randint(1, 2), rng.choice([1, 3]), 1, 0.5, known_label=0)
    for permits, terms, side in ((differing, [], "file"), ({*large.all_pairs(n)} - differing, [[(0,)], [(1,)]], "list")):
        made = converting.Made("by place", *run_permit.known_file(rng, graph._replace(permits=permits)))
        if collection.add(made, "a chosen pair of many", brute.encode_list(terms)) != ("differs", *min(differing), side):
            raise AssertionError("the first difference is not at the pair %d %d" % min(differing))


def add_bytewise(collection):
    """Mined lists damaged byte by byte."""
    rng = collection.rng
    done = 0
    while done < BYTEWISE_FILES:
        made = converting.of_one_graph(rng)[0]
        listed = brute.encode_list(made.known.terms())
        if 2 < len(listed) <= run_permit.LONGEST_BYTEWISE:
            done += 1
            for changed in run_permit.byte_by_byte(rng, listed):
                collection.add(made, "the mined list, byte by byte", changed)


def add_damaged(collection):
    """Damaged files with sound and broken lists."""
    rng = collection.rng
    for data, known, sound, broken in run_permit.refused_files(rng, DAMAGED_FILES):
        made = converting.Made("damaged", data, known)
        for listed in (sound, broken, rng.choice([*collection.earlier, rng.randbytes(9)])):
            collection.add(made, "lists for a damaged file", listed)


def add_long(collection):
    """A few long lists."""
    for data, known in run_permit.files_for_long_lists(collection.rng, LONG_FILES):
        changer = Changer(collection.rng, known)
        for listed in changer.long_lists(changer.some_pair()):
            collection.add(converting.Made("long lists", data, known), "long lists", listed)


# -------------------------------------------------------- what is demanded

# Nothing but its bytes can make a list wrong for this house.
WIDEST = brute.House(1, 8, 3, 31, set(), set())


def name_of(reply):
    """The answer alone; for a pair it is the side."""
    return {"same": "same", "differs": reply[-1], "refused": "refused %s" % reply[-1]}[reply[0]]


def occurrences(known, listed, reply):
    """The names of what occurs in a case."""
    answer = name_of(reply)
    if known.refusal:
        return ["frames", answer] + (["%s with a broken list" % answer] if is_broken(WIDEST, listed) else [])
    house = known.house
    convertible = known.verdict()[0] == "convertible"
    kind = "the file convertible" if convertible else "the file not convertible"
    found = ["frames", answer, "%s in language %d" % (answer, house.language), "%s in edition %d" % (answer, known.edition),
             "%s at D %d" % (answer, house.longest),
             "%s at n %s" % (answer, house.n if house.n <= MOST_PARTIES else "above %d" % MOST_PARTIES), "%s, %s" % (answer, kind),
             "%s in language %d" % (kind, house.language), "%s in edition %d" % (kind, known.edition)]
    terms, fault = run_permit.until_fault(known, listed)
    if fault:
        return found + [fault] + before_fault(known, terms)
    if convertible:
        found.append("%s, %s" % ("same" if answer == "same" else "differs", beside_mined(known, listed)))
    return found + run_permit.sizes(listed, terms) + places(known, terms)


def is_broken(house, listed):
    try:
        brute.decode_list(house, listed)
        return False
    except brute.BrokenList:
        return True


def before_fault(known, terms):
    """What the whole terms before a list's fault show."""
    found = brute.differences(known, terms)
    special = {"broken after terms that are the same": bool(terms) and not found,
               "broken after a term that permits more than the file": any(side == "list" for _, _, side in found),
               "broken after terms that decide": bool(terms) and is_decided(known, terms)}
    return [name for name, is_there in special.items() if is_there]


def is_decided(known, terms):
    """Whether each pair meets one of the terms, up to the first pair that the file doesn't permit."""
    for pair in brute.pairs(known.house):
        if not brute.permits_by(terms, known.least_paths(*pair)):
            return False
        if pair not in known.house.permits:
            return True
    return True


def beside_mined(known, listed):
    """How a list stands beside the mined one."""
    mined = brute.encode_list(known.terms())
    if listed == mined:
        return "the mined list"
    if len(listed) == len(mined):
        return "as long as the mined list"
    return "shorter than the mined list" if len(listed) < len(mined) else "longer than the mined list"


def places(known, terms):
    """What is special in where the file and the list differ."""
    found = brute.differences(known, terms)
    if not found:
        return []
    every, sides = brute.pairs(known.house), [side for _, _, side in found]
    first = found[0][:2]
    special = {"the first difference is at the first pair": first == every[0],
               "the first difference is at a later pair": first != every[0],
               "the first difference is at the last pair": first == every[-1] != every[0],
               "the first difference has party 31": 31 in first,
               "one difference alone": len(found) == 1, "several differences": len(found) > 1,
               "file first, list later": sides[0] == "file" and "list" in sides,
               "list first, file later": sides[0] == "list" and "file" in sides,
               "a pair that both permit is before the first difference": any(pair < first for pair in known.house.permits),
               "a later difference has a lower second party": any(second < first[1] for _, second, _ in found)}
    return [name for name, is_there in special.items() if is_there]


# The least number of times that each must occur.
ANSWERS = ("same", "file", "list", "refused 9")
KINDS = ("convertible", "not convertible")
DEMANDS = {
    "compare: frames": 30000,
    "compare: same, the file convertible": 5000, "compare: file, the file convertible": 2500,
    "compare: list, the file convertible": 1500, "compare: refused 9, the file convertible": 5000,
    "compare: same, the mined list": 800, "compare: same, as long as the mined list": 1000,
    "compare: same, shorter than the mined list": 300, "compare: same, longer than the mined list": 3000,
    "compare: differs, as long as the mined list": 150,
    "compare: differs, shorter than the mined list": 2000, "compare: differs, longer than the mined list": 1500,
    "compare: the first difference is at the first pair": 3000, "compare: the first difference is at a later pair": 5000,
    "compare: the first difference is at the last pair": 600, "compare: the first difference has party 31": 10,
    "compare: one difference alone": 3000, "compare: several differences": 5000,
    "compare: file first, list later": 1500, "compare: list first, file later": 1500,
    "compare: a pair that both permit is before the first difference": 4000,
    "compare: a later difference has a lower second party": 5000,
    "compare: broken after terms that are the same": 2000, "compare: broken after terms that decide": 2000,
    "compare: broken after a term that permits more than the file": 2000,
    "compare: the empty list": 1000, "compare: ten terms or more": 100, "compare: 256 terms or more": 20,
    "compare: a term of 256 words or more": 20, "compare: a list of 20,000 bytes": 5,
    "the mined list: same": 800, "the empty list: file": 800,
    "the mined list, a term dropped: file": 600, "the mined list, a term dropped: same": 40,
    "the mined list, a word dropped: list": 250, "the mined list, a word dropped: same": 100,
    "the mined list, a term added: list": 200, "the mined list, a term added: same": 500,
    "the mined list, a word added: file": 400, "the mined list, a word added: same": 200,
    "the mined list, byte by byte: refused 9": 3000,
    "the mined list before one was unknown: same": 200, "the mined list before one was unknown: file": 80,
    "other rules: same": 300, "other rules: file": 300, "other rules: list": 300,
    "another file's list: same": 20, "another file's list: file": 200, "another file's list: list": 150,
    "another file's list: refused 9": 800,
    "random and longer: same": 100, "random and longer: file": 500, "random and longer: list": 500,
    "random and shorter: file": 500, "random and shorter: list": 250, "random bytes: refused 9": 1000,
    "a damage in a list: refused 9": 1000, "a damage after a list: refused 9": 2000,
    "a damage after terms that decide: refused 9": 1000,
    "lists for one party: same": 100, "lists for one party: refused 9": 100,
    "long lists: file": 10, "long lists: list": 10, "long lists: refused 9": 20,
    "a chosen pair of many: file": 100, "a chosen pair of many: list": 100,
    "held against permit: lists": 50000, "held against permit: above 6 parties": 150,
}

# The same number of times for each name of a row.
for fewest, names in (
        (4000, ["compare: " + answer for answer in ANSWERS]),
        (1000, ["compare: %s in language %d" % (answer, language) for answer in ANSWERS for language in range(4)]),
        (2500, ["compare: %s in edition %d" % (answer, edition) for answer in ANSWERS for edition in files.EDITIONS]),
        (200, ["compare: %s at D %d" % (answer, longest) for answer in ANSWERS for longest in (1, 2, 3, 4, 5, 6, 31)]),
        (500, ["compare: %s at n %d" % (answer, n) for answer in ANSWERS for n in range(2, 7)]),
        (100, ["compare: same at n 1", "compare: refused 9 at n 1"]),
        (150, ["compare: %s at n above 6" % answer for answer in ANSWERS]),
        (1500, ["compare: the file %s in language %d" % (kind, language) for kind in KINDS for language in range(4)]),
        (5000, ["compare: the file %s in edition %d" % (kind, edition) for kind in KINDS for edition in files.EDITIONS]),
        (3000, ["compare: %s, the file not convertible" % answer for answer in ("file", "list", "refused 9")]),
        (500, ["compare: " + fault for fault in run_permit.FAULTS]),
        (50, ["compare: refused %d" % number for number in brute.FILE_REFUSALS]),
        (20, ["compare: refused %d with a broken list" % number for number in brute.FILE_REFUSALS]),
        (300, ["%s, %s: same" % (MINED, what) for what in ALIKE]),
        (100, ["%s, %s: %s" % (OTHER, what, side) for what in {**ALIKE, **CHANGES} for side in ("file", "list")]),
        (50, ["held against permit: refused %d" % number for number in brute.FILE_REFUSALS]),
        (4000, ["held against permit: " + answer for answer in ANSWERS])):
    DEMANDS.update(dict.fromkeys(names, fewest))

FEWEST_FILES = 2000
FEWEST_LISTS = 20000


def lacking(collection):
    """The demands that are not met, as lines of text."""
    lines = run_permit.lacking(collection, DEMANDS, FEWEST_FILES, FEWEST_LISTS)
    if collection.account["compare: same, the file not convertible"]:
        lines.append("a file that is not convertible is the same as a list")
    return lines


def unlike_permit(held, replies):
    """A line of text where replies of compare don't follow from those of permit."""
    wrong = [one for one in held
             if replies[one.compare] != by_permits(one.house, [replies[place] for place in one.permits])]
    return ["%d replies of compare do not follow from permit's, the first is %r" % (
        len(wrong), replies[wrong[0].compare])] if wrong else []


# ------------------------------------------------------------------- the run

def collect():
    collection = Collection(random.Random(707))
    for add in (add_files, add_places, add_bytewise, add_damaged, add_long):
        add(collection)
    return collection


def prepare():
    collection = collect()
    return comparing.Prepared([(collection.cases, None)], run_permit.text_about(collection), lacking(collection),
                              lambda replies: unlike_permit(collection.held, replies))


if __name__ == "__main__":
    sys.exit(comparing.run_prepared(sys.argv, prepare))
