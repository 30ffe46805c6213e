"""Hold permit and the text of a list of the program `cases` against brute.py on many rule lists.

    python3 tests/run_permit.py PATH_OF_CASES_BINARY

The files are small, so that all words of a pair can be listed. A third of the
lists are also given to the text call. The seeds are fixed, so each run has the
same frames. The last line printed is `N passed, M failed`: N counts frames; M
counts frames and, beside them, demands on the set of frames that are not met.
The exit status is 0 only where M is 0.
"""

import random
import sys
from collections import Counter

import brute
import comparing
import files
import run_paths
import script
import unknowns

SMALL_FILES = 3200
BYTEWISE_FILES = 300
MINED_FILES = 350
DAMAGED_FILES = 1400
LONG_FILES = 40
LONGEST_BYTEWISE = 40
MINED_PATHS = 150
TEXT_PART = 1 / 3


# ------------------------------------------------------------------ the files

def small_matter(rng, most_paths=None):
    """Matter with n and D up to 6 (D 31 a few times) and few enough paths."""
    def draw():
        return (rng.choice([1, 2, 2, 3, 3, 3, 4, 4, 4, 4, 5, 5, 5, 6, 6, 6]),
                rng.choice([1, 1, 1, 2, 2, 3, rng.randint(1, 8), 8]),
                rng.randint(0, 3),
                31 if rng.random() < 0.05 else rng.randint(1, 6),
                rng.choice([0.15, 0.3, 0.5, 0.5, 0.7]))

    return run_paths.few_paths(rng, most_paths or rng.choice([150, 400, 1200]), draw)


def with_pairs(rng, most_paths=None):
    """The same with two parties or more."""
    while True:
        matter = small_matter(rng, most_paths)
        if matter.n > 1:
            return matter


def known_file(rng, matter):
    data = run_paths.file_of(rng, matter)
    return data, brute.Known(data)


# ------------------------------------------------------------------- the lists

class Lister(run_paths.Asker):
    """Makes rule lists for one file."""

    # ------------------------------------------------------- sound lists

    def own_term(self, pair, most=4):
        """Some of the pair's words, in any order, a word at times twice."""
        return [self.own_word(pair) for _ in range(self.rng.randint(1, most))]

    def lacked_word(self, pair):
        """A word that the pair lacks, where a few trials find one."""
        for _ in range(12):
            word = self.rng.choice([self.changed_word(pair), self.own_word(self.some_pair()), self.legal_word()])
            if word not in self.known.least_paths(*pair):
                return word
        return self.legal_word()

    def lacking_term(self, pair):
        """Some of the pair's words, and at one place a word that it lacks."""
        term = self.own_term(pair, 3) if self.rng.random() < 0.7 else []
        at = self.rng.choice([0, len(term), self.rng.randint(0, len(term))])
        return term[:at] + [self.lacked_word(pair)] + term[at:]

    def lacking_terms(self, pair, most):
        return [self.lacking_term(pair) for _ in range(self.rng.randint(0, most))]

    def yes_terms(self, pair, most=3):
        """Terms of which one is met; others stand before and after it."""
        return self.lacking_terms(pair, most) + [self.own_term(pair)] + self.lacking_terms(pair, most)

    def no_terms(self, pair, most=4):
        return self.lacking_terms(pair, most) + [self.lacking_term(pair)]

    def many_terms(self, pair):
        return self.yes_terms(pair, 20) if self.rng.random() < 0.5 else self.no_terms(pair, 40)

    def legal_terms(self, most=3):
        """Terms of legal words."""
        return [[self.legal_word() for _ in range(self.rng.randint(1, 3))]
                for _ in range(self.rng.randint(1, most))]

    def own_terms(self):
        """One to three terms, each of some pair's words."""
        return [self.own_term(self.some_pair(), 3) for _ in range(self.rng.randint(1, 3))]

    def permitted_by(self, terms):
        """The pairs that the list permits."""
        return {pair for pair in brute.pairs(self.house)
                if brute.permits_by(terms, self.known.least_paths(*pair))}

    def longest_terms(self, pair):
        """Words of D symbols; the longest of the pair's among them at times."""
        term = [self.legal_of_length(self.house.longest) for _ in range(self.rng.randint(1, 3))]
        listed = self.known.words(*pair)
        return [term, [listed[-1]]] if listed and self.rng.random() < 0.5 else [term]

    # ----------------------------------------------------- damaged lists

    def broken_word(self, pair):
        return self.rng.choice([self.label_too_high, self.kind_not_there, lambda _: self.above_d(),
                                lambda _: self.above_31(), lambda _: ()])(pair)

    def damaged(self, pair, terms, start=0):
        """The list's bytes with a damage that is in none of the first terms."""
        rng = self.rng
        terms = [list(term) for term in terms]
        if start >= len(terms):
            terms.append(self.own_term(pair))
        at = rng.choice([len(terms) - 1, rng.randrange(start, len(terms))])
        place = rng.choice([len(terms[at]) - 1, rng.randrange(len(terms[at]))])
        kind = rng.choice(["word"] * 5 + ["words lacking", "term count", "word count", "word count",
                                          "length", "cut", "lengthened"])
        if kind == "word":
            terms[at][place] = self.broken_word(pair)
        if kind == "words lacking":
            terms[at] = []
        listed = bytearray(brute.encode_list(terms))
        term_at = len(brute.encode_list(terms[:at]))
        if kind == "term count":
            set_number(listed, 0, self.wrong_number(len(terms)))
        if kind == "word count":
            set_number(listed, term_at, self.wrong_number(len(terms[at])))
        if kind == "length":
            where = term_at + 2 + sum(1 + len(word) for word in terms[at][:place])
            listed[where] = rng.choice([0, listed[where] - 1, listed[where] + 1, self.house.longest + 1, 255])
        if kind == "cut":
            return bytes(listed[:rng.choice([len(listed) - 1, rng.randint(term_at, len(listed) - 1)])])
        if kind == "lengthened":
            return bytes(listed) + self.tail(pair)
        return bytes(listed)

    def wrong_number(self, number):
        others = [0, number - 1, number + 1, number + 256, 65535, self.rng.randrange(65536)]
        return self.rng.choice([other for other in others if other != number])

    def tail(self, pair):
        """Bytes that may not follow a list: any bytes, zeros, or one more term."""
        return self.rng.choice([self.rng.randbytes(1), bytes(self.rng.randint(1, 4)),
                                brute.encode_list([self.own_term(pair)])[2:]])

    def damaged_after_yes(self, pair):
        """The first term permits the pair where it has a word; the damage stands later."""
        return self.damaged(pair, [self.own_term(pair)] + self.lacking_terms(pair, 3), start=1)

    def bytes_at_random(self):
        """Random bytes; most begin like a list, or are low."""
        rng = self.rng
        length = rng.choice([0, 1, 2, 3, rng.randint(0, 30)])
        if rng.random() < 0.3:
            return rng.randbytes(length)
        low = bytes(rng.choice([0, 1, 1, 2, 4, rng.randrange(32)]) for _ in range(length))
        return rng.choice([low, b"\1\0\1\0" + low])

    def any_list(self, pair):
        """Sound or broken, for calls that are refused for another reason."""
        return self.rng.choice([
            lambda: b"\0\0",
            lambda: brute.encode_list(self.yes_terms(pair)),
            lambda: brute.encode_list(self.no_terms(pair)),
            lambda: self.damaged(pair, self.yes_terms(pair)),
            lambda: self.bytes_at_random()])()

    # -------------------------------------------------------- long lists

    def filled(self, terms, length):
        """The terms and one more of legal words, so that the list has this length."""
        left = length - len(brute.encode_list(terms)) - 2
        term = []
        if left % 2:
            term.append(self.legal_of_length(2))
            left -= 3
        term += [self.legal_of_length(1) for _ in range(left // 2)]
        return [term] + terms

    def long_lists(self, pair):
        """Lists of hundreds of terms or of terms of hundreds of words."""
        rng = self.rng
        one_own, lacked = [self.own_term(pair)], [[self.lacked_word(pair)]]
        hundreds = [self.lacking_term(pair) for _ in range(rng.choice([255, 256, 257, 300, 512, 700]))]
        shorter = cut_to(hundreds, script.LONGEST_LIST - 1000)
        words = rng.choice([255, 256, 257, 600])
        big_term = cut_term([self.own_word(pair) for _ in range(words)], 9000)
        sound = [shorter, shorter + one_own, one_own + shorter, [big_term], [big_term + lacked[0]],
                 lacked + [lacked[0] + big_term] + one_own,
                 self.filled(cut_to(shorter, 9000) + one_own, script.LONGEST_LIST),
                 self.filled(lacked, script.LONGEST_LIST - 1)]
        listed = [brute.encode_list(terms) for terms in sound if is_even_fill(self.house, terms)]
        listed += [self.damaged(pair, one_own + shorter, start=len(shorter)),
                   self.damaged(pair, [big_term] + lacked, start=1),
                   self.damaged(pair, one_own + [big_term], start=1),
                   brute.encode_list(one_own + shorter)[:-1],
                   brute.encode_list(one_own + shorter) + b"\0"]
        return [one for one in listed if len(one) <= script.LONGEST_LIST]


def is_even_fill(house, terms):
    """At D 1 no word has two symbols, and a list can't have an odd length."""
    return all(len(word) <= house.longest for term in terms for word in term)


def cut_to(terms, most):
    """As many of the terms as stand in this many bytes."""
    while len(brute.encode_list(terms)) > most:
        terms = terms[:len(terms) * 9 // 10]
    return terms


def cut_term(term, most):
    while len(brute.encode_list([term])) > most:
        term = term[:len(term) * 9 // 10]
    return term


def set_number(listed, at, number):
    listed[at:at + 2] = number.to_bytes(2, "little")


def byte_by_byte(rng, listed):
    """Each byte changed in two ways, each beginning, and a byte more."""
    for at, old in enumerate(listed):
        others = [old ^ 1, (old + 1) % 256, (old - 1) % 256, old ^ 32, old ^ 128, 0, 255, rng.randrange(256)]
        for new in rng.sample(sorted(set(others) - {old}), 2):
            yield listed[:at] + bytes([new]) + listed[at + 1:]
    for length in range(len(listed)):
        yield listed[:length]
    yield listed + b"\0"
    yield listed + rng.randbytes(1)


# ----------------------------------------------------------------- the frames

class Collection:
    """The cases so far, and an account of what occurs in them."""

    def __init__(self, rng):
        self.rng = rng
        self.cases = []
        self.files = set()
        self.lists = set()
        self.account = Counter()

    def add(self, data, known, listed, *pairs):
        """A permit case for each pair, and for a third of the lists a text case."""
        listed = bytes(listed)
        for pair in pairs:
            reply = brute.permit_reply(known, *pair, listed)
            frame = script.list_frame(script.PERMIT, data, listed, *pair)
            self.cases.append(script.Case(frame, script.permit_text(reply)))
            self.account.update("permit: " + what for what in permit_occurrences(known, pair, listed, reply))
        if self.rng.random() < TEXT_PART:
            reply = brute.text_reply(known, listed)
            frame = script.list_frame(script.TEXT, data, listed)
            self.cases.append(script.Case(frame, script.list_text(reply)))
            self.account.update("text: " + what for what in text_occurrences(known, listed, reply))
        unknowns.count(self.account, self.files, data, known.refusal)
        self.lists.add(listed)


def add_lists(collection):
    """Several lists on each of the small files."""
    rng = collection.rng
    for number in range(SMALL_FILES):
        data, known = known_file(rng, small_matter(rng))
        lister = Lister(rng, known)
        if known.house.n == 1:
            sound = brute.encode_list(lister.legal_terms())
            for listed in (b"\0\0", sound, sound[:-1], lister.bytes_at_random()):
                collection.add(data, known, listed, lister.wrong_pair())
            continue
        one, other = lister.some_pair(), lister.some_pair()
        for terms in (lister.yes_terms(one), lister.no_terms(one), lister.longest_terms(one), lister.legal_terms()):
            collection.add(data, known, brute.encode_list(terms), one, other)
        if number % 4 == 0:
            collection.add(data, known, brute.encode_list(lister.many_terms(one)), one, other)
            collection.add(data, known, b"\0\0", one)
        for _ in range(3):
            collection.add(data, known, lister.damaged(one, lister.yes_terms(one)), one)
        collection.add(data, known, lister.damaged_after_yes(one), one)
        collection.add(data, known, lister.bytes_at_random(), one)
        collection.add(data, known, lister.any_list(one), lister.wrong_pair())


def add_bytewise(collection):
    """Short lists damaged byte by byte."""
    rng = collection.rng
    for _ in range(BYTEWISE_FILES):
        data, known = known_file(rng, with_pairs(rng))
        lister = Lister(rng, known)
        pair = lister.some_pair()
        listed = brute.encode_list(lister.yes_terms(pair, 1))
        if len(listed) <= LONGEST_BYTEWISE:
            for changed in byte_by_byte(rng, listed):
                collection.add(data, known, changed, pair)


def add_mined(collection):
    """All pairs with the list that mining makes of a file, and with a list of any legal words."""
    rng = collection.rng
    for _ in range(MINED_FILES):
        matter = with_pairs(rng, MINED_PATHS)
        known = known_file(rng, matter)[1]
        lister = Lister(rng, known)
        every = brute.pairs(known.house)
        terms = lister.own_terms()
        data, known_again = known_file(rng, matter._replace(permits=lister.permitted_by(terms)))
        if known_again.verdict()[0] != "convertible":
            raise AssertionError("the pairs that a list permits are convertible")
        mined = brute.encode_list(known_again.terms())
        wrong = [lister.wrong_pair(), (rng.randrange(matter.n),) * 2, (matter.n, 0), (0, matter.n)]
        collection.add(data, known_again, mined, *every, *wrong)
        collection.add(data, known_again, brute.encode_list(terms + lister.legal_terms()), *every)
        collection.add(data, known_again, lister.damaged(every[0], terms), every[0], every[-1], *wrong)
        collection.account["files with all pairs"] += 1
        collection.account["mined lists of several terms"] += mined[0] > 1


def refused_files(rng, how_many):
    """Damaged files that are refused, each with what is known of it, a list that is right for every accepted
    file and one that is right for none."""
    made = 0
    while made < how_many:
        data = run_paths.damaged_file(rng)
        known = brute.Known(data)
        if known.refusal:
            made += 1
            sound, broken = rng.choice([b"\0\0", b"\1\0\1\0\1\0"]), rng.choice([b"", b"\0", b"\1\0\0\0", b"\0\0\0"])
            yield data, known, sound, broken


def add_damaged(collection):
    """Damaged files with any list and any pair."""
    rng = collection.rng
    for data, known, sound, broken in refused_files(rng, DAMAGED_FILES):
        collection.add(data, known, sound, (0, 1))
        collection.add(data, known, broken, rng.choice([(0, 0), (1, 1), (255, 0), (0, 32)]))
        collection.add(data, known, rng.choice([sound, broken, rng.randbytes(9)]),
                       (rng.randrange(5), rng.randrange(5)))


def files_for_long_lists(rng, how_many):
    """Files with pairs, each with what is known of it; in every fourth words have one symbol."""
    for number in range(how_many):
        matter = with_pairs(rng, MINED_PATHS)
        if number % 4 == 0:
            matter = matter._replace(longest=1)
        yield known_file(rng, matter)


def add_long(collection):
    """A few long lists, each with a pair for which it was made and with another."""
    rng = collection.rng
    for data, known in files_for_long_lists(rng, LONG_FILES):
        lister = Lister(rng, known)
        pair = lister.some_pair()
        for listed in lister.long_lists(pair):
            collection.add(data, known, listed, pair, rng.choice([lister.some_pair(), lister.wrong_pair()]))


# -------------------------------------------------------- what is demanded

def until_fault(known, listed):
    """The whole terms before the first fault, and the fault or None."""
    try:
        return known.decoded(listed), None
    except brute.BrokenList as fault:
        return terms_before_fault(known.house, listed), str(fault)


def terms_before_fault(house, listed):
    terms = []
    try:
        count, at = brute.take_number(listed, 0)
        for _ in range(count):
            term, at = brute.take_term(house, listed, at)
            terms.append(term)
    except brute.BrokenList:
        pass
    return terms


def permit_occurrences(known, pair, listed, reply):
    """The names of what occurs in a permit case."""
    found = ["frames", reply[0] if len(reply) == 1 else "refused %d" % reply[1]]
    if known.refusal:
        if pair[0] == pair[1] and len(listed) < 2:
            found.append("file refused with a wrong pair and a broken list")
        return found + ["file refused"]
    terms, fault = until_fault(known, listed)
    if reply == ("refused", 10):
        kind = "same party twice" if pair[0] == pair[1] < known.house.n else "a party too high"
        return found + [kind, "refused 10 with a %s list" % ("broken" if fault else "sound")]
    had = known.least_paths(*pair)
    met = [brute.meets(had, term) for term in terms]
    if fault:
        return found + [fault] + (["broken after a term that permits"] if any(met) else [])
    found += sizes(listed, terms) + ["%s in language %d" % (reply[0], known.house.language)]
    found.append("%s in edition %d" % (reply[0], known.edition))
    found.append("%s at D %d" % (reply[0], known.house.longest))
    if any(met):
        first = met.index(True)
        found += ["yes by a later term alone"] if first else []
        found += ["yes by the last of several terms alone"] if 0 < first == len(met) - 1 else []
        found += ["yes by a term of several words"] if len(set(terms[first])) > 1 else []
    else:
        for term in terms:
            lacked = [i for i, word in enumerate(term) if word not in had]
            if len(lacked) == 1 < len(term):
                last = lacked[0] == len(term) - 1
                found.append("no with only a term's last word lacked" if last else "no with only another word lacked")
                break
        if len(terms) > 1 and all(any(word in had for word in term) for term in terms):
            found.append("no though a word of each of several terms is had")
    return found


def text_occurrences(known, listed, reply):
    """The names of what occurs in a text case."""
    if reply[0] == "refused":
        return ["frames", "refused %d" % reply[1]] + (["file refused"] if known.refusal else [])
    return ["frames", "texts", "texts in edition %d" % known.edition] + sizes(listed, known.decoded(listed))


def sizes(listed, terms):
    """What is special in the numbers of a sound list."""
    found = ["the empty list"] if not terms else []
    found += ["ten terms or more"] if len(terms) >= 10 else []
    found += ["256 terms or more"] if len(terms) >= 256 else []
    found += ["a term of 256 words or more"] if any(len(term) >= 256 for term in terms) else []
    found += ["a list of 20,000 bytes"] if len(listed) == script.LONGEST_LIST else []
    return found


# What can be wrong in a list, as brute.py names it.
FAULTS = ("bytes follow the last term", "cut short in a number", "a term of no words", "cut short before a word",
          "a word of length 0", "a word longer than D", "cut short in a word", "a label too high",
          "a kind not of the language")

# The least number of times that each must occur.
DEMANDS = {
    "permit: frames": 40000, "text: frames": 10000,
    "permit: yes": 3000, "permit: no": 3000, "permit: refused 9": 3000, "permit: refused 10": 1000,
    "permit: file refused": 300, "permit: file refused with a wrong pair and a broken list": 100,
    "permit: same party twice": 300, "permit: a party too high": 300,
    "permit: refused 10 with a sound list": 300, "permit: refused 10 with a broken list": 300,
    "permit: broken after a term that permits": 1000,
    "permit: yes by a later term alone": 1000, "permit: yes by the last of several terms alone": 300,
    "permit: yes by a term of several words": 1000,
    "permit: no with only a term's last word lacked": 300, "permit: no with only another word lacked": 300,
    "permit: no though a word of each of several terms is had": 300,
    "files with all pairs": 300, "mined lists of several terms": 30,
    "text: texts": 3000, "text: refused 9": 1000, "text: file refused": 300,
}
DEMANDS.update({"permit: " + fault: 300 for fault in FAULTS})
for name in ("permit", "text"):
    DEMANDS.update({"%s: refused %d" % (name, number): 20 for number in brute.FILE_REFUSALS})
    DEMANDS.update({"%s: the empty list" % name: 100, "%s: ten terms or more" % name: 200,
                    "%s: 256 terms or more" % name: 20, "%s: a term of 256 words or more" % name: 20,
                    "%s: a list of 20,000 bytes" % name: 5})
DEMANDS.update({"permit: %s in language %d" % (answer, language): 500
                for answer in ("yes", "no") for language in range(4)})
DEMANDS.update({"permit: %s in edition %d" % (answer, edition): 1500
                for answer in ("yes", "no") for edition in files.EDITIONS})
DEMANDS.update({"text: texts in edition %d" % edition: 1500 for edition in files.EDITIONS})
DEMANDS.update({"permit: %s at D %d" % (answer, longest): 100
                for answer in ("yes", "no") for longest in (1, 2, 3, 4, 5, 6, 31)})

FEWEST_FILES = 3000
FEWEST_LISTS = 20000
FEWEST_16, FEWEST_8 = 50, 25     # files, with 16 in each order and with 8 for two unknown relations


def lacking(collection, demands=DEMANDS, fewest_files=FEWEST_FILES, fewest_lists=FEWEST_LISTS):
    """The demands that are not met, as lines of text."""
    lines = []
    if len(collection.files) < fewest_files:
        lines.append("only %d different files" % len(collection.files))
    if len(collection.lists) < fewest_lists:
        lines.append("only %d different lists" % len(collection.lists))
    return lines + run_paths.unmet(collection.account, demands) + unknowns.lacking(collection.account, FEWEST_16, FEWEST_8)


def text_about(collection):
    """How much there is, and how often each thing occurs."""
    text = "%d different files, %d different lists, %d frames\n" % (
        len(collection.files), len(collection.lists), len(collection.cases))
    return text + run_paths.account_text(collection.account, "lists")


# ------------------------------------------------------------------- the run

def collect():
    collection = Collection(random.Random(505))
    add_lists(collection)
    add_bytewise(collection)
    add_mined(collection)
    add_damaged(collection)
    add_long(collection)
    return collection


def prepare():
    collection = collect()
    return comparing.Prepared([(collection.cases, None)], text_about(collection), lacking(collection))


if __name__ == "__main__":
    sys.exit(comparing.run_prepared(sys.argv, prepare))
