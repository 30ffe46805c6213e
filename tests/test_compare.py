"""Tests of compare: brute.py's replies, the frames and lines, and the run with the names that its demands count.

    python3 -m unittest discover -s tests        (or: python3 tests/test_compare.py)
"""

import random
import re
import struct
import unittest
from unittest import mock

import brute
import comparing
import converting
import files
import run_compare
import run_permit
import script
import stored

A = stored.case_file("A")
A2 = stored.case_file("A in edition 2")
BROKEN_FILES = {
    1: stored.case_file("A without its last byte"), 2: stored.case_file("A with n 33"),
    3: stored.case_file("A with head 2 at record 4"), 4: stored.case_file("A with record 2's next 01 00"),
    5: stored.case_file("A with head 1 zero"), 6: stored.case_file("A with record 3's target 3, which is n"),
    7: stored.case_file("A with record 3's kind 1, which is L"), 8: stored.case_file("(0,1) with label 0 twice"),
    15: stored.case_file("A in edition 2 with record 1's owner 01"), 16: stored.case_file("label 0 known, then unknown"),
}
BASE = ((0, 1, 0), (1, 2, 0))
LIST_OF_A = "01 00 01 00 02 00 00"
LIST_OF_G = "01 00 01 00 02 02 02"
LIST_OF_H = "01 00 02 00 01 00 01 04"
PLAIN = "01 00 01 00 01 00"          # one term, the word 00


def file_with(permits, edges=BASE, n=3, labels=1, language=0, longest=2, edition=1):
    """A file that says this; 01's base where nothing is given."""
    matter = files.Matter(n, labels, language, longest, set(edges), set(permits))
    return files.lay_out(matter, random.Random(1), edition).bytes()


def compared(data, text):
    """The reply for a list in hexadecimal."""
    return brute.call_compare(data, bytes.fromhex(text))


def differs(first, second, side):
    return ("differs", first, second, side)


SAME, BROKEN = ("same",), ("refused", 9)


class Replies(unittest.TestCase):
    """02's Ticket 3, on 01's cases and on files like them."""

    def replies(self, rows, data=None):
        for *given, wanted in rows:
            self.assertEqual(compared(data or given[0], given[-1]), wanted, given[-1])

    def test_a(self):
        both, other = "02 00 01 00 02 00 00 01 00 01 00", "02 00 01 00 01 00 01 00 02 00 00"
        rows = [(LIST_OF_A, SAME), ("00 00", differs(0, 2, "file")), (PLAIN, differs(0, 1, "list")),
                (both, differs(0, 1, "list")), (other, differs(0, 1, "list")),
                ("02 00 01 00 02 00 00 01 00 02 00 00", SAME), ("01 00 02 00 02 00 00 02 00 00", SAME), ("01 00", BROKEN)]
        for data in (A, A2, file_with([(0, 2)]), file_with([(0, 2)], edition=2)):
            self.replies(rows, data)

    def test_other_cases(self):
        letters = {letter: stored.case_file(letter) for letter in "BCDEFGHIJ"}
        self.replies([
            (letters["B"], "00 00", differs(0, 1, "file")), (letters["B"], PLAIN, differs(1, 2, "list")),
            (letters["C"], "00 00", differs(2, 0, "file")), (letters["C"], PLAIN, differs(0, 1, "list")),
            (letters["D"], "00 00", differs(0, 2, "file")), (letters["E"], "00 00", SAME),
            (letters["E"], LIST_OF_A, differs(0, 2, "list")), (letters["F"], PLAIN, SAME),
            (letters["F"], LIST_OF_A, differs(0, 1, "file")), (letters["G"], LIST_OF_G, SAME),
            (letters["G"], "01 00 01 00 01 02", differs(1, 0, "list")), (letters["H"], LIST_OF_H, SAME),
            (letters["H"], PLAIN, differs(0, 2, "list")), (letters["H"], "01 00 01 00 01 04", differs(1, 2, "list")),
            (letters["I"], "00 00", differs(0, 1, "file")), (letters["I"], PLAIN, differs(1, 0, "list")),
            (letters["J"], "01 00 01 00 01 01", SAME), (letters["J"], PLAIN, differs(0, 1, "list"))])

    def test_the_first_in_pair_order(self):
        # By first party (0,2) stands before (1,0), by second party after it.
        self.assertEqual(compared(file_with([(0, 2), (1, 0)]), "00 00"), differs(0, 2, "file"))
        self.assertEqual(compared(file_with([(2, 1), (1, 2), (2, 0)]), "00 00"), differs(1, 2, "file"))
        self.assertEqual(compared(file_with([(2, 1)]), "00 00"), differs(2, 1, "file"))
        self.assertEqual(compared(file_with([]), PLAIN), differs(0, 1, "list"))
        self.assertEqual(compared(file_with([(0, 1)]), PLAIN), differs(1, 2, "list"))

    def test_both_sides(self):
        # The list 00.00 permits (0,2). With (0,1) in the table the file's pair is first, with (1,2) the list's.
        self.assertEqual(compared(file_with([(0, 1)]), LIST_OF_A), differs(0, 1, "file"))
        self.assertEqual(compared(file_with([(1, 2)]), LIST_OF_A), differs(0, 2, "list"))
        known = brute.Known(file_with([(0, 1), (0, 2), (2, 0)]))
        self.assertEqual(brute.differences(known, [[(0,)]]), [(0, 2, "file"), (1, 2, "list"), (2, 0, "file")])
        self.assertEqual(brute.differences(known, [[(0,)], [(0, 0)]]), [(1, 2, "list"), (2, 0, "file")])

    def test_one_party(self):
        for language, edition in ((0, 1), (1, 2), (2, 1), (3, 2)):
            data = file_with([], [], n=1, language=language, edition=edition)
            self.replies([("00 00", SAME), (PLAIN, SAME), (LIST_OF_A, SAME), ("02 00 01 00 01 00 01 00 02 00 00", SAME),
                          ("", BROKEN), ("00", BROKEN), ("01 00", BROKEN), ("00 00 00", BROKEN), ("01 00 00 00", BROKEN),
                          ("01 00 01 00 01 04", BROKEN), ("01 00 01 00 03 00 00 00", BROKEN)], data)

    def test_the_file_is_refused_first(self):
        for number, data in BROKEN_FILES.items():
            for text in ("00 00", LIST_OF_A, PLAIN, "", "01 00", "01 00 01 00 01 FF"):
                self.assertEqual(compared(data, text), ("refused", number))
        self.assertEqual(sorted(BROKEN_FILES), sorted(brute.FILE_REFUSALS))

    def test_a_list_that_is_right_for_another_file(self):
        of_language = "01 00 01 00 01 %02X"
        for language, kinds in ((0, (0,)), (1, (0, 1)), (2, (0, 2)), (3, (0, 1, 2, 3))):
            data = file_with([(0, 1), (1, 2)], language=language)
            for kind in range(4):
                reply = compared(data, of_language % kind)
                self.assertEqual(reply == BROKEN, kind not in kinds, (language, kind))
        self.replies([(A, LIST_OF_G, BROKEN), (stored.case_file("G"), LIST_OF_A, differs(0, 2, "list")),
                      (A, LIST_OF_H, BROKEN), (stored.case_file("D"), LIST_OF_A, BROKEN),
                      (file_with([(0, 2)], longest=3), "01 00 01 00 03 00 00 00", differs(0, 2, "file")),
                      (A, "01 00 01 00 03 00 00 00", BROKEN),
                      (file_with([(0, 2)], labels=2), "01 00 01 00 01 04", differs(0, 2, "file")),
                      (A, "01 00 01 00 01 04", BROKEN)])

    def test_the_whole_list_is_checked(self):
        # The first term shows a difference, or no difference; something is wrong later.
        for first in ("01 00 01 00", "01 00 02 00 00"):
            for later in ("", "00 00", "01 00", "01 00 00", "01 00 01", "01 00 01 01", "01 00 01 04", "01 00 03 00 00 00",
                          "02 00 01 00", "01 00 01 00 00", "01 00 02 00 00 01 00"):
                self.assertEqual(compared(A, "02 00" + first + later), BROKEN, later)
            for later in ("00", "00 00", "01 00 01 00"):
                self.assertEqual(compared(A, "01 00" + first + later), BROKEN, later)

    def test_order_and_repetition_make_no_difference(self):
        # H: (0,1) has 00 and 04, (0,2) has 00, (1,2) has 04. Each row: lists that are alike, and their reply.
        data = stored.case_file("H")
        for alike, wanted in (
                ((LIST_OF_H, "01 00 02 00 01 04 01 00", "01 00 03 00 01 00 01 04 01 00",
                  "02 00 02 00 01 00 01 04 02 00 01 04 01 00"), SAME),
                (("02 00 01 00 01 00 01 00 01 04", "02 00 01 00 01 04 01 00 01 00", "03 00 01 00 01 04 01 00 01 00 01 00 01 04",
                  "02 00 02 00 01 04 01 04 01 00 01 00"), differs(0, 2, "list")),
                (("02 00 02 00 01 00 01 04 01 00 01 04", "02 00 01 00 01 04 02 00 01 00 01 04",
                  "02 00 02 00 01 04 01 00 01 00 01 04", "02 00 01 00 01 04 02 00 01 04 01 00"), differs(1, 2, "list"))):
            for text in alike:
                self.assertEqual(compared(data, text), wanted, text)

    def test_longer_and_shorter_than_the_mined_list(self):
        # (0,1) has 00 and 04, (0,2) has 00, (2,3) has 04; mining makes 00 & 04 for (0,1), then 04 for (2,3).
        data = file_with([(0, 1), (2, 3)], [(0, 1, 0), (0, 1, 1), (0, 2, 0), (2, 3, 1)], n=4, labels=2, longest=1)
        mined = "02 00 02 00 01 00 01 04 01 00 01 04"
        self.assertEqual(brute.call_mining(data, bytes(1024), bytes(12))[2], bytes.fromhex(mined))
        self.replies([(mined, SAME), ("01 00 01 00 01 04", SAME), (mined.replace("02", "03", 1) + "01 00 01 04", SAME),
                      (PLAIN, differs(0, 2, "list")), (LIST_OF_H, differs(2, 3, "file"))], data)

    def test_as_permit_without_the_pair(self):
        rng = random.Random(71)
        for _ in range(60):
            data, known = run_permit.known_file(rng, run_permit.with_pairs(rng, 40))
            lister = run_permit.Lister(rng, known)
            for _ in range(6):
                listed = lister.any_list(lister.some_pair())
                refused = [brute.call_permit(data, listed, *pair) == BROKEN for pair in brute.pairs(known.house)]
                self.assertEqual({brute.call_compare(data, listed) == BROKEN}, {*refused})

    def test_nothing_is_kept_of_another_list(self):
        known = brute.Known(A)
        for text, wanted in ((LIST_OF_A, SAME), ("01 00", BROKEN), ("00 00", differs(0, 2, "file")), ("01 00", BROKEN),
                             (PLAIN, differs(0, 1, "list")), (LIST_OF_A, SAME)):
            self.assertEqual(brute.compare_reply(known, bytes.fromhex(text)), wanted)


class Lines(unittest.TestCase):
    """Frames and lines of compare."""

    def test_a_frame_by_hand(self):
        frame = script.list_frame("m", b"\x01\x02", b"\x00\x00\x05")
        self.assertEqual(frame, b"m\x00\x00\x00" + struct.pack("<5I", 2, 3, 0, 0, 0) + b"\x01\x02\x00\x00\x05")
        self.assertEqual(script.parts_of(frame), ("m", 0, 0, b"\x01\x02", b"\x00\x00\x05", b"", b""))
        self.assertEqual(script.frame_of(script.parts_of(frame)), frame)

    def test_what_is_no_frame(self):
        script.list_frame("m", b"", bytes(20000))
        for call, length, pair in (("m", 20001, (0, 0)), ("m", 2, (0, 1)), ("m", 2, (1, 0)), ("x", 2, (0, 1)), ("c", 2, (0, 0))):
            with self.assertRaises(ValueError):
                script.list_frame(call, b"", bytes(length), *pair)

    def test_texts(self):
        for reply, text in ((SAME, "compare same\n"), (differs(0, 2, "file"), "compare 0 2 file\n"),
                            (differs(0, 1, "list"), "compare 0 1 list\n"), (differs(31, 30, "list"), "compare 31 30 list\n"),
                            (BROKEN, "compare refused 9\n"), (("refused", 15), "compare refused 15\n")):
            self.assertEqual(script.compare_text(reply), text)

    def test_replies_are_told_apart(self):
        texts = ["compare same\n", "permit yes\n", "compare 0 2 file\n", "compare 0 2 list\n", "compare refused 9\n"]
        self.assertEqual(comparing.compare(texts, "".join(texts)), ([], texts, 0))
        for one in texts:
            self.assertEqual([other for other in texts if comparing.compare([one], other)[0] == []], [one])

    def test_reckoned(self):
        for data, text, line in ((A, LIST_OF_A, "compare same\n"), (A, "00 00", "compare 0 2 file\n"),
                                 (A, "01 00", "compare refused 9\n"), (BROKEN_FILES[5], "01 00", "compare refused 5\n")):
            frame = script.list_frame("m", data, bytes.fromhex(text))
            self.assertEqual(stored.reckoned(frame), line)
            self.assertEqual(stored.reckoned(frame, brute.Known(data)), line)

    def test_rows_that_must_be_stored(self):
        kept = [(row[1], row[3].replace(" ", ""), row[4]) for row in stored.LIST_ROWS if row[0] == "m"]
        for data, text, line in (
                (stored.A, LIST_OF_A, "compare same"), (stored.A, "00 00", "compare 0 2 file"), (stored.A, PLAIN, "compare 0 1 list"),
                (stored.A, "02 00 01 00 02 00 00 01 00 01 00", "compare 0 1 list"),
                (stored.A, "02 00 01 00 02 00 00 01 00 02 00 00", "compare same"), (stored.A, "01 00", "refused 9"),
                (stored.C, "00 00", "compare 2 0 file")):
            self.assertIn((data, text.replace(" ", ""), line), kept)
        self.assertEqual((bytes.fromhex(stored.A), bytes.fromhex(stored.C)), (A, stored.case_file("C")))


# ---------------------------------------------------------------- the examples

FIRST, LATER, LAST = ("the first difference is at %s" % place for place in ("the first pair", "a later pair", "the last pair"))
ALONE, SEVERAL = "one difference alone", "several differences"
BEFORE = "a pair that both permit is before the first difference"
LOWER = "a later difference has a lower second party"
AFTER_SAME, AFTER_MORE, AFTER_DECIDING = (
    "broken after " + what for what in ("terms that are the same", "a term that permits more than the file", "terms that decide"))
EMPTY = "the empty list"


def general(answer, header, convertible):
    """What is named for every case on an accepted file with this language, edition, D and n."""
    language, edition, longest, n = header
    kind = "the file convertible" if convertible else "the file not convertible"
    return [answer, "%s in language %d" % (answer, language), "%s in edition %d" % (answer, edition), "%s at D %d" % (answer, longest),
            "%s at n %s" % (answer, n), "%s, %s" % (answer, kind),
            "%s in language %d" % (kind, language), "%s in edition %d" % (kind, edition)]


OF_A, OF_A2, OF_H = (0, 1, 2, 3), (0, 2, 2, 3), (0, 1, 1, 3)
B, C, H = (stored.case_file(letter) for letter in "BCH")
SHORTENED = file_with([(0, 1), (2, 3)], [(0, 1, 0), (0, 1, 1), (0, 2, 0), (2, 3, 1)], n=4, labels=2, longest=1)
ALL_PERMITTED = file_with([(0, 1), (1, 0)], [(0, 1, 0), (1, 0, 0)], n=2, longest=6)
TERM, WORD = "01 00 01 00", "01 00"

# Each row: the file, the list, the reply, and all that is named in the case.
OCCURRENCES = [
    (A, LIST_OF_A, SAME, general("same", OF_A, True) + ["same, the mined list"]),
    (A2, LIST_OF_A, SAME, general("same", OF_A2, True) + ["same, the mined list"]),
    (A, "02 00 01 00 02 00 00 01 00 02 00 00", SAME, general("same", OF_A, True) + ["same, longer than the mined list"]),
    (H, "01 00 02 00 01 04 01 00", SAME, general("same", OF_H, True) + ["same, as long as the mined list"]),
    (SHORTENED, "01 00 01 00 01 04", SAME, general("same", (0, 1, 1, 4), True) + ["same, shorter than the mined list"]),
    (stored.case_file("E"), "00 00", SAME, general("same", OF_A, True) + ["same, the mined list", EMPTY]),
    (A, "00 00", differs(0, 2, "file"), general("file", OF_A, True) + ["differs, shorter than the mined list", EMPTY, LATER, ALONE]),
    (A, PLAIN, differs(0, 1, "list"), general("list", OF_A, True) + [
        "differs, shorter than the mined list", FIRST, SEVERAL, "list first, file later"]),
    (A, "02 00 01 00 02 00 00 01 00 01 00", differs(0, 1, "list"), general("list", OF_A, True) + [
        "differs, longer than the mined list", FIRST, SEVERAL]),
    (H, "01 00 02 00 01 00 01 00", differs(0, 2, "list"), general("list", OF_H, True) + [
        "differs, as long as the mined list", LATER, ALONE, BEFORE]),
    (B, LIST_OF_A, differs(0, 1, "file"), general("file", OF_A, False) + [FIRST, SEVERAL, "file first, list later"]),
    (B, PLAIN, differs(1, 2, "list"), general("list", OF_A, False) + [LATER, ALONE, BEFORE]),
    (C, "00 00", differs(2, 0, "file"), general("file", OF_A, False) + [EMPTY, LATER, ALONE]),
    (file_with([(2, 1)]), "00 00", differs(2, 1, "file"), general("file", OF_A, False) + [EMPTY, LATER, LAST, ALONE]),
    (file_with([(0, 2), (1, 0)]), "00 00", differs(0, 2, "file"), general("file", OF_A, False) + [EMPTY, LATER, SEVERAL, LOWER]),
    (file_with([(31, 30)], n=32), "00 00", differs(31, 30, "file"), general("file", (0, 1, 2, "above 6"), False) + [
        EMPTY, LATER, LAST, ALONE, "the first difference has party 31"]),
    (file_with([(0, 31)], n=32, language=2), "00 00", differs(0, 31, "file"), general("file", (2, 1, 2, "above 6"), False) + [
        EMPTY, LATER, ALONE, "the first difference has party 31"]),
    (file_with([], n=7, language=3), "01 00 01 00 01 00", differs(0, 1, "list"), general("list", (3, 1, 2, "above 6"), True) + [
        "differs, longer than the mined list", FIRST, SEVERAL]),
    (file_with([], n=7, language=1), "00 00", SAME, general("same", (1, 1, 2, "above 6"), True) + ["same, the mined list", EMPTY]),
    (file_with([], n=8, language=1), "01 00", BROKEN, general("refused 9", (1, 1, 2, "above 6"), True) + ["cut short in a number"]),
    (file_with([], [], n=1, longest=31), "00 00", SAME, general("same", (0, 1, 31, 1), True) + ["same, the mined list", EMPTY]),
    (file_with([], [], n=1, longest=31), "01 00", BROKEN, general("refused 9", (0, 1, 31, 1), True) + ["cut short in a number"]),

    # numbers of terms and words
    (A, "0A 00" + 10 * TERM, differs(0, 1, "list"), general("list", OF_A, True) + [
        "differs, longer than the mined list", "ten terms or more", FIRST, SEVERAL, "list first, file later"]),
    (A, "00 01" + 256 * TERM, differs(0, 1, "list"), general("list", OF_A, True) + [
        "differs, longer than the mined list", "ten terms or more", "256 terms or more", FIRST, SEVERAL, "list first, file later"]),
    (A, "01 00 0D 27 02 00 00 02 00 00" + 9995 * WORD, differs(0, 2, "file"), general("file", OF_A, True) + [
        "differs, longer than the mined list", "a term of 256 words or more", "a list of 20,000 bytes", LATER, ALONE]),

    # faults, and the terms before them
    (A, "01 00", BROKEN, general("refused 9", OF_A, True) + ["cut short in a number"]),
    (B, "01 00 01 00", BROKEN, general("refused 9", OF_A, False) + ["cut short before a word"]),
    (A, "02 00 01 00 02 00 00 00 00", BROKEN, general("refused 9", OF_A, True) + ["a term of no words", AFTER_SAME]),
    (A, "02 00 01 00 01 00 01 00 00", BROKEN, general("refused 9", OF_A, True) + ["a word of length 0", AFTER_MORE, AFTER_DECIDING]),
    (B, "02 00 01 00 01 00 01 00 03 00 00 00", BROKEN, general("refused 9", OF_A, False) + ["a word longer than D", AFTER_MORE]),
    (A, LIST_OF_A + "00", BROKEN, general("refused 9", OF_A, True) + ["bytes follow the last term", AFTER_SAME]),
    (ALL_PERMITTED, PLAIN + "00", BROKEN, general("refused 9", (0, 1, 6, 2), True) + [
        "bytes follow the last term", AFTER_SAME, AFTER_DECIDING]),
    (A, "01 00 01 00 02 00", BROKEN, general("refused 9", OF_A, True) + ["cut short in a word"]),
    (A, "01 00 01 00 01 04", BROKEN, general("refused 9", OF_A, True) + ["a label too high"]),
    (A, "01 00 01 00 01 01", BROKEN, general("refused 9", OF_A, True) + ["a kind not of the language"]),
    (stored.case_file("E"), "01 00 00 00", BROKEN, general("refused 9", OF_A, True) + ["a term of no words"]),
]
for number, data in BROKEN_FILES.items():
    for listed, names in (("00 00", []), (LIST_OF_G, []), ("01 00", ["refused %d with a broken list" % number]),
                          ("01 00 01 00 01 FF", ["refused %d with a broken list" % number])):
        OCCURRENCES.append((data, listed, ("refused", number), ["refused %d" % number] + names))


def without_numbers(name):
    """A name with any number in place of a language, an edition, D or n up to 6."""
    return re.sub(r"\b(language|edition|D|n) \d+", r"\1 any", name)


class Names(unittest.TestCase):
    """Each name that a demand uses stands where it must, and nowhere else."""

    def test_occurrences(self):
        for number, (data, text, reply, names) in enumerate(OCCURRENCES):
            known, listed = brute.Known(data), bytes.fromhex(text)
            self.assertEqual(brute.compare_reply(known, listed), reply, number)
            self.assertEqual(sorted(run_compare.occurrences(known, listed, reply)), sorted(["frames"] + names), number)

    def test_every_demand_has_an_example(self):
        shown = {"compare: frames"} | {"compare: " + without_numbers(name) for row in OCCURRENCES for name in row[3]}
        wanted = {without_numbers(name) for name in run_compare.DEMANDS if name.startswith("compare: ")}
        self.assertEqual(wanted - shown, set())

    def test_answers(self):
        for reply, name in ((SAME, "same"), (differs(0, 2, "file"), "file"), (differs(3, 1, "list"), "list"), (BROKEN, "refused 9")):
            self.assertEqual(run_compare.name_of(reply), name)


class ChangedLists(unittest.TestCase):
    """What the run makes of a list."""

    TERMS = [[(0,), (4, 0)], [(4,)], [(0, 4), (4,), (0,)]]

    def made(self, change, terms=None):
        """What some trials make of a list."""
        changer = run_compare.Changer(random.Random(81), brute.Known(file_with([(0, 2)], labels=2)))
        return [change(changer, self.TERMS if terms is None else terms) for _ in range(60)]

    def sets(self, terms):
        return {frozenset(term) for term in terms}

    def test_the_same_but_for_order_and_repetition(self):
        for name, change in run_compare.ALIKE.items():
            made = self.made(change)
            self.assertTrue(all(self.sets(terms) == self.sets(self.TERMS) for terms in made), name)
            self.assertGreater(len({str(terms) for terms in made if terms != self.TERMS}), 3, name)

    def test_orders(self):
        for terms in self.made(run_compare.Changer.terms_moved):
            self.assertEqual(sorted(terms), sorted(self.TERMS))
        for terms in self.made(run_compare.Changer.words_moved):
            self.assertEqual([sorted(term) for term in terms], [sorted(term) for term in self.TERMS])
        for terms in self.made(run_compare.Changer.all_moved):
            self.assertEqual(sorted(sorted(term) for term in terms), sorted(sorted(term) for term in self.TERMS))

    def sizes(self, name):
        """The numbers of terms and of words that a change makes."""
        change = {**run_compare.ALIKE, **run_compare.CHANGES}[name]
        return {(len(terms), sum(len(term) for term in terms)) for terms in self.made(change)}

    def test_one_less_or_more(self):
        self.assertEqual(self.sizes("a term repeated"), {(4, 7), (4, 8), (4, 9)})
        self.assertEqual(self.sizes("a word repeated"), {(3, 7)})
        self.assertEqual(self.sizes("a term dropped"), {(2, 3), (2, 4), (2, 5)})
        self.assertEqual(self.sizes("a word dropped"), {(3, 5)})
        self.assertEqual(self.sizes("a word added"), {(3, 7)})
        self.assertEqual({terms for terms, _ in self.sizes("a term added")}, {4})

    def test_no_place(self):
        for name in ("a term repeated", "a word repeated", "both repeated, in another order"):
            self.assertEqual({*self.made(run_compare.ALIKE[name], [])}, {None}, name)
        for name in ("a term dropped", "a word dropped", "a word added"):
            self.assertEqual({*self.made(run_compare.CHANGES[name], [])}, {None}, name)
        self.assertEqual({*self.made(run_compare.CHANGES["a word dropped"], [[(0,)]])}, {None})
        self.assertEqual(self.made(run_compare.ALIKE["both in another order"], [])[0], [])

    def changer(self, data, seed=82):
        return run_compare.Changer(random.Random(seed), brute.Known(data))

    def test_longer_and_shorter(self):
        changer = self.changer(H)
        for length in (2, 6, 8, 20, 60):
            for _ in range(20):
                listed = changer.longer(length)
                self.assertGreater(len(listed), length)
                self.assertNotEqual(brute.compare_reply(changer.known, listed), BROKEN)
                other = changer.shorter(length)
                self.assertTrue(other is None or len(other) < length)
        self.assertIsNone(changer.shorter(6))
        self.assertIsNotNone(changer.shorter(60))

    def test_terms_that_decide(self):
        # (0,1) is not permitted in E; in F it is, and (0,2) is the first pair that is not. (1,0) has no word.
        for letter, wanted in (("E", [(0, 1)]), ("F", [(0, 1), (0, 2)])):
            changer = self.changer(stored.case_file(letter))
            terms = changer.deciding_terms()
            self.assertEqual([brute.meets(changer.known.words(*pair), term) for pair, term in zip(wanted, terms)], [True] * len(terms))
            self.assertEqual(len(terms), len(wanted))
        self.assertIsNone(self.changer(file_with([(0, 1), (0, 2)])).deciding_terms())
        self.assertEqual(len(self.changer(ALL_PERMITTED).deciding_terms()), 2)

    def test_broken_lists(self):
        changer = self.changer(stored.case_file("E"))
        sorts = set()
        for _ in range(40):
            for sort, listed in changer.broken_lists([[(0,)]]):
                terms, fault = run_permit.until_fault(changer.known, listed)
                sorts.add(sort)
                if sort == "a damage after a list" and fault and fault != "bytes follow the last term":
                    self.assertEqual(terms[0], [(0,)])
                if sort == "a damage after terms that decide" and fault and terms:
                    self.assertIn("broken after terms that decide", run_compare.before_fault(changer.known, terms))
        self.assertEqual(sorts, {"a damage in a list", "a damage after a list", "random bytes", "a damage after terms that decide"})


class AgainstPermit(unittest.TestCase):
    """A reply follows from permit's replies at all pairs."""

    HOUSE = brute.decode(A)          # its pairs are (0,1), (0,2), (1,0), (1,2), (2,0), (2,1), of which (0,2) is permitted

    def line(self, answers):
        """The line of compare for a letter for each pair, y or n."""
        return run_compare.by_permits(self.HOUSE, ["permit %s\n" % {"y": "yes", "n": "no"}[letter] for letter in answers])

    def test_lines(self):
        for answers, line in (("nynnnn", "same"), ("nnnnnn", "0 2 file"), ("yynnnn", "0 1 list"), ("ynnnnn", "0 1 list"),
                              ("nyynnn", "1 0 list"), ("nynyyy", "1 2 list"), ("nynnny", "2 1 list"), ("nnnnny", "0 2 file")):
            self.assertEqual(self.line(answers), "compare %s\n" % line)
        self.assertEqual(run_compare.by_permits(self.HOUSE, ["permit refused 9\n"] * 6), "compare refused 9\n")
        self.assertEqual(run_compare.by_permits(None, ["permit refused 15\n"]), "compare refused 15\n")
        for at in range(6):
            lines = ["permit refused 9\n"] * 6
            for other in ("permit no\n", "permit refused 10\n"):
                lines[at] = other
                self.assertIsNone(run_compare.by_permits(self.HOUSE, lines))

    def test_lines_of_permit(self):
        known, listed = brute.Known(A), bytes.fromhex(LIST_OF_A)
        self.assertEqual(run_compare.permit_lines(known, listed), ["permit no\n", "permit yes\n"] + 4 * ["permit no\n"])
        self.assertEqual(run_compare.permit_lines(known, listed[:-1]), 6 * ["permit refused 9\n"])
        self.assertEqual(run_compare.permit_lines(brute.Known(BROKEN_FILES[5]), listed), ["permit refused 5\n"])
        self.assertEqual(run_compare.permit_lines(brute.Known(file_with([], [], n=1)), listed), [])

    def collection(self, part):
        """A collection that asks permit for this part of the lists for files above six parties."""
        made = run_compare.Collection(random.Random(91))
        with mock.patch.object(run_compare, "WIDE_HELD_PART", part):
            for data, text in ((A, LIST_OF_A), (A, "00 00"), (A, "01 00"), (A, LIST_OF_A), (BROKEN_FILES[4], "01 00"),
                               (file_with([], [], n=1), "00 00"), (file_with([(0, 1)], n=7), "00 00"), (B, PLAIN)):
                made.add(converting.Made("by hand", data, brute.Known(data)), "by hand", bytes.fromhex(text))
        return made

    LINES = ["compare same\n", "compare 0 2 file\n", "compare refused 9\n", "compare refused 4\n", "compare same\n",
             "compare 0 1 file\n", "compare 1 2 list\n"]

    def test_a_list_is_given_once(self):
        made = self.collection(0)
        self.assertEqual([case.text for case in made.cases if case.text.startswith("compare")], self.LINES)
        self.assertEqual((len(made.files), len(made.lists), len(made.held)), (5, 4, 5))
        self.assertEqual({script.parts_of(case.frame).call for case in made.cases}, {"m", "r"})
        self.assertEqual(made.account["by hand: same"], 2)
        self.assertEqual(made.account["compare: frames"], 7)

    def test_permit_is_asked_at_every_pair(self):
        made = self.collection(1)
        self.assertEqual([case.text for case in made.cases if case.text.startswith("compare")], self.LINES)
        self.assertEqual([made.cases[one.compare].text for one in made.held],
                         ["compare same\n", "compare 0 2 file\n", "compare refused 9\n", "compare refused 4\n",
                          "compare 0 1 file\n", "compare 1 2 list\n"])
        for one in made.held:
            asked = script.parts_of(made.cases[one.compare].frame)
            frames = [script.parts_of(made.cases[place].frame) for place in one.permits]
            every = brute.pairs(one.house) if one.house else [(0, 1)]
            self.assertEqual([frame[:3] for frame in frames], [("r", *pair) for pair in every])
            self.assertEqual({frame[3:] for frame in frames}, {asked[3:]})
        self.assertEqual(made.account["held against permit: lists"], 6)
        self.assertEqual(made.account["held against permit: list"], 1)
        self.assertEqual(made.account["held against permit: refused 4"], 1)
        self.assertEqual(made.account["held against permit: above 6 parties"], 1)

    def test_the_programs_own_replies(self):
        made = self.collection(1)
        replies = [case.text for case in made.cases]
        self.assertEqual(run_compare.unlike_permit(made.held, replies), [])
        first = made.held[0]
        for place, line in ((first.compare, "compare 0 2 file\n"), (first.permits[0], "permit yes\n"), (first.permits[1], "permit no\n"),
                            (first.permits[5], "permit yes\n"), (made.held[2].compare, "compare same\n")):
            lines = run_compare.unlike_permit(made.held, replies[:place] + [line] + replies[place + 1:])
            self.assertEqual(len(lines), 1)
            self.assertTrue(lines[0].startswith("1 replies"), lines)

    def test_the_reckonings_own_replies(self):
        for text, wrong in ((LIST_OF_A, differs(0, 2, "file")), ("00 00", SAME), ("00 00", differs(0, 2, "list")), ("01 00", SAME)):
            with mock.patch.object(brute, "compare_reply", lambda known, listed: wrong), self.assertRaises(AssertionError):
                run_compare.Collection(random.Random(1)).add(
                    converting.Made("by hand", A, brute.Known(A)), "by hand", bytes.fromhex(text))


class Demands(unittest.TestCase):

    def test_a_file_that_is_not_convertible_is_never_the_same(self):
        made = run_compare.Collection(random.Random(1))
        before = run_compare.lacking(made)
        made.account["compare: same, the file not convertible"] = 1
        self.assertEqual(len(run_compare.lacking(made)), len(before) + 1)

    def test_another_reply_for_another_order(self):
        made = run_compare.Collection(random.Random(1))
        with mock.patch.dict(run_compare.ALIKE, {"a term repeated": lambda changer, terms: []}), \
                self.assertRaisesRegex(AssertionError, "a term repeated: another reply"):
            run_compare.add_list(made, converting.Made("by hand", A, brute.Known(A)), run_compare.MINED, [[(0, 0)]])

    def test_a_mined_list_that_is_not_the_same(self):
        made = run_compare.Collection(random.Random(1))
        known = brute.Known(A)
        known.verdict()
        known.mined = [[(0,)]]
        with self.assertRaisesRegex(AssertionError, "the mined list"):
            run_compare.add_file(made, converting.Made("by hand", A, known, [[(0,)]]))

    def test_a_list_that_permits_more_with_a_relation_unknown(self):
        made, rows = run_compare.Collection(random.Random(1)), []
        known = brute.Known(stored.case_file("J"))          # (0,1) is a relation, (1,0) absent and permitted by 01
        for reply in (SAME, differs(1, 0, "file"), differs(0, 1, "list")):
            with mock.patch.object(made, "add", lambda *given: rows.append(given) or reply):
                if reply[-1] == "list":
                    with self.assertRaisesRegex(AssertionError, "by an unknown relation"):
                        run_compare.add_made_unknown(made, converting.Made("J", A, known), known.terms())
                else:
                    run_compare.add_made_unknown(made, converting.Made("J", A, known), known.terms())
        for other, _, listed in rows:
            self.assertEqual((other.known.house.unknown, listed), ({(1, 0, 0)}, brute.encode_list([[(1,)]])))
        self.assertEqual(brute.compare_reply(rows[0][0].known, rows[0][2]), differs(1, 0, "file"))

    def test_files_of_each_sort(self):
        made = run_compare.Collection(random.Random(1))
        for data in (A, B, C, H, file_with([], [], n=1)):
            run_compare.add_file(made, converting.Made("by hand", data, brute.Known(data), [[(0,)]]))
        for name in ("the mined list: same", "other rules: list", "other rules, a term dropped: file", "compare: the empty list",
                     "lists for one party: same", "lists for one party: refused 9", "a damage in a list: refused 9"):
            self.assertGreater(made.account[name], 0, name)
        self.assertEqual(made.account["compare: same, the file not convertible"], 0)
        self.assertEqual(made.account["compare: frames"], len(made.asked))


if __name__ == "__main__":
    unittest.main()
