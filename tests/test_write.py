"""Tests of the run of write: the names that its demands count, and the other calls on a copy.

    python3 -m unittest discover -s tests        (or: python3 tests/test_write.py)
"""

import random
import unittest

import brute
import files
import run_write
import script
import stored
import unknowns

A = stored.case_file("A")
A_TURNED = bytes.fromhex("01 03 01 00 02 00 03 00  02 00 03 00 00 00  01 00 00 00  02 FF 01 00  02 00 00 00")
A2 = stored.case_file("A in edition 2")
A2_TURNED = bytes.fromhex("02 03 01 00 02 00 03 00  02 00 03 00 00 00  01 00 00 00 00  02 FF 01 00 00  02 00 00 00 01")
LONGEST = {edition: files.full_draft(random.Random(1), 0, 31, edition).bytes() for edition in (1, 2)}


def in_language(data, language):
    return data[:3] + bytes([language]) + data[4:]


def matter(n, edges=(), permits=(), labels=1, longest=2, unknown=()):
    return files.Matter(n, labels, 0, longest, set(edges), set(permits), set(unknown))


def first_records(n, labels, longest, *indexes):
    """Matter with some of the records that can be; they are counted by party, target and kind byte."""
    return files.matter_of(n, labels, 0, longest, range(*indexes))


def collection():
    return run_write.Collection(random.Random(51))


# ---------------------------------------------------------------- the examples

# Lengths of an output beside a length of 29 bytes.
ROOMS = [
    (0, "no output"), (1, "output shorter by more"), (27, "output shorter by more"), (28, "output one byte short"),
    (29, "output of just that length"), (30, "output longer"), (60000, "output longer"),
]

JUST, ADDED, IS_COPY = "output of just that length", "owners are added", "the file is its copy"


def written(language, edition, moved):
    return ["written in language %d" % language, "written of edition %d" % edition, moved]


def moved(edition):
    return "records are moved in edition %d" % edition


# Each row: the file, the output's length, the reply, and what occurs in such a case of write.
OCCURRENCES = [
    (A, 29, ("length", 29), written(0, 1, ADDED) + [JUST]),
    (A, 30, ("length", 29), written(0, 1, ADDED) + ["output longer"]),
    (A2, 29, ("length", 29), written(0, 2, IS_COPY) + [JUST]),
    (A_TURNED, 29, ("length", 29), written(0, 1, moved(1)) + [JUST]),
    (A2_TURNED, 33, ("length", 29), written(0, 2, moved(2)) + ["output longer"]),
    (in_language(A, 1), 33, ("length", 29), written(1, 1, ADDED) + ["output longer"]),
    (in_language(A2_TURNED, 2), 33, ("length", 29), written(2, 2, moved(2)) + ["output longer"]),
    (in_language(A_TURNED, 3), 33, ("length", 29), written(3, 1, moved(1)) + ["output longer"]),
    (A, 28, ("refused", 14), ["refused 14", "output one byte short"]),
    (A2, 28, ("refused", 14), ["refused 14", "output one byte short"]),
    (A_TURNED, 27, ("refused", 14), ["refused 14", "output shorter by more"]),
    (A, 26, ("refused", 14), ["refused 14", "output shorter by more", "output of the file's length is short"]),
    (A2, 26, ("refused", 14), ["refused 14", "output shorter by more"]),
    (A, 0, ("refused", 14), ["refused 14", "no output"]),
    (stored.case_file("n 1 and R 0"), 10, ("length", 10), written(0, 1, ADDED) + [JUST]),
    (stored.case_file("A without its last byte"), 25, ("refused", 1), ["refused 1", "file refused, " + JUST]),
    (stored.case_file("A with n 33"), 0, ("refused", 2), ["refused 2", "file refused, no output"]),
    (stored.case_file("A with head 2 at record 4"), 25, ("refused", 3),
     ["refused 3", "file refused, output one byte short"]),
    (stored.case_file("A with record 2's next 01 00"), 27, ("refused", 4),
     ["refused 4", "file refused, output longer"]),
    (stored.case_file("A with head 1 zero"), 24, ("refused", 5), ["refused 5", "file refused, output shorter by more"]),
    (stored.case_file("A with record 3's target 3, which is n"), 26, ("refused", 6), ["refused 6", "file refused, " + JUST]),
    (stored.case_file("A with record 3's kind 1, which is L"), 0, ("refused", 7),
     ["refused 7", "file refused, no output"]),
    (stored.case_file("(0,1) with label 0 twice"), 60, ("refused", 8), ["refused 8", "file refused, output longer"]),
    (stored.case_file("A in edition 2 with record 1's owner 01"), 29, ("refused", 15), ["refused 15", "file refused, " + JUST]),
    (stored.case_file("label 0 known, then unknown"), 20, ("refused", 16), ["refused 16", "file refused, " + JUST]),
    (LONGEST[1][:-1], 0, ("refused", 1), ["refused 1", "file refused, no output"]),
    (b"\3" + LONGEST[1][1:], 0, ("refused", 2), ["refused 2", "file refused, no output"]),
]
for edition, data in LONGEST.items():
    for room, reply, names, lent in (
            (44712, ("length", 44712), written(0, edition, moved(edition)), JUST),
            (44713, ("length", 44712), written(0, edition, moved(edition)), "output longer"),
            (44711, ("refused", 14), ["refused 14"], "output one byte short"),
            (35785, ("refused", 14), ["refused 14"], "output shorter by more"),
            (0, ("refused", 14), ["refused 14"], "no output")):
        OCCURRENCES.append((data, room, reply, names + [lent, "the longest file of edition %d, %s" % (edition, lent)]))

NONE_OF_SEVERAL = ["no records", "no records for several parties", "a label that no record uses"]
BOTH_TO_ONE = "a permit and a relation to one target"
SEVERAL_LABELS = "several labels to one target"
LOWER_KIND = "a lower kind byte at a higher target"
BEFORE, BETWEEN = "an empty chain before all full ones", "an empty chain between full ones"
D_ABOVE, D_UP = "D above n - 1", "D up to n - 1"
UNKNOWN, BESIDE, ALL_THREE = "unknown relations", "known and unknown to one target", "known, unknown and a permit to one target"
SEVERAL_UNKNOWN = "several unknown labels to one target"

# With 17 parties and L 1, each party has 32 records, of which each permit stands before the next relation.
OF_17 = [BOTH_TO_ONE, LOWER_KIND, D_UP]
# With 32 parties and L 8, each party has 279 records.
OF_32 = ["n 32", "label 7", "256 records or more", BOTH_TO_ONE, SEVERAL_LABELS, LOWER_KIND, D_UP]

# Each row: a matter, and all that is special in it.
FEATURES = [
    # the number of parties, and D
    (matter(1), ["n 1", "no records", "a label that no record uses", D_ABOVE]),
    (matter(2), NONE_OF_SEVERAL + [D_ABOVE]),
    (matter(2, longest=1), NONE_OF_SEVERAL + [D_UP]),
    (matter(31, longest=31), NONE_OF_SEVERAL + [D_ABOVE]),
    (matter(32, longest=31), NONE_OF_SEVERAL + ["n 32", D_UP]),
    # which parties have records
    (matter(3, [(0, 1, 0), (1, 2, 0)]), [D_UP]),
    (matter(3, [(0, 1, 0), (2, 1, 0)]), [BETWEEN, D_UP]),
    (matter(3, [(1, 0, 0), (2, 0, 0)]), [BEFORE, D_UP]),
    (matter(4, [(1, 0, 0), (3, 0, 0)]), [BEFORE, BETWEEN, D_UP]),
    (matter(4, [(1, 0, 0)]), [BEFORE, D_UP]),
    (matter(3, [(0, 1, 0), (1, 2, 0), (2, 1, 0)]), ["every chain full", D_UP]),
    (matter(3, [(0, 1, 0)], [(1, 0), (2, 0)]), ["every chain full", D_UP]),
    # permits beside relations
    (matter(3, [(0, 1, 0)], [(0, 1)]), [BOTH_TO_ONE, D_UP]),
    (matter(3, [(0, 1, 0)], [(0, 2), (1, 0)]), [D_UP]),
    (matter(3, [(0, 1, 0)], [(2, 1)]), [BETWEEN, D_UP]),
    (matter(3, [(0, 2, 0)], [(0, 1)]), [LOWER_KIND, D_UP]),
    (matter(3, permits=[(0, 1)]), ["permits alone", "a label that no record uses", D_UP]),
    # labels
    (matter(3, [(0, 1, 0), (0, 2, 0)]), [D_UP]),
    (matter(3, [(0, 1, 0), (0, 1, 1)], labels=2), [SEVERAL_LABELS, D_UP]),
    (matter(3, [(0, 1, 0), (0, 2, 1)], labels=2), [D_UP]),
    (matter(3, [(0, 1, 0), (1, 0, 1)], labels=2), [D_UP]),
    (matter(3, [(0, 1, 1), (0, 2, 0)], labels=2), [LOWER_KIND, D_UP]),
    (matter(3, [(0, 1, 1), (1, 2, 0)], labels=2), [D_UP]),
    (matter(3, [(0, 1, 0), (0, 2, 1)], labels=3), ["a label that no record uses", D_UP]),
    (matter(3, [(0, 1, 7)], labels=8), ["label 7", "a label that no record uses", D_UP]),
    (matter(3, [(0, 1, 6)], labels=8), ["a label that no record uses", D_UP]),
    (matter(3, [(0, 1, label) for label in range(8)], labels=8), ["label 7", SEVERAL_LABELS, D_UP]),
    # unknown relations
    (matter(3, unknown=[(0, 1, 0)]), [UNKNOWN, "unknown relations alone", D_UP]),
    (matter(3, permits=[(0, 1)], unknown=[(0, 1, 0)]), [UNKNOWN, D_UP]),
    (matter(3, [(0, 1, 0)], unknown=[(0, 2, 0)]), [UNKNOWN, D_UP]),
    (matter(3, [(0, 1, 0)], unknown=[(0, 1, 1)], labels=2), [UNKNOWN, BESIDE, D_UP]),
    (matter(3, [(0, 1, 0)], unknown=[(1, 0, 1)], labels=2), [UNKNOWN, D_UP]),
    (matter(3, [(0, 1, 0)], [(0, 1)], unknown=[(0, 1, 1)], labels=2), [UNKNOWN, BESIDE, ALL_THREE, BOTH_TO_ONE, D_UP]),
    (matter(3, [(0, 1, 0)], [(0, 2)], unknown=[(0, 1, 1)], labels=2), [UNKNOWN, BESIDE, D_UP]),
    (matter(3, unknown=[(0, 1, 0), (0, 1, 1)], labels=2), [UNKNOWN, "unknown relations alone", SEVERAL_UNKNOWN, D_UP]),
    (matter(3, unknown=[(0, 1, 0), (0, 2, 0)]), [UNKNOWN, "unknown relations alone", D_UP]),
    (matter(3, unknown=[(0, 1, 7)], labels=8), [UNKNOWN, "unknown relations alone", "label 7", "label 7 unknown",
                                                "a label that no record uses", D_UP]),
    (matter(3, [(0, 1, 7)], unknown=[(0, 2, 6)], labels=8), [UNKNOWN, "label 7", "a label that no record uses", D_UP]),
    # many records
    (first_records(17, 1, 16, 255), OF_17),
    (first_records(17, 1, 16, 256), OF_17 + ["256 records or more"]),
    (first_records(32, 8, 31, 278), OF_32),
    (first_records(32, 8, 31, 279), OF_32 + ["a chain of 279 records"]),
    (first_records(32, 8, 31, 1, 280), OF_32),
    (first_records(32, 8, 31, 1, 558), OF_32 + ["a chain of 279 records"]),
    (first_records(32, 8, 31, 8927), OF_32 + ["every chain full", "a chain of 279 records"]),
    (first_records(32, 8, 31, 8928), OF_32 + ["every chain full", "a chain of 279 records", "R 8,928"]),
    (files.made_unknown(first_records(32, 8, 31, 8928), [(0, 1, 0)]), OF_32 + [
        "every chain full", "a chain of 279 records", "R 8,928", "R 8,928 with unknown relations", UNKNOWN, BESIDE, ALL_THREE]),
]

# Files of edition 1 and of edition 2 with no head and one record; the record's first byte tells them apart.
ONE = [bytes([1, 0, 0, 0, 0, 0, 1, 0, target, 0, 0, 0]) for target in range(4)]
TWO = [bytes([2, 0, 0, 0, 0, 0, 1, 0, target, 0, 0, 0, 9]) for target in range(4)]

# Each row: the files of a matter, its copy, and what is special in them.
THREE, NOT_COPYS, BOTH = "three different orders", "no order is the copy's", "orders in both editions"
ORDERS = [
    ([ONE[1], ONE[2], ONE[3]], TWO[0], [THREE, NOT_COPYS]),
    ([ONE[1], TWO[2], ONE[3]], TWO[0], [THREE, NOT_COPYS, BOTH]),
    ([ONE[1], TWO[2], TWO[3]], TWO[3], [THREE, BOTH]),
    ([ONE[1], TWO[2], ONE[3]], TWO[3], [THREE, BOTH]),
    ([ONE[1], TWO[2], TWO[1]], TWO[0], [NOT_COPYS, BOTH]),
    ([TWO[1], TWO[2], TWO[1]], TWO[0], [NOT_COPYS]),
    ([ONE[1], TWO[1], ONE[1]], TWO[1], [BOTH]),
]

# A reply's lines, and how its answer is named.
ANSWERS = [
    ("check accepted\n", "check accepted"), ("check refused 5\n", "check refused 5"),
    ("decode 3 1 0 2\npermits 00000004\nrelation 0 1 01\n", "decode found"),
    ("path 3\noutput 000102\n", "path found"), ("path none\noutput 000102\n", "path none"),
    ("path refused 10\noutput\n", "path refused 10"), ("path refused 11\noutput\n", "path refused 11"),
    ("path refused 14\noutput 00\n", "path refused 14"),
    ("next-word 2\noutput 0000\n", "next-word found"), ("next-word none\noutput 0000\n", "next-word none"),
    ("next-word refused 10\noutput\n", "next-word refused 10"),
    ("next-word refused 11\noutput\n", "next-word refused 11"),
    ("next-word refused 14\noutput 00\n", "next-word refused 14"),
    ("permit yes\n", "permit yes"), ("permit no\n", "permit no"),
    ("permit refused 9\n", "permit refused 9"), ("permit refused 10\n", "permit refused 10"),
    ("text 30300A\n", "text found"), ("text \n", "text found"), ("text refused 9\n", "text refused 9"),
    ("compare same\n", "compare same"), ("compare 0 2 file\n", "compare found"), ("compare 0 1 list\n", "compare found"),
    ("compare refused 9\n", "compare refused 9"),
]


class Names(unittest.TestCase):
    """Each name that a demand uses stands where it must, and nowhere else."""

    def test_rooms(self):
        for room, name in ROOMS:
            self.assertEqual(run_write.room_name(29, room), name, room)

    def test_rooms_of_the_shortest_files(self):
        # Where two names fit, it is the one about the length.
        self.assertEqual(run_write.room_name(0, 0), JUST)
        self.assertEqual(run_write.room_name(1, 0), "output one byte short")

    def test_occurrences(self):
        for number, (data, room, reply, names) in enumerate(OCCURRENCES):
            self.assertEqual(brute.write_reply(data, bytes(room))[0], reply, number)
            self.assertEqual(sorted(run_write.occurrences(data, room, reply)), sorted(["frames"] + names), number)

    def test_features(self):
        rng = random.Random(52)
        for number, (one, names) in enumerate(FEATURES):
            self.assertEqual(brute.check(files.lay_out(one, rng).bytes()), 0, number)
            self.assertEqual(sorted(run_write.features(one)), sorted(["any"] + names), number)

    def test_orders(self):
        for orders, copy, names in ORDERS:
            self.assertEqual(run_write.order_names(orders, copy), names)

    def test_answers(self):
        for text, name in ANSWERS:
            self.assertEqual(run_write.answer_name(text), name)

    def test_every_demand_has_an_example(self):
        shown = {"write: frames", "matter: any", "files: accepted and new"}
        shown |= {"write: " + name for row in OCCURRENCES for name in row[3]}
        shown |= {"matter: " + name for row in FEATURES for name in row[1]}
        shown |= {"matter: " + name for row in ORDERS for name in row[2]}
        shown |= {"changed: " + name for name in run_write.CHANGES}
        for begins in (run_write.OTHER_EDITION, run_write.UNLIKE):
            shown |= {begins + name for _, name in ANSWERS}
            shown |= {begins + "files in language %d" % language for language in range(4)}
            shown.add(begins + "files with unknown relations")
        self.assertEqual(set(run_write.DEMANDS) - shown, set())


class Counting(unittest.TestCase):
    """What is found in the cases goes into the account."""

    def test_a_case(self):
        made = collection()
        made.add(A_TURNED, 28)
        self.assertEqual(made.account, {"write: frames": 1, "write: refused 14": 1, "write: output one byte short": 1})

    def test_a_file_is_new_once(self):
        made = collection()
        for data in (A, A_TURNED, A2, A2_TURNED, A, A2, A_TURNED):
            self.assertEqual(made.copy_of(data), A2)
        self.assertEqual((made.account["files: accepted and new"], made.account["write: frames"]), (4, 7))

    def test_short_outputs(self):
        for data, fewest in ((A, 2), (A2, 1)):
            made = collection()
            for _ in range(50):
                made.add_short(data)
            self.assertEqual(made.account["write: refused 14"], made.account["write: frames"])
            self.assertGreaterEqual(len(made.cases), 50 * fewest)
            for name in ("no output", "output one byte short", "output shorter by more"):
                self.assertGreater(made.account["write: " + name], 0, name)
        self.assertEqual(made.account["write: output of the file's length is short"], 0)

    def test_a_matter_in_one_order_only(self):
        made = collection()
        run_write.add_matter(made, matter(2, [(0, 1, 0)]))
        found = {name for name in made.account if name.startswith("matter: ")}
        self.assertEqual(found, {"matter: any", "matter: " + D_ABOVE, "matter: " + BOTH})
        self.assertEqual(made.faults, [])

    def test_a_matter_in_three_orders(self):
        made = collection()
        run_write.add_matter(made, first_records(5, 1, 4, 30))
        for name in ("any", THREE, NOT_COPYS, BOTH):
            self.assertEqual(made.account["matter: " + name], 1, name)

    def test_changes(self):
        made = collection()
        for _ in range(40):
            run_write.add_matter(made, matter(3, [(0, 1, 0)], unknown=[(1, 2, 0)]))
        changed = {name: times for name, times in made.account.items() if name.startswith("changed: ")}
        self.assertEqual(set(changed), {"changed: " + name for name in run_write.CHANGES})
        # The drawn relation may be the unknown one, which isn't made known too.
        self.assertIn(sum(changed.values()), range(39 * run_write.CHANGES_OF_MATTER, 40 * run_write.CHANGES_OF_MATTER + 1))

    def test_one_party_has_no_pair_to_change(self):
        made = collection()
        for _ in range(40):
            run_write.add_matter(made, matter(1))
        changed = {name for name in made.account if name.startswith("changed: ")}
        self.assertEqual(changed, {"changed: D", "changed: L", "changed: language", "changed: n"})

    def test_what_is_not_as_it_must_be_is_lacking(self):
        made = collection()
        made.demand(True, "one")
        made.demand(False, "other")
        self.assertEqual(run_write.lacking(made)[0], "other")
        self.assertEqual(len(run_write.lacking(made)), 1 + len(run_write.DEMANDS) + unknowns.LINES)


class AskedAgain(unittest.TestCase):
    """The other calls on a file and on another one with the same matter."""

    LENT = b"\xDD" * 16 + b"\xEE" * 31 + b"\xDD" * 16
    LIST = bytes.fromhex("01 00 01 00 02 00 00")

    def frames(self, data):
        """A frame of each call on this file."""
        return [script.frame("c", data), script.frame("d", data),
                script.word_frame("p", data, 0, 2, script.given_bytes(2, bytes(31)), self.LENT),
                script.word_frame("n", data, 0, 2, script.given_bytes(0, bytes(31)), self.LENT),
                script.list_frame("r", data, self.LIST, 0, 2), script.list_frame("x", data, self.LIST),
                script.list_frame("m", data, self.LIST), script.list_frame("m", data, b"\0\0")]

    # What A's file has for these frames.
    TEXTS = [
        "check accepted\n",
        "decode 3 1 0 2\npermits 00000004" + 31 * " 00000000" + "\nrelation 0 1 01\nrelation 1 2 01\n",
        "path 3\noutput " + 16 * "DD" + "000102" + 28 * "EE" + 16 * "DD" + "\n",
        "next-word 2\noutput " + 16 * "DD" + "0000" + 29 * "EE" + 16 * "DD" + "\n",
        "permit yes\n", "text 30302E30300A\n", "compare same\n", "compare 0 2 file\n",
    ]
    NAMES = ["check accepted", "decode found", "path found", "next-word found", "permit yes", "text found",
             "compare same", "compare found"]

    def cases(self, data):
        return [script.Case(frame, text) for frame, text in zip(self.frames(data), self.TEXTS)]

    def test_the_same_call_about_another_file(self):
        for data in (A, A2, A2_TURNED):
            again = [run_write.asked_again(case, data, brute.Known(data)) for case in self.cases(A_TURNED)]
            self.assertEqual(again, self.cases(data))

    def again(self, data, other):
        """A collection of these cases, asked again about what is taken for another file of the same matter."""
        made = collection()
        for case in self.cases(data):
            run_write.add_again(made, case, run_write.UNLIKE, other, brute.Known(other))
        return made

    def test_the_others_are_run(self):
        made = self.again(A_TURNED, A2)
        self.assertEqual(made.cases, self.cases(A2))
        self.assertEqual(made.account, {run_write.UNLIKE + name: 1 for name in self.NAMES})
        self.assertEqual(made.faults, [])

    def test_another_answer_is_a_fault(self):
        # B's permit is another one; without the relation (1,2) there is no path and no word either.
        without = bytes.fromhex("02 03 01 00 02 00 02 00  01 00 00 00 00 00  01 00 02 00 00  02 FF 00 00 00")
        for other, names in ((stored.case_file("B"), ["decode found", "compare same", "compare found"]),
                             (without, ["decode found", "path found", "next-word found", "permit yes", "compare same"]),
                             (stored.case_file("A in edition 2 with record 1's owner 01"), self.NAMES)):
            self.assertEqual(self.again(A_TURNED, other).faults,
                             ["another answer for " + run_write.UNLIKE + name for name in names])

    def test_a_copy_that_is_its_file_is_not_counted(self):
        made = collection()
        run_write.ask_all(made, matter(2, [(0, 1, 0)]))
        self.assertEqual([name for name in made.account if name.startswith(run_write.UNLIKE)], [])
        self.assertEqual(made.account[run_write.OTHER_EDITION + "check accepted"], 1)

    def test_every_call_is_asked(self):
        made = collection()
        for language in range(4):
            run_write.ask_all(made, first_records(4, 2, 3, 30)._replace(language=language))
            for begins in (run_write.OTHER_EDITION, run_write.UNLIKE):
                self.assertEqual(made.account[begins + "files in language %d" % language], 1)
        self.assertEqual(made.faults, [])
        frames = [script.parts_of(case.frame) for case in made.cases]
        sorts = [(parts.data[0], brute.canonical(brute.decode(parts.data)) == parts.data) for parts in frames]
        for call, times in (("c", 4), ("d", 4), ("p", 20), ("n", 20), ("r", 24), ("m", 12)):
            for sort in ((1, False), (2, False), (2, True)):
                asked = [parts for parts, one in zip(frames, sorts) if parts.call == call and one == sort]
                self.assertGreaterEqual(len(asked), times, (call, sort))


if __name__ == "__main__":
    unittest.main()
