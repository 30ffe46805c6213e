"""Tests of the test side of the console's functions.

    python3 -m unittest discover -s tests
"""

import contextlib
import ctypes
import io
import os
import random
import re
import subprocess
import tempfile
import unittest
from collections import Counter

import brute
import comparing
import console
import console_demands
import converting
import files
import large_console
import make_examples
import run_console
import run_permitconv
import stored
import unknowns


class Unpacking(unittest.TestCase):

    def test_the_table_of_the_documents(self):
        self.assertEqual(console.unpack(0x780, console.VERDICT), ("convertible", 7))
        self.assertEqual(console.unpack(0x281, console.VERDICT), ("no-word", (2, 0)))
        self.assertEqual(console.unpack(0x0201010082, console.VERDICT), ("rival", (0, 1), (1, 2)))
        self.assertEqual(console.unpack(0x780, console.MINING), ("length", 7))
        self.assertEqual(console.unpack(0x80, console.PERMIT), ("no",))
        self.assertEqual(console.unpack(0x81, console.PERMIT), ("yes",))
        for kinds in (console.VERDICT, console.MINING, console.PERMIT):
            for number in range(1, 17):
                self.assertEqual(console.unpack(number, kinds), ("refused", number))

    def test_nothing_else_is_a_reply(self):
        for number in (0, 17, 127, 0x104, 0x110, 0x83, 0x1000281, 0x10201010082, (1 << 64) - 1):
            self.assertEqual(console.unpack(number, console.VERDICT), ("unpacked", number))
        for number in (0, 17, 127, 129, 130, 1 << 32 | 12):
            self.assertEqual(console.unpack(number, console.MINING), ("unpacked", number))
        for number in (0, 17, 18, 127, 130, 0x180, 0x181, 1 << 63 | 129):
            self.assertEqual(console.unpack(number, console.PERMIT), ("unpacked", number))


class Header(unittest.TestCase):
    """The numbers of include/hempmallet.h."""

    def test_numbers(self):
        with open(os.path.join(make_examples.FOLDER, os.pardir, "include", "hempmallet.h")) as header:
            text = header.read()
        refusals = [int(number) for number in re.findall(r"HEMPMALLET_REFUSED_\w+ = (\d+)", text)]
        self.assertEqual(refusals, [number for number in console.REFUSALS if number != 11])  # 11 is path's and next-word's
        self.assertIn("#define HEMPMALLET_LONGEST_FILE %du" % (brute.PROGRAM_INPUT - 1), text)
        self.assertIn("HEMPMALLET_REFUSED_OWNER = 15", text)
        self.assertIn("HEMPMALLET_REFUSED_KNOWN_AND_UNKNOWN = 16", text)


# Functions that write where they may not. The first byte of a file says where.
FAULTY = """
#include <stddef.h>
#include <stdint.h>
static void spoil(uint8_t *bytes, ptrdiff_t at) { bytes[at] ^= 1; }
uint64_t hempmallet_verdict(uint8_t *file, size_t n) {
    if (file[0] == 1) spoil(file, 0);
    if (file[0] == 2) spoil(file, -1);
    if (file[0] == 3) spoil(file, n);
    return 0x280;
}
uint64_t hempmallet_mining(uint8_t *file, size_t n, uint8_t *s, size_t sn, uint8_t *o, size_t on) {
    if (file[0] == 1) spoil(file, n - 1);
    if (file[0] == 2) spoil(s, sn);
    if (file[0] == 3) spoil(s, -1);
    if (file[0] == 4) spoil(o, on);
    if (file[0] == 5) spoil(o, -1);
    if (file[0] == 6) spoil(o, 0);
    if (file[0] == 7) spoil(s, sn - 1);
    return 0x280;
}
uint64_t hempmallet_permit(uint8_t *file, size_t n, uint8_t *l, size_t ln, size_t a, size_t b) {
    if (file[0] == 1) spoil(l, 0);
    if (file[0] == 2) spoil(l, ln);
    if (file[0] == 3) spoil(file, n);
    return a == (size_t)1 << 40 && b == 5 ? 129 : 128;
}
"""


class Calls(unittest.TestCase):
    """The calls are held to what they write, by functions that are at fault."""

    @classmethod
    def setUpClass(cls):
        cls.folder = tempfile.TemporaryDirectory()
        source, made, archive = (os.path.join(cls.folder.name, name) for name in ("f.c", "f.o", "libf.a"))
        with open(source, "w") as out:
            out.write(FAULTY)
        subprocess.run(["gcc", "-fPIC", "-c", source, "-o", made], check=True)
        subprocess.run(["ar", "rc", archive, made], check=True)
        cls.functions = console.Console(console.build(archive, cls.folder.name), random.Random(1))

    @classmethod
    def tearDownClass(cls):
        cls.folder.cleanup()

    def test_verdict(self):
        self.assertEqual(self.functions.verdict(b"\0ab"), ("convertible", 2))
        for first in (b"\1", b"\2", b"\3"):
            self.assertEqual(self.functions.verdict(first + b"ab"), ("overwrote", "file"))

    def test_mining(self):
        def reply(first):
            return self.functions.mining(bytes([first]) + b"ab", b"scratch", b"output")

        self.assertEqual(reply(0), (("length", 2), b"scratch", b"output"))
        self.assertEqual(reply(1)[0], ("overwrote", "file"))
        for first, name in ((2, "scratch"), (3, "scratch"), (4, "output"), (5, "output")):
            self.assertEqual(reply(first)[0], ("overwrote", "bytes beside " + name))
        self.assertEqual(reply(6), (("length", 2), b"scratch", b"nutput"))
        self.assertEqual(reply(7), (("length", 2), b"scratci", b"output"))

    def test_permit(self):
        self.assertEqual(self.functions.permit(b"\0ab", b"list", 0, 5), ("no",))
        self.assertEqual(self.functions.permit(b"\0ab", b"list", 1 << 40, 5), ("yes",))
        for first in (b"\1", b"\2", b"\3"):
            self.assertEqual(self.functions.permit(first + b"ab", b"list", 0, 5), ("overwrote", "file or list"))

    def test_a_difference_counts(self):
        tally = comparing.Tally()
        run = run_console.Run(self.functions, random.Random(2), tally)
        with contextlib.redirect_stdout(io.StringIO()):
            run_console.hold_packed(run)
            run.verdict(converting.Made("A", stored.case_file("A"), brute.Known(stored.case_file("A"))))
        # permit's no to the first pair is right; mining's number, permit's other one and the verdict are not
        self.assertEqual((tally.passed, tally.failed), (1, len(run_console.PACKED) + 3))

    def test_the_length_of_an_empty_slice(self):
        self.assertEqual(console.Lent(random.Random(3), b"").slice()[1], 0)
        lent = console.Lent(random.Random(3), b"ab")
        self.assertEqual(ctypes.string_at(*lent.slice()), b"ab")


class LargerFiles(unittest.TestCase):

    def test_the_arguments_hold_for_few_parties(self):
        names = Counter()
        for seed in range(10):
            n = 5 if seed < 3 else 4
            for row in large_console.rows(random.Random(seed), n):
                if n == 5 and row.name in ("one symbol in language 3", "full"):
                    continue  # too many words to list
                known = brute.Known(row.data)
                self.assertEqual(known.verdict(), row.reply, row.name)
                if row.terms is not None:
                    self.assertEqual(known.terms(), row.terms, row.name)
                    table = brute.scratch_table(known.house, known.table(), known.terms())
                    self.assertEqual(large_console.scratch_of(row.data), table, row.name)
                names[row.reply[0]] += 1
        self.assertTrue(all(names[name] > 20 for name in ("convertible", "rival", "no-word")), names)

    def test_first_lacked(self):
        own, other = [{0, 4}, {0, 8}], [{0}, {0, 8}]
        self.assertEqual(large_console.first_lacked(own, other), (4, 0))
        self.assertEqual(large_console.first_lacked(own, [{0}, {0}]), (0, 8))
        self.assertEqual(large_console.first_lacked(own, [{4}, {0}]), (0, 0))
        self.assertEqual(large_console.first_lacked(own, [{0, 4}]), (0, 0))
        self.assertIsNone(large_console.first_lacked(own, own))

    def test_the_text_of_a_row(self):
        texts = [run_permitconv.text_of_row(row) for row in large_console.rows(random.Random(1), 4)]
        for row, text in zip(large_console.rows(random.Random(1), 4), texts):
            self.assertEqual(brute.permitconv(row.data), text, row.name)


class Inputs(unittest.TestCase):
    """Inputs of permitconv about as long as it reads."""

    def test_texts(self):
        made = list(run_permitconv.about_the_longest(random.Random(8)))
        for kind, data, text in made:
            if not kind.startswith("the longest file"):  # too many words to list
                self.assertEqual(brute.permitconv(data), text, kind)
        lengths = {kind: len(data) for kind, data, _ in made if kind.startswith("the longest file")}
        self.assertEqual(lengths, {"the longest file of edition 1": 35784, "the longest file of edition 2": 44712})

    def test_lengths(self):
        names = [run_permitconv.length_names(length) for length in (44711, 44712, 44713, 44714)]
        self.assertEqual(names, [[], ["input of 44,712 bytes"], ["input of 44,713 bytes"], ["input above 44,713 bytes"]])


class Drawing(unittest.TestCase):

    def test_words_are_shared_by_files_that_differ_in_permits_only(self):
        one, other = stored.case_file("A"), stored.case_file("B")
        self.assertEqual(brute.Known(other, brute.Known(one)).verdict(), brute.Known(other).verdict())
        with self.assertRaises(ValueError):
            brute.Known(stored.case_file("D"), brute.Known(one))

    def test_files_of_one_graph(self):
        rng, kinds = random.Random(4), Counter()
        for _ in range(60):
            for made in converting.of_one_graph(rng) + converting.of_wide_graph(rng)[:1]:
                kinds[made.kind, made.known.verdict()[0]] += 1
                self.assertEqual(brute.call_verdict(made.data), made.known.verdict())
        self.assertEqual([kind for kind in kinds if kind[0] == "rules" and kind[1] != "convertible"], [])

    def test_both_editions_are_drawn(self):
        rng, editions = random.Random(6), Counter()
        for made in converting.drawn(rng, 60, 5, 30):
            editions[made.known.edition] += 1
        editions.update("larger %d" % row.data[0] for row in large_console.rows(rng, 4))
        for edition in (1, 2, "larger 1", "larger 2"):
            self.assertGreater(editions[edition], 15, editions)

    def test_the_same_matter_in_both_editions(self):
        rng, answers = random.Random(7), Counter()
        for made in [made for _ in range(60) for made in converting.of_one_graph(rng)]:
            data = converting.in_other_edition(rng, made)
            self.assertEqual({data[0], made.data[0]}, {1, 2})
            self.assertEqual(run_console.said(brute.Known(data)), run_console.said(made.known))
            self.assertEqual(brute.permitconv(data), brute.permitconv(made.data))
            answers[made.known.verdict()[0]] += 1
        self.assertTrue(all(answers[name] > 10 for name in ("convertible", "rival", "no-word")), answers)

    def test_every_demand_is_missed_by_nothing(self):
        run = run_console.Run(None, random.Random(5), comparing.Tally())
        self.assertEqual(len(console_demands.lacking(run)), len(console_demands.DEMANDS) + unknowns.LINES + 1)
        before = console_demands.lacking(run)
        run.account["made unknown: verdict changes in language 2"] = 1
        self.assertEqual(len(console_demands.lacking(run)), len(before) + 1)

    def test_one_made_unknown(self):
        rng, seen = random.Random(9), Counter()
        for made in [made for _ in range(80) for made in converting.of_one_graph(rng)]:
            other = converting.with_one_unknown(rng, made)
            if other is None:
                self.assertEqual(files.absent_relations(made.known.house), [])
                continue
            one, two = made.known.house, other.known.house
            self.assertEqual((len(two.unknown - one.unknown), other.known.edition), (1, made.known.edition))
            self.assertEqual(one, two._replace(unknown=one.unknown))
            seen.update(console_demands.made_unknown_occurrences(made.known, other.known))
        for name in ("verdict changes", "verdict changes in language 1", "verdict changes in language 3", "verdict stays in language 0",
                     "verdict stays in language 2", "verdict changes in edition 1", "convertible becomes convertible"):
            self.assertGreater(seen[name], 5, seen)
        self.assertEqual(seen["verdict changes in language 0"] + seen["verdict changes in language 2"], 0)

    def test_the_changes_of_verdicts_by_hand(self):
        known = {name: brute.Known(stored.case_file(name)) for name in (
            "nothing unknown, permit (1,0)", "(0,1) unknown, permit (1,0)", "A")}
        names = console_demands.made_unknown_occurrences(known["nothing unknown, permit (1,0)"], known["(0,1) unknown, permit (1,0)"])
        self.assertEqual(names, ["verdict changes", "verdict changes in language 1", "verdict changes in edition 1",
                                 "rival becomes convertible"])
        self.assertEqual(console_demands.made_unknown_occurrences(known["A"], known["A"]), ["verdict stays in language 0"])

    def test_stored_examples(self):
        for name, data in make_examples.examples().items():
            with open(os.path.join(make_examples.FOLDER, name), "rb") as example:
                self.assertEqual(example.read(), data, name)

    def test_the_archive_gives_its_rules_back(self):
        known = brute.Known(make_examples.archive32())
        self.assertEqual(sorted(known.terms()), sorted(make_examples.RULES))


if __name__ == "__main__":
    unittest.main()
