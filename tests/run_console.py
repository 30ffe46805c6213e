"""Hold the console's functions verdict, mining and permit against brute.py on many files.

    python3 tests/run_console.py PATH_OF_ARCHIVE PATH_OF_CASES_BINARY

Every file has its verdict asked, is mined with scratch and output of sizes at
and beside the limits, and its mined list is given to permit for every pair.
Where the verdict names a rival, the program `cases` shows a path of the pair
and one of the rival for each of the pair's words. Some files are then asked
about once more as their copies and in the other edition, and some with an absent
relation made unknown. Then come the larger files of large_console.py. The seeds
are fixed. The last line printed is `N passed, M failed`: N counts calls; M counts
calls and, beside them, demands on the set of files that are not met. The exit
status is 0 only where M is 0.
"""

import os
import random
import signal
import subprocess
import sys
import tempfile
import threading
from collections import Counter
from itertools import product

import brute
import comparing
import console
import console_demands
import converting
import large_console
import run_paths
import run_permit
import script
import stored
import unknowns

GRAPHS = 7000
WIDE_GRAPHS = 60
DAMAGED_FILES = 6500
MOST_RIVAL_WORDS = 40
ALL_SIZES_PART = 0.1        # of the convertible files
AGAIN_EVERY = 20            # of the files, one
MADE_UNKNOWN_EVERY = 8      # of the files, one, and one more in which an absent relation is unknown
SCRATCH = brute.SCRATCH_LENGTH
SECONDS_OF_RUN = 1500     # a call that does not end ends the run without its last line

# Parties no file has; the last ones would be parties of it if they were cut to fewer bits.
HIGH_PARTIES = [32, 255, 256, 257, 1 << 16, 1 << 32, (1 << 32) + 1, 1 << 63, (1 << 64) - 1]


class Run:
    """Calls the console, compares, and keeps an account of what occurs."""

    def __init__(self, functions, rng, tally):
        self.functions = functions
        self.rng = rng
        self.tally = tally
        self.account = Counter()
        self.files = set()
        self.path_cases = []

    def hold(self, call, made, arguments, expected, found):
        """One call compared."""
        self.tally.hold(expected == found, lambda: (
            "difference in %s %s" % (call, arguments), "  file: %s" % comparing.shortened(made.data),
            "  expected: %s" % shown(expected), "  found:    %s" % shown(found)))

    def count(self, call, names):
        self.account.update("%s: %s" % (call, name) for name in names)

    def verdict(self, made):
        expected = brute.verdict_reply(made.known)
        self.hold("verdict", made, "", expected, self.functions.verdict(made.data))
        self.count("verdict", console_demands.verdict_occurrences(made, expected))
        unknowns.count(self.account, self.files, made.data, made.known.refusal)

    def mining(self, made, scratch_length, output_length):
        """Mining with lent buffers of these lengths and random old bytes."""
        scratch, output = self.rng.randbytes(scratch_length), self.rng.randbytes(output_length)
        expected = brute.mining_reply(made.known, scratch, output)
        found = self.functions.mining(made.data, scratch, output)
        self.hold("mining", made, "scratch %d output %d" % (scratch_length, output_length), expected, found)
        self.count("mining", console_demands.mining_occurrences(made.known, expected[0], scratch_length, output_length))
        return found

    def permit(self, made, listed, pair):
        expected = brute.permit_reply(made.known, *pair, listed)
        found = self.functions.permit(made.data, listed, *pair)
        self.hold("permit", made, "%s list %s" % (pair, comparing.shortened(listed)), expected, found)
        self.count("permit", console_demands.permit_occurrences(made.known, pair, listed, expected))


def shown(reply):
    """A reply with the buffers in it shortened."""
    if isinstance(reply[0], str):
        return str(reply)
    return " ".join(comparing.shortened(part) if isinstance(part, bytes) else str(part) for part in reply)


# ------------------------------------------------------------- calls on a file

def ask(run, made):
    """All calls on one file."""
    run.verdict(made)
    answer = brute.verdict_reply(made.known)
    if answer[0] == "convertible":
        ask_convertible(run, made, answer[1])
    else:
        ask_not_mined(run, made)
    if answer[0] == "rival":
        show_rival(run, made, answer[1], answer[2])


def ask_convertible(run, made, length):
    """Mining at the limits, and permit with the mined list."""
    rng = run.rng
    reply, _, output = run.mining(made, SCRATCH, length)
    sizes = [(SCRATCH, length - 1), (SCRATCH + 1, length + 1), (SCRATCH - 1, length),
             (rng.choice([SCRATCH, SCRATCH + 1]), rng.choice([0, rng.randrange(length)])),
             (rng.choice([0, SCRATCH - 1]), rng.choice([0, length - 1, length + 1])),
             (rng.choice([SCRATCH, 2 * SCRATCH + 7]), length + rng.randrange(200))]
    if rng.random() < ALL_SIZES_PART:
        sizes = product((0, SCRATCH - 1, SCRATCH, SCRATCH + 1), (0, length - 1, length, length + 1))
        run.account["mined with all sizes"] += 1
    for scratch_length, output_length in sizes:
        run.mining(made, scratch_length, output_length)
    if reply[0] != "length":
        return
    mined = output[:reply[1]]
    for pair in brute.pairs(made.known.house):
        run.permit(made, mined, pair)
    for pair in wrong_pairs(rng, made.known.house):
        run.permit(made, mined, pair)
    for listed, pair in damaged_lists(rng, made.known, mined):
        run.permit(made, listed, pair)


def ask_not_mined(run, made):
    """Mining of a file that is refused or not convertible, and permit with any list."""
    rng = run.rng
    run.mining(made, SCRATCH, rng.choice([0, 2, 40, 400]))
    run.mining(made, rng.choice([0, SCRATCH - 1]), rng.choice([0, 40]))
    run.mining(made, SCRATCH + 1, rng.choice([0, 7]))
    for listed in (b"\0\0", b"\1\0\1\0\1\0", rng.randbytes(rng.randrange(9))):
        run.permit(made, listed, (rng.randrange(5), rng.randrange(5)))
    if not made.known.refusal and made.known.house.n > 1:
        lister = run_permit.Lister(rng, made.known)
        pair = lister.some_pair()
        run.permit(made, brute.encode_list(lister.yes_terms(pair)), pair)
        run.permit(made, lister.damaged(pair, lister.yes_terms(pair)), pair)
    elif made.known.refusal:
        run.permit(made, b"", (rng.choice(HIGH_PARTIES), 0))


def wrong_pairs(rng, house):
    """Pairs that are no pairs of the house."""
    inside = rng.randrange(house.n)
    return [(inside, inside), (inside, house.n), (house.n, inside),
            rng.choice([(rng.choice(HIGH_PARTIES), inside), (inside, rng.choice(HIGH_PARTIES))]),
            (rng.choice(HIGH_PARTIES),) * 2]


def damaged_lists(rng, known, mined):
    """Lists that are broken, most of them, each with a pair; at times that is no pair."""
    if known.house.n == 1:
        return [(mined + b"\0", (0, 0)), (mined[:1], (0, 1))]
    lister = run_permit.Lister(rng, known)
    pair = lister.some_pair()
    at = rng.randrange(len(mined))
    changed = mined[:at] + bytes([mined[at] ^ 1 << rng.randrange(8)]) + mined[at + 1:]
    return [(mined + rng.choice([b"\0", b"\1"]), pair), (mined[:rng.randrange(len(mined))], pair),
            (changed, pair), (lister.damaged_after_yes(pair), pair),
            (lister.damaged(pair, lister.yes_terms(pair)), rng.choice([pair, (pair[0], pair[0])]))]


def show_rival(run, made, pair, rival):
    """Paths of the pair and of its rival for each word of the pair, while there are few enough."""
    listed = made.known.words(*pair)
    if len(listed) > MOST_RIVAL_WORDS or run.account["rivals shown"] == console_demands.RIVAL_FILES:
        return
    run.account["rivals shown"] += 1
    run.account["rivals shown of several words"] += len(listed) > 1
    for word in listed:
        for shown_pair in (pair, rival):
            run.path_cases.append(path_case(run, made, shown_pair, word))


def path_case(run, made, pair, word):
    """The frame of a path call for a word that the pair must have, and its lines."""
    asked = run_paths.Asker(run.rng, made.known).asked(script.PATH, pair, word)
    given = script.given_bytes(asked.length, asked.symbols)
    output = run.rng.randbytes(asked.room + 2 * script.GUARD)
    reply, after = script.word_reply(script.PATH, made.known, *pair, given, output)
    if reply[0] != "parties":
        raise AssertionError("a rival has every word of the pair")
    frame = script.word_frame(script.PATH, made.data, *pair, given, output)
    return script.Case(frame, script.output_text(script.PATH, reply, after))


# ------------------------------------------------------------------------ the run

# The numbers that docs/EXPORTS.md has: 01's cases A, B and C, A in edition 2 and refused files for the verdict; for mining and permit, A.
# Then those of 02's Ticket 5, by hand: with (0,1) unknown, permit (1,0) has the word 01, and without it (0,1) has that word too.
PACKED = [("A", 0x780), ("B", 0x0201010082), ("C", 0x0281), ("A with record 2's next 01 00", 4),
          ("A in edition 2", 0x780), ("A in edition 2 with record 1's owner 01", 15),
          ("(0,1) unknown, permit (1,0)", 0x680), ("(0,1) unknown, permit (0,1)", 0x010081),
          ("nothing unknown, permit (1,0)", 0x0100000182), ("A with record 2 01 80 00 00", 16)]
PACKED_MINING = 0x780
PACKED_PERMIT = [((0, 1), 0x80), ((0, 2), 0x81)]


def hold_packed(run):
    """The numbers themselves."""
    def hold(call, name, data, number, found):
        run.hold(call, converting.Made(name, data, None), "as a number", (number,), (found,))

    library = run.functions.library
    for name, number in PACKED:
        data = stored.case_file(name)
        file = console.Lent(run.rng, data)
        hold("verdict", name, data, number, library.hempmallet_verdict(*file.slice()))
    data = stored.case_file("A")
    file, scratch, output = (console.Lent(run.functions.rng, content) for content in (data, bytes(1024), bytes(7)))
    hold("mining", "A", data, PACKED_MINING, library.hempmallet_mining(*file.slice(), *scratch.slice(), *output.slice()))
    for pair, number in PACKED_PERMIT:
        hold("permit", "A", data, number, library.hempmallet_permit(*file.slice(), *output.slice(), *pair))


def ask_all(run):
    """All calls on every file, and then on other files of the same matter for some."""
    asked = []
    for number, made in enumerate(converting.drawn(run.rng, GRAPHS, WIDE_GRAPHS, DAMAGED_FILES)):
        ask(run, made)
        if number % AGAIN_EVERY == 0 and not made.known.refusal:
            asked.append(made)
        if number % MADE_UNKNOWN_EVERY == 0 and not made.known.refusal:
            ask_made_unknown(run, made)
    for made in asked:
        ask_others(run, made)


def ask_others(run, made):
    """All calls on the file's copy, where it is another file, and on a file in the other edition."""
    copy = brute.canonical(made.known.house)
    if copy != made.data:
        ask_again(run, made, "copy", copy)
        run.account["asked with the copy of one of edition %d" % made.known.edition] += 1
    ask_again(run, made, "the other edition", converting.in_other_edition(run.rng, made))
    run.account["asked in both editions"] += 1


def ask_again(run, made, kind, data):
    """All calls on another file with the file's matter; verdict and list must be the file's."""
    known = brute.Known(data)
    if said(known) != said(made.known):
        run.tally.fault("%s of a file has another verdict or list" % kind)
    ask(run, converting.Made(kind, data, known))


def ask_made_unknown(run, made):
    """All calls on the file with one absent relation made unknown. No symbol holds that did not before."""
    other = converting.with_one_unknown(run.rng, made)
    if other is None:
        return
    if any(not set(symbols) <= set(made.known.graph[pair]) for pair, symbols in other.known.graph.items()):
        run.tally.fault("a symbol holds of an unknown relation")
    ask(run, other)
    run.count("made unknown", console_demands.made_unknown_occurrences(made.known, other.known))


def said(known):
    """The verdict of an accepted file and, where it is convertible, its list."""
    answer = known.verdict()
    return answer, known.terms() if answer[0] == "convertible" else None


def with_stack(size, ask):
    """Ask in a thread that has a stack of this size, in bytes; a host may have no more."""
    raised = []

    def guarded():
        try:
            ask()
        except Exception as error:
            raised.append(error)

    threading.stack_size(size)
    thread = threading.Thread(target=guarded)
    thread.start()
    thread.join()
    if raised:
        raise raised[0]


def main(arguments):
    tally = comparing.Tally()
    if len(arguments) != 3:
        tally.fault("usage: run_console.py PATH_OF_ARCHIVE PATH_OF_CASES_BINARY")
        return tally.close()
    signal.alarm(SECONDS_OF_RUN)
    archive, binary = map(os.path.abspath, arguments[1:])
    with tempfile.TemporaryDirectory() as folder:
        shared = console.built(archive, folder, tally)
        if shared is None:
            return tally.close()
        run = Run(console.Console(shared, random.Random(606)), random.Random(707), tally)
        hold_packed(run)
        ask_all(run)
        print("larger files, with %d bytes of stack" % run_paths.STACK, flush=True)
        with_stack(run_paths.STACK, lambda: large_console.ask_all(run))
    comparing.run(binary, run.path_cases, tally)
    print("%d different files, %d calls, %d of them paths of rivals" % (
        len(run.files), tally.frames, len(run.path_cases)))
    print(run_paths.account_text(run.account, "files"))
    for line in console_demands.lacking(run):
        tally.fault(line)
    return tally.close()


if __name__ == "__main__":
    sys.exit(main(sys.argv))
