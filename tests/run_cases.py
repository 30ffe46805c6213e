"""Hold the program `cases` against brute.py on many files.

    python3 tests/run_cases.py PATH_OF_CASES_BINARY

Check runs on every file, decode on about a third of them. Some matters are
written in both editions, and decode must print the same lines for the two. The
seeds are fixed, so each run has the same files. The last line printed is `N passed, M failed`:
N counts frames; M counts frames and, beside them, demands on the set of files
that are not met. The exit status is 0 only where M is 0.
"""

import random
import sys
from collections import Counter

import brute
import comparing
import files
import run_paths
import script
import unknowns

FEWEST_FILES = 20000
FEWEST_OF_EACH = 200
FEWEST_OF_AN_EDITION = 4000
MATTERS_IN_BOTH = 500


# ------------------------------------------------------------------ the files

def small_files():
    """The many small files: valid, damaged once, damaged twice, and without plan."""
    rng = random.Random(101)
    made = [files.random_file(rng) for _ in range(7000)]
    for damage in files.DAMAGES:
        made += [files.damaged_draft(rng, damage).bytes() for _ in range(400)]
    made += [files.twice_damaged_file(rng) for _ in range(2500)]
    made += [files.byte_changed(files.random_file(rng), rng) for _ in range(2500)]
    made += [files.cut(files.random_file(rng), rng) for _ in range(600)]
    made += [files.lengthened(files.random_file(rng), rng) for _ in range(600)]
    made += [files.header_and_length_wrong(rng) for _ in range(400)]
    made += [files.of_two_editions(rng) for _ in range(900)]
    made += [files.random_bytes(rng) for _ in range(300)]
    made += [files.random_links(rng) for _ in range(4000)]
    made += files.middle_files(rng, 120)
    return made


def chosen_files():
    """Files at the limits, large files and files with one long chain."""
    rng = random.Random(202)
    made = []
    for _ in range(20):
        made += files.limit_files(rng)
    made += files.highest_values(rng)
    made += files.highest_owners(rng)
    made += files.full_files(rng)
    made += files.limit_of_count_files(rng)
    made += files.deep_files(rng)
    return made


def both_editions():
    """Files of the same matter in pairs, the one in edition 1 and the other in edition 2."""
    rng = random.Random(212)
    matters = [files.random_matter(rng) for _ in range(MATTERS_IN_BOTH)]
    return [[files.lay_out(matter, rng, edition).bytes() for edition in files.EDITIONS] for matter in matters]


def make_frames():
    """All frames as (call, file): check on all files, decode on a part of them."""
    frames = []
    for number, data in enumerate(small_files()):
        frames.append((script.CHECK, data))
        if number % 3 == 0:
            frames.append((script.DECODE, data))
    for data in chosen_files() + [data for pair in both_editions() for data in pair]:
        frames.append((script.CHECK, data))
        frames.append((script.DECODE, data))
    return frames


# ---------------------------------------------------- demands on the files

# The limits: name, place of the header's byte, last value in range, first value past it.
BYTE_LIMITS = [("n", 1, 32, 33), ("L", 2, 8, 9), ("language", 3, 3, 4), ("D", 4, 31, 32)]
WRONG_EDITIONS = (0, 3, 255)

# The least number of times that each must occur. Two numbers hold at one record; the first one is the refusal.
DEMANDS = {
    "both hold: 4 and 15": 200, "both hold: 15 and 6": 200, "both hold: 15 and 7": 200, "both hold: 15 and 8": 200,
    "both hold: 4 and 8": 100, "both hold: 4 and 6": 100, "both hold: 6 and 7": 100,
    "both hold: 15 and 16": 200, "both hold: 4 and 16": 200,
    "owner: another party of the file": 200, "owner: n": 100, "owner: above n": 100, "owner: 255": 100,
    "owner: right at a record refused 6": 200, "owner: right at a record refused 7": 200, "owner: right at a record refused 8": 200,
    "owner: right at a record refused 16": 200,
    "owner: n or more at a record never reached": 200,
    "edition: 2 with the length of 1 refused 1": 200, "edition: 1 with the length of 2 refused 1": 200,
    "edition: no records, accepted as 1": 50, "edition: no records, accepted as 2": 50,
    "edition: the same matter in both, the same lines": MATTERS_IN_BOTH,
    "kind: unknown, label 7": 150, "kind: unknown, label L - 1": FEWEST_OF_EACH,
}
DEMANDS.update({"kind: %s refused 7" % name: 50 for name in ("L", "80 + L", "7F", "88", "FE")})
DEMANDS.update({"known beside unknown: %s" % name: 500 for name in (
    "one pair, two labels", "one owner and label, two targets", "one target and label, two owners", "one label there and back")})
DEMANDS.update({"edition: %d of %s length refused 2" % (edition, which): 10
                for edition in WRONG_EDITIONS for which in ("a right", "another")})
DEMANDS.update({"accepted: edition %d in language %d" % (edition, language): FEWEST_OF_EACH
                for edition in files.EDITIONS for language in range(4)})
DEMANDS.update({"accepted: edition %d" % edition: FEWEST_OF_AN_EDITION for edition in files.EDITIONS})


class Account:
    """How often each reply, each limit and each of the other things occurred among the files."""

    def __init__(self):
        self.different = set()
        self.replies = {number: 0 for number in [0, *brute.FILE_REFUSALS]}
        self.languages = {language: 0 for language in range(4)}
        self.others = Counter()
        self.limits = {}
        for name, _, last, past in BYTE_LIMITS:
            self.limits["%s %d accepted" % (name, last)] = 0
            self.limits["%s %d refused 2" % (name, past)] = 0
        for edition in files.EDITIONS:
            self.limits["R 8928 accepted, %d bytes" % files.LONGEST_FILES[edition]] = 0
            self.limits["R 8928 and a byte more refused 1, edition %d" % edition] = 0
            self.limits["R 8928 of another length refused 1, edition %d" % edition] = 0
            self.limits["R 8929 of its length refused 2, edition %d" % edition] = 0
            self.limits["R 8929 of another length refused 2, edition %d" % edition] = 0

    def count(self, data):
        reply = brute.check(data)
        unknowns.count(self.others, self.different, data, reply)
        self.replies[reply] += 1
        if reply == 0:
            self.languages[data[3]] += 1
        if len(data) >= 8:
            self.count_limits(data, reply)
            self.others.update(occurrences(data, reply))

    def count_both(self, one, other):
        """Two files of the same matter, one in each edition; decode must print the same for them."""
        same = (one[0], other[0]) == (1, 2) and script.decode_text(one) == script.decode_text(other)
        self.others["edition: the same matter in both, the same lines"] += same

    def count_limits(self, data, reply):
        for name, at, last, past in BYTE_LIMITS:
            if data[at] == last and reply == 0:
                self.limits["%s %d accepted" % (name, last)] += 1
            if data[at] == past and only_fault(data, at, last):
                self.limits["%s %d refused 2" % (name, past)] += 1
        if data[0] in files.EDITIONS:
            self.count_records(data, reply)

    def count_records(self, data, reply):
        """The limits of R, which each edition has."""
        edition, records = data[0], brute.two_bytes(data, 6)
        more = len(data) - files.length_in(edition, data)
        if records == 8928 and reply == 0 and data[1] == 32:
            self.limits["R 8928 accepted, %d bytes" % len(data)] += 1
        if records == 8928 and reply == 1 and more != 0:
            self.limits["R 8928 of another length refused 1, edition %d" % edition] += 1
            self.limits["R 8928 and a byte more refused 1, edition %d" % edition] += more == 1
        if records == 8929 and only_fault(data, 6, 0xE0):
            which = "its" if more == 0 else "another"
            self.limits["R 8929 of %s length refused 2, edition %d" % (which, edition)] += 1

    def lacking(self):
        """The demands that the files do not meet, as lines of text."""
        lines = []
        if len(self.different) < FEWEST_FILES:
            lines.append("only %d different files" % len(self.different))
        for number, times in self.replies.items():
            if number and times < FEWEST_OF_EACH:
                lines.append("refusal %d occurs only %d times" % (number, times))
        for language, times in self.languages.items():
            if times < FEWEST_OF_EACH:
                lines.append("language %d is accepted only %d times" % (language, times))
        for name, times in self.limits.items():
            if times == 0:
                lines.append("limit missing: %s" % name)
        return lines + run_paths.unmet(self.others, DEMANDS) + unknowns.lacking(self.others, FEWEST_OF_EACH, FEWEST_OF_EACH)

    def text(self):
        lines = ["accepted %d (by language: %s)" % (
            self.replies[0], ", ".join("%d in %d" % (t, l) for l, t in self.languages.items()))]
        lines.append("refused: " + ", ".join(
            "%d with %d" % (times, number) for number, times in self.replies.items() if number))
        lines.append("limits: " + "; ".join(
            "%s %d times" % (name, times) for name, times in self.limits.items()))
        return "\n".join(lines + [run_paths.account_text(self.others)])


def occurrences(data, reply):
    """The names of what occurs in a file of 8 bytes or more."""
    edition = data[0]
    if edition in WRONG_EDITIONS and only_fault(data, 0, 1):
        right = len(data) in [files.length_in(one, data) for one in files.EDITIONS]
        return ["edition: %d of %s length refused 2" % (edition, "a right" if right else "another")]
    if reply == 0:
        found = ["accepted: edition %d" % edition] + beside(brute.decode(data))
        return found + (["edition: no records, accepted as %d" % edition] if data[6:8] == b"\0\0" else [])
    if reply == 1 and len(data) == files.length_in(files.other_edition(edition), data):
        return ["edition: %d with the length of %d refused 1" % (edition, files.other_edition(edition))]
    return chain_occurrences(data, reply) if reply not in (1, 2) else []


def beside(house):
    """What is special in an accepted file's unknown relations, and in the known ones beside them."""
    known, unknown = house.edges, house.unknown
    labels = {label for _, _, label in unknown}
    special = {
        "kind: unknown, label 7": 7 in labels,
        "kind: unknown, label L - 1": house.labels - 1 in labels,
        "known beside unknown: one pair, two labels": {one[:2] for one in known} & {one[:2] for one in unknown},
        "known beside unknown: one owner and label, two targets": {one[::2] for one in known} & {one[::2] for one in unknown},
        "known beside unknown: one target and label, two owners": {one[1:] for one in known} & {one[1:] for one in unknown},
        "known beside unknown: one label there and back": {(v, u, label) for u, v, label in known} & unknown,
    }
    return [name for name, is_there in special.items() if is_there]


def kind_names(kind, labels):
    """What a kind byte is that is none."""
    special = {"L": labels, "80 + L": brute.UNKNOWN + labels, "7F": 0x7F, "88": 0x88, "FE": 0xFE}
    return ["kind: %s refused 7" % name for name, byte in special.items() if kind == byte]


def chain_occurrences(data, reply):
    """The names of what occurs in a file that is refused for its chains."""
    fault = brute.first_fault(data)
    found = ["both hold: %d and %d" % (reply, other) for other in fault.numbers[1:]]
    owner = None if reply == 3 else brute.owner_of(data, fault.record)
    if reply == 7:
        found += kind_names(brute.record_of(data, fault.record)[1], data[2])
    if reply == 15:
        found += owner_names(owner, data[1])
    elif reply in (6, 7, 8, 16) and owner is not None:
        found.append("owner: right at a record refused %d" % reply)
    elif reply == 5 and owner is not None and owner >= data[1]:
        found.append("owner: n or more at a record never reached")
    return found


def owner_names(owner, n):
    """What a wrong owner is."""
    special = {"another party of the file": owner < n, "n": owner == n, "above n": owner > n, "255": owner == 255}
    return ["owner: " + name for name, is_so in special.items() if is_so]


def only_fault(data, at, mended):
    """Whether the header is out of range, and would not be with this one byte mended."""
    mended_data = data[:at] + bytes([mended]) + data[at + 1:]
    return not brute.header_in_range(data) and brute.header_in_range(mended_data)


# ------------------------------------------------------------------- the run

def prepare():
    frames = make_frames()
    account = Account()
    for call, data in frames:
        if call == script.CHECK:
            account.count(data)
    for one, other in both_editions():
        account.count_both(one, other)
    cases = [script.Case(script.frame(call, data), script.expected(call, data))
             for call, data in frames]
    checks = sum(1 for call, _ in frames if call == script.CHECK)
    text = "%d different files, %d frames: %d of check, %d of decode\n" % (
        len(account.different), len(frames), checks, len(frames) - checks)
    return comparing.Prepared([(cases, None)], text + account.text(), account.lacking())


if __name__ == "__main__":
    sys.exit(comparing.run_prepared(sys.argv, prepare))
