"""Hold write of the program `cases` against brute.py on many files.

    python3 tests/run_write.py PATH_OF_CASES_BINARY

Each matter is laid out in three random orders, in both editions, whose copies
must be equal. The copy is written again and must stay as it is; the matter with
one thing changed must have another copy. Outputs are of the copy's length, longer
or too short; they have random old bytes and random guard bytes on both sides. The
other calls are asked about some small files of edition 1 and, with the same
arguments, about files of edition 2 with the same matter and about the copies; the
lines must be the same. The seeds are fixed, so each run has the same frames.
The last line printed is `N passed, M failed`: N counts frames; M counts frames
and, beside them, demands on the set of frames that are not met. The exit status
is 0 only where M is 0.
"""

import random
import sys
from itertools import product

import brute
import comparing
import files
import run_paths
import run_permit
import script
import stored
import unknowns

SMALL_MATTERS = 5000
CROWDED_MATTERS = 600
MIDDLE_FILES = 120
DAMAGED_FILES = 3200
TWICE_DAMAGED_FILES = 600
ASKED_FILES = 300
ASKED_PATHS = 150         # about how many paths a pair may have in a file that other calls are asked about
ORDERS = (1, 2, None)     # the editions in which a matter is laid out; None is either
CHANGES_OF_MATTER = 3
LONGEST_COPY = files.LONGEST_FILES[2]
LONGEST_CHAIN = 279
FEWEST_16, FEWEST_8 = 200, 80   # files, with 16 in each order and with 8 for two unknown relations


# ------------------------------------------------------- matter with a change

def another(rng, own, lowest, highest):
    """Another value than the own one, or None where the range has none."""
    values = [value for value in range(lowest, highest + 1) if value != own]
    return rng.choice(values) if values else None


def one_less_or_more(rng, own, drawn):
    """The set with one of its members taken out, or with the drawn one put in or taken out."""
    member = rng.choice(sorted(own)) if own and rng.random() < 0.5 else drawn
    return own ^ {member}


def permit_changed(rng, matter):
    """A permit less or more; one party has no pair."""
    if matter.n == 1:
        return None
    pair = tuple(rng.sample(range(matter.n), 2))
    return matter._replace(permits=one_less_or_more(rng, matter.permits, pair))


def relation_changed(rng, matter):
    """A known relation less or more; an unknown one stays, and one party has no pair."""
    if matter.n == 1:
        return None
    edge = (*rng.sample(range(matter.n), 2), rng.randrange(matter.labels))
    edges = one_less_or_more(rng, matter.edges, edge)
    return matter._replace(edges=edges) if edges.isdisjoint(matter.unknown) else None


def one_of(rng, relations):
    """A set of one of these, or of none where there are none."""
    return {rng.choice(sorted(relations))} if relations else set()


def absent_to_unknown(rng, matter):
    """An absent relation becomes unknown."""
    one = one_of(rng, files.absent_relations(matter))
    return matter._replace(unknown=matter.unknown | one) if one else None


def known_to_unknown(rng, matter):
    """A known relation becomes unknown."""
    one = one_of(rng, matter.edges)
    return matter._replace(edges=matter.edges - one, unknown=matter.unknown | one) if one else None


def unknown_to_known(rng, matter):
    """An unknown relation becomes known."""
    one = one_of(rng, matter.unknown)
    return matter._replace(edges=matter.edges | one, unknown=matter.unknown - one) if one else None


def unknown_to_absent(rng, matter):
    """An unknown relation becomes absent."""
    one = one_of(rng, matter.unknown)
    return matter._replace(unknown=matter.unknown - one) if one else None


def longest_changed(rng, matter):
    """Another D."""
    return matter._replace(longest=another(rng, matter.longest, 1, 31))


def labels_changed(rng, matter):
    """Another L that is above every label in use, where there is one."""
    lowest = 1 + max((label for _, _, label in (*matter.edges, *matter.unknown)), default=0)
    labels = another(rng, matter.labels, lowest, 8)
    return labels and matter._replace(labels=labels)


def language_changed(rng, matter):
    """Another language."""
    return matter._replace(language=another(rng, matter.language, 0, 3))


def parties_changed(rng, matter):
    """Another n that is above every party in use, where there is one."""
    lowest = 1 + max((party for entry in (*matter.edges, *matter.permits, *matter.unknown) for party in entry[:2]), default=0)
    n = another(rng, matter.n, lowest, 32)
    return n and matter._replace(n=n)


CHANGES = {"one permit": permit_changed, "one relation": relation_changed, "D": longest_changed,
           "L": labels_changed, "language": language_changed, "n": parties_changed,
           "absent to unknown": absent_to_unknown, "known to unknown": known_to_unknown,
           "unknown to known": unknown_to_known, "unknown to absent": unknown_to_absent}

# How often each change must occur at least; there must be an unknown relation for some of them.
FEWEST_CHANGES = {name: 1000 for name in CHANGES}
FEWEST_CHANGES.update({"unknown to known": 300, "unknown to absent": 300})


# ----------------------------------------------------------------- the frames

class Collection(run_paths.Collection):
    """The cases so far, an account of what occurs in them, and lines about copies that are not as they must be."""

    def __init__(self, rng):
        super().__init__(rng)
        self.faults = []

    def add(self, data, room):
        """One more case. Returns its reply and the lent bytes afterwards."""
        output = self.rng.randbytes(room + 2 * script.GUARD)
        reply, after = script.write_reply(data, output)
        frame = script.write_frame(data, output)
        self.cases.append(script.Case(frame, script.output_text(script.WRITE, reply, after)))
        self.account.update("write: " + what for what in occurrences(data, room, reply))
        return reply, after[script.GUARD:-script.GUARD]

    def copy_of(self, data, more=None):
        """A case on an accepted file with an output that is long enough. Returns the copy."""
        if more is None:
            more = self.rng.choice([0, 0, 1, self.rng.randint(2, 60)])
        length = files.length_in(2, data)
        reply, after = self.add(data, length + more)
        self.demand(reply == ("length", length), "a copy of %d bytes has the reply %s %d" % (length, *reply))
        self.account["files: accepted and new"] += data not in self.files
        unknowns.count(self.account, self.files, data, 0)
        return after[:reply[1]]

    def add_short(self, data):
        """Cases with an output that is too short: none, one byte short, or something between. In edition 1
        the file's own length is one of these, where it has records."""
        length = files.length_in(2, data)
        self.add(data, self.rng.choice([0, length - 1]))
        if len(data) < length:
            self.add(data, len(data))
        if self.rng.random() < 0.3:
            self.add(data, self.rng.choice([8, 8 + 2 * data[1] - 1, self.rng.randrange(length)]))

    def demand(self, is_met, line):
        """What must hold of the reckoned copies."""
        if not is_met:
            self.faults.append(line)


def add_matter(collection, matter):
    """The matter in three orders, a copy that is written again, and the matter with some changes."""
    rng, account = collection.rng, collection.account
    orders = [files.lay_out(matter, rng, edition).bytes() for edition in ORDERS]
    copies = [collection.copy_of(data) for data in orders]
    collection.demand(len(set(copies)) == 1, "three orders of one matter have different copies")
    collection.demand(collection.copy_of(copies[0]) == copies[0], "a copy that is written again changes")
    collection.add_short(rng.choice(orders))
    account.update("matter: " + what for what in features(matter) + order_names(orders, copies[0]))
    for name in rng.sample(sorted(CHANGES), CHANGES_OF_MATTER):
        changed = CHANGES[name](rng, matter)
        if changed is not None:
            other = collection.copy_of(files.lay_out(changed, rng).bytes())
            collection.demand(other != copies[0], "%s changed, and the copy is the same" % name)
            account["changed: " + name] += 1


def add_file(collection, data):
    """An accepted file's matter; a refused file with an output that is long enough and with one that isn't."""
    rng = collection.rng
    if brute.check(data) == 0:
        add_matter(collection, files.Matter(*brute.decode(data)))
    else:
        unknowns.count(collection.account, collection.files, data, brute.check(data))
        collection.add(data, len(data) + rng.choice([0, 0, 1, rng.randint(2, 60)]))
        collection.add(data, rng.choice([0, max(0, len(data) - 1)]))


def add_small(collection):
    """Small matters of all sorts, and some with many entries for few parties."""
    rng = collection.rng
    for _ in range(SMALL_MATTERS):
        add_matter(collection, files.random_matter(rng))
    for _ in range(CROWDED_MATTERS):
        add_matter(collection, files.random_matter(rng, n=rng.randint(2, 4), most=80))


def add_chosen(collection):
    """Files at the limits, with some hundreds of records, or with one long chain."""
    rng = collection.rng
    for data in files.limit_files(rng) + files.highest_values(rng) \
            + files.middle_files(rng, MIDDLE_FILES) + files.deep_files(rng):
        add_file(collection, data)


def add_damaged(collection):
    """Damaged files; some of them are accepted nevertheless."""
    rng = collection.rng
    for number in range(DAMAGED_FILES + TWICE_DAMAGED_FILES):
        damaged = run_paths.damaged_file if number < DAMAGED_FILES else files.twice_damaged_file
        add_file(collection, damaged(rng))


def add_longest(collection):
    """The longest file of each edition in every language, with each length of output, and with faults at its end."""
    rng = collection.rng
    for language, edition in product(range(4), files.EDITIONS):
        data = files.full_draft(rng, language, rng.randint(1, 31), edition, 0.5 if language in (1, 2) else 0).bytes()
        for more in (0, 1, script.LONGEST_COPY_OUTPUT - LONGEST_COPY):
            collection.copy_of(data, more)
        for room in (LONGEST_COPY - 1, files.LONGEST_FILES[1], 0):
            collection.add(data, room)
        if edition == 1:
            add_file(collection, data)
    for edition in files.EDITIONS:
        for data in files.full_files_with_fault_at_end(rng, edition):
            add_file(collection, data)


# ------------------------------------------- other calls on files of one matter

# How the names begin of what occurs on a file of edition 2 whose matter is that of one of edition 1, and on
# copies; a copy counts only where it is neither of the two files.
OTHER_EDITION = "the same matter in edition 2: "
UNLIKE = "a copy unlike its files: "


def calls_on(rng, data, known):
    """Cases of the other calls on an accepted file, as the runs of these calls make them."""
    words, lists, lister = run_paths.Collection(rng), run_permit.Collection(rng), run_permit.Lister(rng, known)
    pair = lister.some_pair()
    for asked in lister.calls(pair):
        words.add(data, known, asked)
    for terms in (lister.yes_terms(pair), lister.no_terms(pair)):
        lists.add(data, known, brute.encode_list(terms), pair, lister.some_pair())
    lists.add(data, known, lister.any_list(pair), pair, lister.wrong_pair())
    others = [script.frame(call, data) for call in (script.CHECK, script.DECODE)]
    others += [script.list_frame(script.COMPARE, data, listed) for listed in sorted(lists.lists | mined_lists(known))]
    return [script.Case(frame, stored.reckoned(frame, known)) for frame in others] + words.cases + lists.cases


def mined_lists(known):
    """The mined list of an accepted file, where it is convertible."""
    return {brute.encode_list(known.terms())} if known.verdict()[0] == "convertible" else set()


def asked_again(case, data, known):
    """The same call with the same arguments about another file; known is of this file's own bytes."""
    frame = script.frame_of(script.parts_of(case.frame)._replace(data=data))
    return script.Case(frame, stored.reckoned(frame, known))


def add_again(collection, case, name, data, known):
    """A case once more, about another file with the same matter; both have the same lines."""
    again = asked_again(case, data, known)
    collection.cases.append(again)
    collection.demand(again.text == case.text, "another answer for " + name + answer_name(case.text))
    collection.account[name + answer_name(again.text)] += 1


def ask_all(collection, matter):
    """The other calls on a file of this matter in edition 1, on one in edition 2, and on their copy."""
    one, other = (files.lay_out(matter, collection.rng, edition).bytes() for edition in files.EDITIONS)
    copy = collection.copy_of(one)
    collection.demand(collection.copy_of(other) == copy, "two editions of one matter have different copies")
    asked_about = [(OTHER_EDITION, other, brute.Known(other))]
    if copy not in (one, other):
        asked_about.append((UNLIKE, copy, brute.Known(copy)))
    for case in calls_on(collection.rng, one, brute.Known(one)):
        collection.cases.append(case)
        for about in asked_about:
            add_again(collection, case, *about)
    collection.account.update(name + "files in language %d" % matter.language for name, _, _ in asked_about)
    collection.account.update(name + "files with unknown relations" for name, _, _ in asked_about if matter.unknown)


def add_asked(collection):
    """Small matters, about which the other calls are asked."""
    for _ in range(ASKED_FILES):
        ask_all(collection, run_permit.with_pairs(collection.rng, ASKED_PATHS))


# -------------------------------------------------------- what is demanded

def answer_name(text):
    """A reply's call and answer; `found` stands for numbers or a text."""
    line = text.splitlines()[0]
    name, answer = line.split(" ")[:2]
    return line if answer in ("accepted", "refused", "none", "yes", "no", "same") else name + " found"


def room_name(length, room):
    """How long the output is beside a length: the copy's, or that of a refused file."""
    names = {0: "no output", length - 1: "output one byte short", length: "output of just that length"}
    return names.get(room, "output longer" if room > length else "output shorter by more")


def occurrences(data, room, reply):
    """The names of what occurs in a case."""
    if reply[0] == "refused" and reply[1] != 14:
        return ["frames", "refused %d" % reply[1], "file refused, " + room_name(len(data), room)]
    edition, lent = data[0], room_name(files.length_in(2, data), room)
    found = ["frames", lent]
    if len(data) == files.LONGEST_FILES[edition]:
        found.append("the longest file of edition %d, %s" % (edition, lent))
    if reply[0] == "length":
        return found + ["written in language %d" % data[3], "written of edition %d" % edition, moved_name(data)]
    return found + ["refused 14"] + (["output of the file's length is short"] if room == len(data) else [])


def moved_name(data):
    """What the copy of an accepted file changes."""
    copy = brute.canonical(brute.decode(data))
    if copy == data:
        return "the file is its copy"
    in_order = files.in_edition_1(copy) == files.in_edition_1(data)
    return "owners are added" if in_order else "records are moved in edition %d" % data[0]


def features(matter):
    """What is special in a matter."""
    entries = brute.entries(matter)
    chains = [[entry[1:] for entry in entries if entry[0] == party] for party in range(matter.n)]
    full = [party for party in range(matter.n) if chains[party]]
    used = {label for _, _, label in (*matter.edges, *matter.unknown)}
    known, unknown = ({one[:2] for one in relations} for relations in (matter.edges, matter.unknown))
    special = {
        "n 1": matter.n == 1,
        "n 32": matter.n == 32,
        "no records": not entries,
        "no records for several parties": not entries and matter.n > 1,
        "an empty chain between full ones": bool(full) and full[-1] - full[0] >= len(full),
        "an empty chain before all full ones": bool(full) and full[0] > 0,
        "every chain full": len(full) == matter.n,
        "a permit and a relation to one target": any((u, v) in matter.permits for u, v, _ in matter.edges),
        "several labels to one target": len({edge[:2] for edge in matter.edges}) < len(matter.edges),
        "a lower kind byte at a higher target": any(
            one[1] > other[1] for chain in chains for one, other in zip(chain, chain[1:]) if one[0] < other[0]),
        "label 7": 7 in used,
        "a label that no record uses": len(used) < matter.labels,
        "D above n - 1": matter.longest > matter.n - 1,
        "D up to n - 1": matter.longest <= matter.n - 1,
        "permits alone": bool(matter.permits) and not used,
        "unknown relations": bool(matter.unknown),
        "unknown relations alone": bool(matter.unknown) and not matter.edges and not matter.permits,
        "known and unknown to one target": bool(known & unknown),
        "known, unknown and a permit to one target": bool(known & unknown & set(matter.permits)),
        "several unknown labels to one target": len(unknown) < len(matter.unknown),
        "label 7 unknown": any(label == 7 for _, _, label in matter.unknown),
        "256 records or more": len(entries) >= 256,
        "a chain of 279 records": max(len(chain) for chain in chains) == LONGEST_CHAIN,
        "R 8,928": len(entries) == files.LARGEST_R,
        "R 8,928 with unknown relations": len(entries) == files.LARGEST_R and bool(matter.unknown),
    }
    return ["any"] + [name for name, is_there in special.items() if is_there]


def order_names(orders, copy):
    """What is special in the files that one matter is laid out in, beside its copy."""
    shapes = [files.in_edition_1(data) for data in orders]
    special = {"three different orders": len({*shapes}) == 3, "no order is the copy's": files.in_edition_1(copy) not in shapes,
               "orders in both editions": {data[0] for data in orders} == {1, 2}}
    return [name for name, is_there in special.items() if is_there]


# The least number of times that each must occur.
DEMANDS = {
    "files: accepted and new": 15000,
    "write: frames": 30000, "write: refused 14": 500,
    "write: output of just that length": 5000, "write: output longer": 5000,
    "write: output one byte short": 2000, "write: no output": 2000, "write: output shorter by more": 500,
    "write: output of the file's length is short": 2000,
    "write: file refused, output of just that length": 500, "write: file refused, output longer": 500,
    "write: file refused, output one byte short": 500, "write: file refused, no output": 500,
    "write: the file is its copy": 5000, "write: owners are added": 500,
    "matter: any": 5000, "matter: three different orders": 4000, "matter: no order is the copy's": 4000,
    "matter: orders in both editions": 5000,
    "matter: n 1": 200, "matter: n 32": 20, "matter: no records": 200,
    "matter: no records for several parties": 50,
    "matter: an empty chain between full ones": 1000, "matter: an empty chain before all full ones": 500,
    "matter: every chain full": 1000,
    "matter: a permit and a relation to one target": 1000, "matter: several labels to one target": 1000,
    "matter: a lower kind byte at a higher target": 1000,
    "matter: label 7": 300, "matter: a label that no record uses": 1000,
    "matter: D above n - 1": 1000, "matter: D up to n - 1": 500, "matter: permits alone": 100,
    "matter: 256 records or more": 40, "matter: a chain of 279 records": 3, "matter: R 8,928": 4,
    "matter: R 8,928 with unknown relations": 2, "matter: unknown relations": 1500, "matter: unknown relations alone": 30,
    "matter: known and unknown to one target": 500, "matter: known, unknown and a permit to one target": 200,
    "matter: several unknown labels to one target": 300, "matter: label 7 unknown": 100,
}
DEMANDS.update({"changed: " + name: fewest for name, fewest in FEWEST_CHANGES.items()})

# The same number of times for each name of a row.
for fewest, names in (
        (30, ["write: refused %d" % number for number in brute.FILE_REFUSALS]),
        (5000, ["write: records are moved in edition %d" % edition for edition in files.EDITIONS]),
        (8000, ["write: written of edition %d" % edition for edition in files.EDITIONS]),
        (4, ["write: the longest file of edition %d, %s" % (edition, room) for edition in files.EDITIONS for room in (
            "output of just that length", "output longer", "output one byte short", "output shorter by more", "no output")]),
        (3000, ["write: written in language %d" % language for language in range(4)]),
        (200, [name + answer for name in (OTHER_EDITION, UNLIKE) for answer in (
            "check accepted", "decode found", "path found", "path none",
            "next-word found", "next-word none", "permit yes", "permit no", "compare found")]),
        (100, [name + answer for name in (OTHER_EDITION, UNLIKE) for answer in ("text found", "compare same")]),
        (20, [name + "%s refused %d" % refused for name in (OTHER_EDITION, UNLIKE) for refused in (
            *product(("path", "next-word"), (10, 11, 14)), ("permit", 9), ("permit", 10), ("compare", 9))]),
        (20, [name + "files in language %d" % language for name in (OTHER_EDITION, UNLIKE) for language in range(4)]),
        (50, [name + "files with unknown relations" for name in (OTHER_EDITION, UNLIKE)])):
    DEMANDS.update(dict.fromkeys(names, fewest))


def lacking(collection):
    """What is wrong with the copies, and the demands that are not met, as lines of text."""
    return collection.faults + run_paths.unmet(collection.account, DEMANDS) + unknowns.lacking(collection.account, FEWEST_16, FEWEST_8)


# ------------------------------------------------------------------- the run

def collect():
    collection = Collection(random.Random(606))
    for add in (add_small, add_chosen, add_damaged, add_longest, add_asked):
        add(collection)
    return collection


def prepare():
    collection = collect()
    text = run_paths.account_text(collection.account)
    return comparing.Prepared([(collection.cases, None)], text, lacking(collection))


if __name__ == "__main__":
    sys.exit(comparing.run_prepared(sys.argv, prepare))
