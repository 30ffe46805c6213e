"""House files for the tests: valid ones, and ones with damages.

Everything random comes from a random.Random that the caller gives, so that
a fixed seed gives the same files each time. Where no edition is asked for, it is
1 or 2, each as likely. About a third of all files have unknown relations. Nothing
here decides what a file's reply is; that is brute.py's part.
"""

import functools
from collections import namedtuple

PERMIT_KIND = 0xFF
UNKNOWN = 0x80            # and a label: the kind byte of an unknown relation
UNKNOWN_PART = 0.36       # of the matters with relations that may be unknown; others have none
LARGEST_R = 8928
EDITIONS = (1, 2)
LONGEST_FILES = {1: 35784, 2: 44712}

# What a file is to say. edges and unknown hold (u, v, label), permits holds (u, v).
Matter = namedtuple("Matter", "n labels language longest edges permits unknown", defaults=[frozenset()])


class Draft:
    """A house file in parts, so that a damage can change one part alone.

    edition is the header's byte, body the edition in which the records are written."""

    def __init__(self, n, labels, language, longest, edition):
        self.edition = self.body = edition
        self.n = n
        self.labels = labels
        self.language = language
        self.longest = longest
        self.spare = 0
        self.count = 0
        self.heads = [0] * n
        self.records = []  # lists of target, kind byte, next, owner; edition 1 leaves the owner out
        self.tail = b""

    def bytes(self):
        out = bytearray([self.edition, self.n, self.labels, self.language,
                         self.longest, self.spare])
        out += self.count.to_bytes(2, "little")
        for head in self.heads:
            out += head.to_bytes(2, "little")
        for target, kind, following, owner in self.records:
            out += bytes([target, kind]) + following.to_bytes(2, "little") + bytes([owner] if self.body == 2 else [])
        return bytes(out) + self.tail

    def get_link(self, place):
        """The link at a place: ("head", party) or ("next", record number)."""
        what, number = place
        return self.heads[number] if what == "head" else self.records[number - 1][2]

    def set_link(self, place, link):
        what, number = place
        if what == "head":
            self.heads[number] = link
        else:
            self.records[number - 1][2] = link

    def chain(self, party):
        """The record numbers of a party's chain, up to the first fault in its links."""
        numbers = []
        link = self.heads[party]
        while 1 <= link <= len(self.records) and link not in numbers:
            numbers.append(link)
            link = self.records[link - 1][2]
        return numbers

    def places(self, party):
        """The places of the links along a party's chain, from its head to its end."""
        return [("head", party)] + [("next", r) for r in self.chain(party)]

    def add_record(self, target, kind, following, owner):
        """Add a record after the others and return its number."""
        self.records.append([target, kind, following, owner])
        self.count += 1
        return len(self.records)

    def put_in_chain(self, party, place, target, kind):
        """Add a record at a place of the party's chain and return its number."""
        number = self.add_record(target, kind, self.get_link(place), party)
        self.set_link(place, number)
        return number

    def give_owners(self):
        """Each record's owner becomes the first party whose chain it stands in."""
        for party in reversed(range(self.n)):
            for number in self.chain(party):
                self.records[number - 1][3] = party


# --------------------------------------------------------------- valid files

def entries_of(n, labels):
    """How many different records a file with this n and L can hold."""
    return n * (n - 1) * (labels + 1)


def entry(n, labels, index):
    """The record with this index, as chain's party, target and kind byte."""
    index, kind = divmod(index, labels + 1)
    party, other = divmod(index, n - 1)
    target = other if other < party else other + 1
    return party, target, kind if kind < labels else PERMIT_KIND


def matter_of(n, labels, language, longest, indexes):
    """The matter that consists of the records with these indexes."""
    edges, permits = set(), set()
    for index in indexes:
        party, target, kind = entry(n, labels, index)
        if kind == PERMIT_KIND:
            permits.add((party, target))
        else:
            edges.add((party, target, kind))
    return Matter(n, labels, language, longest, edges, permits)


def every_relation(n, labels):
    """All relations that can be, in order."""
    return [(u, v, label) for u in range(n) for v in range(n) if u != v for label in range(labels)]


def absent_relations(matter):
    """The relations that are neither known nor unknown, in order."""
    return [one for one in every_relation(matter.n, matter.labels) if one not in matter.edges and one not in matter.unknown]


def made_unknown(matter, relations):
    """The matter with these relations unknown."""
    relations = set(relations)
    return matter._replace(edges=matter.edges - relations, unknown=matter.unknown | relations)


def some_unknown(rng, matter, relations):
    """In a part of all matters some of these relations become unknown: one, a few, half of them or all."""
    relations = sorted(relations)
    if not relations or rng.random() >= UNKNOWN_PART:
        return matter
    count = rng.choice([1, rng.randint(1, 4), (len(relations) + 1) // 2, len(relations)])
    return made_unknown(matter, rng.sample(relations, min(count, len(relations))))


def random_n(rng):
    """Mostly small numbers of parties, now and then up to 32."""
    part = rng.random()
    if part < 0.70:
        return rng.randint(1, 5)
    if part < 0.92:
        return rng.randint(6, 12)
    return rng.randint(13, 32)


def random_matter(rng, n=None, labels=None, language=None, longest=None, most=None):
    """Random matter; what is not given is chosen. most limits the number of records."""
    n = random_n(rng) if n is None else n
    labels = rng.randint(1, 8) if labels is None else labels
    language = rng.randint(0, 3) if language is None else language
    longest = rng.randint(1, 31) if longest is None else longest
    if most is None:
        most = 100 if rng.random() < 0.08 else 20
    possible = entries_of(n, labels)
    count = rng.randint(0, min(possible, most))
    matter = matter_of(n, labels, language, longest, rng.sample(range(possible), count))
    return some_unknown(rng, matter, matter.edges)


def some_edition(rng):
    return rng.choice(EDITIONS)


def other_edition(edition):
    return 3 - edition


def lay_out(matter, rng, edition=None):
    """A draft of a valid file: records in random order, each chain in random order."""
    draft = Draft(matter.n, matter.labels, matter.language, matter.longest, edition or some_edition(rng))
    chains = [[] for _ in range(matter.n)]
    for u, v, label in sorted(matter.edges):
        chains[u].append((v, label))
    for u, v in sorted(matter.permits):
        chains[u].append((v, PERMIT_KIND))
    for u, v, label in sorted(matter.unknown):
        chains[u].append((v, UNKNOWN + label))
    draft.count = sum(len(chain) for chain in chains)
    draft.records = [None] * draft.count
    free = list(range(1, draft.count + 1))
    rng.shuffle(free)
    for u, chain in enumerate(chains):
        rng.shuffle(chain)
        following = 0
        for target, kind in chain:
            number = free.pop()
            draft.records[number - 1] = [target, kind, following, u]
            following = number
        draft.heads[u] = following
    return draft


def random_draft(rng, **chosen):
    return lay_out(random_matter(rng, **chosen), rng)


def random_file(rng, **chosen):
    return random_draft(rng, **chosen).bytes()


# --------------------------------------------------- damages of a draft
# Each takes a draft and the random source, changes the draft and returns True,
# or returns False where the draft has no place for the damage.

def some_place(draft, rng):
    """Some place of a link that is followed."""
    return rng.choice(draft.places(rng.randrange(draft.n)))


def last_place(draft, party):
    """The place at the end of a party's chain."""
    return draft.places(party)[-1]


def some_reached(draft, rng):
    """Some party and a record of its chain, or None."""
    reached = [(u, r) for u in range(draft.n) for r in draft.chain(u)]
    return rng.choice(reached) if reached else None


def link_too_high(draft, rng):
    """A head or next above R."""
    count = draft.count
    link = rng.choice([count + 1, count + 1, count + 2, count + 256, 32768, 65535])
    draft.set_link(some_place(draft, rng), min(link, 65535))
    return True


def cycle(draft, rng):
    """A chain whose end leads back to one of its own records."""
    long_enough = [u for u in range(draft.n) if draft.chain(u)]
    if not long_enough:
        return False
    chain = draft.chain(rng.choice(long_enough))
    draft.set_link(("next", chain[-1]), rng.choice(chain))
    return True


def crossed(draft, rng):
    """A link is led to a record of another chain, which keeps the record too."""
    first, second = rng.randrange(draft.n), rng.randrange(draft.n)
    if first == second or not draft.chain(second):
        return False
    place = rng.choice(draft.places(first))
    draft.set_link(place, rng.choice(draft.chain(second)))
    return True


def crossed_at_own_party(draft, rng):
    """A chain ends in a record of an earlier chain whose target is the later party."""
    fit = [(u, r) for u in range(draft.n) for r in draft.chain(u)
           if u < draft.records[r - 1][0] < draft.n]
    if not fit:
        return False
    _, number = rng.choice(fit)
    party = draft.records[number - 1][0]
    draft.set_link(last_place(draft, party), number)
    return True


def led_back(draft, rng):
    """A chain ends in a record of an earlier chain, which keeps it and is its owner."""
    fit = [(party, number) for party in range(draft.n) for u in range(party) for number in draft.chain(u)]
    if not fit:
        return False
    party, number = rng.choice(fit)
    draft.set_link(last_place(draft, party), number)
    return True


def tails_exchanged(draft, rng):
    """Two links of different chains are exchanged; each record stays in one chain. The owners follow half the times."""
    first, second = rng.randrange(draft.n), rng.randrange(draft.n)
    if first == second:
        return False
    one, other = rng.choice(draft.places(first)), rng.choice(draft.places(second))
    link_one, link_other = draft.get_link(one), draft.get_link(other)
    if link_one == link_other:
        return False
    draft.set_link(one, link_other)
    draft.set_link(other, link_one)
    if rng.random() < 0.5:
        draft.give_owners()
    return True


def chain_cut_off(draft, rng):
    """A link to a record becomes 0, so the rest of the chain is never reached."""
    place = some_place(draft, rng)
    if draft.get_link(place) == 0:
        return False
    draft.set_link(place, 0)
    return True


def record_skipped(draft, rng):
    """A link passes over one record, which is never reached."""
    place = some_place(draft, rng)
    link = draft.get_link(place)
    if not 1 <= link <= len(draft.records):
        return False
    draft.set_link(place, draft.records[link - 1][2])
    return True


def record_unnamed(draft, rng):
    """One more record that no link names. Its own bytes are anything."""
    draft.add_record(rng.randrange(256), rng.randrange(256), rng.randrange(65536), rng.randrange(256))
    return True


def cycle_unreached(draft, rng):
    """Two more records that lead to each other and that no chain reaches."""
    number = len(draft.records) + 1
    draft.add_record(rng.randrange(draft.n), 0, number + 1, rng.randrange(draft.n))
    draft.add_record(rng.randrange(draft.n), PERMIT_KIND, number, rng.randrange(draft.n))
    return True


def at_record(choose):
    """Makes a damage of a change at one record: choose gives the party and the record's number, or None.
    A change that finds nothing to do answers False."""
    def damage_of(change):
        @functools.wraps(change)
        def damage(draft, rng):
            found = choose(draft, rng)
            return found is not None and change(draft, rng, *found) is not False
        return damage
    return damage_of


@at_record(some_reached)
def target_too_high(draft, rng, party, number):
    """A target of n or more."""
    n = draft.n
    draft.records[number - 1][0] = rng.choice([n, n, n, min(n + 1, 255), 32, 255])


@at_record(some_reached)
def target_own_party(draft, rng, party, number):
    """A target that is the chain's own party."""
    draft.records[number - 1][0] = party


def wrong_kinds(draft):
    """Kind bytes that are neither a label below L, known or unknown, nor FF."""
    labels = draft.labels
    return [labels, labels, labels + 1, 0x7F, UNKNOWN + labels, UNKNOWN + labels, UNKNOWN + labels + 1, 0x88, 0xFE]


@at_record(some_reached)
def kind_wrong(draft, rng, party, number):
    """A kind byte that is none."""
    draft.records[number - 1][1] = rng.choice(wrong_kinds(draft))


@at_record(some_reached)
def target_and_kind_wrong(draft, rng, party, number):
    """Both faults at one record."""
    draft.records[number - 1][0] = rng.choice([party, draft.n, 255])
    draft.records[number - 1][1] = rng.choice(wrong_kinds(draft))


@at_record(some_reached)
def kind_turned(draft, rng, party, number):
    """A known relation becomes unknown or the other way round, which is legal; a permit's kind byte becomes 7F."""
    draft.records[number - 1][1] ^= UNKNOWN


@at_record(some_reached)
def repeat_in_chain(draft, rng, party, number):
    """One more record in a chain with target and kind as in an earlier one."""
    draft.put_in_chain(party, rng.choice(draft.places(party)), *draft.records[number - 1][:2])


def put_in_other_chain(draft, rng, party, target, kind):
    """One more record in a chain of another party that has none with this target and label; answers whether there is such a party."""
    others = [u for u in range(draft.n) if u not in (party, target)
              and all(draft.records[r - 1][:2] not in ([target, kind], [target, kind ^ UNKNOWN]) for r in draft.chain(u))]
    if not others:
        return False
    other = rng.choice(others)
    draft.put_in_chain(other, rng.choice(draft.places(other)), target, kind)
    return True


@at_record(some_reached)
def repeat_in_other_chain(draft, rng, party, number):
    """One more record with target and kind as in another chain: legal where no other fault is made."""
    return put_in_other_chain(draft, rng, party, *draft.records[number - 1][:2])


# Damages of relations, known or unknown.

def some_related(draft, rng):
    """Some party and a record of its chain that says a relation, known or unknown; None where there is none."""
    related = [(u, r) for u in range(draft.n) for r in draft.chain(u) if draft.records[r - 1][1] != PERMIT_KIND]
    return rng.choice(related) if related else None


@at_record(some_related)
def repeat_of_unknown(draft, rng, party, number):
    """A relation becomes unknown, and one more record in the chain says so too."""
    draft.records[number - 1][1] |= UNKNOWN
    draft.put_in_chain(party, rng.choice(draft.places(party)), *draft.records[number - 1][:2])


@at_record(some_related)
def repeat_as_opposite(draft, rng, party, number):
    """One more record in a chain, the opposite of another one: of the same target and label, one of them known and one unknown."""
    target, kind = draft.records[number - 1][:2]
    draft.put_in_chain(party, rng.choice(draft.places(party)), target, kind ^ UNKNOWN)


@at_record(some_related)
def opposite_in_other_chain(draft, rng, party, number):
    """The same, but in another chain: legal where no other fault is made."""
    target, kind = draft.records[number - 1][:2]
    return put_in_other_chain(draft, rng, party, target, kind ^ UNKNOWN)


def led_back_to_opposite(draft, rng):
    """A chain has the opposite of a record of an earlier chain, and ends in that record."""
    fit = []
    for party in range(draft.n):
        said = [draft.records[number - 1][:2] for number in draft.chain(party)]
        fit += [(party, number) for u in range(party) for number in draft.chain(u)
                if draft.records[number - 1][1] != PERMIT_KIND and draft.records[number - 1][0] != party
                and draft.records[number - 1][:2] not in said]
    if not fit:
        return False
    party, number = rng.choice(fit)
    target, kind = draft.records[number - 1][:2]
    if [target, kind ^ UNKNOWN] not in [draft.records[one - 1][:2] for one in draft.chain(party)]:
        draft.put_in_chain(party, rng.choice(draft.places(party)), target, kind ^ UNKNOWN)
    draft.set_link(last_place(draft, party), number)
    return True


# Damages of owners, which a draft of edition 1 has no place for.

def some_owned(draft, rng):
    """Some party and a record of its chain, in edition 2; else None."""
    return some_reached(draft, rng) if draft.body == 2 else None


def another_party(draft, rng, party):
    """Some other party of the file."""
    return rng.choice([other for other in range(draft.n) if other != party])


def wrong_owner(draft, rng, party):
    """An owner byte that is not this party: another party of the file, n or 255."""
    return rng.choice([another_party(draft, rng, party), another_party(draft, rng, party), draft.n, 255])


@at_record(some_owned)
def owner_another_party(draft, rng, party, number):
    """An owner that is another party of the file."""
    draft.records[number - 1][3] = another_party(draft, rng, party)


@at_record(some_owned)
def owner_too_high(draft, rng, party, number):
    """An owner of n or more."""
    n = draft.n
    draft.records[number - 1][3] = rng.choice([n, n, n, n + 1, 32 + party, 128 + party, 255, 255])


@at_record(some_owned)
def owner_and_target_wrong(draft, rng, party, number):
    """Both faults at one record; the owner is the target at times."""
    target = rng.choice([party, draft.n, 255])
    owner = target if target != party and rng.random() < 0.3 else wrong_owner(draft, rng, party)
    draft.records[number - 1][0], draft.records[number - 1][3] = target, owner


@at_record(some_owned)
def owner_and_kind_wrong(draft, rng, party, number):
    """Both faults at one record."""
    draft.records[number - 1][1], draft.records[number - 1][3] = rng.choice(wrong_kinds(draft)), wrong_owner(draft, rng, party)


@at_record(some_owned)
def owner_wrong_at_repeat(draft, rng, party, number):
    """A chain ends in one more record, with target and kind as in an earlier one and another owner."""
    added = draft.put_in_chain(party, last_place(draft, party), *draft.records[number - 1][:2])
    draft.records[added - 1][3] = wrong_owner(draft, rng, party)


def some_owned_relation(draft, rng):
    """The same for a record that says a relation."""
    return some_related(draft, rng) if draft.body == 2 else None


@at_record(some_owned_relation)
def owner_wrong_at_opposite(draft, rng, party, number):
    """A chain ends in one more record, the opposite of an earlier one, with another owner."""
    target, kind = draft.records[number - 1][:2]
    added = draft.put_in_chain(party, last_place(draft, party), target, kind ^ UNKNOWN)
    draft.records[added - 1][3] = wrong_owner(draft, rng, party)


@at_record(some_owned)
def owner_wrong_unreached(draft, rng, party, number):
    """A link passes over one record, which is never reached and has another owner."""
    place = [place for place in draft.places(party) if draft.get_link(place) == number][0]
    draft.set_link(place, draft.records[number - 1][2])
    draft.records[number - 1][3] = wrong_owner(draft, rng, party)


def header_field_wrong(draft, rng):
    """One header field outside its range; the length stays as it was."""
    field = rng.choice(["edition", "n", "labels", "language", "longest", "spare", "count"])
    wrong = {
        "edition": [0, 3, 255],
        "n": [0, 33, 34, 255],
        "labels": [0, 9, 10, 255],
        "language": [4, 5, 128, 255],
        "longest": [0, 32, 33, 255],
        "spare": [1, 2, 128, 255],
        "count": [LARGEST_R + 1, LARGEST_R + 2, 16384, 65535],
    }
    setattr(draft, field, rng.choice(wrong[field]))
    return True


def header_field_other(draft, rng):
    """One header field at another value of its range; the length stays as it was."""
    field, low, high = rng.choice([("n", 1, 32), ("labels", 1, 8), ("language", 0, 3),
                                   ("longest", 1, 31), ("count", 0, LARGEST_R)])
    setattr(draft, field, rng.choice([low, high, rng.randint(low, high)]))
    return True


def header_of_other_edition(draft, rng):
    """The header says the other edition. Without records the file is legal in both."""
    draft.edition = other_edition(draft.body)
    return True


def count_off_by_one(draft, rng):
    """R is one more or one less than the records that stand there."""
    count = draft.count + rng.choice([-1, 1])
    if not 0 <= count <= 65535:
        return False
    draft.count = count
    return True


OWNER_DAMAGES = [
    owner_another_party, owner_too_high, owner_and_target_wrong, owner_and_kind_wrong,
    owner_wrong_at_repeat, owner_wrong_at_opposite, owner_wrong_unreached,
]
UNKNOWN_DAMAGES = [kind_turned, repeat_of_unknown, repeat_as_opposite, opposite_in_other_chain, led_back_to_opposite]
DAMAGES = [
    link_too_high, cycle, crossed, crossed_at_own_party, led_back, tails_exchanged,
    chain_cut_off, record_skipped, record_unnamed, cycle_unreached,
    target_too_high, target_own_party, kind_wrong, target_and_kind_wrong,
    repeat_in_chain, repeat_in_other_chain, *UNKNOWN_DAMAGES, *OWNER_DAMAGES,
    header_field_wrong, header_field_other, header_of_other_edition, count_off_by_one,
]

# Damages that keep the chains' lists sound enough for a second damage after them.
CHAIN_DAMAGES = [
    link_too_high, cycle, crossed, crossed_at_own_party, led_back, tails_exchanged,
    chain_cut_off, record_skipped, record_unnamed, target_too_high,
    target_own_party, kind_wrong, repeat_in_chain, repeat_in_other_chain, *UNKNOWN_DAMAGES, *OWNER_DAMAGES,
]
LENGTH_AND_HEADER_DAMAGES = [header_field_wrong, header_field_other, header_of_other_edition, count_off_by_one]


def damaged_draft(rng, damage, **chosen):
    """A random draft with this damage; drafts without a place for it are passed over."""
    while True:
        draft = random_draft(rng, **chosen)
        if damage(draft, rng):
            return draft


def twice_damaged_file(rng):
    """A file with a chain damage and then another damage of any sort."""
    draft = damaged_draft(rng, rng.choice(CHAIN_DAMAGES))
    second = rng.choice(CHAIN_DAMAGES + LENGTH_AND_HEADER_DAMAGES)
    second(draft, rng)
    return draft.bytes()


# ------------------------------------------------------- damages of the bytes

def byte_changed(data, rng):
    """One byte becomes another one, often a near one or one of a few."""
    at = rng.randrange(len(data))
    old = data[at]
    new = rng.choice([old ^ 1, old ^ UNKNOWN, (old + 1) % 256, (old - 1) % 256, 0, 1, 255, rng.randrange(256)])
    if new == old:
        new = old ^ 1
    return data[:at] + bytes([new]) + data[at + 1:]


def cut(data, rng):
    """Some of the last bytes are gone."""
    part = rng.random()
    if part < 0.3:
        return data[:len(data) - 1]
    if part < 0.5:
        return data[:max(0, len(data) - rng.choice([4, 5]))]
    if part < 0.7:
        return data[:rng.randint(0, 8)]
    return data[:rng.randrange(len(data))]


def lengthened(data, rng):
    """Bytes stand after the end: one, a record's worth, or some."""
    more = rng.choice([1, 2, 4, 5, 8, rng.randint(1, 40)])
    return data + bytes(rng.choice([0, 1, 255, rng.randrange(256)]) for _ in range(more))


def length_in(edition, data):
    """The length that these header bytes ask for in an edition."""
    return 8 + 2 * data[1] + (4 if edition == 1 else 5) * int.from_bytes(data[6:8], "little")


def of_length_in(edition, data):
    """The file cut, or extended by zeros, to the length that an edition asks for."""
    return data[:length_in(edition, data)].ljust(length_in(edition, data), b"\0")


def in_edition_1(data):
    """An accepted file in edition 1: its records where they are, without owners."""
    if data[0] == 1:
        return data
    start = 8 + 2 * data[1]
    return b"\1" + data[1:start] + b"".join(data[at:at + 4] for at in range(start, len(data), 5))


def of_two_editions(rng):
    """A file of one edition with the header's byte, the length or both of the other."""
    draft = random_draft(rng)
    other = other_edition(draft.body)
    part = rng.randrange(3)
    draft.edition = draft.body if part == 0 else other
    return draft.bytes() if part == 1 else of_length_in(other, draft.bytes())


def header_and_length_wrong(rng):
    """A header field outside its range and a length that is wrong too."""
    data = damaged_draft(rng, header_field_wrong).bytes()
    return rng.choice([cut, lengthened])(data, rng)


def random_bytes(rng):
    """Bytes without any plan."""
    return bytes(rng.randrange(256) for _ in range(rng.randint(0, 40)))


def random_links(rng):
    """A right header and length; heads and records from a few small values, owners most often right."""
    n, labels = rng.randint(1, 4), rng.randint(1, 3)
    draft = Draft(n, labels, rng.randint(0, 3), rng.randint(1, 31), some_edition(rng))
    count = rng.randint(0, 6)
    highest = count + (1 if rng.random() < 0.2 else 0)
    targets = n + (1 if rng.random() < 0.2 else 0)
    kinds = list(range(labels)) + [PERMIT_KIND]
    if rng.random() < 0.5:
        kinds += range(UNKNOWN, UNKNOWN + labels)
    if rng.random() < 0.2:
        kinds.append(rng.choice([labels, UNKNOWN + labels]))
    draft.heads = [rng.randint(0, highest) for _ in range(n)]
    for _ in range(count):
        draft.add_record(rng.randrange(targets), rng.choice(kinds), rng.randint(0, highest), rng.randrange(n + 1))
    if rng.random() < 0.8:
        draft.give_owners()
    return draft.bytes()


# -------------------------------------------------------------------- limits

def limit_files(rng):
    """Small files at and just past each limit, each with the right length for its header."""
    files = []
    for n in (1, 2, 31, 32):
        files.append(random_file(rng, n=n, most=60))
    for labels in (1, 2, 7, 8):
        files.append(random_file(rng, labels=labels, most=60))
    for language in (0, 1, 2, 3):
        files.append(random_file(rng, language=language, most=60))
    for longest in (1, 2, 30, 31):
        files.append(random_file(rng, longest=longest, most=60))
    for field, value in (("edition", 0), ("edition", 3), ("edition", 255), ("labels", 0), ("labels", 9),
                         ("language", 4), ("longest", 0), ("longest", 32), ("spare", 1)):
        draft = random_draft(rng)
        setattr(draft, field, value)
        files.append(draft.bytes())
    for n in (0, 33):
        draft = random_draft(rng, most=60)
        draft.n = n
        draft.heads = (draft.heads + [0] * 33)[:n]
        files.append(draft.bytes())
    return files


def highest_values(rng):
    """The highest target and label of a file, and the first ones past them."""
    files = []
    for n, labels in ((32, 8), (2, 1), (5, 8), (32, 1)):
        for target in (n - 1, n):
            for kind in (labels - 1, labels, 0x7F, UNKNOWN + labels - 1, UNKNOWN + labels, 0x88, 0xFE, PERMIT_KIND):
                for edition in EDITIONS:
                    draft = Draft(n, labels, rng.randint(0, 3), rng.randint(1, 31), edition)
                    draft.heads[0] = draft.add_record(target, kind, 0, 0)
                    files.append(draft.bytes())
    return files


def highest_owners(rng):
    """One record of the first or the last party, with its right owner and with others at the limits."""
    files = []
    for n, party in ((2, 0), (2, 1), (32, 0), (32, 31)):
        for owner in (0, 1, n - 1, n, 255):
            draft = Draft(n, 1, rng.randint(0, 3), rng.randint(1, 31), 2)
            draft.heads[party] = draft.add_record(0 if party else 1, 0, 0, owner)
            files.append(draft.bytes())
    return files


# --------------------------------------------------------------- large files

def full_draft(rng, language, longest, edition=None, unknown=0):
    """n 32, L 8 and R 8,928: every permit that can be, and every relation; this part of them is unknown."""
    matter = matter_of(32, 8, language, longest, range(entries_of(32, 8)))
    return lay_out(made_unknown(matter, {one for one in sorted(matter.edges) if rng.random() < unknown}), rng, edition)


def some_full_draft(rng, edition):
    """A full draft in any language, with unknown relations at times."""
    return full_draft(rng, rng.randint(0, 3), rng.randint(1, 31), edition, rng.choice([0, 0, 0.5, 1]))


def full_files(rng):
    """Full files, valid and with one fault: somewhere, at the end, or at a certain record."""
    files = [full_draft(rng, language, longest, edition, unknown).bytes()
             for language, longest in ((0, 31), (1, 1), (2, 30), (3, 31)) for edition in EDITIONS for unknown in (0, 0.5)]
    files += [full_draft(rng, 3, 31, edition, 1).bytes() for edition in EDITIONS]
    for fault in (link_too_high, cycle, crossed, tails_exchanged, chain_cut_off,
                  record_skipped, target_too_high, target_own_party, kind_wrong, kind_turned, *OWNER_DAMAGES):
        for edition in EDITIONS:
            draft = some_full_draft(rng, edition)
            if fault(draft, rng):
                files.append(draft.bytes())
    for edition in EDITIONS:
        files += full_files_with_fault_at_end(rng, edition)
    for number in (1, 255, 256, 4095, 4096, 8191, 8192, LARGEST_R - 1, LARGEST_R):
        files += full_files_with_fault_at_record(rng, number)
    return files


def full_files_with_fault_at_end(rng, edition):
    """Full files whose only fault is at the last record of the last chain."""
    files = []
    draft = full_draft(rng, 0, 31, edition, 0.5)
    end = draft.chain(31)[-1]
    first = draft.chain(31)[0]
    known, unknown = (next(draft.records[number - 1][:2] for number in draft.chain(31)[:-1] if draft.records[number - 1][1] in kinds)
                      for kinds in (range(8), range(UNKNOWN, UNKNOWN + 8)))
    of_party_0 = draft.chain(0)[0]
    sound = list(draft.records[end - 1])
    target, kind = sound[:2]
    faults = [
        [target, kind, LARGEST_R + 1, 31],
        [target, kind, of_party_0, 31],
        [target, kind, end, 31],
        [32, kind, 0, 31],
        [31, kind, 0, 31],
        [target, 8, 0, 31],
        [target, 0x7F, 0, 31],
        [target, 0x88, 0, 31],
        [target, 0xFE, 0, 31],
        draft.records[first - 1][:2] + [0, 31],
        unknown + [0, 31],
        [known[0], known[1] + UNKNOWN, 0, 31],
        [unknown[0], unknown[1] - UNKNOWN, 0, 31],
    ]
    if edition == 2:
        faults += [[target, kind, 0, 0], [target, kind, 0, 32], [31, 8, LARGEST_R + 1, 30]]
    for fault in faults:
        draft.records[end - 1] = fault
        files.append(draft.bytes())
    draft.records[end - 1] = sound
    before = draft.chain(31)[-2]
    draft.records[before - 1][2] = 0
    files.append(draft.bytes())
    return files


def full_files_with_fault_at_record(rng, number):
    """A full file with this record reached a second time, and one with it never reached."""
    draft = some_full_draft(rng, None)
    end = last_place(draft, 31)
    draft.set_link(end, number)
    files = [draft.bytes()]
    draft.set_link(end, 0)
    places = [place for u in range(32) for place in draft.places(u)]
    named_at = [place for place in places if draft.get_link(place) == number][0]
    draft.set_link(named_at, draft.records[number - 1][2])
    files.append(draft.bytes())
    return files


def limit_of_count_files(rng):
    """R 8,928 and R 8,929 with right and wrong lengths, and other numbers of parties."""
    files = []
    for edition in EDITIONS:
        full = full_draft(rng, 3, 31, edition)
        data = full.bytes()
        files += [data[:-1], data[:-4], data[:-5], data + b"\0", data + bytes(4), data + bytes(5),
                  data.ljust(50000, b"\0"), of_length_in(other_edition(edition), data)]
        full.count = LARGEST_R + 1
        files.append(full.bytes())
        full.records.append([1, 0, 0, 0])
        files += [full.bytes(), full.bytes().ljust(50000, b"\0")]
        for n in (1, 2, 31, 32, 33):
            for count in (LARGEST_R, LARGEST_R + 1):
                draft = Draft(n, 8, 0, 31, edition)
                draft.count = count
                draft.records = [[rng.randrange(n), rng.randrange(8), 0, rng.randrange(n)] for _ in range(count)]
                files.append(draft.bytes())
    for n in (2, 32):
        for count in (LARGEST_R, LARGEST_R + 1):
            draft = random_draft(rng, n=n)
            draft.count = count
            files.append(draft.bytes())
    return files


def one_chain_draft(rng, party, length, count):
    """n 32, L 8: one chain of the given length, in a part of the drafts with unknown relations; records are made up to the given count."""
    draft = Draft(32, 8, rng.randint(0, 3), rng.randint(1, 31), some_edition(rng))
    draft.count = count
    part = rng.choice([0.5, 1]) if rng.random() < UNKNOWN_PART else 0
    sorts = [[target, label + UNKNOWN if rng.random() < part else label] for target in range(32) if target != party for label in range(8)]
    sorts += [[target, PERMIT_KIND] for target in range(32) if target != party]
    rng.shuffle(sorts)
    numbers = list(range(1, count + 1))
    rng.shuffle(numbers)
    draft.records = [[0, 0, 0, 0] for _ in range(count)]
    for step in range(length):
        following = numbers[step + 1] if step + 1 < length else 0
        draft.records[numbers[step] - 1] = sorts[step % len(sorts)] + [following, party]
    draft.heads[party] = numbers[0]
    return draft


def deep_files(rng):
    """Files with one long chain. 279 is the longest chain that can be legal."""
    files = []
    for party in (0, 17, 31):
        files.append(one_chain_draft(rng, party, 278, 278).bytes())
        files.append(one_chain_draft(rng, party, 279, 279).bytes())
        files.append(one_chain_draft(rng, party, 280, 280).bytes())
        files.append(one_chain_draft(rng, party, 279, 280).bytes())
    for length in (1, 279, 280, LARGEST_R):
        files.append(one_chain_draft(rng, rng.randrange(32), length, LARGEST_R).bytes())
    for fault in (link_too_high, cycle, target_too_high, target_own_party, kind_wrong, repeat_as_opposite, repeat_of_unknown):
        draft = one_chain_draft(rng, rng.randrange(32), 279, 279)
        fault(draft, rng)
        files.append(draft.bytes())
    for link in (1, LARGEST_R, LARGEST_R + 1, 65535):
        draft = one_chain_draft(rng, 31, 279, LARGEST_R)
        draft.set_link(last_place(draft, 31), link)
        files.append(draft.bytes())
    return files


def middle_files(rng, how_many):
    """Files with some hundreds of records, so that links need both bytes."""
    files = []
    for number in range(how_many):
        n, labels = rng.randint(12, 32), rng.randint(1, 8)
        possible = entries_of(n, labels)
        count = rng.randint(256, min(possible, 700)) if possible > 256 else possible
        matter = matter_of(n, labels, rng.randint(0, 3), rng.randint(1, 31),
                           rng.sample(range(possible), count))
        draft = lay_out(some_unknown(rng, matter, matter.edges), rng)
        if number % 2:
            rng.choice(CHAIN_DAMAGES)(draft, rng)
        files.append(draft.bytes())
    return files
