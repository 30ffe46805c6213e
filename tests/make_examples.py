"""Writes the house files of examples/.

    python3 tests/make_examples.py [FOLDER]

a, b and c are 01's cases, a2 is case A in edition 2. unknown has a relation that nobody knows. archive32
is an archive of 32 parties: its permits are those of four rules, so it converts. The random source is fixed, so that the
same bytes are written each time.
"""

import os
import random
import sys

import brute
import files
import stored

FOLDER = os.path.join(os.path.dirname(os.path.abspath(__file__)), os.pardir, "examples")

TRAINED, DEPOSITS, READS, SHARES = range(4)

# Parties of the archive: 4 keepers, 10 depositors, 18 readers.
KEEPERS, DEPOSITORS, READERS = range(4), range(4, 14), range(14, 32)
LANGUAGE, LONGEST = 2, 4


def plain(label):
    return 4 * label


def inverse(label):
    return 4 * label + 2


# Who may open whose scans: a keeper those of a party that deposits with them; a party those of one that
# shares with them; a reader those of a depositor with the reader's keeper, where one who deposits there
# trained the reader; and a depositor those of the others with the keeper of a depositor they trained.
RULES = [
    [(inverse(DEPOSITS),)],
    [(inverse(SHARES),)],
    [(plain(READS), inverse(DEPOSITS)), (inverse(TRAINED), plain(DEPOSITS), inverse(DEPOSITS))],
    [(plain(TRAINED), plain(DEPOSITS), inverse(DEPOSITS))],
]


def archive_edges(rng):
    """Each depositor deposits with a keeper, each reader reads there; some train and share."""
    edges = {(party, rng.choice(KEEPERS), DEPOSITS) for party in DEPOSITORS}
    edges |= {(party, rng.choice(KEEPERS), READS) for party in READERS}
    edges |= {(rng.choice(DEPOSITORS), party, TRAINED) for party in READERS[::2]}
    edges |= {(party + 2, party, TRAINED) for party in DEPOSITORS[1:-2:4]}
    edges |= {(party, party + 1, SHARES) for party in DEPOSITORS[:-1:3]}
    return edges


def archive32():
    """The archive, its permits those of the rules."""
    rng = random.Random(32)
    matter = files.Matter(32, 4, LANGUAGE, LONGEST, archive_edges(rng), set())
    known = brute.Known(files.lay_out(matter, rng, 1).bytes())
    permits = {pair for pair in brute.pairs(known.house) if brute.permits_by(RULES, known.least_paths(*pair))}
    return files.lay_out(matter._replace(permits=permits), rng, 1).bytes()


def examples():
    """The bytes of each file, by its name."""
    made = {"%s.house" % letter.lower(): stored.case_file(letter) for letter in "ABC"}
    made["a2.house"] = stored.case_file("A in edition 2")
    made["unknown.house"] = stored.case_file("(0,1) unknown, permit (1,0), edition 2")
    made["archive32.house"] = archive32()
    return made


def main(arguments):
    folder = arguments[1] if len(arguments) > 1 else FOLDER
    for name, data in examples().items():
        with open(os.path.join(folder, name), "wb") as out:
            out.write(data)


if __name__ == "__main__":
    main(sys.argv)
