"""Unknown relations in the files of a suite: in how many of them there are some, and how often two records contradict each other.

About a third of the accepted files are to have unknown relations, in each edition
and language. A suite counts each of its files once and adds the lines that lacking()
gives to its own.
"""

from itertools import product

import brute
import files

FEWEST_PART, MOST_PART = 1 / 4, 1 / 2
CLASSES = ["edition %d in language %d" % one for one in product(files.EDITIONS, range(4))]
KNOWN_FIRST, UNKNOWN_FIRST = "unknown: refused 16, known first", "unknown: refused 16, unknown first"
TWO_UNKNOWN = "unknown: refused 8, two unknown ones"

# How many lines lacking() has where there are no files.
LINES = len(CLASSES) + 3


def count(account, seen, data, refusal):
    """A file that is not among those seen before is counted; refusal is its number, or 0."""
    if data not in seen:
        seen.add(data)
        account.update(names_of(data, refusal))


def names_of(data, refusal):
    """What a file is counted as."""
    if refusal:
        return refusal_names(data, refusal)
    name = "edition %d in language %d" % (data[0], data[3])
    return ["accepted: " + name] + (["unknown: " + name] if has_unknown(data) else [])


def has_unknown(data):
    """Whether an accepted file has an unknown relation."""
    kinds = data[8 + 2 * data[1] + 1::brute.RECORD_SIZES[data[0]]]
    return any(brute.UNKNOWN <= kind < brute.PERMIT_KIND for kind in kinds)


def refusal_names(data, refusal):
    """Which of two records with one target and label is the unknown one, or that both are."""
    if refusal not in (8, 16):
        return []
    kind = brute.record_of(data, brute.first_fault(data).record)[1]
    is_unknown = brute.label_of(kind, data[2])[1] is False
    if refusal == 16:
        return [KNOWN_FIRST if is_unknown else UNKNOWN_FIRST]
    return [TWO_UNKNOWN] if is_unknown else []


def lacking(account, fewest_16, fewest_8):
    """The demands that are not met, as lines of text. The least numbers of files are given, with 16 in each order and with 8."""
    fewest = {KNOWN_FIRST: fewest_16, UNKNOWN_FIRST: fewest_16, TWO_UNKNOWN: fewest_8}
    lines = ["only %d times %s" % (account[name], name) for name in fewest if account[name] < fewest[name]]
    return lines + lacking_accepted(account)


def lacking_accepted(account):
    """The same for a suite that has no refused files."""
    lines = []
    for name in CLASSES:
        accepted, with_unknown = account["accepted: " + name], account["unknown: " + name]
        if accepted == 0 or not FEWEST_PART <= with_unknown / accepted <= MOST_PART:
            lines.append("%d of %d files of %s have unknown relations" % (with_unknown, accepted, name))
    return lines
