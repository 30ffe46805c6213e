"""What occurs in the calls of run_console.py, and how often each must occur.

Without these demands a set of files that happens to be dull would pass.
"""

import brute
import files
import run_paths
import run_permit
import unknowns

SCRATCH = brute.SCRATCH_LENGTH
RIVAL_FILES = 2500
FEWEST_FILES = 20000
FEWEST_16, FEWEST_8 = 200, 50   # files, with 16 in each order and with 8 for two unknown relations


def verdict_occurrences(made, reply):
    """The names of what occurs in a verdict."""
    if reply[0] == "refused":
        return ["refused %d" % reply[1]]
    known, house = made.known, made.known.house
    found = [reply[0], "%s in language %d" % (reply[0], house.language), "%s of %s" % (reply[0], made.kind)]
    found.append("%s in edition %d" % (reply[0], known.edition))
    found += ["%s at D 1" % reply[0]] if house.longest == 1 else []
    found += ["%s at D n or more" % reply[0]] if house.longest >= house.n else []
    found += ["%s of more than 6 parties" % reply[0]] if house.n > 6 else []
    permitted = brute.permitted_pairs(house)
    if reply[0] == "convertible":
        return found + list_occurrences(known, permitted)
    if reply[1] != permitted[0]:
        found.append("%s of a later permitted pair" % reply[0])
    if reply[0] == "rival":
        if reply[2] != brute.unpermitted_pairs(house)[0]:
            found.append("rival that is a later unpermitted pair")
        if len(known.words(*reply[1])) > 1:
            found.append("rival of a pair with several words")
        others = [pair for pair in brute.unpermitted_pairs(house) if pair > reply[2]
                  and brute.meets(known.least_paths(*pair), known.words(*reply[1]))]
        found += ["several rivals"] if others else []
        found += ["rival among permitted pairs before it"] if any(
            brute.meets(known.least_paths(*pair), known.words(*reply[1]))
            for pair in permitted if pair < reply[2] and pair != reply[1]) else []
    return found


def made_unknown_occurrences(known, other):
    """The names of what occurs where an absent relation of an accepted file becomes unknown."""
    one, two = known.verdict(), other.verdict()
    name = "verdict %s in language %d" % ("changes" if one != two else "stays", known.house.language)
    if one == two:
        return [name]
    return ["verdict changes", name, "verdict changes in edition %d" % known.edition, "%s becomes %s" % (one[0], two[0])]


def list_occurrences(known, permitted):
    """The names of what occurs in a convertible file's list."""
    terms = known.terms()
    found = ["the empty list"] if not terms else []
    found += ["%s terms" % ("several" if len(terms) < 5 else "five or more")] if len(terms) > 1 else []
    found += ["a term of %s words" % ("two" if most == 2 else "three or more")
              for most in [max(map(len, terms), default=0)] if most > 1]
    found += ["a permitted pair that an earlier term permits"] if len(terms) < len(permitted) else []
    if any(term != sorted(term, key=brute.word_key) for term in terms):
        found.append("a term whose words are not in word order")
    if any(brute.permits_by([term], known.least_paths(*pair))
           for i, term in enumerate(terms) for pair in first_pairs(known, permitted)[:i]):
        found.append("a later term that an earlier term's pair meets")
    return found


def first_pairs(known, permitted):
    """The pairs for which the terms were made."""
    found, terms = [], known.terms()
    for pair in permitted:
        if not brute.permits_by(terms[:len(found)], known.least_paths(*pair)):
            found.append(pair)
    return found


def mining_occurrences(known, reply, scratch_length, output_length):
    """The names of what occurs in a mining call."""
    found = ["refused %d" % reply[1] if reply[0] == "refused" else "mined"]
    if known.refusal:
        return ["file refused"] + (["file refused with short scratch"] if scratch_length < SCRATCH else [])
    found.append("%s in edition %d" % (found[0], known.edition))
    convertible = known.verdict()[0] == "convertible"
    if reply == ("refused", 12):
        found.append("refused 12 with scratch of %d" % scratch_length)
        found += [] if convertible else ["refused 12 though not convertible"]
    elif convertible:
        more = output_length - known.verdict()[1]
        found += ["output %s" % name for name, is_so in (
            ("of 0", output_length == 0), ("one byte short", more == -1), ("just long enough", more == 0),
            ("one byte longer", more == 1)) if is_so]
        found += ["scratch of %d" % scratch_length] if scratch_length <= SCRATCH + 1 else ["longer scratch"]
    return found


def permit_occurrences(known, pair, listed, reply):
    """The names of what occurs in a permit call; run_permit.py has the finer ones."""
    found = ["refused %d" % reply[1] if reply[0] == "refused" else reply[0]]
    if known.refusal:
        return ["file refused"]
    if reply == ("refused", 10):
        broken = run_permit.until_fault(known, listed)[1]
        found += ["refused 10 with a broken list"] if broken else []
        found += ["a party above 255"] if max(pair) > 255 else []
    elif reply[0] != "refused":
        found += ["%s in language %d" % (reply[0], known.house.language), "%s in edition %d" % (reply[0], known.edition)]
    return found


# The least number of times that each must occur.
DEMANDS = {
    "verdict: convertible": 6000, "verdict: no-word": 2000, "verdict: rival": 3000,
    "verdict: convertible of rules": 4000, "verdict: convertible of one pair changed": 100,
    "verdict: rival of one pair changed": 1000, "verdict: rival of random permits": 1000,
    "verdict: convertible of random permits": 100, "verdict: convertible of one party": 50,
    "verdict: convertible of damaged": 50,
    "verdict: convertible of copy": 100, "verdict: rival of copy": 100, "verdict: no-word of copy": 50,
    "verdict: convertible of the other edition": 100, "verdict: rival of the other edition": 100,
    "verdict: no-word of the other edition": 50,
    "asked in both editions": 500, "asked with the copy of one of edition 1": 200,
    "asked with the copy of one of edition 2": 200,
    "verdict: no-word of a later permitted pair": 500, "verdict: rival of a later permitted pair": 500,
    "verdict: rival that is a later unpermitted pair": 500, "verdict: rival of a pair with several words": 500,
    "verdict: several rivals": 500, "verdict: rival among permitted pairs before it": 300,
    "verdict: the empty list": 100, "verdict: several terms": 500, "verdict: five or more terms": 30,
    "verdict: a term of two words": 500, "verdict: a term of three or more words": 100,
    "verdict: a permitted pair that an earlier term permits": 1000,
    "verdict: a term whose words are not in word order": 30,
    "verdict: a later term that an earlier term's pair meets": 10,
    "mining: mined": 20000, "mining: refused 13": 8000, "mining: refused 14": 8000, "mining: file refused": 5000,
    "mining: file refused with short scratch": 1000,
    "mining: refused 12 with scratch of 0": 1000, "mining: refused 12 with scratch of 1023": 5000,
    "mining: refused 12 though not convertible": 3000,
    "mining: output of 0": 1000, "mining: output one byte short": 5000, "mining: output just long enough": 5000,
    "mining: output one byte longer": 5000,
    "mining: scratch of 1024": 10000, "mining: scratch of 1025": 5000, "mining: longer scratch": 1000,
    "permit: yes": 10000, "permit: no": 30000, "permit: refused 9": 20000, "permit: refused 10": 20000,
    "permit: refused 10 with a broken list": 500, "permit: a party above 255": 5000, "permit: file refused": 5000,
    "mined with all sizes": 500, "rivals shown": RIVAL_FILES, "rivals shown of several words": 300,
    "larger files: rows": 40, "larger files: convertible": 10, "larger files: rival": 10, "larger files: no-word": 3,
    "larger files: a list above 65,535 bytes": 2, "larger files: edition 1": 10, "larger files: edition 2": 10,
    "made unknown: verdict changes": 300,
    "made unknown: verdict changes in language 1": 100, "made unknown: verdict changes in language 3": 100,
    "made unknown: verdict changes in edition 1": 100, "made unknown: verdict changes in edition 2": 100,
    "made unknown: verdict stays in language 0": 200, "made unknown: verdict stays in language 2": 200,
    "made unknown: convertible becomes convertible": 20, "made unknown: convertible becomes no-word": 20,
    "made unknown: convertible becomes rival": 20, "made unknown: rival becomes convertible": 20,
    "made unknown: rival becomes no-word": 3, "made unknown: rival becomes rival": 20,
}
DEMANDS.update({"larger files: unknown relations in language %d" % language: 2 for language in range(4)})
DEMANDS.update({"verdict: refused %d" % number: 100 for number in brute.FILE_REFUSALS})
DEMANDS.update({"%s in edition %d" % (what, edition): fewest for edition in files.EDITIONS for what, fewest in (
    ("verdict: convertible", 2500), ("verdict: no-word", 800), ("verdict: rival", 1200), ("mining: mined", 8000),
    ("mining: refused 12", 2000), ("mining: refused 13", 3000), ("mining: refused 14", 3000),
    ("permit: yes", 4000), ("permit: no", 12000))})
for answer in ("convertible", "no-word", "rival"):
    DEMANDS.update({"verdict: %s in language %d" % (answer, language): 200
                    for language in ((0, 1, 2, 3) if answer != "no-word" else (0, 2))})
    DEMANDS.update({"verdict: %s at D 1" % answer: 200, "verdict: %s at D n or more" % answer: 200,
                    "verdict: %s of more than 6 parties" % answer: 30})
DEMANDS.update({"permit: %s in language %d" % (answer, language): 1000
                for answer in ("yes", "no") for language in range(4)})

def lacking(run):
    """The demands that are not met, as lines of text."""
    lines = ["only %d different files" % len(run.files)] if len(run.files) < FEWEST_FILES else []
    lines += ["a verdict of language %d changes with an unknown relation" % language for language in (0, 2)
              if run.account["made unknown: verdict changes in language %d" % language]]
    return lines + run_paths.unmet(run.account, DEMANDS) + unknowns.lacking(run.account, FEWEST_16, FEWEST_8)
