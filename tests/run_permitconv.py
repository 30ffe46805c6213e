"""Hold what the program permitconv prints against brute.py, byte for byte, on many files.

    python3 tests/run_permitconv.py PATH_OF_PERMITCONV_BINARY

The files are those of converting.py, some of them in both editions, the examples,
some of large_console.py, and inputs about as long as the program reads. Then streams.py tries standard input
and output that fail or are slow. The seeds are fixed. The last line printed is
`N passed, M failed`: N counts files and trials; M counts these and, beside them,
demands on the set of files that are not met. The exit status is 0 only where M
is 0.
"""

import os
import random
import subprocess
import sys
from collections import Counter

import brute
import comparing
import converting
import files
import large_console
import make_examples
import run_paths
import stored
import streams
import unknowns

GRAPHS = 450
WIDE_GRAPHS = 15
DAMAGED_FILES = 600
AGAIN_EVERY = 10            # of the files, one is tried in the other edition too, and one with an absent relation made unknown
SECONDS_FOR_FILE = 300
REFUSED = "A with record 2's next 01 00"

# What 01 prints itself, and what 02 says of owners and of unknown relations.
WRITTEN = [("A", "convertible 7\n00.00\n"), ("B", "not-convertible 0 1 rival 1 2\n"),
           ("C", "not-convertible 2 0 no-word\n"), (REFUSED, "refused 4\n"),
           ("A in edition 2", "convertible 7\n00.00\n"), ("A in edition 2 with record 1's owner 01", "refused 15\n"),
           ("(0,1) unknown, permit (1,0)", "convertible 6\n01\n"),
           ("(0,1) unknown, permit (1,0), edition 2", "convertible 6\n01\n"),
           ("(0,1) unknown, permit (0,1)", "not-convertible 0 1 no-word\n"),
           ("nothing unknown, permit (1,0)", "not-convertible 1 0 rival 0 1\n"),
           ("label 0 known, then unknown", "refused 16\n"), ("label 0 unknown, then known", "refused 16\n"),
           ("label 0 unknown, then unknown", "refused 8\n"), ("L 2: kind 82", "refused 7\n")]


# ------------------------------------------------------------------ the files

def text_of_row(row):
    """What is printed for a row of large_console.py."""
    if row.reply[0] == "no-word":
        return "not-convertible %d %d no-word\n" % row.reply[1]
    if row.reply[0] == "rival":
        return "not-convertible %d %d rival %d %d\n" % (row.reply[1] + row.reply[2])
    first = "convertible %d\n" % row.reply[1]
    return first + ("refused 14\n" if row.reply[1] > brute.PROGRAM_LIST else brute.list_text(row.terms))


def about_the_longest(rng):
    """The longest legal file of each edition, and inputs that go on after it or after a shorter one. A longer
    input is cut to 44,713 bytes, and so has no legal length; its header is looked at first."""
    for edition in files.EDITIONS:
        whole = files.full_draft(rng, 0, 31, edition).bytes()
        yield "the longest file of edition %d" % edition, whole, "convertible 6\n00\n"
        for more in (1, 2, 3, 4, 5, files.LARGEST_R, 100000):
            yield "longer than legal", whole + rng.randbytes(more), "refused 1\n"
        yield "longer than legal", b"\3" + whole[1:] + b"\0\0", "refused 2\n"
        other = bytes([files.other_edition(edition)]) + whole[1:]
        yield "a header of the other edition", other, "refused 1\n"
    for name in ("A", "B", "C", "A in edition 2"):
        data = stored.case_file(name)
        yield "longer than legal", data + bytes(brute.PROGRAM_INPUT), "refused 1\n"
    yield "longer than legal", bytes(brute.PROGRAM_INPUT + 1), "refused 2\n"
    yield "the empty input", b"", "refused 1\n"


def all_files(rng):
    """Every file: how it was made, its bytes, and the text that must be printed."""
    for name, text in WRITTEN:
        yield "written out", stored.case_file(name), text
    for data in make_examples.examples().values():
        yield "example", data, brute.permitconv(data)
    for number, made in enumerate(converting.drawn(rng, GRAPHS, WIDE_GRAPHS, DAMAGED_FILES)):
        text = brute.program_text(made.known)
        yield made.kind, made.data, text
        if number % AGAIN_EVERY == 0 and not made.known.refusal:
            yield "the other edition", converting.in_other_edition(rng, made), text
            other = converting.with_one_unknown(rng, made)
            if other is not None:
                changed = brute.program_text(other.known) != text
                yield "one made unknown, %s" % ("another text" if changed else "the same text"), other.data, brute.program_text(other.known)
    for row in large_console.table():
        yield "larger file", row.data, text_of_row(row)
    yield from about_the_longest(rng)


# -------------------------------------------------------- what is demanded

def occurrences(kind, data, text):
    """The names of what occurs in a file and its text."""
    lines = text.splitlines()
    parts = lines[0].split()
    first = parts[0] if parts[0] == "convertible" else parts[0] + " " + parts[1] if parts[0] == "refused" else parts[3]
    found = ["files", kind, first] + length_names(len(data))
    found += ["%s in edition %d" % (first, data[0])] if parts[0] != "refused" else []
    if first == "convertible":
        found += ["no terms"] if len(lines) == 1 else ["several terms"] if len(lines) > 2 else []
        found += ["several words in a term"] if " & " in text else []
        found += ["several symbols in a word"] if "." in text else []
        found += ["a list above 65,536 bytes"] if lines[1:] == ["refused 14"] else []
        found += ["a list of 65,536 bytes"] if parts[1] == "65536" and len(lines) > 2 else []
        found += ["a text above 4,096 bytes"] if len(text) > 4096 else []
    return found


def length_names(length):
    """What is special in the length of an input."""
    special = {"input of 44,712 bytes": length == 44712, "input of 44,713 bytes": length == 44713,
               "input above 44,713 bytes": length > 44713}
    return [name for name, is_so in special.items() if is_so]


# The least number of times that each must occur.
DEMANDS = {
    "files": 1500, "convertible": 500, "no-word": 100, "rival": 200,
    "rules": 300, "one pair changed": 300, "random permits": 300, "damaged": 400, "one party": 10,
    "no terms": 50, "several terms": 100, "several words in a term": 100, "several symbols in a word": 100,
    "a list of 65,536 bytes": 1, "a list above 65,536 bytes": 1, "a text above 4,096 bytes": 3, "written out": 14, "example": 6,
    "one made unknown, another text": 20, "one made unknown, the same text": 30,
    "larger file": 40, "the other edition": 100, "longer than legal": 20, "the empty input": 1, "a header of the other edition": 2,
    "the longest file of edition 1": 1, "the longest file of edition 2": 1,
    "input of 44,712 bytes": 2, "input of 44,713 bytes": 1, "input above 44,713 bytes": 5,
}
DEMANDS.update({"refused %d" % number: 10 for number in brute.FILE_REFUSALS})
DEMANDS.update({"%s in edition %d" % (what, edition): fewest for edition in files.EDITIONS
                for what, fewest in (("convertible", 200), ("no-word", 40), ("rival", 80))})


# ------------------------------------------------------------------- the run

def printed(binary, data):
    """What the program prints, or what went wrong."""
    try:
        ended = subprocess.run([binary], input=data, stdout=subprocess.PIPE, stderr=subprocess.PIPE, timeout=SECONDS_FOR_FILE)
    except (OSError, subprocess.SubprocessError) as error:
        return "(%s)" % error
    text = ended.stdout.decode("latin-1")
    if ended.returncode != 0 or ended.stderr:
        return "(status %d, said %r) %s" % (ended.returncode, ended.stderr, text)
    return text


def hold(tally, binary, kind, data, text):
    found = printed(binary, data)
    tally.hold(found == text, lambda: (
        "difference in a file: %s" % kind, "  file: %s" % comparing.shortened(data),
        "  expected: %r" % text[:400], "  printed:  %r" % found[:400]))


# The kinds of files that are given in pieces.
STREAMED = ("written out", "example", "longer than legal", "the longest file of edition 1", "the longest file of edition 2")


def hold_streams(tally, binary, made):
    """The trials of streams.py, with files of those made before."""
    whole = [(data, text) for kind, data, text in made if kind in STREAMED]
    beyond = [min(((data, text) for _, data, text in made if len(text) > room), key=lambda pair: len(pair[1]), default=None)
              for room in (streams.SMALL_PIPE, streams.USUAL_PIPE)]
    if not whole or None in beyond:
        tally.fault("no file for a trial")
        return
    for trial in streams.trials(binary, whole, *beyond):
        tally.hold(trial.found == trial.wanted, lambda: (
            "difference in a trial: %s" % trial.name, "  expected: %r" % (shown(trial.wanted),), "  found:    %r" % (shown(trial.found),)))


def shown(ended):
    return ended._replace(printed=ended.printed[:400])


def main(arguments):
    tally = comparing.Tally()
    if len(arguments) != 2:
        tally.fault("usage: run_permitconv.py PATH_OF_PERMITCONV_BINARY")
        return tally.close()
    binary = os.path.abspath(arguments[1])
    account, different = Counter(), set()
    made = list(all_files(random.Random(808)))
    for kind, data, text in made:
        hold(tally, binary, kind, data, text)
        account.update(occurrences(kind, data, text))
        unknowns.count(account, different, data, int(text.split()[1]) if text.startswith("refused") else 0)
    account["different files"] = len(different)
    hold_streams(tally, binary, made)
    print(run_paths.account_text(account, "files"))
    for line in run_paths.unmet(account, dict(DEMANDS, **{"different files": 1500})) + unknowns.lacking(account, 15, 5):
        tally.fault(line)
    return tally.close()


if __name__ == "__main__":
    sys.exit(main(sys.argv))
