"""Compile the header and the C host as C99, C17 and C++ with all warnings as errors, run the host on the examples, and compare
what it prints.

    python3 tests/run_host.py PATH_OF_ARCHIVE

The last line printed is `N passed, M failed`; the exit status is 0 only where M is 0.
"""

import os
import random
import subprocess
import sys
import tempfile

import brute
import comparing
import files
import make_examples
import stored

ROOT = os.path.join(os.path.dirname(os.path.abspath(__file__)), os.pardir)
SECONDS_FOR_FILE = 60

# The languages that the header and the host are compiled as; g++ takes a .c file for C++.
LANGUAGES = [("gcc", "-std=c99"), ("gcc", "-std=c17"), ("g++", "-std=c++11")]
WARNINGS = ["-Wall", "-Wextra", "-Wpedantic", "-Werror"]

# The header before any other and twice, each of its functions used.
HEADER_ALONE = """#include "hempmallet.h"
#include "hempmallet.h"

/* label 0 of the pair 0 1 once known and once unknown */
static const uint8_t known_and_unknown[] = {1, 2, 2, 0, 1, 0, 2, 0, 1, 0, 0, 0, 1, 0x00, 2, 0, 1, 0x80, 0, 0};

int main(void)
{
    uint64_t reply = hempmallet_verdict((const uint8_t *)"", 0);
    uint8_t byte = 0;
    if (!hempmallet_refused(reply) || hempmallet_kind(reply) != HEMPMALLET_REFUSED_LENGTH || hempmallet_length(reply) != 0
        || hempmallet_mining(&byte, 0, &byte, 0, &byte, 0) != HEMPMALLET_REFUSED_LENGTH
        || hempmallet_permit(&byte, 0, &byte, 0, 0, 1) != HEMPMALLET_REFUSED_LENGTH
        || hempmallet_verdict(known_and_unknown, sizeof known_and_unknown) != HEMPMALLET_REFUSED_KNOWN_AND_UNKNOWN) {
        return 1;
    }
    reply = UINT64_C(0x0403020182);
    return hempmallet_kind(reply) == HEMPMALLET_RIVAL && hempmallet_first(reply) == 1 && hempmallet_second(reply) == 2
        && hempmallet_rival_first(reply) == 3 && hempmallet_rival_second(reply) == 4 ? 0 : 1;
}
"""

# What the host prints for 01's cases and for files beside them, and its exit status.
WRITTEN = {
    "a.house": ("convertible, a list of 7 bytes\nlist 01 00 01 00 02 00 00\npermits 0 2\n", 0),
    "a2.house": ("convertible, a list of 7 bytes\nlist 01 00 01 00 02 00 00\npermits 0 2\n", 0),
    "b.house": ("not convertible: pair 0 1 has the rival 1 2\n", 0),
    "c.house": ("not convertible: pair 2 0 has no word\n", 0),
    "refused.house": ("refused 4\n", 1),
    "owner.house": ("refused 15\n", 1),
    "known-and-unknown.house": ("refused 16\n", 1),
    "unknown.house": ("convertible, a list of 6 bytes\nlist 01 00 01 00 01 01\npermits 1 0\n", 0),
    "unknown-permitted.house": ("not convertible: pair 0 1 has no word\n", 0),
    "nothing-unknown.house": ("not convertible: pair 1 0 has the rival 0 1\n", 0),
    "longest.house": ("convertible, a list of 6 bytes\nlist 01 00 01 00 01 00\n" + "".join(
        "permits %d %d\n" % (u, v) for u in range(32) for v in range(32) if u != v), 0),
    "longer.house": ("refused 1\n", 1),
    "empty.house": ("refused 1\n", 1),
    "long.house": ("refused 1\n", 1),
    "missing.house": ("", 2),
}


def convertible_text(data):
    """What the host prints for a convertible file."""
    known = brute.Known(data)
    listed = brute.encode_list(known.terms())
    text = "convertible, a list of %d bytes\nlist %s\n" % (len(listed), listed.hex(" ").upper())
    return text + "".join("permits %d %d\n" % pair for pair in sorted(known.house.permits))


def compiled(language, source, archive, program):
    """Compile and link one source as a language; returns the program's path."""
    subprocess.run([*language, *WARNINGS, "-I", os.path.join(ROOT, "include"), source, archive, "-o", program], check=True)
    return program


def hold_header(tally, language, archive, folder):
    """The header compiles by itself, and its functions answer."""
    source = os.path.join(folder, "header.c")
    with open(source, "w", encoding="utf-8") as out:
        out.write(HEADER_ALONE)
    ended = subprocess.run([compiled(language, source, archive, os.path.join(folder, "header"))], timeout=SECONDS_FOR_FILE)
    tally.hold(ended.returncode == 0, lambda: ("the header by itself, %s: status %d" % (" ".join(language), ended.returncode),))


def hold_host(tally, language, host, folder, expected):
    """The host prints what it must for each file."""
    for name, (text, status) in sorted(expected.items()):
        ended = subprocess.run([host, os.path.join(folder, name)], stdout=subprocess.PIPE,
                               stderr=subprocess.DEVNULL, timeout=SECONDS_FOR_FILE)
        found = ended.stdout.decode("latin-1"), ended.returncode
        tally.hold(found == (text, status), lambda: (
            "%s, %s:" % (name, " ".join(language)), "  expected: %r and %d" % (text, status), "  found:    %r and %d" % found))


def write_files(folder):
    """Copies of the stored examples and some files that are refused; returns what is expected of each."""
    expected = dict(WRITTEN)
    longest = files.full_draft(random.Random(1), 0, 31, 2).bytes()
    written = {"refused.house": stored.case_file("A with record 2's next 01 00"), "empty.house": b"",
               "owner.house": stored.case_file("A in edition 2 with record 1's owner 01"),
               "known-and-unknown.house": stored.case_file("label 0 known, then unknown"),
               "unknown-permitted.house": stored.case_file("(0,1) unknown, permit (0,1)"),
               "nothing-unknown.house": stored.case_file("nothing unknown, permit (1,0)"),
               "longest.house": longest, "longer.house": longest + b"\0",
               "long.house": stored.case_file("A") + bytes(50000)}
    for name, made in make_examples.examples().items():
        with open(os.path.join(ROOT, "examples", name), "rb") as example:
            written[name] = example.read()
        if written[name] != made:
            raise ValueError("examples/%s is not what make_examples.py writes" % name)
        if name not in expected:
            expected[name] = (convertible_text(made), 0)
    for name, data in written.items():
        with open(os.path.join(folder, name), "wb") as out:
            out.write(data)
    return expected


def main(arguments):
    tally = comparing.Tally()
    if len(arguments) != 2:
        tally.fault("usage: run_host.py PATH_OF_ARCHIVE")
        return tally.close()
    archive = os.path.abspath(arguments[1])
    with tempfile.TemporaryDirectory() as folder:
        try:
            expected = write_files(folder)
            for language in LANGUAGES:
                hold_header(tally, language, archive, folder)
                host = compiled(language, os.path.join(ROOT, "host", "host.c"), archive, os.path.join(folder, "host"))
                hold_host(tally, language, host, folder, expected)
        except (OSError, ValueError, subprocess.SubprocessError) as error:
            tally.fault("the host cannot be run: %s" % error)
    return tally.close()


if __name__ == "__main__":
    sys.exit(main(sys.argv))
