"""Hold verdict, mining, permit and permitconv to files at which their shortcuts are taken.

    python3 tests/run_shortcuts.py PATH_OF_ARCHIVE PATH_OF_PERMITCONV_BINARY [--without-slow]

First the rows of shortcuts.py, each in a process of its own with a limit of processor time.
Then small files at random, drawn so that many words are had before the first
one that is lacked; their answers are those of quick.py. --without-slow leaves out
the rows that a search without shortcuts doesn't end. The seeds are fixed. The last
line printed is `N passed, M failed`: N counts calls; M counts calls and, beside
them, demands on the set of files that are not met. The exit status is 0 only
where M is 0.
"""

import os
import pickle
import random
import resource
import signal
import subprocess
import sys
import tempfile
from collections import Counter, namedtuple

import alike
import brute
import comparing
import console
import large
import large_console
import quick
import run_console
import run_paths
import run_permitconv
import shortcuts
import unknowns

SECONDS_FOR_ROW = 30      # of processor time
SECONDS_OF_RUN = 1500     # a call on a small file that does not end ends the run without its last line
PAIRS_OF_ROW = 12         # that the permit call is asked about
TEXT_SHOWN = 200
DRAWN = 3500
MOST_WORDS = 8000         # before the first one lacked, so that a search without shortcuts ends

# One call: its name and arguments, the reply expected and the one found.
Held = namedtuple("Held", "call arguments expected found")


# ------------------------------------------------------------------------ the calls

def calls_of(functions, rng, row):
    """Verdict, mining and permit on a row."""
    yield Held("verdict", "", row.reply, functions.verdict(row.data))
    if row.terms is None:
        yield mined(functions, rng, row, ("refused", 13), 40)
        return
    listed = brute.encode_list(row.terms)
    table = large_console.scratch_of(row.data)
    yield mined(functions, rng, row, ("length", len(listed)), len(listed), table, listed)
    yield mined(functions, rng, row, ("refused", 14), len(listed) - 1, bytes(brute.SCRATCH_LENGTH))
    permits = large_console.permits_of(row.data)
    pairs = large.all_pairs(row.data[1])
    for pair in rng.sample(sorted(permits), min(2, len(permits))) + rng.sample(pairs, min(PAIRS_OF_ROW, len(pairs))):
        expected = ("yes",) if pair in permits else ("no",)
        yield Held("permit", pair, expected, functions.permit(row.data, listed, *pair))


def mined(functions, rng, row, reply, room, table=b"", listed=b""):
    """One mining call; what is not written over keeps its old bytes."""
    scratch, output = rng.randbytes(brute.SCRATCH_LENGTH + 5), rng.randbytes(room)
    expected = reply, brute.written_over(scratch, table), brute.written_over(output, listed)
    return Held("mining", "output %d" % room, expected, functions.mining(row.data, scratch, output))


def hold(tally, name, data, held):
    tally.hold(held.expected == held.found, lambda: (
        "difference in %s %s: %s" % (held.call, held.arguments, name), "  file: %s" % comparing.shortened(data),
        "  expected: %s" % run_console.shown(held.expected), "  found:    %s" % run_console.shown(held.found)))


def limit_time():
    """Ends this process after its time."""
    resource.setrlimit(resource.RLIMIT_CPU, (SECONDS_FOR_ROW, SECONDS_FOR_ROW))


def in_time(make):
    """The calls that make() gives, made in a new process with little stack; None where that doesn't end well in its time."""
    reading, writing = os.pipe()
    child = os.fork()
    if child == 0:
        try:
            limit_time()
            made = []
            run_console.with_stack(run_paths.STACK, lambda: made.extend(make()))
            with os.fdopen(writing, "wb") as out:
                out.write(pickle.dumps(made))
            os._exit(0)
        finally:
            os._exit(1)
    os.close(writing)
    with os.fdopen(reading, "rb") as printed:
        text = printed.read()
    _, status = os.waitpid(child, 0)
    return pickle.loads(text) if status == 0 else None


def hold_in_time(tally, name, data, make):
    made = in_time(make)
    if made is None:
        tally.hold(False, lambda: ("no answer within %d seconds: %s" % (SECONDS_FOR_ROW, name), "  file: %s" % comparing.shortened(data)))
        return
    for held in made:
        hold(tally, name, data, held)


def hold_text(tally, binary, row):
    """What permitconv prints for the row's file."""
    ended = subprocess.run([binary], input=row.data, capture_output=True, preexec_fn=limit_time)
    found = ended.stdout.decode("latin-1") if ended.returncode == 0 else "ended with status %d" % ended.returncode
    expected = run_permitconv.text_of_row(row)
    tally.hold(expected == found, lambda: (
        "difference in permitconv: %s" % row.name, "  file: %s" % comparing.shortened(row.data),
        "  expected: %s" % expected[:TEXT_SHOWN], "  found:    %s" % found[:TEXT_SHOWN]))


# ------------------------------------------------------------------------ files at random

def hold_drawn(tally, functions, rng, account, files_seen):
    """Files of alike.py at which many words are had, with the answers of quick.py."""
    for _ in range(DRAWN):
        house = alike.drawn(rng)
        reckoner = quick.Reckoner(house, alike.MOST_STATES)
        try:
            judged = reckoner.judged()
        except quick.TooMany:
            continue
        most = max(judged.before, default=0)
        if not alike.MANY < most <= MOST_WORDS:
            continue
        row = shortcuts.Row("at random", alike.file_of(rng, house), judged.reply, judged.terms, False)
        for held in calls_of(functions, rng, row):
            hold(tally, row.name, row.data, held)
        account.update(alike.occurrences(house, judged, most))
        unknowns.count(account, files_seen, row.data, 0)


def main(arguments):
    tally = comparing.Tally()
    without_slow = arguments[3:] == ["--without-slow"]
    if len(arguments) != 3 and not without_slow:
        tally.fault("usage: run_shortcuts.py PATH_OF_ARCHIVE PATH_OF_PERMITCONV_BINARY [--without-slow]")
        return tally.close()
    signal.alarm(SECONDS_OF_RUN)
    archive, binary = map(os.path.abspath, arguments[1:3])
    account, files_seen = Counter(), set()
    with tempfile.TemporaryDirectory() as folder:
        shared = console.built(archive, folder, tally)
        if shared is None:
            return tally.close()
        functions = console.Console(shared, random.Random(616))
        rng = random.Random(717)
        for row in shortcuts.rows():
            if not (row.slow and without_slow):
                hold_in_time(tally, row.name, row.data, lambda: calls_of(functions, rng, row))
                hold_text(tally, binary, row)
                unknowns.count(account, files_seen, row.data, 0)
        for asked in shortcuts.permit_rows():
            if not (asked.slow and without_slow):
                hold_in_time(tally, asked.name, asked.data, lambda: [
                    Held("permit", asked.pair, asked.reply, functions.permit(asked.data, asked.listed, *asked.pair))])
        hold_drawn(tally, functions, rng, account, files_seen)
    print(run_paths.account_text(account, "files"))
    for name, least in alike.DEMANDS.items():
        if account[name] < least:
            tally.fault("%s: %d, fewer than %d" % (name, account[name], least))
    for line in unknowns.lacking_accepted(account):
        tally.fault(line)
    return tally.close()


if __name__ == "__main__":
    sys.exit(main(sys.argv))
