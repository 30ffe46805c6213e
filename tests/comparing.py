"""Running the program `cases` on frames, and holding what it prints to the expected lines."""

import os
import resource
import subprocess
import tempfile
from collections import namedtuple

import script

FRAMES_IN_BATCH = 5000
SECONDS_FOR_BATCH = 120
DIFFERENCES_SHOWN = 5
HEX_SHOWN = 160
LINES_SHOWN = 4
BEGINNINGS = tuple(name + " " for name in script.NAMES.values())

# What a run is made of: cases, each row of them with a limit of the stack or None; a text about
# them that is printed; the demands that they don't meet, as lines of text; and a function that says
# in lines of text what is wrong in the replies to all cases, taken together.
Prepared = namedtuple("Prepared", "rows text lacking wrong", defaults=[lambda replies: []])


class Tally:
    """What has passed and failed so far. Frames count, and faults beside them."""

    def __init__(self):
        self.passed = 0
        self.failed = 0
        self.frames = 0
        self.shown = 0

    def fault(self, line, times=1):
        """Something other than a frame's reply is wrong."""
        print(line)
        self.failed += times

    def hold(self, same, lines):
        """One more reply; the lines that lines() gives are printed where it differs, for the first few."""
        self.frames += 1
        if same:
            self.passed += 1
            return
        self.failed += 1
        if self.shown < DIFFERENCES_SHOWN:
            self.shown += 1
            print("\n".join(lines()))

    def close(self):
        """Print the last line; returns the exit status. Without a frame nothing has passed."""
        if self.frames == 0 and self.failed == 0:
            self.fault("no frame was run")
        print("%d passed, %d failed" % (self.passed, self.failed), flush=True)
        return 0 if self.failed == 0 and self.passed == self.frames else 1


def run_prepared(arguments, prepare):
    """Run the program that the only argument names on what prepare() gives. Returns the exit status."""
    tally = Tally()
    if len(arguments) != 2:
        tally.fault("usage: %s PATH_OF_CASES_BINARY" % os.path.basename(arguments[0]))
        return tally.close()
    prepared = prepare()
    replies = []
    for cases, stack in prepared.rows:
        replies += run(os.path.abspath(arguments[1]), cases, tally, stack)
    print(prepared.text)
    for line in prepared.lacking + prepared.wrong(replies):
        tally.fault(line)
    return tally.close()


def run(binary, cases, tally, stack=None):
    """Run the binary on all cases, batch by batch. stack limits its stack, in bytes. Returns the replies."""
    replies = []
    with tempfile.TemporaryDirectory() as folder:
        for number, start in enumerate(range(0, len(cases), FRAMES_IN_BATCH)):
            batch = cases[start:start + FRAMES_IN_BATCH]
            output, fault = run_batch(binary, folder, number, batch, stack)
            if fault is not None:
                tally.fault("batch %d: %s" % (number, fault))
            replies += count(batch, output, tally)
    return replies


def run_batch(binary, folder, number, batch, stack):
    """Run the binary on one batch. Returns what it printed, and a fault or None."""
    paths = [os.path.join(folder, "%s.%d" % (name, number)) for name in ("script", "printed")]
    with open(paths[0], "wb") as out:
        out.writelines(case.frame for case in batch)
    fault = None
    with open(paths[0], "rb") as stdin, open(paths[1], "wb") as stdout:
        try:
            status = subprocess.run([binary], stdin=stdin, stdout=stdout,
                                    timeout=SECONDS_FOR_BATCH, preexec_fn=limiter(stack)).returncode
            if status != 0:
                fault = "the program ended with status %d" % status
        except subprocess.TimeoutExpired:
            fault = "the program did not end within %d seconds" % SECONDS_FOR_BATCH
        except (OSError, subprocess.SubprocessError) as error:
            fault = "the program could not be started: %s" % error
    with open(paths[1], "rb") as printed:
        return printed.read().decode("latin-1"), fault


def limiter(stack):
    """What the new process does before the program starts: limit its stack."""
    if stack is None:
        return None
    return lambda: resource.setrlimit(resource.RLIMIT_STACK, (stack, stack))


def count(batch, output, tally):
    """Compare the output with the batch's texts and count; show the first differences. Returns a reply for each."""
    differing, found, excess = compare([case.text for case in batch], output)
    tally.frames += len(batch)
    tally.passed += len(batch) - len(differing)
    tally.failed += len(differing)
    for i in differing:
        if tally.shown < DIFFERENCES_SHOWN:
            show_difference(batch[i], found[i])
            tally.shown += 1
    if excess > 0:
        tally.fault("%d replies more than frames" % excess, excess)
    return found


def replies_of(output):
    """The output cut into replies; each begins with a line that names a call."""
    replies = []
    for line in output.splitlines(keepends=True):
        if line.startswith(BEGINNINGS) or not replies:
            replies.append([])
        replies[-1].append(line)
    return ["".join(lines) for lines in replies]


def compare(texts, output):
    """The places of the texts that differ, the reply found for each, and how many are too many."""
    replies = replies_of(output)
    found = replies[:len(texts)] + [""] * (len(texts) - len(replies))
    differing = [i for i in range(len(texts)) if found[i] != texts[i]]
    return differing, found, len(replies) - len(texts)


def shortened(data):
    """The first bytes in hexadecimal, and how many there are where some are left out."""
    more = " ... (%d bytes)" % len(data) if len(data) > HEX_SHOWN else ""
    return data[:HEX_SHOWN].hex(" ").upper() + more


def show_difference(case, found):
    parts = script.parts_of(case.frame)
    print("difference in %s" % script.NAMES[parts.call])
    if parts.call in (script.PATH, script.NEXT_WORD):
        print("  pair: %d %d  given: %s  output lent: %d" % (
            parts.first, parts.second, shortened(parts.given), len(parts.output) - 2 * script.GUARD))
    elif parts.call == script.TEST:
        print("  pair: %d %d  given: %s" % (parts.first, parts.second, shortened(parts.given)))
    elif parts.call == script.WRITE:
        print("  output lent: %d" % (len(parts.output) - 2 * script.GUARD))
    elif parts.call in script.LISTED:
        print("  pair: %d %d  list: %s" % (parts.first, parts.second, shortened(parts.given)))
    print("  file: %s" % shortened(parts.data))
    wanted_lines, found_lines = case.text.splitlines(), found.splitlines()
    shown = 0
    for i in range(max(len(wanted_lines), len(found_lines))):
        wanted = wanted_lines[i] if i < len(wanted_lines) else "(no line)"
        got = found_lines[i] if i < len(found_lines) else "(no line)"
        if wanted != got and shown < LINES_SHOWN:
            print("  line %d expected: %s" % (i + 1, wanted[:400]))
            print("  line %d printed:  %s" % (i + 1, got[:400]))
            shown += 1
    if shown == 0:
        print("  the line ends differ")
