"""Run permitconv with arguments, and hold what it prints and says to what it must.

    python3 tests/run_arguments.py PATH_OF_PERMITCONV_BINARY

--help and --version are answered whatever standard input is. Any other first argument, and all after the first, change
nothing. The last line printed is `N passed, M failed`; the exit status is 0 only where M is 0.
"""

import os
import subprocess
import sys

import comparing
import run_make
import stored
import streams

HELP = """usage: permitconv < FILE
Reads a house file from standard input and prints whether its permits can be said by
rules and, where they can, the rules, a line for each term.

  --help       print this text
  --version    print the version
"""
VERSION = "permitconv (Hempmallet) %s\n" % run_make.version()

# The arguments and what is printed.
ASKED = [(["--help"], HELP), (["--version"], VERSION), (["--help", "--version"], HELP), (["--version", "x"], VERSION)]

# Arguments with which the file is answered as without any. The program looks at 16 bytes of the first.
PASSED_OVER = [["x"], [""], ["-h"], ["-"], ["--"], ["--hel"], ["--helpx"], ["--Help"], ["--help "], ["--help\n"], ["--versio"],
               ["--versions"], ["--help=x"], ["x" * 15], ["x" * 16], ["x" * 17], ["--version" + "x" * 7],
               ["--version" + "x" * 8], ["x" * 100000], ["x", "--help"], ["", "--version"], [b"\xff"], ["a.house"], ["x"] * 1000]


def trials(binary):
    """Each trial of streams.py's kind."""
    for arguments, text in ASKED:
        command = [binary] + arguments
        yield streams.Trial("asked %s" % arguments, streams.Ended(0, text, ""), streams.on_file(command, stored.case_file("A")))
        with streams.descriptor("/", os.O_RDONLY) as folder:
            yield streams.Trial("asked %s, no file to read" % arguments, streams.Ended(0, text, ""), streams.run(command, folder))
        with streams.descriptor("/dev/full", os.O_WRONLY) as full:
            yield streams.Trial("asked %s on /dev/full" % arguments, streams.Ended(0, "", streams.NOT_WRITTEN),
                                streams.run(command, subprocess.DEVNULL, full))
    for arguments in PASSED_OVER:
        name = "passed over: %.60s" % arguments
        yield streams.Trial(name, streams.Ended(0, "convertible 7\n00.00\n", ""),
                            streams.on_file([binary] + arguments, stored.case_file("A")))


def main(arguments):
    tally = comparing.Tally()
    if len(arguments) != 2:
        tally.fault("usage: run_arguments.py PATH_OF_PERMITCONV_BINARY")
        return tally.close()
    for trial in trials(os.path.abspath(arguments[1])):
        tally.hold(trial.found == trial.wanted, lambda: (
            "difference in a trial: %s" % trial.name, "  expected: %.400s" % repr(trial.wanted), "  found:    %.400s" % repr(trial.found)))
    return tally.close()


if __name__ == "__main__":
    sys.exit(main(sys.argv))
