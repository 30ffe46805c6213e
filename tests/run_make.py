"""Hold the Makefile to what it says: what it installs and where, that a C program can use it, and what is taken away again.

    python3 tests/run_make.py

The program and the archive must have been made before, as the gate does; nothing is proved here. The manual page's examples are
run with the installed program. The last line printed is `N passed, M failed`; the exit status is 0 only where M is 0.
"""

import os
import re
import shutil
import stat
import subprocess
import sys
import tempfile

import comparing
import stored

ROOT = os.path.join(os.path.dirname(os.path.abspath(__file__)), os.pardir)
SECONDS = 120
PROGRAM, ARCHIVE, HOST = "crates/permitconv/out/permitconv", "crates/hempmallet/out/libhempmallet.a", "target/host"
PREFIX = "/usr/x"
PC = "lib/pkgconfig/hempmallet.pc"

# What is installed below the prefix: the mode, and the file that it is a copy of.
INSTALLED = {"bin/permitconv": (0o755, PROGRAM), "include/hempmallet.h": (0o644, "include/hempmallet.h"),
             "lib/libhempmallet.a": (0o644, ARCHIVE), "share/man/man1/permitconv.1": (0o644, "docs/permitconv.1"), PC: (0o644, None)}

PC_TEXT = """prefix=%(prefix)s
includedir=%(prefix)s/include
libdir=%(libdir)s

Name: hempmallet
Description: Rules over relations for an archive's permit table
Version: %(version)s
Cflags: -I${includedir}
Libs: -L${libdir} -lhempmallet
"""

# A C program that asks for the verdict of document 01's case A, and what it prints.
USER = """#include <stdio.h>
#include <hempmallet.h>

int main(void)
{
    static const uint8_t file[] = {%s};
    printf("%%llx\\n", (unsigned long long)hempmallet_verdict(file, sizeof file));
    return 0;
}
"""
USER_PRINTS = "780\n"


def version():
    """The version that the Makefile names."""
    with open(os.path.join(ROOT, "Makefile"), encoding="utf-8") as makefile:
        return re.search(r"^VERSION = (\S+)$", makefile.read(), re.MULTILINE).group(1)


def run(command, **more):
    """The exit status, what was printed and what was said. The variables of a make above this one are left out."""
    kept = {name: value for name, value in os.environ.items() if name not in ("MAKEFLAGS", "MFLAGS", "MAKELEVEL", "MAKEOVERRIDES")}
    ended = subprocess.run(command, cwd=ROOT, env=kept, stdout=subprocess.PIPE, stderr=subprocess.PIPE, timeout=SECONDS, **more)
    return ended.returncode, ended.stdout.decode("latin-1"), ended.stderr.decode("latin-1")


def make(*words, **more):
    return run(["make", "--no-print-directory", *words], **more)


def content(path):
    with open(os.path.join(ROOT, path), "rb") as file:
        return file.read()


def files_below(folder):
    return sorted(os.path.relpath(os.path.join(above, name), folder) for above, _, names in os.walk(folder) for name in names)


def mode(path):
    return stat.S_IMODE(os.stat(path).st_mode)


def hold(tally, name, expected, found):
    tally.hold(expected == found, lambda: (
        "difference: %s" % name, "  expected: %.400s" % repr(expected), "  found:    %.400s" % repr(found)))


# ------------------------------------------------------------------ what is installed

def hold_installed(tally, stage):
    """Every file in its place, with its mode and content; stage has the prefix in it."""
    below = stage + PREFIX
    hold(tally, "installed files", sorted(PREFIX.lstrip("/") + "/" + name for name in INSTALLED), files_below(stage))
    for name, (wanted, source) in sorted(INSTALLED.items()):
        path = os.path.join(below, name)
        text = content(source) if source else pc_text(PREFIX, PREFIX + "/lib").encode()
        hold(tally, name, (wanted, text), (mode(path), content(path)))
    for folder in ("", "/bin", "/include", "/lib", "/lib/pkgconfig", "/share/man/man1"):
        hold(tally, "mode of the folder " + folder, 0o755, mode(below + folder))


def pc_text(prefix, libdir):
    return PC_TEXT % {"prefix": prefix, "libdir": libdir, "version": version()}


def flags_of(path, prefix):
    """The compiler's flags that a pkg-config file gives where its prefix is this one, as pkg-config would."""
    variables, fields = {}, {}
    for line in content(path).decode().splitlines():
        if re.match(r"\w+=", line):
            name, value = line.split("=", 1)
            variables[name] = value
        elif line:
            name, value = line.split(": ", 1)
            fields[name] = value
    old = variables["prefix"]

    def value_of(found):
        value = variables[found.group(1)]
        return prefix + value[len(old):] if value.startswith(old + "/") else value

    return [re.sub(r"\$\{(\w+)\}", value_of, fields[name]).split() for name in ("Cflags", "Libs")]


def hold_user(tally, stage):
    """A C program is compiled with the installed header and archive, and run."""
    source, program = os.path.join(stage, "user.c"), os.path.join(stage, "user")
    with open(source, "w", encoding="utf-8") as out:
        out.write(USER % ", ".join(map(str, stored.case_file("A"))))
    below = stage + PREFIX
    cflags, libs = flags_of(os.path.join(below, PC), below)
    hold(tally, "flags", (["-I%s/include" % below], ["-L%s/lib" % below, "-lhempmallet"]), (cflags, libs))
    compiled = run(["gcc", "-Wall", "-Wextra", "-Werror", *cflags, source, *libs, "-o", program])
    hold(tally, "compiling with the installed files", (0, "", ""), compiled)
    if compiled[0] == 0:
        hold(tally, "a program that uses them", (0, USER_PRINTS, ""), run([program]))
    os.remove(source)
    if os.path.exists(program):
        os.remove(program)


def hold_pkg_config(tally, stage):
    """Where pkg-config is there, it reads the file as it is meant."""
    if shutil.which("pkg-config") is None:
        print("pkg-config is not there: its file was read by hand only")
        return
    path = os.path.join(stage + PREFIX, PC)
    hold(tally, "pkg-config --modversion", (0, version() + "\n", ""), run(["pkg-config", "--modversion", path]))
    hold(tally, "pkg-config --validate", (0, "", ""), run(["pkg-config", "--validate", path]))
    flags = " ".join(["-I%s/include" % PREFIX, "-L%s/lib" % PREFIX, "-lhempmallet"])
    status, printed, said = run(["pkg-config", "--cflags", "--libs", path])
    hold(tally, "pkg-config --cflags --libs", (0, flags, ""), (status, printed.strip(), said))


# ------------------------------------------------------------------- the manual page

def examples_of(page):
    """The commands of the page's examples, each with the text that it prints."""
    part = page.split(".SH EXAMPLES\n", 1)[1].split(".nf\n", 1)[1].split(".fi\n", 1)[0].replace("\\-", "-")
    lines = [line[4:] for line in part.splitlines()]
    starts = [number for number, line in enumerate(lines) if line.startswith("$ ")] + [len(lines)]
    return [(lines[start][2:], "".join(line + "\n" for line in lines[start + 1:end])) for start, end in zip(starts, starts[1:])]


def hold_manual(tally, stage):
    """Its version and its examples, with the installed program; where groff is there, that it has nothing to warn of."""
    page = os.path.join(stage + PREFIX, "share/man/man1/permitconv.1")
    text = content(page).decode("ascii")
    hold(tally, "version of the manual page", True, '"Hempmallet %s"' % version() in text.splitlines()[0])
    program = os.path.join(stage + PREFIX, "bin/permitconv")
    found = examples_of(text)
    hold(tally, "examples of the manual page", True, len(found) >= 5)
    for command, printed in found:
        name, _, file = command.partition(" < ")
        with open(os.path.join(ROOT, file), "rb") as given:
            hold(tally, command, ("permitconv", (0, printed, "")), (name, run([program], stdin=given)))
    if shutil.which("groff") is None:
        print("groff is not there: the manual page was not set")
    else:
        status, _, said = run(["groff", "-man", "-Tascii", "-ww", page])
        hold(tally, "setting the manual page", (0, ""), (status, said))


# --------------------------------------------------------------------------- the run

def hold_all(tally, stage):
    hold(tally, "make of the host", 0, make(HOST)[0])
    hold(tally, "all is made", (0, "", ""), make("-q"))
    places = ["DESTDIR=" + stage, "PREFIX=" + PREFIX]
    hold(tally, "make install", 0, make("install", *places, preexec_fn=lambda: os.umask(0o077))[0])
    hold_installed(tally, stage)
    hold_user(tally, stage)
    hold_pkg_config(tally, stage)
    hold_manual(tally, stage)
    hold(tally, "the version", (0, "permitconv (Hempmallet) %s\n" % version(), ""),
         run([os.path.join(stage + PREFIX, "bin/permitconv"), "--version"], stdin=subprocess.DEVNULL))
    other = os.path.join(stage, PREFIX.lstrip("/"), "lib", "other")
    with open(other, "wb"):
        pass
    hold(tally, "make uninstall", 0, make("uninstall", *places)[0])
    hold(tally, "what make uninstall leaves", [os.path.relpath(other, stage)], files_below(stage))
    os.remove(other)
    hold(tally, "make install with a library folder of its own", 0, make("install", *places, "LIBDIR=/lib/y")[0])
    hold(tally, "its pkg-config file", pc_text(PREFIX, "/lib/y"), content(stage + "/lib/y/pkgconfig/hempmallet.pc").decode())
    hold(tally, "make clean", (0, "rm -rf target crates/*/out tests/__pycache__\n", ""), make("-n", "clean"))
    hold(tally, "make check", (0, "bash .ci/run\n", ""), make("-n", "check"))


def main(arguments):
    tally = comparing.Tally()
    if len(arguments) != 1:
        tally.fault("usage: run_make.py")
        return tally.close()
    if make("-q", PROGRAM, ARCHIVE)[0] != 0:
        tally.fault("the program or the archive is older than its source: run make first")
        return tally.close()
    with tempfile.TemporaryDirectory() as stage:
        try:
            hold_all(tally, stage)
        except (OSError, ValueError, subprocess.SubprocessError) as error:
            tally.fault("the run stopped: %s" % error)
    return tally.close()


if __name__ == "__main__":
    sys.exit(main(sys.argv))
