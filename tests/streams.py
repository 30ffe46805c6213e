"""Standard input and output of permitconv that fail, or that come and go in pieces.

A read or a write that fails is said by a line on standard error; the exit
status is 0 there too. host/permitconv.sh runs the program and has the status.
"""

import contextlib
import fcntl
import os
import socket
import subprocess
import threading
import time
from collections import namedtuple

STATUS = os.path.join(os.path.dirname(os.path.abspath(__file__)), os.pardir, "host", "permitconv.sh")
SECONDS = 60
PAUSE = 0.002
SMALL_PIPE, USUAL_PIPE = 4096, 65536   # bytes that a pipe holds
F_SETPIPE_SZ = 1031   # Linux; the module fcntl has it from Python 3.10 on
NOT_READ = "permitconv: standard input cannot be read\n"
NOT_WRITTEN = "permitconv: standard output cannot be written\n"

# The exit status (below 0: the signal that ended the program), what it printed, what it said on standard error.
Ended = namedtuple("Ended", "status printed said")
# What is tried, what must come of it, and what came of it.
Trial = namedtuple("Trial", "name wanted found")


def run(binary, stdin, stdout=subprocess.PIPE, feed=None, drain=None, **more):
    """Run the program, or a command line, to its end. feed writes its standard input, drain reads its standard output."""
    program = subprocess.Popen([binary] if isinstance(binary, str) else binary, stdin=stdin, stdout=stdout, stderr=subprocess.PIPE, **more)
    writer = threading.Thread(target=feed, args=(program.stdin,)) if feed else None
    timer = threading.Timer(SECONDS, program.kill)
    timer.start()
    try:
        if writer:
            writer.start()
        printed = b"" if program.stdout is None else drain(program.stdout) if drain else program.stdout.read()
        said = program.stderr.read()
        status = program.wait()
    finally:
        timer.cancel()
        timer.join()
        if writer:
            writer.join()
        for pipe in (program.stdout, program.stderr):
            if pipe:
                pipe.close()
    return Ended(status, printed.decode("latin-1"), said.decode("latin-1"))


def on_file(binary, data, stdout=subprocess.PIPE, **more):
    """Run with these bytes as standard input."""
    return run(binary, subprocess.PIPE, stdout, feed=lambda pipe: in_pieces(pipe, data, len(data), 0), **more)


def in_pieces(pipe, data, size, pause=PAUSE):
    """Write data piece by piece; the program may stop reading before the end."""
    try:
        for start in range(0, len(data), size):
            pipe.write(data[start:start + size])
            pipe.flush()
            time.sleep(pause)
    except BrokenPipeError:
        pass
    try:
        pipe.close()
    except BrokenPipeError:
        pass


def slowly(pipe):
    """All that comes, a little at a time."""
    parts = []
    while True:
        part = os.read(pipe.fileno(), 4096)
        if not part:
            return b"".join(parts)
        parts.append(part)
        time.sleep(PAUSE)


# ------------------------------------------------------------------ reads that fail

def read_trials(binary, data):
    not_read = Ended(0, "", NOT_READ)
    with descriptor("/", os.O_RDONLY) as folder:
        yield Trial("a directory as standard input", not_read, run(binary, folder))
    yield Trial("standard input closed", not_read, run(binary, None, preexec_fn=lambda: os.close(0)))
    with descriptor(os.devnull, os.O_WRONLY) as sink:
        yield Trial("standard input open for writing only", not_read, run(binary, sink))
    with failing_after(data) as near:
        yield Trial("a read that fails after a whole file", not_read, run(binary, near))


def failing_after(data):
    """A socket that gives data and then an error: its other end is closed with a byte unread."""
    near, far = socket.socketpair()
    far.sendall(data)
    near.sendall(b"x")
    far.close()
    return near


# ----------------------------------------------------------------- writes that fail

def write_trials(binary, data, beyond_small):
    not_written = Ended(0, "", NOT_WRITTEN)
    with descriptor("/dev/full", os.O_WRONLY) as full:
        yield Trial("standard output on /dev/full", not_written, on_file(binary, data, full))
    yield Trial("standard output closed", not_written, on_file(binary, data, None, preexec_fn=lambda: os.close(1)))
    with unread() as pipe:
        yield Trial("no reader", not_written, on_file(binary, data, pipe))
        yield Trial("no reader and SIGPIPE ignored", not_written, on_file(binary, data, pipe, restore_signals=False))
    yield cut_short(binary, *beyond_small)


@contextlib.contextmanager
def descriptor(path, flags):
    number = os.open(path, flags)
    try:
        yield number
    finally:
        os.close(number)


@contextlib.contextmanager
def unread():
    """The end for writing of a pipe that nobody reads."""
    reader, writer = os.pipe()
    os.close(reader)
    try:
        yield writer
    finally:
        os.close(writer)


def cut_short(binary, data, text):
    """A pipe that takes a part of the text and then refuses more."""
    reader, writer = os.pipe()
    fcntl.fcntl(writer, F_SETPIPE_SZ, SMALL_PIPE)
    os.set_blocking(writer, False)
    found = on_file(binary, data, writer)
    os.close(writer)
    with os.fdopen(reader, "rb") as pipe:
        taken = pipe.read().decode("latin-1")
    return Trial("a write cut short", Ended(0, text[:SMALL_PIPE], NOT_WRITTEN), found._replace(printed=taken))


# ------------------------------------------------------------------------ in pieces

def piece_trials(binary, whole, beyond_usual):
    for data, text in whole:
        for size in (1, 7, 4096):
            if len(data) <= 1000 * size:
                yield Trial("%d bytes in pieces of %d" % (len(data), size), Ended(0, text, ""),
                            run(binary, subprocess.PIPE, feed=lambda pipe: in_pieces(pipe, data, size)))
    data, text = beyond_usual
    yield Trial("a slow reader", Ended(0, text, ""),
                run(binary, subprocess.PIPE, feed=lambda pipe: in_pieces(pipe, data, len(data), 0), drain=slowly))


# ------------------------------------------------------------------ the exit status

def status_trials(binary, whole):
    command = ["sh", STATUS, binary]
    data = whole[0][0]
    with descriptor("/", os.O_RDONLY) as folder:
        yield Trial("status: a directory as standard input", Ended(1, "", NOT_READ), run(command, folder))
    with descriptor("/dev/full", os.O_WRONLY) as full:
        yield Trial("status: standard output on /dev/full", Ended(1, "", NOT_WRITTEN), on_file(command, data, full))
    with unread() as pipe:
        yield Trial("status: no reader", Ended(1, "", NOT_WRITTEN), on_file(command, data, pipe))
    for data, text in whole:
        yield Trial("status: %d bytes" % len(data), Ended(0, text, ""), on_file(command, data))


def trials(binary, whole, beyond_small, beyond_usual):
    """whole: some files and their texts, the first a short one. The other two have a text longer than a small or a usual pipe holds."""
    yield from read_trials(binary, whole[0][0])
    yield from write_trials(binary, whole[0][0], beyond_small)
    yield from piece_trials(binary, whole, beyond_usual)
    yield from status_trials(binary, whole)
