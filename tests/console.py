"""The console's three functions, called through a shared object that is made from their archive.

Each lent buffer has random bytes on both sides of it. A reply is unpacked into
the tuple that brute.py has for it, so that the two can be compared; a number
outside the packing becomes ("unpacked", the number), and a call that writes
where it may not gets ("overwrote", the buffer's name).
"""

import ctypes
import os
import subprocess

GUARD = 16
REFUSALS = range(1, 17)
FIRST_KIND = 128

NUMBER, BYTES, LENGTH = ctypes.c_uint64, ctypes.c_void_p, ctypes.c_size_t

# What each function takes: a slice is its pointer, then its length.
ARGUMENTS = {
    "hempmallet_verdict": [BYTES, LENGTH],
    "hempmallet_mining": [BYTES, LENGTH] * 3,
    "hempmallet_permit": [BYTES, LENGTH] * 2 + [LENGTH, LENGTH],
}


def build(archive, folder):
    """A shared object of the whole archive. Returns its path."""
    shared = os.path.join(folder, "console.so")
    subprocess.run(["gcc", "-shared", "-o", shared, "-Wl,--whole-archive", archive,
                    "-Wl,--no-whole-archive"], check=True)
    return shared


def built(archive, folder, tally):
    """The same; None, and a fault, where it can't be made."""
    try:
        return build(archive, folder)
    except (OSError, subprocess.SubprocessError) as error:
        tally.fault("no shared object: %s" % error)
        return None


# ------------------------------------------------------------------- replies

def unpack(number, kinds):
    """The reply of a number; kinds has, for each kind from the first on, what makes the reply of what stands above it."""
    kind, above = number % 256, number // 256
    if kind in REFUSALS and above == 0:
        return ("refused", kind)
    reply = kinds[kind - FIRST_KIND](above) if 0 <= kind - FIRST_KIND < len(kinds) else None
    return ("unpacked", number) if reply is None else reply


def nothing(reply):
    """Nothing stands above the kind."""
    return lambda above: reply if above == 0 else None


def of_parties(name, pairs):
    """As many pairs stand above the kind, a byte for each party."""
    def reply(above):
        if above >= 256 ** (2 * pairs):
            return None
        parties = above.to_bytes(2 * pairs, "little")
        return (name, *(tuple(parties[i:i + 2]) for i in range(0, 2 * pairs, 2)))
    return reply


VERDICT = [lambda length: ("convertible", length), of_parties("no-word", 1), of_parties("rival", 2)]
MINING = [lambda length: ("length", length)]
PERMIT = [nothing(("no",)), nothing(("yes",))]


# --------------------------------------------------------------------- calls

class Lent:
    """A buffer with guard bytes on both sides."""

    def __init__(self, rng, content):
        self.length = len(content)
        self.before = rng.randbytes(GUARD) + content + rng.randbytes(GUARD)
        self.space = ctypes.create_string_buffer(self.before, len(self.before))

    def slice(self):
        """The pointer and the length that are handed over."""
        return ctypes.addressof(self.space) + GUARD, self.length

    def content(self):
        return self.space.raw[GUARD:GUARD + self.length]

    def unchanged(self):
        return self.space.raw == self.before

    def guards_kept(self):
        after = self.space.raw
        return after[:GUARD] == self.before[:GUARD] and after[-GUARD:] == self.before[-GUARD:]


class Console:
    """The three functions of a shared object. rng makes guard bytes."""

    def __init__(self, shared, rng):
        self.library = ctypes.CDLL(shared)
        self.rng = rng
        for name, arguments in ARGUMENTS.items():
            function = getattr(self.library, name)
            function.argtypes, function.restype = arguments, NUMBER

    def verdict(self, data):
        file = Lent(self.rng, data)
        number = self.library.hempmallet_verdict(*file.slice())
        return unpack(number, VERDICT) if file.unchanged() else ("overwrote", "file")

    def mining(self, data, scratch, output):
        """The reply, scratch afterwards, output afterwards."""
        file, scratch, output = (Lent(self.rng, content) for content in (data, scratch, output))
        number = self.library.hempmallet_mining(*file.slice(), *scratch.slice(), *output.slice())
        reply = unpack(number, MINING)
        if not file.unchanged():
            reply = ("overwrote", "file")
        for name, lent in (("scratch", scratch), ("output", output)):
            if not lent.guards_kept():
                reply = ("overwrote", "bytes beside " + name)
        return reply, scratch.content(), output.content()

    def permit(self, data, listed, first, second):
        file, lent = Lent(self.rng, data), Lent(self.rng, listed)
        number = self.library.hempmallet_permit(*file.slice(), *lent.slice(), first, second)
        if not (file.unchanged() and lent.unchanged()):
            return ("overwrote", "file or list")
        return unpack(number, PERMIT)
