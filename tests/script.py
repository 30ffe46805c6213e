"""The script of the product's program `cases`, and the lines it must print.

A script is a row of frames. A frame begins with 24 bytes: the call's letter,
first party, second party, 00, and five unsigned 32-bit numbers, low byte first:
length of the file, of the given bytes (a word or a rule list), of the output,
of the scratch, and 0. Then follow the file, the given bytes, the output's old
bytes and the scratch's old bytes.

For path, next-word and test the given bytes are 32: the word's length, then 31
symbols, of which those past the length mean nothing. Write has no given bytes
and no parties. For path, next-word and write 16 guard bytes stand before the
output's old bytes and 16 after them; they aren't counted in the output's length
and aren't lent. The reply's second line has all of these bytes after the call.
Test is lent nothing; its reply is `yes` or `no`, and a length.

For permit, text and compare the given bytes are a rule list; nothing is lent.
Text and compare have no parties. Text's reply shows the bytes of the list's text
in hexadecimal; compare's is `same`, or a pair and the side that permits it.
"""

import struct
from collections import namedtuple

import brute

LONGEST_FILE_IN_FRAME = 60000
LONGEST_OUTPUT = 100
LONGEST_COPY_OUTPUT = 60000
GUARD = 16
SYMBOLS_GIVEN = 31
LONGEST_LIST = 20000

CHECK = "c"
DECODE = "d"
PATH = "p"
NEXT_WORD = "n"
TEST = "t"
PERMIT = "r"
TEXT = "x"
COMPARE = "m"
WRITE = "w"

# Each reply begins with a line that begins with one of these.
NAMES = {CHECK: "check", DECODE: "decode", PATH: "path", NEXT_WORD: "next-word", TEST: "test",
         PERMIT: "permit", TEXT: "text", COMPARE: "compare", WRITE: "write"}

# The calls whose output has guards, and those that are given a rule list.
GUARDED = (PATH, NEXT_WORD, WRITE)
LISTED = (PERMIT, TEXT, COMPARE)

# A frame's bytes, and the lines that are its reply.
Case = namedtuple("Case", "frame text")

# What stands in a frame; output has its guards with it.
Parts = namedtuple("Parts", "call first second data given output scratch")


# -------------------------------------------------------------------- frames

def frame(call, data, first=0, second=0, given=b"", output=b"", scratch=b"", guard=0):
    """The bytes of one frame. Of output, this many bytes at each end are guards."""
    if len(data) > LONGEST_FILE_IN_FRAME:
        raise ValueError("file too long for a frame")
    header = struct.pack("<cBBBIIIII", call.encode("ascii"), first, second, 0,
                         len(data), len(given), len(output) - 2 * guard, len(scratch), 0)
    return header + bytes(data) + bytes(given) + bytes(output) + bytes(scratch)


def word_frame(call, data, first, second, given, output):
    """The frame of a path or next-word call; output has its guards with it."""
    if len(given) != 1 + SYMBOLS_GIVEN or not 0 <= len(output) - 2 * GUARD <= LONGEST_OUTPUT:
        raise ValueError("not a frame of path or next-word")
    return frame(call, data, first, second, given, output, guard=GUARD)


def test_frame(data, first, second, given):
    """The frame of a word test."""
    if len(given) != 1 + SYMBOLS_GIVEN:
        raise ValueError("not a frame of test")
    return frame(TEST, data, first, second, given)


def write_frame(data, output):
    """The frame of a write call; output has its guards with it."""
    if not 0 <= len(output) - 2 * GUARD <= LONGEST_COPY_OUTPUT:
        raise ValueError("not a frame of write")
    return frame(WRITE, data, output=output, guard=GUARD)


def list_frame(call, data, listed, first=0, second=0):
    """The frame of a permit, text or compare call; only permit has parties."""
    if call not in LISTED or call != PERMIT and (first, second) != (0, 0):
        raise ValueError("not a frame of permit, text or compare")
    if len(listed) > LONGEST_LIST:
        raise ValueError("rule list too long for a frame")
    return frame(call, data, first, second, listed)


def parts_of(frame_bytes):
    """A frame taken apart."""
    call, first, second, _, *lengths, _ = struct.unpack("<cBBBIIIII", frame_bytes[:24])
    call = call.decode("ascii")
    if call in GUARDED:
        lengths[2] += 2 * GUARD
    rest, pieces = frame_bytes[24:], []
    for length in lengths:
        pieces.append(rest[:length])
        rest = rest[length:]
    return Parts(call, first, second, *pieces)


def frame_of(parts):
    """The frame that has these parts."""
    return frame(guard=GUARD if parts.call in GUARDED else 0, **parts._asdict())


def given_bytes(length, symbols):
    """The given bytes of a word: its length, and 31 symbols."""
    if len(symbols) != SYMBOLS_GIVEN:
        raise ValueError("31 symbols are given")
    return bytes([length]) + bytes(symbols)


def word_of(given):
    """The word that given bytes mean. Past 31 symbols nothing but the length matters."""
    length = given[0]
    return tuple(given[1:1 + length]) + (0,) * (length - SYMBOLS_GIVEN)


# ------------------------------------------------------------ expected lines

def check_text(data):
    """What check prints for this file."""
    number = brute.check(data)
    return "check refused %d\n" % number if number else "check accepted\n"


def decode_text(data):
    """What decode prints for this file."""
    number = brute.check(data)
    if number:
        return "decode refused %d\n" % number
    house = brute.decode(data)
    text = "decode %d %d %d %d\n" % (house.n, house.labels, house.language, house.longest)
    return text + permits_text(house) + relations_text(house)


def permits_text(house):
    """The 32 masks of the permit table; bit v of mask u stands for (u, v)."""
    masks = [0] * 32
    for u, v in house.permits:
        masks[u] |= 1 << v
    return "permits" + "".join(" %08X" % mask for mask in masks) + "\n"


def relations_text(house):
    """For each pair in pair order a line with its relations and then one with its unknown ones, where it has any; bit l stands for
    label l."""
    lines = {}
    for name, relations in (("relation", house.edges), ("unknown", house.unknown)):
        for u, v, label in relations:
            lines[(u, v, name)] = lines.get((u, v, name), 0) | 1 << label
    return "".join("%s %d %d %02X\n" % (name, u, v, lines[(u, v, name)]) for u, v, name in sorted(lines))


TEXTS = {CHECK: check_text, DECODE: decode_text}


def expected(call, data):
    """What check or decode prints for this file."""
    return TEXTS[call](data)


REPLIES = {PATH: brute.path_reply, NEXT_WORD: brute.next_word_reply}


def word_reply(call, known, first, second, given, output):
    """The reply of path or next-word, and output with its guards afterwards."""
    reply, after = REPLIES[call](known, first, second, word_of(given), output[GUARD:-GUARD])
    return reply, output[:GUARD] + after + output[-GUARD:]


def write_reply(data, output):
    """The reply of write, and output with its guards afterwards."""
    reply, after = brute.write_reply(data, output[GUARD:-GUARD])
    return reply, output[:GUARD] + after + output[-GUARD:]


def output_text(call, reply, after):
    """The two lines of path, next-word or write for this reply and output with its guards."""
    if reply[0] == "refused":
        answer = "refused %d" % reply[1]
    elif reply in (("lacks",), ("none",)):
        answer = "none"
    else:
        answer = "%d" % reply[1]
    return "%s %s\noutput %s\n" % (NAMES[call], answer, after.hex().upper())


def test_text(reply):
    """The line of test for this reply."""
    return "test %s %d\n" % reply


def permit_text(reply):
    """The line of permit for this reply."""
    return "permit refused %d\n" % reply[1] if reply[0] == "refused" else "permit %s\n" % reply[0]


def list_text(reply):
    """The line of text for this reply; the empty list's has nothing after its blank."""
    if reply[0] == "refused":
        return "text refused %d\n" % reply[1]
    return "text %s\n" % reply[1].encode("ascii").hex().upper()


def compare_text(reply):
    """The line of compare for this reply."""
    if reply[0] == "refused":
        return "compare refused %d\n" % reply[1]
    return "compare %d %d %s\n" % reply[1:] if reply[0] == "differs" else "compare same\n"
