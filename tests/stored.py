"""The stored rows: a small script and its expected lines, both written out by hand.

    python3 tests/stored.py OUTDIR

writes OUTDIR/stdin (the script) and OUTDIR/stdout (the expected lines). The
lines stand below as text; brute.py is only asked whether it agrees.
"""

import os
import sys

import brute
import script

ZERO_MASK = " 00000000"

# Each row: what it shows, the call, the file in hexadecimal, the expected lines.
ROWS = [
    # A's file, and what 01 says of its changes.
    ("A", "c",
     "01 03 01 00 02 00 03 00  01 00 03 00 00 00  01 00 02 00  02 FF 00 00  02 00 00 00",
     "check accepted\n"),
    ("A", "d",
     "01 03 01 00 02 00 03 00  01 00 03 00 00 00  01 00 02 00  02 FF 00 00  02 00 00 00",
     "decode 3 1 0 2\n"
     "permits 00000004" + 31 * ZERO_MASK + "\n"
     "relation 0 1 01\n"
     "relation 1 2 01\n"),
    ("A with record 2's next 01 00", "c",
     "01 03 01 00 02 00 03 00  01 00 03 00 00 00  01 00 02 00  02 FF 01 00  02 00 00 00",
     "check refused 4\n"),
    ("A with record 2 01 80 00 00", "c",
     "01 03 01 00 02 00 03 00  01 00 03 00 00 00  01 00 02 00  01 80 00 00  02 00 00 00",
     "check refused 16\n"),
    ("A with record 2's next 01 00", "d",
     "01 03 01 00 02 00 03 00  01 00 03 00 00 00  01 00 02 00  02 FF 01 00  02 00 00 00",
     "decode refused 4\n"),
    ("A with head 1 zero", "c",
     "01 03 01 00 02 00 03 00  01 00 00 00 00 00  01 00 02 00  02 FF 00 00  02 00 00 00",
     "check refused 5\n"),
    ("A with head 1 zero", "d",
     "01 03 01 00 02 00 03 00  01 00 00 00 00 00  01 00 02 00  02 FF 00 00  02 00 00 00",
     "decode refused 5\n"),

    # The limits of the header's fields, on A's other bytes.
    ("A with R 8,928: the field passes, the length does not", "c",
     "01 03 01 00 02 00 E0 22  01 00 03 00 00 00  01 00 02 00  02 FF 00 00  02 00 00 00",
     "check refused 1\n"),
    ("A with R 8,929", "c",
     "01 03 01 00 02 00 E1 22  01 00 03 00 00 00  01 00 02 00  02 FF 00 00  02 00 00 00",
     "check refused 2\n"),
    ("A with n 32: the field passes, the length does not", "c",
     "01 20 01 00 02 00 03 00  01 00 03 00 00 00  01 00 02 00  02 FF 00 00  02 00 00 00",
     "check refused 1\n"),
    ("A with n 33", "c",
     "01 21 01 00 02 00 03 00  01 00 03 00 00 00  01 00 02 00  02 FF 00 00  02 00 00 00",
     "check refused 2\n"),
    ("n 32 with all heads 0 and R 0", "c",
     "01 20 01 00 02 00 00 00"
     "  00 00 00 00 00 00 00 00 00 00 00 00 00 00 00 00 00 00 00 00 00 00 00 00 00 00 00 00 00 00 00 00"
     "  00 00 00 00 00 00 00 00 00 00 00 00 00 00 00 00 00 00 00 00 00 00 00 00 00 00 00 00 00 00 00 00",
     "check accepted\n"),
    ("n 32 with all heads 0 and R 0", "d",
     "01 20 01 00 02 00 00 00"
     "  00 00 00 00 00 00 00 00 00 00 00 00 00 00 00 00 00 00 00 00 00 00 00 00 00 00 00 00 00 00 00 00"
     "  00 00 00 00 00 00 00 00 00 00 00 00 00 00 00 00 00 00 00 00 00 00 00 00 00 00 00 00 00 00 00 00",
     "decode 32 1 0 2\n"
     "permits" + 32 * ZERO_MASK + "\n"),
    ("A with n 0", "c",
     "01 00 01 00 02 00 03 00  01 00 03 00 00 00  01 00 02 00  02 FF 00 00  02 00 00 00",
     "check refused 2\n"),
    ("A with L 8", "c",
     "01 03 08 00 02 00 03 00  01 00 03 00 00 00  01 00 02 00  02 FF 00 00  02 00 00 00",
     "check accepted\n"),
    ("A with L 8", "d",
     "01 03 08 00 02 00 03 00  01 00 03 00 00 00  01 00 02 00  02 FF 00 00  02 00 00 00",
     "decode 3 8 0 2\n"
     "permits 00000004" + 31 * ZERO_MASK + "\n"
     "relation 0 1 01\n"
     "relation 1 2 01\n"),
    ("A with L 9", "c",
     "01 03 09 00 02 00 03 00  01 00 03 00 00 00  01 00 02 00  02 FF 00 00  02 00 00 00",
     "check refused 2\n"),
    ("A with L 0", "c",
     "01 03 00 00 02 00 03 00  01 00 03 00 00 00  01 00 02 00  02 FF 00 00  02 00 00 00",
     "check refused 2\n"),
    ("A with language 3", "c",
     "01 03 01 03 02 00 03 00  01 00 03 00 00 00  01 00 02 00  02 FF 00 00  02 00 00 00",
     "check accepted\n"),
    ("A with language 3", "d",
     "01 03 01 03 02 00 03 00  01 00 03 00 00 00  01 00 02 00  02 FF 00 00  02 00 00 00",
     "decode 3 1 3 2\n"
     "permits 00000004" + 31 * ZERO_MASK + "\n"
     "relation 0 1 01\n"
     "relation 1 2 01\n"),
    ("A with language 4", "c",
     "01 03 01 04 02 00 03 00  01 00 03 00 00 00  01 00 02 00  02 FF 00 00  02 00 00 00",
     "check refused 2\n"),
    ("A with D 31", "c",
     "01 03 01 00 1F 00 03 00  01 00 03 00 00 00  01 00 02 00  02 FF 00 00  02 00 00 00",
     "check accepted\n"),
    ("A with D 31", "d",
     "01 03 01 00 1F 00 03 00  01 00 03 00 00 00  01 00 02 00  02 FF 00 00  02 00 00 00",
     "decode 3 1 0 31\n"
     "permits 00000004" + 31 * ZERO_MASK + "\n"
     "relation 0 1 01\n"
     "relation 1 2 01\n"),
    ("A with D 32", "c",
     "01 03 01 00 20 00 03 00  01 00 03 00 00 00  01 00 02 00  02 FF 00 00  02 00 00 00",
     "check refused 2\n"),
    ("A with D 32", "d",
     "01 03 01 00 20 00 03 00  01 00 03 00 00 00  01 00 02 00  02 FF 00 00  02 00 00 00",
     "decode refused 2\n"),
    ("A with D 0", "c",
     "01 03 01 00 00 00 03 00  01 00 03 00 00 00  01 00 02 00  02 FF 00 00  02 00 00 00",
     "check refused 2\n"),
    ("A with the header's zero byte 1", "c",
     "01 03 01 00 02 01 03 00  01 00 03 00 00 00  01 00 02 00  02 FF 00 00  02 00 00 00",
     "check refused 2\n"),
    ("A with edition 0", "c",
     "00 03 01 00 02 00 03 00  01 00 03 00 00 00  01 00 02 00  02 FF 00 00  02 00 00 00",
     "check refused 2\n"),
    ("A with edition 3", "c",
     "03 03 01 00 02 00 03 00  01 00 03 00 00 00  01 00 02 00  02 FF 00 00  02 00 00 00",
     "check refused 2\n"),
    ("A with edition 2: the byte passes, the length does not", "c",
     "02 03 01 00 02 00 03 00  01 00 03 00 00 00  01 00 02 00  02 FF 00 00  02 00 00 00",
     "check refused 1\n"),

    # Lengths.
    ("the empty file", "c", "", "check refused 1\n"),
    ("the empty file", "d", "", "decode refused 1\n"),
    ("7 bytes", "c", "01 03 01 00 02 00 03", "check refused 1\n"),
    ("7 bytes, edition 3", "c", "03 03 01 00 02 00 03", "check refused 1\n"),
    ("8 bytes, edition 3", "c", "03 03 01 00 02 00 03 00", "check refused 2\n"),
    ("8 bytes", "c", "01 03 01 00 02 00 03 00", "check refused 1\n"),
    ("A without its last byte", "c",
     "01 03 01 00 02 00 03 00  01 00 03 00 00 00  01 00 02 00  02 FF 00 00  02 00 00",
     "check refused 1\n"),
    ("A and one byte more", "c",
     "01 03 01 00 02 00 03 00  01 00 03 00 00 00  01 00 02 00  02 FF 00 00  02 00 00 00  00",
     "check refused 1\n"),
    ("A and one byte more, edition 3", "c",
     "03 03 01 00 02 00 03 00  01 00 03 00 00 00  01 00 02 00  02 FF 00 00  02 00 00 00  00",
     "check refused 2\n"),
    ("n 1 and R 0", "c", "01 01 01 00 01 00 00 00  00 00", "check accepted\n"),
    ("n 1 and R 0", "d", "01 01 01 00 01 00 00 00  00 00",
     "decode 1 1 0 1\n"
     "permits" + 32 * ZERO_MASK + "\n"),

    # 3: a link above R.
    ("A with head 2 at record 4", "c",
     "01 03 01 00 02 00 03 00  01 00 03 00 04 00  01 00 02 00  02 FF 00 00  02 00 00 00",
     "check refused 3\n"),
    ("A with record 3's next at 256", "c",
     "01 03 01 00 02 00 03 00  01 00 03 00 00 00  01 00 02 00  02 FF 00 00  02 00 00 01",
     "check refused 3\n"),
    ("A with record 2's next at 4, before head 2 at record 1", "c",
     "01 03 01 00 02 00 03 00  01 00 03 00 01 00  01 00 02 00  02 FF 04 00  02 00 00 00",
     "check refused 3\n"),

    # 4: a record reached a second time.
    ("A with head 2 at record 3: reached from two chains", "c",
     "01 03 01 00 02 00 03 00  01 00 03 00 03 00  01 00 02 00  02 FF 00 00  02 00 00 00",
     "check refused 4\n"),
    ("record 1 names itself", "c",
     "01 02 01 00 01 00 01 00  01 00 00 00  01 00 01 00",
     "check refused 4\n"),

    # 5: two records that lead to each other and that no head reaches.
    ("R 2, both heads 0", "c",
     "01 02 01 00 01 00 02 00  00 00 00 00  01 00 02 00  01 FF 01 00",
     "check refused 5\n"),
    ("a record never reached, with a wrong target, kind and next", "c",
     "01 02 01 00 01 00 02 00  01 00 00 00  01 00 00 00  09 09 09 00",
     "check refused 5\n"),

    # 6: a target.
    ("A with record 3's target 3, which is n", "c",
     "01 03 01 00 02 00 03 00  01 00 03 00 00 00  01 00 02 00  02 FF 00 00  03 00 00 00",
     "check refused 6\n"),
    ("A with record 3's target 1, the chain's own party", "c",
     "01 03 01 00 02 00 03 00  01 00 03 00 00 00  01 00 02 00  02 FF 00 00  01 00 00 00",
     "check refused 6\n"),
    ("A with record 3's target 1 and kind 1: 6 is before 7", "c",
     "01 03 01 00 02 00 03 00  01 00 03 00 00 00  01 00 02 00  02 FF 00 00  01 01 00 00",
     "check refused 6\n"),
    ("n 1 and one record", "c", "01 01 01 00 01 00 01 00  01 00  00 00 00 00",
     "check refused 6\n"),

    # 7: a kind byte.
    ("A with record 3's kind 1, which is L", "c",
     "01 03 01 00 02 00 03 00  01 00 03 00 00 00  01 00 02 00  02 FF 00 00  02 01 00 00",
     "check refused 7\n"),
    ("A with record 3's kind FE", "c",
     "01 03 01 00 02 00 03 00  01 00 03 00 00 00  01 00 02 00  02 FF 00 00  02 FE 00 00",
     "check refused 7\n"),

    # 8: a repeat in one chain. The same target and kind in another chain is legal.
    ("(0,1) with label 0 twice", "c",
     "01 03 01 00 02 00 03 00  01 00 03 00 00 00  01 00 02 00  01 00 00 00  02 00 00 00",
     "check refused 8\n"),
    ("permit (0,2) twice, a record between them", "c",
     "01 03 01 00 02 00 03 00  01 00 00 00 00 00  02 FF 02 00  01 00 03 00  02 FF 00 00",
     "check refused 8\n"),
    ("(0,2) and (1,2) with label 0", "c",
     "01 03 01 00 02 00 02 00  01 00 02 00 00 00  02 00 00 00  02 00 00 00",
     "check accepted\n"),
    ("(0,2) and (1,2) with label 0", "d",
     "01 03 01 00 02 00 02 00  01 00 02 00 00 00  02 00 00 00  02 00 00 00",
     "decode 3 1 0 2\n"
     "permits" + 32 * ZERO_MASK + "\n"
     "relation 0 2 01\n"
     "relation 1 2 01\n"),

    # The order at one record, and along the chains.
    ("party 1's chain meets (0,1)'s record, its own party: 4 is before 6", "c",
     "01 02 01 00 01 00 01 00  01 00 01 00  01 00 00 00",
     "check refused 4\n"),
    ("6 in party 0's chain, 3 in party 1's head", "c",
     "01 02 01 00 01 00 01 00  01 00 02 00  00 00 00 00",
     "check refused 6\n"),

    # A in edition 2, and changes of it.
    ("A in edition 2", "c",
     "02 03 01 00 02 00 03 00  01 00 03 00 00 00  01 00 02 00 00  02 FF 00 00 00  02 00 00 00 01",
     "check accepted\n"),
    ("A in edition 2", "d",
     "02 03 01 00 02 00 03 00  01 00 03 00 00 00  01 00 02 00 00  02 FF 00 00 00  02 00 00 00 01",
     "decode 3 1 0 2\n"
     "permits 00000004" + 31 * ZERO_MASK + "\n"
     "relation 0 1 01\n"
     "relation 1 2 01\n"),
    ("A in edition 2 with record 1's owner 01", "c",
     "02 03 01 00 02 00 03 00  01 00 03 00 00 00  01 00 02 00 01  02 FF 00 00 00  02 00 00 00 01",
     "check refused 15\n"),
    ("A in edition 2 with record 1's owner 01", "d",
     "02 03 01 00 02 00 03 00  01 00 03 00 00 00  01 00 02 00 01  02 FF 00 00 00  02 00 00 00 01",
     "decode refused 15\n"),
    ("A in edition 2 with record 2's owner 03, which is n", "c",
     "02 03 01 00 02 00 03 00  01 00 03 00 00 00  01 00 02 00 00  02 FF 00 00 03  02 00 00 00 01",
     "check refused 15\n"),
    ("A in edition 2 with record 3's owner FF", "c",
     "02 03 01 00 02 00 03 00  01 00 03 00 00 00  01 00 02 00 00  02 FF 00 00 00  02 00 00 00 FF",
     "check refused 15\n"),
    ("A in edition 2 with record 3's owner 02, its target", "c",
     "02 03 01 00 02 00 03 00  01 00 03 00 00 00  01 00 02 00 00  02 FF 00 00 00  02 00 00 00 02",
     "check refused 15\n"),
    ("A in edition 2 with record 3's owner 00 and target 03: 15 is before 6", "c",
     "02 03 01 00 02 00 03 00  01 00 03 00 00 00  01 00 02 00 00  02 FF 00 00 00  03 00 00 00 00",
     "check refused 15\n"),
    ("A in edition 2 with record 3's target 01, the party and owner", "c",
     "02 03 01 00 02 00 03 00  01 00 03 00 00 00  01 00 02 00 00  02 FF 00 00 00  01 00 00 00 01",
     "check refused 6\n"),
    ("A in edition 2 with record 3's owner 00 and kind 01: 15 is before 7", "c",
     "02 03 01 00 02 00 03 00  01 00 03 00 00 00  01 00 02 00 00  02 FF 00 00 00  02 01 00 00 00",
     "check refused 15\n"),
    ("A in edition 2 with record 3's kind 01", "c",
     "02 03 01 00 02 00 03 00  01 00 03 00 00 00  01 00 02 00 00  02 FF 00 00 00  02 01 00 00 01",
     "check refused 7\n"),
    ("(0,1) with label 0 twice, edition 2, the second owner 02: 15 is before 8", "c",
     "02 03 01 00 02 00 03 00  01 00 03 00 00 00  01 00 02 00 00  01 00 00 00 02  02 00 00 00 01",
     "check refused 15\n"),
    ("(0,1) with label 0 twice, edition 2", "c",
     "02 03 01 00 02 00 03 00  01 00 03 00 00 00  01 00 02 00 00  01 00 00 00 00  02 00 00 00 01",
     "check refused 8\n"),
    ("A in edition 2 with head 1 as 01 00: 4 is before 15", "c",
     "02 03 01 00 02 00 03 00  01 00 01 00 00 00  01 00 02 00 00  02 FF 00 00 00  02 00 00 00 01",
     "check refused 4\n"),
    ("A in edition 2 with head 1 as 00 00 and record 3's owner 02: never reached", "c",
     "02 03 01 00 02 00 03 00  01 00 00 00 00 00  01 00 02 00 00  02 FF 00 00 00  02 00 00 00 02",
     "check refused 5\n"),
    ("A in edition 2 with record 1's target 03 and record 3's owner 00: the earlier record counts", "c",
     "02 03 01 00 02 00 03 00  01 00 03 00 00 00  03 00 02 00 00  02 FF 00 00 00  02 00 00 00 00",
     "check refused 6\n"),
    ("A in edition 2 with record 3's owner 00 and next 04 00: the record before its next", "c",
     "02 03 01 00 02 00 03 00  01 00 03 00 00 00  01 00 02 00 00  02 FF 00 00 00  02 00 04 00 00",
     "check refused 15\n"),
    ("A in edition 2 with the first byte 01", "c",
     "01 03 01 00 02 00 03 00  01 00 03 00 00 00  01 00 02 00 00  02 FF 00 00 00  02 00 00 00 01",
     "check refused 1\n"),
    ("A in edition 2 with the first byte 03", "c",
     "03 03 01 00 02 00 03 00  01 00 03 00 00 00  01 00 02 00 00  02 FF 00 00 00  02 00 00 00 01",
     "check refused 2\n"),
    ("A in edition 2 without its last byte", "c",
     "02 03 01 00 02 00 03 00  01 00 03 00 00 00  01 00 02 00 00  02 FF 00 00 00  02 00 00 00",
     "check refused 1\n"),
    ("A in edition 2 without its last byte, first byte 03", "c",
     "03 03 01 00 02 00 03 00  01 00 03 00 00 00  01 00 02 00 00  02 FF 00 00 00  02 00 00 00",
     "check refused 2\n"),
    ("A in edition 2 cut to edition 1's length", "c",
     "02 03 01 00 02 00 03 00  01 00 03 00 00 00  01 00 02 00 00  02 FF 00 00 00  02 00",
     "check refused 1\n"),
    ("A in edition 2 and one byte more", "c",
     "02 03 01 00 02 00 03 00  01 00 03 00 00 00  01 00 02 00 00  02 FF 00 00 00  02 00 00 00 01  00",
     "check refused 1\n"),
    ("n 1 and R 0 in edition 2", "c", "02 01 01 00 01 00 00 00  00 00", "check accepted\n"),
    ("n 1 and R 0 in edition 2", "d", "02 01 01 00 01 00 00 00  00 00",
     "decode 1 1 0 1\n"
     "permits" + 32 * ZERO_MASK + "\n"),

    # The files of the cases B to J.
    ("B", "c",
     "01 03 01 00 02 00 03 00  01 00 03 00 00 00  01 00 02 00  01 FF 00 00  02 00 00 00",
     "check accepted\n"),
    ("B", "d",
     "01 03 01 00 02 00 03 00  01 00 03 00 00 00  01 00 02 00  01 FF 00 00  02 00 00 00",
     "decode 3 1 0 2\n"
     "permits 00000002" + 31 * ZERO_MASK + "\n"
     "relation 0 1 01\n"
     "relation 1 2 01\n"),
    ("C", "c",
     "01 03 01 00 02 00 03 00  01 00 02 00 03 00  01 00 00 00  02 00 00 00  00 FF 00 00",
     "check accepted\n"),
    ("C", "d",
     "01 03 01 00 02 00 03 00  01 00 02 00 03 00  01 00 00 00  02 00 00 00  00 FF 00 00",
     "decode 3 1 0 2\n"
     "permits 00000000 00000000 00000001" + 29 * ZERO_MASK + "\n"
     "relation 0 1 01\n"
     "relation 1 2 01\n"),
    ("D", "c",
     "01 03 01 00 01 00 03 00  01 00 03 00 00 00  01 00 02 00  02 FF 00 00  02 00 00 00",
     "check accepted\n"),
    ("D", "d",
     "01 03 01 00 01 00 03 00  01 00 03 00 00 00  01 00 02 00  02 FF 00 00  02 00 00 00",
     "decode 3 1 0 1\n"
     "permits 00000004" + 31 * ZERO_MASK + "\n"
     "relation 0 1 01\n"
     "relation 1 2 01\n"),
    ("E", "c",
     "01 03 01 00 02 00 02 00  01 00 02 00 00 00  01 00 00 00  02 00 00 00",
     "check accepted\n"),
    ("E", "d",
     "01 03 01 00 02 00 02 00  01 00 02 00 00 00  01 00 00 00  02 00 00 00",
     "decode 3 1 0 2\n"
     "permits" + 32 * ZERO_MASK + "\n"
     "relation 0 1 01\n"
     "relation 1 2 01\n"),
    ("F", "c",
     "01 03 01 00 02 00 04 00  01 00 03 00 00 00"
     "  01 00 02 00  01 FF 00 00  02 00 04 00  02 FF 00 00",
     "check accepted\n"),
    ("F", "d",
     "01 03 01 00 02 00 04 00  01 00 03 00 00 00"
     "  01 00 02 00  01 FF 00 00  02 00 04 00  02 FF 00 00",
     "decode 3 1 0 2\n"
     "permits 00000002 00000004" + 30 * ZERO_MASK + "\n"
     "relation 0 1 01\n"
     "relation 1 2 01\n"),
    ("G", "c",
     "01 03 01 02 02 00 03 00  01 00 02 00 03 00  01 00 00 00  02 00 00 00  00 FF 00 00",
     "check accepted\n"),
    ("G", "d",
     "01 03 01 02 02 00 03 00  01 00 02 00 03 00  01 00 00 00  02 00 00 00  00 FF 00 00",
     "decode 3 1 2 2\n"
     "permits 00000000 00000000 00000001" + 29 * ZERO_MASK + "\n"
     "relation 0 1 01\n"
     "relation 1 2 01\n"),
    ("H", "c",
     "01 03 02 00 01 00 05 00  01 00 05 00 00 00"
     "  01 00 02 00  01 01 03 00  02 00 04 00  01 FF 00 00  02 01 00 00",
     "check accepted\n"),
    ("H", "d",
     "01 03 02 00 01 00 05 00  01 00 05 00 00 00"
     "  01 00 02 00  01 01 03 00  02 00 04 00  01 FF 00 00  02 01 00 00",
     "decode 3 2 0 1\n"
     "permits 00000002" + 31 * ZERO_MASK + "\n"
     "relation 0 1 03\n"
     "relation 0 2 01\n"
     "relation 1 2 02\n"),
    ("I", "c",
     "01 02 01 00 03 00 03 00  01 00 03 00  01 00 02 00  01 FF 00 00  00 00 00 00",
     "check accepted\n"),
    ("I", "d",
     "01 02 01 00 03 00 03 00  01 00 03 00  01 00 02 00  01 FF 00 00  00 00 00 00",
     "decode 2 1 0 3\n"
     "permits 00000002" + 31 * ZERO_MASK + "\n"
     "relation 0 1 01\n"
     "relation 1 0 01\n"),
    ("J", "c",
     "01 02 01 01 01 00 02 00  01 00 02 00  01 00 00 00  00 FF 00 00",
     "check accepted\n"),
    ("J", "d",
     "01 02 01 01 01 00 02 00  01 00 02 00  01 00 00 00  00 FF 00 00",
     "decode 2 1 1 1\n"
     "permits 00000000 00000001" + 30 * ZERO_MASK + "\n"
     "relation 0 1 01\n"),
    ("A with its records in another order, and permit (1,0)", "d",
     "01 03 01 00 02 00 04 00  04 00 02 00 00 00"
     "  02 FF 00 00  00 FF 03 00  02 00 00 00  01 00 01 00",
     "decode 3 1 0 2\n"
     "permits 00000004 00000001" + 30 * ZERO_MASK + "\n"
     "relation 0 1 01\n"
     "relation 1 2 01\n"),
    ("n 32 and L 8: (31,30) with label 7 and permit (31,0), (0,31) with label 0", "d",
     "01 20 08 03 1F 00 03 00"
     "  03 00 00 00 00 00 00 00 00 00 00 00 00 00 00 00 00 00 00 00 00 00 00 00 00 00 00 00 00 00 00 00"
     "  00 00 00 00 00 00 00 00 00 00 00 00 00 00 00 00 00 00 00 00 00 00 00 00 00 00 00 00 00 00 01 00"
     "  1E 07 02 00  00 FF 00 00  1F 00 00 00",
     "decode 32 8 3 31\n"
     "permits" + 31 * ZERO_MASK + " 00000001\n"
     "relation 0 31 01\n"
     "relation 31 30 80\n"),

    # 02's Ticket 5: unknown relations.
    ("(0,1) unknown, permit (1,0)", "c",
     "01 02 01 01 01 00 02 00  01 00 02 00  01 80 00 00  00 FF 00 00",
     "check accepted\n"),
    ("(0,1) unknown, permit (1,0)", "d",
     "01 02 01 01 01 00 02 00  01 00 02 00  01 80 00 00  00 FF 00 00",
     "decode 2 1 1 1\n"
     "permits 00000000 00000001" + 30 * ZERO_MASK + "\n"
     "unknown 0 1 01\n"),
    ("(0,1) unknown, permit (1,0), edition 2", "c",
     "02 02 01 01 01 00 02 00  01 00 02 00  01 80 00 00 00  00 FF 00 00 01",
     "check accepted\n"),
    ("(0,1) unknown, permit (1,0), edition 2", "d",
     "02 02 01 01 01 00 02 00  01 00 02 00  01 80 00 00 00  00 FF 00 00 01",
     "decode 2 1 1 1\n"
     "permits 00000000 00000001" + 30 * ZERO_MASK + "\n"
     "unknown 0 1 01\n"),
    ("(0,1) unknown, permit (0,1)", "c",
     "01 02 01 01 01 00 02 00  01 00 00 00  01 80 02 00  01 FF 00 00",
     "check accepted\n"),
    ("(0,1) unknown, permit (0,1)", "d",
     "01 02 01 01 01 00 02 00  01 00 00 00  01 80 02 00  01 FF 00 00",
     "decode 2 1 1 1\n"
     "permits 00000002" + 31 * ZERO_MASK + "\n"
     "unknown 0 1 01\n"),
    ("nothing unknown, permit (1,0)", "c",
     "01 02 01 01 01 00 01 00  00 00 01 00  00 FF 00 00",
     "check accepted\n"),
    ("(0,1) unknown, language 3", "c",
     "01 02 01 03 01 00 01 00  01 00 00 00  01 80 00 00",
     "check accepted\n"),
    ("known, unknown and permit to one target, unknown alone to another, known alone the other way round", "c",
     "01 03 08 03 02 00 07 00  01 00 00 00 07 00"
     "  01 87 02 00  01 00 03 00  02 80 04 00  01 FF 05 00  01 81 06 00  01 02 00 00  00 03 00 00",
     "check accepted\n"),
    ("known, unknown and permit to one target, unknown alone to another, known alone the other way round", "d",
     "01 03 08 03 02 00 07 00  01 00 00 00 07 00"
     "  01 87 02 00  01 00 03 00  02 80 04 00  01 FF 05 00  01 81 06 00  01 02 00 00  00 03 00 00",
     "decode 3 8 3 2\n"
     "permits 00000002" + 31 * ZERO_MASK + "\n"
     "relation 0 1 05\n"
     "unknown 0 1 82\n"
     "unknown 0 2 01\n"
     "relation 2 0 08\n"),
    ("n 32 and L 8: (31,30) with label 7 unknown and label 6 known, (0,31) with label 0 unknown, edition 2", "d",
     "02 20 08 03 1F 00 03 00"
     "  03 00 00 00 00 00 00 00 00 00 00 00 00 00 00 00 00 00 00 00 00 00 00 00 00 00 00 00 00 00 00 00"
     "  00 00 00 00 00 00 00 00 00 00 00 00 00 00 00 00 00 00 00 00 00 00 00 00 00 00 00 00 00 00 01 00"
     "  1E 87 02 00 1F  1E 06 00 00 1F  1F 80 00 00 00",
     "decode 32 8 3 31\n"
     "permits" + 32 * ZERO_MASK + "\n"
     "unknown 0 31 01\n"
     "relation 31 30 40\n"
     "unknown 31 30 80\n"),

    # 7: a kind byte of 80 and a label must have a label below L.
    ("L 2: kind 81", "c", "01 02 02 00 01 00 01 00  01 00 00 00  01 81 00 00", "check accepted\n"),
    ("L 2: kind 82", "c", "01 02 02 00 01 00 01 00  01 00 00 00  01 82 00 00", "check refused 7\n"),
    ("L 2: kind 82", "d", "01 02 02 00 01 00 01 00  01 00 00 00  01 82 00 00", "decode refused 7\n"),
    ("L 2: kind 82, edition 2", "c", "02 02 02 00 01 00 01 00  01 00 00 00  01 82 00 00 00", "check refused 7\n"),
    ("L 8: kind 87", "c", "01 02 08 00 01 00 01 00  01 00 00 00  01 87 00 00", "check accepted\n"),
    ("L 8: kind 88", "c", "01 02 08 00 01 00 01 00  01 00 00 00  01 88 00 00", "check refused 7\n"),
    ("L 8: kind 08", "c", "01 02 08 00 01 00 01 00  01 00 00 00  01 08 00 00", "check refused 7\n"),
    ("L 8: kind 7F", "c", "01 02 08 00 01 00 01 00  01 00 00 00  01 7F 00 00", "check refused 7\n"),
    ("L 8: kind FE", "c", "01 02 08 00 01 00 01 00  01 00 00 00  01 FE 00 00", "check refused 7\n"),
    ("kind FF, then 7F to the same target", "c",
     "01 02 02 00 01 00 02 00  01 00 00 00  01 FF 02 00  01 7F 00 00",
     "check refused 7\n"),

    # 8 and 16: two records of one chain with the same target and label.
    ("label 0 known, then unknown", "c",
     "01 02 02 00 01 00 02 00  01 00 00 00  01 00 02 00  01 80 00 00",
     "check refused 16\n"),
    ("label 0 known, then unknown", "d",
     "01 02 02 00 01 00 02 00  01 00 00 00  01 00 02 00  01 80 00 00",
     "decode refused 16\n"),
    ("label 0 unknown, then known", "c",
     "01 02 02 00 01 00 02 00  01 00 00 00  01 80 02 00  01 00 00 00",
     "check refused 16\n"),
    ("label 0 unknown, then unknown", "c",
     "01 02 02 00 01 00 02 00  01 00 00 00  01 80 02 00  01 80 00 00",
     "check refused 8\n"),
    ("label 0 known, label 1 unknown", "c",
     "01 02 02 00 01 00 02 00  01 00 00 00  01 00 02 00  01 81 00 00",
     "check accepted\n"),
    ("label 0 known, label 1 unknown", "d",
     "01 02 02 00 01 00 02 00  01 00 00 00  01 00 02 00  01 81 00 00",
     "decode 2 2 0 1\n"
     "permits" + 32 * ZERO_MASK + "\n"
     "relation 0 1 01\n"
     "unknown 0 1 02\n"),
    ("label 0 known, a permit, then unknown", "c",
     "01 02 02 00 01 00 03 00  01 00 00 00  01 00 02 00  01 FF 03 00  01 80 00 00",
     "check refused 16\n"),
    ("label 7 known, then unknown, of L 8", "c",
     "01 02 08 00 01 00 02 00  01 00 00 00  01 07 02 00  01 87 00 00",
     "check refused 16\n"),
    ("label 0 known, then unknown, edition 2", "c",
     "02 02 02 00 01 00 02 00  01 00 00 00  01 00 02 00 00  01 80 00 00 00",
     "check refused 16\n"),
    ("label 0 unknown, then known, edition 2", "c",
     "02 02 02 00 01 00 02 00  01 00 00 00  01 80 02 00 00  01 00 00 00 00",
     "check refused 16\n"),
    ("label 0 unknown, then unknown, edition 2", "c",
     "02 02 02 00 01 00 02 00  01 00 00 00  01 80 02 00 00  01 80 00 00 00",
     "check refused 8\n"),
    ("label 0 known, then unknown with owner 01, edition 2: 15 is before 16", "c",
     "02 02 02 00 01 00 02 00  01 00 00 00  01 00 02 00 00  01 80 00 00 01",
     "check refused 15\n"),
    ("label 0 known, then unknown with next 03 00: the record before its next", "c",
     "01 02 02 00 01 00 02 00  01 00 00 00  01 00 02 00  01 80 03 00",
     "check refused 16\n"),
    ("label 0 known, then unknown, and a record never reached: 16 is before 5", "c",
     "01 02 02 00 01 00 03 00  01 00 00 00  01 00 02 00  01 80 00 00  01 01 00 00",
     "check refused 16\n"),
    ("(1,2) unknown, and then (0,2)'s record, which is known: 4 is before 16", "c",
     "01 03 01 00 02 00 02 00  01 00 02 00 00 00  02 00 00 00  02 80 01 00",
     "check refused 4\n"),
    ("label 0 known to one target and unknown to another", "c",
     "01 03 01 00 02 00 02 00  01 00 00 00 00 00  01 00 02 00  02 80 00 00",
     "check accepted\n"),
    ("label 0 to one target, known in one chain and unknown in another", "d",
     "01 03 01 00 02 00 02 00  01 00 02 00 00 00  02 00 00 00  02 80 00 00",
     "decode 3 1 0 2\n"
     "permits" + 32 * ZERO_MASK + "\n"
     "relation 0 2 01\n"
     "unknown 1 2 01\n"),
    ("(0,1) known and (1,0) unknown", "d",
     "01 02 01 00 01 00 02 00  01 00 02 00  01 00 00 00  00 80 00 00",
     "decode 2 1 0 1\n"
     "permits" + 32 * ZERO_MASK + "\n"
     "relation 0 1 01\n"
     "unknown 1 0 01\n"),
]


A = "01 03 01 00 02 00 03 00  01 00 03 00 00 00  01 00 02 00  02 FF 00 00  02 00 00 00"
A_EDITION_2 = "02 03 01 00 02 00 03 00  01 00 03 00 00 00  01 00 02 00 00  02 FF 00 00 00  02 00 00 00 01"
A_WRONG_OWNER = "02 03 01 00 02 00 03 00  01 00 03 00 00 00  01 00 02 00 00  02 FF 00 00 00  02 00 00 00 00"
A_ALL_KINDS = "01 03 01 03 02 00 03 00  01 00 03 00 00 00  01 00 02 00  02 FF 00 00  02 00 00 00"
A_HEAD_1_ZERO = "01 03 01 00 02 00 03 00  01 00 00 00 00 00  01 00 02 00  02 FF 00 00  02 00 00 00"
B = "01 03 01 00 02 00 03 00  01 00 03 00 00 00  01 00 02 00  01 FF 00 00  02 00 00 00"
C = "01 03 01 00 02 00 03 00  01 00 02 00 03 00  01 00 00 00  02 00 00 00  00 FF 00 00"
ONE_PARTY = "01 01 01 00 01 00 00 00  00 00"

# Two parties and D 1, (0,1) unknown: in language 1 with permit (1,0), and in language 3 with no permits; both also in edition 2. Then
# language 1 with permit (1,0) and nothing unknown; and L 2 with label 0 of (0,1) known and unknown.
UNKNOWN_1 = "01 02 01 01 01 00 02 00  01 00 02 00  01 80 00 00  00 FF 00 00"
UNKNOWN_1_EDITION_2 = "02 02 01 01 01 00 02 00  01 00 02 00  01 80 00 00 00  00 FF 00 00 01"
UNKNOWN_3 = "01 02 01 03 01 00 01 00  01 00 00 00  01 80 00 00"
UNKNOWN_3_EDITION_2 = "02 02 01 03 01 00 01 00  01 00 00 00  01 80 00 00 00"
NOTHING_UNKNOWN = "01 02 01 01 01 00 01 00  00 00 01 00  00 FF 00 00"
KNOWN_AND_UNKNOWN = "01 02 02 00 01 00 02 00  01 00 00 00  01 00 02 00  01 80 00 00"

# Three parties, D 2 and language 3: (0,1) known, (1,2) unknown. From 1 to 2 there is 03 alone, from 2 to 1 there is 01 alone.
KNOWN_THEN_UNKNOWN = "01 03 01 03 02 00 02 00  01 00 02 00 00 00  01 00 00 00  02 80 00 00"

# Each row: the call, the file, the pair, the given word, the output's length, the
# expected answer, the bytes that the output then begins with. The rest is kept.
WORD_ROWS = [
    ("p", A, (0, 2), "00 00", 3, "3", "00 01 02"),
    ("p", A, (0, 2), "00 00", 9, "3", "00 01 02"),
    ("p", A, (0, 2), "00 00", 2, "refused 14", ""),
    ("p", A, (0, 2), "00", 2, "none", ""),
    ("p", A, (0, 2), "00", 1, "refused 14", ""),
    ("p", A, (2, 0), "00 00", 3, "none", ""),
    ("p", A, (0, 2), "", 3, "refused 11", ""),
    ("p", A, (0, 2), "01", 3, "refused 11", ""),
    ("p", A, (0, 2), "04", 3, "refused 11", ""),
    ("p", A, (0, 2), "00 00 00", 3, "refused 11", ""),
    ("p", A, (0, 0), "04", 3, "refused 10", ""),
    ("p", A, (0, 3), "00", 3, "refused 10", ""),
    ("p", A_HEAD_1_ZERO, (0, 3), "00", 3, "refused 5", ""),
    ("p", A_ALL_KINDS, (2, 0), "02 02", 3, "3", "02 01 00"),
    ("p", A_ALL_KINDS, (0, 1), "01 00", 3, "none", ""),
    ("p", A_ALL_KINDS, (0, 1), "01 02", 3, "3", "00 02 01"),
    ("p", A_EDITION_2, (0, 2), "00 00", 3, "3", "00 01 02"),
    ("p", A_EDITION_2, (0, 2), "00", 2, "none", ""),
    ("p", A_WRONG_OWNER, (0, 3), "00 00", 1, "refused 15", ""),
    ("n", A, (0, 2), "", 31, "2", "00 00"),
    ("n", A, (0, 2), "00", 31, "2", "00 00"),
    ("n", A, (0, 2), "00 00", 31, "none", ""),
    ("n", A, (2, 0), "", 31, "none", ""),
    ("n", A, (2, 0), "", 30, "refused 14", ""),
    ("n", A, (0, 2), "01", 30, "refused 11", ""),
    ("n", A, (1, 1), "01", 30, "refused 10", ""),
    ("n", A_HEAD_1_ZERO, (1, 1), "01", 30, "refused 5", ""),
    ("n", A_EDITION_2, (0, 2), "", 31, "2", "00 00"),
    ("n", A_EDITION_2, (0, 2), "00 00", 31, "none", ""),
    ("n", A_WRONG_OWNER, (1, 1), "01", 30, "refused 15", ""),
    ("n", A_ALL_KINDS, (0, 2), "", 31, "1", "01"),
    ("n", A_ALL_KINDS, (0, 2), "01", 32, "1", "03"),
    ("n", A_ALL_KINDS, (0, 2), "03", 31, "2", "00 00"),
    ("n", A_ALL_KINDS, (0, 2), "00 01", 31, "2", "00 03"),
    ("n", A_ALL_KINDS, (0, 2), "03 00", 31, "2", "03 03"),
    ("n", A_ALL_KINDS, (0, 2), "03 03", 31, "none", ""),
    ("n", UNKNOWN_1, (0, 1), "", 31, "none", ""),
    ("n", UNKNOWN_1, (1, 0), "", 31, "1", "01"),
    ("n", UNKNOWN_1, (1, 0), "01", 31, "none", ""),
    ("n", UNKNOWN_1_EDITION_2, (0, 1), "", 31, "none", ""),
    ("n", NOTHING_UNKNOWN, (0, 1), "", 31, "1", "01"),
    ("n", UNKNOWN_3, (0, 1), "", 31, "1", "03"),
    ("n", UNKNOWN_3, (0, 1), "03", 31, "none", ""),
    ("n", UNKNOWN_3, (1, 0), "", 31, "1", "01"),
    ("n", UNKNOWN_3, (1, 0), "01", 31, "none", ""),
    ("n", KNOWN_THEN_UNKNOWN, (0, 2), "", 31, "1", "01"),
    ("n", KNOWN_THEN_UNKNOWN, (0, 2), "01", 31, "1", "03"),
    ("n", KNOWN_THEN_UNKNOWN, (0, 2), "03", 31, "2", "00 03"),
    ("n", KNOWN_THEN_UNKNOWN, (0, 2), "00 03", 31, "2", "03 03"),
    ("n", KNOWN_THEN_UNKNOWN, (0, 2), "03 03", 31, "none", ""),
    ("n", KNOWN_THEN_UNKNOWN, (2, 1), "01", 31, "2", "01 00"),
    ("n", KNOWN_AND_UNKNOWN, (0, 1), "", 31, "refused 16", ""),
    ("p", UNKNOWN_3, (0, 1), "03", 2, "2", "00 01"),
    ("p", UNKNOWN_3, (0, 1), "01", 2, "none", ""),
    ("p", UNKNOWN_3, (1, 0), "01", 2, "2", "01 00"),
    ("p", UNKNOWN_3, (1, 0), "03", 2, "none", ""),
    ("p", KNOWN_THEN_UNKNOWN, (0, 2), "00 03", 3, "3", "00 01 02"),
    ("p", KNOWN_THEN_UNKNOWN, (0, 2), "00 00", 3, "none", ""),
    ("p", KNOWN_THEN_UNKNOWN, (0, 2), "00 01", 3, "none", ""),
    ("p", KNOWN_AND_UNKNOWN, (0, 1), "00", 2, "refused 16", ""),
]

# Parties 0 to 3 and D 5, with the relations (1,2) and (2,3) of label 0; the same in edition 2; the same without head 1.
TWO_STEPS = "01 04 01 00 05 00 02 00  00 00 01 00 02 00 00 00  02 00 00 00  03 00 00 00"
TWO_STEPS_EDITION_2 = "02 04 01 00 05 00 02 00  00 00 02 00 01 00 00 00  03 00 00 00 02  02 00 00 00 01"
TWO_STEPS_HEAD_1_ZERO = "01 04 01 00 05 00 02 00  00 00 00 00 02 00 00 00  02 00 00 00  03 00 00 00"

# Each row of test: the file, the pair, the given word, the expected answer.
TEST_ROWS = [
    (TWO_STEPS, (1, 3), "00 00", "yes 2"),
    (TWO_STEPS, (0, 3), "00 00 00", "no 2"),
    (TWO_STEPS, (0, 3), "00 00 00 00", "no 2"),
    (TWO_STEPS, (1, 3), "00 00 00", "no 1"),      # the path 1, 2, 3 touches 1
    (TWO_STEPS, (2, 3), "00 00", "no 0"),         # 2, 3 touches 2
    (TWO_STEPS, (0, 3), "00", "no 0"),            # no k is below 1
    (TWO_STEPS, (2, 3), "00", "yes 1"),
    (TWO_STEPS, (0, 3), "00 00", "no 1"),
    (TWO_STEPS, (3, 2), "00 00 00 00 00", "no 1"),
    (TWO_STEPS, (3, 1), "00 00", "no 0"),         # nothing leads to 1
    (TWO_STEPS, (0, 3), "00 00 00 00 00", "no 2"),
    (TWO_STEPS, (0, 3), "00 00 00 00 00 00", "refused 11"),
    (TWO_STEPS, (0, 3), "", "refused 11"),
    (TWO_STEPS, (0, 3), "00 01", "refused 11"),
    (TWO_STEPS, (0, 3), "04 00", "refused 11"),
    (TWO_STEPS, (3, 3), "00", "refused 10"),
    (TWO_STEPS, (0, 4), "00", "refused 10"),
    (TWO_STEPS, (4, 0), "", "refused 10"),
    (TWO_STEPS_HEAD_1_ZERO, (4, 4), "", "refused 5"),
    (TWO_STEPS_HEAD_1_ZERO, (1, 3), "00 00", "refused 5"),
    ("", (1, 3), "00 00", "refused 1"),
    (TWO_STEPS_EDITION_2, (1, 3), "00 00", "yes 2"),
    (TWO_STEPS_EDITION_2, (1, 3), "00 00 00", "no 1"),
    (A_WRONG_OWNER, (0, 2), "00 00", "refused 15"),
    (A_ALL_KINDS, (0, 2), "00 00", "yes 2"),
    (A_ALL_KINDS, (2, 0), "02 02", "yes 2"),
    (A_ALL_KINDS, (2, 0), "00 02", "no 1"),       # 02 holds from 1 to 0
    (A_ALL_KINDS, (1, 0), "00 02", "no 0"),       # and from no other
    (A_ALL_KINDS, (1, 0), "00 01", "yes 2"),
    (A_ALL_KINDS, (1, 0), "01 01", "no 1"),       # 01 holds from 2 to 0, and from 2 to 1, not from 1 to 2
    (A_ALL_KINDS, (1, 0), "01", "yes 1"),
    (UNKNOWN_3, (0, 1), "00", "no 0"), (UNKNOWN_3, (0, 1), "01", "no 0"),
    (UNKNOWN_3, (0, 1), "02", "no 0"), (UNKNOWN_3, (0, 1), "03", "yes 1"),
    (UNKNOWN_3, (1, 0), "00", "no 0"), (UNKNOWN_3, (1, 0), "01", "yes 1"),
    (UNKNOWN_3, (1, 0), "02", "no 0"), (UNKNOWN_3, (1, 0), "03", "no 0"),
    (UNKNOWN_3_EDITION_2, (0, 1), "01", "no 0"), (UNKNOWN_3_EDITION_2, (0, 1), "03", "yes 1"),
    (UNKNOWN_3_EDITION_2, (1, 0), "01", "yes 1"), (UNKNOWN_3_EDITION_2, (1, 0), "03", "no 0"),
    (UNKNOWN_1, (0, 1), "00", "no 0"), (UNKNOWN_1, (0, 1), "01", "no 0"), (UNKNOWN_1, (1, 0), "01", "yes 1"),
    (NOTHING_UNKNOWN, (0, 1), "01", "yes 1"),
    (KNOWN_THEN_UNKNOWN, (0, 2), "00 03", "yes 2"),
    (KNOWN_THEN_UNKNOWN, (0, 2), "00 01", "no 0"),   # 01 holds from 0 to 2, and not from 1
    (KNOWN_THEN_UNKNOWN, (0, 2), "01 03", "no 1"),   # 03 holds from 1 to 2; (0,1) is known
    (KNOWN_THEN_UNKNOWN, (2, 1), "03", "no 0"),
    (KNOWN_AND_UNKNOWN, (0, 1), "00", "refused 16"),
]

# Each row: the call, the file, the pair, the rule list, the expected line.
LIST_ROWS = [
    ("r", A, (0, 2), "00 00", "permit no"),
    ("r", A, (0, 2), "01 00  01 00  02 00 00", "permit yes"),
    ("r", A, (0, 1), "01 00  01 00  02 00 00", "permit no"),
    ("r", A, (0, 1), "01 00  02 00  01 00  02 00 00", "permit no"),
    ("r", A, (0, 1), "02 00  01 00  02 00 00  01 00  01 00", "permit yes"),
    ("r", A, (0, 2), "02 00  01 00  02 00 00  00 00", "refused 9"),
    ("r", A, (0, 2), "02 00  01 00  02 00 00  01 00  01 01", "refused 9"),
    ("r", A, (0, 2), "01 00  01 00  02 00 00  00", "refused 9"),
    ("r", A, (0, 2), "01 00  01 00  02 00", "refused 9"),
    ("r", A, (0, 2), "01 00  01 00  00", "refused 9"),
    ("r", A, (0, 2), "01 00  01 00  03 00 00 00", "refused 9"),
    ("r", A, (0, 2), "", "refused 9"),
    ("r", A, (2, 2), "", "refused 10"),
    ("r", A_HEAD_1_ZERO, (2, 2), "", "refused 5"),
    ("r", A_EDITION_2, (0, 2), "01 00  01 00  02 00 00", "permit yes"),
    ("r", A_EDITION_2, (0, 1), "01 00  01 00  02 00 00", "permit no"),
    ("r", A_WRONG_OWNER, (2, 2), "", "refused 15"),
    ("x", A, (0, 0), "00 00", "text "),
    ("x", A, (0, 0), "02 00  02 00  01 00  02 00 00  01 00  01 00",
     "text 30 30 20 26 20 30 30 2E 30 30 0A  30 30 0A"),
    ("x", A, (0, 0), "01 00  00 00", "refused 9"),
    ("x", A_EDITION_2, (0, 0), "01 00  01 00  02 00 00", "text 30 30 2E 30 30 0A"),
    ("x", A_HEAD_1_ZERO, (0, 0), "01 00  00 00", "refused 5"),
    ("x", A_WRONG_OWNER, (0, 0), "01 00  00 00", "refused 15"),
    ("m", A, (0, 0), "01 00  01 00  02 00 00", "compare same"),
    ("m", A, (0, 0), "00 00", "compare 0 2 file"),
    ("m", A, (0, 0), "01 00  01 00  01 00", "compare 0 1 list"),
    ("m", A, (0, 0), "02 00  01 00  02 00 00  01 00  01 00", "compare 0 1 list"),
    ("m", A, (0, 0), "02 00  01 00  01 00  01 00  02 00 00", "compare 0 1 list"),
    ("m", A, (0, 0), "02 00  01 00  02 00 00  01 00  02 00 00", "compare same"),
    ("m", A, (0, 0), "01 00  02 00  02 00 00  02 00 00", "compare same"),
    ("m", A, (0, 0), "01 00  02 00  02 00 00  01 00", "compare 0 2 file"),
    ("m", A, (0, 0), "01 00", "refused 9"),
    ("m", A, (0, 0), "", "refused 9"),
    ("m", A, (0, 0), "02 00  01 00  02 00 00  00 00", "refused 9"),
    ("m", A, (0, 0), "02 00  01 00  01 00  00 00", "refused 9"),
    ("m", A, (0, 0), "01 00  01 00  02 00 00  00", "refused 9"),
    ("m", A, (0, 0), "01 00  01 00  03 00 00 00", "refused 9"),
    ("m", A, (0, 0), "01 00  01 00  01 02", "refused 9"),
    ("m", A, (0, 0), "01 00  01 00  01 04", "refused 9"),
    ("m", A_ALL_KINDS, (0, 0), "01 00  01 00  01 02", "compare 0 2 file"),
    ("m", A_EDITION_2, (0, 0), "01 00  01 00  02 00 00", "compare same"),
    ("m", A_EDITION_2, (0, 0), "01 00  01 00  01 00", "compare 0 1 list"),
    ("m", A_HEAD_1_ZERO, (0, 0), "01 00  01 00  02 00 00", "refused 5"),
    ("m", A_HEAD_1_ZERO, (0, 0), "01 00", "refused 5"),
    ("m", A_WRONG_OWNER, (0, 0), "01 00", "refused 15"),
    ("m", B, (0, 0), "00 00", "compare 0 1 file"),
    ("m", B, (0, 0), "01 00  01 00  02 00 00", "compare 0 1 file"),
    ("m", B, (0, 0), "01 00  01 00  01 00", "compare 1 2 list"),
    ("m", C, (0, 0), "00 00", "compare 2 0 file"),
    ("m", C, (0, 0), "01 00  01 00  02 00 00", "compare 0 2 list"),
    ("m", ONE_PARTY, (0, 0), "00 00", "compare same"),
    ("m", ONE_PARTY, (0, 0), "01 00  01 00  01 00", "compare same"),
    ("m", ONE_PARTY, (0, 0), "01 00", "refused 9"),
    ("r", UNKNOWN_1, (1, 0), "01 00  01 00  01 01", "permit yes"),
    ("r", UNKNOWN_1, (0, 1), "01 00  01 00  01 01", "permit no"),
    ("r", UNKNOWN_1_EDITION_2, (0, 1), "01 00  01 00  01 01", "permit no"),
    ("r", NOTHING_UNKNOWN, (0, 1), "01 00  01 00  01 01", "permit yes"),
    ("r", KNOWN_AND_UNKNOWN, (0, 0), "", "refused 16"),
    ("x", UNKNOWN_1, (0, 0), "01 00  01 00  01 01", "text 30 31 0A"),
    ("x", KNOWN_AND_UNKNOWN, (0, 0), "", "refused 16"),
    ("m", UNKNOWN_1, (0, 0), "01 00  01 00  01 01", "compare same"),
    ("m", UNKNOWN_1_EDITION_2, (0, 0), "01 00  01 00  01 01", "compare same"),
    ("m", UNKNOWN_1, (0, 0), "01 00  01 00  01 00", "compare 1 0 file"),
    ("m", NOTHING_UNKNOWN, (0, 0), "01 00  01 00  01 01", "compare 0 1 list"),
    ("m", KNOWN_AND_UNKNOWN, (0, 0), "", "refused 16"),
]

# Each row of write: what it shows, the file, the output's length, the expected answer,
# the bytes that the output then begins with. The rest is kept.
WRITE_ROWS = [
    ("A: becomes edition 2", A, 29, "29", A_EDITION_2),
    ("A with an output that is longer", A, 34, "29", A_EDITION_2),
    ("A in edition 2 is its own copy", A_EDITION_2, 29, "29", A_EDITION_2),
    ("A with its records in another order: becomes the same",
     "01 03 01 00 02 00 03 00  03 00 01 00 00 00  02 00 00 00  01 00 00 00  02 FF 02 00",
     29, "29", A_EDITION_2),
    ("A with party 0's chain turned round: becomes the same",
     "01 03 01 00 02 00 03 00  02 00 03 00 00 00  01 00 00 00  02 FF 01 00  02 00 00 00",
     31, "29", A_EDITION_2),
    ("A in edition 2 with its records in another order: becomes the same",
     "02 03 01 00 02 00 03 00  03 00 01 00 00 00  02 00 00 00 01  01 00 00 00 00  02 FF 02 00 00",
     30, "29", A_EDITION_2),
    ("kinds FF, 1 and 0 to one target",
     "01 02 02 00 01 00 03 00  01 00 00 00  01 FF 02 00  01 01 03 00  01 00 00 00",
     27, "27",
     "02 02 02 00 01 00 03 00  01 00 00 00  01 00 02 00 00  01 01 03 00 00  01 FF 00 00 00"),
    ("H: the permit (0,1) is before the relation (0,2), the target before the kind",
     "01 03 02 00 01 00 05 00  01 00 05 00 00 00"
     "  01 00 02 00  01 01 03 00  02 00 04 00  01 FF 00 00  02 01 00 00",
     39, "39",
     "02 03 02 00 01 00 05 00  01 00 05 00 00 00"
     "  01 00 02 00 00  01 01 03 00 00  01 FF 04 00 00  02 00 00 00 00  02 01 00 00 01"),
    ("party 1's chain is empty, those of 0 and 2 are not",
     "01 03 01 00 02 00 03 00  02 00 00 00 01 00  01 FF 03 00  01 00 00 00  00 00 00 00",
     29, "29",
     "02 03 01 00 02 00 03 00  01 00 00 00 02 00  01 00 00 00 00  00 00 03 00 02  01 FF 00 00 02"),
    ("n 1", "01 01 01 00 01 00 00 00  00 00", 12, "10", "02 01 01 00 01 00 00 00  00 00"),
    ("n 1 in edition 2", "02 01 01 00 01 00 00 00  00 00", 10, "10", "02 01 01 00 01 00 00 00  00 00"),
    ("L 8 and D 31 are kept for two parties and label 1",
     "01 02 08 02 1F 00 01 00  00 00 01 00  00 01 00 00", 17, "17",
     "02 02 08 02 1F 00 01 00  00 00 01 00  00 01 00 00 01"),
    ("kinds FF, 81 and 0 to one target: the unknown one between the two",
     "01 02 02 00 01 00 03 00  01 00 00 00  01 FF 02 00  01 81 03 00  01 00 00 00",
     27, "27",
     "02 02 02 00 01 00 03 00  01 00 00 00  01 00 02 00 00  01 81 03 00 00  01 FF 00 00 00"),
    ("known, unknown and permit to one target, unknown alone to another",
     "01 03 08 03 02 00 07 00  01 00 00 00 07 00"
     "  01 87 02 00  01 00 03 00  02 80 04 00  01 FF 05 00  01 81 06 00  01 02 00 00  00 03 00 00",
     49, "49",
     "02 03 08 03 02 00 07 00  01 00 00 00 07 00"
     "  01 00 02 00 00  01 02 03 00 00  01 81 04 00 00  01 87 05 00 00  01 FF 06 00 00  02 80 00 00 00  00 03 00 00 02"),
    ("(0,1) unknown, permit (1,0)", UNKNOWN_1, 22, "22", UNKNOWN_1_EDITION_2),
    ("the same in edition 2 is its own copy", UNKNOWN_1_EDITION_2, 23, "22", UNKNOWN_1_EDITION_2),
    ("the same one byte short", UNKNOWN_1, 21, "refused 14", ""),
    ("label 0 known, then unknown", KNOWN_AND_UNKNOWN, 30, "refused 16", ""),
    ("the same with no output", KNOWN_AND_UNKNOWN, 0, "refused 16", ""),
    ("A with an output one byte short", A, 28, "refused 14", ""),
    ("A with an output of its own length", A, 26, "refused 14", ""),
    ("A in edition 2 with an output one byte short", A_EDITION_2, 28, "refused 14", ""),
    ("A with no output", A, 0, "refused 14", ""),
    ("A with head 1 zero", A_HEAD_1_ZERO, 29, "refused 5", ""),
    ("A with head 1 zero and no output: the file is first", A_HEAD_1_ZERO, 0, "refused 5", ""),
    ("A in edition 2 with record 3's owner 00", A_WRONG_OWNER, 29, "refused 15", ""),
    ("the same with no output", A_WRONG_OWNER, 0, "refused 15", ""),
    ("A with record 2's next 01 00",
     "01 03 01 00 02 00 03 00  01 00 03 00 00 00  01 00 02 00  02 FF 01 00  02 00 00 00",
     33, "refused 4", ""),
]

# Old bytes of an output, and of its guards.
OLD, FENCE = b"\xEE", b"\xDD"


def file_of(row):
    return bytes.fromhex(row[2])


def case_file(name):
    """The file of the rows with this name, such as the letter of a case."""
    return [file_of(row) for row in ROWS if row[0] == name][0]


def file_case(row):
    """The frame and the lines of a row of ROWS."""
    return script.Case(script.frame(row[1], file_of(row)), row[3])


def word_case(row):
    """The frame and the lines of a row of WORD_ROWS."""
    call, data, pair, word, room, answer, begins = row
    frame = script.word_frame(call, bytes.fromhex(data), *pair, given_word(word), fenced("", room))
    return script.Case(frame, output_lines(call, answer, fenced(begins, room)))


def given_word(word):
    """The given bytes of a word in hexadecimal; the bytes after its symbols mean nothing."""
    symbols = bytes.fromhex(word)
    return script.given_bytes(len(symbols), symbols.ljust(script.SYMBOLS_GIVEN, b"\xBB"))


def test_case(row):
    """The frame and the line of a row of TEST_ROWS."""
    data, pair, word, answer = row
    return script.Case(script.test_frame(bytes.fromhex(data), *pair, given_word(word)), "%s %s\n" % (script.NAMES[script.TEST], answer))


def fenced(begins, room):
    """An output of this length that begins with these bytes, with its guards."""
    fence = script.GUARD * FENCE
    return fence + bytes.fromhex(begins).ljust(room, OLD) + fence


def output_lines(call, answer, after):
    """The answer's line, and the line of output with its guards."""
    return "%s %s\noutput %s\n" % (script.NAMES[call], answer, after.hex().upper())


def write_case(row):
    """The frame and the lines of a row of WRITE_ROWS."""
    _, data, room, answer, begins = row
    frame = script.write_frame(bytes.fromhex(data), fenced("", room))
    return script.Case(frame, output_lines(script.WRITE, answer, fenced(begins, room)))


def list_case(row):
    """The frame and the lines of a row of LIST_ROWS."""
    call, data, pair, listed, line = row
    if line.startswith("refused"):
        line = "%s %s" % (script.NAMES[call], line)
    elif line.startswith("text"):
        line = "text " + line[4:].replace(" ", "")
    return script.Case(script.list_frame(call, bytes.fromhex(data), bytes.fromhex(listed), *pair), line + "\n")


def cases():
    """All rows, as frames and their lines."""
    return ([file_case(row) for row in ROWS] + [word_case(row) for row in WORD_ROWS]
            + [list_case(row) for row in LIST_ROWS] + [write_case(row) for row in WRITE_ROWS]
            + [test_case(row) for row in TEST_ROWS])


def reckoned(frame, known=None):
    """The lines that brute.py gives for a frame; known, where it is given, is of the frame's file."""
    parts = script.parts_of(frame)
    if parts.call == script.WRITE:
        return script.output_text(parts.call, *script.write_reply(parts.data, parts.output))
    known = known or brute.Known(parts.data)
    if parts.call in (script.PATH, script.NEXT_WORD):
        return script.output_text(parts.call, *script.word_reply(
            parts.call, known, parts.first, parts.second, parts.given, parts.output))
    if parts.call == script.TEST:
        return script.test_text(brute.word_test_reply(known, parts.first, parts.second, script.word_of(parts.given)))
    if parts.call == script.PERMIT:
        return script.permit_text(brute.permit_reply(known, parts.first, parts.second, parts.given))
    if parts.call == script.TEXT:
        return script.list_text(brute.text_reply(known, parts.given))
    if parts.call == script.COMPARE:
        return script.compare_text(brute.compare_reply(known, parts.given))
    return script.expected(parts.call, parts.data)


def disagreements():
    """The rows whose expected lines brute.py does not give."""
    return [case for case in cases() if reckoned(case.frame) != case.text]


def main(arguments):
    if len(arguments) != 2:
        print("usage: stored.py OUTDIR")
        return 1
    wrong = disagreements()
    for case in wrong:
        print("brute.py does not agree: %s, row says %r, brute.py %r"
              % (script.parts_of(case.frame), case.text, reckoned(case.frame)))
    if wrong:
        return 1
    stored = cases()
    os.makedirs(arguments[1], exist_ok=True)
    with open(os.path.join(arguments[1], "stdin"), "wb") as out:
        out.writelines(case.frame for case in stored)
    with open(os.path.join(arguments[1], "stdout"), "wb") as out:
        out.write("".join(case.text for case in stored).encode("ascii"))
    print("%d rows written" % len(stored))
    return 0


if __name__ == "__main__":
    sys.exit(main(sys.argv))
