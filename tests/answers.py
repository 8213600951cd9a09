"""How the answers of two programs to one day are compared.

An answer line of ours may end with ` -- ` and a text for the reader, which is not compared. A record's own words may
hold ` -- ` too (an unknown name, a code that is none), and so may the reader's text, so that the line is cut neither at
the first nor at the last one: the other program's line says where the fixed part ends.
"""

import re

TAIL = b" -- "
ANSWER = re.compile(rb"[0-9]+: ")
REFUSED = re.compile(rb": refused ([0-9]+) at [0-9]+(?:, fault ([0-9]+) line [0-9]+ field ([0-9]+) layer [0-9]+)?$")
OPENING_REFUSED = re.compile(rb"[0-9]+: open: refused [0-9]+ at [0-9]+$")
MALFORMED = re.compile(rb"[0-9]+: (.*): malformed at field ([0-9]+)$", re.DOTALL)
CLOSING = re.compile(rb"([0-9]+) done, ([0-9]+) refused, ([0-9]+) malformed$")


def same_line(ours, theirs):
    """Whether our line is theirs, but for a text for the reader after it. Only an answer may bear one."""
    return ours == theirs or ANSWER.match(theirs) is not None and ours.startswith(theirs + TAIL)


def first_difference(ours, theirs):
    """The first lines of two outputs that differ, as (number, our line, their line); None if there are none.

    A line is None where that output has ended. Also the last lines must both end with LF, or neither.
    """
    ours, theirs = ours.split(b"\n"), theirs.split(b"\n")
    for number in range(max(len(ours), len(theirs))):
        our_line, their_line = (lines[number] if number < len(lines) else None for lines in (ours, theirs))
        if our_line is None or their_line is None or not same_line(our_line, their_line):
            return number + 1, our_line, their_line
    return None
