"""Dirt: what can be wrong with a record's text, or odd and yet right.

A text is a str with one character for each byte of the file.
"""

from drawing import I64_MAX, I64_MIN, U32_MAX

# What may stand in the place of any field. Some of it is right where it comes to stand.
NUMBERS = [
    "0", "-0", "-1", "-", "--1", "+1", "1.5", "1e3", "0x1F", "12a", "a12", "1 2", "1\t2", "- 1", "1_000", "1'000",
    "1;2", "1;;2", str(I64_MAX), str(I64_MAX + 1), str(I64_MIN), str(I64_MIN - 1), str(U32_MAX), str(U32_MAX + 1),
    "9" * 40, "-" + "9" * 40, "0" * 40 + "7", "-" + "0" * 40 + "7", "0" * 40,
    # Numbers that would be small ones if they wrapped around.
    str(2**64), str(2**64 + 1), str(10 * 2**32 + 7), str(10 * 2**64 + 7), str(2**128 + 7),
    # Digits of other scripts.
    "\xb2", "\xd9\xa3", "\xef\xbc\x97",
]
WORDS = [
    "", ";", "x", "yes", "no", "Yes", "YES", "emr", "EMR", "Emr", "EMR x", "opl", "listed", "running", "Running",
    "verified", "open", "closed", "leftover -- x", ": ok",
    # Bytes that are no blanks, and bytes that are no text.
    "\xff", "\x00", "7\x00", "\r", "7\r", "\x0b7", "\x0c", "\xa07", "\xc2\xa0", "a\r",
]
PARTIES = [
    "#", "#0", "#1", "#2", "#64", "#65", "#007", "#-1", "#-0", "#+1", "# 1", "#1 1", "#x", "##1", f"#{U32_MAX}",
    f"#{U32_MAX + 1}", "NOBODY", "nobody", "A B", "\xc3\x84",
]
FIELDS = NUMBERS + WORDS + PARTIES
NAMES = [
    "", "Emr", "EMR", "settles", "settl", "sett le", "set\ttle", "x", "12", ";", "--", "a -- b", "-- b", "open",
    "balances", "total 5", "3: settle EMR 1 running: ok", "a: refused 13 at 0", "\xffparty", "\xef\xbb\xbfparty",
    "party\r", "\x00", "party\x00", "q" * 300,
]
# Lines that are passed over.
CLUTTER = [
    "", "", " ", "\t \t", "#", "# a comment, with; all -- sorts: of things", "#settle,EMR,1,emr,running,1",
    "  # not at the margin", "#\xff\xfe\x00", "# \xe2\x82\xac", "#" + "-" * 500,
]
CODES = [
    "", "lower", "NINECHARS", "A B", "A-B", "A\t1", "A -- B", "#1", "#", "A;B", "\xc3\x84", "\xff", "A\x00", "A\r",
    "x" * 200,
]


def soiled(dice, name, fields):
    """The record with one thing wrong, or odd."""
    way = dice.randrange(20)
    if way == 0:
        return "q" * 70_000 if dice.chance(0.01) else dice.choice(NAMES), fields
    if way == 1:
        return name, fields[:-1]
    if way == 2:
        return name, fields + [dice.choice(["", "0", "x"])]
    if way == 3 or not fields:
        return name, dice.choice([[], fields[1:], fields + fields])
    place = dice.randrange(len(fields))
    field = fields[place]
    if dice.chance(0.02):
        field = ["7"] * dice.choice([100, 3_000])
    elif isinstance(field, list) and dice.chance(0.7):
        field = soiled_list(dice, field)
    else:
        field = dice.choice(FIELDS)
    return name, fields[:place] + [field] + fields[place + 1 :]


def soiled_list(dice, items):
    """The list with one item too few, too many, in between or wrong."""
    place = dice.randrange(len(items) + 1)
    way = dice.randrange(4)
    if way == 0:
        return items[:-1]
    if way == 1:
        return items + [dice.choice(["0", "1", ""])]
    odd = [dice.choice(NUMBERS + WORDS)]
    return items[:place] + odd + items[place + (way == 2) :]
