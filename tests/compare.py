#!/usr/bin/env python3
"""Compares our program with another one on random days.

    compare.py OURS THEIRS [--days N] [--first SEED]

Ours is run as `OURS run FILE`, the other as `THEIRS FILE`. Standard output must be the same line by line, but for the
texts for the reader after our answers, and so must be the exit status. At the first difference the day and both outputs
are kept in a temporary folder. At the end it tells what the days reached, by the other program's answers.
"""

import argparse
import collections
import os
import subprocess
import sys
import tempfile

import answers
import random_days

SECONDS = 60

# Every refusal, every fault with its fields, and how many fields of a record can be malformed; so can the record as a
# whole, field 0. A party's only field is text and never malformed.
REFUSALS = [11, 12, 13, 25, 31, 32, 33, 34, 35, 36, 37, 38, 39, 45, 46, 51, 52, 53, 61]
FAULTS = [(40, 0)] + [(41, field) for field in range(1, 11)] + [(43, 2), (44, 0)]
FIELDS = {
    "party": 0, "intervals": 1, "curve": 5, "quarter": 1, "emr": 8, "opl": 14, "listed": 3, "clear": 1, "bus": 2,
    "adders": 2, "unit": 3, "site": 1, "period": 1, "deny": 1, "undeny": 1, "adjust": 2, "unadjust": 1, "settle": 5,
    "restate": 5, "void": 2, "balance": 1, "entry": 3, "energy": 1,
}
UNKNOWN = "unknown names"


def run(command):
    """Runs a program and answers its standard output and exit status."""
    try:
        done = subprocess.run(command, stdout=subprocess.PIPE, stderr=subprocess.PIPE, timeout=SECONDS)
    except subprocess.TimeoutExpired as late:
        return late.stdout or b"", f"none, it was stopped after {SECONDS} s"
    return done.stdout, done.returncode


def shown(line):
    return "(the output has ended)" if line is None else repr(line)[1:]


class Coverage:
    """What the days reached."""

    def __init__(self):
        self.days = self.done = self.refused = self.malformed = 0
        self.refusals = collections.Counter()
        self.faults = collections.Counter()
        self.fields = {name: collections.Counter() for name in list(FIELDS) + [UNKNOWN]}

    def add(self, output):
        """Adds a day, by the fixed parts of its answers."""
        self.days += 1
        openings = 0
        for line in output.split(b"\n"):
            if not answers.ANSWER.match(line):
                closing = answers.CLOSING.match(line)
                if closing:
                    done, refused, malformed = map(int, closing.groups())
                    self.done += done
                    self.refused += refused - openings
                    self.malformed += malformed
                continue
            openings += answers.OPENING_REFUSED.match(line) is not None
            malformed = answers.MALFORMED.match(line)
            refused = answers.REFUSED.search(line)
            if malformed:
                name = malformed.group(1).decode("latin-1")
                self.fields[name if name in FIELDS else UNKNOWN][int(malformed.group(2))] += 1
            elif refused:
                self.refusals[int(refused.group(1))] += 1
                if refused.group(2):
                    self.faults[int(refused.group(2)), int(refused.group(3))] += 1

    def told(self):
        yield f"{self.days} days, {self.done + self.refused + self.malformed} records"
        yield f"{self.done} done, {self.refused} refused, {self.malformed} malformed"
        yield "refused: " + ", ".join(f"{number} {count}x" for number, count in sorted(self.refusals.items()))
        yield "faults (cause/field): " + ", ".join(f"{c}/{f} {count}x" for (c, f), count in sorted(self.faults.items()))
        yield "malformed (field count):"
        for name, counts in self.fields.items():
            yield f"  {name}: " + ", ".join(f"{field} {count}x" for field, count in sorted(counts.items()))
        missing = [str(number) for number in REFUSALS if number not in self.refusals]
        missing += [f"fault {cause} field {field}" for cause, field in FAULTS if (cause, field) not in self.faults]
        fields = [(name, field) for name, last in FIELDS.items() for field in range(last + 1)]
        missing += [f"{name} field {field}" for name, field in fields if field not in self.fields[name]]
        yield "not reached: " + (", ".join(missing) or "nothing")


def keep(seed, day, ours, theirs):
    """Keeps a day on which the programs differ; answers the folder."""
    folder = tempfile.mkdtemp(prefix=f"day-{seed}-")
    for name, content in [("day", day), ("ours", ours), ("theirs", theirs)]:
        with open(os.path.join(folder, name), "wb") as file:
            file.write(content)
    return folder


def tell_difference(day, difference):
    """Tells the lines that differ, and the record that they are about."""
    number, our_line, their_line = difference
    print(f"line {number} of the output\n  ours:   {shown(our_line)}\n  theirs: {shown(their_line)}")
    line = our_line if their_line is None else their_line
    if answers.ANSWER.match(line):
        number = int(line.split(b":")[0])
        records = day.split(b"\n")
        if 1 <= number <= len(records):
            print(f"  record: {shown(records[number - 1])}")


def compare(ours, theirs, seeds):
    """Compares on the days of the seeds; answers what they reached, or None at a difference, which it tells."""
    coverage = Coverage()
    with tempfile.TemporaryDirectory() as folder:
        path = os.path.join(folder, "day")
        for seed in seeds:
            day = random_days.day(seed)
            with open(path, "wb") as file:
                file.write(day)
            our_output, our_status = run([ours, "run", path])
            their_output, their_status = run([theirs, path])
            difference = answers.first_difference(our_output, their_output)
            if difference or our_status != their_status:
                kept = keep(seed, day, our_output, their_output)
                print(f"seed {seed}: the programs differ; the day and both outputs are in {kept}")
                if difference:
                    tell_difference(day, difference)
                print(f"exit status: ours {our_status}, theirs {their_status}")
                return None
            coverage.add(their_output)
    return coverage


def main():
    parser = argparse.ArgumentParser(description="Compares our program with another one on random days.")
    parser.add_argument("ours", help="our program, run as `OURS run FILE`")
    parser.add_argument("theirs", help="the other program, run as `THEIRS FILE`")
    parser.add_argument("--days", type=int, default=300, help="how many days (300)")
    parser.add_argument("--first", type=int, default=1, help="the seed of the first day (1), the next day has the next")
    options = parser.parse_args()
    try:
        coverage = compare(options.ours, options.theirs, range(options.first, options.first + options.days))
    except OSError as error:
        sys.exit(f"compare.py: {error}")
    if coverage is None:
        sys.exit(1)
    print("\n".join(coverage.told()))


if __name__ == "__main__":
    main()
