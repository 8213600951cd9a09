#!/usr/bin/env python3
"""Measures our program and another one on the same day.

    run.py OURS THEIRS [FILE] [--runs N]

Ours is run as `OURS run FILE`, the other as `THEIRS FILE`, in turn. It tells the processor time of each, user and
system together, and how they compare, after it has seen that the answers are the same but for the texts for the reader
after ours. Without a FILE it measures on the day of big_day.py.
"""

import argparse
import os
import resource
import statistics
import subprocess
import sys
import tempfile

HERE = os.path.dirname(os.path.abspath(__file__))
sys.path.insert(0, os.path.join(HERE, os.pardir, "tests"))

import answers  # noqa: E402


def spent():
    """The processor time of the programs that have ended, in seconds."""
    usage = resource.getrusage(resource.RUSAGE_CHILDREN)
    return usage.ru_utime + usage.ru_stime


def measure(command, output):
    """Runs a program into a file; answers its processor time and exit status."""
    before = spent()
    with open(output, "wb") as file:
        status = subprocess.run(command, stdin=subprocess.DEVNULL, stdout=file).returncode
    return spent() - before, status


def content(path):
    with open(path, "rb") as file:
        return file.read()


def same_answers(outputs):
    """Whether the outputs are the same, but for the texts for the reader after our answers; a difference is told."""
    difference = answers.first_difference(*map(content, outputs))
    if difference is None:
        return True
    number, our_line, their_line = difference
    print(f"the answers differ in line {number}\n  ours:   {our_line}\n  theirs: {their_line}")
    return False


def compare(commands, outputs, runs):
    """Measures both programs in turn and tells it; answers whether they did the same."""
    # The first run of each is not counted: it warms the caches and shows that the answers are the same.
    statuses = [measure(command, output)[1] for command, output in zip(commands, outputs)]
    if statuses[0] != statuses[1]:
        print(f"exit status: ours {statuses[0]}, theirs {statuses[1]}")
        return False
    if not same_answers(outputs):
        return False
    times = [[], []]
    for turn in range(runs):
        # Which goes first changes from turn to turn.
        for which in (0, 1) if turn % 2 == 0 else (1, 0):
            times[which].append(measure(commands[which], outputs[which])[0])
    best, median = [min(of_one) for of_one in times], [statistics.median(of_one) for of_one in times]
    print(f"processor time of {runs} runs each, user and system, in ms")
    for which, name in enumerate(["ours", "theirs"]):
        print(f"  {name:<7} best {1_000 * best[which]:8.1f}   median {1_000 * median[which]:8.1f}")
    print(f"  ratio   best {best[0] / best[1]:8.2f}   median {median[0] / median[1]:8.2f}")
    return True


def main():
    parser = argparse.ArgumentParser(description="Measures our program and another one on the same day.")
    parser.add_argument("ours", help="our program, run as `OURS run FILE`")
    parser.add_argument("theirs", help="the other program, run as `THEIRS FILE`")
    parser.add_argument("file", nargs="?", help="the day; without it that of big_day.py")
    parser.add_argument("--runs", type=int, default=7, help="how many runs of each (7)")
    options = parser.parse_args()
    with tempfile.TemporaryDirectory() as folder:
        day = options.file
        if day is None:
            day = os.path.join(folder, "day")
            with open(day, "wb") as file:
                subprocess.run([sys.executable, os.path.join(HERE, "big_day.py")], stdout=file, check=True)
        outputs = [os.path.join(folder, name) for name in ("ours", "theirs")]
        if not compare([[options.ours, "run", day], [options.theirs, day]], outputs, options.runs):
            sys.exit(1)


if __name__ == "__main__":
    main()
