#!/usr/bin/env python3
"""A large day: `big_day.py [SEED]` writes about 100,000 records to standard output, all of them valid.

64 parties and the 100 quarter hours of the day on which the clock is put back. 160 batteries and generators offer a
curve for every hour. In every quarter hour all of them run under emergency base points, 200 units have operating
losses, and 24 small sites are split over their units. The three are settled, every fourth quarter hour is restated with
later readings, and each party looks at its entries and its balance.
"""

import random
import sys

PARTIES, INTERVALS, HOURS = 64, 100, 25
RESOURCES, LOSSES, SITES, LISTED = 160, 200, 24, 100
RULES = ["running", "leftover"]
# How the dispatch cut a quarter hour.
QUARTERS = [[300] * 3, [300] * 3, [290, 305, 305], [300, 120, 180, 300], [900], [240, 60, 295, 305], [60] * 15]


class BigDay:
    """The day, handed to `write` line by line."""

    def __init__(self, seed, write):
        self.dice = random.Random(seed)
        self.write = write
        self.slices = [900]
        self.parties = [f"QSE{number:02}" for number in range(1, PARTIES + 1)]
        numbers = self.dice.sample(range(1, 10_000), RESOURCES + LOSSES)
        self.resources = sorted(numbers[:RESOURCES])
        self.losses = sorted(numbers[RESOURCES:])
        self.owner = {number: self.dice.choice(self.parties) for number in numbers}
        # A resource's range: a battery charges and discharges, a generator only runs.
        self.range = {}
        for number in self.resources:
            size = self.dice.randrange(10_000, 250_000, 500)
            self.range[number] = (-size, size) if self.dice.random() < 0.6 else (size // 4, size)

    def put(self, *fields):
        texts = [";".join(map(str, field)) if isinstance(field, list) else str(field) for field in fields]
        self.write(",".join(texts) + "\n")

    def day(self):
        self.opening()
        for interval in range(1, INTERVALS + 1):
            self.comment(f"quarter hour {interval}")
            self.slices = self.dice.choice(QUARTERS)
            self.put("quarter", self.slices)
            self.emergency(interval, "settle")
            self.operating_losses(interval)
            self.small_sites(interval)
            if interval % 4 == 0:
                self.restatement(interval)
            self.looks(interval)

    def comment(self, text):
        self.write(f"# {text}\n")

    def opening(self):
        for code in self.parties:
            self.put("party", code)
        self.put("intervals", INTERVALS)
        for number in self.resources:
            low, high = self.range[number]
            for hour in range(1, HOURS + 1):
                count = self.dice.randint(2, 10)
                powers = sorted(self.dice.sample(range(low, high + 1, 250), count))
                prices = sorted(self.dice.randint(-2_000, 12_000) for _ in range(count))
                self.put("curve", number, hour, low, high, [part for point in zip(powers, prices) for part in point])

    def emergency(self, interval, call):
        """Every resource under base points, some beyond its curve; what it did lies near what it was told."""
        self.put("clear", "emr")
        hour = (interval - 1) // 4 + 1
        for number in self.resources:
            low, high = self.range[number]
            powers = [self.dice.randint(low, high + high // 20) for _ in self.slices]
            told = sum(power * seconds for power, seconds in zip(powers, self.slices)) // 3_600
            did = told + self.dice.randint(-400, 400)
            row = [self.dice.randint(-500, 6_000), max(0, did), min(0, did), powers, hour, 500_000]
            self.put("emr", self.owner[number], number, *row)
        denied, adjusted = self.dice.sample(self.resources, 4), self.dice.sample(self.resources, 8)
        for number in denied:
            self.put("deny", number)
        for number in adjusted:
            self.put("adjust", number, self.dice.randint(-5_000, 5_000))
        self.put(call, "EMR", interval, "emr", self.dice.choice(RULES), self.loads())
        self.put("energy", "emr")
        for number in denied:
            self.put("undeny", number)
        for number in adjusted:
            self.put("unadjust", number)

    def operating_losses(self, interval):
        self.put("clear", "opl")
        for number in self.losses:
            kind = self.dice.choice(["verified", "proxy", "storage"])
            heat_rate, generation = self.dice.randint(7_000, 14_000), self.dice.randint(0, 80_000)
            fuel = [heat_rate, self.dice.randint(15_000, 40_000), "", "", "", generation * heat_rate // 1_000]
            if kind == "verified":
                fuel[3] = self.dice.randint(100, 1_000)
            elif kind == "proxy":
                fuel[4] = self.dice.randint(1, 12)
            else:
                fuel = ["", "", self.dice.randint(100_000, 300_000), "", self.dice.randint(1, 12), ""]
            cap = 200_000
            row = [cap + self.dice.randint(-20_000, 60_000), generation, *fuel, cap, self.mark(), self.mark()]
            self.put("opl", self.owner[number], kind, number, *row)
        self.put("settle", "OPL", interval, "opl", self.dice.choice(RULES), self.loads())
        self.put("energy", "opl")

    def small_sites(self, interval):
        """Sites of one to four buses and units, and listed amounts behind them."""
        self.put("clear", "listed")
        resource = 0
        for _ in range(SITES):
            for _ in range(self.dice.randint(1, 4)):
                self.put("bus", self.dice.randint(100, 2_500), [self.dice.randint(-3_000, 8_000) for _ in self.slices])
            if self.dice.random() < 0.8:
                self.put("adders", *[[self.dice.randint(0, 400) for _ in self.slices] for _ in range(2)])
            party = self.dice.choice(self.parties)
            for _ in range(self.dice.randint(1, 4)):
                resource += self.dice.randint(1, 50)
                self.put("unit", party, resource, self.dice.randint(1, 3_000))
            self.put("site", self.dice.choice(RULES))
        for _ in range(LISTED):
            resource += self.dice.randint(1, 50)
            self.put("listed", self.dice.choice(self.parties), resource, self.dice.randint(-90_000, 5_000))
        self.put("settle", "SOG", interval, "listed", self.dice.choice(RULES), self.loads())

    def restatement(self, interval):
        self.comment(f"quarter hour {interval} with later readings")
        self.emergency(interval, "restate")
        if interval % 20 == 0:
            self.put("void", "SOG", interval)

    def looks(self, interval):
        for kind in ["EMR", "OPL", "SOG"]:
            for code in self.parties:
                self.put("entry", kind, interval, code)
        for code in self.parties:
            self.put("balance", code)

    def loads(self):
        return [self.dice.randint(0, 400_000) for _ in self.parties]

    def mark(self):
        return "yes" if self.dice.random() < 0.9 else "no"


def main():
    if len(sys.argv) > 2:
        sys.exit("usage: big_day.py [SEED]")
    seed = int(sys.argv[1]) if len(sys.argv) == 2 else 1
    BigDay(seed, sys.stdout.write).day()


if __name__ == "__main__":
    main()
