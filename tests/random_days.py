#!/usr/bin/env python3
"""Random day files: `random_days.py SEED` writes one day to standard output.

The same seed gives the same day. A day is opened by parties, intervals and curves and then plays scenes: short runs of
records that aim at one part of the rules, mostly at its edges. What a scene writes is meant, also where it is meant to
be refused; `Day.put` then soils some of the records. Nothing here knows what the right answers are.
"""

import sys

import dirt
from drawing import (
    ADDER, AMOUNT, BURNED, CAP, CATEGORY, CHARGING, CHARGING_COST, ENERGY, FIGURE, FUEL_PRICE, GENERATION, HEAT_RATE,
    HOUR, LOAD, MAX_CURVES, MAX_HELD, MAX_INTERVALS, MAX_LINES, MAX_PARTIES, MAX_TOTAL, OWN_OM, POWER, PRICE, READING,
    RESOURCE, U32_MAX, Curve, Dice, clamp,
)

TYPES = ["EMR", "OPL", "SOG"]
SOURCES = ["emr", "opl", "listed"]
RULES = ["running", "leftover"]
CALLS = ["settle", "restate", "void", "balance", "entry", "energy"]
BLANKS = [" ", "\t", "  ", " \t"]

# The fields of an operating loss by the row's count, and those that a kind does not use.
LOSS_LIMITS = {
    "resource": RESOURCE, "price": PRICE, "generation": GENERATION, "heat rate": HEAT_RATE, "fuel price": FUEL_PRICE,
    "charging cost": CHARGING_COST, "own o&m": OWN_OM, "category": CATEGORY, "burned": BURNED, "cap": CAP,
}
LOSS_UNUSED = {
    "verified": ["charging cost", "category"],
    "proxy": ["charging cost", "own o&m"],
    "storage": ["heat rate", "fuel price", "own o&m", "burned"],
}

# What a day is about, and how often.
PLANS = {"plain": 50, "clean": 8, "dirty": 16, "refused": 12, "without calls": 4, "crowded": 8, "nothing": 1}
OPENING_FLAWS = ["parties", "code", "order", "curves", "key", "order of keys", "size"]


class Day:
    """One day, written record by record."""

    def __init__(self, seed):
        self.dice = dice = Dice(seed)
        plan = dice.choices(list(PLANS), list(PLANS.values()))[0]
        self.lines = []
        self.calling = plan != "without calls"
        # How the text looks.
        self.clutter = dice.choice([0, 0, 0.03, 0.3])
        self.blanks = dice.choice([0, 0, 0, 0.1, 0.6])
        self.ends = dice.choice([["\n"], ["\n"], ["\r\n"], ["\n", "\r\n"]])
        # What the scenes know of the day, as far as nothing was soiled.
        self.codes = []
        self.intervals = 0
        self.resources = []
        self.curves = {}
        self.standing = set()
        self.quarter = [900]
        self.emr_quarter = None
        self.adjusted = []

        self.dirt = 0
        if plan == "nothing":
            self.lines = [dice.choice(dirt.CLUTTER) for _ in range(dice.randrange(4))]
            return
        dirty = {"clean": 0, "dirty": dice.choice([0.2, 0.5, 0.9])}.get(plan, dice.choice([0, 0.01, 0.04]))
        # A single wrong code or key refuses the whole opening, so that the dirt mostly begins after it.
        self.dirt = dirty if dice.chance(0.3) else 0
        self.open(crowded=plan == "crowded", refused=plan == "refused")
        self.dirt = dirty
        for _ in range(dice.choice([1, 4, 10, 25]) + (30 if plan == "crowded" else 0)):
            self.scene()

    def text(self):
        ends = [self.dice.choice(self.ends) for _ in self.lines]
        if ends and self.dice.chance(0.25):
            ends[-1] = self.dice.choice(["", "", "\r"])
        return "".join(line + end for line, end in zip(self.lines, ends))

    # ---- records -----------------------------------------------------------

    def put(self, name, *fields, soil=False):
        """Adds a record; a field that is a list is written as one. It is soiled before if asked, or now and then."""
        if name in CALLS and not self.calling:
            return
        fields = list(fields)
        while soil or self.dice.chance(self.dirt):
            name, fields = dirt.soiled(self.dice, name, fields)
            soil = False
        self.lines.append(self.written(name, fields))
        if self.dice.chance(self.clutter):
            self.lines.append(self.dice.choice(dirt.CLUTTER))

    def written(self, name, fields):
        texts = [";".join(map(self.padded, field)) if isinstance(field, list) else field for field in fields]
        return ",".join(map(self.padded, [name] + texts))

    def padded(self, text):
        """With blanks around it, which do not count."""
        before, after = (self.dice.choice(BLANKS) if self.dice.chance(self.blanks) else "" for _ in range(2))
        return f"{before}{text}{after}"

    # ---- the opening -------------------------------------------------------

    def open(self, crowded, refused):
        """Parties, intervals and curves."""
        dice = self.dice
        flaws = dice.sample(OPENING_FLAWS, dice.choice([1, 1, 1, 2, 3])) if refused else []
        if dice.chance(0.3):
            # A call that is malformed opens nothing.
            calls = [("balance", "NOBODY"), ("energy", "Emr"), ("void", "EMR", "1", ""), ("settle",)]
            self.put(*dice.choice(calls))
        self.enrol(MAX_PARTIES if crowded else dice.choice([1, 2, 3, 3, 3, 4, 5, 8, 20, 63, 64]), flaws)

        size = MAX_INTERVALS if crowded else dice.choice([1, 2, 3, 4, 24, 96, 99, 100])
        if "size" in flaws:
            size = dice.choice([0, 101, 101, U32_MAX, None])
        if size is not None:
            if dice.chance(0.1):
                self.put("intervals", dice.choice([0, 5, 101]))
            self.put("intervals", size)
        self.intervals = clamp(size or 1, (1, MAX_INTERVALS))

        self.submit(200 if crowded else dice.choice([0, 2, 5, 12, 12, 20]), flaws)

    def enrol(self, count, flaws):
        """Parties, in the order of their codes, of which some begin others."""
        dice = self.dice
        if "parties" in flaws:
            count = dice.choice([0, 65, 65, 100])
        letters = dice.choice(["AB", "ABCDEFGHIJKLMNOPQRSTUVWXYZ0123456789", "0123456789"])
        codes = set()
        while len(codes) < count:
            codes.add("".join(dice.choice(letters) for _ in range(dice.randint(1, 8))))
        self.codes = sorted(codes)
        if self.codes and "code" in flaws:
            self.codes[dice.randrange(count)] = dice.choice(dirt.CODES)
        if self.codes and "order" in flaws:
            place = dice.randrange(count)
            self.codes.insert(place, self.codes[dice.choice([place, -1])])
        for code in self.codes:
            self.put("party", code)

    def submit(self, count, flaws):
        """Curves for some of the day's resources, most of them good."""
        dice = self.dice
        numbers = [1, 2, 9_998, 9_999] + dice.sample(range(3, 9_998), dice.choice([1, 4, 12, 60]))
        self.resources = sorted(dice.sample(numbers, dice.randint(1, len(numbers))))
        hours = sorted(dice.sample(range(1, 26), dice.choice([1, 2, 5])))
        keys = [(resource, hour) for resource in self.resources for hour in hours]
        keys = sorted(dice.sample(keys, min(count, len(keys))))
        if "curves" in flaws or dice.chance(0.003):
            # As many as there may be, or one more.
            keys = [(resource, hour) for resource in range(1, 165) for hour in range(1, 26)]
            keys = keys[: MAX_CURVES + ("curves" in flaws)]
        for key in keys:
            self.curves[key] = Curve(dice)
            if dice.chance(0.2):
                self.curves[key].spoil(dice)

        records = list(self.curves.items())
        if records and "key" in flaws:
            key = dice.choice([(0, 1), (1, 0), (dice.beyond(RESOURCE), 7), (9_999, dice.beyond(HOUR))])
            records.insert(dice.randrange(len(records) + 1), (key, Curve(dice)))
        if records and "order of keys" in flaws:
            records.insert(dice.randrange(len(records)), dice.choice(records))
        for (resource, hour), curve in records:
            self.put("curve", resource, hour, curve.lsl, curve.hsl, curve.points())
            if dice.chance(0.02):
                self.listed_row(resource, dice.within(AMOUNT))

    # ---- scenes of the sources ---------------------------------------------

    def scene(self):
        scenes = {
            self.emr_scene: 12, self.bad_curve_scene: 3, self.opl_scene: 6, self.listed_scene: 3, self.site_scene: 5,
            self.total_scene: 3, self.no_load_scene: 2, self.lines_scene: 1, self.layer_scene: 4,
            self.full_table_scene: 1, self.restate_scene: 4, self.quarter_scene: 3, self.look_scene: 4,
            self.late_scene: 1, self.stray_scene: 2,
        }
        self.dice.choices(list(scenes), list(scenes.values()))[0]()

    def emr_scene(self):
        """Emergency rows, settled; in some tables one row is not good."""
        dice = self.dice
        if dice.chance(0.9):
            self.clear("emr")
        if dice.chance(0.4):
            self.quarter_scene()
        flaw = dice.choice([None] * 9 + ["field"] * 3 + ["curve", "order", "party"])
        # One hour for each resource that has a good curve.
        good = [key for key, curve in self.curves.items() if curve.good]
        hours = dict(dice.sample(good, len(good)))
        keys = sorted(dice.sample(sorted(hours.items()), min(len(hours), dice.choice([1, 2, 5, 40]))))
        if flaw == "curve" or not keys:
            # A key that seldom has a curve.
            keys = sorted(set(keys + [(dice.choice(self.resources), dice.within(HOUR))]))
        if flaw == "order":
            keys.insert(0, dice.choice(keys))
        wrong = dice.randrange(len(keys))
        for place, key in enumerate(keys):
            self.emr_row(key, flaw if place == wrong else None)
        self.settle("emr", "EMR", good=flaw is None)
        if dice.chance(0.4):
            self.put("energy", "emr")

    def bad_curve_scene(self):
        """Rows on curves that their checks refuse, each in a table of its own."""
        dice = self.dice
        bad = [key for key, curve in self.curves.items() if not curve.good]
        for key in dice.sample(bad, min(len(bad), 4)):
            self.clear("emr")
            self.emr_row(key)
            self.settle("emr", "EMR", good=False)

    def emr_row(self, key, flaw=None):
        dice = self.dice
        curve = self.curves.get(key) or Curve(dice)
        powers = [self.base_point(curve) for _ in self.quarter]
        price = dice.choice(curve.prices or [0])
        row = {
            "resource": (key[0], RESOURCE),
            # Mostly somewhat below what the curve asks, so that something is paid.
            "price": (clamp(price - dice.choice([0, 1, -1, 700, 700, 30_000]), PRICE), PRICE),
            "generation": (self.metered(powers, GENERATION), GENERATION),
            "charging": (self.metered(powers, CHARGING), CHARGING),
            "base points": (powers, POWER),
            "hour": (key[1], HOUR),
            "cap": (dice.choice([900_000, 900_000, dice.within(CAP), clamp(price, CAP)]), CAP),
        }
        if dice.chance(0.3):
            row["price"] = dice.within(PRICE), PRICE
        if flaw == "field":
            field = dice.choice(list(row))
            value, limits = row[field]
            if field == "base points":
                value[dice.randrange(len(value))] = dice.beyond(limits)
            else:
                row[field] = dice.beyond(limits), limits
        self.emr_quarter = self.emr_quarter or self.quarter
        self.put("emr", self.party(flaw == "party"), *(value for value, _ in row.values()))

    def base_point(self, curve):
        """At a point of the curve, around it, or anywhere."""
        dice = self.dice
        if dice.chance(0.1):
            return dice.within(POWER)
        aside = dice.choice([0, 0, 1, -1, -500, -1_000, dice.randint(-90_000, 90_000)])
        return clamp(dice.choice(curve.marks()) + aside, POWER)

    def metered(self, powers, limits):
        """What was generated or charged: around what was instructed, or anywhere."""
        sign = 1 if limits is GENERATION else -1
        told = sum(power * seconds for power, seconds in zip(powers, self.quarter) if sign * power > 0) // 3_600
        return self.dice.choice([clamp(told + self.dice.randint(-1, 2), limits), self.dice.within(limits)])

    def opl_scene(self):
        """Operating losses, settled; in some tables one row is not good."""
        dice = self.dice
        if dice.chance(0.9):
            self.clear("opl")
        flaw = dice.choice([None] * 4 + ["field"] * 3 + ["order", "party"])
        resources = self.rising_resources(dice.choice([1, 2, 5, 20]), flaw)
        wrong = dice.randrange(len(resources))
        for place, resource in enumerate(resources):
            self.opl_row(resource, flaw if place == wrong else None)
        self.settle("opl", "OPL", good=flaw is None)
        if dice.chance(0.4):
            self.put("energy", "opl")

    def opl_row(self, resource, flaw=None):
        dice = self.dice
        kind = dice.choice(list(LOSS_UNUSED))
        row = {field: dice.within(limits) for field, limits in LOSS_LIMITS.items()}
        row["resource"] = resource
        if dice.chance(0.6):
            row["heat rate"], row["fuel price"] = dice.choice([(9_500, 30_000), (10_001, 19_999), (1_500, 333)])
        # Mostly the price is the cap or above and the cost above the price.
        cost = row["charging cost"] if kind == "storage" else row["heat rate"] * row["fuel price"] // 1_000
        if dice.chance(0.6):
            row["cap"] = clamp(cost + dice.choice([-30_000, -1, 0, 1, row["own o&m"]]), CAP)
        row["price"] = clamp(row["cap"] + dice.choice([0, 0, 1, 500, -1]), PRICE)
        if dice.chance(0.5):
            row["burned"] = clamp(row["generation"] * row["heat rate"] // 1_000 + dice.randint(-9, 9), BURNED)
        for field in LOSS_UNUSED[kind]:
            row[field] = dice.choice(["", "", 0, row[field]])
        if flaw == "field":
            # A field that is not used may be beyond its limits, too.
            field = dice.choice([field for field in row if field not in LOSS_UNUSED[kind] or dice.chance(0.3)])
            row[field] = dice.beyond(LOSS_LIMITS[field])
        self.put("opl", self.party(flaw == "party"), kind, *row.values(), *dice.choices(["yes", "no"], [5, 1], k=2))

    def listed_scene(self):
        """Listed amounts, settled; in some tables one row is not good."""
        dice = self.dice
        if dice.chance(0.8):
            self.clear("listed")
        flaw = dice.choice([None, None, None, "resource", "amount", "order", "party"])
        resources = self.rising_resources(dice.choice([1, 2, 3, 8]), flaw)
        wrong = dice.randrange(len(resources))
        for place, resource in enumerate(resources):
            here = flaw if place == wrong else None
            amount = dice.choice([dice.within(AMOUNT), dice.randint(-100_000, 10_000)])
            resource = dice.beyond(RESOURCE) if here == "resource" else resource
            amount = dice.beyond(AMOUNT) if here == "amount" else amount
            self.put("listed", self.party(here == "party"), resource, amount)
        self.settle("listed", dice.choice(TYPES), good=flaw is None)

    def rising_resources(self, count, flaw):
        resources = sorted(self.dice.sample(range(1, 10_000), count))
        if flaw == "order":
            resources.append(resources[-1] - self.dice.choice([0, 1]))
        return resources

    def listed_row(self, resource, amount):
        self.put("listed", self.party(), resource, amount)

    def site_scene(self):
        """Sites into the listed table, settled."""
        dice = self.dice
        if dice.chance(0.8):
            self.clear("listed")
        resource = 0
        for _ in range(dice.choice([1, 1, 2, 4])):
            if dice.chance(0.3):
                self.quarter_scene()
            resource = self.site(resource)
        self.settle("listed", "SOG")

    def site(self, last_resource):
        """The parts of a site, then the site; answers its last resource."""
        dice = self.dice
        flaw = dice.choice([None] * 8 + ["counts", "value", "value", "readings"])
        buses, units = dice.choice([1, 1, 2, 3, 8]), dice.choice([1, 2, 2, 3, 8])
        if flaw == "counts":
            buses, units = dice.choice([(0, units), (9, units), (buses, 0), (buses, 9), (0, 0), (9, 9)])
        energies = [dice.choice([dice.within(ENERGY), dice.randint(1, 3_000)]) for _ in range(buses)]
        if energies and dice.chance(0.15):
            # A sum around 0.
            energies[-1] = clamp(dice.choice([0, 1, -1]) - sum(energies[:-1]), ENERGY)
        prices = [[self.bus_price() for _ in self.quarter] for _ in energies]
        adders = [[dice.within(ADDER) for _ in self.quarter] for _ in range(2)]
        readings = [0 if flaw == "readings" else dice.within(READING) for _ in range(units)]
        step = dice.randint(1, 20)
        resources = [min(last_resource + step * place, 9_999) for place in range(1, units + 1)]
        if flaw == "value":
            values, limits = dice.choice([
                (energies, ENERGY), (dice.choice(prices), PRICE), (dice.choice(adders), ADDER), (readings, READING),
                (resources, RESOURCE),
            ])
            values[dice.randrange(len(values))] = dice.beyond(limits)

        parts = [("bus", energy, of_bus) for energy, of_bus in zip(energies, prices)]
        parts += [("unit", self.party(), resource, reading) for resource, reading in zip(resources, readings)]
        parts += [("adders", *adders)] * dice.choice([0, 1, 1, 2])
        if dice.chance(0.3):
            dice.shuffle(parts)
        for part in parts:
            self.put(*part)
            if dice.chance(0.02):
                # The part after this may lie under other slices.
                self.quarter_scene()
        self.put("site", dice.choice(RULES))
        return last_resource + step * units

    def bus_price(self):
        return self.dice.choice([self.dice.within(PRICE), self.dice.randint(-30_000, 9_000)])

    def total_scene(self):
        """Amounts that add up to the greatest total, or to one more."""
        dice = self.dice
        self.clear("listed")
        total, most = MAX_TOTAL + dice.choice([0, 0, -1, 1, 1, 250_000_000]), AMOUNT[1]
        amounts = dice.choice([[most], [1, most], [most, most], [total // 4] * 3])
        amounts.insert(dice.randrange(2), total - sum(amounts))
        sign = dice.choice([1, -1])
        resource = dice.randint(1, 90)
        for amount in amounts:
            self.listed_row(resource, sign * amount)
            resource += dice.randint(1, 9)
        self.settle("listed", dice.choice(TYPES), good=total <= MAX_TOTAL)

    def no_load_scene(self):
        """No load, with a total that is 0 or not."""
        dice = self.dice
        self.clear("listed")
        amounts = dice.choice([[], [0], [5, -5], list(AMOUNT), [1], [-1], [5, -4], [AMOUNT[0]]])
        for resource, amount in enumerate(amounts, 1):
            self.listed_row(resource, amount)
        self.settle("listed", dice.choice(TYPES), good=sum(amounts) == 0, loads=[0] * len(self.codes))

    def lines_scene(self):
        """As many lines as a call takes, or more."""
        dice = self.dice
        count = dice.choice([MAX_LINES - 1, MAX_LINES, MAX_LINES, MAX_LINES + 1, MAX_LINES + 1, 300])
        source = dice.choice(SOURCES)
        self.clear(source)
        for resource in sorted(dice.sample(range(1, 10_000), count)):
            if source == "listed":
                self.listed_row(resource, dice.randint(-9_000_000, 9_000_000))
            elif source == "opl":
                self.opl_row(resource)
            else:
                self.emr_row((resource, dice.within(HOUR)))
        self.settle(source, dice.choice(TYPES), good=count <= MAX_LINES)
        self.put("energy", source)
        self.clear(source)

    # ---- scenes of the layers ----------------------------------------------

    def layer_scene(self):
        """A few settings of the layers, and what they make of a source."""
        dice = self.dice
        for _ in range(dice.randint(1, 5)):
            self.setting()
        source = dice.choice(SOURCES)
        if dice.chance(0.4):
            # An amount that the adjustment takes to the end of what is allowed, or over it.
            source = "listed"
            self.clear(source)
            resource, figure = dice.randint(1, 9_000), dice.choice([1, 2, 1_000_000_000, -1, -1_000_000_000])
            end = AMOUNT[0] if figure > 0 else AMOUNT[1]
            self.adjust(resource, figure)
            self.listed_row(resource, clamp(end + figure + dice.choice([0, 1, -1]), AMOUNT))
            self.listed_row(resource + 1, dice.randint(-50_000, 50_000))
            if dice.chance(0.3):
                self.put("deny", resource)
        self.settle(source, dice.choice(TYPES))
        if dice.chance(0.5):
            self.put("energy", source)
        if dice.chance(0.7):
            self.put("period", "open")
            for resource in self.adjusted:
                self.put("unadjust", resource)
            self.adjusted = []

    def setting(self):
        """One setting of a layer, mostly of a resource that rows may name."""
        dice = self.dice
        resource = dice.beyond(RESOURCE) if dice.chance(0.15) else dice.choice(self.resources + [1, 2, 3, 9_999])
        kind = dice.choice(["period", "deny", "undeny", "unadjust", "adjust", "adjust"])
        if kind == "period":
            self.put("period", dice.choice(["open", "open", "closed"]))
        elif kind == "adjust":
            figure = dice.choice([dice.within(FIGURE), dice.randint(-9_000, 9_000)])
            self.adjust(resource, dice.beyond(FIGURE) if dice.chance(0.1) else figure)
        else:
            self.put(kind, resource)

    def adjust(self, resource, figure):
        self.put("adjust", resource, figure)
        self.adjusted.append(resource)

    def full_table_scene(self):
        """Fills the table of a layer, goes on, frees some of it and goes on."""
        dice = self.dice
        layer = dice.choice(["deny", "adjust"])

        def put(resource):
            self.put(layer, resource, *([dice.randint(-5_000, 5_000)] if layer == "adjust" else []))

        numbers = dice.sample(range(1, 10_000), MAX_HELD + 4)
        for resource in numbers[: dice.choice([MAX_HELD, MAX_HELD + 1])]:
            put(resource)
        put(dice.choice(numbers[:MAX_HELD]))
        put(numbers[-1])
        put(10_000)
        self.put(f"un{layer}", numbers[-2])
        self.put(f"un{layer}", dice.choice(numbers[:MAX_HELD]))
        put(numbers[-3])
        put(numbers[-4])
        self.settle(dice.choice(SOURCES), dice.choice(TYPES))
        if dice.chance(0.8):
            for resource in numbers:
                self.put(f"un{layer}", resource)

    # ---- other scenes ------------------------------------------------------

    def restate_scene(self):
        """A slot through its states, looked at on the way."""
        dice = self.dice
        slot = dice.choice(TYPES), dice.randint(1, self.intervals)
        self.clear("listed")
        for resource in range(1, dice.randint(1, 4)):
            self.listed_row(resource, dice.randint(-50_000, 50_000))
        for _ in range(dice.randint(2, 6)):
            call = dice.choice(["settle", "settle", "restate", "void"])
            if call == "void":
                self.void(slot)
            else:
                self.put(call, *slot, "listed", dice.choice(RULES), self.loads())
                self.standing.add(slot)
            if dice.chance(0.5):
                self.put("entry", *slot, self.party())
            if dice.chance(0.4):
                self.put("balance", self.party())
            if dice.chance(0.4):
                self.listed_row(dice.randint(4, 9_999), dice.randint(-900, 900))

    def quarter_scene(self):
        """Other slices, the same once more, or what are none."""
        dice = self.dice
        if dice.chance(0.2):
            self.put("quarter", dice.bad_slices())
            return
        if dice.chance(0.6):
            self.quarter = dice.slices()
        elif dice.chance(0.5):
            self.quarter = self.emr_quarter or [900]
        self.put("quarter", self.quarter)

    def look_scene(self):
        """Balances, entries and energies, some of a wrong slot or party."""
        dice = self.dice
        for _ in range(dice.randint(1, 6)):
            call = dice.choice(["balance", "entry", "entry", "energy", "void"])
            if call == "balance":
                self.put("balance", self.party(wrong=dice.chance(0.1)))
            elif call == "entry":
                self.put("entry", *self.slot(), self.party(wrong=dice.chance(0.1)))
            elif call == "energy":
                self.put("energy", dice.choice(SOURCES))
            elif dice.chance(0.3):
                self.void(self.slot())

    def late_scene(self):
        """What may not come after the first call."""
        late = [("party", "LATE"), ("intervals", 4), ("curve", 5, 5, 0, 9, [1, 2])]
        self.put(*self.dice.choice(late))

    def stray_scene(self):
        """A record of any kind, without the others that belong to it, often soiled."""
        dice = self.dice
        party, slot, loads, slices = self.party(), self.slot(), self.loads(), len(self.quarter)
        records = [
            ("emr", party, 7, 3_000, 1, -1, [5] * slices, 9, 900_000),
            ("opl", party, "verified", 7, 900, 400, 9_000, 3_000, "", 250, "", 4_000, 900, "yes", "no"),
            ("opl", party, "proxy", 7, 900, 400, 9_000, 3_000, "", "", 3, 4_000, 900, "yes", "yes"),
            ("opl", party, "storage", 7, 900, 400, "", "", 4_000, "", 12, "", 900, "yes", "yes"),
            ("listed", party, 7, -50),
            ("clear", "opl"),
            ("quarter", [900]),
            ("bus", 40, [3_000] * slices),
            ("adders", [1] * slices, [2] * slices),
            ("unit", party, 4, 100),
            ("site", "leftover"),
            ("period", "open"),
            ("deny", 9),
            ("undeny", 9),
            ("adjust", 9, 40),
            ("unadjust", 9),
            ("settle", *slot, "opl", "leftover", loads),
            ("restate", *slot, "listed", "running", loads),
            ("void", *slot),
            ("balance", party),
            ("entry", *slot, party),
            ("energy", "listed"),
            ("party", "STRAY"),
            ("intervals", 3),
            ("curve", 3, 3, 0, 9, [1, 2, 3, 4]),
        ]
        self.put(*dice.choice(records), soil=dice.chance(0.6))

    # ---- pieces ------------------------------------------------------------

    def clear(self, source):
        self.put("clear", source)
        if source == "emr":
            self.emr_quarter = None

    def party(self, wrong=False):
        """A party, mostly by its code; or a number that is no party's."""
        dice = self.dice
        if wrong:
            beyond = len(self.codes) + 1
            return dice.choice(["#0", f"#{beyond}", f"#0{beyond}", "#65", f"#{U32_MAX}"])
        if not self.codes:
            return dice.choice(["#1", "NOBODY"])
        place = dice.randrange(len(self.codes))
        return self.codes[place] if dice.chance(0.9) else f"#{place + 1}"

    def slot(self):
        """A charge type and an interval, often one that stands, seldom outside the book."""
        dice = self.dice
        if self.standing and dice.chance(0.5):
            return dice.choice(sorted(self.standing))
        kind = dice.choice(TYPES * 4 + ["#1", "#2", "#03"])
        interval = dice.choice([1, self.intervals, dice.randint(1, self.intervals), dice.randint(1, self.intervals)])
        if dice.chance(0.06):
            kind = dice.choice(["#0", "#4", f"#{U32_MAX}", "#004"])
        if dice.chance(0.06):
            interval = dice.choice([0, self.intervals + 1, U32_MAX])
        return kind, interval

    def loads(self):
        """One load for each party, now and then not."""
        dice = self.dice
        count = len(self.codes)
        one = dice.randrange(count + 1)
        loads = dice.choice([
            [dice.within(LOAD) for _ in range(count)],
            [dice.randint(0, 9_000) for _ in range(count)],
            [dice.randint(0, 2) for _ in range(count)],
            [dice.within(LOAD) if place == one else 0 for place in range(count)],
            [LOAD[1]] * count,
            [7] * count,
        ])
        if loads and dice.chance(0.05):
            loads[dice.randrange(count)] = dice.beyond(LOAD)
        if dice.chance(0.04):
            loads = dice.choice([loads + [1], loads[1:], []])
        return loads

    def settle(self, source, kind, good=True, loads=None):
        """Settles the source, or restates with it, mostly as the slot's state asks; good: not meant to be refused."""
        dice = self.dice
        slot = self.slot()
        if dice.chance(0.8):
            slot = kind, slot[1]
        call = "restate" if slot in self.standing else "settle"
        if dice.chance(0.06):
            call = dice.choice(["settle", "restate"])
        self.put(call, *slot, source, dice.choice(RULES), self.loads() if loads is None else loads)
        if good:
            self.standing.add(slot)

    def void(self, slot):
        self.put("void", *slot)
        self.standing.discard(slot)


def day(seed):
    """The day of a seed, as bytes."""
    return Day(seed).text().encode("latin-1")


def main():
    if len(sys.argv) != 2:
        sys.exit("usage: random_days.py SEED")
    sys.stdout.buffer.write(day(int(sys.argv[1])))


if __name__ == "__main__":
    main()
