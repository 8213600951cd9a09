"""What random days are drawn with: the limits of what a record may say, dice that lean to the edges, and curves."""

import random

U32_MAX = 2**32 - 1
I64_MIN, I64_MAX = -(2**63), 2**63 - 1

RESOURCE = (1, 9_999)
HOUR = (1, 25)
POWER = (-2_000_000, 2_000_000)
OFFER = (-25_000, 1_000_000)
PRICE = (-100_000, 1_000_000)
GENERATION = (0, 500_000)
CHARGING = (-500_000, 0)
CAP = (0, 1_000_000)
HEAT_RATE = (1_000, 50_000)
FUEL_PRICE = (0, 100_000)
CHARGING_COST = (0, 1_000_000)
OWN_OM = (0, 10_000)
CATEGORY = (1, 12)
BURNED = (0, 1_000_000_000)
AMOUNT = (-3_000_000_000, 3_000_000_000)
FIGURE = (-1_000_000_000, 1_000_000_000)
LOAD = (0, 20_000_000)
ENERGY = (-10_000, 10_000)
ADDER = (0, 1_000_000)
READING = (0, 500_000)
MAX_TOTAL = 5_000_000_000
MAX_PARTIES, MAX_INTERVALS, MAX_CURVES, MAX_LINES, MAX_HELD = 64, 100, 4_096, 256, 32
# Fields that take no sign.
NATURAL = [RESOURCE, HOUR, CATEGORY]


def clamp(number, limits):
    return max(limits[0], min(limits[1], number))


class Dice(random.Random):
    """Draws that lean to the edges of what is allowed."""

    def chance(self, probability):
        return self.random() < probability

    def within(self, limits):
        """A number within the limits."""
        low, high = limits
        kind = self.randrange(8)
        if kind == 0:
            return self.choice([low, high])
        if kind == 1:
            return clamp(self.choice([low + 1, high - 1, -1, 0, 1]), limits)
        if kind == 2:
            return clamp(self.randint(-200, 200), limits)
        if kind == 3:
            return clamp(1_000 * self.randint(-100, 100), limits)
        return self.randint(low, high)

    def beyond(self, limits):
        """A number beyond the limits, mostly by one, that the field can still hold."""
        low, high = limits
        if limits in NATURAL:
            return self.choice([low - 1, high + 1, high + 1, U32_MAX])
        return self.choice([low - 1, high + 1] * 3 + [10 * low - 9, 10 * high + 9, I64_MIN, I64_MAX])

    def rising(self, count, limits):
        """Numbers that rise strictly, now close to each other, now far apart."""
        low, high = limits
        step = self.choice([1, 2, 50, 2_000, 20_000, 60_000, high - low])
        step = max(1, min(step, (high - low) // count))
        last = high - step * count
        middle = clamp(-step * count // 2, (low, last))
        numbers = [self.choice([middle, middle, self.randint(low, last), low])]
        while len(numbers) < count:
            numbers.append(numbers[-1] + self.randint(1, step))
        return numbers

    def slices(self):
        """The slices of a quarter hour."""
        if self.chance(0.4):
            usual = [[900], [450, 450], [300, 600], [600, 300], [300] * 3, [60] * 15, [1, 899], [899, 1]]
            return self.choice(usual)
        cuts = sorted(self.sample(range(1, 900), self.randrange(15)))
        return [after - before for before, after in zip([0] + cuts, cuts + [900])]

    def bad_slices(self):
        """Numbers that are not the slices of a quarter hour, though some add up to 900 or wrap around to it."""
        good = self.slices()
        wrapping = [U32_MAX // 2 + 1] * 2 + [900]
        spoilt = [good + [1], good + [0], good[:-1], good[:-1] + [good[-1] + 1], good[:-1] + [good[-1] - 1]]
        sixteen = [[60] * 16, [56] * 15 + [60], [1] * 15 + [885]]
        plain = [[], [0], [899], [901], [0, 900], [900, 0], [450, 451], [1] * 15, [U32_MAX], [U32_MAX, 901]]
        return self.choice(plain + spoilt + sixteen + [wrapping])


class Curve:
    """A submitted curve; good as long as it passes its checks."""

    # How far a limit may lie from the end of the points: around the 1,000 kW where another point is completed.
    ROOM = [0, 1, 999, 1_000, 1_001, 5_000, 400_000]

    def __init__(self, dice):
        count = dice.choice([1, 1, 2, 2, 3, 4, 6, 9, 10])
        self.powers = dice.rising(count, POWER)
        self.prices = sorted(dice.within(OFFER) for _ in range(count))
        self.lsl = clamp(self.powers[0] - dice.choice(self.ROOM), POWER)
        self.hsl = clamp(self.powers[-1] + dice.choice(self.ROOM), POWER)
        if dice.chance(0.15):
            # The limits may also lie between the points, or beyond all of them.
            low = clamp(self.powers[0] + dice.choice(self.ROOM), POWER)
            self.lsl, self.hsl = sorted([low, dice.choice([self.hsl, dice.within(POWER)])])
        self.good = True

    def points(self):
        return [number for point in zip(self.powers, self.prices) for number in point]

    def marks(self):
        """Powers at which a reading may turn."""
        return [power for power in self.powers + [self.lsl, self.hsl, 0] if clamp(power, POWER) == power]

    def spoil(self, dice):
        """Makes it a curve that its checks refuse."""
        self.good = False
        place = dice.randrange(len(self.powers))
        flaw = dice.choice(["count", "power", "order of powers", "price", "order of prices", "limit", "limits"])
        if flaw == "count":
            count = dice.choice([0, 11, 11, 12, 20])
            self.powers, self.prices = list(range(count)), [5] * count
        elif flaw == "power":
            self.powers[place] = dice.beyond(POWER)
        elif flaw == "order of powers":
            self.powers.insert(place, self.powers[place] + dice.choice([0, 0, 1, 5_000]))
            self.prices.insert(place, self.prices[place])
        elif flaw == "price":
            self.prices[place] = dice.beyond(OFFER)
        elif flaw == "order of prices":
            self.powers = [-4_000, 7_000]
            self.prices = dice.choice([[1, 0], [-24_999, -25_000], [1_000_000, 999_999]])
        elif flaw == "limit":
            self.lsl, self.hsl = dice.choice([(dice.beyond(POWER), self.hsl), (self.lsl, dice.beyond(POWER))])
        else:
            self.lsl, self.hsl = dice.choice([(self.hsl + 1, self.hsl), (POWER[1], POWER[0])])
