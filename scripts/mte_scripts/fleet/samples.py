"""Two groups of machines: means, intervals of their difference, and how many machines show a saving. The standard library has no distribution
of Student; it is computed here."""

import functools
import math
import statistics
from collections.abc import Sequence
from typing import NamedTuple

NORMAL = statistics.NormalDist()


def beta_part(at: float, first: float, second: float) -> float:
    """The regularized incomplete beta function, by its continued fraction (NIST's Digital Library of Mathematical Functions, 8.17.22)."""
    if at in (0, 1):
        return at
    if at > (first + 1) / (first + second + 2):
        return 1 - beta_part(1 - at, second, first)
    value, both = 0.0, first + second
    for term in range(200, -1, -1):
        odd = -(first + term) * (both + term) * at / ((first + 2 * term) * (first + 2 * term + 1))
        even = (term + 1) * (second - term - 1) * at / ((first + 2 * term + 1) * (first + 2 * term + 2))
        value = odd / (1 + even / (1 + value))
    scale = math.lgamma(both) - math.lgamma(first) - math.lgamma(second) + first * math.log(at) + second * math.log1p(-at)
    return math.exp(scale) / (first * (1 + value))


@functools.lru_cache(maxsize=None)
def student(share: float, freedom: float) -> float:
    """The quantile of Student's distribution with so many degrees of freedom, for a share between 0 and 1."""
    if share < 0.5:
        return -student(1 - share, freedom)
    low, high = 0.0, 1e6
    for _ in range(60):
        middle = (low + high) / 2
        is_below = beta_part(freedom / (freedom + middle**2), freedom / 2, 0.5) > 2 * (1 - share)
        low, high = (middle, high) if is_below else (low, middle)
    return high


class Group(NamedTuple):
    """How many machines, their mean, and the variance of one."""

    number: int
    mean: float
    variance: float


def group_of(values: Sequence[float]) -> Group:
    return Group(len(values), statistics.fmean(values), statistics.variance(values))


class Difference(NamedTuple):
    """By how much the mean of the second group is below that of the first, and the interval that has the true difference with the chance of
    the level."""

    mean: float
    low: float
    high: float

    def divide(self, amount: float) -> "Difference":
        """It as a share of an amount; of one below 0, that of the first group below the second."""
        low, high = sorted((self.low / amount, self.high / amount))
        return Difference(self.mean / amount, low, high)

    def percents(self) -> "dict[str, float]":
        """Of shares, as JSON has them."""
        return {name: 100 * value for name, value in self._asdict().items()}


def weigh_pairs(pairs: Sequence[tuple]) -> "list[tuple[float, Group, Group]]":
    """Pairs of groups, each with its share of all machines."""
    whole = sum(first.number + second.number for first, second in pairs)
    return [((first.number + second.number) / whole, first, second) for first, second in pairs]


def first_mean(pairs: Sequence[tuple]) -> float:
    """The mean of the first groups, each pair with its share of the machines."""
    return sum(share * first.mean for share, first, _ in weigh_pairs(pairs))


def difference(pairs: Sequence[tuple], level: float) -> Difference:
    """Of pairs of groups, each with its share of the machines, by Welch's test."""
    mean = variance = freedom = 0.0
    for share, first, second in weigh_pairs(pairs):
        mean += share * (first.mean - second.mean)
        for group in (first, second):
            own = share * share * group.variance / group.number
            variance += own
            freedom += own * own / (group.number - 1)
    if not variance:
        return Difference(mean, mean, mean)
    wide = student((1 + level) / 2, max(variance * variance / freedom, 4.0)) * math.sqrt(variance)
    return Difference(mean, mean - wide, mean + wide)


def adjust_for_covariate(groups: "dict[str, list[tuple]]") -> "dict[str, list[tuple]]":
    """Pairs of a machine's value and what is beside it, with the values as they would be if each machine had the same
    beside: less what grows with that, by the slope that the groups have in common."""
    apart = []
    for pairs in groups.values():
        own, other = map(statistics.fmean, zip(*pairs))
        apart += [(x - other, y - own) for y, x in pairs]
    width = sum(x * x for x, _ in apart)
    slope = sum(x * y for x, y in apart) / width if width else 0.0
    middle = statistics.fmean(x for pairs in groups.values() for _, x in pairs)
    return {name: [(y - slope * (x - middle), x) for y, x in pairs] for name, pairs in groups.items()}


def sample_size(saving: float, spread: float, level: float, power: float) -> int:
    """How many machines each group wants, so that with the chance POWER the interval of the level shows a saving. SAVING and the
    SPREAD, the standard deviation of one machine, are shares of the mean."""
    number = 2.0 * ((NORMAL.inv_cdf((1 + level) / 2) + NORMAL.inv_cdf(power)) * spread / saving) ** 2
    for _ in range(20):  # the quantiles of Student depend on the number
        number *= (detectable_saving(number, spread, level, power) / saving) ** 2
    return max(math.ceil(number - 1e-9), 5)


def detectable_saving(number: float, spread: float, level: float, power: float) -> float:
    """The saving, as a share of the mean, that so many machines in each group show with the chance POWER."""
    freedom = max(2.0 * number - 2, 4.0)
    return (student((1 + level) / 2, freedom) + student(power, freedom)) * spread * math.sqrt(2 / number)
