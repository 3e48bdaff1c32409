"""A sample of the orders of a spec: which ranks are drawn, and between which shares what was seen of them lies."""

from decimal import ROUND_CEILING, ROUND_FLOOR, Decimal, localcontext

WORD = 2**64
# The square of 1.96: of a normal distribution 95 percent lie within so many standard deviations.
SQUARE = Decimal("3.8416")
DIGITS = 60


def mixed(word):
    word = (word ^ (word >> 30)) * 0xBF58476D1CE4E5B9 % WORD
    word = (word ^ (word >> 27)) * 0x94D049BB133111EB % WORD
    return word ^ (word >> 31)


def drawn_ranks(seed, orders, bound):
    """Ranks below a bound, by the words of SplitMix64, in rising order."""
    return sorted(mixed((seed + 0x9E3779B97F4A7C15 * place) % WORD) % bound for place in range(1, orders + 1))


def interval(whole, part):
    """The ends of Wilson's interval by its closed form, as shares of a thousand. What is a whole number but for the last digits is that number."""
    with localcontext() as context:
        context.prec = DIGITS
        spread = (SQUARE * (Decimal(part * (whole - part)) / max(whole, 1) + SQUARE / 4)).sqrt()
        middle, below = part + SQUARE / 2, (whole + SQUARE) / 1000
        return [(end / below).quantize(Decimal(10) ** -30) for end in (middle - spread, middle + spread)]


def tenths_around(whole, part):
    """The last tenth of a percent below the interval, and the first one above it; none below 0 or above 1000."""
    low, high = interval(whole, part)
    return max(int(low.to_integral_value(ROUND_CEILING)) - 1, 0), min(int(high.to_integral_value(ROUND_FLOOR)) + 1, 1000)


def interval_text(whole, part):
    low, high = tenths_around(whole, part)
    return f"{low // 10}.{low % 10}-{high // 10}.{high % 10}%"
