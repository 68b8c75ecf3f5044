"""Numbers as Swiss readers write them."""

CENTIMES_IN_A_MILLION = 100_000_000


def swiss(number: float, decimals: int = 0) -> str:
    """With an apostrophe at each thousand, as 26'105'519'497."""
    text = f"{number:,.{decimals}f}" if decimals else f"{number:,}"
    return text.replace(",", "'")


def million_francs(centimes: int) -> str:
    """Centimes in million francs with three decimals, halves away from zero."""
    thousands = (abs(centimes) + 50_000) // 100_000
    sign = "-" if centimes < 0 and thousands else ""
    return f"{sign}{swiss(thousands // 1_000)}.{thousands % 1_000:03d}"


def francs(centimes: float) -> str:
    """Centimes in francs."""
    return swiss(centimes / 100, 2)


def percent(millionths: float) -> str:
    """Millionths in percent."""
    return f"{millionths / 10_000:.2f}"


def counted(number: int, one: str, many: str) -> str:
    """A number with its noun: 1 linked record, 2 linked records."""
    return f"{swiss(number)} {one if number == 1 else many}"
