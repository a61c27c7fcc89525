"""Rule texts that the benchmarks share."""
import os

from timing import HOME


def codes():
    """The codes of countries."""
    return [b"%c%c" % (a, b) for a in range(65, 91) for b in range(65, 91)]


def rule(number):
    """A rule that differs from those of other numbers."""
    return b"\t(%d.%03d - 7125 @ 80), (23), NO-OUTDOOR, AUTO-BW\n" % (1 + number // 1000, number % 1000)


def distinct():
    """As many different rules as a database file can hold: 113 countries of 128 rules, and one of 54."""
    counts = [128] * 113 + [54]
    numbers = iter(range(sum(counts)))
    return b"".join(b"country %s: DFS-FCC\n%s" % (code, b"".join(rule(next(numbers)) for _ in range(count)))
                    for code, count in zip(codes(), counts))


# Rules of which each country of the text below has one of each line, with a power of its own.
BANDS = (
    b"\t(2402 - 2482 @ 40), (%d)\n",
    b"\t(5170 - 5250 @ 80), (%d), AUTO-BW\n",
    b"\t(5250 - 5330 @ 80), (%d), DFS, AUTO-BW\n",
    b"\t(5490 - 5730 @ 160), (%d), DFS\n",
    b"\t(5735 - 5835 @ 80), (%d)\n",
    b"\t(5945 - 6425 @ 160), (%d), NO-OUTDOOR\n",
)


def of_real_size():
    """As many countries and rules as wireless-regdb has, some 180 and 1,000: the example's three, and made ones."""
    with open(os.path.join(HOME, "examples", "country.txt"), "rb") as file:
        text = file.read()
    made = [code for code in codes() if code not in (b"GB", b"US")][:175]
    return text + b"".join(b"country %s: DFS-ETSI\n" % code + b"".join(band % (14 + (number // 11 + number * place) % 11) for place, band in enumerate(BANDS))
                           for number, code in enumerate(made))
