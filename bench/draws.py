"""Scripts of mixed lines: the requests that `regtool make` draws, each written as a line, and lines of all other kinds among them."""
COUNTRIES = (b"00", b"US", b"GB")
# What `make` doesn't draw: a line of each other kind, with the digit of a radio in place of `%d`. Some are refused, and some
# are faulty or ask nothing.
OTHERS = (
    b"iw dev ap%d set txpower fixed 1500\n",
    b"iw phy phy%d interface add mon%d type monitor\n",
    b"iw dev mon%d set channel 36 80MHz\n",
    b"indoor on\n",
    b"iw dev sta%d connect net 2437\n",
    b"iw phy phy%d info\n",
    b"iw dev ap%d cac trigger channel 52 HT40+\n",
    b"# nothing is asked of radio %d\n",
    b"iw dev ap%d set txpower auto\n",
    b"driver phy%d GB\n",
    b"iw dev sta%d disconnect\n",
    b"iw dev sta%d set type ibss\n",
    b"iw dev sta%d ibss join net 5180 HT20\n",
    b"iw dev sta%d info\n",
    b"indoor off\n",
    b"iw dev sta%d ibss leave\n",
    b"\n",
    b"iw dev sta%d set type mesh\n",
    b"iw dev sta%d mesh join net freq 5200 40 5190\n",
    b"iw reg get\n",
    b"iw dev ap%d set txpower limit 2000\n",
    b"iw dev sta%d mesh leave\n",
    b"iw dev sta%d set type managed\n",
    b"iw dev mon%d set freq 5180 NOHT\n",
    b"radio rules phy%d (5150 - 5350 @ 160), (20)\n",
    b"iw phy phy%d channels\n",
    b"iw dev mon%d del\n",
    b"iw dev ap%d ap start x\n",
)


class Draws:
    """The numbers of a linear congruential generator, which begins with the number of turns."""

    def __init__(self, number):
        self.number = number

    def below(self, bound):
        self.number = (self.number * 6364136223846793005 + 1442695040888963407) % 2 ** 64
        return self.number // 2 ** 33 % bound


def radio(number):
    """The lines that add a radio with an access point and a station."""
    return (b"radio add phy%d bands 2,5 width 160 radar 160 power 3000 contexts 8\n"
            b"iw phy phy%d interface add ap%d type __ap\n"
            b"iw phy phy%d interface add sta%d type managed\n" % (number, number, number, number, number))


def turn(draws, moment):
    """The line of a turn, and the moment behind it."""
    drawn = draws.below(10)
    if drawn < 3:
        moment += draws.below(100_000)
        return b"at %d\n" % moment, moment
    if drawn == 3:
        return b"iw reg set %s\n" % COUNTRIES[draws.below(3)], moment
    number = draws.below(8)
    if drawn == 9:
        return b"iw dev ap%d ap stop\n" % number, moment
    if drawn == 4:
        body = COUNTRIES[1 + draws.below(2)] + bytes([32, 36, 4, 23])
        return b"element phy%d %s\n" % (number, body.hex().encode()), moment
    mhz = 5180 + 20 * draws.below(8)
    if drawn == 5:
        return b"radar phy%d %d 20\n" % (number, mhz), moment
    if drawn < 8:
        return b"iw dev ap%d cac trigger freq %d 20\n" % (number, mhz), moment
    return b"iw dev ap%d ap start x %d 20 100 2\n" % (number, mhz), moment


def lines(turns):
    """The lines of the eight radios, and of so many turns."""
    yield from map(radio, range(8))
    draws = Draws(turns)
    moment = 0
    for _ in range(turns):
        line, moment = turn(draws, moment)
        yield line


def others():
    """Lines of the other kinds without end, of one radio after the other."""
    while True:
        for number in range(8):
            yield from (line.replace(b"%d", b"%d" % number) for line in OTHERS)


def mixed(turns):
    """The lines of the eight radios, and of so many turns, with a line of another kind behind every fourth one."""
    other = others()
    for number, line in enumerate(lines(turns)):
        yield line
        if number % 4 == 3:
            yield next(other)
