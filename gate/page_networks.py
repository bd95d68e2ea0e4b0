"""Captures of PRP networks for pages: one with a dozen faults, one with 1024 sources, all of which have faults, a ring that loses frames, and
one that loses more than a page has room for."""
import random
import struct

from networks import SECOND, octets, tagged, write

GROUP = bytes.fromhex("010ccd010001")


class Sender:
    """A source by its address alone."""

    def __init__(self, number):
        self.mac = bytes.fromhex("0200005e") + struct.pack(">H", number)


def copies(rng, sender, number, time, skew, spread, make=octets):
    """A frame at both LANs: the time and the octets of each copy."""
    frame = {"number": number % 65536}
    late = skew + int(rng.gauss(0, spread))
    return [(time, make(sender, frame, 0)), (max(0, time + late), make(sender, frame, 1))]


def steady(rng, sender, period, end, first=0, skew=15_000, spread=2_000, make=octets):
    """The copies of all frames of a source that sends one each period."""
    start = rng.randrange(period) + SECOND // 10
    return [copies(rng, sender, first + at, start + at * period, skew, spread, make) for at in range((end - start) // period)]


def without(frames, lan, some):
    """Frames of which a LAN, or both where it is None, lost those that are told by their places."""
    kept = []
    for at, pair in enumerate(frames):
        if some(at, next((copy[0] for copy in pair if copy), 0)):
            pair = [None if lan in (None, side) else copy for side, copy in enumerate(pair)]
        kept.append(pair)
    return kept


def put(folder, sources):
    """Writes the captures of both LANs. The answer is their paths."""
    paths = []
    for side, name in enumerate("ab"):
        packets = sorted((pair[side] for frames in sources for pair in frames if pair[side]), key=lambda it: it[0])
        paths.append(str(folder / f"{name}.pcap"))
        write(paths[-1], packets)
    return ["--a", paths[0], "--b", paths[1]]


def dozen(folder):
    """12 sources in 60 s: losses alone, in rows and on both LANs, at once and of one source, copies by the wrong LAN, repeated ones, late ones, a
    skew that steps, a port that dies, a restart, and a source that stays sound."""
    rng, end = random.Random(1), 60 * SECOND
    periods = [4, 5, 8, 10, 10, 20, 20, 50, 50, 100, 250, 500]
    sources = [steady(rng, Sender(at + 1), ms * SECOND // 1000, end, skew=15_000 + 3_000 * at) for at, ms in enumerate(periods)]
    sources[0] = without(sources[0], 1, lambda at, time: at % 97 == 5)
    sources[0] = without(sources[0], None, lambda at, time: at in (3000, 7001, 7002))
    sources[1] = without(sources[1], 1, lambda at, time: time > 45 * SECOND)
    sources[2] = without(sources[2], 0, lambda at, time: 20 * SECOND < time < 30 * SECOND)
    for at in range(3, 8):
        sources[at] = without(sources[at], 0, lambda at, time: 31 * SECOND < time < 32 * SECOND)
    sources[3] = [[a, b and (b[0] + (33_000 if b[0] > 40 * SECOND else 0), b[1])] for a, b in sources[3]]
    sources[4] = [[a, b and (b[0] + (4_400_000 if at == 1234 else 0), b[1])] for at, (a, b) in enumerate(sources[4])]
    sources[5] = [[a and (a[0], a[1][:-4] + bytes([a[1][-4] ^ 0x10]) + a[1][-3:]) if at in (100, 101, 2000) else a, b] for at, (a, b) in enumerate(sources[5])]
    sources[6] = sources[6] + [[a and (a[0] + 30_000, a[1]), None] for a, _ in sources[6][500:502]]
    sources[8] = [[a, b and (b[0] + 450_000_000 * (at == 700), b[1])] for at, (a, b) in enumerate(sources[8])]
    sources[9] = [pair for pair in sources[9] if pair[0][0] < 30 * SECOND] + steady(rng, Sender(10), SECOND // 10, 28 * SECOND, first=40_000)
    sources[9] = [[copy and (copy[0] + (32 * SECOND if at >= 299 else 0), copy[1]) for copy in pair] for at, pair in enumerate(sources[9])]
    return put(folder, sources)


def many(folder):
    """1024 sources in 20 s, all with long names, of which 64 lose frames on A in each second column of the page and on B in the others, and the
    rest each fourth frame on A and on B, and each some on both: the largest page."""
    rng, end = random.Random(2), 20 * SECOND
    column = end // 500
    sources = []
    for at in range(1024):
        period = SECOND // 100 if at < 64 else SECOND // 2
        frames = steady(rng, Sender(at + 1), period, end, spread=200_000)
        if at < 64:
            frames = without(frames, 0, lambda number, time: number % 2 and time // column % 2)
            frames = without(frames, 1, lambda number, time: number % 2 and not time // column % 2)
        else:
            frames = without(frames, 0, lambda number, time: number % 4 == 1)
            frames = without(frames, 1, lambda number, time: number % 4 == 3)
        sources.append(without(frames, None, lambda number, time: number % 50 == 20))
    names = folder / "names"
    names.write_text("".join(f"{Sender(at + 1).mac.hex(':')} merging unit of the bay number {at:05d}\n" for at in range(1024)))
    return [*put(folder, sources), "--names", str(names)]


def ring(folder):
    """A ring of 5 nodes, whose two ways are recorded at a link, which loses frames of each way, and some of both."""
    rng, end = random.Random(3), 30 * SECOND
    sources = [steady(rng, Sender(at + 1), SECOND // 50, end, skew=40_000 * at - 80_000, make=tagged) for at in range(5)]
    sources[0] = without(sources[0], 1, lambda at, time: 400 < at < 450)
    sources[1] = without(sources[1], 0, lambda at, time: at % 100 == 60)
    sources[2] = without(sources[2], None, lambda at, time: at == 700)
    return ["--network", "hsr", *put(folder, sources)]


def crowd(folder):
    """70 sources in 8 s, each of which loses single frames on A, on B and on both. Three more lose a frame more on both. Of these one loses a dozen
    rows of three on B; of one the numbers come round within a row that A lost; and one loses four frames on B, each more than a second behind the
    one before."""
    rng, end = random.Random(4), 8 * SECOND
    sources = []
    for at in range(70):
        frames = steady(rng, Sender(at + 1), SECOND // 5, end)
        frames = without(frames, 0, lambda number, time: number % 6 == 2)
        frames = without(frames, 1, lambda number, time: number % 6 == 4)
        sources.append(without(frames, None, lambda number, time: number % 18 == 9))
    rows = steady(rng, Sender(71), SECOND // 25, end)
    sources.append(without(rows, 1, lambda number, time: 10 <= number < 106 and number % 8 < 3))
    round_again = steady(rng, Sender(72), SECOND // 25, end, first=65_500)
    sources.append(without(round_again, 0, lambda number, time: 33 <= number < 39))
    sources.append(without(steady(rng, Sender(73), SECOND // 5, end), 1, lambda number, time: number in (5, 12, 19, 26)))
    for at in (70, 71, 72):
        sources[at] = without(sources[at], None, lambda number, time: number in (2, 21, 30))
    return put(folder, sources)


NETWORKS = {"a dozen faults": dozen, "1024 sources with losses": many, "a ring with losses": ring, "more losses than a page has": crowd}
