"""Charts as Python values, with bars lent to them; chart files and bars files of them (document 01, "Chart file", and 02, requests 2, 7 and 14); and a
generator with a seed. Two files are a pair: the chart file and the bars file."""
import random, struct
import bars_file, model
from bars_file import ODD_BITS

class Chart:
    """strokes: (direction, start bar, end bar, start price, end price, roll byte), given without the byte it is 0; the other levels: (direction, first,
    last); bars: (high, low)"""
    def __init__(self, strokes=(), segments=(), bigs=(), superiors=(), bars=()):
        self.strokes = [(*s, 0)[:6] for s in strokes]
        self.segments, self.bigs, self.superiors, self.bars = map(list, (segments, bigs, superiors, bars))

    def kinds(self):
        """the records of each kind: strokes (ST or SR), segments, bigs, superiors"""
        triples = ((b"SG", self.segments), (b"BG", self.bigs), (b"SU", self.superiors))
        return [list(map(stroke_record, self.strokes))] + [[mark + struct.pack("<BHH", *t) for t in level] for mark, level in triples]

    def pack(self):
        """in the order of request 7 of 02: strokes, SG, BG, SU; by request 14 without bars"""
        return b"".join(b"".join(k) for k in self.kinds())

    def files(self):
        return self.pack(), bars_pack(self.bars)

    def parts(self):
        """what two charts must have in common to be equal"""
        return self.strokes, self.segments, self.bigs, self.superiors

    def mingled(self, r):
        """the same records with the kinds mingled, each kind in its order"""
        kinds = [k for k in self.kinds() if k]
        order = [i for i, k in enumerate(kinds) for _ in k]
        r.shuffle(order)
        rows = [iter(k) for k in kinds]
        return b"".join(next(rows[i]) for i in order)

    def before_14(self):
        """the file as it was written before request 14: BR first"""
        return b"".join(b"BR" + struct.pack("<dd", *b) for b in self.bars) + self.pack()

def stroke_record(s):
    """the mark, which tells the roll byte, and the other fields"""
    return (b"ST", b"SR")[s[5]] + struct.pack("<BHHdd", *s[:5])

def bars_pack(bars):
    """the bars file of bars (high, low)"""
    return bars_file.pack(tuple(map(bars_file.bits, b)) for b in bars)

def to_report(pair):
    """two files as a case of the kind REPORT: the length of the chart file (u32), and both"""
    return struct.pack("<I", len(pair[0])) + b"".join(pair)

def reported(case):
    """the two files of such a case"""
    n = 4 + int.from_bytes(case[:4], "little")
    return case[4:n], case[n:]

def rewritten(chart):
    """what vectors prints of a file with this chart: the byte count and the file in order"""
    return b"BYTES %d\n" % len(chart.pack()) + chart.pack()

def to_compare(first, second, m, n):
    """two files as a case of the kind SAME: the sizes of two buffers, the length of the first file, and both"""
    return struct.pack("<HHH", m, n, len(first)) + first + second

def compared(a, b, m, n):
    """what it prints of two charts: the number, whether they are equal, and buffers of m and n bytes 255, both as found on a refusal"""
    number = 3 if m < len(a.pack()) or n < len(b.pack()) else 0
    files = (b"", b"") if number else (a.pack(), b.pack())
    buffers = [f + b"\xff" * (size - len(f)) for f, size in zip(files, (m, n))]
    return b"NUMBER %d\nEQUAL %d\n" % (number, number == 0 and a.parts() == b.parts()) + b"".join(b"BYTES %d\n" % len(f) + f for f in buffers)

# what `report` prints, in its order, as oracle/main.rs names it
SECTIONS = ["passed", "ranges", "zones", "third", "threen", "labels", "classes", "firsts"]

def turns(points, up=True):
    """strokes from turn (bar, price) to turn"""
    out = []
    for (a, p), (b, q) in zip(points, points[1:]):
        out.append((int(up), a, b, float(p), float(q)))
        up = not up
    return out

def one_each(strokes):
    return [(s[0], i, i) for i, s in enumerate(strokes)]

def simple(points, superiors, bars=()):
    """each stroke a segment, each segment a big"""
    s = turns(points)
    return Chart(s, one_each(s), one_each(s), superiors, bars)

K_TURNS = [(0, 10), (5, 20), (9, 14), (14, 24), (18, 16), (25, 30), (29, 26), (33, 35), (38, 19)]

def chart_k(low29=26.0):
    bars = [(40.0, {29: low29, 38: 19.0}.get(i, 12.0)) for i in range(39)]
    return simple(K_TURNS, [(1, 0, 4)], bars)

# ---- charts made for one purpose

def jumping_k():
    """K whose stroke from bar 14 is rolled and starts at 27, not at 24: the zone's gg is 27"""
    c = chart_k()
    c.strokes[3] = (0, 14, 18, 27.0, 16.0, 1)
    return c

def with_rolls(c, *places):
    """the same chart with the strokes at these places rolled, and no other"""
    return Chart([(*s[:5], int(k in places)) for k, s in enumerate(c.strokes)], *c.parts()[1:], c.bars)

def touching():
    """opposing [14, 20] and [20, 24]: two zones (P6)"""
    return simple([(0, 10), (5, 20), (9, 14), (14, 24), (18, 20), (25, 30)], [(1, 0, 4)])

def three_members():
    """K's zone meets a third opposing big [20, 27]: joined (P7)"""
    return simple(K_TURNS[:5] + [(25, 27), (29, 20), (33, 35)], [(1, 0, 6)])

def ladder(n, step=10.0):
    """n bigs, all down, whose ranges rise with a gap: each is a run of one"""
    s = [(0, 4 * i, 4 * i + 2, step * i + 5.0, step * i + 1.0) for i in range(n)]
    return s, one_each(s)

def named(n):
    """one superior with n zones, each named: A, B, .."""
    s, t = ladder(n)
    return Chart(s, t, t, [(1, 0, n - 1)])

def of_one(n, up_from=0):
    """256 superiors of one big each, n of which make a zone"""
    s, t = ladder(256)
    return Chart(s, t, t, [(1 if i < n else 0, i, i) for i in range(256)])

def too_many():
    """257 zones: 256 superiors, the last of two bigs"""
    s, t = ladder(256)
    return Chart(s, t, t, [(1, i, i) for i in range(255)] + [(1, 0, 1)])

def far_too_many():
    """256 superiors over all 256 bigs: 65,536 zones"""
    s, t = ladder(256)
    return Chart(s, t, t, [(1, 0, 255)] * 256)

def mirrored(c):
    """the same chart upside down"""
    turn = lambda t: (1 - t[0], t[1], t[2])
    strokes = [(1 - s[0], s[1], s[2], 0.0 - s[3], 0.0 - s[4], s[5]) for s in c.strokes]
    return Chart(strokes, *(map(turn, level) for level in (c.segments, c.bigs, c.superiors)), [(0.0 - l, 0.0 - h) for h, l in c.bars])

def falling(prices, superiors=()):
    """from price to price, down first, each step a stroke, a segment and a big"""
    s = turns([(4 * i, p) for i, p in enumerate(prices)], False)
    return Chart(s, one_each(s), one_each(s), superiors)

def first_buys(n, bars=()):
    """n first buys: a fall by case 2, then each time a leg up by case 3 and a fall by case 2 that stays above the leg's start. `bars`: where
    these falls end, if not in order"""
    prices = [10, 6, 8, 4]
    for i in range(n):
        prices += [12 + 6 * i, 9 + 6 * i, 11 + 6 * i, 7 + 6 * i]
    c = falling(prices, [(1, 0, len(prices) - 2)])
    for i, bar in enumerate(bars):
        k = 6 + 4 * i
        c.strokes[k] = (*c.strokes[k][:2], bar, *c.strokes[k][3:])
    return c

def widening(n):
    """n items; from the fourth on each is a class by case 3"""
    return falling([10, 6, 8, 4] + [12 + i if i % 2 == 0 else 4 - i for i in range(n - 3)])

# a fall by case 2 takes 10, 6, 8, 4; a leg up to 12 is by case 3, adjacent; 9, 11, 7 makes a first buy
BORDERS = {
    "case 2: starts at the start": [10, 6, 10, 4],
    "case 2: ends at the end before": [10, 6, 8, 6],
    "case 2: beyond the end before, not the first": [10, 4, 8, 6, 7, 5],
    "case 3: touches": [10, 6, 8, 4, 10],
    "adjacent to a class by case 3": [10, 6, 8, 4, 12, 11, 13, 2],
    "extended at a touch": [10, 6, 8, 4, 5, 4],
    "not extended, though beyond the first end": [10, 6, 8, 4, 5, 2, 4, 3],
    "first: n ends at q's start": [10, 6, 8, 4, 12, 9, 11, 4],
    "first: q is extended": [10, 6, 8, 4, 12, 9, 13, 10, 12, 8],
    "first: n is extended": [10, 6, 8, 4, 12, 9, 11, 7, 8, 5],
    "first: q is not adjacent": [10, 6, 8, 4, 5, 4, 12, 9, 11, 7],
}

def items(n, lacking=()):
    """n bigs of a segment of a stroke; a level that is named in `lacking` has an index behind the level below in its last record"""
    c = simple(K_TURNS[:n + 1], [])
    for level in lacking:
        rows = getattr(c, level)
        rows[-1] = (rows[-1][0], rows[-1][1], 9)
    return c

def steps(prices, superiors, lows, bigs={}, at={}, high=9.0):
    """from price to price, each step a bar, a stroke, a segment and a big; bars with these lows and one high. `bigs`: those that are other triples;
    `at`: strokes at other bars"""
    s = [(int(p < q), *at.get(i, (i, i + 1)), float(p), float(q)) for i, (p, q) in enumerate(zip(prices, prices[1:]))]
    return Chart(s, one_each(s), [bigs.get(i, b) for i, b in enumerate(one_each(s))], superiors, [(high, float(l)) for l in lows])

# Where 01's third marks can be read two ways, or a test has a border: a chart on which the other reading gives other rows, by the reading's number
# in docs/DECISIONS.md. A zone of one big, down from 1 to 0, and a retest with a low of 2 are a buy, unless the case at hand keeps it out
THIRDS = [
    steps([1, 0, 1, 0, 1], [(1, 0, 0), (1, 0, 0)], [2] * 5, {2: (1, 2, 2)}),            # 3: a repeated hit ends the scan too
    steps([1, 0, 1, 0], [(1, 0, 0), (1, 0, 0)], [2] * 4),                               # 3: a bar hit by two zones is one row
    steps([1, 0, 1, 0], [(1, 1, 1), (1, 0, 0)], [2] * 4),                               # 3: by a zone and an anchor: the zone's ground stays
    steps([0, 1, 0, 1, 0], [(1, 2, 2)], [0, 0, 0, 0, 2]),                               # 3: by two anchors
    steps([1, 0, 2, 1, 2, 0], [(1, 0, 2)], [0, 0, 0, 0, 0, 3]),                         # 3: by two zones: the first edge stays
    steps([1, 0, 1, 0, 2], [(1, 2, 2)], [0, 0, 0, 3, 0]),                               # 3: by two anchors: the first C stays
    steps([2, 3, 0, 1, 0], [(1, 1, 1), (0, 0, 0)], [0, 0, 0, 2, 0], {}, {3: (3, 3)}, 1.0),  # a bar may have a mark of each side
    steps([1, 0, 1, 0, 1], [(1, 0, 0)], [2] * 5, {2: (1, 2, 2)}),                       # a zone has one mark
    steps([0, 1, 0, 1, 0], [(1, 1, 1)], [2] * 5, {3: (0, 4, 3)}),                       # an anchor has one mark
    steps([1, 0, 1, 0], [(1, 0, 2), (0, 0, 0)], [2, 0, 0, 0], {}, {2: (2, 0)}),         # 4: a pair that would be skipped stops the scan, at a reversal
    steps([1, 0, 1, 0], [(1, 0, 2), (0, 0, 1)], [2, 0, 0, 0], {}, {2: (2, 0)}),         # 4: or at a zone
    steps([1, 0, 1, 0], [(1, 0, 0)], [0, 0, 0, 2], {2: (1, 2, 2)}),                     # 4: the pair's second big may have any direction
    steps([1, 0, 1, 0], [(1, 0, 0)], [0, 0, 0, 2]),                                     # 4: the scan runs past the superior's last, to the last big
    steps([1, 0, 1, 0, 1, 0], [(1, 0, 0)], [0, 0, 0, 0, 0, 2], {2: (0, 3, 2)}),         # a missing range stops the scan
    steps([0, 1, 0, 1, 0], [(1, 0, 0)], [2] * 5, {0: (0, 0, 0), 2: (1, 3, 2)}),         # 4: also that of a pair that would be skipped
    steps([1, 0, 1, 0], [(1, 0, 0)], [0, 0, 0, 2], {1: (0, 2, 1)}),                     # a big of the other direction is skipped
    steps([0, 1, 0], [(1, 0, 1)], [2] * 3, {0: (1, 1, 0)}),                             # 5: a missing range is not where the scan starts
    steps([0, 1, 0, 1, 0], [(1, 0, 2)], [2] * 5, {0: (1, 1, 0)}),                       # 5: nor does it end the search for the start
    steps([1, 0, 1, 0], [(1, 0, 1)], [2] * 4),                                          # the scan may start at the zone's end bar
    steps([1, 0, 2, 0], [(1, 1, 2), (1, 0, 0)], [2] * 4),                               # 6: a zone of an earlier superior stops the scan
    steps([1, 0, 1, 0, 1, 0], [(1, 0, 0), (1, 3, 4), (1, 1, 2)], [2] * 6),              # 6: the least start bar counts, not the first zone's
    steps([1, 0, 2, 1], [(1, 0, 2)], [2] * 4),                                          # a zone of the same superior stops nothing
    steps([1, 0, 1, 0], [(0, 0, 1), (1, 0, 0)], [2] * 4),                               # nor one that starts at the end bar
    steps([1, 0, 1, 0, 1], [(0, 2, 3), (1, 0, 0)], [2] * 5),                            # a pair that ends where a zone starts is stopped
    steps([1, 0, 1, 0, 1], [(1, 0, 0), (0, 0, 3), (0, 0, 1)], [0, 0, 0, 2, 0]),         # 6: the first reversal counts, not the least end bar
    steps([1, 0, 1, 0, 1], [(1, 0, 0), (0, 0, 1), (0, 0, 3)], [2] * 5),                 # 6: nor the last
    steps([1, 0, 1, 0], [(1, 0, 0), (1, 1, 1)], [2] * 4),                               # a superior of the same direction is no reversal
    steps([1, 0, 1, 0], [(1, 0, 0), (0, 2, 1)], [2] * 4),                               # nor one with first > last
    steps([1, 0, 1, 0], [(1, 0, 0), (0, 0, 0)], [2] * 4),                               # nor one that ends at the zone's end bar
    steps([1, 0, 1, 0], [(1, 0, 0), (0, 0, 2)], [0, 0, 0, 2]),                          # a pair that ends where a reversal ends is stopped
    steps([1, 0, 1, 0], [(1, 0, 0), (0, 0, 1)], [2] * 4, {1: (1, 2, 1)}),               # a reversal needs no range, only an end point
    steps([1, 0, 2, 0, 1, 0], [(1, 0, 2)], [0, 0, 0, 0, 0, 2]),                         # the edge is zg and not gg
    steps([1, 0, 1, 0], [(1, 0, 0)], [1] * 4),                                          # a low at zg is no hit
    steps([0, 1, 0, 1], [(1, 1, 1)], [1] * 4),                                          # nor a low at C
    steps([0, 1, 0, 1, 0], [(1, 0, 3)], [2, 2], {}, {3: (3, 0)}),                       # a bar outside the slice does not end a zone's scan
    steps([0, 1, 0, 1, 0], [(1, 1, 2)], [2] * 5, {}, {1: (1, 5)}),                      # nor an anchor's
    steps([1, 0, 1, 0], [(1, 1, 3)], [0, 0, 0, 2]),                                     # 7: anchors where superior 0 is skipped for zones
    steps([0, 1, 0, 1], [(1, 1, 0)], [2] * 4),                                          # 7: where it has first > last
    steps([0, 1, 0, 1], [(1, 3, 0)], [2] * 4),                                          # 7: where it starts behind the last big
    steps([0, 1, 0, 1], [(1, 0, 0)], [2] * 4),                                          # the superior's first big is no anchor
    steps([0, 1, 0, 1], [(1, 1, 1)], [2] * 4),                                          # 7: the retest ends before C's big; an anchor of any direction
    steps([0, 1, 0, 1], [(1, 2, 2)], [2] * 4),                                          # each earlier big is an anchor
    steps([1, 0, 1, 0], [(1, 1, 1)], [2] * 4, {0: (0, 1, 0)}),                          # an anchor needs no range
    steps([0, 1, 0], [(1, 1, 1)], [2] * 3),                                             # a big that ends with the anchor does not end after it
    steps([1, 0, 1, 0], [(1, 1, 1)], [0, 0, 0, 2], {}, {1: (1, 0)}),                    # 7: after is by bar and not by index
    steps([0, 1, 0, 2, 0], [(1, 2, 2)], [0, 0, 0, 0, 2], {}, {0: (0, 4)}),              # 7: the first is by index and not by bar
    steps([0, 1, 0, 1], [(1, 1, 1)], [2] * 4, {}, {0: (0, 0), 2: (2, 1)}),              # 7: the retest is before C's big by index
    steps([1, 0, 1, 0], [(1, 1, 1)], [2] * 4, {}, {1: (1, 3)}),                         # 7: it ends with C's big
    steps([1, 0, 1, 0], [(1, 1, 1)], [1] * 4),                                          # C is the end price
]

# The same of 3+N marks. A step that does not rise is down; a low of 2 is a hit, of a zone and of an anchor, unless the case at hand keeps it out
NUMBERED = [
    steps([2, 0, 1, 0, 1, 0], [(1, 1, 1), (1, 0, 0)], [0, 0, 0, 2, 0, 0]),              # 1: numbered behind a mark of another superior's zone
    steps([0, 2, 0, 0, 1, 0], [(1, 1, 1)], [2] * 6, {2: (1, 2, 2)}, {4: (4, 2)}),       # 1: or behind an anchor's
    steps([0, 0, 0, 1, 0], [(1, 1, 1)], [0, 0, 2, 0, 0]),                               # 1: a mark that is not among the superior's bars numbers none
    steps([0, 1, 0], [(1, 0, 1)], [0] * 3, {}, {1: (1, 0)}),                            # 1: no order-0 mark among them, no row
    steps([0, 0, 1, 0, 1, 0], [(1, 1, 1), (1, 0, 0)], [2] * 6, {2: (1, 2, 2)}),         # 1: after the first of them, not the last
    steps([0, 1, 0, 0, 1], [(1, 3, 3), (0, 0, 0)], [2] * 5),                            # 1: one of the other side does not count
    steps([2, 0, 1, 0, 1, 0, 1, 0], [(1, 0, 0), (1, 0, 2)], [2] * 8, {}, {4: (4, 1)}),  # 1: nor does a numbered row of an earlier superior
    steps([0, 0, 1, 0], [(1, 1, 1), (0, 0, 0)], [2] * 4),                               # 2: an anchor's third mark has order 0
    steps([0, 0, 1, 2, 0], [(1, 0, 0)], [0, 0, 0, 2, 0]),                               # orders from 1 on are not filtered by zg
    steps([0, 0, 1, 0, 1, 2, 0], [(1, 0, 2)], [2] * 7),                                 # an order-0 mark among the numbered takes no number
    steps([2, 1, 2, 0, 1, 0, 1, 0], [(1, 0, 4)], [2] * 5 + [3, 2, 2], {2: (1, 2, 2)}, {2: (2, 6), 6: (6, 3)}),  # nor does it begin anew
    steps([1, 0] * 5, [(1, 0, 2), (1, 0, 0)], [0, 0, 0, 2, 0, 0, 0, 2, 0, 0]),          # superiors ascending, each from 1
    steps([0, 1, 2, 0, 0, 0, 0], [(0, 0, 1)], [0] * 7, {}, {}, 0.0),                    # a bar of two zones is numbered once
    steps([0, 0, 1, 0], [(1, 0, 2)], [2] * 4, {0: (1, 0, 0)}, {2: (2, 0)}),             # in the order of bars
    steps([0, 0, 0, 1, 0], [(1, 1, 1)], [2] * 5),                                       # on a repeat the larger order is dropped
    steps([0, 0, 0, 0, 0, 1], [(1, 2, 2)], [2] * 6),                                    # and the smaller of two anchors replaces it
    steps([0, 0, 1, 0, 2, 0, 0, 0], [(1, 2, 2)], [2, 2, 2, 3, 2, 2, 3, 2]),             # an anchor's replaces a superior's, in the earlier row's place
    steps([1, 2, 0, 1, 0, 0, 0], [(1, 1, 1), (0, 0, 5)], [2] * 7, {}, {}, 0.0),         # a bar may have a row of each side
    steps([0, 0, 1, 0, 1, 0], [(1, 0, 0), (1, 0, 0)], [2] * 6, {2: (1, 2, 2)}),         # 9: a superior's repeat uses up its number
    steps([0, 0, 0, 0, 1], [(1, 1, 1)], [2] * 5),                                       # 9: so does an anchor's; an anchor has all its hits, from 0
    steps([0, 0, 1, 0, 0, 0], [(1, 1, 1)], [0, 0, 0, 0, 2, 2]),                         # a bar that is no hit takes no number, and ends nothing
    steps([0, 0, 1, 0, 0], [(1, 1, 1)], [2] * 5, {}, {3: (3, 2)}),                      # 8: an anchor's hits are in index order
    steps([0, 0, 1, 0, 0], [(1, 1, 1), (0, 0, 0)], [2] * 5),                            # 8: they stop at the limit
    steps([0, 0, 0, 0, 1], [(1, 1, 1), (0, 0, 2)], [2] * 5),                            # 8: also where a big ends at it
    steps([0, 0, 0, 0, 1], [(1, 1, 1), (0, 0, 1)], [2] * 5, {}, {1: (1, 4)}),           # 8: a later bar before the limit does not count, behind a hit
    steps([0, 0, 0, 0, 0, 1], [(1, 1, 1), (0, 0, 1)], [0, 0, 0, 2, 2, 0], {}, {1: (1, 5)}),  # 8: nor behind a bar that is no hit
    steps([0, 0, 0, 0, 1], [(1, 1, 1), (0, 0, 3), (0, 0, 0)], [2] * 5),                 # 8: the limit is the first opposite superior's, not a later one's
    steps([0, 0, 0, 0, 1], [(1, 1, 1), (0, 0, 4), (0, 0, 0)], [2] * 5),                 # 8: without an end point there is no limit
    steps([0, 0, 0, 0, 1], [(1, 1, 1), (0, 1, 0)], [2] * 5),                            # 8: first > last is a limit all the same
    steps([0] * 5, [(1, 1, 1), (0, 0, 2)], [2] * 5, {2: (1, 3, 2)}),                    # 8: so is the end point of a big without a range
    steps([0, 0, 0, 0, 1, 2, 0], [(1, 1, 1)], [2] * 7),                                 # superiors before anchors
]

def run_of(*spans, own=(), superiors=None):
    """one superior up over bigs that are down, but those in `own`, each of one stroke (start bar, end bar, start price, end price); a span that is a list is
    a big of these strokes, in one segment, and a None a big with first > last and one stroke, from 6 to 2 at bar 0"""
    strokes, segments, bigs = [], [], []
    for k, span in enumerate(spans):
        some = span if isinstance(span, list) else [span or (0, 0, 6, 2)]
        strokes += [(int(p < q), a, e, float(p), float(q)) for a, e, p, q in some]
        segments.append((0, len(strokes) - len(some), len(strokes) - 1))
        bigs.append((int(k in own), k + (span is None), k))
    return Chart(strokes, segments, bigs, superiors or [(1, 0, len(bigs) - 1)])

# Bars of dd and gg (02, request 6): each tells a reading from a wrong one, of dd as it stands and of gg upside down
EXTREMES = [
    run_of((5, 9, 6, 2), (14, 18, 8, 3)),                                   # no tie: dd is the first member's
    run_of((5, 9, 6, 3), (14, 18, 8, 2)),                                   # or the last one's
    run_of((5, 9, 6, 2), (14, 18, 8, 2)),                                   # a tie: the first member has the smaller bar
    run_of((14, 18, 6, 2), (5, 9, 8, 2)),                                   # bars fall: the last has it
    run_of((14, 18, 6, 2), (5, 9, 8, 2), (20, 24, 7, 2)),                   # the one between has it
    run_of((14, 18, 6, 2), (20, 24, 8, 2), (5, 9, 7, 2)),                   # the last of three has it
    run_of((14, 18, 6, 2), (5, 9, 8, 3), (20, 24, 7, 2)),                   # a smaller bar of a member with another price does not count
    run_of((5, 9, 6, 3), (14, 18, 8, 2), (10, 12, 7, 2)),                   # nor that of a price that was least before
    run_of((14, 18, 6, 3), (5, 9, 8, 3), (20, 24, 7, 2)),                   # a lower price, behind a tie, takes the bar, though it is larger
    run_of((14, 18, 6, 2), (5, 9, 8, 2), (1, 3, 7, 3)),                     # a higher one leaves it
    run_of((9, 5, 6, 2), (18, 14, 8, 2)),                                   # each stroke's bars fall
    run_of((5, 9, 6, 2), (14, 9, 8, 2)),                                    # a tie at one bar
    run_of((9, 5, 2, 6), (14, 18, 2, 8)),                                   # the lows are start prices
    run_of((9, 5, 2, 6), (14, 7, 8, 2)),                                    # one is a start price, one an end price
    run_of((5, 9, 4, 4)),                                                   # a level range alone: its start bar, twice
    run_of((9, 5, 4, 4)),                                                   # also where its end bar is smaller
    run_of((9, 5, 4, 4), (8, 3, 4, 4)),                                     # two, which found nothing: each its own
    run_of((18, 14, 6, 2), (20, 24, 8, 2), (16, 3, 2, 2)),                  # a level member offers its start bar, not its end bar
    run_of((18, 14, 6, 2), (20, 24, 8, 2), (12, 30, 2, 2)),                 # and that decides
    run_of((18, 14, 6, 2), (20, 24, 8, 2), (9, 30, 2, 2), (7, 1, 2, 2)),    # two level members
    run_of((14, 18, 6, 2), (5, 9, 8, 1), (3, 4, 8, 2)),                     # dd has no tie, gg has one
    run_of((14, 18, 8, 2), (5, 9, 8, 2), (3, 4, 8, 2)),                     # both have one
    run_of([(3, 4, 6, 2), (4, 5, 2, 4), (5, 9, 4, 2)]),                     # a stroke inside had the price at a smaller bar: the range's bar stays
    run_of((14, 18, 6, 2), [(3, 4, 6, 2), (4, 5, 2, 4), (5, 20, 4, 2)]),    # so it decides no tie
    run_of((14, 18, 6, 2), [(3, 4, 6, 1), (4, 5, 1, 4), (5, 20, 4, 2)]),    # nor does a lower price of a stroke inside
    run_of((14, 18, 6, 2), None, (15, 19, 8, 2)),                           # a missing range between the members offers nothing
    run_of(None, (14, 18, 6, 2), (15, 17, 8, 2), None),                     # nor one before and behind them
    run_of((14, 18, 6, 2), (3, 4, 6, 2), (15, 17, 8, 2), own=[1]),          # nor a big of the superior's direction
    run_of((14, 18, 6, 2), (5, 9, 8, 2), (3, 4, 8, 2), superiors=[(1, 0, 1)]),  # nor one behind its last
    run_of((14, 18, 6, 2), (5, 9, 8, 2), (3, 4, 8, 2), superiors=[(1, 0, 2), (1, 1, 2), (1, 0, 1), (1, 0, 0)]),
    run_of((14, 18, 6, 2), (5, 9, 2, 1), (3, 4, 2, 0), (1, 2, 7, 2)),       # the zone before at the same price: its own members only
    run_of((65535, 65535, 6, 2), (65534, 65535, 8, 2)),                     # the last bars
    run_of((65535, 65534, 6, 2), (0, 65535, 8, 2)),
    run_of((0, 65535, 6, 2), (65535, 0, 8, 2)),                             # the last and the first
    run_of((65535, 0, 4, 4)),
    run_of((0, 256, 6, 2), (0, 255, 8, 2)),                                 # by number, not by bytes
    run_of((0, 255, 6, 2), (0, 256, 8, 2)),
    run_of((0, 32768, 6, 2), (0, 32767, 8, 2)),
    run_of((14, 18, 6, 0), (5, 9, 8, 0)),                                   # a tie at 0
    run_of((14, 18, 6, 0), (5, 9, 8, 5e-324)),                              # prices a bit apart are no tie
    run_of((14, 18, 6, -5e-324), (5, 9, 8, 0)),
    run_of((14, 18, 6, 2), (5, 9, 8, 2.0000000000000004)),
    run_of((14, 18, 6, -1.7976931348623157e308), (5, 9, 8, -1.7976931348623157e308)),
]

def tied_zones():
    """255, 256 and 257 zones, each with a tie that the later member decides: bars fall through all bigs"""
    pairs = [span for i in range(16) for span in ((99 - 6 * i, 98 - 6 * i, 3 * i + 2, 3 * i), (97 - 6 * i, 95 - 6 * i, 3 * i + 2, 3 * i))]
    return [run_of(*pairs, superiors=[(1, 0, 31)] * 15 + more) for more in ([(1, 0, 29)], [(1, 0, 31)], [(1, 0, 31), (1, 5, 5)])]

def outside():
    """K with a bar too few; K with a stroke that nothing names and that ends behind the bars: 3+N marks are refused with 9"""
    few, unnamed = chart_k(), chart_k()
    few.bars.pop()
    unnamed.strokes.append((1, 38, 39, 19.0, 20.0, 0))
    return [few, unnamed]

def all_bars():
    """K whose last stroke ends at the last of 2,048 bars"""
    return simple(K_TURNS[:-1] + [(2047, 19)], [(1, 0, 4)], [(40.0, {29: 26.0, 2047: 19.0}.get(i, 12.0)) for i in range(2048)])

def bars_and_zones():
    """256 zones; 257, refused with 11; 257 with a bar too few, where 3+N marks are refused with 9 before 11"""
    s, t = ladder(16)
    bars = [(0.0, 200.0)] * (s[-1][2] + 1)
    return [Chart(s, t, t, [(1, 0, 15)] * 16 + more, bars[:n]) for more, n in (([], None), ([(1, 15, 15)], None), ([(1, 15, 15)], -1))]

def many_thirds():
    """509 third marks: 255 sells of zones and 254 buys of anchors"""
    s = [(0, 255, i, 2.0, 1.0) for i in range(255)] + [(1, 0, 255, 5.0, 7.0)]
    t = one_each(s)
    return Chart(s, t, t, [(1, 256, 256)] + [(0, j, 255) for j in range(255)], [(4.0 - i, 8.0 + i) for i in range(256)])

def full(superiors, seed=1, bars=0, first=4):
    """512 strokes, 256 segments of two, 256 bigs of one, and this many bars; the first stroke ends at the bar `first`, each other four behind"""
    r = random.Random(seed)
    price, pts = 100.0, [(0, 100.0)]
    for i in range(512):
        price += (r.randrange(50, 1050) / 100) * (1 if i % 2 == 0 else -1)
        pts.append((4 * i + first, price))
    s = turns(pts)
    segments, bigs = [(1 - i % 2, 2 * i, 2 * i + 1) for i in range(256)], [(1 - i % 2, i, i) for i in range(256)]
    return Chart(s, segments, bigs, superiors, [(r.choice(pts)[1], r.choice(pts)[1]) for _ in range(bars)])

def all_strokes():
    """512 strokes, every third of them rolled, and as many segments and bigs as there may be"""
    return with_rolls(full(SHAPES["short"]), *range(0, 512, 3))

def alternating(n, width, first=0):
    """n superiors of this many bigs each from the big `first` on, up first"""
    return [((i + 1) % 2, first + width * i, first + width * i + width - 1) for i in range(n)]

SHAPES = {
    "one long": [(1, 0, 255)],
    "short": alternating(64, 4),
    "of one": [(i % 2, i, i) for i in range(256)],
}

# ---- generated charts

def live_like(r):
    """strokes joined, levels in order"""
    n = r.randrange(0, 40)
    grid = r.choice([3, 8, 1000])
    pts, bar, price, up = [(0, r.randrange(grid))], 0, 0, r.random() < 0.5
    price = pts[0][1]
    for i in range(n):
        bar += r.randrange(1, 4)
        price += r.randrange(1, grid + 1) * (1 if (i % 2 == 0) == up else -1)
        pts.append((bar, price))
    s = turns(pts, up)
    def level(below):
        out, i = [], r.randrange(0, 3)
        while i < len(below):
            j = i + r.choice([0, 0, 0, 1, 2])
            if j >= len(below):
                break
            out.append((r.randrange(2) if r.random() < 0.3 else below[i][0], i, j))
            i = j + 1 + (r.random() < 0.1)
        return out
    segments = level(s)
    bigs = level(segments)
    return Chart(s, segments, bigs, long_level(r, bigs))

def long_level(r, below):
    out, i = [], r.randrange(0, 2)
    while i < len(below):
        j = min(len(below) - 1, i + r.randrange(0, 8))
        out.append((r.randrange(2), i, j))
        i = j + 1
    return out

def first_like(r):
    """items by the rule of first marks, with each comparison at times at its border or beyond it"""
    def near(a, b):
        """between two prices, or at one of them or just beyond"""
        low, high = min(a, b), max(a, b)
        return r.choice([low - 1, low, high, high + 1]) if high - low < 2 or r.random() < 0.1 else r.randrange(low + 1, high)
    prices = [0, r.choice([-1, 1]) * r.randrange(1, 12)]
    for _ in range(r.randrange(0, 7)):
        s, e = prices[-2:]
        d = 1 if s < e else -1
        y = d * near(0, r.choice([3, 12]))
        how = r.random()
        if how < 0.1:
            prices += [e - d * r.randrange(0, 9) for _ in range(r.randrange(1, 3))]
            continue
        a = near(s + d, e - d)
        c = near(s, a)
        prices += [a, near(a, e), c]            # against the leg from s to e, in three items, and not beyond s
        if how < 0.7:
            prices += [e + y]                   # a leg beyond e
        else:
            f = near(c, e)                      # three items that end short of e or beyond, and a leg back beyond c
            prices += [f, near(c, f), f + y, c - y]
    return laid_out(r, prices[r.randrange(2):])

def laid_out(r, prices):
    """each step from price to price a big, of one segment or three, each of one stroke or three; at times with bars in no order, or with a
    record turned or one that lacks what it names"""
    scale = r.choice([1.0, 1.0, 1.0, 0.25, 5e-324, 1e300])
    split = r.choice([0.0, 0.0, 0.15])
    strokes, segments, bigs = [], [], []
    def parts(s, e):
        """s to e, or s to e by two turns between"""
        return [(s, e)] if split <= r.random() else [(s, (s + 2 * e) / 3), ((s + 2 * e) / 3, (2 * s + e) / 3), ((2 * s + e) / 3, e)]
    bar = 0
    for s, e in zip(prices, prices[1:]):
        big = len(segments)
        for s1, e1 in parts(s, e):
            segment = len(strokes)
            for s2, e2 in parts(s1, e1):
                strokes.append((int(s2 < e2), bar, bar + 2, s2 * scale + 0.0, e2 * scale + 0.0))
                bar += 2
            segments.append((int(s1 < e1), segment, len(strokes) - 1))
        bigs.append((int(s < e), big, len(segments) - 1))
    if r.random() < 0.3:
        bars = r.choice([2, 9, 65536])
        strokes = [(d, r.randrange(bars), r.randrange(bars), s, e) for d, _, _, s, e in strokes]
    if r.random() < 0.06:
        level, below = r.choice([(segments, strokes), (bigs, segments)])
        if level:
            k = r.randrange(len(level))
            level[k] = r.choice([(level[k][0], len(below), level[k][2]), (level[k][0], level[k][1], len(below)), (1 - level[k][0], *level[k][1:])])
    return Chart(strokes, segments, bigs, long_level(r, bigs))

ODD = [0.0, 5e-324, -5e-324, 2.2250738585072014e-308, 1.7976931348623157e308, -1.7976931348623157e308, 1.0, -1.0, 1e-300, 1e300]

def wild(r):
    """any indices, falling bars, ties, odd prices"""
    n, m, k, u = r.randrange(0, 14), r.randrange(0, 14), r.randrange(0, 14), r.randrange(0, 6)
    grid = r.choice([2, 4, 12])
    price = (lambda: r.choice(ODD)) if r.random() < 0.15 else (lambda: float(r.randrange(-grid, grid)) + 0.0)
    bar = (lambda: r.choice([0, 1, 65534, 65535])) if r.random() < 0.05 else (lambda: r.randrange(0, 40))
    def index(n):
        return r.choice([0, n, max(n - 1, 0), n + 1, 255, 256, 65535]) if r.random() < 0.08 else r.randrange(0, max(n, 1))
    def triple(n):
        a, b = index(n), index(n)
        return (r.randrange(2), min(a, b), max(a, b)) if r.random() < 0.9 else (r.randrange(2), a, b)
    def near(n):
        a = r.randrange(0, max(n, 1))
        return (r.randrange(2), a, min(a + r.randrange(0, 3), max(n - 1, 0))) if r.random() < 0.9 else triple(n)
    strokes = [(r.randrange(2), bar(), bar(), price(), price()) for _ in range(n)]
    return Chart(strokes, [near(n) for _ in range(m)], [near(m) for _ in range(k)], [triple(k) for _ in range(u)])

def third_like(r):
    """bigs of one stroke each under superiors that mostly leave some bigs before the first; at times bars in no order, a big turned, ranges or end
    points missing, or a superior with odd indices"""
    n, grid, up = r.randrange(3, 18), r.choice([3, 6, 20]), r.random() < 0.5
    pts = [(0, 0)]
    for i in range(n):
        bar, price = pts[-1]
        pts.append((bar + r.randrange(1, 4), price + r.randrange(1, grid + 1) * (1 if (i % 2 == 0) == up else -1)))
    strokes = turns(pts, up)
    if r.random() < 0.25:
        bar = lambda old: old if r.random() < 0.6 else r.randrange(pts[-1][0] + 1)
        strokes = [(d, bar(a), bar(e), s, q) for d, a, e, s, q in strokes]
    segments, bigs = one_each(strokes), one_each(strokes)
    turned, missing = r.choice([0, 0, 0.15]), r.choice([0, 0, 0.1, 0.2])
    for k, (d, _, _) in enumerate(bigs):
        d = 1 - d if r.random() < turned else d
        bigs[k] = (d, k, k) if r.random() >= missing else r.choice([(d, k + 1, k), (d, k + 1, k), (d, k, n), (d, k, 65535)])
        if r.random() < missing / 3:
            segments[k] = (d, n, k)
    return Chart(strokes, segments, bigs, superiors_over(r, n))

def numbered_like(r):
    """bigs of one stroke each, many of them against the first superior, which leaves some before it; superiors that overlap, bars mostly in order,
    and lent prices of which most are hits"""
    n, grid, d = r.randrange(4, 20), r.choice([1, 2, 4]), r.randrange(2)
    odd, moved, high = r.choice([0, 0, 0.1]), r.choice([0, 0.1, 0.3, 0.5]), r.choice([0.0, grid / 2, grid + 1.0, grid + 5.0])
    prices = [float(r.randrange(grid + 1)) for _ in range(n + 1)]
    end = lambda i: r.randrange(n + 1) if r.random() < moved else i + 1
    strokes = [(int(p < q), i, end(i), p, q) for i, (p, q) in enumerate(zip(prices, prices[1:]))]
    bigs = [(1 - up if r.random() < odd else up, i + (r.random() < odd), i) for up, i, _ in one_each(strokes)]
    superiors = [(1, r.randrange(min(n, 5)), r.randrange(n))]
    for _ in range(r.choice([0, 1, 2, 3])):
        first = r.randrange(n)
        superiors.append((r.randrange(2), first, r.randrange(first, n) if r.random() < 0.7 else r.choice([r.randrange(n), n, n, 65535])))
    lows = r.choice([[grid + 1.0], [grid + 1.0, grid + 2.0, 0.0], [0.0, float(grid), grid + 1.0], [float(x) for x in range(grid + 2)]])
    c = Chart(strokes, one_each(strokes), bigs, superiors, [(high, r.choice(lows)) for _ in range(n + 1 - (r.random() < 0.1))])
    return c if d else mirrored(c)

def tied_like(r):
    """bigs of one stroke or three, most of them against the first superior, with prices that are equal again and again: in a third of the charts three,
    in the others some more; bars that rise, fall, or are in no order, at times up to 65,535; at times ranges that are missing, or about 256 zones"""
    prices = [float(p) for p in r.sample(range(-4, 5), 3 if r.random() < 1 / 3 else r.choice([4, 5, 7]))]
    n, d, missing, three = r.randrange(2, 14), r.randrange(2), r.choice([0, 0, 0.1, 0.3]), r.choice([0, 0.3])
    strokes, segments, bigs = [], [], []
    for _ in range(n):
        turned, first = 1 - d if r.random() < 0.8 else d, len(segments)
        for size in r.choice([[3], [1, 1, 1]]) if r.random() < three else [1]:
            strokes += [(r.randrange(2), 0, 0, r.choice(prices), r.choice(prices)) for _ in range(size)]
            segments.append((turned, len(strokes) - size, len(strokes) - 1))
        last = len(segments) - 1
        names = (first, last) if r.random() >= missing else r.choice([(last + 1, first), (last + 1, first), (first, 65535)])
        bigs.append((turned, *names))
    superiors = [(d, r.choice([0, 0, 1]), n - 1)]
    for _ in range(r.choice([0, 0, 1, 2])):
        first = r.randrange(n)
        superiors.append((r.randrange(2), first, r.randrange(first, n + (r.random() < 0.1))))
    c = Chart([(up, *bars, p, q) for (up, _, _, p, q), bars in zip(strokes, tied_bars(r, len(strokes)))], segments, bigs, superiors)
    return repeated(r, c) if r.random() < 0.06 else c

def tied_bars(r, n):
    """start and end bars of n strokes"""
    how, step, last = r.choice(["rise", "fall", "fall", "any", "any"]), r.choice([1, 2]), 65535 if r.random() < 0.1 else 0
    bars = [(step * k, step * k + step) for k in range(n)]
    most = last or step * n
    if how == "fall":
        return [(most - a, most - e) for a, e in bars]
    if how == "rise":
        return [(most - step * n + a, most - step * n + e) for a, e in bars]
    return [(most - r.randrange(step * n + 1), most - r.randrange(step * n + 1)) for _ in bars]

def repeated(r, c):
    """the same chart with its first superior alone, as often as gives about 256 zones"""
    zones = len(model.zones(model.of(Chart(*c.parts()[:3], c.superiors[:1]))))
    return Chart(*c.parts()[:3], c.superiors[:1] * min(256, r.choice([255, 256, 257, 300]) // max(zones, 1)))

def crowded(r):
    """as many zones as there may be, about: a ladder under superiors that have all of it, or the last of them a part, and a leave with its retest"""
    n, zones = r.randrange(4, 65), r.choice([255, 256, 257, 300])
    s, _ = ladder(n)
    top = s[-1][3]
    s += [(1, 4 * n, 4 * n + 2, 0.0, top), (0, 4 * n + 2, 4 * n + 4, top, 0.0)]
    t = one_each(s)
    some = r.choice([0, 1]) if zones % n else 0
    superiors = [(1, some, n - 1)] * (zones // n) + [(1, n - zones % n, n - 1)] * (zones % n > 0)
    c = Chart(s, t, t, superiors)
    return mirrored(c) if r.random() < 0.5 else c

def superiors_over(r, n):
    """superiors of n bigs, side by side or overlapping, of directions in turn or not; at times some anywhere behind them, and one with odd indices"""
    out, i, d = [], r.choice([0, 0, 1, 1, 2, 3, 4]), r.randrange(2)
    while i < n and len(out) < 7:
        j = min(n - 1, i + r.choice([0, 1, 2, 2, 3, 4, 4, 6]))
        out.append((d, i, j))
        i = max(0, j + 1 - r.choice([0, 0, 0, 0, 1, 3]))
        d = 1 - d if r.random() < 0.7 else d
    out += [(r.randrange(2), r.randrange(n), r.randrange(n)) for _ in range(r.choice([0, 0, 0, 1, 3]))]
    if out and r.random() < 0.25:
        k = 0 if r.random() < 0.5 else r.randrange(len(out))
        d, first, last = out[k]
        out[k] = r.choice([(d, first, n), (d, first, 65535), (d, n, last), (d, 65535, last), (d, last + 1, last), (d, n, n)])
    return out

def lent(r, c):
    """bars with prices at those of the strokes or near them; at times fewer than the strokes name, or more. Of a chart with more than 2,048 mostly few"""
    n = max((s[2] + 1 for s in c.strokes), default=0)
    how = r.random()
    if how < 0.1 or n > 2048 and how < 0.9:
        n = r.randrange(min(n, 60) + 1)
    elif how < 0.15:
        n += 3
    prices = sorted(p for s in c.strokes for p in s[3:5]) or [1.0]
    off = r.choice([0, 0, 1])
    near = lambda ps: r.choice(ps) + off * r.choice([-1, 0, 0, 1]) + 0.0
    half = len(prices) // 2 if r.random() < 0.3 else 0
    return [(near(prices[:len(prices) - half]), near(prices[half:])) for _ in range(min(n, 2048))]

def tied(seed, i):
    """a chart made for ties, with its bars"""
    r = random.Random(f"ties {seed} {i}")
    c = tied_like(r)
    c.bars = lent(r, c)
    return c

def generated(seed, i):
    if random.Random(f"kinds {seed} {i}").random() < 0.05:
        return rolled(random.Random(f"rolls {seed} {i}"), tied(seed, i), 0.1)
    r = random.Random(f"{seed} {i}")
    c = r.choices([live_like, wild, first_like, third_like, numbered_like, crowded], [21, 21, 21, 21, 15, 1])[0](r)
    c.bars = c.bars or lent(r, c)
    return rolled(random.Random(f"rolls {seed} {i}"), c, 0.1)

def rolled(r, c, share):
    """the same chart with a share of its strokes rolled; nothing else of it is drawn by these numbers"""
    return with_rolls(c, *[k for k in range(len(c.strokes)) if r.random() < share])

def special():
    missing = simple(K_TURNS, [(1, 0, 7)])
    missing.bigs[1], missing.bigs[3], missing.segments[5] = (0, 2, 1), (0, 3, 9), (0, 5, 99)
    overlapping = simple(K_TURNS, [(1, 0, 7), (1, 2, 6), (0, 1, 7), (1, 0, 7)])
    odd = simple(K_TURNS, [(1, 65535, 4), (1, 0, 65535), (1, 65535, 65535), (0, 5, 2), (1, 0, 8), (1, 1, 1)])
    short = chart_k()
    short.bars = short.bars[:29]
    zones = [touching(), three_members(), of_one(1), of_one(255), of_one(256), too_many(), far_too_many(), overlapping, missing, odd, named(256)]
    shapes = [full(s, bars=1024 * (name == "short")) for name, s in SHAPES.items()]
    marks = THIRDS + [mirrored(c) for c in THIRDS] + [many_thirds()] + NUMBERED + [mirrored(c) for c in NUMBERED]
    made = [Chart(), chart_k(), chart_k(20.0), short] + zones + shapes + for_classes() + marks + outside() + bars_and_zones() + [all_bars()]
    made += [jumping_k(), mirrored(jumping_k()), with_rolls(chart_k(), 0), with_rolls(chart_k(), *range(8)), all_strokes()]
    return made + EXTREMES + [mirrored(c) for c in EXTREMES] + tied_zones() + [mirrored(tied_zones()[1])] + [tied(6, i) for i in range(40)]

def for_classes():
    """first marks of each side, in and out of order and at one bar; the borders of each comparison; 1, 2 and 6 items (6: P5); one or two, the last of
    which lacks a record; 256 items"""
    buys = [first_buys(1), first_buys(3), first_buys(3, [50, 70, 50]), first_buys(3, [90, 40, 60]), first_buys(63)]
    buys += [falling(p) for p in BORDERS.values()]
    few = [items(n) for n in (1, 2, 6)] + [items(n, [level]) for n in (1, 2) for level in ("segments", "bigs")]
    return buys + [mirrored(c) for c in buys] + few + [widening(256), mirrored(widening(256))]

# ---- files

WIDTHS = {b"ST": 23, b"SR": 23, b"SG": 7, b"BG": 7, b"SU": 7, b"BR": 18, b"HL": 20}
OTHER_MARK = {b"ST": b"SR", b"SR": b"ST"}
# the kind whose records name those of a kind, by two numbers behind the direction
NAMING = {b"HL": b"ST", b"ST": b"SG", b"SG": b"BG", b"BG": b"SU"}

def kind(record):
    """the mark of a record; ST and SR are one kind, whose indices run over both"""
    return b"ST" if record[:2] == b"SR" else record[:2]

def exchanged(pair):
    """two files, the chart file with ST for SR and SR for ST"""
    return b"".join(OTHER_MARK.get(p[:2], p[:2]) + p[2:] for p in records(pair[0])), pair[1]

def records(data):
    """a file cut into its records; what is behind the last good one is the last part"""
    out = []
    while data:
        n = WIDTHS.get(data[:2], len(data))
        out.append(data[:n])
        data = data[n:]
    return out

def unpacked(data, bars=b""):
    """the chart in a file that is not refused, and the bars in one that is not"""
    c = Chart(bars=[tuple(map(bars_file.value, b)) for b in bars_file.read(bars, bars_file.MOST)])
    levels = {b"SG": c.segments, b"BG": c.bigs, b"SU": c.superiors}
    for p in records(data):
        if kind(p) == b"ST":
            c.strokes.append((*struct.unpack("<BHHdd", p[2:]), int(p[:2] == b"SR")))
        elif p[:2] != b"BR":
            levels[p[:2]].append(struct.unpack("<BHH", p[2:]))
    return c

def any_bar(r):
    """a BR with any bytes behind it: prices, odd prices, marks of other records, or bytes"""
    return b"BR" + r.choice([struct.pack("<dd", 2.0, 1.0), struct.pack("<QQ", *r.choices(ODD_BITS, k=2)), r.choice([*WIDTHS]) * 8, r.randbytes(16)])

def old(r, data):
    """an old file: BR anywhere among the records of a file"""
    parts = records(data)
    for _ in range(r.choice([1, 1, 2, 3, r.randrange(40)])):
        parts.insert(r.randrange(len(parts) + 1), any_bar(r))
    return b"".join(parts)

def generated_files(seed, i):
    """the files of a generated chart; in a quarter the chart file is an old one, with its bars as they were written or with BR anywhere"""
    r, c = random.Random(f"files {seed} {i}"), generated(seed, i)
    how = r.random()
    return c.before_14() if how < 0.1 else old(r, c.mingled(r)) if how < 0.25 else c.pack(), bars_pack(c.bars)

def filled_to(n, data):
    """a file with more records, up to n bytes: SG, of which 13 leave one byte over whole BR, and BR with NaN"""
    left = n - len(data)
    segments = 13 * left % 18
    return data + (b"SG" + bytes(5)) * segments + (b"BR" + b"\xff" * 16) * ((left - 7 * segments) // 18)

def small_files():
    """a record of each mark at least, BR and HL too, with a zone and a third mark"""
    s = [(1, 0, 1, 1.0, 2.0), (0, 1, 0, 2.0, 1.0, 1)]
    return with_a_bar(Chart(s, one_each(s), one_each(s), [(1, 0, 1)], [(4.0, 3.0)]))

def numbered_files():
    """a record of each mark at least, with a third mark and one of order 1"""
    s = [(0, 0, 0, 1.0, 0.0), (1, 0, 0, 0.0, 0.0, 1), (1, 0, 0, 0.0, 0.0), (0, 0, 1, 0.0, 0.0)]
    return with_a_bar(Chart(s, one_each(s), one_each(s), [(1, 0, 0)], [(4.0, 3.0), (4.0, 3.0)]))

def with_a_bar(c):
    """the files of a chart, the first with a BR of NaN behind its strokes"""
    n = 23 * len(c.strokes)
    return c.pack()[:n] + b"BR" + b"\xff" * 16 + c.pack()[n:], bars_pack(c.bars)

def each_byte(data):
    """every truncation and every change of one byte"""
    return [data[:n] for n in range(len(data) + 1)] + [data[:i] + bytes([b]) + data[i + 1:] for i in range(len(data)) for b in range(256) if b != data[i]]

def cuts(pair):
    """every truncation of either file"""
    return [(pair[0][:n], pair[1]) for n in range(len(pair[0]) + 1)] + [(pair[0], pair[1][:n]) for n in range(len(pair[1]))]

def each_byte_of_two(pair):
    """every truncation and every change of one byte of either file"""
    return [(f, pair[1]) for f in each_byte(pair[0])] + [(pair[0], f) for f in each_byte(pair[1])]

def around_k():
    """empty files; K's old one; a refusal in either of K's files, or in both; a record of the other file in each"""
    chart, bars = chart_k().files()
    out = [(b"", b""), (b"", bars), (chart, b""), (chart_k().before_14(), bars), (chart[:-1], bars[:-1]), (chart + b"BR", b"x"), (chart, b"x" + bars)]
    return out + [(chart + bars[:20], bars), (bars, bars), (chart, bars + chart[:23]), (chart, chart)]

def many_bars():
    """bars files of 2,048 bars and a bar more, its number right or wrong, or a part of it, or less"""
    most, full_bars = all_bars().files()
    over = [bars_file.record((0, 0), n) for n in (2048, 2047, 2049, 0, 65535)]
    over += [b"", over[0][:-1], over[2][:-1], bars_file.record((bars_file.NAN, 0), 2048), b"H", b"HM" + over[0][2:], over[0] * 1300, b"HL" * 40000]
    return [(most, full_bars + more) for more in over]

def long_charts():
    """chart files of 65,536 bytes and of one more or fewer, whatever stands in them"""
    chart, bars = chart_k().files()
    long = filled_to(65536, chart)
    return [(f, bars) for f in (long, long[:-1], long + b"B", b"x" + long)]

def longer_charts():
    """more of them, with bars that are refused, and without a bar"""
    long, bars = long_charts()[0]
    others = long[:-18] + b"SG" + bytes(16), b"x" * 65536, b"x" * 65537, long + long, b"ST\2" + long[3:]
    return [(f, b) for f in (long, long + b"B", *others) for b in (bars, bars[:-1], b"")]

# marks that are like SR, and no marks
NEAR_SR = [b"RS", b"SS", b"TS", b"Sr", b"sR", b"RR", b"RT"]

def bad_rolls():
    """an SR with a wrong direction, with an odd price in either place, with both; marks that are like it; and cut"""
    good, odd = stroke_record((0, 38, 43, 21.0, 15.0, 1)), [struct.pack("<Q", x) for x in ODD_BITS[:3]]
    out = [good[:2] + bytes([d]) + good[3:] for d in (2, 255)] + [good[:at] + x + good[at + 8:] for at in (7, 15) for x in odd]
    return out + [good[:2] + b"\2" + good[3:15] + odd[0]] + [mark + good[2:] for mark in NEAR_SR] + [good[:n] for n in (1, 2, 3, 22)]

def around_rolls():
    """each of these behind K and, but for a cut one, before it; 512 strokes of both marks, and a 513th of each, good or with a wrong direction"""
    k, most = chart_k().pack(), Chart(all_strokes().strokes).pack()
    over = [mark + bytes([d]) + bytes(20) for mark in OTHER_MARK for d in (0, 2)]
    files = [k + bad for bad in bad_rolls()] + [bad + k for bad in bad_rolls() if len(bad) == 23] + [most + more for more in [b""] + over]
    return [(chart, b"") for chart in files]

def at_limits(): return around_k() + many_bars() + long_charts() + longer_charts() + around_rolls()

def refused_roll(chart):
    """what to count of a chart file: a refusal at an SR, or at a mark like it"""
    number, mark = model.refused_at(chart)
    return [f"chart file refused {number} at {mark.decode()}"] if mark in [b"SR", *NEAR_SR] else []

def shown(data):
    """a file in hexadecimal digits, or how it starts"""
    return f"({len(data)} bytes) {data[:500].hex()}"

# the fields of a record, by the byte at which each starts and its size; a stroke's roll byte is its mark
TRIPLE = [(2, 1), (3, 2), (5, 2)]
STROKE = [(0, 2), *TRIPLE, (7, 8), (15, 8)]
FIELDS = {b"ST": STROKE, b"SR": STROKE, b"SG": TRIPLE, b"BG": TRIPLE, b"SU": TRIPLE}

def one_bit(r, record):
    """the record with one bit of a field changed, for each field in turn; none is refused"""
    for at, size in FIELDS[record[:2]]:
        if at == 0:
            yield OTHER_MARK[record[:2]] + record[2:]
            continue
        value = int.from_bytes(record[at:at + size], "little")
        while True:
            new = value ^ 1 << (0 if size == 1 else r.randrange(8 * size))
            if size < 8 or bars_file.is_price(new):
                break
        yield record[:at] + new.to_bytes(size, "little") + record[at + size:]

def changed(r, data):
    """the charts of a file with one bit of one field changed, for each field in turn"""
    parts = records(data)
    return [unpacked(b"".join(parts[:k] + [p] + parts[k + 1:])) for k, q in enumerate(parts) for p in one_bit(r, q)]

def comparisons(r):
    """charts to compare, two each with the sizes of two buffers: equal ones; those that differ in one bit of a field, in a record's level, in the order
    or number of records, in which strokes are rolled, at the very end; buffers that are large enough, exactly or by some bytes, or too short"""
    base, k, most = unpacked(small_files()[0]), chart_k(), all_strokes()
    tail = unpacked(most.pack())
    tail.superiors[-1] = (1 - tail.superiors[-1][0], *tail.superiors[-1][1:])
    t = (1, 0, 0)
    bits = [(base, c) for c in changed(r, base.pack())]
    differ = bits + [(most, tail), (Chart(), base), (base, Chart(base.strokes[::-1], *base.parts()[1:])), (base, Chart(*base.parts()[:3]))]
    differ += [(Chart(segments=[t]), Chart(bigs=[t])), (Chart(bigs=[t]), Chart(superiors=[t])), (Chart(segments=[t]), Chart(segments=[t] * 2))]
    differ += [(k, with_rolls(k, i)) for i in (0, 3, 7)] + [(with_rolls(k, 2), with_rolls(k, 3)), (with_rolls(k, 1, 2), with_rolls(k, 1)), (k, jumping_k())]
    equal = [(c, c) for c in [Chart(), base, k, with_rolls(k, 1, 4, 5), *(generated(4, i) for i in range(12))]]
    exact = [(a, b, len(a.pack()), len(b.pack())) for a, b in equal + differ + [(b, a) for a, b in bits]]
    wider = [(a, b, m + r.randrange(9), n + r.randrange(9)) for a, b, m, n in exact[:40]]
    short = [(a, b, m - x, n - y) for a, b, m, n in exact[:20] for x, y in ((1, 0), (0, 1), (1, 1), (m, 0)) if x <= m and y <= n and x + y]
    return exact + wider + short

# ---- the smallest pair

def lowered(p, mark, place):
    """a record, behind one of a kind at a place that is left out: numbers that name one behind that are one lower"""
    at = 2 if p[:2] == mark == b"HL" else 3 if kind(p) == NAMING.get(mark) else None
    if at is None or len(p) != WIDTHS[p[:2]]:
        return p
    end = at + 2 if at == 2 else at + 4
    numbers = (int.from_bytes(p[k:k + 2], "little") for k in range(at, end, 2))
    return p[:at] + b"".join(struct.pack("<H", i - (i > place)) for i in numbers) + p[end:]

def without(parts, k):
    """records of two files, each with its file, without the one at k"""
    mark = kind(parts[k][1])
    place = sum(kind(p) == mark for _, p in parts[:k])
    return [(file, lowered(p, mark, place)) for i, (file, p) in enumerate(parts) if i != k]

def joined(parts): return tuple(b"".join(p for file, p in parts if file == k) for k in (0, 1))

def plainly(parts, at, size): return parts[:at] + parts[at + size:]

def fewer(parts, left_out, differs):
    """stretches of parts left out, long ones first, while the two still differ"""
    size = max(1, len(parts) // 2)
    while size and parts:
        at = 0
        while at < len(parts):
            less = left_out(parts, at, size)
            if differs(less):
                parts = less
            else:
                at += size
        size //= 2
    return parts

def shrunk(pair, differs):
    """two files that still differ: drops records of either, from the last to the first, and then stretches of bytes"""
    parts = [(k, p) for k in (0, 1) for p in records(pair[k])]
    for k in [*reversed(range(len(parts)))] * 2:
        if k < len(parts) and differs(joined(without(parts, k))):
            parts = without(parts, k)
    chart, bars = joined(parts)
    chart = fewer(chart, plainly, lambda less: differs((less, bars)))
    return chart, fewer(bars, plainly, lambda less: differs((chart, less)))

# ---- damaged files, and more files for the program marks

def damaged(r, data, more):
    """cut, changed, shortened, lengthened, with an odd price at the end, or with more behind it"""
    data, how = bytearray(data), r.randrange(6)
    if how == 0 or len(data) < 9:
        return bytes(data[:r.randrange(len(data) + 1)])
    at = r.randrange(len(data))
    if how == 1:
        data[at] = r.randrange(256)
    elif how == 2:
        del data[at]
    elif how == 3:
        data[at:at] = bytes([r.choice(b"STGBURHLxyz\0\xff")])
    elif how == 4:
        data[-8:] = r.choice(ODD_BITS).to_bytes(8, "little")
    else:
        data += more
    return bytes(data)

def too_many_records(r):
    """of a kind, every third stroke an SR, or more BR than a file has room for"""
    mark, n = r.choice([(b"ST", 513), (b"SG", 257), (b"BG", 257), (b"SU", 257), (b"BR", 3641)])
    return b"".join((b"SR" if mark == b"ST" and i % 3 == 2 else mark) + bytes(WIDTHS[mark] - 2) for i in range(n))

def too_many_bars(r, data):
    """behind those of a file, up to the 2,049th; at times one is left out"""
    first = len(data) // 20 + (r.random() < 0.3)
    return b"".join(bars_file.record((0, 0), n) for n in range(first, 2049))

def with_bad_roll(r, data):
    """a file with one of bad_rolls among its records, or at its end where it is cut"""
    parts, bad = records(data), r.choice(bad_rolls())
    k = r.randrange(len(parts) + 1)
    return b"".join(parts[:k] + [bad] + parts[k:] * (len(bad) == 23))

def damaged_files(r, pair):
    """one of two files damaged, or both; in a tenth of them with a bad SR"""
    if r.random() < 0.1:
        return with_bad_roll(r, pair[0]), pair[1]
    which = r.choice(["chart", "chart", "bars", "bars", "both"])
    chart = pair[0] if which == "bars" else damaged(r, pair[0], too_many_records(r))
    return chart, pair[1] if which == "chart" else damaged(r, pair[1], too_many_bars(r, pair[1]))

def spoilt(r, data):
    """one record, or two, with a wrong direction or bar number, an odd price, both, another mark, or cut"""
    parts = records(data)
    for _ in range(r.choice([1, 1, 2])):
        k = r.randrange(len(parts)) if parts else 0
        p = bytearray(parts[k]) if parts else bytearray()
        how = r.randrange(5)
        if how in (0, 2) and len(p) in (7, 23):
            p[2] = r.choice([2, 2, 255, r.randrange(2, 256)])
        if how in (0, 2) and len(p) == 20:
            p[2:4] = struct.pack("<H", r.choice([k + 1, max(0, k - 1), 0, 65535, r.randrange(65536)]))
        if how in (1, 2) and len(p) in (18, 20, 23):
            at = len(p) - r.choice([8, 16])
            p[at:at + 8] = r.choice(ODD_BITS).to_bytes(8, "little")
        if how == 3:
            p[:2] = r.choice([b"st", b"BT", b"\0\0", b"RB", b"LH", *NEAR_SR, *WIDTHS])
        if how == 4:
            del p[r.randrange(len(p) + 1):]
        parts[k:k + 1] = [bytes(p)]
    return b"".join(parts)

def spoilt_files(r, pair):
    """records of one of two files spoilt"""
    return (spoilt(r, pair[0]), pair[1]) if r.random() < 0.6 else (pair[0], spoilt(r, pair[1]))

def brim(r):
    """a level or the bars full to the last place, or one record over, the last of them at times spoilt; at times all of them full, a chart file of
    about 65,536 bytes, or a bars file that is longer"""
    c = rolled(r, full(r.choice([*SHAPES.values()]), r.randrange(9), 2048), 0.5)
    c.strokes[-1] = (*c.strokes[-1][:2], 2047, *c.strokes[-1][3:])
    rows, bars = c.kinds(), bars_pack(c.bars)
    rows[3] = rows[3] * (256 // len(rows[3]))
    if r.random() < 0.7:
        k = r.randrange(5)
        rows = [row if i == k else row[:r.randrange(9)] for i, row in enumerate(rows)]
        bars = bars if k == 4 else bars[:20 * r.randrange(9)]
    data, how = b"".join(b"".join(row) for row in rows), r.random()
    if how < 0.6:
        last = r.choice([row[-1] for row in rows if row] + [bars_file.record((0, 0), len(bars) // 20)] * 2)
        more = spoilt(r, last) if how < 0.3 else last
        data, bars = (data, bars + more) if len(last) == 20 else (data + more, bars)
    if r.random() < 0.3:
        data = filled_to(65536 + r.choice([-1, 0, 0, 0, 1, 30]), data)
    data += r.choice([b"", b"", b"B", b"BR", bytes(r.randrange(20)), b"BR" * 40000])
    return data, bars + r.choice([b"", b"", b"", b"H", b"HL", bytes(r.randrange(20)), b"HL" * 40000])

def any_bytes(r): return bytes(r.randrange(256) for _ in range(r.randrange(60)))

def small_prices(r): return struct.pack("<dd", *(float(r.randrange(-3, 4)) for _ in range(2)))

def random_records(r):
    """records of any kind with small numbers in them, or any bytes"""
    if r.random() < 0.2:
        return any_bytes(r)
    out = b""
    for _ in range(r.randrange(40)):
        mark = r.choice([b"ST", b"SR", b"SG", b"BG", b"SU", b"BR"])
        field = lambda n: struct.pack("<H", r.choice([0, 1, 2, r.randrange(n)]))
        if mark == b"BR":
            out += any_bar(r)
        else:
            out += mark + bytes([r.choice([0, 0, 0, 1, 1, 1, r.randrange(3)])]) + field(9) + field(9) + small_prices(r) * (mark in OTHER_MARK)
    return out

def random_bars(r):
    """bars whose numbers are mostly in order, or any bytes"""
    if r.random() < 0.2:
        return any_bytes(r)
    numbers = (i if r.random() < 0.98 else r.randrange(20) for i in range(r.randrange(20)))
    return b"".join(b"HL" + struct.pack("<H", i) + small_prices(r) for i in numbers)

def for_marks(seed, i):
    """two files: of a generated chart, its records in order or mingled, in a quarter with BR among them, as they are, damaged or spoilt; of a chart made for
    a purpose; or some of those above"""
    r = random.Random(f"marks {seed} {i}")
    how = r.random()
    if how < 0.02:
        return brim(r)
    if how < 0.07:
        return random_records(r), random_bars(r)
    c = r.choice(NUMBERED + THIRDS) if how < 0.12 else generated(seed, i)
    c = mirrored(c) if how < 0.12 and r.random() < 0.5 else c
    data = c.mingled(r) if r.random() < 0.5 else c.pack()
    pair = old(r, data) if r.random() < 0.25 else data, bars_pack(c.bars)
    return r.choices([pair, damaged_files(r, pair), spoilt_files(r, pair)], [70, 15, 15])[0]
