"""Bars files (document 02, request 14), read and written by struct, and what the program vectors must print of its cases of the kind BARS, with such cases
made for a purpose and generated. A price is its 64 bits."""
import collections, random, struct

BAR = struct.Struct("<2sHQQ")  # the mark HL, the number, high, low
MOST = 65536                   # places that a slice has at most

DOUBLE, LONG = struct.Struct("<d"), struct.Struct("<Q")
def bits(x): return LONG.unpack(DOUBLE.pack(x))[0]
def value(bits): return DOUBLE.unpack(LONG.pack(bits))[0]

def is_price(bits):
    """finite and not -0"""
    return bits >> 52 & 0x7FF != 0x7FF and bits != 1 << 63

# ---- reading and writing

class Refused(Exception):
    """a reading's refusal: its number, and the place of the record in its file"""

def record(bar, i): return BAR.pack(b"HL", i, *bar)

def pack(bars):
    """the file of bars (high, low), numbered from 0 on"""
    return b"".join(record(bar, i) for i, bar in enumerate(bars))

def read(data, places):
    """the bars (high, low) of a file, with so many places for them"""
    bars, due, at = [], 0, 0
    while at < len(data):
        if len(data) - at == 1:
            raise Refused(13, at)
        if data[at:at + 2] != b"HL":
            raise Refused(12, at)
        if len(data) - at < BAR.size:
            raise Refused(13, at)
        _, number, high, low = BAR.unpack_from(data, at)
        if number != due:
            raise Refused(20, at)
        if number >= places:
            raise Refused(3, at)
        if not is_price(high) or not is_price(low):
            raise Refused(1, at)
        bars.append((high, low))
        due, at = number + 1, at + BAR.size
    return bars

def reading(data, a, b):
    """number, place and bars of a reading into slices of a and b places"""
    if a != b or a > MOST:
        return 8, 0, []
    try:
        return 0, 0, read(data, a)
    except Refused as refusal:
        return *refusal.args, []

def writing(highs, lows, m):
    """number and file of a writing of two slices into a buffer of m bytes"""
    if len(highs) != len(lows) or len(highs) > MOST:
        return 8, b""
    if not all(map(is_price, highs + lows)):
        return 1, b""
    if m < BAR.size * len(highs):
        return 3, b""
    return 0, pack(zip(highs, lows))

# ---- cases of the kind BARS: the file is read into highs[..a] and lows[..b] of slices that are filled with two prices, then highs[..w] and lows[..x] are
# written into a buffer of m bytes 255

Case = collections.namedtuple("Case", "a b w x m high low file")

def packed(c): return struct.pack("<5I2Q", *c[:7]) + c.file

def answers(c):
    """number, place and bars of the reading, and number and file of the writing"""
    number, place, bars = reading(c.file, c.a, c.b)
    highs, lows = ([bar[k] for bar in bars] + [fill] * (MOST + 1 - len(bars)) for k, fill in enumerate((c.high, c.low)))
    return number, place, bars, *writing(highs[:c.w], lows[:c.x], c.m)

def printed(c):
    """what comes of a case: the reading's answer, its bars and one place behind them, if there is one; the writing's answer, and the buffer whole"""
    number, place, bars, refusal, file = answers(c)
    rows = [*bars, (c.high, c.low)][:min(len(bars) + 1, c.a, c.b)]
    lines = [f"NUMBER {number}", f"PLACE {place}", f"BARS {len(bars)}", *("%016X %016X" % row for row in rows)]
    lines += [f"NUMBER {refusal}", f"COUNT {len(file)}", f"BYTES {c.m}"]
    return "".join(line + "\n" for line in lines).encode() + file + b"\xff" * (c.m - len(file))

def shows_nan(c):
    """whether a NaN would be printed, which has no digits of its own: only the slices' fill can be one"""
    bars = reading(c.file, c.a, c.b)[2]
    return len(bars) < min(c.a, c.b) and any(value(x) != value(x) for x in (c.high, c.low))

# ---- made for a purpose

INFINITE, MINUS_ZERO, NAN = bits(float("inf")), 1 << 63, bits(float("nan"))
# no prices: infinities, -0, NaN of each kind; and the last NaN of each sign
ODD_BITS = [INFINITE, bits(float("-inf")), MINUS_ZERO, NAN, 0xFFF8000000000001, 0x7FF0000000000001]
EACH_ODD = ODD_BITS + [0x7FFFFFFFFFFFFFFF, 0xFFFFFFFFFFFFFFFF]
# prices at the borders: zero, the least and the greatest of each sign, the greatest below a normal one, the least normal one
BORDER = [0, 1, 0x8000000000000001, 0x7FEFFFFFFFFFFFFF, 0xFFEFFFFFFFFFFFFF, 0x000FFFFFFFFFFFFF, 0x0010000000000000]

def some(n): return [(bits(40.0 + i), bits(12.25 - i)) for i in range(n)]

def case(file, places, w=0, m=None, high=bits(7.5), low=bits(3.5), lows=None, x=None):
    """slices of so many places each, unless `lows` says otherwise; w highs and lows written, unless x does; the buffer is exact, unless m is given"""
    x = w if x is None else x
    return Case(places, places if lows is None else lows, w, x, BAR.size * w if m is None else m, high, low, file)

def good_cases():
    """read with a place for every bar, exactly or with more, and written again: bars alone, with the fill behind them, some of them, none"""
    rows = [(0, 0, 0), (0, 1, 0), (0, 3, 2), (1, 1, 1), (1, 2, 1), (2, 2, 2), (3, 3, 3)]
    rows += [(3, 5, 3), (3, 5, 5), (3, 3, 5), (3, 3, 2), (3, 4, 0), (39, 39, 39), (3, MOST, 4)]
    out = [case(pack(some(n)), places, w) for n, places, w in rows]
    borders = [(a, b) for a in BORDER for b in (BORDER[0], BORDER[-1])]
    return out + [case(pack(borders), len(borders), len(borders)), case(pack(some(300)), 300, 300)]

def cut_cases(n=3):
    """every truncation of n bars; what is written then is the fill, or the bars of a file that is cut between two"""
    return [case(pack(some(n))[:size], n, n) for size in range(BAR.size * n + 1)]

def changed_cases(n=2):
    """every change of one byte of n bars"""
    file = pack(some(n))
    changes = ((at, b) for at in range(len(file)) for b in range(256) if b != file[at])
    return [case(file[:at] + bytes([b]) + file[at + 1:], n, n) for at, b in changes]

def misnumbered(bars, k, number):
    """the file of some bars, of which the one at k has another number"""
    return b"".join(record(bar, number if i == k else i) for i, bar in enumerate(bars))

def number_cases():
    """20 at every bar, with numbers around the right one, at both ends and with its bytes exchanged; before 3 and 1, and behind 12 and 13"""
    bars, out = some(5), []
    for k in range(5):
        wrong = sorted({0, 1, k - 1, k + 1, k + 2, 256 * k, k + 256, 65535} - {k, -1})
        out += [case(misnumbered(bars, k, number), 5, 5) for number in wrong]
    twice = [record(bar, i) for bar, i in zip(bars, (0, 1, 1, 2, 3))]
    out += [case(b"".join(twice), 5), case(b"".join(twice[1:]), 5), case(misnumbered(some(300), 257, 256), 300)]
    odd = [(bits(1.0), bits(2.0)), (MINUS_ZERO, bits(2.0))]
    out += [case(misnumbered(odd, 1, 2), 2), case(misnumbered(some(3), 2, 3), 2, 2), case(misnumbered(odd, 1, 0), 1, 1)]
    return out + [case(misnumbered(some(2), 1, 7)[:-1], 2), case(pack(some(1)) + b"LH" + record((0, 0), 9)[2:], 2)]

def place_cases():
    """3 with fewer places than bars, before 1"""
    out = [case(pack(some(3)), places, 3) for places in (0, 1, 2)] + [case(pack(some(300)), 299, 1)]
    return out + [case(pack(some(1) + [(NAN, 0)]), 1), case(pack([(0, INFINITE)]), 0), case(pack(some(1) + [(NAN, 0)]), 2, 2)]

def price_cases():
    """1 by each odd price, in either place of any bar"""
    out = [case(pack(some(k) + [bar] + some(1)), 4, 2) for odd in EACH_ODD for k, bar in ((0, (odd, 0)), (1, (0, odd)))]
    return out + [case(pack(some(2) + [(MINUS_ZERO, MINUS_ZERO)]), 3, 3)]

def mark_cases():
    """12 by another mark, a chart's among them, whatever is behind; 13 by a lone byte"""
    marks = [b"hl", b"HH", b"LL", b"LH", b"ST", b"SG", b"BG", b"SU", b"BR", b"\0\0", b"H\xcc"]
    out = [case(pack(some(1)) + mark + bytes(n), 3, 1) for mark in marks for n in (0, 18)]
    return out + [case(pack(some(n)) + byte, 3) for n in (0, 2) for byte in (b"H", b"L", b"\0")]

def slice_cases():
    """8 by unequal slices or one place too many, before what the file would be refused with; and as many places as there may be"""
    slices, files = [(0, 1), (1, 0), (2, 3), (MOST, MOST - 1), (MOST + 1, MOST + 1), (MOST, MOST + 1)], [b"", pack(some(2)), b"x"]
    return [case(file, a, 2, lows=b) for a, b in slices for file in files] + [case(file, MOST, 2) for file in files]

def fill_cases():
    """places behind the bars keep odd prices; these written refuse with 1, also behind the bars alone"""
    out = []
    for high, low in ((MINUS_ZERO, bits(1.0)), (bits(1.0), INFINITE), (bits(float("-inf")), MINUS_ZERO)):
        out += [case(pack(some(2)), places, w, high=high, low=low) for places, w in ((3, 2), (9, 3), (2, 2), (2, 3))]
        out += [case(pack(some(2))[:-1], 2, w, high=high, low=low) for w in (0, 1)]
    return out + [case(pack(some(n)), n, w, high=NAN, low=NAN) for n in (0, 2) for w in (n, n + 1)]

def buffer_cases():
    """buffers that are exact, a byte short, empty or longer; 8 of a writing before 1, that before 3"""
    out = [case(pack(some(n)), n, n, m) for n in (1, 2, 3) for m in (0, 1, BAR.size * n - 1, BAR.size * n, BAR.size * n + 1, 999)]
    out += [case(b"", 0, 0, m) for m in (0, 1, 20)] + [case(b"", 0, MOST, m) for m in (0, 7)]
    unequal = [(0, 1), (1, 0), (3, 2), (MOST, MOST - 1), (MOST + 1, MOST + 1), (MOST + 1, MOST)]
    out += [case(pack(some(2)), 2, w, 60, x=x) for w, x in unequal] + [case(pack(some(2)), 2, 3, 60, MINUS_ZERO, x=2)]
    return out + [case(pack(some(2)), 2, 3, m, MINUS_ZERO) for m in (0, 59, 60)]

def largest_cases():
    """as many bars as there may be, read and written; with one place fewer, one bar more, a wrong number, buffers a byte short and a bar longer"""
    file = pack(some(MOST))
    out = [case(file, MOST, MOST), case(file, MOST, MOST, BAR.size * MOST - 1), case(file, MOST, MOST, BAR.size * (MOST + 1)), case(file, MOST - 1, 1)]
    out += [case(file + record((0, 0), number), MOST, 1) for number in (0, 65535)] + [case(b"", 0, MOST), case(file + b"H", MOST), case(file, MOST + 1)]
    return out + [case(file[:-BAR.size] + record((0, 0), 65534), MOST), case(file[:-BAR.size] + record((NAN, 0), 65535), MOST)]

def small_cases():
    """those above, but the largest and the changes of a byte"""
    kinds = good_cases, cut_cases, number_cases, place_cases, price_cases, mark_cases, slice_cases, fill_cases, buffer_cases
    return [c for kind in kinds for c in kind()]

# ---- generated

def price(r):
    return r.choice([bits(float(r.randrange(-9, 10)) + 0.0), bits(r.uniform(-1e6, 1e6)), r.choice(BORDER)])

def odd_or(r, share, bar):
    """a bar, its prices at times odd"""
    return tuple(r.choice(EACH_ODD) if r.random() < share else x for x in bar)

def spoilt_file(r, bars):
    """a file with something wrong: cut, a byte changed, left out or put in, a wrong number, an odd price, another mark, a bar twice, or any bytes"""
    how, n = r.randrange(9), len(bars)
    k = r.randrange(n) if n else 0
    file = bytearray(pack(bars))
    at = r.randrange(len(file)) if file else 0
    if how == 0 or not file:
        return bytes(file[:at]) if file else bytes(r.choice(b"HL\0\1") for _ in range(r.randrange(40)))
    if how == 1:
        file[at] = r.randrange(256)
    elif how == 2:
        del file[at]
    elif how == 3:
        file[at:at] = bytes([r.choice(b"HLSTBR\0\1\xff")])
    elif how == 4:
        return misnumbered(bars, k, r.choice([0, 1, max(0, k - 1), k + 1, k + 2, n, 256 * (k % 256), 65535, r.randrange(65536)]))
    elif how == 5:
        return pack(bars[:k] + [odd_or(r, 0.6, bars[k])] + bars[k + 1:])
    elif how == 6:
        file[BAR.size * k:BAR.size * k + 2] = r.choice([b"BR", b"ST", b"SG", b"hl", b"LH", b"\0\0"])
    elif how == 7:
        file[BAR.size * k:BAR.size * k] = file[BAR.size * k:BAR.size * (k + 1)]
    else:
        return bytes(r.choice(b"HHLL\0\0\0\1\xf0\x7f\x80") for _ in range(r.randrange(60)))
    return bytes(file)

def near(r, n, most):
    """a number that is mostly n, or near it"""
    return min(most, max(0, r.choice([n, n, n, n, n, n + 1, n + r.randrange(9), n - 1, 0])))

def generated(seed, i):
    """a file with few bars, seldom some hundreds or thousands, as it is or spoilt; slices, buffer and fill that fit or not"""
    r = random.Random(f"bars {seed} {i}")
    n = r.randrange(256, 3000) if r.random() < 0.01 else r.choice([0, 1, 2, 3, r.randrange(12)])
    bars = [(price(r), price(r)) for _ in range(n)]
    file = spoilt_file(r, bars) if r.random() < 0.4 else pack(bars)
    a = near(r, n, MOST + 1) if r.random() < 0.97 else r.choice([MOST - 1, MOST, MOST + 1])
    b = a if r.random() < 0.95 else near(r, n, MOST + 1)
    w = near(r, n, MOST + 1)
    x = w if r.random() < 0.9 else near(r, n, MOST + 1)
    m = near(r, BAR.size * w, 65536)
    fill = odd_or(r, 0.2, (price(r), price(r)))
    c = Case(a, b, w, x, m, *fill, file)
    return c._replace(high=bits(1.0), low=MINUS_ZERO) if shows_nan(c) else c
