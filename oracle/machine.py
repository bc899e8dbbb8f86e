"""Document 01's plain machine, fed with calls alone, and what the program `replay` must print of a log. Zones, classes and marks are model.py's.
A call is a letter and its fields, in the order of the log: S add stroke (the roll byte last), G B U add segment, big, superior, L lengthen, W withdraw,
D E derive bigs and superiors. Q is no call: its high and low are one more bar of the slices that the marks are asked with. An entry of a log is a call or a
Q. A price is its 64 bits; comparisons are those of floats. SW holds the wrong readings that are on, as in model.py."""
import struct
import model
from bars_file import value

SIZES = (512, 256, 256, 256)
MOST = 0xFFFFFFFF   # where the count stops
ROOM = 65536        # bytes that a log has at most
BARS = 2048         # bars that a log has at most
FIELDS = {c: struct.Struct(f) for c, f in (
    ('S', '<BHHQQB'), ('G', '<BHH'), ('B', '<BHH'), ('U', '<BHH'), ('L', '<H'), ('W', '<B'), ('D', '<B'), ('E', '<B'), ('Q', '<QQ'))}
LEVEL = {'S': 0, 'G': 1, 'B': 2, 'U': 3, 'D': 2, 'E': 3}
NAMES = ('stroke', 'segment', 'big', 'superior')
# the numbers of each call in their order, 01's and 02's (request 2)
ORDER = {'S': (3, 2, 1, 4, 14), 'G': (3, 2, 4, 5), 'B': (3, 2, 4, 5), 'U': (3, 2, 4, 5), 'L': (7, 4, 5), 'W': (2, 7, 6), 'D': (2, 6), 'E': (2, 6)}
SW = set()
def on(s): return s in SW

def is_price(bits):
    """finite and not −0"""
    finite = bits >> 52 & 0x7FF != 0x7FF
    if SW:
        if on('nan-a-price') and not finite and bits & 0xFFFFFFFFFFFFF: return True
        if on('infinity-a-price') and not finite and not bits & 0xFFFFFFFFFFFFF: return True
        if on('minus-zero-a-price') and bits == 1 << 63: return True
        if on('zero-no-price') and bits == 0: return False
        if on('subnormal-no-price') and bits and not bits >> 52 & 0x7FF: return False
    return finite and bits != 1 << 63

# ---- what refuses a call: 01's numbers in 01's order, each with whether its condition holds

def is_full(m, letter):
    off = on(letter + ' full one later') - on(letter + ' full one earlier')
    return len(m.levels[LEVEL[letter]]) >= SIZES[LEVEL[letter]] + off

def not_a_direction(letter, d): return d > 1 + on(letter + ' direction 2 taken')

def not_a_roll(byte): return byte > 1 + on('S roll 2 taken')

def in_no_order(d, a, e, x, y):
    """4 of a stroke from bar a to e, price x to y"""
    if a >= e and not (on('S equal bars taken') and a == e): return True
    if on('S equal prices taken') and x == y: return False
    return d == 1 and not on('S rise not asked') and not y > x or d == 0 and not on('S fall not asked') and not y < x

def not_joined(level, d, a, p, roll):
    """14 of a stroke that starts at bar a and price p; a roll drops the price part, and nothing else"""
    if not level: return roll and on('S first roll refused')
    before = level[-1]
    bar = a != before[2] and not on('S bars need not join') and not (roll and on('S roll drops bars'))
    direction = d == before[0] and not on('S directions may repeat') and not (roll and on('S roll drops direction'))
    price = p != before[4] if on('S joined by bits') else value(p) != value(before[4])
    free = before[5] if on('S roll frees the next joint') else roll and not on('S roll keeps price part') or before[5] and on('S roll frees both joints')
    return bar or price and not on('S prices need not join') and not free or direction

def stroke_tests(m, letter, d, a, e, p, q, roll):
    wrong = not_a_direction(letter, d) or not_a_roll(roll)
    bad = not (is_price(p) or on('S start price any')) or not (is_price(q) or on('S end price any'))
    return (3, is_full(m, letter)), (2, wrong), (1, bad), (4, in_no_order(d, a, e, value(p), value(q))), (14, not_joined(m.levels[0], d, a, p, roll))

def triple_tests(m, letter, d, first, last):
    level, below = m.levels[LEVEL[letter]], m.levels[LEVEL[letter] - 1]
    turned = first > last or on(letter + ' one alone refused') and first == last
    met = bool(level) and first <= level[-1][2] - on(letter + ' touch taken')
    met = met or on(letter + ' gap refused') and first > (level[-1][2] + 1 if level else 0)
    met = met or on(letter + ' same direction refused') and bool(level) and level[-1][0] == d
    return (3, is_full(m, letter)), (2, not_a_direction(letter, d)), (4, turned or met), (5, last >= len(below) + on(letter + ' one behind taken'))

def lengthen_tests(m, letter, last):
    superiors = m.levels[3]
    short = bool(superiors) and last <= superiors[-1][2] - on('L same last taken')
    return (7, not superiors), (4, short), (5, last >= len(m.levels[2]) + on('L one behind taken'))

def withdraw_tests(m, letter, level):
    if level > 3: return (2, True), (7, True), (6, False)
    records, above = m.levels[level], m.levels[level + 1] if level < 3 else []
    held = bool(above) and (above[-1][2] == len(records) - 1 or on('W under any record refused'))
    return (2, False), (7, not records), (6, held and not on('W held record taken'))

def derive_tests(m, letter, byte): return (2, byte > 1 + on(letter + ' byte 2 taken')), (6, bool(m.levels[LEVEL[letter]]) and not on(letter + ' on any level'))

TESTS = {'S': stroke_tests, 'G': triple_tests, 'B': triple_tests, 'U': triple_tests, 'L': lengthen_tests, 'W': withdraw_tests, 'D': derive_tests, 'E': derive_tests}

def order_switches():
    """the switches `LETTER A before B`, for each two numbers of a call that 01 has as B before A"""
    return [f'{letter} {b} before {a}' for letter, ns in ORDER.items() for i, a in enumerate(ns) for b in ns[i + 1:]]

def refusal(m, letter, *fields):
    """the first number whose condition holds, or 0"""
    tests = TESTS[letter](m, letter, *fields)
    for n, holds in tests:
        if holds: return next((a for a, too in tests if too and on(f'{letter} {a} before {n}')), n) if SW else n
    return 0

# ---- the machine

class Machine:
    """strokes (d, start bar, end bar, start price, end price, roll), segments, bigs, superiors (d, first, last), and the count; beside them the bars
    (high, low) of the log, which no call sees"""
    def __init__(self):
        self.levels, self.count, self.bars, self.kept, self.marked = [[], [], [], []], 0, [], None, None

    def chart(self):
        """model.py's chart, with prices as floats"""
        return model.Chart([(d, a, e, value(p), value(q), roll) for d, a, e, p, q, roll in self.levels[0]], *self.levels[1:], [], [])

    def lent(self):
        """the chart with the bars as its slices"""
        return (self.marked or self.chart())._replace(highs=[value(h) for h, _ in self.bars], lows=[value(l) for _, l in self.bars])

    def zones(self):
        """the overlap rule applied afresh"""
        return model.zones(self.chart()) if self.kept is None else self.kept

    def classes(self, letter, byte):
        """what a derive appends: (direction, start, end)"""
        c = self.chart()
        byte = 0 if on(letter + ' byte as 0') else 1 if on(letter + ' byte as 1') else byte
        items = model.seg_items(c) if letter == 'D' or on('E from segments') else model.big_items(c)
        return [(int(k[2]), k[0], k[1]) for k in model.classes(byte, items)]

    def step(self, letter, *fields):
        if letter == 'L':
            d, first, _ = self.levels[3][-1]
            self.levels[3][-1] = (d, first, fields[0])
        elif letter == 'W':
            self.levels[fields[0]].pop()
        elif letter in 'DE':
            self.levels[LEVEL[letter]] += self.classes(letter, *fields)
        else:
            self.levels[LEVEL[letter]].append((*fields[:5], 0) if letter == 'S' and on('S roll not remembered') else fields)

    def call(self, letter, *fields):
        """the number of the call, 0 where it is accepted"""
        number = refusal(self, letter, *fields)
        if number == 0 or on('refused counts'):
            nothing = on(letter + ' of nothing not counted') and not self.classes(letter, *fields)
            self.count = min(MOST, self.count + (not nothing))
        if number == 0:
            self.kept = self.zones() if SW and on('zones kept at ' + letter) else None
            self.step(letter, *fields)
        if on('bars dropped at a call'): self.bars = []
        return number

    def entry(self, letter, *fields):
        """the number of a call; a Q has none"""
        if letter != 'Q': return self.call(letter, *fields)
        self.bars.append(fields[::-1] if on('Q low first') else fields)
        if on('bars newest first'): self.bars.insert(0, self.bars.pop())
        if on('Q counted'): self.count = min(MOST, self.count + 1)
        if on('marks of the chart at the last Q'): self.marked = model.Chart(*map(list, self.chart()))
        return 0 if on('Q answered') else None

# ---- third and 3+N marks over the log's bars

def lent_refusal(m, *numbers):
    """the first of a mark call's numbers that holds, or 0. Not asked: 8, as the slices are equally long, and 11, as superiors of a live chart share no big"""
    bad = any(not (is_price(h) or on('Q high any')) or not (is_price(l) or on('Q low any')) for h, l in m.bars)
    outside = any(s[2] >= len(m.bars) + on('9 one bar later') for s in m.lent().strokes)
    return next((n for n in numbers if {1: bad, 9: outside}[n]), 0)

def third_rows(m):
    """fields of the third marks, or `refused N`"""
    number = lent_refusal(m, 1, 9) if on('third refused 9 too') else lent_refusal(m, 1)
    if number: return [f'refused {number}']
    return [f'{model.side(buy)} {bar} {model.hx(price)} {kind} {model.hx(ground)}' for buy, bar, price, kind, ground in model.third(m.lent())]

def threen_rows(m):
    """fields of the 3+N marks, or `refused N`"""
    number = lent_refusal(m, 9, 1) if on('9 before 1') else lent_refusal(m, 1) if on('9 not asked') else lent_refusal(m, 1, 9)
    if number: return [f'refused {number}']
    return [f'{model.side(buy)} {order} {bar} {model.hx(price)}' for buy, order, bar, price in model.n3(m.lent())]

def mark_lines(m):
    """of a log with a bar, `third` and `threen` lines"""
    if not m.bars and not on('marks without a Q'): return []
    both = [('third', third_rows(m)), ('threen', threen_rows(m))]
    return [f'{name} {row}' for name, rows in (both[::-1] if on('threen before third') else both) for row in rows]

# ---- the program

def spelled(log):
    """the entries of a log, or the offset of the first that is bad: with another letter, cut short, ending behind the 65,536th byte, or a Q too many"""
    if on('behind 65,536 nothing read'): log = log[:ROOM]
    room = len(log) if on('any length taken') else ROOM + on('one byte more taken') - on('one byte fewer taken')
    most = BARS + on('a Q more taken') - on('a Q fewer taken')
    at, bars, entries = 0, 0, []
    while at < len(log):
        letter = chr(log[at])
        fields = FIELDS.get(letter)
        if fields is None and on('unknown letter passed over'): at += 1; continue
        if fields is None: return at
        if len(log) - at - 1 < fields.size:
            if on('cut call left out'): break
            return len(log) if on('offset of the cut') else at
        if at + 1 + fields.size > room: return at
        over = letter == 'Q' and bars == most
        if over and not on('Q too many passed over'): return at
        if not over: entries.append((letter, *fields.unpack_from(log, at + 1)))
        bars += letter == 'Q' and not over
        at += 1 + fields.size
    return entries

def printed(answers, m):
    lines = [*map(str, answers), f'count {m.count}']
    lines += ['stroke %d %d %d %016X %016X %d' % s for s in m.levels[0]]
    lines += ['%s %d %d %d' % (name, *t) for name, level in zip(NAMES[1:], m.levels[1:]) for t in level]
    zones = ['zone ' + model.zone_row(z) for z in m.zones()]
    lines += mark_lines(m) + zones if on('marks before zones') else zones + mark_lines(m)
    return ''.join(line + '\n' for line in lines).encode()

def replayed(log):
    """the bytes that `replay` prints"""
    entries = spelled(log)
    if isinstance(entries, int): return b'bad log at %d\n' % entries
    m = Machine()
    numbers = [m.entry(*e) for e in entries]
    return printed([n for n in numbers if n is not None], m)

# ---- switches

def each(letters, *names): return [f'{letter} {name}' for letter in letters for name in names]

def switches():
    """the wrong readings"""
    adds = each('SGBU', 'full one later', 'full one earlier', 'direction 2 taken')
    adds += each('GBU', 'one alone refused', 'touch taken', 'gap refused', 'same direction refused', 'one behind taken')
    adds += each('S', 'equal bars taken', 'equal prices taken', 'rise not asked', 'fall not asked', 'start price any', 'end price any')
    adds += each('S', 'bars need not join', 'prices need not join', 'directions may repeat', 'joined by bits')
    adds += each(['S roll'], 'keeps price part', 'drops bars', 'drops direction', 'frees the next joint', 'frees both joints', '2 taken', 'not remembered')
    adds += ['S first roll refused']
    prices = ['nan-a-price', 'infinity-a-price', 'minus-zero-a-price', 'zero-no-price', 'subnormal-no-price']
    others = each('L', 'same last taken', 'one behind taken') + each('W', 'under any record refused', 'held record taken')
    others += each('DE', 'byte 2 taken', 'on any level', 'byte as 0', 'byte as 1', 'of nothing not counted') + ['E from segments', 'refused counts']
    whole = ['zones kept at ' + letter for letter in ORDER] + ['unknown letter passed over', 'cut call left out', 'offset of the cut']
    whole += ['behind 65,536 nothing read', 'any length taken', 'one byte more taken', 'one byte fewer taken']
    bars = ['Q low first', 'bars newest first', 'bars dropped at a call', 'Q counted', 'Q answered']
    bars += ['a Q more taken', 'a Q fewer taken', 'Q too many passed over', 'Q high any', 'Q low any']
    bars += ['third refused 9 too', '9 before 1', '9 not asked', '9 one bar later']
    bars += ['marks of the chart at the last Q', 'marks without a Q', 'threen before third', 'marks before zones']
    return order_switches() + adds + prices + others + whole + bars

# No log tells these apart. A new last at or below the present one is a big, so 4 and 5 of lengthen exclude each other; without a superior there is no
# present last. A level that is empty holds no record. Prices that are equal have the same bits. Of the accepted calls only U, L, E and a withdrawal of
# a superior change zones: nothing names what the others append or drop
SILENT = ['L 5 before 4', 'L 4 before 7', 'W 6 before 7', 'W 6 before 2', 'S joined by bits'] + ['zones kept at ' + letter for letter in 'SGBD']
