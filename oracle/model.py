"""A model of document 01, independent of the definitions, with a switch for each reading that is rejected (SW holds those that are on): where a
switch changes an answer, the chart tells the two readings apart. The facts of crates/rules/proofs/Readings.antt and Borders.antt were found so.
A chart: strokes (d, start bar, end bar, start price, end price, roll), segs, bigs, sups (d, first, last), highs, lows. Nothing here asks for the roll."""
import inspect, re, struct
from collections import namedtuple
import bars_file
from bars_file import Refused
Chart = namedtuple('Chart', 'strokes segs bigs sups highs lows')
Zone = namedtuple('Zone', 'sup start end zd zg dd gg first members dd_bar gg_bar')
SW = set()
def on(s): return s in SW
def of(c):
    """the model's chart of one of charts.py"""
    return Chart(c.strokes, c.segments, c.bigs, c.superiors, [h for h, l in c.bars], [l for h, l in c.bars])

def get(l, i): return l[i] if 0 <= i < len(l) else None

# ---- ranges
def first_stroke(c, b):
    s = get(c.segs, b[1]); return None if s is None else get(c.strokes, s[1])
def last_stroke(c, b):
    s = get(c.segs, b[2]); return None if s is None else get(c.strokes, s[2])
def rng(c, b):
    """(low, high, start bar, end bar, bar of the low, bar of the high) or None"""
    if b[1] > b[2] and not on('range-any-order'): return None
    s, e = first_stroke(c, b), last_stroke(c, b)
    if s is None or e is None: return None
    if on('range-of-first-stroke'): e = s
    if on('range-of-last-stroke'): s = e
    return (min(s[3], e[4]), max(s[3], e[4]), s[1], e[2], *range_bars(s[3], s[1], e[4], e[2]))
def range_bars(p, start, q, end):
    """02, request 6: which of the two bars, with the prices p and q, gave the low and which the high; the start bar where both prices are equal"""
    if p == q and on('range-tie-end'): return (end, end)
    if p == q and on('range-tie-smaller'): return (min(start, end),) * 2
    if p == q and on('range-tie-each'): return (start, end)
    return (start, start) if p == q else (start, end) if p < q else (end, start)
def end_point(c, i):
    """the last stroke of a big's last segment, or None"""
    b = get(c.bigs, i)
    if b is None or on('end-point-needs-range') and rng(c, b) is None: return None
    return last_stroke(c, b)
def ranges(c):
    """of each big, its range and its end point"""
    return [(rng(c, b), end_point(c, i)) for i, b in enumerate(c.bigs)]
def asked(*functions):
    """the switches that functions ask for"""
    return list(dict.fromkeys(re.findall(r"on\('([^']+)'\)", ''.join(map(inspect.getsource, functions)))))
def range_switches():
    return asked(rng, range_bars, end_point)

# ---- zones
def stroke_bars(c, j, price):
    """every bar at which a stroke of big j starts or ends at a price"""
    strokes = [t for s in c.segs[c.bigs[j][1]:c.bigs[j][2] + 1] for t in c.strokes[s[1]:s[2] + 1]]
    return [bar for t in strokes for p, bar in ((t[3], t[1]), (t[4], t[2])) if p == price]
def extreme(c, price, ms):
    """02, request 6: the bar of a zone's dd or gg, the smallest among its members on equal prices. ms: of each member its index, its price of the kind, the
    bar of that, and its range"""
    bars = [bar for _, p, bar, _ in ms if p == price]
    if on('zone-tie-first'): return bars[0]
    if on('zone-tie-last'): return bars[-1]
    if on('zone-tie-larger'): return max(bars)
    if on('zone-first-member'): return ms[0][2]
    if on('zone-least-of-all'): return min(bar for _, _, bar, _ in ms)
    if on('zone-tie-both-bars'): bars += [r[3] for _, p, _, r in ms if p == price and r[0] == r[1]]
    if on('zone-tie-every-bar'): bars += [bar for j, p, _, _ in ms if p == price for bar in stroke_bars(c, j, price)]
    return min(bars)
def with_bars(c, z, ms):
    """a zone of members (index, range) with the bars of its dd and gg"""
    return z._replace(dd_bar=extreme(c, z.dd, [(j, r[0], r[4], r) for j, r in ms]), gg_bar=extreme(c, z.gg, [(j, r[1], r[5], r) for j, r in ms]))
def zones(c):
    out = []
    for h, s in enumerate(c.sups):
        if s[2] >= len(c.bigs) and not on('zones-not-skipped'): continue
        ms = []
        for j in range(s[1], min(s[2], len(c.bigs) - 1) + 1):
            if c.bigs[j][0] == s[0]: continue
            r = rng(c, c.bigs[j])
            if r is None:
                if on('missing-counts') and ms: ms.append((j, ms[-1][1]))
                continue
            ms.append((j, r))
        z, run = None, []
        for j, r in ms:
            if z is None: joins = False
            elif z.members == 1:
                lo, hi = max(z.zd, r[0]), min(z.zg, r[1])
                joins = lo < hi or (on('touch-founds') and lo <= hi)
            else:
                joins = (r[0] < z.zg and r[1] > z.zd) if on('touch-no-extend') else (r[0] <= z.zg and r[1] >= z.zd)
            if joins:
                zd, zg = z.zd, z.zg
                if z.members == 1: zd, zg = max(zd, r[0]), min(zg, r[1])
                elif on('narrow-zd'): zd = max(zd, r[0])
                elif on('narrow-zg'): zg = min(zg, r[1])
                dd, gg = z.dd if on('dd-not-widened') else min(z.dd, r[0]), z.gg if on('gg-not-widened') else max(z.gg, r[1])
                z = Zone(h, z.start, z.end if on('end-not-moved') else r[3], zd, zg, dd, gg, z.first, z.members + 1, None, None)
                run.append((j, r))
            else:
                if z is not None: out.append(with_bars(c, z, run))
                z, run = Zone(h, r[2], r[3], r[0], r[1], r[0], r[1], j, 1, None, None), [(j, r)]
        if z is not None: out.append(with_bars(c, z, run))
    return out
def zone_switches():
    """the switches that zones ask for, but those of the ranges' prices"""
    return asked(range_bars, zones, extreme)

def members(c, z):
    s = c.sups[z.sup]
    js = [j for j in range(s[1], min(s[2], len(c.bigs) - 1) + 1) if c.bigs[j][0] != s[0] and rng(c, c.bigs[j]) is not None and j >= z.first]
    return js[:z.members]
def ties(c):
    """what decides the bars of low and high, of dd and gg"""
    spans, out, zs = [rng(c, b) for b in c.bigs], set(), zones(c)
    for low, high, start, end, *_ in filter(None, spans):
        if low == high and start != end: out.add('a range with equal prices and different bars')
        if low == high and start > end: out.add('such a range whose end bar is smaller')
    for z in zs if len(zs) <= 256 else []:
        own = [spans[j] for j in members(c, z)]
        for k, price, bar in ((0, z.dd, z.dd_bar), (1, z.gg, z.gg_bar)):
            bars = [r[4 + k] for r in own if r[k] == price]
            if len(set(bars)) > 1: out.add('a tie between members with different bars')
            if bar < bars[0]: out.add('a tie whose smallest bar is a later member\'s')
            if any(r[0] == r[1] == price and r[3] < bar for r in own): out.add('a level member whose end bar is smaller than the bar')
            if bar == 65535: out.add('a bar 65,535 of dd or gg')
            if bar > min(r[4 + k] for r in own): out.add('a smaller bar of a member with another price')
    return out

# ---- the scan
def scan(c, zs, z):
    h = c.sups[z.sup]
    k = None
    for j in range(h[1], h[2] + 1):
        b = get(c.bigs, j)
        r = None if b is None else rng(c, b)
        if r is None:
            if on('r5-missing-starts'): k = j; break
            if on('r5-missing-ends-search'): k = h[2] + 1; break
            continue
        if (r[2] > z.end) if on('leave-strict') else (r[2] >= z.end): k = j; break
    if k is None and on('none-found-no-scan'): return []
    if k is None: k = h[2] + 1
    if on('r6-only-later'): others = [y for y in zs if y.sup > z.sup and y.start > z.end]
    elif on('zone-stop-same-superior'): others = [y for y in zs if y.start > z.end]
    elif on('zone-stop-from-end'): others = [y for y in zs if y.sup != z.sup and y.start >= z.end]
    elif on('zone-stop-any-start'): others = [y for y in zs if y.sup != z.sup]
    else: others = [y for y in zs if y.sup != z.sup and y.start > z.end]
    stop1 = None
    if others: stop1 = others[0].start if on('r6-first-zone') else min(y.start for y in others)
    if on('no-zone-stop'): stop1 = None
    ends = []
    for i, s in enumerate(c.sups):
        if i <= z.sup and not (on('reversal-any-index') and i != z.sup): continue
        if s[0] == h[0] and not on('reversal-any-direction'): continue
        if s[1] > s[2] and not on('reversal-any-order'): continue
        e = end_point(c, s[2])
        if e is None or on('reversal-needs-range') and rng(c, c.bigs[s[2]]) is None: continue
        if e[2] > z.end or (on('reversal-from-end') and e[2] >= z.end): ends.append(e[2])
    stop2 = None
    if ends: stop2 = min(ends) if on('r6-least-end') else ends[0]
    if on('no-reversal'): stop2 = None
    if on('r6-last-end') and ends: stop2 = ends[-1]
    out = []
    while k + 1 < len(c.bigs) - on('last-pair-left-out'):
        if on('r4-not-past-last') and k > h[2]: break
        skip = c.bigs[k][0] != h[0]
        if on('no-skip'): skip = False
        if skip and on('r4-skip-missing') and rng(c, c.bigs[k + 1]) is None: k += 1; continue
        if on('r4-next-opposite') and c.bigs[k + 1][0] == h[0]: skip = True
        r = rng(c, c.bigs[k + 1])
        if r is None:
            if on('missing-goes-on'): k += 1; continue
            break
        if skip and on('r4-skip-first'): k += 1; continue
        if stop1 is not None and ((r[3] > stop1) if on('zone-stop-strict') else (r[3] >= stop1)): break
        if stop2 is not None and ((r[3] > stop2) if on('reversal-strict') else (r[3] >= stop2)): break
        if not skip: out.append(r[3])
        k += 1
    return out

def price_at(c, buy, bar): return (c.lows if buy != on('price-other-side') else c.highs)[bar]
def inside(c, bars):
    """the bars up to the first outside the slices, where that one ends a scan"""
    if not on('outside-ends'): return bars
    return bars[:next((i for i, b in enumerate(bars) if b >= len(c.lows)), len(bars))]
def beats(c, buy, p, bar):
    x = get(c.lows if buy else c.highs, bar)
    if x is None: return False
    if on('hit-equal'): return x >= p if buy else x <= p
    return x > p if buy else x < p

# ---- third marks: (buy, bar, price, ground kind, ground)
def anchors(c):
    if not c.sups: return []
    s = c.sups[0]
    if on('r7-none-if-skipped') and s[2] >= len(c.bigs): return []
    if on('r7-none-if-turned') and s[1] > s[2]: return []
    if on('r7-none-if-behind') and s[1] >= len(c.bigs): return []
    idx = range(0, min(s[1] + on('anchor-first-too'), len(c.bigs)))
    if on('anchor-opposite-only'): idx = [i for i in idx if c.bigs[i][0] != s[0]]
    if on('anchor-last-only'): idx = list(idx)[-1:]
    out = []
    for i in idx:
        if on('anchor-needs-range') and rng(c, c.bigs[i]) is None: continue
        e = end_point(c, i)
        if e is not None: out.append((i, e))
    return out
def ends_after(c, up, i, bar):
    """(index, last stroke) of the bigs of a direction that end after the bar"""
    out = []
    for j, b in enumerate(c.bigs):
        if (b[0] == 1) != up: continue
        if on('r7-earlier-bigs') and j >= c.sups[0][1]: continue
        if on('r7-later-bigs') and j < c.sups[0][1]: continue
        if on('r7-after-by-index') :
            if j <= i: continue
        e = last_stroke(c, b)
        if e is None: continue
        if not on('r7-after-by-index') and not (e[2] > bar or (on('anchor-from-bar') and e[2] >= bar)): continue
        out.append((j, e))
    return out
def anchor_c(c, buy, a):
    es = ends_after(c, buy, a[0], a[1][2])
    if not es: return None
    return min(es, key=lambda x: x[1][2]) if on('r7-first-by-bar') else es[0]
def anchor_bars(c, buy, a, C):
    es = ends_after(c, not buy, a[0], a[1][2])
    if on('r7-retest-behind-bar'): es = [x for x in es if x[1][2] > C[1][2]]
    if on('r7-retest-behind-index'): es = [x for x in es if x[0] > C[0]]
    return [x[1][2] for x in es]
def anchor_side(c): return c.sups[0][0] == 1 if c.sups else True

def third(c, with_anchors=True):
    zs = zones(c)
    out = []
    def add(m):
        for i, x in enumerate(out):
            if x[1] == m[1] and (x[0] == m[0] or on('repeat-bar-only')):
                kept = {('zone', 'zone'): on('r3-keep-zone-zone'), ('zone', 'anchor'): on('r3-keep-zone-anchor'), ('anchor', 'anchor'): on('r3-keep-anchor-anchor')}
                if kept[x[3], m[3]]: continue
                if on('r3-later-ground'): out[i] = m
                return False
        out.append(m); return True
    for z in zs:
        buy = c.sups[z.sup][0] == 1
        edge = z.zg if buy else z.zd
        if on('edge-swapped'): edge = z.zd if buy else z.zg
        if on('edge-outer'): edge = z.gg if buy else z.dd
        for bar in inside(c, scan(c, zs, z)):
            if beats(c, buy, edge, bar):
                new = add((buy, bar, price_at(c, buy, bar), 'zone', edge))
                if on('r3-repeat-goes-on') and not new: continue
                if on('third-all-hits'): continue
                break
    if not with_anchors: return out
    buy = anchor_side(c)
    for a in anchors(c):
        C = anchor_c(c, buy, a)
        if C is None: continue
        p = C[1][3] if on('anchor-c-start') else C[1][4]
        for bar in inside(c, anchor_bars(c, buy, a, C)):
            if beats(c, buy, p, bar):
                m = (buy, bar, price_at(c, buy, bar), 'anchor', p)
                if on('r3-anchors-repeat'): out.append(m)
                else: add(m)
                if not on('third-all-hits'): break
    return out

def third_switches():
    """the switches that third marks ask for, but those of the zones"""
    return asked(rng, scan, price_at, inside, beats, anchors, ends_after, anchor_c, anchor_bars, third)

# ---- 3+N: (buy, order, bar, price)
EVENTS = set()  # what the rows of the last call of n3 do not show of it
def push(out, buy, bar, price, order):
    """whether the row is new"""
    for i, m in enumerate(out):
        if (m[0] == buy or on('push-bar-only')) and m[2] == bar:
            better = order > m[1] if on('repeat-larger') else order < m[1]
            if on('repeat-first-stays'): better = False
            if on('repeat-last-stays'): better = True
            if better:
                EVENTS.add('a smaller order replaces a larger')
                if on('repeat-moves'): del out[i]; out.append((buy, order, bar, price))
                else: out[i] = (buy, order, bar, price)
            return False
    out.append((buy, order, bar, price)); return True

def superior_bars(c, zs, h):
    """the bars of the pairs that the scans of a superior's zones pass, unique and sorted"""
    bars = []
    for z in zs:
        if z.sup == h: bars += scan(c, zs, z)
    if len(bars) > len(set(bars)): EVENTS.add('a bar of two zones of a superior')
    seen = []
    for b in bars:
        if b not in seen or on('bars-not-unique'): seen.append(b)
    return seen if on('bars-not-sorted') else sorted(seen)

def own_hits(c, zs, h):
    """the bars of the third marks of a superior's own zones"""
    buy = c.sups[h][0] == 1
    out = set()
    for z in zs:
        if z.sup == h:
            hits = [b for b in scan(c, zs, z) if beats(c, buy, z.zg if buy else z.zd, b)]
            out |= set(hits[:1])
    return out

def to_number(c, zs, th, h, bars):
    """those of a superior's bars that come after the first order-0 mark of its side"""
    buy = c.sups[h][0] == 1
    sides = [m[1] for m in th if m[0] == buy or on('zero-any-side')]
    if on('r1-own-zones-only'): sides = own_hits(c, zs, h)
    if on('r1-none-needed'): return bars
    if on('r1-anywhere'): return [b for b in bars if sides and b > min(sides)]
    if on('r1-first-row'): return [b for b in bars if sides and b > sides[0]]
    i = next((i for i, b in enumerate(bars) if b in sides), None)
    if i is None: return []
    if bars[i] not in own_hits(c, zs, h): EVENTS.add("numbered behind a mark that is not of the superior's zones")
    if on('r1-last-zero'): i = max(i for i, b in enumerate(bars) if b in sides)
    return bars[i + 1:]

def superior_rows(c, zs, th, out):
    order = 1
    hs = range(len(c.sups))
    for h in reversed(hs) if on('superiors-descending') else hs:
        buy = c.sups[h][0] == 1
        if on('numbered-count-as-zero'): th = [(m[0], m[2]) for m in out]
        if not on('order-goes-on'): order = 1
        for b in to_number(c, zs, th, h, superior_bars(c, zs, h)):
            if any(m[0] == buy and m[1] == b for m in th):
                EVENTS.add('an order-0 mark among the numbered')
                if on('zeros-take-number'): order += 1
                if on('zeros-restart'): order = 1
                if not on('zeros-numbered'): continue
            zg = [z.zg if buy else z.zd for z in zs if z.sup == h]
            if on('filter-by-zg') and not any(beats(c, buy, p, b) for p in zg): continue
            new = push(out, buy, b, price_at(c, buy, b), order)
            if not new: EVENTS.add("a superior's repeat uses up a number")
            if on('r9-superiors-new-rows-only') and not new: continue
            order += 1

def anchor_limit(c):
    """the end bar of the first superior against the side"""
    buy = anchor_side(c)
    if on('no-limit'): return None
    against = [s for s in c.sups if ((s[0] == 1) == buy) == on('limit-same-side')]
    if on('r8-limit-last'): against = against[::-1]
    for s in against:
        e = end_point(c, s[2])
        if on('r8-limit-needs-range') and e is not None and rng(c, c.bigs[s[2]]) is None: e = None
        if on('r8-limit-in-order') and s[1] > s[2]: e = None
        if e is None and on('r8-limit-first-with-end'): continue
        if e is None: EVENTS.add('a first opposite superior without an end point')
        return None if e is None else e[2]
    return None

def anchor_rows(c, out):
    buy, lim = anchor_side(c), anchor_limit(c)
    for a in anchors(c):
        C = anchor_c(c, buy, a)
        if C is None: continue
        order = 1 if on('anchor-from-one') else 0
        bars = anchor_bars(c, buy, a, C)
        if on('r8-bars-sorted'): bars = sorted(bars)
        hits = 0
        for i, bar in enumerate(bars):
            at = lim is not None and ((bar > lim) if on('limit-strict') else (bar >= lim))
            hit = beats(c, buy, C[1][4], bar)
            if at and any(b < lim and beats(c, buy, C[1][4], b) for b in bars[i:]):
                EVENTS.add("an anchor's stop at a %s with a hit behind it" % ('hit' if hit else 'non-hit'))
            if at and on('r8-filter'): continue
            if at and on('r8-hits-stop') and not hit: continue
            if at and on('r8-misses-stop') and hit: continue
            if at: break
            if not hit:
                if on('misses-take-number'): order += 1
                if on('first-miss-stops'): break
                continue
            hits += 1
            new = push(out, buy, bar, price_at(c, buy, bar), order)
            if on('anchor-first-hit-only'): break
            if on('r9-anchors-new-rows-only') and not new: continue
            order += 1
            if not new: EVENTS.add("an anchor's repeat uses up a number")
        if hits > 1: EVENTS.add('an anchor with several hits')

def n3(c):
    EVENTS.clear()
    zs = zones(c)
    th = third(c, with_anchors=not on('r2-zone-marks-only'))
    out = [] if on('anchors-before-zeros') else [(m[0], 0, m[1], m[2]) for m in th]
    if c.sups and (on('anchors-before-superiors') or on('anchors-before-zeros')): anchor_rows(c, out)
    if on('anchors-before-zeros'):
        for m in th: push(out, m[0], m[1], m[2], 0)
    superior_rows(c, zs, th, out)
    if c.sups: anchor_rows(c, out)
    return out

def n3_switches():
    """the switches that 3+N marks ask for, but those of the zones and of third marks"""
    return asked(push, superior_bars, to_number, superior_rows, anchor_limit, anchor_rows, n3)

# ---- labels
def col_name(n):
    s = chr(65 + n % 26)
    return s if n < 26 else col_name(n // 26 - 1) + s
def labels(c):
    out, last, sup, nxt, prev = [], None, None, 0, None
    for z in zones(c):
        if z.sup != sup and not on('names-go-on'): sup, last, nxt, prev = z.sup, None, 0, None
        bs = c.bigs
        if on('l-own-bigs'): bs = c.bigs[c.sups[z.sup][1]:c.sups[z.sup][2] + 1]
        n = 0
        for b in bs:
            r = rng(c, b)
            if r is None: continue
            t = (r[2] < z.end and r[3] > z.start) if on('touch-strict') else (r[2] <= z.end and r[3] >= z.start)
            n += t
        lone = 'L' if (n == 2 if on('l-two') else n == 1) else ''
        if on('l-members'): lone = 'L' if z.members == 1 else ''
        ref = prev if on('label-last-zone') else last
        if on('label-equal'): apart = ref is None or z.dd >= ref.gg or z.gg <= ref.dd
        elif on('label-one-side'): apart = ref is None or z.dd > ref.gg
        elif on('label-zd-zg'): apart = ref is None or z.zd > ref.zg or z.zg < ref.zd
        else: apart = ref is None or z.dd > ref.gg or z.gg < ref.dd
        if apart: out.append(lone + col_name(nxt)); nxt += 1; last = z
        else:
            out.append(lone + '扩')
            if on('ext-takes-name'): nxt += 1
        prev = z
    return out

# ---- classes: items (up, start, end); classes [first, last, up, case3, extended, adjacent]
def seg_items(c): return [] if len(c.segs) < 2 else [(s[0] == 1, c.strokes[s[1]][3], c.strokes[s[2]][4]) for s in c.segs]
def big_items(c): return [] if len(c.bigs) < 2 else [(b[0] == 1, first_stroke(c, b)[3], last_stroke(c, b)[4]) for b in c.bigs]
def gt(up, a, b): return a > b if up else a < b
def ge(up, a, b): return a >= b if up else a <= b
def case2(items, i):
    up, start, top = items[i]
    for j in range(i + 1, len(items)):
        y = items[j]
        if y[0] != up: continue
        fails = (gt(up, start, y[1])) if on('fail-strict') else ge(up, start, y[1])
        ends = ge(up, y[2], top) if on('end-equal') else gt(up, y[2], top)
        if on('end-first') and ends: return j
        if fails: return None
        if ends: return j
        if on('top-is-best'): top = y[2] if gt(up, y[2], top) else top
        elif on('top-stays'): pass
        else: top = y[2]
    return None
def case3(items, k, x):
    if k is None or k[2] == x[0]: return False
    y = items[k[0]]
    if on('case3-equal'): return ge(x[0], x[2], y[1])
    if on('case3-other-end'): return gt(x[0], x[2], y[2])
    return gt(x[0], x[2], y[1])
def classes(byte, items):
    if len(items) < 2: return []
    out, i = [], 0
    while i < len(items):
        k = out[-1] if out else None
        x = items[i]
        ok = (k is None and not (on('up-only-first') and not x[0])) or (k is not None and x[0] != k[2])
        if on('both-always'): ok = True
        if not ok: i += 1; continue
        c3 = case3(items, k, x)
        e2 = case2(items, i)
        use3 = byte and c3
        if on('case2-first') and e2 is not None: use3 = False
        if use3: e = i
        elif e2 is not None: e = e2
        else: i += 1; continue
        kc2 = case2(items, k[0]) if k is not None else None
        adj = c3 and kc2 is not None and kc2 + 1 == i
        if on('adjacent-needs-byte'): adj = adj and byte
        if on('adjacent-needs-case3'): adj = adj and use3
        if on('adjacent-no-compare'): adj = k is not None and kc2 is not None and kc2 + 1 == i
        if on('adjacent-class-end'): adj = c3 and k is not None and k[1] + 1 == i
        if on('adjacent-case2-only'): adj = adj and not k[3]
        out.append([i, e, x[0], use3, False, adj])
        i = e if on('walk-from-end') else e + 1
        if on('walk-from-end') and e == out[-1][0]: i = e + 1
    starts = [k[0] for k in out]
    for n, k in enumerate(out):
        nxt = starts[n + 1] if n + 1 < len(out) else len(items)
        if on('extend-past-next'): nxt = len(items)
        base = items[k[1]][2]
        for j in range(k[1] + 1, nxt):
            y = items[j]
            if y[0] != k[2]: continue
            cur = base if on('extend-over-first-end') else items[k[1]][2]
            if (gt(k[2], y[2], cur) if on('extend-strict') else ge(k[2], y[2], cur)): k[1] = j; k[4] = True
            elif on('extend-stops'): break
    if on('adjacent-extended'):
        for n in range(1, len(out)):
            k, x = out[n - 1], out[n]
            out[n][5] = case3(items, k, items[x[0]]) and k[1] + 1 == x[0]
    return out
def first_marks(c, byte, buy):
    items = big_items(c)
    ks = classes(byte, items)
    raw = None
    out = []
    for q, n in zip(ks, ks[1:]):
        if q[2] != buy or not q[3]: continue
        if not q[5] and not on('first-not-adjacent'): continue
        if q[4] and not on('first-extended-too'): continue
        if n[2] == buy: continue
        if n[3] and not on('first-case3-too'): continue
        end = n[1]
        if on('first-unextended-end'): end = case2(items, n[0]) if not n[3] else n[0]
        e = last_stroke(c, c.bigs[end])
        ref = items[q[0]][1] if not on('first-against-end') else items[q[0]][2]
        if not (ge(buy, e[4], ref) if on('first-equal') else gt(buy, e[4], ref)): continue
        out.append((e[2], e[4]))
    if not on('first-unsorted'): out.sort(key=lambda m: m[0])
    keep = []
    for m in out:
        i = next((i for i, x in enumerate(keep) if x[0] == m[0]), None)
        if i is None: keep.append(m)
        elif on('first-last-kept'): keep[i] = m
    return keep

# ---- all sections, as oracle/main.rs prints them
def hx(x): return '%016X' % struct.unpack('>Q', struct.pack('>d', float(x)))[0]
def side(b): return 'buy' if b else 'sell'
def section(head, rows): return [f'{head} {len(rows)}'] + rows
def tried(head, rows):
    """10: two items or more, and one of them lacks a stroke or a segment"""
    try: return section(head, rows())
    except (TypeError, IndexError): return [f'{head} refused 10']
def class_rows(byte, items): return [f'{k[0]} {k[1]} {int(k[2])} {3 if k[3] else 2} {int(k[4])} {int(k[5])}' for k in classes(byte, items)]
def nine(c):
    """some stroke's end bar is outside the slices"""
    return any(s[2] >= len(c.highs) for s in c.strokes)
def range_row(r, e):
    span = 'missing' if r is None else f'{r[2]} {r[3]} {hx(r[0])} {hx(r[1])} {r[4]} {r[5]}'
    return span + (' none' if e is None else f' {e[2]} {hx(e[4])}')
def zone_row(z): return f'{z.sup} {z.start} {z.end} {hx(z.zd)} {hx(z.zg)} {hx(z.dd)} {hx(z.gg)} {z.first} {z.members} {z.dd_bar} {z.gg_bar}'
def report(c, passed=0):
    zs = zones(c)
    many = len(zs) > 256
    o = [f'PASSED {passed}'] + section('RANGES', [range_row(r, e) for r, e in ranges(c)])
    o += ['ZONES refused 11'] if many else section('ZONES', [*map(zone_row, zs)])
    o += ['THIRD refused 11'] if many else section('THIRD', [f'{side(m[0])} {m[1]} {hx(m[2])} {m[3]} {hx(m[4])}' for m in third(c)])
    if nine(c): o += ['THREEN refused 9']
    elif many: o += ['THREEN refused 11']
    else: o += section('THREEN', [f'{side(m[0])} {m[1]} {m[2]} {hx(m[3])}' for m in n3(c)])
    o += ['LABELS refused 11'] if many else section('LABELS', labels(c))
    for head, items in (('seg', seg_items), ('big', big_items)):
        for b in (0, 1): o += tried(f'CLASSES {head} case3={b}', lambda: class_rows(b, items(c)))
    for head, buy in (('FIRSTBUY', True), ('FIRSTSELL', False)):
        for b in (0, 1): o += tried(f'{head} case3={b}', lambda: [f'{m[0]} {hx(m[1])}' for m in first_marks(c, b, buy)])
    return o

# ---- the program marks: what it prints for a chart file and a bars file (02, requests 2 and 14)
SIZES = {b'ST': (21, 512), b'SR': (21, 512), b'SG': (5, 256), b'BG': (5, 256), b'SU': (5, 256), b'BR': (16, None)}
def read(data):
    """the chart in a file, without bars, and how many BR were passed over"""
    rows = {kind: [] for kind in SIZES}
    passed = at = 0
    while at < len(data):
        kind = data[at:at + 2]
        if len(kind) < 2: raise Refused(13, at)
        if kind not in SIZES: raise Refused(12, at)
        width, places = SIZES[kind]
        level = rows[b'ST' if kind == b'SR' else kind]
        r = data[at + 2:at + 2 + width]
        if len(r) < width: raise Refused(13, at)
        if kind == b'BR': passed += 1
        else:
            if len(level) == places: raise Refused(3, at)
            if r[0] > 1: raise Refused(2, at)
            prices = [int.from_bytes(r[i:i + 8], 'little') for i in range(5, width, 8)]
            if not all(map(bars_file.is_price, prices)): raise Refused(1, at)
            roll = [int(kind == b'SR')] if prices else []
            level.append((r[0], r[1] + 256 * r[2], r[3] + 256 * r[4], *map(bars_file.value, prices), *roll))
        at += 2 + width
    return Chart(rows[b'ST'], rows[b'SG'], rows[b'BG'], rows[b'SU'], [], []), passed
def files(chart, bars):
    """the chart of two files, with the bars of the second, and how many BR were passed over in the first"""
    if len(chart) > 65536: raise Refused(3, 65536)
    c, passed = read(chart)
    rows = bars_file.read(bars, 2048)
    return c._replace(highs=[bars_file.value(h) for h, _ in rows], lows=[bars_file.value(l) for _, l in rows]), passed
def refused_at(chart):
    """the number with which a chart file is refused, or 0, and the mark there, if it is not too long"""
    try: files(chart, b'')
    except Refused as refusal:
        number, at = refusal.args
        return number, chart[at:at + 2] if at < 65536 else b''
    return 0, b''
def marks(chart, bars):
    """what the program marks must print for two files, as bytes"""
    try: c, _ = files(chart, bars)
    except Refused as refusal: return b'refused %d at %d\n' % refusal.args
    if nine(c): return b'refused 9 at 0\n'
    if len(zones(c)) > 256: return b'refused 11 at 0\n'
    rows = [f'{side(m[0])} {m[1]} {m[2]} {hx(m[3])}' for m in n3(c)]
    return '\n'.join(['side order bar price'] + rows + ['']).encode()
