// Prints what the reference Rust gives for charts. Reading, the refusals, the bars of a range's low and high, a zone's members and the bars of its
// dd and gg, and a third mark's ground, which the reference lacks, are written here from documents 01 and 02 (requests 2, 6, 14) alone, over the
// reference's ranges and end points. Of a third mark side, bar, price and place among the rows are the reference's; the ground is that of `thirds`,
// 01's rule over the reference's zones, and its rows must be the reference's, or this program panics.
//   oracle one CHART BARS SECTION..  a chart file and a bars file
//   oracle many SECTION..            many on standard input: each file a length (u32, little-endian) and that many bytes; a line `CHART i` before each two
// Sections: passed ranges zones third threen labels classes firsts
use chanlun::{zhongshu as z, Stroke};
use std::io::{Read, Write};

// of the programs: bytes of a chart file, and bars
const BYTES: usize = 65536;
const BARS: usize = 2048;

type Triple = (usize, usize, bool);

#[derive(Default)]
struct Chart { strokes: Vec<Stroke>, segments: Vec<Triple>, bigs: Vec<Triple>, superiors: Vec<Triple>, highs: Vec<f64>, lows: Vec<f64> }

fn u16_at(b: &[u8], i: usize) -> usize { b[i] as usize + 256 * b[i + 1] as usize }
fn f64_at(b: &[u8], i: usize) -> f64 { f64::from_bits(u64::from_le_bytes(b[i..i + 8].try_into().unwrap())) }
fn is_price(x: f64) -> bool { x.is_finite() && x.to_bits() != 1 << 63 }

// a refusal, with the place of its record's mark
type Refusal = (usize, usize);

// The four levels of a chart file, and how many BR records were passed over. 13 cut short; 12 unknown mark; 3 no place left; 2; 1. An SR is read as
// ST: the reference has no roll byte
fn read_chart(b: &[u8]) -> Result<(Chart, usize), Refusal> {
    let mut c = Chart::default();
    let (mut passed, mut at) = (0, 0);
    while at < b.len() {
        if b.len() - at < 2 { return Err((13, at)); }
        let mark = &b[at..at + 2];
        let width = match mark { b"ST" | b"SR" => 21, b"SG" | b"BG" | b"SU" => 5, b"BR" => 16, _ => return Err((12, at)) };
        let r = &b[at + 2..];
        if r.len() < width { return Err((13, at)); }
        if mark == b"BR" { passed += 1; } else { read_record(&mut c, mark, r).map_err(|n| (n, at))?; }
        at += 2 + width;
    }
    Ok((c, passed))
}

// one more record of a level; or its number
fn read_record(c: &mut Chart, mark: &[u8], r: &[u8]) -> Result<(), usize> {
    let full = match mark {
        b"ST" | b"SR" => c.strokes.len() >= 512,
        b"SG" => c.segments.len() >= 256,
        b"BG" => c.bigs.len() >= 256,
        _ => c.superiors.len() >= 256,
    };
    if full { return Err(3); }
    if r[0] > 1 { return Err(2); }
    let (up, a, e) = (r[0] == 1, u16_at(r, 1), u16_at(r, 3));
    match mark {
        b"ST" | b"SR" => {
            let (p, q) = (f64_at(r, 5), f64_at(r, 13));
            if !is_price(p) || !is_price(q) { return Err(1); }
            c.strokes.push(Stroke { is_up: up, start_bar: a, end_bar: e, start_price: p, end_price: q });
        }
        b"SG" => c.segments.push((a, e, up)),
        b"BG" => c.bigs.push((a, e, up)),
        _ => c.superiors.push((a, e, up)),
    }
    Ok(())
}

// The highs and lows of a bars file. 13 cut short; 12 another mark; 20 the first number is not 0, or another not the one before and one; 3 no place left; 1
fn read_bars(b: &[u8]) -> Result<(Vec<f64>, Vec<f64>), Refusal> {
    let (mut highs, mut lows) = (vec![], vec![]);
    let mut before = None;
    for (i, r) in b.chunks(20).enumerate() {
        let at = 20 * i;
        if r.len() == 1 { return Err((13, at)); }
        if &r[..2] != b"HL" { return Err((12, at)); }
        if r.len() < 20 { return Err((13, at)); }
        let (number, high, low) = (u16_at(r, 2), f64_at(r, 4), f64_at(r, 12));
        if number != before.map_or(0, |n: usize| n + 1) { return Err((20, at)); }
        if number >= BARS { return Err((3, at)); }
        if !is_price(high) || !is_price(low) { return Err((1, at)); }
        highs.push(high);
        lows.push(low);
        before = Some(number);
    }
    Ok((highs, lows))
}

// A chart with its bars, and how many BR were passed over. A refusal's place is in the file that is refused
fn read(chart: &[u8], bars: &[u8]) -> Result<(Chart, usize), Refusal> {
    if chart.len() > BYTES { return Err((3, BYTES)); }
    let (levels, passed) = read_chart(chart)?;
    let (highs, lows) = read_bars(bars)?;
    Ok((Chart { highs, lows, ..levels }, passed))
}

// The range of a big, where it is not missing. The reference's own function is private, so this is the zone, of low dd and high gg, that the overlap
// function gives for one superior of the other direction over that big alone.
fn range(c: &Chart, k: usize) -> Option<z::BigSegmentZhongShu> {
    z::detect_bigseg_zhongshus_by_overlap(&[(k, k, !c.bigs[k].2)], &c.bigs, &c.segments, &c.strokes).pop()
}

// end bar and end price of a big, range missing or not
fn end_point(c: &Chart, k: usize) -> Option<(usize, f64)> { chanlun::guidao::end_point(k, &c.bigs, &c.segments, &c.strokes) }

// The bars of the low and the high of a big's range (02, request 6): the start bar where its first stroke starts at that price, else the end bar
fn range_bars(c: &Chart, k: usize, r: &z::BigSegmentZhongShu) -> (usize, usize) {
    let (first, last, _) = c.bigs[k];
    let (start, end) = (&c.strokes[c.segments[first].0], &c.strokes[c.segments[last].1]);
    let bar = |price: f64| match (start.start_price == price, end.end_price == price) {
        (true, _) => start.start_bar,
        (false, true) => end.end_bar,
        _ => panic!("a range whose low or high is neither of its prices"),
    };
    (bar(r.dd), bar(r.gg))
}

// The bars of dd and gg of a zone: the smallest among its members on equal prices (02, request 6)
fn zone_bars(c: &Chart, zone: &z::BigSegmentZhongShu, members: &[usize]) -> (usize, usize) {
    let spans: Vec<_> = members.iter().map(|&k| range(c, k).map(|r| (r.dd, r.gg, range_bars(c, k, &r))).unwrap()).collect();
    let low = spans.iter().filter(|s| s.0 == zone.dd).map(|s| s.2.0).min();
    let high = spans.iter().filter(|s| s.1 == zone.gg).map(|s| s.2.1).min();
    low.zip(high).expect("a zone whose dd or gg is no member's")
}

// the members of each zone, by 01's rule
fn members(c: &Chart) -> Vec<Vec<usize>> {
    let mut out = vec![];
    for &(first, last, up) in &c.superiors {
        if last >= c.bigs.len() { continue; }
        let mut run: Vec<(usize, f64, f64)> = vec![];
        for k in first..=last {
            if c.bigs[k].2 == up { continue; }
            let Some(z::BigSegmentZhongShu { dd: low, gg: high, .. }) = range(c, k) else { continue };
            let joins = match run.len() {
                0 => true,
                1 => f64::max(run[0].1, low) < f64::min(run[0].2, high),
                _ => low <= f64::min(run[0].2, run[1].2) && high >= f64::max(run[0].1, run[1].1),
            };
            if !joins { out.push(run.iter().map(|m| m.0).collect()); run.clear(); }
            run.push((k, low, high));
        }
        if !run.is_empty() { out.push(run.iter().map(|m| m.0).collect()); }
    }
    out
}

// ---- third marks with their grounds

enum Ground { Zone(f64), Anchor(f64) }
struct Third { buy: bool, bar: usize, price: f64, ground: Ground }

// the lent price of a side at a bar, where that is a hit: beyond p, and inside the slice
fn hit(c: &Chart, buy: bool, p: f64, bar: usize) -> Option<f64> {
    let x = *if buy { &c.lows } else { &c.highs }.get(bar)?;
    (if buy { x > p } else { x < p }).then_some(x)
}

// bar and price of a zone's first hit
fn zone_hit(c: &Chart, zones: &[z::BigSegmentZhongShu], zone: &z::BigSegmentZhongShu, edge: f64) -> Option<(usize, f64)> {
    let (first, last, up) = c.superiors[zone.sup_idx];
    let start = (first..=last).find(|&k| range(c, k).map_or(false, |r| r.start_bar >= zone.end_bar)).unwrap_or(last + 1);
    let others = zones.iter().filter(|y| y.sup_idx != zone.sup_idx && y.start_bar > zone.end_bar);
    let next_zone = others.map(|y| y.start_bar).min();
    let opposite = c.superiors[zone.sup_idx + 1..].iter().filter(|s| s.2 != up && s.0 <= s.1);
    let reversal = opposite.filter_map(|s| end_point(c, s.1)).map(|e| e.0).find(|&bar| bar > zone.end_bar);
    for k in start..c.bigs.len() - 1 {
        let r = range(c, k + 1)?;
        if next_zone.map_or(false, |bar| r.end_bar >= bar) || reversal.map_or(false, |bar| r.end_bar >= bar) { return None; }
        if c.bigs[k].2 != up { continue; }
        if let Some(price) = hit(c, up, edge, r.end_bar) { return Some((r.end_bar, price)); }
    }
    None
}

// C of an anchor that ends at a bar, and bar and price of its hit
fn anchor_hit(c: &Chart, up: bool, bar: usize) -> Option<(f64, usize, f64)> {
    let ending_after = |d: bool| (0..c.bigs.len()).filter(move |&k| c.bigs[k].2 == d).filter_map(|k| end_point(c, k)).filter(move |e| e.0 > bar);
    let (_, p) = ending_after(up).next()?;
    ending_after(!up).find_map(|e| Some((p, e.0, hit(c, up, p, e.0)?)))
}

fn thirds(c: &Chart, zones: &[z::BigSegmentZhongShu]) -> Vec<Third> {
    let mut out: Vec<Third> = vec![];
    let mut add = |m: Third| if !out.iter().any(|x| x.bar == m.bar && x.buy == m.buy) { out.push(m) };
    for zone in zones {
        let buy = c.superiors[zone.sup_idx].2;
        let edge = if buy { zone.zg } else { zone.zd };
        if let Some((bar, price)) = zone_hit(c, zones, zone, edge) { add(Third { buy, bar, price, ground: Ground::Zone(edge) }); }
    }
    if let Some(&(first, _, buy)) = c.superiors.first() {
        for (at, _) in (0..first).filter_map(|k| end_point(c, k)) {
            if let Some((p, bar, price)) = anchor_hit(c, buy, at) { add(Third { buy, bar, price, ground: Ground::Anchor(p) }); }
        }
    }
    out
}

fn hex(x: f64) -> String { format!("{:016X}", x.to_bits()) }

fn side(buy: bool) -> &'static str { if buy { "buy" } else { "sell" } }

// a line for each big: its range or `missing`, then its end point or `none`
fn ranges(c: &Chart, out: &mut String) {
    *out += &format!("RANGES {}\n", c.bigs.len());
    for k in 0..c.bigs.len() {
        let range = range(c, k).map_or("missing".to_string(), |r| {
            let (low, high) = range_bars(c, k, &r);
            format!("{} {} {} {} {low} {high}", r.start_bar, r.end_bar, hex(r.dd), hex(r.gg))
        });
        let end = end_point(c, k).map_or("none".to_string(), |(bar, price)| format!("{bar} {}", hex(price)));
        *out += &format!("{range} {end}\n");
    }
}

// 10: two items or more, and one of them lacks a stroke or a segment
fn whole_segments(c: &Chart) -> bool { c.segments.len() < 2 || c.segments.iter().all(|s| s.0 < c.strokes.len() && s.1 < c.strokes.len()) }
fn whole_bigs(c: &Chart) -> bool {
    let n = c.strokes.len();
    c.bigs.len() < 2 || c.bigs.iter().all(|b| c.segments.get(b.0).map_or(false, |s| s.0 < n) && c.segments.get(b.1).map_or(false, |s| s.1 < n))
}

// a section with a case-3 byte; none: refused
fn section(head: &str, on: bool, rows: Option<Vec<String>>, out: &mut String) {
    let head = format!("{head} case3={}", on as u8);
    match rows {
        None => *out += &format!("{head} refused 10\n"),
        Some(rows) => {
            *out += &format!("{head} {}\n", rows.len());
            for r in rows { *out += &format!("{r}\n"); }
        }
    }
}

fn cases(on: bool) -> chanlun::StrokeCases { chanlun::StrokeCases { case3: on, case4: false } }

fn class(first: usize, last: usize, up: bool, by: u8, extended: bool, adjacent: bool) -> String {
    format!("{first} {last} {} {by} {} {}", up as u8, extended as u8, adjacent as u8)
}

fn classes(c: &Chart, out: &mut String) {
    for on in [false, true] {
        let ks = whole_segments(c).then(|| z::classify_big_segments(&c.strokes, &c.segments, cases(on)));
        let by = |b| match b { z::BigSegBuild::Case2 => 2, z::BigSegBuild::Case3 => 3, z::BigSegBuild::Case4 => 4 };
        let rows = ks.map(|ks| ks.iter().map(|k| class(k.start_seg, k.end_seg, k.is_up, by(k.build), k.extended, k.base_adjacent)).collect());
        section("CLASSES seg", on, rows, out);
    }
    for on in [false, true] {
        let ks = whole_bigs(c).then(|| z::classify_sup_segments(&c.strokes, &c.segments, &c.bigs, cases(on)));
        let by = |b| match b { z::SupBuild::Case2 => 2, z::SupBuild::Case3 => 3, z::SupBuild::Case4 => 4 };
        let rows = ks.map(|ks| ks.iter().map(|k| class(k.start_big, k.end_big, k.is_up, by(k.build), k.extended, k.base_adjacent)).collect());
        section("CLASSES big", on, rows, out);
    }
}

fn firsts(c: &Chart, out: &mut String) {
    for buy in [true, false] {
        let marks = if buy { z::detect_bigseg_first_buy_markers } else { z::detect_bigseg_first_sell_markers };
        for on in [false, true] {
            let ms = whole_bigs(c).then(|| marks(&c.strokes, &c.segments, &c.bigs, cases(on)));
            let rows = ms.map(|ms| ms.iter().map(|m| format!("{} {}", m.bar_index, hex(m.price))).collect());
            section(if buy { "FIRSTBUY" } else { "FIRSTSELL" }, on, rows, out);
        }
    }
}

fn report(chart: &[u8], bars: &[u8], sections: &[String], out: &mut String) {
    let (c, passed) = match read(chart, bars) { Ok(read) => read, Err((n, p)) => { *out += &format!("refused {n} at {p}\n"); return; } };
    let zones = z::detect_bigseg_zhongshus_by_overlap(&c.superiors, &c.bigs, &c.segments, &c.strokes);
    for s in sections {
        match s.as_str() {
            "passed" => *out += &format!("PASSED {passed}\n"),
            "ranges" => ranges(&c, out),
            "zones" if zones.len() > 256 => *out += "ZONES refused 11\n",
            "zones" => {
                *out += &format!("ZONES {}\n", zones.len());
                let members = members(&c);
                assert!(zones.len() == members.len(), "other zones than the reference's");
                for (z, m) in zones.iter().zip(members) {
                    let (low, high) = zone_bars(&c, z, &m);
                    *out += &format!("{} {} {} {} {} {} {}", z.sup_idx, z.start_bar, z.end_bar, hex(z.zd), hex(z.zg), hex(z.dd), hex(z.gg));
                    *out += &format!(" {} {} {low} {high}\n", m[0], m.len());
                }
            }
            "labels" if zones.len() > 256 => *out += "LABELS refused 11\n",
            "labels" => {
                let l = z::detect_bigseg_trend_zhongshus(&zones, &c.bigs, &c.segments, &c.strokes);
                *out += &format!("LABELS {}\n", l.len());
                for l in l { *out += &format!("{}\n", l.label); }
            }
            "threen" if c.strokes.iter().any(|s| s.end_bar >= c.highs.len()) => *out += "THREEN refused 9\n",
            "third" | "threen" if zones.len() > 256 => *out += &format!("{} refused 11\n", s.to_uppercase()),
            "third" => {
                let ms = z::bigseg_third_marks_all_zhongshu(&c.superiors, &c.bigs, &c.segments, &c.strokes, &c.highs, &c.lows);
                let ours = thirds(&c, &zones);
                let same = |(m, t): (&z::BigSegThirdMarker, &Third)| (m.is_buy, m.bar_index, m.price.to_bits()) == (t.buy, t.bar, t.price.to_bits());
                assert!(ms.len() == ours.len() && ms.iter().zip(&ours).all(same), "third marks other than the reference's");
                *out += &format!("THIRD {}\n", ms.len());
                for (m, t) in ms.iter().zip(&ours) {
                    let (what, ground) = match t.ground { Ground::Zone(p) => ("zone", p), Ground::Anchor(p) => ("anchor", p) };
                    *out += &format!("{} {} {} {what} {}\n", side(m.is_buy), m.bar_index, hex(m.price), hex(ground));
                }
            }
            "threen" => {
                let ms = z::bigseg_3n_marks_all_zhongshu(&c.superiors, &c.bigs, &c.segments, &c.strokes, &c.highs, &c.lows);
                *out += &format!("THREEN {}\n", ms.len());
                for m in ms { *out += &format!("{} {} {} {}\n", side(m.is_buy), m.order, m.bar_index, hex(m.price)); }
            }
            "classes" => classes(&c, out),
            "firsts" => firsts(&c, out),
            _ => panic!("unknown section {s}"),
        }
    }
}

// the file behind its length at a place, and the place behind it
fn file_at(input: &[u8], at: usize) -> (&[u8], usize) {
    let end = at + 4 + u32::from_le_bytes(input[at..at + 4].try_into().unwrap()) as usize;
    (&input[at + 4..end], end)
}

fn main() {
    let args: Vec<String> = std::env::args().skip(1).collect();
    let mut out = String::new();
    if args[0] == "one" {
        report(&std::fs::read(&args[1]).unwrap(), &std::fs::read(&args[2]).unwrap(), &args[3..], &mut out);
    } else {
        let mut input = vec![];
        std::io::stdin().read_to_end(&mut input).unwrap();
        let (mut at, mut i) = (0, 0);
        while at < input.len() {
            let (chart, middle) = file_at(&input, at);
            let (bars, end) = file_at(&input, middle);
            out += &format!("CHART {i}\n");
            report(chart, bars, &args[1..], &mut out);
            (at, i) = (end, i + 1);
        }
    }
    std::io::stdout().write_all(out.as_bytes()).unwrap();
}
