// Makes a call of the reference many times, as the program `timing` makes ours, on the files chart.dat and bars.dat where it is run, and prints the same
// sum: timing CALL NUMBER. Calls: zones third threen
#[allow(dead_code)]
mod oracle {
    include!("main.rs");

    // a turn changes the start price of a stroke and adds the number of rows and a bar of the middle one
    fn sum_of<T>(c: &mut Chart, turns: usize, call: impl Fn(&Chart) -> Vec<T>, bar: impl Fn(&T) -> usize) -> usize {
        let mut sum = 0;
        for i in 0..turns {
            if let Some(s) = c.strokes.get_mut(i % 256 * 2 + 1) { s.start_price += 0.25; }
            let rows = call(c);
            sum = (sum + rows.len() + rows.get(rows.len() / 2).map_or(0, &bar)) % 65536;
        }
        sum
    }

    pub fn timed(call: &str, turns: usize) -> usize {
        let [chart, bars] = ["chart.dat", "bars.dat"].map(|name| std::fs::read(name).unwrap());
        let (mut c, _) = read(&chart, &bars).unwrap_or_else(|(n, p)| panic!("refused {n} at {p}"));
        let zones = |c: &Chart| z::detect_bigseg_zhongshus_by_overlap(&c.superiors, &c.bigs, &c.segments, &c.strokes);
        let third = |c: &Chart| z::bigseg_third_marks_all_zhongshu(&c.superiors, &c.bigs, &c.segments, &c.strokes, &c.highs, &c.lows);
        let threen = |c: &Chart| z::bigseg_3n_marks_all_zhongshu(&c.superiors, &c.bigs, &c.segments, &c.strokes, &c.highs, &c.lows);
        match call {
            "zones" => sum_of(&mut c, turns, zones, |z| z.start_bar),
            "third" => sum_of(&mut c, turns, third, |m| m.bar_index),
            "threen" => sum_of(&mut c, turns, threen, |m| m.bar_index),
            _ => panic!("unknown call {call}"),
        }
    }
}

fn main() {
    let args: Vec<String> = std::env::args().skip(1).collect();
    println!("SUM {}", oracle::timed(&args[0], args[1].parse().unwrap()));
}
