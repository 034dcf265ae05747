//! Measures the proved library against the second implementation: the same input, both built for release, in one run. The two take turns, a
//! round of one and a round of the other, and the best round of each counts. A ratio is the plain version's time over the proved one's.
use bench::alone::nodes;
use bench::inputs::Source;
use bench::monitor_program::{monitor_program, NODES};
use bench::ring::{zone, Ring};
use bench::shift::{self, weights_by};
use bench::table_program::table_program;
use bench::{duncan, large, lent, table, western_electric, Rule, IN_CONTROL, STEADY, ZONES};
use catrovindy::{shift_weights, Monitor, MAX_SHIFT, MAX_TEXT, MONITOR_SIZE, TABLE_SIZE};
use std::hint::black_box;
use std::time::Instant;

/// How long some work takes, in seconds.
fn time(work: &mut impl FnMut()) -> f64 {
    let start = Instant::now();
    work();
    start.elapsed().as_secs_f64()
}

/// The best rounds of two that take turns, in seconds.
fn turns(rounds: u32, mut ours: impl FnMut(), mut theirs: impl FnMut()) -> (f64, f64) {
    (0..rounds).map(|_| (time(&mut ours), time(&mut theirs))).fold((f64::INFINITY, f64::INFINITY), |(a, b), (x, y)| (a.min(x), b.min(y)))
}

/// Whole calls of the table on both sides, from the rules to the last row: exploring, merging and rows. Answers the units in the last row.
fn tables(name: &str, list: &[Rule], weights: &[u32; ZONES], horizon: u32, rounds: u32) -> u64 {
    let h = horizon as usize;
    let (mut p, mut s) = (vec![0u64; h], vec![0u64; h]);
    let (mut p2, mut s2) = (vec![0u64; h], vec![0u64; h]);
    let taken = lent::list(list);
    let mut states = 0;
    let (ours, theirs) = turns(
        rounds,
        || {
            catrovindy::table(&taken, weights, horizon, &mut p, &mut s).expect("accepted");
        },
        || {
            states = table::table(list, weights, horizon, &mut p2, &mut s2).expect("accepted").states;
        },
    );
    assert!(p == p2 && s == s2, "the same figures");
    println!(
        "{name}: {states} standings, {horizon} rows, {} units in the last: proved {:.1} ms, 128-bit {:.1} ms, ratio {:.2}",
        s[h - 1],
        ours * 1e3,
        theirs * 1e3,
        theirs / ours
    );
    s[h - 1]
}

/// The longest table, with units in every row to the last: a row has no more of them than the one before it.
fn steady(name: &str, list: &[Rule], rounds: u32) {
    assert!(tables(name, list, &STEADY, 65_535, rounds) > 0, "{name}: no units in the last row");
}

/// The same against a plain table that merges no standings. It has more of them, and other last units.
fn unmerged(name: &str, list: &[Rule], rounds: u32) {
    let horizon = 65_535;
    let h = horizon as usize;
    let (mut p, mut s) = (vec![0u64; h], vec![0u64; h]);
    let (mut p2, mut s2) = (vec![0u64; h], vec![0u64; h]);
    let taken = lent::list(list);
    let mut counts = (0, 0);
    let (ours, theirs) = turns(
        rounds,
        || {
            counts.0 = catrovindy::table(&taken, &STEADY, horizon, &mut p, &mut s).expect("accepted").states;
        },
        || {
            counts.1 = table::unmerged(list, &STEADY, horizon, &mut p2, &mut s2).expect("accepted").states;
        },
    );
    assert!(counts.0 <= counts.1 && s[h - 1] > 0 && s2[h - 1] > 0, "{name}: more standings, or no units in the last row");
    println!(
        "{name}: {} standings, and {} before merging, {horizon} rows: proved {:.1} ms, 128-bit unmerged {:.1} ms, ratio {:.2}",
        counts.0,
        counts.1,
        ours * 1e3,
        theirs * 1e3,
        theirs / ours
    );
}

/// The chart of the long series.
const CENTRE: i32 = 50_000;
const SIGMA: u32 = 400;

/// The signals of a series by the proved library: a batch to each signal.
fn signals(readings: &[i32]) -> u32 {
    let (rules, mut monitor) = (lent::list(&western_electric()), Monitor::fresh());
    let (mut left, mut signals) = (readings, 0);
    while !left.is_empty() {
        let batch = monitor.take(&rules, CENTRE, SIGMA, left).expect("accepted");
        signals += u32::from(batch.is_signal());
        left = &left[batch.taken()..];
    }
    signals
}

/// The signals of a series by the plain chart with a ring of zones.
fn plain_signals(readings: &[i32]) -> u32 {
    let (rules, mut ring, mut signals) = (western_electric(), Ring::default(), 0);
    for &reading in readings {
        if ring.point(&rules, zone(reading, CENTRE, SIGMA).expect("sigma in bounds")) != 0 {
            signals += 1;
            ring.clear();
        }
    }
    signals
}

/// A long series in control through the batch.
fn points() {
    let mut source = Source::new(21);
    let readings: Vec<i32> = (0..1_000_000).map(|_| source.normal(f64::from(CENTRE), f64::from(SIGMA)).round() as i32).collect();
    let count = signals(&readings);
    assert_eq!(count, plain_signals(&readings));
    let (ours, theirs) = turns(
        20,
        || {
            black_box(signals(black_box(&readings)));
        },
        || {
            black_box(plain_signals(black_box(&readings)));
        },
    );
    let each = 1e9 / readings.len() as f64;
    println!(
        "Western Electric, {} points, {count} signals: proved {:.1} ns a point ({:.1} million points a second), plain {:.1} ns, ratio {:.2}",
        readings.len(),
        ours * each,
        readings.len() as f64 / ours / 1e6,
        theirs * each,
        theirs / ours
    );
}

/// The lines of Western Electric's rules.
fn rule_lines() -> String {
    western_electric().iter().map(|r| format!("rule,{},{},{}\n", r.k, r.m, r.zones)).collect()
}

/// A text of 65,536 bytes for the monitor: readings in control, from sixteen nodes as they come. The last reading has the digits that are left.
fn monitor_text() -> Vec<u8> {
    let mut source = Source::new(11);
    let mut text = format!("chart,100,10\n{}", rule_lines());
    while text.len() < MAX_TEXT - 18 {
        text += &format!("point,{},{}\n", source.below(16), source.normal(100.0, 10.0).round());
    }
    let left = MAX_TEXT - text.len() - "point,0,\n".len();
    text += &format!("point,0,{}\n", "1".repeat(left));
    text.into_bytes()
}

fn table_text() -> Vec<u8> {
    let weights = IN_CONTROL.map(|w| w.to_string()).join(",");
    format!("weights,{weights}\n{}horizon,4096\n", rule_lines()).into_bytes()
}

fn programs() {
    let text = monitor_text();
    assert_eq!((text.len(), nodes(&text).len()), (MAX_TEXT, NODES), "a full text with points of every node");
    assert_eq!(catrovindy::monitor_report(&text), monitor_program(&text), "the same lines");
    let mut out: Box<[u8; MONITOR_SIZE]> = vec![0; MONITOR_SIZE].try_into().expect("the size");
    let (ours, theirs) = turns(
        200,
        || {
            catrovindy::monitor_report_into(&text, &mut out).expect("accepted");
        },
        || {
            black_box(monitor_program(&text).expect("accepted"));
        },
    );
    println!("monitor, {} bytes: proved {:.3} ms, plain {:.3} ms, ratio {:.2}", text.len(), ours * 1e3, theirs * 1e3, theirs / ours);

    let text = table_text();
    let mut out: Box<[u8; TABLE_SIZE]> = vec![0; TABLE_SIZE].try_into().expect("the size");
    let (ours, theirs) = turns(
        20,
        || {
            catrovindy::table_report_into(&text, &mut out).expect("accepted");
        },
        || {
            black_box(table_program(&text).expect("accepted"));
        },
    );
    println!("table, Western Electric to 4,096: proved {:.2} ms, plain {:.2} ms, ratio {:.2}", ours * 1e3, theirs * 1e3, theirs / ours);
}

/// The weights of every shift, many times: one call is too short to be measured.
fn all_shifts(times: u32, mut weights: impl FnMut(i32) -> [u32; ZONES]) {
    for _ in 0..times {
        for shift in -MAX_SHIFT..=MAX_SHIFT {
            black_box(weights(black_box(shift)));
        }
    }
}

/// Weights of shifts. The plain version takes its areas from a table that was made beforehand.
fn shifts() {
    let (times, areas) = (2_000, *shift::areas());
    let (ours, theirs) = turns(
        20,
        || all_shifts(times, |shift| shift_weights(shift).expect("accepted")),
        || all_shifts(times, |shift| weights_by(black_box(&areas), shift).expect("accepted")),
    );
    let count = 2 * MAX_SHIFT + 1;
    let each = 1e9 / f64::from(times) / f64::from(count);
    println!("{count} shifts, {times} times: proved {:.1} ns a shift, plain {:.1} ns, ratio {:.2}", ours * each, theirs * each, theirs / ours);
}

fn main() {
    println!("points, batch by batch:");
    points();
    println!("weights of a shift:");
    shifts();
    println!("whole texts:");
    programs();
    println!("tables with units in every row to the last:");
    steady("Western Electric", &western_electric(), 10);
    steady("Duncan", &duncan(), 40);
    steady("3,9 with 3,8", &large(), 5);
    println!("the same against a plain table over all standings, those that do not differ among them:");
    unmerged("Western Electric", &western_electric(), 10);
    println!("tables in control, where all units are rounded away before the last row:");
    tables("Western Electric", &western_electric(), &IN_CONTROL, 65_535, 10);
    tables("Duncan", &duncan(), &IN_CONTROL, 65_535, 40);
    tables("3,9 with 3,8", &large(), &IN_CONTROL, 65_535, 5);
    println!("exploring, merging and one row:");
    tables("Western Electric", &western_electric(), &IN_CONTROL, 1, 40);
    tables("3,9 with 3,8", &large(), &IN_CONTROL, 1, 40);
}
