//! Compares the plot record with the second implementation on many inputs, accepted and refused: every double bit by bit, both lists, and
//! on a refusal all that was lent.
use bench::inputs::Source;
use bench::tally::Tally;
use bench::{duncan, large, lent, plot, rules, western_electric, Rule, IN_CONTROL, ZONES};
use catrovindy::{BoxPlot, PlotItem};

/// What stands in a place that must not be written.
const KEPT: u64 = 0xDEAD_BEEF_0BAD_F00D;

/// What was met: items of each kind, and records with and without an interquartile range.
#[derive(Default)]
struct Met {
    tally: Tally,
    kinds: [u64; 4],
    spreads: [u64; 2],
}

fn items(plot: &BoxPlot) -> [PlotItem; 5] {
    [plot.p5, plot.p25, plot.p50, plot.p75, plot.p95]
}

/// The place of a kind, and the doubles' bits.
fn item_bits(item: PlotItem) -> (usize, u64, u64) {
    match item {
        PlotItem::Point(x) => (0, x.to_bits(), x.to_bits()),
        PlotItem::Span(low, high) => (1, low.to_bits(), high.to_bits()),
        PlotItem::Open(low) => (2, low.to_bits(), low.to_bits()),
        PlotItem::Beyond(h) => (3, h.to_bits(), h.to_bits()),
    }
}

/// All of a record, bit by bit.
#[derive(Debug, PartialEq)]
struct Bits {
    items: [(usize, u64, u64); 5],
    mean: [u64; 2],
    iqr: Option<u64>,
}

fn bits(plot: &BoxPlot) -> Bits {
    Bits { items: items(plot).map(item_bits), mean: [plot.lower, plot.upper].map(f64::to_bits), iqr: plot.iqr.map(f64::to_bits) }
}

fn same(met: &mut Met, rules: &[Rule], weights: &[u32; ZONES], horizon: u32, lengths: (usize, usize)) {
    let lists = || (vec![KEPT; lengths.0], vec![KEPT; lengths.1]);
    let ((mut p, mut s), (mut p2, mut s2), (mut p3, mut s3)) = (lists(), lists(), lists());
    let ours = lent::box_plot(rules, weights, horizon, &mut p, &mut s);
    let theirs = plot::box_plot(rules, weights, horizon, &mut p2, &mut s2);
    let call = || format!("{rules:?} {weights:?} {horizon} {lengths:?}: {ours:?} and {theirs:?}");
    assert_eq!(ours.as_ref().map(bits), theirs.as_ref().map(bits), "{}", call());
    assert!(p == p2 && s == s2, "the lists of {}", call());
    let wrapped = catrovindy::box_plot(&lent::list(rules), weights, horizon, &mut p3, &mut s3);
    assert_eq!(wrapped.as_ref().map(bits), ours.as_ref().map(bits), "the Rust layer: {}", call());
    assert!(p == p3 && s == s3, "the lists of the Rust layer: {}", call());
    met.tally.add(&ours);
    if let Ok(plot) = ours {
        for item in items(&plot) {
            met.kinds[item_bits(item).0] += 1;
        }
        met.spreads[usize::from(plot.iqr.is_some())] += 1;
    }
}

fn main() {
    let count: u64 = std::env::args().nth(1).map_or(10_000, |a| a.parse().expect("a number of cases"));
    let mut met = Met::default();
    let mut source = Source::new(36);
    for _ in 0..count {
        let (list, weights, horizon) = (source.rules(), source.weights(), source.horizon());
        let lengths = source.lengths(horizon);
        same(&mut met, &list, &weights, horizon, lengths);
    }
    for list in [western_electric(), duncan(), large()] {
        for horizon in [1, 2, 48, 1_000, 4_096, 16_384] {
            let h = horizon as usize;
            same(&mut met, &list, &IN_CONTROL, horizon, (h + 1, h));
        }
    }
    same(&mut met, &large(), &IN_CONTROL, 65_535, (65_535, 65_535));
    // every reading clipped at three sigma: the true median is 7, where eight in a row cannot have come yet, and rounding leaves the table just
    // short of a half there
    let clipped = [0, 24_427_768, 145_927_014, 366_516_130, 366_516_130, 145_927_014, 24_427_768, 0];
    for horizon in 1..40 {
        same(&mut met, &rules(&[(4, 7, 14), (8, 8, 96)]), &clipped, horizon, (40, 40));
    }
    let ([at, between, open, beyond], [without, with]) = (met.kinds, met.spreads);
    let more = format!(" ({at} points, {between} spans, {open} open, {beyond} beyond; {with} interquartile ranges, {without} without)");
    met.tally.report("plot record", &more, &[2, 3, 4, 8, 9, 10, 11]);
    assert!(met.kinds.iter().chain(&met.spreads).all(|&n| n > 0), "a kind of item was not met");
}
