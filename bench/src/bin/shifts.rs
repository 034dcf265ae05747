//! Compares the proved table of normal areas with the one that the second implementation recomputes, entry by entry; and the weights of
//! shifts, accepted and refused: every weight, on a refusal all that was lent, the mirror of each shift and the sum. Then whole tables with
//! the weights of every shift.
use bench::inputs::Source;
use bench::tally::Tally;
use bench::{duncan, lent, shift, table, western_electric, Rule, IN_CONTROL};

/// What a proved program prints; among its lines `area,k,entry` for every entry of the table of areas.
const PRINTED: &str = concat!(env!("CARGO_MANIFEST_DIR"), "/../crates/try_shift/stdout");

/// How far the tables go.
const HORIZON: u32 = 48;

/// The entries of the proved table, as they were printed, each with its number.
fn printed() -> Vec<(usize, u32)> {
    let text = std::fs::read_to_string(PRINTED).unwrap_or_else(|e| panic!("{PRINTED}: {e}"));
    let entry = |line: &str| {
        let (k, entry) = line.split_once(',')?;
        Some((k.parse().ok()?, entry.parse().ok()?))
    };
    let lines = text.lines().filter_map(|line| line.strip_prefix("area,"));
    lines.map(|line| entry(line).unwrap_or_else(|| panic!("no entry: {line}"))).collect()
}

/// Every area of the proved table is the nearest.
fn same_areas() -> usize {
    let printed = printed();
    assert_eq!(printed.len(), shift::AREAS, "the entries of the proved table");
    for (nearest, entry) in shift::areas().iter().copied().enumerate().zip(&printed) {
        assert_eq!(nearest, *entry, "the nearest area by its number, and the proved one");
    }
    printed.len()
}

/// The weights of a shift by the exported function, by the Rust layer and by the second implementation.
fn same_weights(tally: &mut Tally, shift: i32) {
    let ours = lent::shift_weights(shift);
    assert_eq!(ours, shift::weights(shift), "shift {shift}");
    assert_eq!(ours, catrovindy::shift_weights(shift), "the Rust layer: shift {shift}");
    tally.add(&ours);
    if let Ok(weights) = ours {
        let [s, a1, b1, c1, c2, b2, a2, c0] = weights;
        assert_eq!(lent::shift_weights(-shift), Ok([s, a2, b2, c2, c1, b1, a1, c0]), "the mirror of shift {shift}");
        assert_eq!(weights.iter().map(|&w| u64::from(w)).sum::<u64>(), 1 << 30, "the sum of shift {shift}");
    }
}

/// The table of a rule list with the weights of a shift: it is accepted, and both implementations make the same of it.
fn same_table(rules: &[Rule], shift: i32) {
    let lists = || (vec![0u64; HORIZON as usize], vec![0u64; HORIZON as usize]);
    let ((mut p, mut s), (mut p2, mut s2)) = (lists(), lists());
    let weights = lent::shift_weights(shift).expect("within bounds");
    let ours = lent::table(rules, &weights, HORIZON, &mut p, &mut s);
    assert!(ours.is_ok(), "the table of {rules:?} with shift {shift}: {ours:?}");
    assert_eq!(ours, table::table(rules, &weights, HORIZON, &mut p2, &mut s2), "figures of {rules:?} with shift {shift}");
    assert!(p == p2 && s == s2, "the lists of {rules:?} with shift {shift}");
}

fn main() {
    let count: u64 = std::env::args().nth(1).map_or(5_000, |a| a.parse().expect("a number of shifts"));
    let areas = same_areas();
    let mut tally = Tally::default();
    let mut source = Source::new(301);
    for shift in (-400..=400).chain([i32::MIN, i32::MAX]) {
        same_weights(&mut tally, shift);
    }
    for _ in 0..count {
        same_weights(&mut tally, source.next() as i32);
    }
    assert_eq!(lent::shift_weights(0), Ok(IN_CONTROL), "no shift is in control");
    let mut tables = 0;
    for shift in -150..=150 {
        for rules in [western_electric(), duncan()] {
            same_table(&rules, shift);
            tables += 1;
        }
    }
    tally.report("weights", &format!(" ({areas} areas are the nearest; {tables} tables with such weights agree, all accepted)"), &[18]);
}
