//! What the tests and benchmarks share: a second implementation written from document 01, a source of inputs, and the proved library's
//! exported functions with a look at all that was lent. The plain types are those of the proved library's Rust layer.
pub mod alone;
pub mod bracket;
pub mod chart;
pub mod format;
pub mod inputs;
pub mod lent;
pub mod merge;
pub mod monitor;
pub mod monitor_program;
pub mod monitors;
pub mod plot;
pub mod ring;
pub mod shift;
pub mod table;
pub mod table_program;
pub mod tally;
pub mod texts;
pub mod weights_program;

pub use catrovindy::{Refusal, Rule};

pub fn refuse<T>(number: u32, place: u32) -> Result<T, Refusal> {
    Err(Refusal { number, place })
}

pub const ZONES: usize = 8;

pub fn rules(list: &[(u32, u32, u32)]) -> Vec<Rule> {
    list.iter().map(|&(k, m, zones)| Rule { k, m, zones }).collect()
}

pub fn western_electric() -> Vec<Rule> {
    rules(&[(1, 1, 1), (2, 3, 64), (2, 3, 2), (4, 5, 96), (4, 5, 6), (8, 8, 112), (8, 8, 14)])
}

/// Western Electric with nine in a row in place of eight.
pub fn with_nine() -> Vec<Rule> {
    let nine = |r: Rule| if r.k == 8 { Rule { k: 9, m: 9, ..r } } else { r };
    western_electric().into_iter().map(nine).collect()
}

pub fn duncan() -> Vec<Rule> {
    rules(&[(1, 1, 1), (2, 2, 64), (2, 2, 2), (5, 5, 96), (5, 5, 6)])
}

/// 3,9 and 3,8 over the sets {1,2} and {2,3}: 1,008 standings, and each differs from every other.
pub fn large() -> Vec<Rule> {
    rules(&[(3, 9, 6), (3, 8, 12)])
}

/// A normal reading on a chart with the right centre and sigma: the normal area of each zone in units of 2^-30, to the nearest, and S what
/// is missing from 2^30. C0 is a line, and has no area.
pub const IN_CONTROL: [u32; ZONES] = [2_898_884, 22_978_326, 145_927_014, 366_516_130, 366_516_130, 145_927_014, 22_978_326, 0];

/// Points that are hardly ever off the centre line, every zone with a weight of its own: a chart of any of these lists stays quiet for tens
/// of thousands of points, so that its table has units in every row to the last.
pub const STEADY: [u32; ZONES] = [1_009, 2_003, 3_001, 4_001, 5_003, 6_007, 7_001, 1_073_713_799];
