//! The plot record of document 01, its doubles from whole numbers.
use crate::bracket::bracket;
use crate::{table, Refusal, Rule, ZONES};
use catrovindy::{BoxPlot, Bracket, Figures, PlotItem};

/// The allowed shortfall of the cut mean, in units: N × H × (H - 1) / 2.
pub fn shortfall(states: u32, horizon: u32) -> u64 {
    let h = u64::from(horizon);
    u64::from(states) * h * (h - 1) / 2
}

/// So many parts of 2^-36 as a double: they have at most 53 bits, so nothing is rounded.
fn parts(count: u128) -> f64 {
    assert!(count < 1 << 53);
    count as f64 / (1u64 << 36) as f64
}

fn item(of: Bracket) -> PlotItem {
    match of {
        Bracket::At(n) => PlotItem::Point(f64::from(n)),
        Bracket::Between(low, high) => PlotItem::Span(f64::from(low), f64::from(high)),
        Bracket::Open(low) => PlotItem::Open(f64::from(low)),
        Bracket::Beyond(h) => PlotItem::Beyond(f64::from(h)),
    }
}

fn record(chances: &[u64], f: &Figures, horizon: u32) -> Result<BoxPlot, Refusal> {
    let at = |percent| bracket(chances, f.states, percent);
    let mean = (u128::from(f.mean_whole) << 60) + u128::from(f.mean_fraction);
    let most = mean + u128::from(shortfall(f.states, horizon));
    let iqr = match (at(25)?, at(75)?) {
        (Bracket::At(a), Bracket::At(b)) => Some(f64::from(b - a)),
        _ => None,
    };
    Ok(BoxPlot {
        p5: item(at(5)?),
        p25: item(at(25)?),
        p50: item(at(50)?),
        p75: item(at(75)?),
        p95: item(at(95)?),
        lower: parts(mean >> 24),
        upper: parts(most.div_ceil(1 << 24)),
        iqr,
    })
}

/// The record, with the table's two lists as the table leaves them. Refused as the table is.
pub fn box_plot(
    rules: &[Rule],
    weights: &[u32; ZONES],
    horizon: u32,
    pmf: &mut [u64],
    survival: &mut [u64],
) -> Result<BoxPlot, Refusal> {
    let figures = table::table(rules, weights, horizon, pmf, survival)?;
    record(&pmf[..horizon as usize], &figures, horizon)
}
