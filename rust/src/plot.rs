//! The plot record: what a box plot of the run length is drawn from, in doubles.
use crate::{raw, table, Refusal, RuleList, Weights};

/// A percentile as a plotter takes it. Each double is a whole number, exactly.
#[derive(Clone, Copy, Debug, PartialEq)]
pub enum PlotItem {
    /// At this point.
    Point(f64),
    /// From the first to the second.
    Span(f64, f64),
    /// At this point or later.
    Open(f64),
    /// Later than this point, the horizon.
    Beyond(f64),
}

/// The plot record.
#[derive(Clone, Copy, Debug, PartialEq)]
pub struct BoxPlot {
    /// The percentile 5.
    pub p5: PlotItem,
    /// The first quartile.
    pub p25: PlotItem,
    /// The median.
    pub p50: PlotItem,
    /// The third quartile.
    pub p75: PlotItem,
    /// The percentile 95.
    pub p95: PlotItem,
    /// The mean cut at the horizon is not less than this, a multiple of 2^-36.
    pub lower: f64,
    /// And not more than this, likewise.
    pub upper: f64,
    /// The interquartile range, where both quartiles are points.
    pub iqr: Option<f64>,
}

impl BoxPlot {
    /// The plot record of a rule list.
    ///
    /// Refused by 2; then rule by rule 3, 4; 8; 9; 10, in this order.
    pub fn new(rules: &RuleList, weights: &Weights, horizon: u32) -> Result<BoxPlot, Refusal> {
        let (mut pmf, mut survival) = table::lists(horizon);
        box_plot(rules, weights, horizon, &mut pmf, &mut survival)
    }
}

/// The plot record, and the table that it is made from in the caller's lists: as [`table()`](crate::table()) leaves them.
/// Both lists are written only.
///
/// Refused as the table is: by 2; then rule by rule 3, 4; 8; 9; 10; 11, in this order, and both lists are then as they were.
///
/// ```
/// use catrovindy::{shift_weights, BoxPlot, PlotItem, RuleList};
///
/// let in_control = shift_weights(0)?;
/// let plot = BoxPlot::new(&RuleList::western_electric(), &in_control, 1000)?;
/// assert_eq!((plot.p50, plot.iqr), (PlotItem::Point(65.0), Some(97.0)));
/// assert!(91.7 < plot.lower && plot.lower < plot.upper && plot.upper < 91.8);
/// # Ok::<(), catrovindy::Refusal>(())
/// ```
pub fn box_plot(rules: &RuleList, weights: &Weights, horizon: u32, pmf: &mut [u64], survival: &mut [u64]) -> Result<BoxPlot, Refusal> {
    let (slots, count) = rules.slots();
    let (mut kinds, mut values) = ([0; raw::KINDS], [0.0; raw::VALUES]);
    // SAFETY: 24 slots, eight weights, two slices with their lengths, arrays of six and thirteen.
    let code = unsafe {
        raw::catrovindy_plot(
            slots.as_ptr(),
            count,
            weights.as_ptr(),
            horizon,
            pmf.as_mut_ptr(),
            pmf.len(),
            survival.as_mut_ptr(),
            survival.len(),
            kinds.as_mut_ptr(),
            values.as_mut_ptr(),
        )
    };
    Refusal::check(code)?;
    let at = |i: usize| item(kinds[i], values[2 * i], values[2 * i + 1]);
    Ok(BoxPlot {
        p5: at(raw::P5),
        p25: at(raw::P25),
        p50: at(raw::P50),
        p75: at(raw::P75),
        p95: at(raw::P95),
        lower: values[raw::VALUE_LOWER],
        upper: values[raw::VALUE_UPPER],
        iqr: (kinds[raw::KIND_IQR] == 1).then_some(values[raw::VALUE_IQR]),
    })
}

/// An item by its kind and its two doubles.
fn item(kind: u32, first: f64, second: f64) -> PlotItem {
    match kind {
        raw::AT => PlotItem::Point(first),
        raw::BETWEEN => PlotItem::Span(first, second),
        raw::OPEN => PlotItem::Open(first),
        // BEYOND: there is no other
        _ => PlotItem::Beyond(first),
    }
}
