//! The run-length table and its percentile brackets.
use crate::{raw, Refusal, RuleList, Weights};

/// What the weights of all zones sum to.
pub const WEIGHT_TOTAL: u32 = 1 << 30;

/// The largest horizon; the least is 1.
pub const MAX_HORIZON: u32 = 65_535;

/// The most states of the rules that a table is made for, before merging.
pub const MAX_STATES: u32 = 1024;

/// The units of a chance of one.
pub const UNITS_PER_ONE: u64 = 1 << 60;

/// What a table has besides its two lists.
#[derive(Clone, Copy, Debug, PartialEq, Eq, Hash)]
pub struct Figures {
    /// N, the number of states that differ, of those met with no signal: two are one where every continuation first signals at the same point
    /// from both. Every zone continues and leads to states, those of weight 0 too.
    pub states: u32,
    /// The chance of no signal by the horizon, in units.
    pub survival: u64,
    /// The whole part of the mean run length cut at the horizon.
    pub mean_whole: u64,
    /// Its fraction in units. The exact mean is not less, and exceeds this one by at most N × H × (H - 1) / 2 units.
    pub mean_fraction: u64,
}

/// The run-length table in the caller's lists: the chance of a signal at n in `pmf[n - 1]`, of none by n in `survival[n - 1]`, in units, for
/// n from 1 to the horizon. Both lists are written only; the places beyond the horizon are kept.
///
/// Refused by 2; then rule by rule 3, 4; 8; 9; 10; 11, in this order, and both lists are then as they were. 10 counts the states before those
/// that do not differ are merged.
pub fn table(rules: &RuleList, weights: &Weights, horizon: u32, pmf: &mut [u64], survival: &mut [u64]) -> Result<Figures, Refusal> {
    let (slots, count) = rules.slots();
    let mut figures = [0; raw::FIGURES];
    // SAFETY: 24 slots, eight weights, two slices with their lengths, an array of four.
    let code = unsafe {
        raw::catrovindy_table(
            slots.as_ptr(),
            count,
            weights.as_ptr(),
            horizon,
            pmf.as_mut_ptr(),
            pmf.len(),
            survival.as_mut_ptr(),
            survival.len(),
            figures.as_mut_ptr(),
        )
    };
    Refusal::check(code)?;
    Ok(Figures {
        states: figures[raw::FIGURE_STATES] as u32,
        survival: figures[raw::FIGURE_SURVIVAL],
        mean_whole: figures[raw::FIGURE_MEAN_WHOLE],
        mean_fraction: figures[raw::FIGURE_MEAN_FRACTION],
    })
}

/// Two lists as long as the horizon. One that is out of bounds is refused before the lengths are looked at.
pub(crate) fn lists(horizon: u32) -> (Vec<u64>, Vec<u64>) {
    let length = horizon.min(MAX_HORIZON) as usize;
    (vec![0; length], vec![0; length])
}

/// A run-length table with lists of its own.
#[derive(Clone, Debug, PartialEq, Eq, Hash)]
pub struct Table {
    /// N, what is left at the horizon, and the cut mean.
    pub figures: Figures,
    /// The chance of a signal at n in place n - 1, in units.
    pub pmf: Vec<u64>,
    /// The chance of no signal by n in place n - 1, in units.
    pub survival: Vec<u64>,
}

impl Table {
    /// The table of a rule list.
    ///
    /// Refused by 2; then rule by rule 3, 4; 8; 9; 10, in this order.
    ///
    /// ```
    /// use catrovindy::{Bracket, Rule, RuleList, Table};
    ///
    /// let half = 1 << 29;
    /// let rules = RuleList::new().with(Rule::new(2, 2, 2));
    /// let table = Table::new(&rules, &[0, half, 0, 0, half, 0, 0, 0], 4)?;
    /// assert_eq!(table.pmf, [0, 1 << 58, 1 << 57, 1 << 57]);
    /// assert_eq!(table.bracket(50)?, Bracket::At(4));
    /// # Ok::<(), catrovindy::Refusal>(())
    /// ```
    pub fn new(rules: &RuleList, weights: &Weights, horizon: u32) -> Result<Table, Refusal> {
        let (mut pmf, mut survival) = lists(horizon);
        let figures = table(rules, weights, horizon, &mut pmf, &mut survival)?;
        Ok(Table { figures, pmf, survival })
    }

    /// The chance of a signal by n in units, from below and from above: the exact one is at least the first and less than the second.
    /// None where n is 0 or over the horizon.
    pub fn signal_by(&self, n: u32) -> Option<(u64, u64)> {
        let chances = self.pmf.get(..n as usize).filter(|chances| !chances.is_empty())?;
        let by: u64 = chances.iter().fold(0, |sum, &chance| sum.saturating_add(chance));
        let slack = u64::from(n).saturating_mul(u64::from(self.figures.states).saturating_add(1));
        Some((by, by.saturating_add(slack)))
    }

    /// The bracket of a percentile, which contains the true one.
    ///
    /// Refused by 14, for a table as it was made.
    pub fn bracket(&self, percent: u32) -> Result<Bracket, Refusal> {
        bracket(&self.pmf, self.figures.states, percent)
    }
}

/// Where a percentile of the run length lies.
#[derive(Clone, Copy, Debug, PartialEq, Eq, Hash)]
pub enum Bracket {
    /// At this point.
    At(u32),
    /// From the first to the second.
    Between(u32, u32),
    /// At this point or later.
    Open(u32),
    /// Later than this point, the last of the list.
    Beyond(u32),
}

/// The bracket of a percentile, by the chances of a table to its horizon and its N, the number of states that differ.
///
/// Refused by 12; 13; 14; 15, in this order.
///
/// ```
/// use catrovindy::{bracket, Bracket};
/// assert_eq!(bracket(&[(1 << 59) - 1, 1], 1, 50), Ok(Bracket::Between(1, 2)));
/// ```
pub fn bracket(pmf: &[u64], state_count: u32, percent: u32) -> Result<Bracket, Refusal> {
    let mut answer = [0; raw::BRACKET_ANSWER];
    // SAFETY: a slice with its length, an array of three.
    Refusal::check(unsafe { raw::catrovindy_bracket(pmf.as_ptr(), pmf.len(), state_count, percent, answer.as_mut_ptr()) })?;
    let (first, second) = (answer[raw::BRACKET_FIRST], answer[raw::BRACKET_SECOND]);
    Ok(match answer[raw::BRACKET_KIND] {
        raw::AT => Bracket::At(first),
        raw::BETWEEN => Bracket::Between(first, second),
        raw::OPEN => Bracket::Open(first),
        // BEYOND: there is no other
        _ => Bracket::Beyond(first),
    })
}
