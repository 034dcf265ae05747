//! The run-length table of document 01 with 128-bit sums: a plain push over all moves of the standings that differ.
use crate::merge::{merged, Moves};
use crate::{chart, refuse, Refusal, Rule, ZONES};
use catrovindy::Figures;

/// The refusals of the table in their order, given the lengths of the two lists; else the moves of all standings, before any are merged.
pub fn moves_of(
    rules: &[Rule],
    weights: &[u32; ZONES],
    horizon: u32,
    lengths: (usize, usize),
) -> Result<Moves<ZONES>, Refusal> {
    chart::check(rules)?;
    if weights.iter().map(|&w| u128::from(w)).sum::<u128>() != 1 << 30 {
        return refuse(8, 0);
    }
    if horizon == 0 || horizon > 65_535 {
        return refuse(9, 0);
    }
    let moves = chart::standings(rules)?;
    if lengths.0 < horizon as usize || lengths.1 < horizon as usize {
        return refuse(11, 0);
    }
    Ok(moves)
}

/// The rows themselves, over the zones that the moves have.
pub fn rows<const COUNT: usize>(
    moves: &[[Option<usize>; COUNT]],
    weights: &[u32; COUNT],
    horizon: u32,
    pmf: &mut [u64],
    survival: &mut [u64],
) -> Figures {
    let n = moves.len();
    let mut units = vec![0u64; n];
    units[0] = 1 << 60;
    let mut left: u64 = 1 << 60;
    let mut mean: u128 = 0;
    let mut sums = vec![0u128; n];
    for row in 0..horizon as usize {
        mean += u128::from(left);
        sums.iter_mut().for_each(|s| *s = 0);
        let mut signals: u128 = 0;
        for (u, to) in units.iter().zip(moves) {
            for (zone, target) in to.iter().enumerate() {
                let amount = u128::from(*u) * u128::from(weights[zone]);
                match target {
                    Some(t) => sums[*t] += amount,
                    None => signals += amount,
                }
            }
        }
        left = 0;
        for (u, s) in units.iter_mut().zip(&sums) {
            *u = (s >> 30) as u64;
            left += *u;
        }
        pmf[row] = (signals >> 30) as u64;
        survival[row] = left;
    }
    Figures {
        states: n as u32,
        survival: left,
        mean_whole: (mean >> 60) as u64,
        mean_fraction: (mean & ((1 << 60) - 1)) as u64,
    }
}

/// The table over the standings that differ: their number is N.
pub fn table(
    rules: &[Rule],
    weights: &[u32; ZONES],
    horizon: u32,
    pmf: &mut [u64],
    survival: &mut [u64],
) -> Result<Figures, Refusal> {
    let moves = moves_of(rules, weights, horizon, (pmf.len(), survival.len()))?;
    Ok(rows(&merged(&moves), weights, horizon, pmf, survival))
}

/// The same with no standings merged: N is as large or larger, and the last units may be others. For the benchmark alone.
pub fn unmerged(
    rules: &[Rule],
    weights: &[u32; ZONES],
    horizon: u32,
    pmf: &mut [u64],
    survival: &mut [u64],
) -> Result<Figures, Refusal> {
    let moves = moves_of(rules, weights, horizon, (pmf.len(), survival.len()))?;
    Ok(rows(&moves, weights, horizon, pmf, survival))
}
