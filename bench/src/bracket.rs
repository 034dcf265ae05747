//! The percentile bracket of document 01, with 128-bit products.
use crate::{refuse, Refusal};
use catrovindy::Bracket;

pub fn bracket(chances: &[u64], n: u32, p: u32) -> Result<Bracket, Refusal> {
    if chances.is_empty() || chances.len() > 65_535 {
        return refuse(12, 0);
    }
    if !(1..=1024).contains(&n) {
        return refuse(13, 0);
    }
    if !(1..=99).contains(&p) {
        return refuse(14, 0);
    }
    if chances.iter().map(|&c| u128::from(c)).sum::<u128>() > 1 << 60 {
        return refuse(15, 0);
    }
    let goal = u128::from(p) << 60;
    let mut by: u128 = 0;
    let (mut low, mut high) = (None, None);
    for (i, &c) in chances.iter().enumerate() {
        let k = i as u128 + 1;
        by += u128::from(c);
        if high.is_none() && 100 * by >= goal {
            high = Some(k as u32);
        }
        if low.is_none() && 100 * (by + k * (u128::from(n) + 1)) > goal {
            low = Some(k as u32);
        }
    }
    Ok(match (low, high) {
        (Some(l), Some(h)) if l == h => Bracket::At(l),
        (Some(l), Some(h)) => Bracket::Between(l, h),
        (Some(l), None) => Bracket::Open(l),
        (None, _) => Bracket::Beyond(chances.len() as u32),
    })
}
