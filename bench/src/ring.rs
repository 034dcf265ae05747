//! The plain chart of document 01 with a ring of the last zones: nothing older than the longest window is kept.
use crate::{refuse, Refusal, Rule};

/// The ring's places: more than the longest window.
const PLACES: usize = 16;

#[derive(Clone, Default)]
pub struct Ring {
    zones: [u8; PLACES],
    pub count: u32,
}

impl Ring {
    /// Takes a point: the mask of the rules that hold with it. A mask other than 0 clears the chart; the count is then the caller's to print.
    pub fn point(&mut self, rules: &[Rule], zone: u8) -> u32 {
        self.zones[self.count as usize % PLACES] = zone;
        self.count += 1;
        let mut mask = 0;
        for (i, rule) in rules.iter().enumerate() {
            let seen = rule.m.min(self.count);
            let hits = (self.count - seen..self.count)
                .filter(|&at| rule.zones >> self.zones[at as usize % PLACES] & 1 == 1)
                .count() as u32;
            if hits >= rule.k {
                mask |= 1 << i;
            }
        }
        mask
    }

    pub fn clear(&mut self) {
        self.count = 0;
    }
}

/// The zone of a reading: 1 where the step is out of bounds.
pub fn zone(reading: i32, centre: i32, step: u32) -> Result<u8, Refusal> {
    if !(1..=65_535).contains(&step) {
        return refuse(1, 0);
    }
    let t = i64::from(reading) - i64::from(centre);
    let (d, size) = (i64::from(step), t.abs());
    let above = t > 0;
    Ok(match size {
        0 => 7,
        _ if size > 3 * d => 0,
        _ if size > 2 * d => if above { 1 } else { 6 },
        _ if size > d => if above { 2 } else { 5 },
        _ => if above { 3 } else { 4 },
    })
}
