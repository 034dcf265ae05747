//! A repeatable source of inputs, accepted and refused.
use crate::{Rule, ZONES};

pub struct Source(u64);

impl Source {
    pub fn new(seed: u64) -> Self {
        Source(seed.wrapping_mul(0x9E37_79B9_7F4A_7C15) | 1)
    }

    pub fn next(&mut self) -> u64 {
        self.0 ^= self.0 << 13;
        self.0 ^= self.0 >> 7;
        self.0 ^= self.0 << 17;
        self.0
    }

    /// A number below the bound.
    pub fn below(&mut self, bound: u64) -> u64 {
        self.next() % bound
    }

    /// True once in so many times.
    pub fn once_in(&mut self, times: u64) -> bool {
        self.below(times) == 0
    }

    /// Twelve equal chances added up: nearly normal.
    pub fn normal(&mut self, mean: f64, deviation: f64) -> f64 {
        let sum: f64 = (0..12).map(|_| self.below(1 << 30) as f64 / (1u64 << 30) as f64).sum();
        mean + deviation * (sum - 6.0)
    }

    /// A rule, mostly in bounds, with m up to the given bound.
    pub fn rule(&mut self, longest: u32) -> Rule {
        let m = 1 + self.below(u64::from(longest)) as u32;
        let k = 1 + self.below(u64::from(m)) as u32;
        let zones = 1 + self.below(255) as u32;
        let mut rule = Rule { k, m, zones };
        if self.once_in(40) {
            let odd = [0, 8, 9, 10, 255, 256, u32::MAX][self.below(7) as usize];
            match self.below(3) {
                0 => rule.k = odd,
                1 => rule.m = odd,
                _ => rule.zones = odd,
            }
        }
        rule
    }

    /// A rule list, sometimes empty or too long.
    pub fn rules(&mut self) -> Vec<Rule> {
        let len = if self.once_in(30) { self.below(12) } else { 1 + self.below(4) };
        let longest = [2, 3, 5, 9][self.below(4) as usize];
        (0..len).map(|_| self.rule(longest)).collect()
    }

    /// Weights that mostly sum to 2^30, some of them 0: the last, of the centre, more than half of the time.
    pub fn weights(&mut self) -> [u32; ZONES] {
        let mut left: u64 = 1 << 30;
        let mut weights = [0u32; ZONES];
        let count = if self.once_in(2) { ZONES } else { ZONES - 1 };
        let start = self.below(count as u64) as usize;
        for i in 0..count {
            let zone = (start + i) % count;
            let w = match self.below(4) {
                _ if i == count - 1 => left,
                0 => 0,
                1 => self.below(left + 1) / 1_000,
                _ => self.below(left + 1),
            };
            weights[zone] = w as u32;
            left -= w;
        }
        if self.once_in(25) {
            let zone = self.below(ZONES as u64) as usize;
            weights[zone] = match self.below(3) {
                0 => weights[zone].wrapping_add(1),
                1 => weights[zone].wrapping_sub(1),
                _ => u32::MAX,
            };
        }
        if self.once_in(60) {
            // 2^32 + 2^30 in all: right only modulo 2^32
            weights = [1 << 31, 1 << 31, 1 << 30, 0, 0, 0, 0, 0];
        }
        weights
    }

    pub fn horizon(&mut self) -> u32 {
        match self.below(40) {
            0 => 0,
            1 => 65_536,
            2 => u32::MAX,
            3 => 500,
            _ => 1 + self.below(40) as u32,
        }
    }

    /// Lengths of two lists for a horizon: mostly long enough.
    pub fn lengths(&mut self, horizon: u32) -> (usize, usize) {
        let h = (horizon as usize).min(70_000);
        let mut near = || match self.below(12) {
            0 => h.saturating_sub(1),
            1..=4 => h,
            _ => h + self.below(5) as usize,
        };
        (near(), near())
    }
}
