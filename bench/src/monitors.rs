//! Monitors and readings to be given: met, valid though never met, and wrong by a little or a lot.
use crate::chart::{self, remembered, Standing};
use crate::inputs::Source;
use crate::{duncan, monitor, western_electric, Rule, ZONES};
use catrovindy::Monitor;

impl Source {
    /// A rule list, now and then refused; up to eight rules.
    pub fn chart_rules(&mut self) -> Vec<Rule> {
        match self.below(12) {
            0 => western_electric(),
            1 => duncan(),
            2 => (0..1 + self.below(8)).map(|_| self.rule(9)).collect(),
            3 => (0..6 + self.below(3)).map(|_| self.long_rule()).collect(),
            4 | 5 => (0..1 + self.below(3)).map(|_| self.long_rule()).collect(),
            _ => self.rules(),
        }
    }

    /// A rule that holds seldom and remembers much.
    fn long_rule(&mut self) -> Rule {
        let m = 5 + self.below(5) as u32;
        Rule::new(m - self.below(4) as u32, m, 1 + self.below(255) as u32)
    }

    /// Hits that a rule remembers, fewer than k, met or not.
    fn valid_window(&mut self, rule: &Rule) -> Vec<u32> {
        let many = 1 + self.below(3);
        let mut hits: Vec<u32> = (1..rule.m).filter(|_| self.below(4) < many).collect();
        hits.truncate(rule.k as usize - 1);
        loop {
            let kept: Vec<u32> = hits.iter().copied().filter(|&age| remembered(rule, &hits, age)).collect();
            if kept.len() == hits.len() {
                return hits;
            }
            hits = kept;
        }
    }

    /// The points counted: few, any number, or near the end.
    fn counted(&mut self) -> u32 {
        match self.below(12) {
            0 => 0,
            1 => 4_294_967_294,
            2 => 4_294_967_295,
            3 => 4_294_967_290,
            4 => self.next() as u32,
            5..=7 => 9 + self.below(100) as u32,
            _ => self.below(10) as u32,
        }
    }

    /// A monitor met after some points, by the second implementation.
    fn met(&mut self, rules: &[Rule]) -> Monitor {
        let mut at = Monitor::fresh();
        for _ in 0..self.below(12) {
            match monitor::step(rules, at, self.below(ZONES as u64) as u32) {
                Ok((_, next)) => at = next,
                Err(_) => return at,
            }
        }
        at
    }

    /// A monitor for the rules, which may be refused ones.
    pub fn monitor(&mut self, rules: &[Rule]) -> Monitor {
        let accepted = chart::check(rules).is_ok();
        let mut given = match self.below(10) {
            0 => Monitor { state: self.next(), points: self.counted() },
            1 => Monitor { state: self.next() & self.next() & self.next() & self.next(), points: self.counted() },
            2 => Monitor { state: 0, points: self.counted() },
            3..=5 if accepted => {
                let standing: Standing = rules.iter().map(|rule| self.valid_window(rule)).collect();
                let oldest = standing.iter().flatten().copied().max().unwrap_or(0);
                let points = match self.below(6) {
                    0 => oldest,
                    1 => oldest.saturating_sub(1),
                    _ => self.counted(),
                };
                Monitor { state: monitor::state(&standing), points }
            }
            _ => self.met(rules),
        };
        if self.once_in(10) {
            given.state ^= 1 << self.below(64);
        }
        if self.once_in(20) {
            given.points = self.counted();
        }
        given
    }

    /// A zone, now and then one that does not exist.
    pub fn zone(&mut self) -> u32 {
        if self.once_in(12) {
            return [8, 9, 31, 32, u32::MAX][self.below(5) as usize];
        }
        self.below(ZONES as u64) as u32
    }

    /// A centre and a sigma, now and then out of bounds.
    pub fn chart(&mut self) -> (i32, u32) {
        let centre = match self.below(10) {
            0 => i32::MIN,
            1 => i32::MAX,
            2 => self.next() as i32,
            _ => self.below(400) as i32 - 200,
        };
        let sigma = match self.below(40) {
            0 => 0,
            1 => 65_536,
            2 => u32::MAX,
            3..=5 => 65_535,
            6 => 1,
            _ => 1 + self.below(20) as u32,
        };
        (centre, sigma)
    }

    /// Readings: on the centre or near it, on a limit or beside it, at an end of 32 bits, or any number.
    pub fn readings(&mut self, centre: i32, sigma: u32) -> Vec<i32> {
        let (centre, sigma) = (i64::from(centre), i64::from(sigma));
        let reading = |source: &mut Source| {
            let near = match source.below(40) {
                0 => i64::from(i32::MIN),
                1 => i64::from(i32::MAX),
                2 => i64::from(source.next() as i32),
                3..=8 => centre,
                9..=18 => centre + sigma * (source.below(7) as i64 - 3) + source.below(3) as i64 - 1,
                _ => centre + source.below(4 * sigma as u64 + 1) as i64 - 2 * sigma,
            };
            near.clamp(i64::from(i32::MIN), i64::from(i32::MAX)) as i32
        };
        let length = if self.once_in(12) { 0 } else { self.below(30) };
        (0..length).map(|_| reading(self)).collect()
    }
}
