//! Texts for the three programs: as a planner or a bench writes them, and damaged.
use crate::inputs::Source;

impl Source {
    /// How many rule lines: mostly few.
    fn rule_count(&mut self) -> u64 {
        match self.below(40) {
            0 => 0,
            1 => 8,
            2 => 9,
            3 => 40,
            n => 1 + n % 3,
        }
    }

    fn rule_lines(&mut self, text: &mut String, count: u64, longest: u32) {
        for _ in 0..count {
            let r = self.rule(longest);
            *text += &format!("rule,{},{},{}\n", r.k, r.m, r.zones);
        }
    }

    /// A text that is mostly accepted, with a short horizon; now and then with one weight less or more.
    pub fn table_text(&mut self) -> Vec<u8> {
        let mut weights = self.weights().map(|w| w.to_string()).to_vec();
        match self.below(30) {
            0 => weights.truncate(7),
            1 => weights.push("0".into()),
            _ => {}
        }
        let mut text = format!("weights,{}\n", weights.join(","));
        let count = self.rule_count();
        self.rule_lines(&mut text, count, if count > 3 { 2 } else { 4 });
        let horizon = match self.below(30) {
            0 => 0,
            1 => 4_096,
            2 => 4_097,
            3 => u32::MAX,
            n => n as u32,
        };
        text += &format!("horizon,{horizon}\n");
        text.into_bytes()
    }

    /// A signed number: mostly near, seldom at an end of 32 bits or beyond it.
    fn reading(&mut self, near: i64) -> i64 {
        match self.below(200) {
            0 => i64::from(i32::MIN),
            1 => i64::from(i32::MAX),
            2 => i64::from(self.next() as i32),
            3 if self.once_in(20) => i64::from(i32::MIN) - 1,
            4 if self.once_in(20) => i64::from(i32::MAX) + 1,
            n => near + n as i64 % 81 - 40,
        }
    }

    /// The nodes of a bench: mostly few of the sixteen, now and then all of them.
    fn bench(&mut self) -> Vec<u64> {
        match self.below(8) {
            0 => (0..16).collect(),
            n => (0..1 + n % 4).map(|_| self.below(16)).collect(),
        }
    }

    /// What stands between the word of a point line and its reading, for a node that is over 15, or that cannot be read.
    fn odd_node(&mut self) -> &'static str {
        let over = ["16,", "17,", "255,", "256,", "4294967295,"];
        let unread = ["4294967296,", "007,", "00,", "0016,", "+1,", "-1,", "-0,", " 1,", ",", ""];
        let odd: &[&str] = if self.once_in(5) { &unread } else { &over };
        odd[self.below(odd.len() as u64) as usize]
    }

    /// A text that is mostly accepted, with few points, some of them on the centre; now and then with odd nodes.
    pub fn monitor_text(&mut self) -> Vec<u8> {
        let centre = if self.once_in(8) { self.reading(0) } else { self.below(400) as i64 - 200 };
        let step = match self.below(60) {
            0 => 0,
            1 => 65_535,
            2 => 65_536,
            3 => u32::MAX,
            n => 1 + n as u32 % 20,
        };
        let mut text = format!("chart,{centre},{step}\n");
        let count = self.rule_count();
        self.rule_lines(&mut text, count, 9);
        let (bench, odd) = (self.bench(), self.once_in(5));
        for _ in 0..self.below(40) {
            let near = centre + self.below(60) as i64 - 30;
            let reading = if self.once_in(6) { centre } else { self.reading(near) };
            if odd && self.once_in(12) {
                text += &format!("point,{}{reading}\n", self.odd_node());
            } else {
                let node = bench[self.below(bench.len() as u64) as usize];
                text += &format!("point,{node},{reading}\n");
            }
        }
        text.into_bytes()
    }

    /// A shift: mostly accepted, seldom next to the bounds, at an end of 32 bits or beyond it, or badly written.
    fn shift(&mut self) -> String {
        let near = self.below(301) as i64 - 150;
        match self.below(40) {
            0 => "151".into(),
            1 => "-151".into(),
            2 => i32::MIN.to_string(),
            3 => i32::MAX.to_string(),
            4 => (self.next() as i32).to_string(),
            5 => (i64::from(i32::MIN) - 1).to_string(),
            6 => (i64::from(i32::MAX) + 1).to_string(),
            7 => "-0".into(),
            8 => "+1".into(),
            9 => format!("0{near}"),
            10 => "-01".into(),
            11 => ["150", "-150", "0"][self.below(3) as usize].into(),
            _ => near.to_string(),
        }
    }

    /// A text that is mostly accepted; now and then without its LF, or with something behind the line.
    pub fn shift_text(&mut self) -> Vec<u8> {
        let end = match self.below(40) {
            0 => "",
            1 => "\r\n",
            2 => "\n\n",
            3 => "\n0",
            4 => "\nshift,0\n",
            _ => "\n",
        };
        format!("shift,{}{end}", self.shift()).into_bytes()
    }

    /// One wrong thing, or more.
    pub fn damage(&mut self, text: &mut Vec<u8>) {
        let pieces: &[&[u8]] = &[
            b"0", b"-", b"+", b",", b"\n", b"\r", b"\0", b" ", b"00", b"-0", b"4294967295", b"4294967296", b"rule,1,1,1\n", b"horizon,2\n",
            b"point,1\n", b"point,1,1\n", b"point,16,1\n", b"shift,1\n", b"\n\n",
        ];
        for _ in 0..1 + self.below(2) {
            let at = self.below(text.len() as u64 + 1) as usize;
            match self.below(6) {
                0 => text.truncate(at),
                1 if at < text.len() => {
                    text.remove(at);
                }
                2 if at < text.len() => text[at] = self.next() as u8,
                3 => {
                    let end = (at + self.below(12) as usize).min(text.len());
                    text.drain(at..end);
                }
                4 if self.once_in(200) => text.resize([65_536, 65_537, 70_000][self.below(3) as usize], b'\n'),
                _ => {
                    let piece = pieces[self.below(pieces.len() as u64) as usize];
                    text.splice(at..at, piece.iter().copied());
                }
            }
        }
    }
}
