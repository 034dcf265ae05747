//! Compares the three proved programs with the second implementation on many texts, good and damaged: every byte printed, every refusal,
//! and the places of the buffer that must be kept. Each node of a monitor text is compared with itself alone, in both, and its periods are
//! counted.
use bench::alone;
use bench::inputs::Source;
use bench::lent::{monitor_report, table_report, weights_report};
use bench::monitor_program::monitor_program;
use bench::table_program::table_program;
use bench::tally::Tally;
use bench::weights_program::weights_program;
use bench::Refusal;
use catrovindy::{MONITOR_SIZE, TABLE_SIZE, WEIGHTS_SIZE};

const KEPT: u8 = 0xA5;

/// What was met, and what a buffer holds that nothing has altered.
struct Met {
    tally: Tally,
    kept: Vec<u8>,
}

impl Met {
    fn new(size: usize) -> Met {
        Met { tally: Tally::default(), kept: vec![KEPT; size] }
    }

    /// Ours is in the buffer; all of it is as it was afterwards.
    fn compare(&mut self, text: &[u8], ours: Result<usize, Refusal>, out: &mut [u8], theirs: Result<Vec<u8>, Refusal>) {
        let shown = String::from_utf8_lossy(text);
        self.tally.add(&ours);
        let written = match (&ours, &theirs) {
            (Ok(n), Ok(bytes)) => {
                assert!(out[..*n] == bytes[..], "lines of {shown}");
                *n
            }
            (Err(a), Err(b)) => {
                assert_eq!(a, b, "refusal of {shown}");
                0
            }
            _ => panic!("{ours:?} and {} for {shown}", theirs.is_ok()),
        };
        assert!(out[written..] == self.kept[written..], "the rest of the buffer, for {shown}");
        out[..written].fill(KEPT);
    }
}

/// The table program.
fn tables(count: u64) {
    let mut source = Source::new(7);
    let mut out: Box<[u8; TABLE_SIZE]> = vec![KEPT; TABLE_SIZE].try_into().expect("the size");
    let mut met = Met::new(TABLE_SIZE);
    let mut miscounted = 0;
    for i in 0..count {
        let mut text = source.table_text();
        if i % 2 == 1 {
            source.damage(&mut text);
        }
        let ours = table_report(&text, &mut out);
        let theirs = table_program(&text);
        // in a text that is not damaged only the number of weights can be wrong on the first line
        miscounted += u64::from(i % 2 == 0 && ours == Err(Refusal { number: 16, place: 1 }));
        if i % 16 < 2 {
            assert!(catrovindy::table_report(&text) == theirs, "the Rust layer: {}", String::from_utf8_lossy(&text));
        }
        met.compare(&text, ours, &mut out[..], theirs);
    }
    met.tally.report("table program", &format!(" ({miscounted} others with seven or nine weights)"), &[2, 3, 4, 8, 9, 16, 17]);
    assert!(miscounted > 0, "no text had seven or nine weights");
}

/// What was met of nodes: how many were compared with themselves alone; how many of their lines have a period, and how many another one than n;
/// how many texts with a node over 15 were refused by 16; and of those refused by 19, what the program says of their opening lines.
#[derive(Default)]
struct NodesMet {
    alone: u64,
    periods: u64,
    cleared: u64,
    unread: u64,
    opening: Tally,
}

impl NodesMet {
    /// Each node of an accepted text prints from its own points alone what it prints among the others, with the periods 1, 2, 3 and so on up to
    /// the points of its total, and no line is left over.
    fn compare_alone(&mut self, text: &[u8], printed: &[u8], out: &mut [u8; MONITOR_SIZE]) {
        let mut bytes = 0;
        for node in alone::nodes(text) {
            let (own, expected) = (alone::text_of(text, node), alone::lines_of(printed, node));
            let shown = || format!("node {node} of {}", String::from_utf8_lossy(text));
            let n = monitor_report(&own, out).unwrap_or_else(|refusal| panic!("{refusal}, {}", shown()));
            assert!(out[..n] == expected[..], "proved, {}", shown());
            out[..n].fill(KEPT);
            assert!(monitor_program(&own).as_ref() == Ok(&expected), "plain, {}", shown());
            let (periods, cleared) = alone::periods(&expected).unwrap_or_else(|| panic!("other periods, {}", shown()));
            self.periods += periods;
            self.cleared += cleared;
            bytes += expected.len();
            self.alone += 1;
        }
        assert_eq!(bytes, printed.len(), "lines of no node of {}", String::from_utf8_lossy(text));
    }

    /// Counts what stands before 19 and behind it.
    fn count_order(&mut self, text: &[u8], refusal: Refusal) {
        match refusal.number {
            16 => self.unread += u64::from(alone::nodes(text).last().is_some_and(|&node| node > 15)),
            19 => self.opening.add(&monitor_program(&alone::opening(text))),
            _ => {}
        }
    }

    fn report(&self) -> String {
        let NodesMet { alone, periods, cleared, unread, opening } = self;
        let counted = format!("{alone} nodes print the same alone; {periods} lines have their period, {cleared} of them behind a clearing");
        format!(" ({counted}; 16 comes before 19 in {unread} texts, and 19 before these: {:?})", opening.refused)
    }
}

/// The monitor program.
fn monitors(count: u64) {
    let mut source = Source::new(16);
    let mut out: Box<[u8; MONITOR_SIZE]> = vec![KEPT; MONITOR_SIZE].try_into().expect("the size");
    let (mut met, mut nodes) = (Met::new(MONITOR_SIZE), NodesMet::default());
    for i in 0..count {
        let mut text = source.monitor_text();
        if i % 2 == 1 {
            source.damage(&mut text);
        }
        let ours = monitor_report(&text, &mut out);
        let theirs = monitor_program(&text);
        if i % 16 < 2 {
            assert!(catrovindy::monitor_report(&text) == theirs, "the Rust layer: {}", String::from_utf8_lossy(&text));
        }
        met.compare(&text, ours, &mut out[..], theirs.clone());
        match theirs {
            Ok(printed) => nodes.compare_alone(&text, &printed, &mut out),
            Err(refusal) => nodes.count_order(&text, refusal),
        }
    }
    met.tally.report("monitor program", &nodes.report(), &[1, 2, 3, 4, 16, 17, 19]);
    let behind: Vec<u32> = nodes.opening.refused.keys().copied().collect();
    assert!(nodes.alone > 0 && nodes.cleared > 0 && nodes.unread > 0 && nodes.opening.accepted > 0, "too little was met of nodes");
    assert_eq!(behind, [1, 2, 3, 4], "the numbers that 19 came before, and those that it must come before");
}

/// The weights program, also by the Rust layer's own buffer and by one that is lent to it.
fn weights(count: u64) {
    let mut source = Source::new(150);
    let mut met = Met::new(WEIGHTS_SIZE);
    let (mut out, mut lent) = ([KEPT; WEIGHTS_SIZE], [KEPT; WEIGHTS_SIZE]);
    let mut behind = 0;
    for i in 0..count {
        let mut text = source.shift_text();
        if i % 2 == 1 {
            source.damage(&mut text);
        }
        let ours = weights_report(&text, &mut out);
        let theirs = weights_program(&text);
        behind += u64::from(ours == Err(Refusal { number: 16, place: 2 }));
        let shown = || String::from_utf8_lossy(&text);
        assert!(catrovindy::weights_report(&text) == theirs, "the Rust layer: {}", shown());
        assert!(catrovindy::weights_report_into(&text, &mut lent) == ours && lent == out, "the Rust layer's buffer: {}", shown());
        met.compare(&text, ours, &mut out, theirs);
        lent.fill(KEPT);
    }
    met.tally.report("weights program", &format!(" ({behind} others with something behind the line)"), &[16, 17, 18]);
    assert!(behind > 0, "no text had something behind the line");
}

fn main() {
    let count: u64 = std::env::args().nth(1).map_or(100_000, |a| a.parse().expect("a number of texts"));
    tables(count);
    monitors(count);
    weights(count);
}
