//! Compares the proved library with the second implementation on many inputs, accepted and refused: every figure, every place of both
//! lists, the places beyond the horizon among them. Where the centre has weight 0, also with a table of the standings alone that the other
//! seven zones meet, out of those that all eight tell apart. In every row of an accepted table, what has signalled and what is left are 2^60
//! together, but for what rounding takes. Prints what it compared, and stops at the first difference.
use bench::inputs::Source;
use bench::merge::{merged, met_by, Moves};
use bench::tally::Tally;
use bench::{bracket, chart, duncan, large, lent, refuse, rules, table, western_electric, with_nine, Refusal, Rule, IN_CONTROL, ZONES};
use catrovindy::Figures;

/// What stands in a place that must not be written.
const KEPT: u64 = 0xDEAD_BEEF_0BAD_F00D;

/// The bracket of a list by both, for one percent.
fn same_bracket(tally: &mut Tally, chances: &[u64], n: u32, percent: u32) {
    let ours = lent::bracket(chances, n, percent);
    let theirs = bracket::bracket(chances, n, percent);
    assert_eq!(ours, theirs, "bracket of {percent} percent, {n} standings, {chances:?}");
    assert_eq!(ours, catrovindy::bracket(chances, n, percent), "the Rust layer: {percent} percent, {n} standings, {chances:?}");
    tally.add(&ours);
}

/// Every percent of a table, its ends among them.
fn brackets(tally: &mut Tally, chances: &[u64], n: u32) {
    for percent in 0..=100 {
        same_bracket(tally, chances, n, percent);
    }
}

/// Lists that no table has: chances up to 2^64 - 1, few or many, any count and percent.
fn odd_brackets(tally: &mut Tally, source: &mut Source) {
    let len = [0, 1, 2, 3, 100, 65_535, 65_536][source.below(7) as usize];
    let size = [0, 1, 1 << 40, 1 << 59, u64::MAX][source.below(5) as usize];
    let mut chances: Vec<u64> = (0..len).map(|_| if size == u64::MAX { source.next() } else { source.below(size + 1) }).collect();
    if source.once_in(3) && !chances.is_empty() {
        let total: u128 = chances.iter().map(|&c| u128::from(c)).sum();
        let last = chances.len() - 1;
        let rest = total - u128::from(chances[last]);
        if rest <= 1 << 60 {
            // exactly 2^60, or one more
            chances[last] = ((1u128 << 60) - rest) as u64 + source.below(2);
        }
    }
    let n = [0, 1, 2, 500, 1024, 1025, u32::MAX][source.below(7) as usize];
    let p = [0, 1, 25, 50, 75, 99, 100, u32::MAX][source.below(8) as usize];
    same_bracket(tally, &chances, n, p);
}

/// What was met: the rows of all accepted tables; the tables with standings that do not differ; those where the centre has weight 0, among
/// them those where it leads to standings of its own, and those where it alone tells some of the others apart.
#[derive(Default)]
struct Met {
    tables: Tally,
    brackets: Tally,
    rows: u64,
    with_fewer: u64,
    off_centre: u64,
    with_more: u64,
    told_by_centre: u64,
}

/// At each n, the chance of a signal by n and what is left are at most 2^60 together, and short of it by at most N units a row, which
/// rounding takes.
fn by_and_left(met: &mut Met, states: u32, (p, s): (&[u64], &[u64]), call: impl Fn() -> String) {
    let mut by = 0;
    for (n, (&chance, &left)) in (1u128..).zip(p.iter().zip(s)) {
        by += u128::from(chance);
        let short = (1u128 << 60).checked_sub(by + u128::from(left));
        let within = short.is_some_and(|units| units <= n * u128::from(states));
        assert!(within, "{by} by {n} and {left} left, {states} standings, {}", call());
        met.rows += 1;
    }
}

/// A centre of weight 0 alters N alone: the table of those standings that the other seven zones meet has the same rows and mean, and no more
/// standings. All eight zones tell standings apart, the centre among them.
fn same_off_centre(met: &mut Met, moves: &Moves<ZONES>, others: &[u32; ZONES - 1], all: Figures, (p, s): (&[u64], &[u64])) {
    let call = || format!("off the centre: {others:?} {} over {moves:?}", p.len());
    let (mut p2, mut s2) = (vec![KEPT; p.len()], vec![KEPT; s.len()]);
    let moves: Moves<{ ZONES - 1 }> = met_by(moves);
    let fewer = table::rows(&moves, others, p.len() as u32, &mut p2, &mut s2);
    assert!(p == p2 && s == s2, "the rows, {}", call());
    assert_eq!(Figures { states: all.states, ..fewer }, all, "the figures, {}", call());
    assert!(fewer.states <= all.states, "the standings, {}", call());
    met.off_centre += 1;
    met.with_more += u64::from(fewer.states < all.states);
    met.told_by_centre += u64::from(merged(&moves).len() < moves.len());
}

fn same(met: &mut Met, rules: &[Rule], weights: &[u32; ZONES], horizon: u32, lengths: (usize, usize)) {
    let lists = || (vec![KEPT; lengths.0], vec![KEPT; lengths.1]);
    let (mut p, mut s) = lists();
    let (mut p2, mut s2) = lists();
    let ours = lent::table(rules, weights, horizon, &mut p, &mut s);
    let theirs = table::table(rules, weights, horizon, &mut p2, &mut s2);
    assert_eq!(ours, theirs, "figures of {rules:?} {weights:?} {horizon}");
    assert_eq!(p, p2, "chances of {rules:?} {weights:?} {horizon}");
    assert_eq!(s, s2, "left of {rules:?} {weights:?} {horizon}");
    if met.tables.cases % 8 == 0 {
        let (mut p, mut s) = lists();
        let wrapped = catrovindy::table(&lent::list(rules), weights, horizon, &mut p, &mut s);
        assert!((wrapped, p, s) == (ours, p2, s2), "the Rust layer: {rules:?} {weights:?} {horizon}");
    }
    met.tables.add(&ours);
    if let Ok(f) = ours {
        let (p, s) = (&p[..horizon as usize], &s[..horizon as usize]);
        by_and_left(met, f.states, (p, s), || format!("{rules:?} {weights:?} {horizon}"));
        brackets(&mut met.brackets, p, f.states);
        let all = chart::standings(rules).expect("accepted");
        met.with_fewer += u64::from((f.states as usize) < all.len());
        if let [others @ .., 0] = weights {
            same_off_centre(met, &merged(&all), others, f, (p, s));
        }
    }
}

/// How many standings a list has before and after merging.
fn standings(list: &[Rule]) -> Result<(usize, usize), Refusal> {
    chart::standings::<ZONES>(list).map(|moves| (moves.len(), merged(&moves).len()))
}

/// How many the seven zones other than the centre meet: of all standings, and of those that differ.
fn off_centre(list: &[Rule]) -> (Result<usize, Refusal>, Result<usize, Refusal>) {
    let before = chart::standings::<{ ZONES - 1 }>(list).map(|moves| moves.len());
    let after = chart::standings::<ZONES>(list).map(|moves| met_by::<ZONES, { ZONES - 1 }>(&merged(&moves)).len());
    (before, after)
}

/// What is known of lists: 10 looks at the first number, the second is N. N is the same for the same rules given twice, and no rule alone has
/// standings that do not differ.
fn known_counts(crowded: &[Rule]) {
    assert_eq!(standings(&western_electric()), Ok((307, 225)));
    assert_eq!(standings(&with_nine()), Ok((351, 261)));
    assert_eq!(standings(&duncan()), Ok((17, 15)));
    assert_eq!(standings(&large()), Ok((1008, 1008)));
    assert_eq!(standings(&rules(&[(3, 9, 6), (3, 9, 12)])), refuse(10, 0));
    assert_eq!(standings(&rules(&[(2, 3, 2), (2, 3, 6)])), Ok((5, 3)));
    assert_eq!(standings(&rules(&[(5, 9, 6), (5, 9, 2)])), Ok((1001, 126)));
    // 1,287 before merging, though the second rule never holds without the first, which has 126 alone
    assert_eq!(standings(&rules(&[(6, 9, 6), (6, 9, 2)])), refuse(10, 0));
    assert_eq!(off_centre(&western_electric()), (Ok(295), Ok(215)));
    assert_eq!(off_centre(&duncan()), (Ok(17), Ok(15)));
    assert_eq!(off_centre(&large()), (Ok(1008), Ok(1008)));
    assert_eq!((standings(crowded), off_centre(crowded)), (refuse(10, 0), (Ok(590), refuse(10, 0))));
    for list in [rules(&[(2, 3, 2), (2, 3, 6)]), rules(&[(4, 5, 96), (4, 5, 6)]), large()] {
        assert_eq!(standings(&[&list[..], &list].concat()), standings(&list), "{list:?} twice");
    }
    for (m, zones) in (1..=9).flat_map(|m| [(m, 6), (m, 127), (m, 255)]) {
        for k in 1..=m {
            let alone = standings(&rules(&[(k, m, zones)])).expect("accepted");
            assert_eq!(alone.0, alone.1, "{k},{m},{zones} alone");
        }
    }
}

/// What is known of Western Electric in control: the last row to 1,000, its chance at, by and left, and the mean.
fn known_figures() {
    let (mut p, mut s) = (vec![KEPT; 1_000], vec![KEPT; 1_000]);
    let figures = lent::table(&western_electric(), &IN_CONTROL, 1_000, &mut p, &mut s).expect("accepted");
    assert_eq!((p[999], p.iter().sum::<u64>(), s[999]), (160_745_842_270, 1_152_907_420_522_885_295, 14_084_083_854_496));
    assert_eq!((figures.states, figures.mean_whole, figures.mean_fraction), (225, 91, 864_334_053_807_822_988));
}

fn main() {
    let mut met = Met::default();
    let mut source = Source::new(2026);
    let count: u64 = std::env::args().nth(1).map_or(20_000, |a| a.parse().expect("a number of cases"));
    for _ in 0..count {
        let list = source.rules();
        let weights = source.weights();
        let horizon = source.horizon();
        let lens = source.lengths(horizon);
        same(&mut met, &list, &weights, horizon, lens);
    }
    // every zone but the centre is in some set of this list, and the centre leads it to more than 1,024 standings
    let crowded = rules(&[(4, 6, 126), (4, 7, 115), (4, 9, 2), (4, 4, 57)]);
    known_counts(&crowded);
    known_figures();
    let few = [rules(&[(2, 3, 2), (2, 3, 6)]), rules(&[(5, 9, 6), (5, 9, 2)])];
    let many = [rules(&[(3, 9, 6), (3, 9, 12)]), rules(&[(6, 9, 6), (6, 9, 2)]), crowded];
    for list in [western_electric(), with_nine(), duncan(), large()].into_iter().chain(few).chain(many) {
        for horizon in [1, 2, 1_000, 4_096, 65_535] {
            let h = horizon as usize;
            same(&mut met, &list, &IN_CONTROL, horizon, (h + 2, h + 1));
            same(&mut met, &list, &IN_CONTROL, horizon, (h - 1, h));
            same(&mut met, &list, &IN_CONTROL, horizon, (h, h - 1));
        }
    }
    for _ in 0..count / 20 {
        odd_brackets(&mut met.brackets, &mut source);
    }
    let Met { tables, brackets, rows, with_fewer, off_centre, with_more, told_by_centre } = met;
    let fewer = format!("{with_fewer} with standings that do not differ");
    let of_these = format!("N is larger in {with_more} of these, and the centre alone tells standings apart in {told_by_centre}");
    let centre = format!("{off_centre} with weight 0 on the centre, as over what the other seven zones meet; {of_these}");
    let more = format!(" ({fewer}; {centre}), by and left together at most n * N short of 2^60 in each of their {rows} rows");
    tables.report("table", &more, &[2, 3, 4, 8, 9, 10, 11]);
    brackets.report("bracket", "", &[12, 13, 14, 15]);
    assert!(rows > 0, "no row was looked at");
    assert!(with_fewer >= 1_000 || count < 20_000, "too few tables had standings that do not differ");
    let centred = off_centre >= 1_000 && with_more >= 300 && told_by_centre >= 100;
    assert!(centred || count < 20_000, "the centre had weight 0 too seldom");
}
