//! Every function once or more: answers that are known, inputs out of bounds, null lists, little stack, many threads.
use catrovindy::{
    box_plot, bracket, monitor_report, monitor_report_into, raw, shift_weights, table, table_report, weights_report, weights_report_into, zone,
    Batch, BoxPlot, Bracket, Monitor, PlotItem, Point, Refusal, Rule, RuleList, Table, Weights, A1, ALL_ZONES, B1, C0, C1, MAX_COUNT, MAX_SHIFT,
    MAX_TEXT, MONITOR_SIZE, NODES, S, SET_A1, SET_ABOVE, SET_A_OR_B_ABOVE, SET_BELOW, SET_C0, SET_S, TABLE_SIZE, UNITS_PER_ONE,
    WEIGHTS_SIZE, WEIGHT_TOTAL, ZONES,
};
use std::ptr::{null, null_mut};

const IN_CONTROL: Weights = [2_898_884, 22_978_326, 145_927_014, 366_516_130, 366_516_130, 145_927_014, 22_978_326, 0];

fn refused<T: std::fmt::Debug>(answer: Result<T, Refusal>) -> (u32, u32) {
    let refusal = answer.expect_err("a refusal");
    (refusal.number, refusal.place)
}

#[test]
fn zones_of_readings() {
    let zones = [131, 130, 120, 111, 110, 101, 100, 99, 90, 89, 79, 70, 69].map(|reading| zone(reading, 100, 10).expect("a zone"));
    assert_eq!(zones, [0, 1, 2, 2, 3, 3, 7, 4, 4, 5, 6, 6, 0]);
    assert_eq!(refused(zone(i32::MIN, i32::MAX, 65_536)), (1, 0));
}

#[test]
fn a_reading_on_the_centre_is_in_c0_on_every_chart() {
    for centre in [i32::MIN, -100, 0, 100, i32::MAX] {
        for sigma in [1, 10, 65_535] {
            assert_eq!(zone(centre, centre, sigma), Ok(C0), "centre {centre}, sigma {sigma}");
        }
    }
}

#[test]
fn a_point_on_the_centre_counts_for_neither_side() {
    let eight = |zones| RuleList::new().with(Rule::new(8, 8, zones));
    let take = |rules: &RuleList, readings: &[i32]| Monitor::fresh().take(rules, 100, 10, readings);
    let signal = |n: u32, mask| Ok(Batch::Signal { taken: n as usize, count: n, mask });
    // four above the centre, one on it, eight above: only the last eight are in a row
    let mut above = [101; 13];
    above[4] = 100;
    assert_eq!(take(&eight(SET_ABOVE), &above), signal(13, 1));
    assert_eq!(take(&RuleList::western_electric(), &above), signal(13, 1 << 6));
    // where the set has the centre too, the first eight are
    assert_eq!(take(&eight(SET_ABOVE | SET_C0), &above), signal(8, 1));
    let below = above.map(|reading| 200 - reading);
    assert_eq!(take(&eight(SET_BELOW), &below), signal(13, 1));
    assert_eq!(take(&RuleList::western_electric(), &below), signal(13, 1 << 5));
    for rules in [RuleList::western_electric(), RuleList::duncan()] {
        assert_eq!(take(&rules, &[100; 50]), Ok(Batch::Quiet { taken: 50, count: 50 }));
    }
}

#[test]
fn a_rule_of_the_centre_alone() {
    let rules = RuleList::new().with(Rule::new(1, 1, SET_C0));
    for (reading, mask) in [(101, 0), (100, 1), (99, 0)] {
        assert_eq!(Monitor::fresh().step(&rules, zone(reading, 100, 10).expect("a zone")), Ok(Point { count: 1, mask }), "{reading}");
    }
    // its weight is the last: half of the points on the centre
    let half = 1 << 29;
    let table = Table::new(&rules, &[0, 0, 0, half, 0, 0, 0, half], 3).expect("accepted");
    assert_eq!((table.pmf, table.figures.states), (vec![1 << 59, 1 << 58, 1 << 57], 1));
}

#[test]
fn a_list_of_any_length_is_refused_by_its_count() {
    let nine: RuleList = std::iter::repeat_n(Rule::new(1, 1, 1), 9).collect();
    assert_eq!((nine.len(), nine.rules().count()), (9, 8));
    assert_eq!(refused(Monitor::fresh().step(&nine, C1)), (2, 0));
    assert_eq!(refused(Monitor::fresh().step(&RuleList::new(), C1)), (2, 0));
    assert!(RuleList::new().is_empty());
    assert_eq!(refused(Table::new(&RuleList::duncan().with(Rule::new(4, 3, 1)), &IN_CONTROL, 5)), (3, 5));
    let ready: Vec<Rule> = RuleList::western_electric().rules().collect();
    assert_eq!(RuleList::from(&ready[..]), RuleList::western_electric());
}

#[test]
fn a_refused_step_leaves_the_monitor() {
    let rules = RuleList::western_electric();
    let given = Monitor { state: 2 << 16, points: 1 };
    let mut monitor = given;
    assert_eq!(refused(monitor.step(&rules, A1)), (5, 0));
    assert_eq!(refused(monitor.step(&rules, 8)), (6, 0));
    assert_eq!(refused(monitor.take(&rules, 0, 0, &[1])), (1, 0));
    assert_eq!(monitor, given);
}

#[test]
fn a_signal_has_every_rule_that_holds() {
    // two of two, and two of three: both hold at the second point, and a third rule does not
    let rules = RuleList::new()
        .with(Rule::new(2, 2, SET_A_OR_B_ABOVE))
        .with(Rule::new(2, 3, SET_A_OR_B_ABOVE))
        .with(Rule::new(1, 1, SET_S));
    let mut monitor = Monitor::fresh();
    assert_eq!(monitor.step(&rules, A1), Ok(Point { count: 1, mask: 0 }));
    assert_eq!(monitor.step(&rules, B1), Ok(Point { count: 2, mask: 3 }));
    assert_eq!(monitor, Monitor::fresh());
    // the same as readings: the rest is left
    assert_eq!(monitor.take(&rules, 0, 10, &[25, 15, 5]), Ok(Batch::Signal { taken: 2, count: 2, mask: 3 }));
    // the first and the third rule at one point, and not the second
    let rules = RuleList::new().with(Rule::new(1, 1, SET_S)).with(Rule::new(2, 2, SET_A1)).with(Rule::new(1, 9, ALL_ZONES));
    assert_eq!(monitor.step(&rules, S), Ok(Point { count: 1, mask: 5 }));
}

#[test]
fn a_batch_stops_before_a_full_count() {
    let rules = RuleList::duncan();
    let mut monitor = Monitor { state: 0, points: MAX_COUNT - 2 };
    let batch = monitor.take(&rules, 0, 1, &[0; 5]);
    assert_eq!(batch, Ok(Batch::Full { taken: 2 }));
    assert_eq!(batch.map(|b| (b.taken(), b.last(), b.is_signal())), Ok((2, Point { count: MAX_COUNT, mask: 0 }, false)));
    assert_eq!(monitor.points, MAX_COUNT);
    // once it is full, a reading is refused
    assert_eq!(refused(monitor.take(&rules, 0, 1, &[0; 3])), (7, 0));
    assert_eq!(refused(monitor.step(&rules, C1)), (7, 0));
    // no reading is left, so that the batch is quiet
    monitor.points = MAX_COUNT - 2;
    assert_eq!(monitor.take(&rules, 0, 1, &[0; 2]), Ok(Batch::Quiet { taken: 2, count: MAX_COUNT }));
    // a signal at the last point that can be counted clears the chart, and is no full count
    monitor.points = MAX_COUNT - 1;
    assert_eq!(monitor.take(&rules, 0, 1, &[4, 0]), Ok(Batch::Signal { taken: 1, count: MAX_COUNT, mask: 1 }));
    assert_eq!(monitor, Monitor::fresh());
}

#[test]
fn a_batch_of_no_readings_is_checked_like_a_first_reading() {
    let rules = RuleList::duncan();
    let mut monitor = Monitor { state: 0, points: 12 };
    assert_eq!(monitor.take(&rules, 0, 1, &[]), Ok(Batch::Quiet { taken: 0, count: 12 }));
    assert_eq!(refused(monitor.take(&rules, 0, 0, &[])), (1, 0));
    assert_eq!(refused(monitor.take(&rules, 0, 65_536, &[])), (1, 0));
    assert_eq!(refused(monitor.take(&RuleList::new(), 0, 1, &[])), (2, 0));
    assert_eq!(refused(monitor.take(&rules.with(Rule::new(0, 1, 1)), 0, 1, &[])), (3, 5));
    assert_eq!(refused(monitor.take(&rules.with(Rule::new(1, 1, 256)), 0, 1, &[])), (4, 5));
    assert_eq!(monitor, Monitor { state: 0, points: 12 });
    let mut monitor = Monitor { state: 1, points: 12 };
    assert_eq!(refused(monitor.take(&rules, 0, 1, &[])), (5, 0));
    let mut monitor = Monitor { state: 0, points: MAX_COUNT };
    assert_eq!(refused(monitor.take(&rules, 0, 1, &[])), (7, 0));
    // the order: the rules, sigma, the state, the count
    let mut monitor = Monitor { state: u64::MAX, points: MAX_COUNT };
    assert_eq!(refused(monitor.take(&RuleList::new(), 0, 0, &[])), (2, 0));
    assert_eq!(refused(monitor.take(&rules, 0, 0, &[])), (1, 0));
    assert_eq!(refused(monitor.take(&rules, 0, 1, &[])), (5, 0));
}

#[test]
fn a_rule_list_is_checked_by_itself() {
    assert_eq!(RuleList::western_electric().check(), Ok(()));
    assert_eq!(refused(RuleList::new().check()), (2, 0));
    let nine: RuleList = std::iter::repeat_n(Rule::new(0, 0, 0), 9).collect();
    assert_eq!(refused(nine.check()), (2, 0));
    // rule by rule: the set of the first comes before the window of the second
    assert_eq!(refused(RuleList::new().with(Rule::new(1, 1, 0)).with(Rule::new(1, 10, 1)).check()), (4, 0));
    assert_eq!(refused(RuleList::new().with(Rule::new(1, 9, 255)).with(Rule::new(10, 9, 0)).check()), (3, 1));
    // the largest set, and one more
    assert_eq!(RuleList::new().with(Rule::new(1, 1, 255)).check(), Ok(()));
    assert_eq!(refused(RuleList::new().with(Rule::new(1, 1, 256)).check()), (4, 0));
}

/// The exported functions by way of `raw`: a list of length 0 may be null.
#[test]
fn null_lists_of_length_0() {
    let rules = RuleList::duncan();
    let (slots, count) = (rules.slots().0.as_ptr(), rules.len());
    let (mut state, mut points, mut answer) = (0, 3, [9; raw::BATCH_ANSWER]);
    // SAFETY: every array has its size, and every list its length.
    unsafe {
        assert_eq!(raw::catrovindy_batch(slots, count, &mut state, &mut points, 0, 1, null(), 0, answer.as_mut_ptr()), 0);
        assert_eq!((state, points, answer), (0, 3, [0, 3, 0, 0]));
        let (weights, mut figures) = (IN_CONTROL.as_ptr(), [0; raw::FIGURES]);
        let code = raw::catrovindy_table(slots, count, weights, 5, null_mut(), 0, null_mut(), 0, figures.as_mut_ptr());
        assert_eq!((raw::number(code), raw::place(code)), (11, 0));
        let (mut kinds, mut values) = ([0; raw::KINDS], [0.0; raw::VALUES]);
        let code = raw::catrovindy_plot(slots, count, weights, 5, null_mut(), 0, null_mut(), 0, kinds.as_mut_ptr(), values.as_mut_ptr());
        assert_eq!((raw::number(code), raw::place(code)), (11, 0));
        let mut place = [0; raw::BRACKET_ANSWER];
        let code = raw::catrovindy_bracket(null(), 0, 1, 50, place.as_mut_ptr());
        assert_eq!((raw::number(code), raw::place(code)), (12, 0));
        let (mut out, mut bytes) = (vec![0; TABLE_SIZE.max(MONITOR_SIZE)], 0);
        let code = raw::catrovindy_table_report(null(), 0, out.as_mut_ptr(), &mut bytes);
        assert_eq!((raw::number(code), raw::place(code)), (16, 1));
        let code = raw::catrovindy_monitor_report(null(), 0, out.as_mut_ptr(), &mut bytes);
        assert_eq!((raw::number(code), raw::place(code)), (16, 1));
        let code = raw::catrovindy_weights_report(null(), 0, out.as_mut_ptr(), &mut bytes);
        assert_eq!((raw::number(code), raw::place(code)), (16, 1));
    }
}

#[test]
fn lists_of_any_length() {
    let rules = RuleList::western_electric();
    for horizon in [0, 65_536, u32::MAX] {
        assert_eq!(refused(Table::new(&rules, &IN_CONTROL, horizon)), (9, 0));
        assert_eq!(refused(BoxPlot::new(&rules, &IN_CONTROL, horizon)), (9, 0));
    }
    assert_eq!(refused(table(&rules, &IN_CONTROL, 2, &mut [7; 2], &mut [])), (11, 0));
    assert_eq!(refused(box_plot(&rules, &[u32::MAX; ZONES], 2, &mut [], &mut [])), (8, 0));
    assert_eq!(refused(bracket(&[], 1, 50)), (12, 0));
    assert_eq!(refused(bracket(&[u64::MAX; 3], 1, 50)), (15, 0));
    assert_eq!(bracket(&[1 << 59], 1, 50), Ok(Bracket::At(1)));
    assert_eq!(bracket(&[(1 << 59) - 1, 1], 1, 50), Ok(Bracket::Between(1, 2)));
    assert_eq!(bracket(&[(1 << 59) - 1], 1, 50), Ok(Bracket::Open(1)));
    assert_eq!(bracket(&[0; 65_535], 1024, 99), Ok(Bracket::Beyond(65_535)));
}

#[test]
fn a_table_and_its_bounds() {
    let table = Table::new(&RuleList::western_electric(), &IN_CONTROL, 1000).expect("accepted");
    assert_eq!(table.figures.states, 225);
    let (low, high) = table.signal_by(1000).expect("within the horizon");
    assert_eq!((low, high - low), (1_152_907_420_522_885_295, 1000 * 226));
    assert_eq!((table.signal_by(0), table.signal_by(1001)), (None, None));
    assert_eq!(refused(table.bracket(100)), (14, 0));
}

/// Standings from which every continuation first signals at the same point are one in N, so that rules given twice add none. The bound of 1,024
/// looks at their number before that.
#[test]
fn n_is_the_number_of_standings_that_differ() {
    let states = |rules: &[(u32, u32, u32)]| {
        let rules: RuleList = rules.iter().map(|&(k, m, zones)| Rule::new(k, m, zones)).collect();
        Table::new(&rules, &IN_CONTROL, 1).map(|table| table.figures.states)
    };
    assert_eq!((states(&[(2, 3, 2)]), states(&[(2, 3, 2), (2, 3, 2)]), states(&[(2, 3, 2), (2, 3, 6)])), (Ok(3), Ok(3), Ok(3)));
    assert_eq!((states(&[(4, 5, 6)]), states(&[(4, 5, 6), (4, 5, 6)])), (Ok(10), Ok(10)));
    assert_eq!((states(&[(3, 9, 6), (3, 8, 12)]), refused(states(&[(3, 9, 6), (3, 9, 12)]))), (Ok(1008), (10, 0)));
    // the second rule never holds without the first; before merging they have 1,001 and 1,287
    assert_eq!((states(&[(5, 9, 6), (5, 9, 2)]), refused(states(&[(6, 9, 6), (6, 9, 2)]))), (Ok(126), (10, 0)));
}

/// How much less than 2^60 the chance by n and what is left at n are together.
fn short_by(table: &Table, n: u32) -> u64 {
    let (by, _) = table.signal_by(n).expect("within the horizon");
    UNITS_PER_ONE.checked_sub(by + table.survival[n as usize - 1]).expect("at most 2^60")
}

/// Rounding takes at most N units a row: no more than 225,000 by the last of 1,000 rows with Western Electric, and 15,000 with Duncan.
#[test]
fn by_and_left_are_2_to_the_60_but_for_rounding() {
    for (rules, states, at_last) in [(RuleList::western_electric(), 225, 107_185), (RuleList::duncan(), 15, 7_974)] {
        let table = Table::new(&rules, &IN_CONTROL, 1000).expect("accepted");
        assert_eq!((table.figures.states, short_by(&table, 1000)), (states, at_last));
        for n in 1..=1000 {
            assert!(short_by(&table, n) <= u64::from(n * states), "{states} standings, n {n}");
        }
    }
}

/// The plot record has what the table and its brackets have.
#[test]
fn a_plot_is_the_table_in_doubles() {
    let rules = RuleList::western_electric();
    let table = Table::new(&rules, &IN_CONTROL, 100).expect("accepted");
    let (mut pmf, mut survival) = ([7; 101], [8; 100]);
    let plot = box_plot(&rules, &IN_CONTROL, 100, &mut pmf, &mut survival).expect("accepted");
    assert_eq!((&pmf[..100], &survival[..], pmf[100]), (&table.pmf[..], &table.survival[..], 7));
    for (percent, item) in [(5, plot.p5), (25, plot.p25), (50, plot.p50), (75, plot.p75), (95, plot.p95)] {
        let drawn = match table.bracket(percent).expect("accepted") {
            Bracket::At(n) => PlotItem::Point(n.into()),
            Bracket::Between(low, high) => PlotItem::Span(low.into(), high.into()),
            Bracket::Open(low) => PlotItem::Open(low.into()),
            Bracket::Beyond(h) => PlotItem::Beyond(h.into()),
        };
        assert_eq!(item, drawn, "{percent} percent");
    }
    assert_eq!((plot.p5, plot.p95, plot.iqr), (PlotItem::Point(8.0), PlotItem::Beyond(100.0), None));
    let mean = table.figures.mean_whole as f64 + table.figures.mean_fraction as f64 / catrovindy::UNITS_PER_ONE as f64;
    assert!(plot.lower <= mean && mean <= plot.upper && plot.upper - plot.lower < 1e-9);
}

/// The weights of a shift below the centre are those of the same shift above it, with the sides swapped.
fn swapped([s, a1, b1, c1, c2, b2, a2, c0]: Weights) -> Weights {
    [s, a2, b2, c2, c1, b1, a1, c0]
}

#[test]
fn weights_of_shifts() {
    let one = [2_900_312, 23_515_569, 147_952_595, 368_188_538, 364_817_742, 143_915_818, 22_451_250, 0];
    let largest = [71_737_334, 259_555_974, 411_162_504, 259_555_974, 65_066_109, 6_417_793, 246_136, 0];
    for (shift, weights) in [(0, IN_CONTROL), (1, one), (MAX_SHIFT, largest)] {
        assert_eq!(shift_weights(shift), Ok(weights), "shift {shift}");
        assert_eq!(shift_weights(-shift), Ok(swapped(weights)), "shift -{shift}");
    }
    for shift in -MAX_SHIFT..=MAX_SHIFT {
        let weights = shift_weights(shift).expect("accepted");
        assert_eq!((weights.iter().sum::<u32>(), weights[C0 as usize]), (WEIGHT_TOTAL, 0), "shift {shift}");
        assert!(Table::new(&RuleList::duncan(), &weights, 2).is_ok(), "the table with shift {shift}");
    }
}

#[test]
fn a_shift_out_of_bounds_leaves_the_weights() {
    for shift in [MAX_SHIFT + 1, -MAX_SHIFT - 1, 400, -400, i32::MAX, i32::MIN] {
        assert_eq!(refused(shift_weights(shift)), (18, 0), "shift {shift}");
        let mut weights = [7; ZONES];
        // SAFETY: the array has its size.
        let code = unsafe { raw::catrovindy_shift_weights(shift, weights.as_mut_ptr()) };
        assert_eq!((raw::number(code), raw::place(code), weights), (18, 0, [7; ZONES]), "shift {shift}");
    }
}

/// The shifted core is flagged sooner: with the weights typed by hand or made from the shift, the table is the same.
#[test]
fn a_table_for_a_shifted_core() {
    let rules = RuleList::western_electric();
    let by_hand = [24_461_775, 145_927_014, 366_516_130, 366_516_130, 145_927_014, 22_978_326, 1_415_435, 0];
    let shifted = Table::new(&rules, &shift_weights(100).expect("accepted"), 48).expect("accepted");
    assert_eq!(Ok(&shifted), Table::new(&rules, &by_hand, 48).as_ref());
    assert_eq!(shifted.signal_by(48).map(|(low, _)| low), Some(1_152_186_350_332_115_070));
    let sound = Table::new(&rules, &shift_weights(0).expect("accepted"), 48).expect("accepted");
    assert_eq!(sound.signal_by(48).map(|(low, _)| low), Some(459_795_406_632_812_235));
}

#[test]
fn texts_of_shifts() {
    let line = |weights: Weights| format!("weights,{}\n", weights.map(|w| w.to_string()).join(","));
    for shift in [-150, -1, 0, 100, 150] {
        let expected = line(shift_weights(shift).expect("accepted"));
        let text = format!("shift,{shift}\n");
        assert_eq!(weights_report(text.as_bytes()), Ok(expected.clone().into_bytes()), "{text}");
        let mut out = [9; WEIGHTS_SIZE];
        assert_eq!(weights_report_into(text.as_bytes(), &mut out), Ok(expected.len()), "{text}");
        assert!(out.starts_with(expected.as_bytes()) && out[expected.len()..].iter().all(|&b| b == 9), "the buffer of {text}");
        // the line is the one that the table program takes
        let whole = format!("{expected}rule,1,1,1\nhorizon,2\n");
        assert!(table_report(whole.as_bytes()).is_ok(), "{whole}");
    }
    for (text, place) in [
        ("", 1),
        ("shift,0", 1),
        ("shift,\n", 1),
        ("shift,-0\n", 1),
        ("shift,+1\n", 1),
        ("shift,01\n", 1),
        ("shift,2147483648\n", 1),
        ("shift,-2147483649\n", 1),
        ("shift,0,0\n", 1),
        ("shift,0\r\n", 1),
        ("weights,0\n", 1),
        ("shift,0\nshift,0\n", 2),
        ("shift,151\n\n", 2),
        ("shift,0\n0", 2),
    ] {
        let mut out = [9; WEIGHTS_SIZE];
        assert_eq!((refused(weights_report_into(text.as_bytes(), &mut out)), out), ((16, place), [9; WEIGHTS_SIZE]), "{text}");
    }
    for text in ["shift,151\n", "shift,-151\n", "shift,2147483647\n", "shift,-2147483648\n"] {
        assert_eq!(refused(weights_report(text.as_bytes())), (18, 0), "{text}");
    }
    assert_eq!(refused(weights_report(&vec![b'\n'; MAX_TEXT])), (16, 1));
    assert_eq!(refused(weights_report(&vec![b'\n'; MAX_TEXT + 1])), (17, 0));
}

/// The opening lines of a bench's text: the centre 100, sigma 10 and Western Electric's rules.
fn opening() -> String {
    let rules: String = RuleList::western_electric().rules().map(|r| format!("rule,{},{},{}\n", r.k, r.m, r.zones)).collect();
    format!("chart,100,10\n{rules}")
}

/// The monitor report of points, each a node and a reading, behind the opening lines.
fn bench(points: &[(u32, i32)]) -> Result<String, Refusal> {
    let lines: String = points.iter().map(|(node, reading)| format!("point,{node},{reading}\n")).collect();
    let report = monitor_report((opening() + &lines).as_bytes())?;
    Ok(String::from_utf8(report).expect("a text"))
}

#[test]
fn every_node_has_a_chart_of_its_own() {
    let points = [(3, 121), (15, 121), (3, 100), (15, 131), (3, 121), (0, 100)];
    let lines = "quiet,3,1,1\nquiet,15,1,1\nquiet,3,2,2\nsignal,15,2,1,2\nsignal,3,3,4,3\nquiet,0,1,1\n";
    let totals = "total,0,1,0\ntotal,3,3,1\ntotal,15,2,1\n";
    assert_eq!(bench(&points), Ok(format!("{lines}{totals}")));
    // the lines of a node are those of its own points alone
    for (node, own) in [
        (0, "quiet,0,1,1\ntotal,0,1,0\n"),
        (3, "quiet,3,1,1\nquiet,3,2,2\nsignal,3,3,4,3\ntotal,3,3,1\n"),
        (15, "quiet,15,1,1\nsignal,15,2,1,2\ntotal,15,2,1\n"),
    ] {
        let alone: Vec<_> = points.into_iter().filter(|point| point.0 == node).collect();
        assert_eq!(bench(&alone), Ok(own.into()), "node {node}");
    }
}

#[test]
fn the_period_goes_on_after_a_signal() {
    let points = [(15, 121), (3, 100), (15, 131), (15, 121), (15, 121), (3, 100), (15, 121)];
    let of_15 = "quiet,15,1,1\nsignal,15,2,1,2\nquiet,15,1,3\nsignal,15,2,4,4\nquiet,15,1,5\ntotal,15,5,2\n";
    let lines = bench(&points).expect("accepted");
    let own: Vec<&str> = lines.split_inclusive('\n').filter(|line| line.split(',').nth(1) == Some("15")).collect();
    assert_eq!(own.concat(), of_15);
    // each point signals: the count stays 1, and the period rises past 9, 99 and 999
    let signals: String = (1..=1001).map(|period| format!("signal,7,1,1,{period}\n")).collect();
    assert_eq!(bench(&[(7, 131); 1001]), Ok(signals + "total,7,1001,1001\n"));
    // and without a signal it is the count
    let quiet: String = (1..=1001).map(|period| format!("quiet,7,{period},{period}\n")).collect();
    assert_eq!(bench(&[(7, 100); 1001]), Ok(quiet + "total,7,1001,0\n"));
}

#[test]
fn nodes_are_totalled_in_their_order() {
    let points: Vec<_> = (0..NODES as u32).rev().map(|node| (node, 100)).collect();
    let quiet: String = (0..NODES).rev().map(|node| format!("quiet,{node},1,1\n")).collect();
    let totals: String = (0..NODES).map(|node| format!("total,{node},1,0\n")).collect();
    assert_eq!(bench(&points), Ok(quiet + &totals));
}

#[test]
fn a_text_without_points_has_no_lines() {
    assert_eq!(bench(&[]), Ok(String::new()));
    let mut out: Box<[u8; MONITOR_SIZE]> = vec![9; MONITOR_SIZE].try_into().expect("the size");
    assert_eq!(monitor_report_into(opening().as_bytes(), &mut out), Ok(0));
    assert!(out.iter().all(|&b| b == 9), "the buffer is kept");
}

#[test]
fn nodes_beyond_the_last() {
    let last = NODES as u32 - 1;
    assert!(bench(&[(last, 100)]).is_ok());
    for node in [last + 1, 256, u32::MAX] {
        assert_eq!(refused(bench(&[(node, 100)])), (19, 9), "node {node}");
        assert_eq!(refused(bench(&[(0, 131), (last, 100), (node, 100), (node, 100)])), (19, 11), "the first of two points of node {node}");
    }
    let report = |text: &str| refused(monitor_report(text.as_bytes()));
    // what cannot be read comes first, also behind it; the rules and sigma come after it
    for line in ["point,100\n", "point,4294967296,100\n", "point,016,100\n", "point,-1,100\n", "point,+1,100\n", "point,,100\n", "point,0,0"] {
        assert_eq!(report(&format!("{}point,16,0\n{line}", opening())), (16, 10), "{line}");
    }
    for (rules, place) in [("", 2), ("rule,3,2,1\n", 3), ("rule,1,1,256\n", 3), ("rule,1,1,1\n", 3)] {
        assert_eq!(report(&format!("chart,100,0\n{rules}point,16,0\n")), (19, place), "{rules}");
    }
}

#[test]
fn refusals_in_words() {
    let refusal = Monitor::fresh().step(&RuleList::duncan().with(Rule::new(1, 1, 256)), C1).expect_err("a refusal");
    let words = "A rule's zone set is 0 or over 255: it has no zone, or one that does not exist.";
    assert_eq!((refusal.number, refusal.place, refusal.meaning()), (Refusal::BAD_ZONE_SET, 5, words));
    assert_eq!(refusal.to_string(), format!("refused by 4, place 5: {words}"));
    let boxed: Box<dyn std::error::Error> = Box::new(refusal);
    assert!(boxed.source().is_none());
    assert_eq!(refused(table_report(&vec![b'\n'; MAX_TEXT + 1])), (17, 0));
    let words = table_report(b"").expect_err("a refusal").to_string();
    assert_eq!(words, "refused by 16, place 1: A line of the text is missing, is not the one expected, or cannot be read.");
}

/// With one field less or more the weights line cannot be read, even where the sum is right.
#[test]
fn a_text_has_eight_weights() {
    let text = |weights: &str| table_report(format!("weights,{weights}\nrule,2,2,2\nhorizon,4\n").as_bytes());
    assert!(text("0,536870912,0,0,536870912,0,0,0").is_ok());
    assert_eq!(refused(text("0,536870912,0,0,536870912,0,0")), (16, 1));
    assert_eq!(refused(text("0,536870912,0,0,536870912,0,0,0,0")), (16, 1));
}

/// The header promises that 256 KiB of stack are enough, and that calls may run at the same time.
#[test]
fn little_stack_and_many_threads() {
    let text: &[u8] = b"weights,2898884,22978326,145927014,366516130,366516130,145927014,22978326,0\nrule,3,9,6\nrule,3,8,12\nhorizon,4096\n";
    let work = move || {
        let lines = table_report(text).expect("accepted");
        let plot = BoxPlot::new(&RuleList::western_electric(), &IN_CONTROL, 300).expect("accepted");
        let watched = monitor_report(b"chart,0,1\nrule,1,1,1\npoint,0,4\npoint,15,4\n").expect("accepted");
        let weighed = (shift_weights(100).expect("accepted"), weights_report(b"shift,-100\n").expect("accepted"));
        (lines, plot, watched, weighed)
    };
    let threads: Vec<_> = (0..4).map(|_| std::thread::Builder::new().stack_size(256 << 10).spawn(work).expect("a thread")).collect();
    let mut answers = threads.into_iter().map(|thread| thread.join().expect("an answer"));
    let first = answers.next().expect("some");
    assert!(answers.all(|answer| answer == first));
}
