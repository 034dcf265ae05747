//! The C header, this crate and the proved code say the same: the version, every size and number, the ready lists, the words of the
//! refusals, and the parameters of every function.
use catrovindy::*;
use std::collections::BTreeMap;

const HEADER: &str = include_str!("../../include/catrovindy.h");

const RAW: &str = include_str!("../src/raw.rs");

/// What the program `sizes` prints: every size and number by the constants of the proved code, a line `NAME,value` for each.
const SIZES: &str = concat!(env!("CARGO_MANIFEST_DIR"), "/../crates/sizes/stdout");

/// The source of the exported functions.
const SOURCE: &str = concat!(env!("CARGO_MANIFEST_DIR"), "/../crates/capi_c/src");

/// Names, each without the prefix of the header, and what they stand for.
type Numbers = BTreeMap<String, u64>;

/// The numbers of the proved code: first the items of the ready lists, then all others.
fn proved() -> (Numbers, Numbers) {
    let text = std::fs::read_to_string(SIZES).unwrap_or_else(|e| panic!("{SIZES}: {e}"));
    let mut all = Numbers::new();
    for line in text.lines() {
        let (name, value) = line.split_once(',').unwrap_or_else(|| panic!("no name and value: {line}"));
        assert!(all.insert(name.into(), value.parse().expect(line)).is_none(), "{name} is there twice");
    }
    let of_a_list = |name: &str| ["_K", "_M", "_Z"].iter().any(|end| name.ends_with(end)) && name.contains(|c: char| c.is_ascii_digit());
    all.into_iter().partition(|(name, _)| of_a_list(name))
}

/// The header without its comments.
fn header() -> String {
    let mut rest = HEADER;
    let mut plain = String::new();
    while let Some((before, after)) = rest.split_once("/*") {
        plain += before;
        rest = after.split_once("*/").expect("the end of a comment").1;
    }
    plain + rest
}

/// What the header defines a name as.
fn defined(name: &str) -> String {
    let start = format!("#define CATROVINDY_{name} ");
    let plain = header();
    let line = plain.lines().find(|l| l.starts_with(&start)).unwrap_or_else(|| panic!("{name} is not in the header"));
    line[start.len()..].trim().into()
}

/// The numbers that the header defines by `#define`. What is defined with a value and is no number is named here.
fn defines() -> Numbers {
    let mut numbers = Numbers::new();
    for line in header().lines() {
        let Some((name, value)) = line.strip_prefix("#define CATROVINDY_").and_then(|line| line.trim().split_once(' ')) else { continue };
        let no_number = ["VERSION", "CODE", "AT_LEAST", "WESTERN_ELECTRIC", "DUNCAN"].contains(&name) || name.contains('(');
        if !no_number {
            let value = value.trim().trim_end_matches('u').parse().unwrap_or_else(|_| panic!("{name} is no plain number: {value}"));
            assert!(numbers.insert(name.into(), value).is_none(), "{name} is there twice");
        }
    }
    numbers
}

/// The numbers that the header defines in an enum.
fn enumerators() -> Numbers {
    let mut numbers = Numbers::new();
    for part in header().split("enum {").skip(1) {
        let inner = part.split_once('}').expect("the end of an enum").0;
        for one in inner.split(',').map(str::trim).filter(|one| !one.is_empty()) {
            let (name, value) = one.strip_prefix("CATROVINDY_").and_then(|one| one.split_once(" = ")).expect(one);
            assert!(numbers.insert(name.into(), value.parse().expect(one)).is_none(), "{name} is there twice");
        }
    }
    numbers
}

/// All numbers of the header.
fn declared() -> Numbers {
    let mut all = defines();
    for (name, value) in enumerators() {
        assert!(all.insert(name.clone(), value).is_none(), "{name} is there twice");
    }
    all
}

/// The constants of this crate by the header's names.
fn ours() -> Numbers {
    let mut all = Numbers::new();
    let mut add = |names: &[(&str, u64)]| all.extend(names.iter().map(|&(name, value)| (name.to_string(), value)));
    add(&[
        ("VERSION_NUMBER", VERSION_NUMBER.into()),
        ("RULES", MAX_RULES as u64),
        ("SLOTS", raw::SLOTS as u64),
        ("MAX_WINDOW", MAX_WINDOW.into()),
        ("ZONES", ZONES as u64),
        ("ALL_ZONES", ALL_ZONES.into()),
        ("MAX_SIGMA", MAX_SIGMA.into()),
        ("MAX_SHIFT", MAX_SHIFT as u64),
        ("WEIGHT_TOTAL", WEIGHT_TOTAL.into()),
        ("MAX_HORIZON", MAX_HORIZON.into()),
        ("MAX_STATES", MAX_STATES.into()),
        ("MAX_COUNT", MAX_COUNT.into()),
        ("UNITS_PER_ONE", UNITS_PER_ONE),
        ("MAX_TEXT", MAX_TEXT as u64),
        ("MAX_ROWS", MAX_ROWS.into()),
        ("NODES", NODES as u64),
        ("TABLE_SIZE", TABLE_SIZE as u64),
        ("MONITOR_SIZE", MONITOR_SIZE as u64),
        ("WEIGHTS_SIZE", WEIGHTS_SIZE as u64),
        ("STEP_ANSWER", raw::STEP_ANSWER as u64),
        ("BATCH_ANSWER", raw::BATCH_ANSWER as u64),
        ("BRACKET_ANSWER", raw::BRACKET_ANSWER as u64),
        ("FIGURES", raw::FIGURES as u64),
        ("KINDS", raw::KINDS as u64),
        ("VALUES", raw::VALUES as u64),
        ("WESTERN_ELECTRIC_COUNT", RuleList::western_electric().len().into()),
        ("DUNCAN_COUNT", RuleList::duncan().len().into()),
    ]);
    // the zones and the zone sets
    add(&[
        ("ZONE_S", S.into()),
        ("ZONE_A1", A1.into()),
        ("ZONE_B1", B1.into()),
        ("ZONE_C1", C1.into()),
        ("ZONE_C2", C2.into()),
        ("ZONE_B2", B2.into()),
        ("ZONE_A2", A2.into()),
        ("ZONE_C0", C0.into()),
        ("SET_S", SET_S.into()),
        ("SET_A1", SET_A1.into()),
        ("SET_B1", SET_B1.into()),
        ("SET_C1", SET_C1.into()),
        ("SET_C2", SET_C2.into()),
        ("SET_B2", SET_B2.into()),
        ("SET_A2", SET_A2.into()),
        ("SET_C0", SET_C0.into()),
        ("SET_A_OR_B_ABOVE", SET_A_OR_B_ABOVE.into()),
        ("SET_A_OR_B_BELOW", SET_A_OR_B_BELOW.into()),
        ("SET_ABOVE", SET_ABOVE.into()),
        ("SET_BELOW", SET_BELOW.into()),
        ("SET_C", SET_C.into()),
        ("SET_OUTSIDE_C", SET_OUTSIDE_C.into()),
    ]);
    // the refusals
    add(&[
        ("ACCEPTED", 0),
        ("BAD_SIGMA", Refusal::BAD_SIGMA.into()),
        ("BAD_RULE_COUNT", Refusal::BAD_RULE_COUNT.into()),
        ("BAD_RULE", Refusal::BAD_RULE.into()),
        ("BAD_ZONE_SET", Refusal::BAD_ZONE_SET.into()),
        ("BAD_STATE", Refusal::BAD_STATE.into()),
        ("BAD_ZONE", Refusal::BAD_ZONE.into()),
        ("BAD_COUNT", Refusal::BAD_COUNT.into()),
        ("BAD_WEIGHTS", Refusal::BAD_WEIGHTS.into()),
        ("BAD_HORIZON", Refusal::BAD_HORIZON.into()),
        ("TOO_MANY_STATES", Refusal::TOO_MANY_STATES.into()),
        ("SHORT_LIST", Refusal::SHORT_LIST.into()),
        ("BAD_LIST", Refusal::BAD_LIST.into()),
        ("BAD_N", Refusal::BAD_N.into()),
        ("BAD_PERCENT", Refusal::BAD_PERCENT.into()),
        ("BAD_CHANCES", Refusal::BAD_CHANCES.into()),
        ("BAD_LINE", Refusal::BAD_LINE.into()),
        ("LONG_TEXT", Refusal::LONG_TEXT.into()),
        ("BAD_SHIFT", Refusal::BAD_SHIFT.into()),
        ("BAD_NODE", Refusal::BAD_NODE.into()),
    ]);
    // the kinds, and the places of the arrays
    add(&[
        ("AT", raw::AT.into()),
        ("BETWEEN", raw::BETWEEN.into()),
        ("OPEN", raw::OPEN.into()),
        ("BEYOND", raw::BEYOND.into()),
        ("STEP_COUNT", raw::STEP_COUNT as u64),
        ("STEP_MASK", raw::STEP_MASK as u64),
        ("BATCH_TAKEN", raw::BATCH_TAKEN as u64),
        ("BATCH_COUNT", raw::BATCH_COUNT as u64),
        ("BATCH_MASK", raw::BATCH_MASK as u64),
        ("BATCH_REFUSAL", raw::BATCH_REFUSAL as u64),
        ("FIGURE_STATES", raw::FIGURE_STATES as u64),
        ("FIGURE_SURVIVAL", raw::FIGURE_SURVIVAL as u64),
        ("FIGURE_MEAN_WHOLE", raw::FIGURE_MEAN_WHOLE as u64),
        ("FIGURE_MEAN_FRACTION", raw::FIGURE_MEAN_FRACTION as u64),
        ("BRACKET_KIND", raw::BRACKET_KIND as u64),
        ("BRACKET_FIRST", raw::BRACKET_FIRST as u64),
        ("BRACKET_SECOND", raw::BRACKET_SECOND as u64),
        ("P5", raw::P5 as u64),
        ("P25", raw::P25 as u64),
        ("P50", raw::P50 as u64),
        ("P75", raw::P75 as u64),
        ("P95", raw::P95 as u64),
        ("KIND_IQR", raw::KIND_IQR as u64),
        ("VALUE_LOWER", raw::VALUE_LOWER as u64),
        ("VALUE_UPPER", raw::VALUE_UPPER as u64),
        ("VALUE_IQR", raw::VALUE_IQR as u64),
    ]);
    all
}

#[test]
fn versions_agree() {
    assert_eq!(defined("VERSION"), format!("\"{VERSION}\""));
    let parts: Vec<u32> = VERSION.split('.').map(|part| part.parse().expect("a number")).collect();
    assert_eq!(parts.iter().fold(0, |sum, part| 100 * sum + part), VERSION_NUMBER);
    assert_eq!(defined("VERSION_NUMBER"), VERSION_NUMBER.to_string());
    assert_eq!(version(), VERSION_NUMBER);
}

/// Every number of the proved code stands in the header.
#[test]
fn the_header_has_the_proved_sizes() {
    let (_, proved) = proved();
    let declared = declared();
    assert!(proved.len() >= 54, "{} numbers are too few", proved.len());
    for (name, value) in &proved {
        assert_eq!(declared.get(name), Some(value), "{name} in the header");
    }
}

/// Every number that the header defines is one of the proved code, and so is every refusal and every zone.
#[test]
fn no_size_is_forgotten() {
    let (_, proved) = proved();
    for (name, value) in defines() {
        assert_eq!(proved.get(&name), Some(&value), "{name} in {SIZES}");
    }
    for (name, value) in enumerators() {
        if ["BAD_", "SHORT_", "LONG_", "ZONE_"].iter().any(|start| name.starts_with(start)) {
            assert_eq!(proved.get(&name), Some(&value), "{name} in {SIZES}");
        }
    }
}

/// This crate has every number of the header, and the same.
#[test]
fn the_crate_has_the_numbers_of_the_header() {
    assert_eq!(ours(), declared());
}

#[test]
fn the_ready_lists_are_the_proved_ones() {
    let (items, others) = proved();
    let mut compared = 0;
    for (name, ours) in [("WESTERN_ELECTRIC", RuleList::western_electric()), ("DUNCAN", RuleList::duncan())] {
        let text = defined(name);
        let slots: Vec<u32> = text.trim_matches(['{', '}', ' ']).split(',').map(|slot| slot.trim().parse().expect("a number")).collect();
        let count = others[&format!("{name}_COUNT")] as usize;
        assert_eq!(slots.len(), raw::SLOTS, "{name}");
        for (at, &slot) in slots.iter().enumerate() {
            let (i, part) = (at / 3, ["K", "M", "Z"][at % 3]);
            match items.get(&format!("{name}_{i}_{part}")) {
                Some(&proved) => {
                    assert_eq!(u64::from(slot), proved, "{name}: {part} of the rule with index {i}");
                    compared += 1;
                }
                None => assert!(i >= count && slot == 0, "{name}: the rule with index {i} is not in {SIZES}"),
            }
        }
        assert_eq!((ours.slots().0.to_vec(), ours.len() as usize), (slots, count), "{name} of the crate");
    }
    assert_eq!(compared, items.len(), "every item of {SIZES} was compared");
}

/// A zone's number is what the library gives for a reading in it, and a zone's set is 2^zone.
#[test]
fn the_zones_are_those_of_readings() {
    let declared = declared();
    let (sigma, centre) = (10, 100);
    let mut sets = 0;
    for (name, readings) in [
        ("S", [131, 69]),
        ("A1", [121, 130]),
        ("B1", [111, 120]),
        ("C1", [101, 110]),
        ("C2", [90, 99]),
        ("B2", [80, 89]),
        ("A2", [70, 79]),
        ("C0", [100, 100]),
    ] {
        let number = declared[&format!("ZONE_{name}")];
        for reading in readings {
            assert_eq!(zone(reading, centre, sigma).map(u64::from), Ok(number), "zone {name}, reading {reading}");
        }
        assert_eq!(declared[&format!("SET_{name}")], 1 << number, "the set of {name}");
        sets |= declared[&format!("SET_{name}")];
    }
    assert_eq!(sets, ALL_ZONES.into());
    // a union is the set of the zones of the readings that its words name
    for (name, has) in [
        ("SET_A_OR_B_ABOVE", (|t| (11..=30).contains(&t)) as fn(i32) -> bool),
        ("SET_A_OR_B_BELOW", |t| (-30..-10).contains(&t)),
        ("SET_ABOVE", |t| (1..=30).contains(&t)),
        ("SET_BELOW", |t| (-30..0).contains(&t)),
        ("SET_C", |t| (-10..=10).contains(&t)),
        ("SET_OUTSIDE_C", |t| !(-10..=10).contains(&t)),
    ] {
        for t in -40..=40 {
            let zone = zone(centre + t, centre, sigma).expect("a zone");
            assert_eq!(declared[name] >> zone & 1 == 1, has(t), "{name}, {t} from the centre");
        }
    }
}

/// The header's words for a refusal are those of this crate.
#[test]
fn refusals_have_the_same_words() {
    let numbers = enumerators();
    let mut words = BTreeMap::new();
    for line in HEADER.lines() {
        let line = line.trim();
        let Some((name, meaning)) = line.split_once(": return \"").or_else(|| line.split_once(" return \"")) else { continue };
        let number = match name {
            "default" | "default:" => u64::from(u32::MAX),
            _ => numbers[name.strip_prefix("case CATROVINDY_").expect("a case")],
        };
        words.insert(number, meaning.strip_suffix("\";").expect("the end of the words"));
    }
    let expected: Vec<u64> = (0..=19).chain([u32::MAX.into()]).collect();
    assert_eq!(words.keys().copied().collect::<Vec<_>>(), expected);
    for (number, meaning) in words {
        let refusal = Refusal { number: number as u32, place: 3 };
        assert_eq!(refusal.meaning(), meaning, "refusal {number}");
        assert!(meaning.ends_with('.') && meaning.matches('.').count() == 1, "one sentence: {meaning}");
        assert_eq!(refusal.to_string(), format!("refused by {}, place 3: {meaning}", number as u32));
    }
    assert_eq!(Refusal { number: 20, place: 0 }.meaning(), Refusal { number: u32::MAX, place: 0 }.meaning());
}

/// A parameter: the type of its numbers, whether they may be written, the number of places of an array by its name, and its own name.
type Parameter = (String, bool, Option<String>, String);

/// The parameters that a text begins with, and what comes behind them.
fn parameters_of(text: &str) -> (Vec<&str>, &str) {
    let (parameters, behind) = text.split_once(')').expect("the end of the parameters");
    (parameters.split(',').map(str::trim).filter(|p| !p.is_empty() && *p != "void").collect(), behind)
}

/// What a function of the source or of this crate returns, as a last parameter.
fn returned(behind: &str) -> Parameter {
    let kind = behind.trim_start().strip_prefix("-> ").expect("what is returned");
    (kind[..3].into(), false, None, "returned".into())
}

/// The exported functions of the source, with a length behind every list.
fn source_functions() -> BTreeMap<String, Vec<Parameter>> {
    let mut functions = BTreeMap::new();
    for file in std::fs::read_dir(SOURCE).expect(SOURCE) {
        let text = std::fs::read_to_string(file.expect("a file").path()).expect("a text");
        for part in text.split("pub extern \"C\" fn ").skip(1) {
            let (name, rest) = part.split_once('(').expect("parameters");
            let mut parameters = Vec::new();
            let (texts, behind) = parameters_of(rest);
            for parameter in texts {
                let (own, kind) = parameter.split_once(':').expect("a type");
                let (own, kind) = (own.trim().to_string(), kind.trim());
                let written = kind.starts_with("&mut ");
                let inner = kind.trim_start_matches("&mut ").trim_start_matches('&').trim_matches(['[', ']']);
                match inner.split_once(';') {
                    Some((of, places)) => {
                        let places = places.trim().rsplit("::").next().expect("a size").to_string();
                        parameters.push((of.into(), written, Some(places), own));
                    }
                    None if kind.starts_with('&') => {
                        parameters.push((inner.into(), written, Some("list".into()), own.clone()));
                        parameters.push(("usize".into(), false, None, format!("{own}_length")));
                    }
                    None => parameters.push((kind.into(), false, None, own)),
                }
            }
            parameters.push(returned(behind));
            functions.insert(name.to_string(), parameters);
        }
    }
    functions
}

/// A length may be called `length` alone; it belongs to the list before it.
fn length_name(own: &str, before: &[Parameter]) -> String {
    match before.last() {
        Some(list) if own == "length" => format!("{}_length", list.3),
        _ => own.into(),
    }
}

/// The functions that the header declares.
fn header_functions() -> BTreeMap<String, Vec<Parameter>> {
    let plain = header();
    let mut functions = BTreeMap::new();
    for (start, _) in plain.match_indices("\nCATROVINDY_CODE uint64_t ").chain(plain.match_indices("\nuint32_t ")) {
        let at = start + plain[start..].find("catrovindy_").expect("a name");
        let (name, rest) = plain[at..].split_once('(').expect("parameters");
        let mut parameters: Vec<Parameter> = Vec::new();
        for parameter in parameters_of(rest).0 {
            let constant = parameter.starts_with("const ");
            let (kind, own) = parameter.trim_start_matches("const ").split_once(' ').expect("a name");
            let kind = match kind {
                "uint8_t" => "u8",
                "uint32_t" => "u32",
                "uint64_t" => "u64",
                "int32_t" => "i32",
                "size_t" => "usize",
                "double" => "f64",
                other => panic!("{name}: no such type: {other}"),
            };
            let (own, places) = match (own.split_once("[CATROVINDY_AT_LEAST "), own.strip_prefix('*')) {
                (Some((own, places)), _) => (own, Some(places.trim_end_matches(']').trim_start_matches("CATROVINDY_").to_string())),
                (None, Some(own)) => (own, Some("list".into())),
                (None, None) => (own, None),
            };
            let written = places.is_some() && !constant;
            let own = length_name(own, &parameters);
            parameters.push((kind.into(), written, places, own));
        }
        let kind = if plain[start..at].contains("uint64_t") { "u64" } else { "u32" };
        parameters.push((kind.into(), false, None, "returned".into()));
        functions.insert(name.to_string(), parameters);
    }
    functions
}

/// The functions that this crate declares; their arrays and lists are pointers alike.
fn raw_functions() -> BTreeMap<String, Vec<Parameter>> {
    let block = |start: &str, end: &str| {
        let behind = RAW.split_once(start).expect("the declarations").1;
        &behind[..behind.find(end).expect("their end")]
    };
    let plain = block("extern \"C\" {", "\n    }").split("pub fn ").skip(1);
    let with_lists = block("\nwith_lists! {", "\n}").split("\n    fn ").skip(1);
    let mut functions = BTreeMap::new();
    for part in plain.chain(with_lists) {
        let (name, rest) = part.split_once('(').expect("parameters");
        let mut parameters: Vec<Parameter> = Vec::new();
        let (texts, behind) = parameters_of(rest);
        for parameter in texts {
            let (own, kind) = parameter.split_once(':').expect("a type");
            let (own, kind) = (length_name(own.trim(), &parameters), kind.trim());
            let inner = kind.trim_start_matches("*const ").trim_start_matches("*mut ");
            let pointer = (inner != kind).then(|| "pointer".to_string());
            parameters.push((inner.to_string(), kind.starts_with("*mut "), pointer, own));
        }
        parameters.push(returned(behind));
        functions.insert(name.to_string(), parameters);
    }
    functions
}

/// Every exported function is declared, with the types, sizes and names of the source, in its order.
#[test]
fn functions_are_declared_as_in_the_source() {
    let mut source = source_functions();
    assert!(source.len() >= 12, "{} functions are too few", source.len());
    assert_eq!(header_functions(), source);
    for parameter in source.values_mut().flatten() {
        parameter.2 = parameter.2.take().map(|_| "pointer".into());
    }
    assert_eq!(raw_functions(), source);
}
