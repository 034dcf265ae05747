//! The text format of document 01: lines that end in LF, fields parted by commas, decimal without needless zeros.
use crate::Rule;

/// A decimal number without needless zeros, within unsigned 32 bits.
pub fn number(field: &[u8]) -> Option<u32> {
    let digits = !field.is_empty() && field.iter().all(u8::is_ascii_digit);
    if !digits || (field.len() > 1 && field[0] == b'0') {
        return None;
    }
    std::str::from_utf8(field).ok()?.parse().ok()
}

/// The numbers of a line with this word and so many fields.
pub fn numbers(line: Option<&[u8]>, word: &str, count: usize) -> Option<Vec<u32>> {
    let mut fields = line?.split(|&b| b == b',');
    if fields.next()? != word.as_bytes() {
        return None;
    }
    let found: Option<Vec<u32>> = fields.map(number).collect();
    found.filter(|f| f.len() == count)
}

/// The lines that end in LF, and what stands behind the last of them.
pub fn lines(text: &[u8]) -> (Vec<&[u8]>, &[u8]) {
    let mut found = Vec::new();
    let mut rest = text;
    while let Some(end) = rest.iter().position(|&b| b == b'\n') {
        found.push(&rest[..end]);
        rest = &rest[end + 1..];
    }
    (found, rest)
}

/// A decimal number with a minus before it where it is below 0, within signed 32 bits.
pub fn signed(field: &[u8]) -> Option<i32> {
    let (below, digits) = match field.strip_prefix(b"-") {
        Some(digits) => (true, digits),
        None => (false, field),
    };
    let size = i64::from(number(digits)?);
    if below && size == 0 {
        return None;
    }
    i32::try_from(if below { -size } else { size }).ok()
}

/// The rules of the rule lines from the line i on.
pub fn rules_from(lines: &[&[u8]], i: usize) -> Vec<Rule> {
    let found = lines.iter().skip(i).map_while(|line| numbers(Some(line), "rule", 3));
    found.map(|rule| Rule::new(rule[0], rule[1], rule[2])).collect()
}
