//! The table program of document 01, text in and text out, written from its paragraphs.
use crate::format::{lines, numbers, rules_from};
use crate::{bracket, chart, plot, refuse, table, Refusal, Rule, ZONES};
use catrovindy::Bracket;

struct TableText {
    weights: [u32; ZONES],
    rules: Vec<Rule>,
    horizon: u32,
}

fn read(text: &[u8]) -> Result<TableText, Refusal> {
    if text.len() > 65_536 {
        return refuse(17, 0);
    }
    let (lines, rest) = lines(text);
    let line = |i: usize| lines.get(i).copied();
    let Some(weights) = numbers(line(0), "weights", ZONES) else { return refuse(16, 1) };
    let rules = rules_from(&lines, 1);
    let at = 1 + rules.len();
    let Some(horizon) = numbers(line(at), "horizon", 1) else { return refuse(16, at as u32 + 1) };
    if lines.len() > at + 1 || !rest.is_empty() {
        return refuse(16, at as u32 + 2);
    }
    Ok(TableText { weights: weights.try_into().expect("eight"), rules, horizon: horizon[0] })
}

fn print(text: &TableText) -> Result<String, Refusal> {
    let horizon = if text.horizon > 4_096 { 0 } else { text.horizon };
    let (mut pmf, mut left) = (vec![0u64; horizon as usize], vec![0u64; horizon as usize]);
    let f = table::table(&text.rules, &text.weights, horizon, &mut pmf, &mut left)?;
    let mut out = format!("standings,{}\nn,chance,by,left\n", f.states);
    let mut by = 0u64;
    for (i, (chance, left)) in pmf.iter().zip(&left).enumerate() {
        by += chance;
        out += &format!("{},{chance},{by},{left}\n", i + 1);
    }
    out += &format!("arl,{},{},{}\n", f.mean_whole, f.mean_fraction, plot::shortfall(f.states, horizon));
    for p in [5, 25, 50, 75, 95] {
        let answer = match bracket::bracket(&pmf, f.states, p)? {
            Bracket::At(n) => format!("at,{n}"),
            Bracket::Between(low, high) => format!("between,{low},{high}"),
            Bracket::Open(low) => format!("open,{low}"),
            Bracket::Beyond(h) => format!("beyond,{h}"),
        };
        out += &format!("q,{p},{answer}\n");
    }
    Ok(out)
}

/// What the program prints, or the refusal.
pub fn table_program(text: &[u8]) -> Result<Vec<u8>, Refusal> {
    chart::check(&read(text)?.rules)?;
    print(&read(text)?).map(String::into_bytes)
}
