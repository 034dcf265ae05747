//! The weights program, text in and text out, written from its paragraph.
use crate::format::{lines, signed};
use crate::{refuse, shift, Refusal};

fn shift_line(line: Option<&&[u8]>) -> Option<i32> {
    signed(line?.strip_prefix(b"shift,")?)
}

fn read(text: &[u8]) -> Result<i32, Refusal> {
    if text.len() > 65_536 {
        return refuse(17, 0);
    }
    let (lines, rest) = lines(text);
    let Some(shift) = shift_line(lines.first()) else { return refuse(16, 1) };
    if lines.len() > 1 || !rest.is_empty() {
        return refuse(16, 2);
    }
    Ok(shift)
}

/// What the program prints, or the refusal.
pub fn weights_program(text: &[u8]) -> Result<Vec<u8>, Refusal> {
    let weights = shift::weights(read(text)?)?.map(|weight| weight.to_string());
    Ok(format!("weights,{}\n", weights.join(",")).into_bytes())
}
