// The layer program: from an L command and a bitmap on its input to the sheet
// of the traced, smoothed and simplified layer on its output.

use crate::layer::{refuse, row_bytes, Refusal};
use crate::sheet::write_sheet;
use crate::simplify::simplify;
use crate::smooth::smooth;
use crate::trace::{counts, trace};

/// W, H and the bitmap of an input: "Its sides are at most 64, else 1; a wrong
/// length gives 2, an input without a whole L command too."
fn parts(input: &[u8]) -> Result<(u16, u16, &[u8]), Refusal> {
    if input.len() < 5 || input[0] != 0x4C {
        return refuse(2, 0);
    }
    let w = u16::from_le_bytes([input[1], input[2]]);
    let h = u16::from_le_bytes([input[3], input[4]]);
    let bitmap = &input[5..];
    if !(2..=64).contains(&w) || !(2..=64).contains(&h) {
        return refuse(1, 0);
    }
    if bitmap.len() != row_bytes(w as usize) * h as usize {
        return refuse(2, 0);
    }
    Ok((w, h, bitmap))
}

/// "Traces, smooths (limit 100), simplifies (T 64) and writes the sheet."
fn sheet(input: &[u8]) -> Result<Vec<u8>, Refusal> {
    let (w, h, bitmap) = parts(input)?;
    let (columns, rows) = (w as usize, h as usize);
    let mut table = vec![0; (columns - 1) * rows + columns * (rows - 1)];
    trace(w, h, bitmap, &mut table)?;
    smooth(w, h, bitmap, &mut table, 100)?;
    simplify(w, h, bitmap, &mut table, 64)?;
    // "Its length is 6 + 6×contours + 2×vertices."
    let counted = counts(w, h, bitmap, &table)?;
    let mut output = vec![0; 6 + 6 * counted.contours + 2 * counted.sticks];
    write_sheet(w, h, bitmap, &table, &mut output)?;
    Ok(output)
}

/// What the program writes: the sheet, "or hex 3F and the number as one byte".
pub fn program(input: &[u8]) -> Vec<u8> {
    match sheet(input) {
        Ok(sheet) => sheet,
        Err(refusal) => vec![0x3F, refusal.number as u8],
    }
}
