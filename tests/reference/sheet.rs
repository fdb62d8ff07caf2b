// Sheets: writing the sheet of a held layer, and reading one against a bitmap,
// command by command.

use crate::contour::contours;
use crate::hold::{ask_1_to_7, ask_held, offset, State};
use crate::layer::{ask_1_to_5, refuse, Layer, Refusal};

/// "L (hex 4C), W, H (16 bits, low byte first)."
fn size_command(layer: &Layer) -> Vec<u8> {
    let mut command = vec![0x4C];
    command.extend((layer.w as u16).to_le_bytes());
    command.extend((layer.h as u16).to_le_bytes());
    command
}

/// "C (hex 43) and its first stick": kind, column, row.
fn contour_command(layer: &Layer, contour: &[usize]) -> Vec<u8> {
    let first = layer.edge(contour[0]);
    let mut command = vec![0x43, first.kind];
    command.extend((first.c as u16).to_le_bytes());
    command.extend((first.r as u16).to_le_bytes());
    command
}

/// "K (hex 4B, kept) or R (hex 52, removed) and its offset byte", and Note 5: "N (hex
/// 4E) and the offset for a pinned one."
fn vertex_command(entry: u16) -> Vec<u8> {
    let letter = match State::of(entry).expect("question 6 is passed") {
        State::Free => 0x4B,
        State::Removed => 0x52,
        State::Pinned => 0x4E,
    };
    vec![letter, offset(entry)]
}

/// Writing a sheet into an output; the sheet's length. Questions 1 to 7 and 14.
pub fn write_sheet(
    w: u16,
    h: u16,
    bitmap: &[u8],
    table: &[u16],
    output: &mut [u8],
) -> Result<usize, Refusal> {
    let (layer, contours) = ask_1_to_7(w, h, bitmap, table)?;
    let mut sheet = size_command(&layer);
    for contour in &contours {
        sheet.extend(contour_command(&layer, contour));
        for &stick in contour {
            sheet.extend(vertex_command(table[stick]));
        }
    }
    sheet.push(0x45);
    if output.len() < sheet.len() {
        return refuse(14, 0);
    }
    output[..sheet.len()].copy_from_slice(&sheet);
    Ok(sheet.len())
}

/// A sheet being read, and where the next command starts.
struct Reader<'a> {
    sheet: &'a [u8],
    place: usize,
}

impl Reader<'_> {
    /// The expected command and no other, else 8 at its start.
    fn expect(&mut self, command: &[u8]) -> Result<(), Refusal> {
        if !self.sheet[self.place..].starts_with(command) {
            return refuse(8, self.place);
        }
        self.place += command.len();
        Ok(())
    }

    /// K, R or N with an offset of 1 to 255 ("treats an offset of 0 as 8"), as the
    /// entry that it describes.
    fn vertex(&mut self) -> Result<u16, Refusal> {
        let entry = match self.sheet[self.place..] {
            [0x4B, offset, ..] if offset > 0 => State::Free.at(offset),
            [0x52, offset, ..] if offset > 0 => State::Removed.at(offset),
            [0x4E, offset, ..] if offset > 0 => State::Pinned.at(offset),
            _ => return refuse(8, self.place),
        };
        self.place += 2;
        Ok(entry)
    }
}

/// Question 8: "A sheet is read against a bitmap and nothing but the expected
/// commands is accepted." The table that the sheet describes.
fn described_table(
    layer: &Layer,
    contours: &[Vec<usize>],
    sheet: &[u8],
) -> Result<Vec<u16>, Refusal> {
    let mut table = vec![0; layer.edge_count()];
    let mut reader = Reader { sheet, place: 0 };
    reader.expect(&size_command(layer))?;
    for contour in contours {
        reader.expect(&contour_command(layer, contour))?;
        for &stick in contour {
            table[stick] = reader.vertex()?;
        }
    }
    reader.expect(&[0x45])?;
    if reader.place < sheet.len() {
        return refuse(8, reader.place);
    }
    Ok(table)
}

/// Reading a sheet: it "skips 6, puts 8 before 7". Questions 1 to 5, 8, 7; an
/// accepted sheet writes every entry.
pub fn read_sheet(
    w: u16,
    h: u16,
    bitmap: &[u8],
    table: &mut [u16],
    sheet: &[u8],
) -> Result<(), Refusal> {
    let layer = ask_1_to_5(w, h, bitmap, table)?;
    let contours = contours(&layer);
    let described = described_table(&layer, &contours, sheet)?;
    ask_held(&layer, &contours, &described)?;
    table.copy_from_slice(&described);
    Ok(())
}
