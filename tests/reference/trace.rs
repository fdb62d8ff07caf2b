// Counts, Trace and the layer view: the calls that do not read the entries of
// the table.

use crate::contour::contours;
use crate::layer::{ask_1_to_4, ask_1_to_5, bitmap_sample, Refusal};

/// "The inside samples and the sticks, ... and the contours."
pub struct Counted {
    pub inside: usize,
    pub sticks: usize,
    pub contours: usize,
}

/// Counts. Questions 1 to 5; of the table it looks at the length alone.
pub fn counts(w: u16, h: u16, bitmap: &[u8], table: &[u16]) -> Result<Counted, Refusal> {
    let layer = ask_1_to_5(w, h, bitmap, table)?;
    let rows = (0..layer.h).map(|r| (0..layer.w).filter(|&c| layer.sample(c, r)).count());
    let sticks = (0..layer.edge_count()).filter(|&number| layer.is_stick(number));
    Ok(Counted {
        inside: rows.sum(),
        sticks: sticks.count(),
        contours: contours(&layer).len(),
    })
}

/// Trace: "every stick kept at 128", and "0 for no stick". Questions 1 to 5.
pub fn trace(w: u16, h: u16, bitmap: &[u8], table: &mut [u16]) -> Result<(), Refusal> {
    let layer = ask_1_to_5(w, h, bitmap, table)?;
    for (number, entry) in table.iter_mut().enumerate() {
        *entry = if layer.is_stick(number) { 128 } else { 0 };
    }
    Ok(())
}

/// Layer view: "a record that refers to the lent bitmap with its width and
/// height, giving one sample at a time".
pub struct View<'a> {
    w: usize,
    h: usize,
    bitmap: &'a [u8],
}

impl<'a> View<'a> {
    /// "Making it puts 1 to 4." "A refused making gives the number, the place
    /// and a record of width and height 0 over an empty part."
    pub fn make(w: u16, h: u16, bitmap: &'a [u8]) -> (Option<Refusal>, View<'a>) {
        match ask_1_to_4(w, h, bitmap) {
            Ok(_) => (
                None,
                View {
                    w: w as usize,
                    h: h as usize,
                    bitmap,
                },
            ),
            Err(refusal) => (
                Some(refusal),
                View {
                    w: 0,
                    h: 0,
                    bitmap: &bitmap[..0],
                },
            ),
        }
    }

    /// "A sample off the grid reads as outside."
    pub fn sample(&self, c: u16, r: u16) -> bool {
        let (c, r) = (c as usize, r as usize);
        c < self.w && r < self.h && bitmap_sample(self.bitmap, self.w, c, r)
    }
}
