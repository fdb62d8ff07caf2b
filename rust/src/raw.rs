//! A safe function over slices for each exported function of libpuzhenim.a. All unsafe code of the crate is here.
//!
//! What makes every call sound: each pointer and length are those of a slice that lives as long as the call, so it is aligned and not
//! null; an output slice is lent exclusively, so it overlaps no other; and the library, which allows every value and every length, reads
//! and writes within the slices it is lent and keeps none of them.

use crate::Layer;

// The archive is for x86-64: a figure is a `usize`, and sums and products of 16-bit sides do not wrap.
const _: () = assert!(usize::BITS == 64);

/// The place that goes with a refusal, then the call's own figures.
pub type Figures = [u64; 4];

/// The number of the question that was answered no, 0 if the call is done, and the figures.
pub type Answer = (u32, Figures);

extern "C" {
    fn pz_counts(
        w: u16,
        h: u16,
        bitmap: *const u8,
        bitmap_len: usize,
        table: *const u16,
        table_len: usize,
        figures: *mut u64,
        figures_len: usize,
    ) -> u32;

    fn pz_trace(
        w: u16,
        h: u16,
        bitmap: *const u8,
        bitmap_len: usize,
        table: *mut u16,
        table_len: usize,
        figures: *mut u64,
        figures_len: usize,
    ) -> u32;

    fn pz_smooth(
        w: u16,
        h: u16,
        bitmap: *const u8,
        bitmap_len: usize,
        table: *mut u16,
        table_len: usize,
        limit: u16,
        figures: *mut u64,
        figures_len: usize,
    ) -> u32;

    fn pz_simplify(
        w: u16,
        h: u16,
        bitmap: *const u8,
        bitmap_len: usize,
        table: *mut u16,
        table_len: usize,
        t: u8,
        figures: *mut u64,
        figures_len: usize,
    ) -> u32;

    fn pz_roll(
        w: u16,
        h: u16,
        bitmap: *const u8,
        bitmap_len: usize,
        table: *mut u16,
        table_len: usize,
        roll: *const u8,
        roll_len: usize,
        t: u8,
        figures: *mut u64,
        figures_len: usize,
    ) -> u32;

    fn pz_write_sheet(
        w: u16,
        h: u16,
        bitmap: *const u8,
        bitmap_len: usize,
        table: *const u16,
        table_len: usize,
        sheet: *mut u8,
        sheet_len: usize,
        figures: *mut u64,
        figures_len: usize,
    ) -> u32;

    fn pz_read_sheet(
        w: u16,
        h: u16,
        bitmap: *const u8,
        bitmap_len: usize,
        table: *mut u16,
        table_len: usize,
        sheet: *const u8,
        sheet_len: usize,
        figures: *mut u64,
        figures_len: usize,
    ) -> u32;

    fn pz_plan(
        w: u16,
        h: u16,
        bitmap: *const u8,
        bitmap_len: usize,
        table: *const u16,
        table_len: usize,
        items: *mut u8,
        items_len: usize,
        points: *mut f64,
        points_len: usize,
        figures: *mut u64,
        figures_len: usize,
    ) -> u32;

    fn pz_areas(
        w: u16,
        h: u16,
        bitmap: *const u8,
        bitmap_len: usize,
        table: *const u16,
        table_len: usize,
        areas: *mut i64,
        areas_len: usize,
        sums: *mut i64,
        sums_len: usize,
        figures: *mut u64,
        figures_len: usize,
    ) -> u32;

    fn pz_sample(w: u16, h: u16, bitmap: *const u8, bitmap_len: usize, column: u16, row: u16, figures: *mut u64, figures_len: usize)
        -> u32;
}

/// Calls an exported function with the layer before and the figures after the given arguments.
macro_rules! answer {
    ($call:ident, $layer:expr, $($argument:expr),*) => {{
        let (layer, mut figures) = ($layer, Figures::default());
        let (bitmap, room) = (layer.bitmap, figures.len());
        let number = $call(layer.width, layer.height, bitmap.as_ptr(), bitmap.len(), $($argument,)* figures.as_mut_ptr(), room);
        (number, figures)
    }};
}

pub fn counts(layer: Layer, table: &[u16]) -> Answer {
    // Sound: the bitmap and the table are shared slices that the call reads; the figures are its own.
    unsafe { answer!(pz_counts, layer, table.as_ptr(), table.len()) }
}

pub fn trace(layer: Layer, table: &mut [u16]) -> Answer {
    // Sound: the bitmap is a shared slice that the call reads; the table is lent exclusively, so it overlaps nothing.
    unsafe { answer!(pz_trace, layer, table.as_mut_ptr(), table.len()) }
}

pub fn smooth(layer: Layer, table: &mut [u16], limit: u16) -> Answer {
    // Sound: as for trace; every limit is allowed.
    unsafe { answer!(pz_smooth, layer, table.as_mut_ptr(), table.len(), limit) }
}

pub fn simplify(layer: Layer, table: &mut [u16], tolerance: u8) -> Answer {
    // Sound: as for trace; every tolerance is allowed.
    unsafe { answer!(pz_simplify, layer, table.as_mut_ptr(), table.len(), tolerance) }
}

pub fn roll(layer: Layer, table: &mut [u16], roll: &[u8], tolerance: u8) -> Answer {
    // Sound: as for trace; the roll is a shared slice that the call reads, whatever its bytes.
    unsafe { answer!(pz_roll, layer, table.as_mut_ptr(), table.len(), roll.as_ptr(), roll.len(), tolerance) }
}

pub fn write_sheet(layer: Layer, table: &[u16], sheet: &mut [u8]) -> Answer {
    // Sound: the bitmap and the table are shared slices that the call reads; the sheet is lent exclusively.
    unsafe { answer!(pz_write_sheet, layer, table.as_ptr(), table.len(), sheet.as_mut_ptr(), sheet.len()) }
}

pub fn read_sheet(layer: Layer, table: &mut [u16], sheet: &[u8]) -> Answer {
    // Sound: as for trace; the sheet is a shared slice that the call reads, whatever its bytes.
    unsafe { answer!(pz_read_sheet, layer, table.as_mut_ptr(), table.len(), sheet.as_ptr(), sheet.len()) }
}

pub fn plan(layer: Layer, table: &[u16], items: &mut [u8], points: &mut [f64]) -> Answer {
    // Sound: the bitmap and the table are shared slices that the call reads; both outputs are lent exclusively, so they are apart.
    unsafe { answer!(pz_plan, layer, table.as_ptr(), table.len(), items.as_mut_ptr(), items.len(), points.as_mut_ptr(), points.len()) }
}

pub fn areas(layer: Layer, table: &[u16], areas: &mut [i64], sums: &mut [i64]) -> Answer {
    // Sound: as for plan.
    unsafe { answer!(pz_areas, layer, table.as_ptr(), table.len(), areas.as_mut_ptr(), areas.len(), sums.as_mut_ptr(), sums.len()) }
}

pub fn sample(layer: Layer, column: u16, row: u16) -> Answer {
    // Sound: the bitmap is a shared slice that the call reads; a column or row off the grid is allowed.
    unsafe { answer!(pz_sample, layer, column, row) }
}
