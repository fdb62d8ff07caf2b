// Vectors of Note 3, "settled contour by contour": layers whose contours settle
// after different numbers of passes, with limits below, at and above these. That
// they do is asked of the vectors in settling.rs.

use crate::builder::Builder;
use crate::cases::{call, traced, SINGLE};
use crate::contour::{contours, Contour};
use crate::layer::Layer;
use crate::picture;
use crate::script::Command;

/// The limits that the layers are tried with.
pub const LIMITS: [u16; 5] = [0, 1, 9, 10, 65535];

/// Slides vertices by hand.
fn slide(b: &mut Builder, slides: &[(usize, u16)]) {
    for &(stick, offset) in slides {
        b.poke(stick, offset);
    }
}

/// Traces the layer, slides vertices by hand, and smooths, once for each limit.
fn at_limits(b: &mut Builder, layer: &Layer, slides: &[(usize, u16)], limits: &[u16]) {
    for &limit in limits {
        b.traced(layer);
        slide(b, slides);
        b.add(Command::Smooth { limit });
    }
}

/// These offsets along a contour, from its first stick on.
fn along(contour: &[usize], offsets: &[u16]) -> Vec<(usize, u16)> {
    contour
        .iter()
        .copied()
        .zip(offsets.iter().copied())
        .collect()
}

/// The offsets of a single sample as traced, after its first pass, and so on until
/// after its tenth, which changes nothing more.
fn single_by_passes() -> Vec<Vec<u16>> {
    let layer = picture::shown(SINGLE);
    let mut machine = traced(&layer);
    let contour = contours(&layer).concat();
    let mut states = Vec::new();
    for _ in 0..=10 {
        states.push(contour.iter().map(|&stick| machine.table[stick]).collect());
        call(&mut machine, Command::Smooth { limit: 1 });
    }
    states
}

/// A block of so many columns and rows of samples, from column 1 and this row on.
pub fn set_block(layer: &mut Layer, row: usize, columns: usize, rows: usize) {
    for r in row..row + rows {
        for c in 1..=columns {
            layer.set(c, r, true);
        }
    }
}

/// A long outline, which has a total of 256 in its third pass, and beside it a
/// single sample: a bore within it, an outline below it, one above it. With 1,000
/// vertices 256 is not below the bound, and the long outline settles in its fourth
/// pass; the single sample goes on to its tenth.
fn long_and_tiny(b: &mut Builder) {
    let mut within = Layer::blank(497, 7);
    set_block(&mut within, 1, 495, 5);
    within.set(250, 3, false);
    at_limits(b, &within, &[], &LIMITS);
    at_limits(b, &within, &[], &[2, 3, 4, 5]);
    for (tiny, long) in [(1, 3), (7, 1)] {
        let mut apart = Layer::blank(497, 9);
        set_block(&mut apart, long, 495, 5);
        apart.set(250, tiny, true);
        at_limits(b, &apart, &[], &LIMITS);
        at_limits(b, &apart, &[], &[3, 4]);
    }
}

/// Two blocks with a total of 256 in their third passes: of 1,000 vertices, for
/// which that is not below the bound, and of 1,002, for which it is. Taken
/// together it is, too.
fn at_the_bound(b: &mut Builder) {
    for (lower, upper) in [(495, 496), (496, 495)] {
        let mut layer = Layer::blank(498, 13);
        set_block(&mut layer, 1, lower, 5);
        set_block(&mut layer, 7, upper, 5);
        at_limits(b, &layer, &[], &[2, 3, 4, 65535]);
    }
}

/// An outline that takes dozens of passes, and beside it a single sample that is
/// slid to where its first pass settles it: with a total of 0, and with a total of
/// 1, which is below the bound of 1.024 for four vertices.
fn tiny_settles_first(b: &mut Builder) {
    let mut within = Layer::blank(62, 22);
    set_block(&mut within, 1, 60, 20);
    within.set(30, 10, false);
    let bore = &contours(&within)[1];
    at_limits(b, &within, &along(bore, &[255, 1, 1, 255]), &LIMITS);
    at_limits(b, &within, &along(bore, &[254, 1, 1, 255]), &[1, 65535]);
    let mut below = Layer::blank(62, 24);
    set_block(&mut below, 3, 60, 20);
    below.set(30, 1, true);
    let single = &contours(&below)[0];
    at_limits(b, &below, &along(single, &[254, 255, 1, 1]), &LIMITS);
}

/// Bars, which settle the later the longer they are, and frames one in the other.
fn bars_and_frames(b: &mut Builder) {
    let lengths = [4, 1, 9, 2, 7, 10, 3, 6, 8, 5];
    let mut layer = Layer::blank(12, 2 * lengths.len() + 1);
    for (i, &length) in lengths.iter().enumerate() {
        set_block(&mut layer, 2 * i + 1, length, 1);
    }
    at_limits(b, &layer, &[], &LIMITS);
    at_limits(b, &layer, &[], &[36, 37, 38]);
    at_limits(b, &picture::frames(16, 16), &[], &LIMITS);
}

/// Ten single samples, which are slid to where one is after no pass, one, two, up
/// to nine: they take ten passes, nine, down to one.
fn singles(b: &mut Builder) {
    let layer = picture::lattice(5, 2);
    let states = single_by_passes();
    let walks = contours(&layer);
    let after = [4, 7, 0, 9, 2, 5, 8, 1, 6, 3];
    let slides = |(walk, k): (&Contour, usize)| along(walk, &states[k]);
    let slides: Vec<(usize, u16)> = walks.iter().zip(after).flat_map(slides).collect();
    at_limits(b, &layer, &slides, &LIMITS);
}

/// 125 single samples, 500 vertices, all settled but a few, which have a total of 4
/// before them. Of 31 of these the layer's total would be settled, since 1000×124 is
/// below 256×500, of 32 not; by itself none is.
fn few_among_many(b: &mut Builder) {
    let lattice = picture::lattice(25, 5);
    let before = &single_by_passes()[8];
    let walks = contours(&lattice);
    for (unsettled, limit) in [(31, 1), (31, 2), (32, 1), (32, 2)] {
        b.traced(&lattice);
        b.add(Command::Smooth { limit: 100 });
        for walk in &walks[..unsettled] {
            slide(b, &along(walk, before));
        }
        b.add(Command::Smooth { limit });
    }
}

pub fn settling(b: &mut Builder) {
    long_and_tiny(b);
    at_the_bound(b);
    tiny_settles_first(b);
    bars_and_frames(b);
    singles(b);
    few_among_many(b);
}
