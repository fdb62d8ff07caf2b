// The sets of the calls that go by the bitmap alone: Trace, Counts and the layer
// view.

use crate::builder::{exact_length, Builder};
use crate::layer::Layer;
use crate::picture;
use crate::refusals::{
    border, first_no_wins, lengths, plain, sides, spare_bits, table_lengths, Call,
};
use crate::script::Command;

/// Sides at the ends of what is allowed; nothing can be inside if one is 2.
fn extreme_sides(b: &mut Builder, call: Call) {
    let sizes = [
        (2, 2),
        (2, 3),
        (3, 2),
        (2, 40),
        (40, 2),
        (2, 1024),
        (1024, 2),
        (3, 1024),
        (1024, 3),
        (1023, 4),
        (4, 1023),
    ];
    for (w, h) in sizes {
        let layer = picture::random(&mut b.rng, w, h, 8);
        b.layer(&layer);
        call(b);
    }
}

/// The layers that the paper names, and other regular ones.
fn regular_layers() -> Vec<Layer> {
    let mut layers = vec![
        Layer::blank(3, 3),
        Layer::blank(8, 8),
        Layer::blank(17, 5),
        picture::shown("... .#. ..."),
        picture::shown("..... .###. ....."),
        picture::shown(".... ..#. .#.. ...."),
        picture::shown(".... .#.. ..#. ...."),
    ];
    for (w, h) in [(7, 7), (8, 9), (9, 8), (16, 15), (17, 40)] {
        layers.push(picture::full(w, h));
        layers.push(picture::checkerboard(w, h, 0));
        layers.push(picture::checkerboard(w, h, 1));
        layers.push(picture::spiral(w, h));
        layers.push(picture::serpentine(w, h));
        layers.push(picture::frames(w, h));
        layers.push(picture::holes(w, h));
    }
    layers
}

/// Each of the sixteen patterns of a square, with outside samples around it.
fn square_patterns(b: &mut Builder, call: Call) {
    for pattern in 0..16 {
        let mut layer = Layer::blank(4, 4);
        for (bit, (c, r)) in [(1, 1), (2, 1), (2, 2), (1, 2)].iter().enumerate() {
            layer.set(*c, *r, pattern >> bit & 1 == 1);
        }
        b.layer(&layer);
        call(b);
    }
}

/// Random layers of all sizes up to 40 by 40, from sparse to full, and of widths
/// about whole bytes; here and there an entry of the table is set to what a stick
/// or no stick has.
fn random_layers(b: &mut Builder, call: Call, times: usize) {
    let mut layers = Vec::new();
    for w in [7, 8, 9, 15, 16, 17, 24, 25, 32, 33] {
        let h = b.rng.between(3, 12);
        layers.push(picture::random(&mut b.rng, w, h, 8));
    }
    for _ in 0..times {
        layers.push(picture::any(&mut b.rng, 40));
    }
    for layer in layers {
        b.layer(&layer);
        for _ in 0..b.rng.below(3) {
            let number = b.rng.below(layer.edge_count() + 1);
            let value = b.rng.pick(&[0, 1, 128, 255, 384]);
            b.poke(number, value);
        }
        call(b);
    }
}

/// The questions 1 to 4, which are put to a bitmap, each at several places.
fn bitmap_refusals(b: &mut Builder, call: Call) {
    sides(b, call);
    lengths(b, call);
    spare_bits(b, call);
    border(b, call);
    first_no_wins(b, call);
}

/// One layer of the largest size, discs and rings; with a table one short too.
fn largest_layer(b: &mut Builder, call: Call) {
    let layer = picture::discs(&mut b.rng, 1024, 1024, 60);
    b.layer(&layer);
    call(b);
    b.table(layer.edge_count() - 1);
    call(b);
}

fn trace_or_counts(b: &mut Builder, call: Call) {
    bitmap_refusals(b, call);
    table_lengths(b, call);
    extreme_sides(b, call);
    for layer in regular_layers() {
        b.layer(&layer);
        call(b);
    }
    square_patterns(b, call);
    random_layers(b, call, 60);
    largest_layer(b, call);
}

/// Trace: B, M, P and T only.
pub fn trace(b: &mut Builder) {
    trace_or_counts(b, &plain(Command::Trace));
}

/// Counts: B, M, P and N only; as the largest layers also one with a contour of a million
/// sticks and the one with the most contours.
pub fn counts(b: &mut Builder) {
    let call = &plain(Command::Counts);
    trace_or_counts(b, call);
    for layer in [
        picture::serpentine(1024, 1024),
        picture::checkerboard(1024, 1024, 0),
    ] {
        b.layer(&layer);
        call(b);
    }
}

/// A sample on the grid, at its edge or off it, of whatever layer is set.
fn view_somewhere(b: &mut Builder) {
    let (w, h) = (b.machine.w, b.machine.h);
    let column = b.rng.pick(&[
        0,
        1,
        w / 2,
        w.wrapping_sub(1),
        w,
        w.saturating_add(1),
        65535,
    ]);
    let row = b.rng.pick(&[
        0,
        1,
        h / 2,
        h.wrapping_sub(1),
        h,
        h.saturating_add(1),
        65535,
    ]);
    b.add(Command::View { column, row });
}

/// All samples of some small layers and a margin of two, and single samples of
/// larger ones.
fn view_samples(b: &mut Builder) {
    for layer in [picture::shown("... .#. ..."), picture::full(8, 4)] {
        b.bitmap(layer.w, layer.h, layer.bitmap());
        for row in 0..layer.h as u16 + 2 {
            for column in 0..layer.w as u16 + 2 {
                b.add(Command::View { column, row });
            }
        }
    }
    for _ in 0..80 {
        let layer = picture::any(&mut b.rng, 40);
        b.bitmap(layer.w, layer.h, layer.bitmap());
        let column = b.rng.below(layer.w) as u16;
        let row = b.rng.below(layer.h) as u16;
        b.add(Command::View { column, row });
        view_somewhere(b);
    }
}

/// Layer view: B, M and V only. The table plays no part and stays as it is.
pub fn view(b: &mut Builder) {
    bitmap_refusals(b, &view_somewhere);
    for (w, h) in [(2, 2), (1024, 2), (3, 1024), (1024, 3)] {
        let layer = picture::random(&mut b.rng, w, h, 8);
        b.bitmap(w, h, layer.bitmap());
        view_somewhere(b);
        b.bitmap(w, h, vec![0; exact_length(w, h)]);
        view_somewhere(b);
    }
    view_samples(b);
}
