// Vectors of Note 4, "splitting by a loop": contours with as many sticks as it takes for
// one more run to wait, or a few more or fewer, and the comb, on which the most wait.
// That they do is asked of the vectors in pending.rs.

use crate::builder::Builder;
use crate::contour::contours;
use crate::layer::Layer;
use crate::picture;
use crate::script::Command;

/// Numbers of sticks about those from which on one more run can wait, which are the powers
/// of two, and how many can wait.
pub fn steps() -> Vec<(usize, usize)> {
    let about = |k: usize| [((1 << k) - 2, k), (1 << k, k + 1), ((1 << k) + 2, k + 1)];
    let mut steps: Vec<(usize, usize)> = (2..=12).flat_map(about).collect();
    steps.retain(|&(sticks, _)| sticks >= 4);
    steps.dedup();
    steps
}

/// Contours of up to so many sticks are slid too.
pub const SLID: usize = 34;

/// Slides the vertices up and down by turns, so that no run but a single edge is straight.
pub fn slide_by_turns(b: &mut Builder, layer: &Layer) {
    for (i, stick) in contours(layer).concat().into_iter().enumerate() {
        b.poke(stick, if i % 2 == 0 { 100 } else { 150 });
    }
}

/// A contour of so many sticks, as traced and slid.
fn at_step(b: &mut Builder, sticks: usize) {
    let t = 0;
    let layer = picture::snake(18, sticks / 2 - 1);
    b.traced(&layer);
    b.add(Command::Simplify { t });
    if sticks <= SLID {
        b.add(Command::Trace);
        slide_by_turns(b, &layer);
        b.add(Command::Simplify { t });
    }
}

pub fn pending(b: &mut Builder) {
    for (sticks, _) in steps() {
        at_step(b, sticks);
    }
    b.layer(&picture::comb(1024, 1024));
    for t in [0, 255] {
        b.add(Command::Trace);
        b.add(Command::Simplify { t });
    }
}
