// The halves program: the rule for one vertex, where it comes to a half. No layer
// does that, so the neighbours of these vertices lie on no stick.

use crate::chord::{meets, Point};
use crate::layer::Edge;
use crate::smooth::new_offset;

/// The new offset of the vertex at `old` of the horizontal stick at (0,1) or the
/// vertical one at (1,0), whose neighbours lie 1/256 before its line and 3/256
/// after it, at these offsets along it.
fn smoothed(kind: u8, old: usize, before: usize, after: usize) -> u8 {
    let place = |along: usize, across: i128| match kind {
        0 => Point {
            x: along as i128,
            y: across,
        },
        _ => Point {
            x: across,
            y: along as i128,
        },
    };
    let (c, r) = if kind == 0 { (0, 1) } else { (1, 0) };
    let stick = Edge { kind, c, r };
    let v = meets(place(before, 255), place(after, 259), stick)
        .expect("the neighbours lie on the two sides of the stick");
    new_offset(old as u8, v)
}

/// For each k a line: k + 1/2, and the new offsets of four vertices for which
/// old + 2/5 of (v - old) is that. On a stick of each kind old is k and v is
/// k + 5/4, then old is k + 1 and v is k + 1 - 5/4.
pub fn lines() -> String {
    let line = |k: usize| {
        let both = |kind| {
            let from_below = smoothed(kind, k, k + 1, k + 2);
            let from_above = smoothed(kind, k + 1, k, k - 1);
            format!("{} {}", from_below, from_above)
        };
        format!("{}.5 {} {}\n", k, both(0), both(1))
    };
    (1..=254).map(line).collect()
}
