// Smooth: each contour by passes along it, in which a vertex is drawn two fifths
// of the way towards the segment between its neighbours, until the contour is
// settled or at the limit. And Smooth as the paper has it, without Notes 2 and 3.

use std::cmp::Ordering;

use crate::chord::{meets, Fraction};
use crate::contour::Contour;
use crate::hold::{ask_1_to_7, ask_all_kept, is_pinned, offset, vertex_of, State};
use crate::layer::{Layer, Refusal};

/// "The answer is passes, last total (0 if none) and settled or limit", of one
/// contour; of a layer see `joined`.
#[derive(Clone, Copy, PartialEq, Eq, Debug)]
pub struct Smoothed {
    pub passes: u64,
    pub total: u64,
    pub settled: bool,
}

/// The rule for one vertex: from its old offset and v to its new offset.
pub type Rule = fn(u8, Fraction) -> u8;

/// "The new offset is old + 2/5 of (v - old), rounded once to the nearest whole
/// number", and of Note 2: "A half in the smoothing step is now rounded toward
/// 128." 128 is whole, so a half below it goes up and one above it down.
pub fn new_offset(old: u8, v: Fraction) -> u8 {
    let old = old as i128;
    // old + 2/5 (num/den - old) = (5 den old + 2 (num - den old)) / (5 den)
    let top = 5 * v.den * old + 2 * (v.num - v.den * old);
    let bottom = 5 * v.den;
    let (whole, rest) = (top.div_euclid(bottom), top.rem_euclid(bottom));
    let up = match (2 * rest).cmp(&bottom) {
        Ordering::Less => false,
        Ordering::Equal => whole < 128,
        Ordering::Greater => true,
    };
    (whole + up as i128) as u8
}

/// "The segment between the neighbours meets the closed stick at v, an exact
/// fraction in 0 to 256." The absolute change; Note 5: "Smooth skips pinned vertices:
/// they add 0 to the total and count among the vertices."
fn slide(rule: Rule, layer: &Layer, contour: &[usize], table: &mut [u16], i: usize) -> u64 {
    let n = contour.len();
    let stick = contour[i];
    if is_pinned(table[stick]) {
        return 0;
    }
    let before = vertex_of(layer, table, contour[(i + n - 1) % n]);
    let after = vertex_of(layer, table, contour[(i + 1) % n]);
    let v = meets(before, after, layer.edge(stick))
        .expect("the neighbours lie on the two sides of the stick");
    let old = offset(table[stick]);
    let new = rule(old, v);
    table[stick] = State::Free.at(new);
    (new as i64 - old as i64).unsigned_abs()
}

/// "A pass visits vertices in contour order, each using its neighbours as they
/// then are. ... The pass total is the sum of the absolute changes."
pub fn pass(rule: Rule, layer: &Layer, contour: &[usize], table: &mut [u16]) -> u64 {
    (0..contour.len())
        .map(|i| slide(rule, layer, contour, table, i))
        .sum()
}

/// Passes until "settled after a pass with 1000×total < 256×vertices"; "otherwise
/// it goes on until the limit", and "settled wins if both hold".
fn until_settled(vertices: usize, limit: u16, mut pass: impl FnMut() -> u64) -> Smoothed {
    let mut answer = Smoothed {
        passes: 0,
        total: 0,
        settled: vertices == 0,
    };
    while !answer.settled && answer.passes < limit as u64 {
        answer.total = pass();
        answer.passes += 1;
        answer.settled = 1000 * answer.total < 256 * vertices as u64;
    }
    answer
}

/// Note 3: "Each contour is now settled by its own total and its own vertices, and
/// a settled contour gets no further pass. The pass limit holds for each."
pub fn smooth_contour(
    rule: Rule,
    layer: &Layer,
    contour: &[usize],
    table: &mut [u16],
    limit: u16,
) -> Smoothed {
    until_settled(contour.len(), limit, || pass(rule, layer, contour, table))
}

/// "The answer gives the largest number of passes of any contour, the sum of their
/// last totals, and settled if all are." Without contours: 0, 0 and settled.
pub fn joined(answers: &[Smoothed]) -> Smoothed {
    Smoothed {
        passes: answers
            .iter()
            .map(|answer| answer.passes)
            .max()
            .unwrap_or(0),
        total: answers.iter().map(|answer| answer.total).sum(),
        settled: answers.iter().all(|answer| answer.settled),
    }
}

/// "Contours are smoothed whole", in the order in which they are given; the answer
/// of each.
pub fn smooth_each(
    rule: Rule,
    layer: &Layer,
    contours: &[Contour],
    table: &mut [u16],
    limit: u16,
) -> Vec<Smoothed> {
    contours
        .iter()
        .map(|contour| smooth_contour(rule, layer, contour, table, limit))
        .collect()
}

/// The call. Questions 1 to 7 and 15.
pub fn smooth(
    w: u16,
    h: u16,
    bitmap: &[u8],
    table: &mut [u16],
    limit: u16,
) -> Result<Smoothed, Refusal> {
    smooth_by(new_offset, w, h, bitmap, table, limit)
}

/// The same, with this rule for one vertex.
pub fn smooth_by(
    rule: Rule,
    w: u16,
    h: u16,
    bitmap: &[u8],
    table: &mut [u16],
    limit: u16,
) -> Result<Smoothed, Refusal> {
    let (layer, contours) = ask_1_to_7(w, h, bitmap, table)?;
    ask_all_kept(table)?;
    Ok(joined(&smooth_each(rule, &layer, &contours, table, limit)))
}

/// The paper's rule for one vertex, with "a half upward" where Note 2 has it go
/// toward 128: the floor of x and a half, where x is old + 2/5 (v - old).
pub fn half_upward(old: u8, v: Fraction) -> u8 {
    (6 * v.den * old as i128 + 4 * v.num + 5 * v.den).div_euclid(10 * v.den) as u8
}

/// Smooth as the paper has it, on a layer that passes the questions: a half goes
/// upward, a pass visits all contours, and "smoothing is settled after a pass with
/// 1000×total < 256×vertices, taken over the layer, or before any pass if there are
/// no vertices".
pub fn smooth_former(
    layer: &Layer,
    contours: &[Contour],
    table: &mut [u16],
    limit: u16,
) -> Smoothed {
    let vertices = contours.iter().map(|contour| contour.len()).sum();
    until_settled(vertices, limit, || {
        let one = |contour: &Contour| pass(half_upward, layer, contour, table);
        contours.iter().map(one).sum()
    })
}
