// The sets of the calls that change vertices: Smooth, Simplify and Roll, each on
// tables as traced, with other offsets, and damaged.

use crate::builder::{edit_bytes, Builder};
use crate::contour::contours;
use crate::hold::{is_kept, is_removed, offset};
use crate::layer::Layer;
use crate::picture;
use crate::refusals::{ask_1_to_7, not_held, plain, remove_at_random, some_removed, Call};
use crate::roll::Action;
use crate::script::Command;
use crate::sets_ceiling::ceiling;
use crate::sets_pending::pending;
use crate::sets_settling::settling;

const LIMITS: [u16; 7] = [0, 1, 2, 9, 10, 50, 65535];
const TOLERANCES: [u8; 9] = [0, 1, 11, 12, 64, 85, 86, 128, 255];

/// The layers of the paper's cases.
fn single() -> Layer {
    picture::shown("... .#. ...")
}

fn bar() -> Layer {
    picture::shown("..... .###. .....")
}

fn diagonals() -> [Layer; 2] {
    [
        picture::shown(".... ..#. .#.. ...."),
        picture::shown(".... .#.. ..#. ...."),
    ]
}

/// Regular layers, smaller ones than those that Trace is tried on.
fn regular_layers() -> Vec<Layer> {
    let [one, other] = diagonals();
    let mut layers = vec![
        Layer::blank(2, 2),
        Layer::blank(6, 4),
        single(),
        bar(),
        one,
        other,
    ];
    for (w, h) in [(9, 8), (12, 13)] {
        layers.push(picture::full(w, h));
        layers.push(picture::checkerboard(w, h, 0));
        layers.push(picture::spiral(w, h));
        layers.push(picture::serpentine(w, h));
        layers.push(picture::frames(w, h));
        layers.push(picture::holes(w, h));
    }
    layers
}

/// Sets every vertex to the same offset, and calls.
fn at_one_offset(b: &mut Builder, layer: &Layer, offset: u16, call: Call) {
    b.traced(layer);
    for stick in b.sticks() {
        b.poke(stick, offset);
    }
    call(b);
}

/// A larger layer of discs and rings.
fn discs(b: &mut Builder) -> Layer {
    picture::discs(&mut b.rng, 100, 100, 8)
}

/// Removes the vertices of these sticks, and asks.
fn held_without(b: &mut Builder, layer: &Layer, sticks: &[usize]) {
    b.traced(layer);
    for &stick in sticks {
        b.poke(stick, 384);
    }
    b.add(Command::Held);
}

/// Bars one above the other, each a contour: in each in turn nothing wrong, too few kept vertices, a chord that
/// touches or misses a sample, the edge back to the first kept vertex wrong alone, the first stick removed.
fn each_way_in_each_contour(b: &mut Builder) {
    let bars = picture::shown("....... .#####. ....... .#####. ....... .#####. .......");
    for contour in contours(&bars) {
        let n = contour.len();
        let all_but = |kept: &[usize]| -> Vec<usize> {
            let removed = (0..n).filter(|i| !kept.contains(i));
            removed.map(|i| contour[i]).collect()
        };
        for kept in [
            &[][..],
            &[0],
            &[0, 6],
            &[0, 1, 6, 7],
            &[1, 2, 7, 8],
            &[0, 3, 6],
            &[5, 6, 11],
            &[2, 4, 8, 10],
        ] {
            held_without(b, &bars, &all_but(kept));
        }
        for i in 0..n {
            held_without(b, &bars, &[contour[i]]);
            held_without(
                b,
                &bars,
                &[contour[i], contour[(i + 1) % n], contour[(i + 2) % n]],
            );
        }
    }
}

/// Questions 1 to 7: B, M, P, T and H only.
pub fn held(b: &mut Builder) {
    let ask = plain(Command::Held);
    ask_1_to_7(b, &ask);
    each_way_in_each_contour(b);
    for layer in regular_layers() {
        b.traced(&layer);
        b.thin(40);
        b.add(Command::Held);
        remove_at_random(b, 2);
        b.add(Command::Held);
    }
    not_held(b, &ask, 60);
}

/// Smooth: B, M, P, T and S only.
pub fn smooth(b: &mut Builder) {
    let ten = plain(Command::Smooth { limit: 10 });
    ask_1_to_7(b, &ten);
    some_removed(b, &ten, 12);
    for layer in [single(), Layer::blank(5, 5), bar()] {
        for limit in LIMITS {
            b.traced(&layer);
            b.add(Command::Smooth { limit });
            b.add(Command::Smooth { limit: 1 });
        }
    }
    for layer in regular_layers() {
        let limit = b.rng.pick(&LIMITS[2..]);
        b.traced(&layer);
        b.add(Command::Smooth { limit });
    }
    for offset in [1, 2, 127, 254, 255] {
        at_one_offset(b, &picture::full(7, 6), offset, &ten);
        at_one_offset(b, &picture::frames(8, 9), offset, &ten);
    }
    for i in 0..70 {
        let layer = b.some_layer(16);
        b.traced(&layer);
        let sixteenths = b.rng.pick(&[0, 4, 16]);
        b.jitter(sixteenths);
        b.add(Command::Smooth {
            limit: LIMITS[i % 7],
        });
    }
    let large = discs(b);
    b.traced(&large);
    b.add(Command::Smooth { limit: 1 });
    b.add(Command::Smooth { limit: 200 });
    settling(b);
}

/// The bar of the paper with its lower middle vertex slid to 140.
fn slid_bar(b: &mut Builder) {
    b.traced(&bar());
    let lower_middle = 12 + 2;
    b.poke(lower_middle, 140);
}

/// Simplifies random layers as traced, smoothed, slid at random, and slid and
/// then smoothed, three of each.
fn traced_smoothed_and_slid(b: &mut Builder, t: u8) {
    for (slides, smooths) in [(false, false), (false, true), (true, false), (true, true)] {
        for limit in [1, 5, 100] {
            let layer = b.some_layer(18);
            b.traced(&layer);
            if slides {
                let sixteenths = b.rng.pick(&[4, 16]);
                b.jitter(sixteenths);
            }
            if smooths {
                b.add(Command::Smooth { limit });
            }
            b.add(Command::Simplify { t });
        }
    }
}

/// Simplify: B, M, P, T, S, Y and R only.
pub fn simplify(b: &mut Builder) {
    let call = plain(Command::Simplify { t: 86 });
    ask_1_to_7(b, &call);
    some_removed(b, &call, 12);
    for layer in [single(), Layer::blank(4, 5), bar()] {
        for t in TOLERANCES {
            b.traced(&layer);
            b.add(Command::Simplify { t });
        }
    }
    for layer in regular_layers() {
        b.traced(&layer);
        b.add(Command::Smooth { limit: 3 });
        let t = b.rng.pick(&TOLERANCES);
        b.add(Command::Simplify { t });
    }
    for t in TOLERANCES {
        traced_smoothed_and_slid(b, t);
    }
    let large = discs(b);
    b.traced(&large);
    b.add(Command::Smooth { limit: 100 });
    b.add(Command::Simplify { t: 64 });
    pending(b);
    ceiling(b);
}

/// Rolls that are not well formed, after some edits that would be done.
fn ill_formed_rolls(b: &mut Builder) {
    b.traced(&bar());
    let (slide, removal) = (b.edit(14, Action::Slide(140)), b.edit(14, Action::Remove));
    let (slide, removal, end): (&[u8], &[u8], &[u8]) = (&slide, &removal, &[0x45]);
    let mut rolls = vec![Vec::new(), slide.to_vec(), [slide, removal].concat()];
    for cut in 1..7 {
        rolls.push(slide[..cut].to_vec());
        rolls.push([slide, &slide[..cut]].concat());
        rolls.push([slide, &removal[..cut.min(5)]].concat());
    }
    for extra in [0x45, 0x53, 0x58, 0x00, 0xFF] {
        rolls.push([end, &[extra]].concat());
        rolls.push([slide, end, &[extra], slide].concat());
    }
    for wrong in [0x00, 0x4C, 0x52, 0x65, 0x73, 0x78, 0xFF] {
        rolls.push(vec![wrong, 0x45]);
        rolls.push([slide, &[wrong], removal, end].concat());
    }
    for bytes in rolls {
        b.add(Command::Roll { t: 255, bytes });
    }
    b.add(Command::Roll {
        t: 0,
        bytes: end.to_vec(),
    });
}

/// Kind, column and row of what carries no kept vertex on the bar without its
/// lower middle vertex: edges off the grid, then edges that are no sticks, then
/// that vertex.
const NO_KEPT_VERTEX: [(u8, u16, u16); 16] = [
    (0, 4, 1),
    (0, 0, 3),
    (0, 65535, 0),
    (0, 0, 65535),
    (1, 5, 0),
    (1, 2, 2),
    (1, 2, 65535),
    (1, 257, 0),
    (2, 0, 1),
    (255, 1, 1),
    (0, 3, 2),
    (0, 1, 1),
    (0, 0, 0),
    (1, 0, 0),
    (1, 4, 1),
    (1, 2, 0),
];

/// Question 9, with slides to 0 too: 9 comes before 10.
fn unknown_sticks(b: &mut Builder) {
    b.traced(&bar());
    let (removal, done) = (b.edit(14, Action::Remove), b.edit(4, Action::Slide(100)));
    let end = vec![0x45];
    let bytes = [removal, end.clone()].concat();
    b.add(Command::Roll { t: 255, bytes });
    for (kind, c, r) in NO_KEPT_VERTEX {
        for action in [Action::Remove, Action::Slide(128), Action::Slide(0)] {
            let times = b.rng.below(3);
            let before = done.repeat(times);
            let wrong = edit_bytes(kind, c, r, action);
            let bytes = [before, wrong, done.clone(), end.clone()].concat();
            b.add(Command::Roll { t: 255, bytes });
        }
    }
}

/// Question 10: slides to 0 of each vertex of the bar, after others that are done.
fn slides_to_zero(b: &mut Builder) {
    b.traced(&bar());
    for stick in b.sticks() {
        let times = b.rng.below(3);
        let (done, zero) = (
            b.edit(stick, Action::Slide(77)),
            b.edit(stick, Action::Slide(0)),
        );
        let bytes = [done.repeat(times), zero, done, vec![0x45]].concat();
        b.add(Command::Roll { t: 255, bytes });
    }
}

/// Edits of a bar that is wider than 256 samples, or higher.
fn far_sticks(b: &mut Builder) {
    for (w, h) in [(300, 3), (3, 300)] {
        b.traced(&picture::full(w, h));
        let sticks = b.sticks();
        for i in 0..4 {
            let stick = sticks[sticks.len() - 1 - 30 * i];
            let bytes = [
                b.edit(stick, Action::Slide(90)),
                b.edit(stick, Action::Remove),
                vec![0x45],
            ]
            .concat();
            b.add(Command::Roll { t: 38, bytes });
        }
    }
}

/// The paper's cases: a slide to 0 and to 255, the bar's lower middle vertex.
fn roll_cases(b: &mut Builder) {
    for offset in [0, 1, 128, 254, 255] {
        b.traced(&single());
        let slide = b.edit(2, Action::Slide(offset));
        b.add(Command::Roll {
            t: 0,
            bytes: [&slide[..], &slide, &[0x45]].concat(),
        });
    }
    for t in TOLERANCES {
        slid_bar(b);
        let removal = b.edit(14, Action::Remove);
        b.add(Command::Roll {
            t,
            bytes: [&removal[..], &[0x45]].concat(),
        });
        for stick in [2, 7, 3, 10] {
            b.traced(&single());
            let removal = b.edit(stick, Action::Remove);
            b.add(Command::Roll {
                t,
                bytes: [&removal[..], &[0x45]].concat(),
            });
        }
    }
}

/// Makes an edit for a table.
pub type AnyEdit = fn(&mut Builder, &[u16]) -> Vec<u8>;

/// A random edit: mostly of a kept vertex, a slide near or far, or a removal.
pub fn random_edit(b: &mut Builder, table: &[u16]) -> Vec<u8> {
    let sticks = b.sticks();
    let kept: Vec<usize> = sticks
        .iter()
        .copied()
        .filter(|&stick| is_kept(table[stick]))
        .collect();
    let stick = match b.rng.chance(1, 60) {
        true => b.rng.below(table.len()),
        false => b.rng.pick(&kept),
    };
    if b.rng.chance(1, 2) {
        return b.edit(stick, Action::Remove);
    }
    let near = (offset(table[stick]) as u16 + 250 + b.rng.below(13) as u16) % 256;
    let offset = match b.rng.below(4) {
        0 => b.rng.below(256) as u8,
        _ => near as u8,
    };
    b.edit(stick, Action::Slide(offset))
}

/// A roll of such edits that are all done; in about half of the rolls all but the last
/// two.
pub fn random_roll(b: &mut Builder, t: u8, tries: usize, any: AnyEdit) -> Vec<u8> {
    let mut table = b.machine.table.clone();
    let mut bytes = Vec::new();
    let may_fail = b.rng.below(2 * tries);
    for i in 0..tries {
        let edit = any(b, &table);
        if b.is_done(&mut table, &edit, t) {
            bytes.extend(edit);
        } else if i >= may_fail {
            bytes.extend(edit);
            bytes.extend(any(b, &table));
            break;
        }
    }
    bytes.push(0x45);
    bytes
}

/// Slides beside a removed vertex, from end to end: done, or refused by 11 or 12.
fn slides_beside_removed(b: &mut Builder) {
    for i in 0..60 {
        let layer = b.some_layer(10);
        b.traced(&layer);
        b.thin(20);
        let table = b.machine.table.clone();
        let removed = table.iter().filter(|&&entry| is_removed(entry)).count();
        let kept: Vec<usize> = (0..table.len()).filter(|&n| is_kept(table[n])).collect();
        if removed == 0 {
            continue;
        }
        let offset = b.rng.pick(&[1, 30, 100, 128, 160, 220, 255]);
        let stick = b.rng.pick(&kept);
        let slide = b.edit(stick, Action::Slide(offset));
        b.add(Command::Roll {
            t: TOLERANCES[i % 9],
            bytes: [slide, vec![0x45]].concat(),
        });
    }
}

/// Slides of vertices between removed ones, with a T of 0: where one redrawn edge
/// does not cross and the other is beyond T, it is 11.
fn slides_between_removed(b: &mut Builder) {
    for _ in 0..5 {
        let layer = round_layer(b, 24, 20);
        b.traced(&layer);
        b.add(Command::Simplify { t: 255 });
        let table = b.machine.table.clone();
        for contour in contours(&layer) {
            let n = contour.len();
            let removed = |i: usize| is_removed(table[contour[i % n]]);
            for i in (0..n).filter(|&i| !removed(i) && removed(i + 1) && removed(i + n - 1)) {
                for offset in [1, 255] {
                    let bytes = [b.edit(contour[i], Action::Slide(offset)), vec![0x45]].concat();
                    b.add(Command::Roll { t: 0, bytes });
                }
            }
        }
    }
}

/// Discs and rings with forty sticks or more, so that vertices can be removed.
pub fn round_layer(b: &mut Builder, w: usize, h: usize) -> Layer {
    loop {
        let layer = picture::discs(&mut b.rng, w, h, 6);
        let sticks = (0..layer.edge_count()).filter(|&number| layer.is_stick(number));
        if sticks.count() >= 40 {
            return layer;
        }
    }
}

/// A layer with its table as traced, smoothed, simplified, or simplified and
/// edited by a roll.
fn layer_in_state(b: &mut Builder, state: usize) {
    let layer = round_layer(b, 24, 20);
    b.traced(&layer);
    if state > 0 {
        b.add(Command::Smooth { limit: 6 });
    }
    if state > 1 {
        b.add(Command::Simplify { t: 40 });
    }
    if state > 2 {
        let bytes = random_roll(b, 64, 20, random_edit);
        b.add(Command::Roll { t: 64, bytes });
    }
}

/// An edit that gets this answer on the table (0: it is done), if one is found;
/// a done one is made on the table.
fn edit_that_gets(
    b: &mut Builder,
    table: &mut [u16],
    t: u8,
    number: u64,
    any: AnyEdit,
) -> Option<Vec<u8>> {
    for _ in 0..400 {
        let edit = any(b, table);
        let mut after = table.to_vec();
        if b.answer_to(&mut after, &edit, t) == number {
            table.copy_from_slice(&after);
            return Some(edit);
        }
    }
    None
}

/// Done edits, one that gets this answer, and one more that would be done after.
pub fn refused_after(
    b: &mut Builder,
    t: u8,
    done: usize,
    number: u64,
    any: AnyEdit,
) -> Option<Vec<u8>> {
    let mut table = b.machine.table.clone();
    let mut bytes = Vec::new();
    for _ in 0..done {
        bytes.extend(edit_that_gets(b, &mut table, t, 0, any)?);
    }
    bytes.extend(edit_that_gets(b, &mut table, t, number, any)?);
    bytes.extend(edit_that_gets(b, &mut table, t, 0, any)?);
    Some(bytes)
}

/// Refusals 9 to 12, each at the first command and at later ones, and 8 at the
/// same places, on a layer that is set.
fn each_refusal(b: &mut Builder) {
    for t in [0, 12, 64] {
        for number in 9..13 {
            for done in [0, 1, 2, 9] {
                if let Some(mut bytes) = refused_after(b, t, done, number, random_edit) {
                    bytes.push(0x45);
                    b.add(Command::Roll { t, bytes });
                }
            }
        }
        for done in [0, 1, 2, 9] {
            if let Some(mut bytes) = refused_after(b, t, done, 0, random_edit) {
                let cut = b.rng.below(6);
                bytes.truncate(bytes.len() - cut);
                bytes.extend(b.rng.pick(&[&[][..], &[0x45, 0x45], &[0x46], &[0x53]]));
                b.add(Command::Roll { t, bytes });
            }
        }
    }
}

/// Rolls of thousands of edits on one layer: all done, then one that stops
/// partway, then one stick slid to and fro.
fn long_rolls(b: &mut Builder) {
    let layer = round_layer(b, 40, 36);
    b.traced(&layer);
    let t = 200;
    let mut table = b.machine.table.clone();
    let mut bytes = Vec::new();
    for _ in 0..3000 {
        let edit = edit_that_gets(b, &mut table, t, 0, random_edit);
        bytes.extend(edit.unwrap_or_default());
    }
    bytes.push(0x45);
    let again = bytes.clone();
    b.add(Command::Roll { t, bytes });
    b.traced(&layer);
    b.add(Command::Roll {
        t: 20,
        bytes: again,
    });
    b.traced(&layer);
    let stick = b.sticks()[0];
    let mut bytes = Vec::new();
    for i in 0..5000 {
        bytes.extend(b.edit(stick, Action::Slide((i % 255 + 1) as u8)));
    }
    bytes.push(0x45);
    b.add(Command::Roll { t, bytes });
}

/// Roll: B, M, P, T, S, Y and R only.
pub fn roll(b: &mut Builder) {
    let nothing = plain(Command::Roll {
        t: 12,
        bytes: vec![0x45],
    });
    ask_1_to_7(b, &nothing);
    let wrong = plain(Command::Roll {
        t: 12,
        bytes: vec![0x46],
    });
    not_held(b, &wrong, 4);
    ill_formed_rolls(b);
    unknown_sticks(b);
    slides_to_zero(b);
    far_sticks(b);
    roll_cases(b);
    slides_beside_removed(b);
    slides_between_removed(b);
    for i in 0..60 {
        let layer = b.some_layer(12);
        b.traced(&layer);
        if b.rng.chance(1, 2) {
            b.add(Command::Smooth { limit: 4 });
        }
        if b.rng.chance(1, 3) {
            b.add(Command::Simplify { t: 50 });
        }
        let t = TOLERANCES[i % 9];
        let tries = b.rng.between(1, 40);
        let bytes = random_roll(b, t, tries, random_edit);
        b.add(Command::Roll { t, bytes });
    }
    for state in 0..4 {
        layer_in_state(b, state);
        each_refusal(b);
    }
    long_rolls(b);
}
