// Vectors of Notes 6 and 7, "metal per contour" and "area by stick number": the cases of
// areas_cases.rs and sums_cases.rs, layers as every call leaves them, with outputs that are
// long enough and too short, contours side by side, and one of the largest layers. That they
// show what they are there for is asked in areas_checks.rs and sums_checks.rs.

use crate::areas_cases::{self, Case};
use crate::builder::Builder;
use crate::contour::contours;
use crate::hold::is_kept;
use crate::layer::Layer;
use crate::picture;
use crate::refusals::{ask_1_to_7, plain};
use crate::script::Command;
use crate::sets_pins::{edit_or_pin, LIMITS, TOLERANCES};
use crate::sets_table::random_roll;
use crate::sums_cases;

/// A call with outputs of so many areas and so many sums.
fn within(areas: usize, sums: usize) -> Command {
    let [areas, sums] = [areas, sums].map(|n| n as u32);
    Command::Areas { areas, sums }
}

fn worked_out(b: &mut Builder, cases: &[Case]) {
    for case in cases {
        b.traced(&case.layer);
        for &(number, entry) in &case.entries {
            b.poke(number, entry);
        }
        b.add(within(case.room[0], case.room[1]));
    }
}

/// The most areas and the most sums that these vectors lend room for, as many as the program
/// that they are run by has.
pub const MOST_AREAS: usize = 1024;
pub const MOST_SUMS: usize = 4096;

/// How many states there are.
pub const STATES: usize = 6;

/// Traces a layer, slides some of its vertices and brings it into a state: no other, smoothed,
/// simplified, the first vertices of contours removed, any removed and pinned, or edited by a
/// roll. Most are smoothed before they are simplified, and some simplified before they are
/// edited; a layer that is edited has a contour.
pub fn bring_into(b: &mut Builder, layer: &Layer, state: usize) {
    b.traced(layer);
    let sixteenths = b.rng.pick(&[0, 4, 16]);
    b.jitter(sixteenths);
    if state == 1 || ([2, 5].contains(&state) && b.rng.chance(2, 3)) {
        let limit = b.rng.pick(&LIMITS);
        b.add(Command::Smooth { limit });
    }
    let t = b.rng.pick(&TOLERANCES);
    if state == 2 || (state == 5 && b.rng.chance(1, 2)) {
        b.add(Command::Simplify { t });
    }
    match state {
        3 => b.remove_firsts(3),
        4 => {
            let sixteenths = b.rng.pick(&[1, 4, 8]);
            b.pin(sixteenths);
            b.thin(12);
        }
        5 => {
            let bytes = random_roll(b, t, 16, edit_or_pin);
            b.add(Command::Roll { t, bytes });
        }
        _ => (),
    }
}

/// How many contours and drawn edges the layer that is set has; as many edges as vertices
/// are kept.
fn counted(b: &Builder) -> (usize, usize) {
    let table = b.machine.table.iter();
    let kept = table.filter(|&&entry| is_kept(entry)).count();
    (contours(&b.current()).len(), kept)
}

/// Areas and sums of the layer that is set, into outputs that are exactly long enough, one of
/// them one shorter, both longer, and one as much longer as the other is shorter.
fn measured(b: &mut Builder) {
    let (exact, edges) = counted(b);
    let more = b.rng.between(1, 9);
    let any = b.rng.below(2 * exact + 1);
    b.add(within(exact, edges));
    b.add(within(exact.saturating_sub(1), edges));
    b.add(within(exact, edges.saturating_sub(1)));
    b.add(within(exact + more, edges + more));
    b.add(within(any, (edges + exact).saturating_sub(any)));
}

/// Random layers, and contours within contours, each in two states.
fn in_states(b: &mut Builder) {
    let mut layers = picture::nested();
    layers.extend((0..12).map(|_| b.some_layer(12)));
    for turned in [0, 2, 4, 6, 8] {
        let (w, h) = (b.rng.between(7, 16), b.rng.between(7, 16));
        layers.push(picture::rings(&mut b.rng, w, h, turned));
    }
    for (i, layer) in layers.iter().enumerate() {
        for state in [i % STATES, (i + i / STATES + 1) % STATES] {
            if contours(layer).is_empty() && state == 5 {
                continue;
            }
            bring_into(b, layer, state);
            measured(b);
        }
    }
}

/// Layers as wide and as high as can be.
fn wide_and_high(b: &mut Builder) {
    for (w, h) in [(1024, 3), (3, 1024)] {
        let noise = picture::random(&mut b.rng, w, h, 11);
        b.traced(&noise);
        b.add(Command::Simplify { t: 255 });
        measured(b);
    }
}

/// As many contours one in the other as a layer can have, among them the largest there is.
fn squares(b: &mut Builder) {
    b.traced(&picture::frames(1024, 1024));
    b.add(within(510, MOST_SUMS));
    b.add(within(511, MOST_SUMS));
    b.add(Command::Simplify { t: 255 });
    let (exact, edges) = counted(b);
    b.add(within(exact, edges));
    b.add(within(exact, edges - 1));
    b.add(within(600, MOST_SUMS));
}

/// Contours side by side, so that in each row of edges they come by turns: as traced, and
/// with vertices slid, removed and pinned.
fn by_turns(b: &mut Builder) {
    let noise = picture::random(&mut b.rng, 24, 9, 5);
    let layers = [
        picture::lattice(9, 5),
        picture::holes(17, 12),
        picture::checkerboard(16, 10, 1),
        picture::frames(20, 17),
        noise,
    ];
    for layer in layers {
        b.traced(&layer);
        measured(b);
        b.jitter(8);
        b.remove_firsts(3);
        b.thin(20);
        b.pin(4);
        measured(b);
    }
}

/// Areas: B, M, P, T, S, Y, R and A only.
pub fn areas(b: &mut Builder) {
    ask_1_to_7(b, &plain(within(40, 400)));
    ask_1_to_7(b, &plain(within(0, 0)));
    worked_out(b, &areas_cases::cases());
    in_states(b);
    wide_and_high(b);
    squares(b);
    worked_out(b, &sums_cases::cases());
    by_turns(b);
}
