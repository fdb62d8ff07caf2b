// Slow checks of the areas, which share no arithmetic with the call: how a contour winds around
// the ends of its sticks, and how much it encloses by counting whole points and squares.
// And what the vectors of Note 6 have to show. Those of the sums are in sums_checks.rs.

use std::collections::BTreeMap;

use crate::areas::areas;
use crate::brute::polygon;
use crate::builder::Builder;
use crate::cases::traced;
use crate::contour::{contours, Contour};
use crate::depth::depths;
use crate::flood::inside_and_sticks;
use crate::hold::{is_kept, is_pinned, is_removed};
use crate::layer::{ask_1_to_4, Layer};
use crate::machine::{Machine, SIGNED_BEFORE};
use crate::order::turns;
use crate::picture;
use crate::prng::Rng;
use crate::script::{parse, Command};
use crate::sets::script;
use crate::sets_areas::{bring_into, MOST_AREAS, MOST_SUMS, STATES};
use crate::sums_checks;

type Wrong = Vec<String>;

/// What was met, and how often.
pub type Seen = BTreeMap<&'static str, usize>;

/// The areas of a layer, its sums, and the total.
#[derive(PartialEq)]
pub struct Found {
    pub areas: Vec<i64>,
    pub sums: Vec<i64>,
    pub total: i64,
}

/// What a call finds with outputs of so many numbers, which all are in it, and the refusal's
/// number and place, if it is refused; nothing if it counts others than are there.
fn call(
    layer: &Layer,
    table: &[u16],
    room: [usize; 2],
    counts: [usize; 2],
) -> Option<(Found, Option<(u64, usize)>)> {
    let (w, h, bitmap) = (layer.w as u16, layer.h as u16, layer.bitmap());
    let [mut of_contours, mut sums] = room.map(|n| vec![SIGNED_BEFORE; n]);
    let outcome = areas(w, h, &bitmap, table, &mut of_contours, &mut sums);
    let (total, refused) = match outcome {
        Ok(done) if [done.contours, done.edges] == counts => (done.total, None),
        Ok(_) => return None,
        Err(refusal) => (0, Some((refusal.number, refusal.place))),
    };
    let found = Found {
        areas: of_contours,
        sums,
        total,
    };
    Some((found, refused))
}

/// So many contours, and as many drawn edges as vertices are kept.
fn counts(table: &[u16], contours: usize) -> [usize; 2] {
    let kept = table.iter().filter(|&&entry| is_kept(entry));
    [contours, kept.count()]
}

/// What a layer of so many contours has; nothing if the call is refused, or if outputs of
/// other lengths are not used as the rules have it.
fn measured(layer: &Layer, table: &[u16], contours: usize) -> Option<Found> {
    let exact = counts(table, contours);
    let edges = exact[1];
    let (found, refused) = call(layer, table, exact, exact)?;
    let (longer, again) = call(layer, table, [contours + 2, edges + 3], exact)?;
    let past = [SIGNED_BEFORE; 3];
    let mut right = (refused, again) == (None, None)
        && longer.areas == [&found.areas, &past[..2]].concat()
        && longer.sums == [&found.sums, &past[..]].concat()
        && longer.total == found.total;
    for fewer in [[1, 0], [0, 1], [1, 1]] {
        if contours == 0 {
            break;
        }
        let room = [contours - fewer[0], edges - fewer[1]];
        let [areas, sums] = room.map(|n| vec![SIGNED_BEFORE; n]);
        let untouched = Found {
            areas,
            sums,
            total: 0,
        };
        right &= call(layer, table, room, exact) == Some((untouched, Some((14, 0))));
    }
    match right {
        true => Some(found),
        false => None,
    }
}

/// "An outline is a contour that winds around the inside ends of its sticks, a bore one
/// that winds around the outside ends": 1 or -1, as it is drawn; nothing if it is neither.
fn way_around(layer: &Layer, table: &[u16], contour: &Contour) -> Option<i64> {
    let drawn = polygon(layer, table, contour);
    let around = |inside: bool| {
        let ends = contour.iter().flat_map(|&stick| layer.edge(stick).ends());
        let ends = ends.filter(move |&(c, r)| layer.sample(c, r) == inside);
        let turns = ends.map(|(c, r)| turns(&drawn, (256 * c as i64, 256 * r as i64)));
        let mut turns: Vec<i64> = turns.collect();
        turns.dedup();
        turns
    };
    match (&around(true)[..], &around(false)[..]) {
        ([1], [0]) => Some(1),
        ([0], [-1]) => Some(-1),
        _ => None,
    }
}

/// How many samples a contour is around, as it is drawn, with the sign of its turns.
fn samples_around(layer: &Layer, table: &[u16], contour: &Contour) -> i64 {
    let drawn = polygon(layer, table, contour);
    let samples = (0..layer.h).flat_map(|r| (0..layer.w).map(move |c| (c, r)));
    samples
        .map(|(c, r)| turns(&drawn, (256 * c as i64, 256 * r as i64)))
        .sum()
}

/// An area differs from so many square pitches by less than half a square pitch for each stick.
fn is_near(area: i64, samples: i64, sticks: usize) -> bool {
    (area - 131072 * samples).abs() < 65536 * sticks as i64
}

/// What a held layer has, or what is wrong with it: an outline has an area above 0 and even
/// depth, a bore one below 0 and odd depth; the total is their sum, above 0 if there is a
/// contour; and each, and the total, is near the samples. And what is wrong with the sums.
fn looked_at(rng: &mut Rng, layer: &Layer, table: &[u16]) -> Result<Found, &'static str> {
    let walks = contours(layer);
    let depths = depths(layer, &walks);
    let found = measured(layer, table, walks.len()).ok_or("the outputs or the figures")?;
    for (i, &area) in found.areas.iter().enumerate() {
        let way = way_around(layer, table, &walks[i]);
        if way != Some(area.signum()) || (area > 0) != (depths[i] % 2 == 0) {
            return Err("the sign of an area");
        }
        let samples = samples_around(layer, table, &walks[i]);
        if !is_near(area, samples, walks[i].len()) {
            return Err("an area far from the samples");
        }
    }
    let (inside, sticks) = inside_and_sticks(layer);
    let total = found.total;
    let near = sticks == 0 || (total > 0 && is_near(total, inside as i64, sticks));
    if !near || total != found.areas.iter().sum() {
        return Err("the total");
    }
    match sums_checks::wrong_sums(rng, (layer, table), &walks, &found) {
        Some(what) => Err(what),
        None => Ok(found),
    }
}

/// Counts what the contours of a layer have that their areas depend on.
fn note(seen: &mut Seen, table: &[u16], walks: &[Contour], areas: &[i64]) {
    for (walk, &area) in walks.iter().zip(areas) {
        let bore = area < 0;
        let without_first = is_removed(table[walk[0]]);
        let removed = walk.iter().any(|&stick| is_removed(table[stick]));
        let pinned = walk.iter().any(|&stick| is_pinned(table[stick]));
        let met = [
            ("outline", !bore),
            ("bore", bore),
            ("outline with removed vertices", !bore && removed),
            ("bore with removed vertices", bore && removed),
            ("outline without its first", !bore && without_first),
            ("bore without its first", bore && without_first),
            ("outline with pins", !bore && pinned),
            ("bore with pins", bore && pinned),
        ];
        for (what, is_met) in met {
            *seen.entry(what).or_insert(0) += is_met as usize;
        }
    }
}

/// Something is wrong if anything that was looked for was met less often.
fn expect_seen(wrong: &mut Wrong, seen: &Seen, least: usize) {
    for (what, times) in seen.iter().filter(|(_, times)| **times < least) {
        wrong.push(format!("areas: {} {} times", what, times));
    }
}

/// Random layers in every state.
fn random_layers(wrong: &mut Wrong, b: &mut Builder) {
    let mut seen = Seen::new();
    for i in 0..1800 {
        let layer = match i % 3 {
            0 => {
                let (w, h) = (b.rng.between(7, 16), b.rng.between(7, 16));
                let turned = b.rng.below(6);
                picture::rings(&mut b.rng, w, h, turned)
            }
            _ => b.some_layer(14),
        };
        let walks = contours(&layer);
        let state = if walks.is_empty() { 0 } else { i / 3 % STATES };
        bring_into(b, &layer, state);
        let table = &b.machine.table;
        match looked_at(&mut b.rng, &layer, table) {
            Ok(found) => {
                note(&mut seen, table, &walks, &found.areas);
                sums_checks::note(&mut seen, (&layer, table), &walks, &found);
            }
            Err(what) => wrong.push(format!("areas, {}: {:?} {:?}", what, layer, table)),
        }
    }
    expect_seen(wrong, &seen, 40);
}

/// Twice what all contours of a traced layer enclose together, square by square. In it an
/// inside corner that is cut off has an eighth of a square pitch.
fn by_squares(layer: &Layer) -> i64 {
    let mut eighths = 0;
    for r in 0..layer.h - 1 {
        for c in 0..layer.w - 1 {
            let [a, b] = [(c, r), (c + 1, r + 1)].map(|(c, r)| layer.sample(c, r));
            let [d, e] = [(c + 1, r), (c, r + 1)].map(|(c, r)| layer.sample(c, r));
            let inside = [a, b, d, e].iter().filter(|&&inside| inside).count();
            eighths += match inside {
                2 if a == b => 2,
                2 => 4,
                _ => [0, 1, 0, 7, 8][inside],
            };
        }
    }
    2 * 65536 / 8 * eighths
}

/// The table with every vertex as near as can be to the end of its stick that is inside, or
/// to the one that is not.
fn pushed(layer: &Layer, to_inside: bool) -> Vec<u16> {
    let entry = |number: usize| {
        let [(c, r), _] = layer.edge(number).ends();
        match layer.is_stick(number) {
            true if layer.sample(c, r) == to_inside => 1,
            true => 255,
            false => 0,
        }
    };
    (0..layer.edge_count()).map(entry).collect()
}

/// Every layer of 4 by 4 and of 5 by 5, and larger ones: as traced, with all contours as wide
/// as they get, and as narrow.
fn regular_layers(wrong: &mut Wrong, b: &mut Builder) {
    let mut layers: Vec<Layer> = picture::every(4).chain(picture::every(5)).collect();
    layers.extend(picture::nested());
    layers.extend([picture::holes(40, 31), picture::spiral(30, 41)]);
    layers.extend([picture::checkerboard(20, 21, 1), picture::comb(50, 40)]);
    layers.extend([picture::full(60, 60), picture::frames(40, 40)]);
    layers.extend((0..200).map(|_| picture::any(&mut b.rng, 40)));
    for layer in layers {
        let table = traced(&layer).table;
        let found = measured(&layer, &table, contours(&layer).len());
        let total = found.map(|found| found.total);
        let tables = [table, pushed(&layer, true), pushed(&layer, false)];
        let found = tables
            .iter()
            .find_map(|table| looked_at(&mut b.rng, &layer, table).err());
        if total != Some(by_squares(&layer)) || found.is_some() {
            wrong.push(format!("areas, {:?} {:?}: {:?}", total, found, layer));
        }
    }
}

/// Is a point on an edge of a polygon?
pub fn is_on(polygon: &[(i64, i64)], (x, y): (i64, i64)) -> bool {
    let after = polygon.iter().cycle().skip(1);
    polygon.iter().zip(after).any(|(&(ax, ay), &(bx, by))| {
        let within = (x - ax) * (x - bx) <= 0 && (y - ay) * (y - by) <= 0;
        within && (bx - ax) * (y - ay) == (by - ay) * (x - ax)
    })
}

/// The least and the greatest of these numbers.
fn ends(numbers: impl Iterator<Item = i64> + Clone) -> (i64, i64) {
    let least = numbers.clone().min().unwrap_or(0);
    (least, numbers.max().unwrap_or(0))
}

/// Twice the area of a polygon that is nowhere met twice, by Pick's theorem: twice the whole
/// points within, and those on its edges, less 2. Its sign is that of its turns.
fn by_whole_points(polygon: &[(i64, i64)]) -> i64 {
    let (left, right) = ends(polygon.iter().map(|point| point.0));
    let (low, high) = ends(polygon.iter().map(|point| point.1));
    let (mut within, mut on) = (0, 0);
    for y in low..=high {
        for x in left..=right {
            match is_on(polygon, (x, y)) {
                true => on += 1,
                false => within += turns(polygon, (x, y)),
            }
        }
    }
    within.signum() * (2 * within.abs() + on - 2)
}

/// Small layers with vertices slid, removed and pinned, by counting whole points.
fn whole_points(wrong: &mut Wrong, b: &mut Builder) {
    let mut layers: Vec<Layer> = picture::every(4).collect();
    layers.push(picture::shown("..... .###. .#.#. .###. ....."));
    layers.retain(|layer| !contours(layer).is_empty());
    for (i, layer) in layers.iter().enumerate() {
        bring_into(b, layer, 2 + i % (STATES - 2));
        let table = &b.machine.table;
        let walks = contours(layer);
        let counted = walks
            .iter()
            .map(|walk| by_whole_points(&polygon(layer, table, walk)));
        let counted: Vec<i64> = counted.collect();
        let right = measured(layer, table, walks.len()).map_or(false, |found| {
            found.areas == counted
                && sums_checks::by_whole_points(layer, table, &walks, &found.sums)
        });
        if !right {
            wrong.push(format!("counted {:?}: {:?} {:?}", counted, layer, table));
        }
    }
}

/// Counts what a call shows, on a layer that is held.
fn note_call(seen: &mut Seen, areas: &[i64], n: usize, number: u64) {
    let far = 1 << 32;
    let contours = areas.len();
    let done = number == 0;
    let met = [
        (
            "area above 2^32",
            done && areas.iter().any(|&area| area > far),
        ),
        (
            "area below -2^32",
            done && areas.iter().any(|&area| area < -far),
        ),
        ("exact output", done && n == contours && n > 0),
        ("longer output", done && n > contours && contours > 0),
        ("output one short", number == 14 && n + 1 == contours),
        ("no contour and no output", done && contours == 0 && n == 0),
        ("no contour and an output", done && contours == 0 && n > 0),
        ("hundreds of contours", done && contours > 400),
    ];
    for (what, is_met) in met {
        *seen.entry(what).or_insert(0) += is_met as usize;
    }
}

/// What the vectors are there for.
fn vectors_show(wrong: &mut Wrong) {
    let bytes = script("areas", None).expect("the set has this name");
    let (mut machine, mut of_layers, mut of_calls) = (Machine::default(), Seen::new(), Seen::new());
    for command in parse(&bytes).expect("a set is a good script") {
        let answer = machine.run(&command);
        let (room, number) = match (command, answer) {
            (Command::Areas { areas, sums }, Some(answer)) => {
                ([areas, sums].map(|n| n as usize), answer.number)
            }
            _ => continue,
        };
        if room[0] > MOST_AREAS || room[1] > MOST_SUMS {
            wrong.push(format!("areas: outputs of {:?} numbers", room));
        }
        if ![0, 14].contains(&number) {
            continue;
        }
        let layer = ask_1_to_4(machine.w, machine.h, &machine.bitmap).expect("it is held");
        let (walks, table) = (contours(&layer), &machine.table);
        let counts = counts(table, walks.len());
        let (found, _) = call(&layer, table, counts, counts).expect("it is measured");
        note(&mut of_layers, table, &walks, &found.areas);
        if number == 0 {
            sums_checks::note(&mut of_layers, (&layer, table), &walks, &found);
        }
        note_call(&mut of_calls, &found.areas, room[0], number);
        sums_checks::note_call(&mut of_calls, &found, room, number);
    }
    expect_seen(wrong, &of_layers, 10);
    expect_seen(wrong, &of_calls, 1);
}

/// What is wrong.
pub fn wrong(seed: u64) -> Vec<String> {
    let mut wrong = Vec::new();
    let mut b = Builder::new(seed);
    random_layers(&mut wrong, &mut b);
    regular_layers(&mut wrong, &mut b);
    whole_points(&mut wrong, &mut b);
    vectors_show(&mut wrong);
    wrong
}
