// Vectors of Note 5, "pinned faces": the cases of pins_cases.rs, long contours with pins in
// the middle, and every call on layers with pins at random. That they show what they are
// there for is asked of them in pins_vectors.rs.

use crate::builder::Builder;
use crate::layer::Layer;
use crate::picture::{self, shown};
use crate::pins_cases::cases;
use crate::roll::Action;
use crate::script::Command;
use crate::sets_settling::set_block;
use crate::sets_table::{random_edit, random_roll, refused_after, round_layer};

/// The limits and tolerances that layers with pins are tried with.
pub const LIMITS: [u16; 6] = [0, 1, 2, 9, 100, 65535];
pub const TOLERANCES: [u8; 5] = [0, 12, 64, 128, 255];

/// Sets every entry that is another to what it is in this table.
fn restore(b: &mut Builder, table: &[u16]) {
    for (number, &entry) in table.iter().enumerate() {
        if b.machine.table[number] != entry {
            b.poke(number, entry);
        }
    }
}

fn worked_out(b: &mut Builder) {
    let (mut layer, mut traced) = ("", Vec::new());
    for case in cases() {
        if case.layer != layer {
            layer = case.layer;
            b.traced(&shown(layer));
            traced = b.machine.table.clone();
        }
        for &(number, entry) in &case.entries {
            b.poke(number, entry);
        }
        b.add(case.command);
        restore(b, &traced);
    }
}

/// Traces the layer, sets some entries, and smooths, once for each limit.
fn at_limits(b: &mut Builder, layer: &Layer, entries: &[(usize, u16)], limits: &[u16]) {
    for &limit in limits {
        b.traced(layer);
        for &(number, entry) in entries {
            b.poke(number, entry);
        }
        b.add(Command::Smooth { limit });
    }
}

/// A block of 1,002 vertices, which has a total of 256 in its third pass and is settled, as
/// 1000×256 is below 256×1002. It is so too with two of them pinned in the middle of its
/// lower side, where no vertex is moved; 256×1000 would not be above it. Then with one
/// pinned there at 250, and a bar with one pinned so.
fn long_contours(b: &mut Builder) {
    let mut block = Layer::blank(498, 7);
    set_block(&mut block, 1, 496, 5);
    let middle = 7 * 497 + 248;
    let two = [(middle, 640), (middle + 1, 640)];
    at_limits(b, &block, &two, &[2, 3, 4, 65535]);
    at_limits(b, &block, &[(middle, 762)], &[1, 9, 100]);
    let bar = picture::full(42, 3);
    let middle = 3 * 41 + 20;
    at_limits(b, &bar, &[(middle, 762)], &LIMITS);
}

/// A roll that pins every vertex. After it Smooth and Simplify alter nothing, the same roll
/// is done again, and slides and removals are refused; a Trace sets no pins.
fn all_pinned(b: &mut Builder, layer: &Layer) {
    b.traced(layer);
    b.jitter(8);
    let sticks = b.sticks();
    let pins = sticks.iter().flat_map(|&stick| b.edit(stick, Action::Pin));
    let bytes: Vec<u8> = pins.chain([0x45]).collect();
    let pins = Command::Roll { t: 0, bytes };
    b.add(pins.clone());
    for limit in LIMITS {
        b.add(Command::Smooth { limit });
    }
    for t in [0, 255] {
        b.add(Command::Simplify { t });
    }
    b.add(pins);
    let stick = b.rng.pick(&sticks);
    for action in [Action::Slide(0), Action::Slide(128), Action::Remove] {
        let bytes = [b.edit(stick, action), vec![0x45]].concat();
        b.add(Command::Roll { t: 255, bytes });
    }
    b.add(Command::Counts);
    b.add(Command::Trace);
    b.add(Command::Smooth { limit: 1 });
}

/// A random edit, or a pin of the stick that it names.
pub fn edit_or_pin(b: &mut Builder, table: &[u16]) -> Vec<u8> {
    let edit = random_edit(b, table);
    match b.rng.chance(1, 4) {
        true => [&[0x50], &edit[1..6]].concat(),
        false => edit,
    }
}

/// Turns some K of a sheet into N, and some N into K.
pub fn turn_pins(b: &mut Builder, sheet: &mut [u8]) {
    for byte in &mut sheet[5..] {
        if [0x4B, 0x4E].contains(byte) && b.rng.chance(1, 6) {
            *byte ^= 0x4B ^ 0x4E;
        }
    }
}

/// A layer with some vertices slid and so many of sixteen pinned.
fn with_pins(b: &mut Builder, layer: &Layer, sixteenths: usize) {
    b.traced(layer);
    let slid = b.rng.pick(&[0, 2, 8]);
    b.jitter(slid);
    b.pin(sixteenths);
}

/// Sheet and list of the layer that is set, into outputs that are long enough and shorter.
fn written(b: &mut Builder) {
    let n = b.sheet().len() as u32;
    let short = b.rng.below(n as usize) as u32;
    let (items, floats) = (n, 2 * n);
    b.add(Command::WriteSheet { n });
    b.add(Command::WriteSheet { n: short });
    b.add(Command::Planner { items, floats });
    b.add(Command::Planner { items, floats: 3 });
}

/// Every call on the layer as it is set; it is set anew by its sheet.
fn every_call(b: &mut Builder) {
    let mut calls = vec![Command::Counts];
    calls.extend(LIMITS.map(|limit| Command::Smooth { limit }));
    calls.extend(TOLERANCES.map(|t| Command::Simplify { t }));
    for t in [0, 64] {
        let bytes = random_roll(b, t, 12, edit_or_pin);
        calls.push(Command::Roll { t, bytes });
    }
    written(b);
    let bytes = b.sheet();
    for call in calls {
        b.add(Command::ReadSheet {
            bytes: bytes.clone(),
        });
        b.add(call);
    }
}

/// Random layers: smoothed and simplified, or thinned and edited.
fn random_layers(b: &mut Builder) {
    for i in 0..24 {
        let layer = b.some_layer(12);
        let sixteenths = b.rng.pick(&[1, 3, 8]);
        with_pins(b, &layer, sixteenths);
        let t = TOLERANCES[i % 5];
        if i % 3 > 0 {
            b.add(Command::Smooth {
                limit: LIMITS[i % 6],
            });
            b.add(Command::Simplify { t });
        } else {
            b.thin(12);
            let bytes = random_roll(b, t, 20, edit_or_pin);
            b.add(Command::Roll { t, bytes });
            written(b);
        }
    }
}

/// Entries that no stick may have, or that are not 0 off sticks, among pins.
fn wrong_entries(b: &mut Builder) {
    for i in 0..12 {
        let layer = b.some_layer(9);
        with_pins(b, &layer, 6);
        for _ in 0..b.rng.pick(&[1, 1, 3]) {
            let number = b.rng.below(layer.edge_count());
            let value = match layer.is_stick(number) {
                true => b.rng.pick(&[0, 256, 512, 768, 769, 1023, 1024, 65535]),
                false => b.rng.pick(&[1, 256, 384, 512, 513, 640, 767, 768]),
            };
            b.poke(number, value);
        }
        b.add(match i % 4 {
            0 => Command::Smooth { limit: 1 },
            1 => Command::Simplify { t: 64 },
            2 => Command::WriteSheet { n: 400 },
            _ => Command::Roll {
                t: 0,
                bytes: vec![0x45],
            },
        });
    }
}

/// Rolls that stop at the first command and at later ones, by each refusal.
fn stopped_rolls(b: &mut Builder) {
    let layer = round_layer(b, 24, 20);
    with_pins(b, &layer, 3);
    b.thin(60);
    for t in [12, 64] {
        for number in [9, 10, 11, 12, 16] {
            for done in [0, 1, 6] {
                if let Some(mut bytes) = refused_after(b, t, done, number, edit_or_pin) {
                    bytes.push(0x45);
                    b.add(Command::Roll { t, bytes });
                }
            }
        }
    }
}

/// Sheets with N: some N turned into K and some K into N, and then a byte changed, a part cut
/// off, the offset of an N set to 0, or some vertices removed.
fn damaged_sheets(b: &mut Builder) {
    for i in 0..20 {
        let layer = b.some_layer(8);
        with_pins(b, &layer, 6);
        b.thin(8);
        let mut bytes = b.sheet();
        turn_pins(b, &mut bytes);
        let place = b.rng.below(bytes.len());
        match i % 4 {
            0 => bytes[place] = b.rng.pick(&[0x4B, 0x4E, 0x50, 0x52]),
            1 => bytes.truncate(place),
            2 => {
                let letters = (5..bytes.len()).filter(|&k| bytes[k] == 0x4E);
                if let Some(k) = letters.last() {
                    bytes[k + 1] = 0;
                }
            }
            _ => {
                for byte in &mut bytes[11..] {
                    if [0x4B, 0x4E].contains(byte) && b.rng.chance(1, 8) {
                        *byte = 0x52;
                    }
                }
            }
        }
        b.add(Command::ReadSheet { bytes });
    }
}

pub fn pins(b: &mut Builder) {
    worked_out(b);
    long_contours(b);
    for rows in ["..... .###. .....", "..... .###. .#.#. .###. ....."] {
        all_pinned(b, &shown(rows));
    }
    let mut layers = vec![picture::nested().remove(0), picture::full(9, 6)];
    layers.extend((0..2).map(|_| b.some_layer(11)));
    for (layer, sixteenths) in layers.iter().zip([2, 4, 8, 12]) {
        with_pins(b, layer, sixteenths);
        every_call(b);
    }
    random_layers(b);
    wrong_entries(b);
    stopped_rolls(b);
    damaged_sheets(b);
}
