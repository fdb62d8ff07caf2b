// Lists of calls. The calls that write a table, as the guarantee speaks of them: each list opens on a Trace or a sheet, and goes on with any
// calls, good ones, refused ones and rolls that stop partway. And every call one after the other on larger layers, up to the largest.

use crate::builder::Builder;
use crate::layer::Layer;
use crate::picture;
use crate::roll::Action;
use crate::script::Command;
use crate::sets_pins::{edit_or_pin, turn_pins};
use crate::sets_table::{random_edit, random_roll, AnyEdit};
use crate::sets_text::damage;

const TOLERANCES: [u8; 5] = [0, 12, 64, 128, 255];

/// The sheet of the layer as it is, with other pins or damaged now and then.
fn read_back(b: &mut Builder) {
    let mut bytes = b.sheet();
    if b.rng.chance(1, 2) {
        turn_pins(b, &mut bytes);
    }
    if b.rng.chance(1, 2) {
        damage(b, &mut bytes);
    }
    b.add(Command::ReadSheet { bytes });
}

fn any_call(b: &mut Builder, any: AnyEdit) {
    let t = b.rng.pick(&TOLERANCES);
    match b.rng.below(8) {
        0 => {
            b.add(Command::Trace);
        }
        1 => read_back(b),
        2 => {
            let limit = b.rng.pick(&[0, 1, 3, 100]);
            b.add(Command::Smooth { limit });
        }
        3 | 4 => {
            b.add(Command::Simplify { t });
        }
        _ => {
            let tries = b.rng.between(1, 12);
            let bytes = random_roll(b, t, tries, any);
            b.add(Command::Roll { t, bytes });
        }
    }
}

/// Opens a list: a Trace, or the sheet of a traced layer read into a table of anything.
fn open(b: &mut Builder, layer: &Layer) {
    b.traced(layer);
    if b.rng.chance(1, 2) {
        let bytes = b.sheet();
        b.layer(layer);
        b.add(Command::ReadSheet { bytes });
    }
}

pub fn lists(b: &mut Builder) {
    for _ in 0..40 {
        let layer = b.some_layer(12);
        open(b, &layer);
        let any: AnyEdit = b
            .rng
            .pick(&[random_edit as AnyEdit, edit_or_pin, edit_or_pin]);
        for _ in 0..b.rng.below(14) {
            any_call(b, any);
        }
    }
}

/// Every call on the layer, each on what the one before it left.
fn every_call(b: &mut Builder, layer: &Layer) {
    b.traced(layer);
    b.add(Command::Counts);
    let limit = b.rng.pick(&[5, 100]);
    b.add(Command::Smooth { limit });
    let t = b.rng.pick(&TOLERANCES);
    b.add(Command::Simplify { t });
    for _ in 0..20 {
        any_edit(b);
    }
    let bytes = b.sheet();
    b.add(Command::WriteSheet {
        n: bytes.len() as u32 + 3,
    });
    let items = 2 * bytes.len() as u32;
    b.add(Command::Planner {
        items,
        floats: items,
    });
    b.add(Command::Areas {
        areas: items,
        sums: items,
    });
    b.table(layer.edge_count());
    b.add(Command::ReadSheet { bytes });
}

/// The planner's list of the layer that is set, and its areas.
fn list_and_areas(b: &mut Builder) {
    let items = 2 * b.sticks().len() as u32;
    b.add(Command::Planner {
        items,
        floats: items,
    });
    b.add(Command::Areas {
        areas: 512,
        sums: items,
    });
}

/// As many contours one in the other as a layer can have, with first vertices removed, and simplified.
fn deepest(b: &mut Builder) {
    b.traced(&picture::frames(1024, 1024));
    b.remove_firsts(3);
    list_and_areas(b);
    b.add(Command::Trace);
    b.add(Command::Simplify { t: 255 });
    list_and_areas(b);
}

/// A roll of one edit of a stick.
fn any_edit(b: &mut Builder) {
    let sticks = b.sticks();
    let stick = b.rng.pick(&sticks);
    let slide = Action::Slide(b.rng.between(1, 255) as u8);
    let action = b
        .rng
        .pick(&[slide, slide, Action::Remove, Action::Remove, Action::Pin]);
    let mut bytes = b.edit(stick, action);
    bytes.push(0x45);
    let t = b.rng.pick(&TOLERANCES);
    b.add(Command::Roll { t, bytes });
}

pub fn large(b: &mut Builder) {
    for _ in 0..8 {
        let noise = picture::random(&mut b.rng, 64, 64, 8);
        every_call(b, &noise);
        let discs = picture::discs(&mut b.rng, 64, 64, 5);
        every_call(b, &discs);
    }
    let (w, h) = (b.rng.between(90, 160), b.rng.between(90, 160));
    every_call(b, &picture::serpentine(w, h));
    every_call(b, &picture::spiral(w, h));
    let rings = picture::rings(&mut b.rng, 80, 70, 20);
    every_call(b, &rings);
    let largest = picture::discs(&mut b.rng, 1024, 1024, 6);
    every_call(b, &largest);
    deepest(b);
}
