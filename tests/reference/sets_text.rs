// The sets of what is written out and read in: sheets, the planner's list and
// the layer program.

use crate::builder::{exact_length, Builder};
use crate::contour::contours;
use crate::hold::is_kept;
use crate::layer::Layer;
use crate::picture;
use crate::refusals::{ask_1_to_7, plain, some_noes};
use crate::script::Command;

/// A layer with its table traced, smoothed, simplified or thinned.
fn worked(b: &mut Builder, layer: &Layer) {
    b.traced(layer);
    let sixteenths = b.rng.pick(&[0, 0, 2, 16]);
    b.jitter(sixteenths);
    match b.rng.below(4) {
        0 => b.thin(12),
        1 => {
            b.add(Command::Smooth { limit: 5 });
        }
        2 => {
            b.add(Command::Smooth { limit: 50 });
            b.add(Command::Simplify { t: 64 });
        }
        _ => (),
    }
}

/// The layers that sheets and lists are tried on first.
fn first_layers() -> Vec<Layer> {
    vec![
        Layer::blank(2, 2),
        Layer::blank(9, 3),
        picture::shown("... .#. ..."),
        picture::shown("..... .###. ....."),
        picture::shown(".... ..#. .#.. ...."),
        picture::shown(".... .#.. ..#. ...."),
        picture::checkerboard(8, 7, 1),
        picture::frames(9, 9),
        picture::holes(7, 7),
        picture::spiral(10, 10),
    ]
}

/// Writes into outputs of the exact length, one short, longer and much shorter,
/// then reads back what was written over a scrambled table.
fn write_and_read(b: &mut Builder, layer: &Layer) {
    worked(b, layer);
    let sheet = b.sheet();
    let n = sheet.len() as u32;
    let short = b.rng.below(n as usize) as u32;
    for n in [
        n,
        n - 1,
        b.rng.pick(&[n + 1, n + 60]),
        b.rng.pick(&[0, short]),
    ] {
        b.add(Command::WriteSheet { n });
    }
    b.table(layer.edge_count());
    b.add(Command::ReadSheet { bytes: sheet });
}

/// Reads a sheet over a scrambled table.
fn read(b: &mut Builder, sheet: Vec<u8>) {
    let n = b.current().edge_count();
    b.table(n);
    b.add(Command::ReadSheet { bytes: sheet });
}

/// The sheet of the layer that is set, cut at each length, with each byte changed
/// in several ways, and with extra bytes.
fn damaged_everywhere(b: &mut Builder) {
    let sheet = b.sheet();
    for cut in 0..sheet.len() {
        read(b, sheet[..cut].to_vec());
    }
    for i in 0..sheet.len() {
        let byte = sheet[i];
        for value in [
            0,
            0x43,
            0x45,
            0x4B,
            0x52,
            0xFF,
            byte ^ 1,
            byte ^ 0x20,
            byte.wrapping_add(1),
        ] {
            let mut changed = sheet.clone();
            changed[i] = value;
            read(b, changed);
        }
        let added = b.rng.pick(&[0x00, 0x43, 0x45, 0x4B, 0x52]);
        read(b, [&sheet[..i], &[added], &sheet[i..]].concat());
        read(b, [&sheet[..i], &sheet[i + 1..]].concat());
    }
    for extra in [0x00, 0x43, 0x45, 0x4B, 0x4C] {
        read(b, [&sheet[..], &[extra]].concat());
        read(b, [&sheet[..], &[extra, 0x45]].concat());
    }
    read(b, [&sheet[..], &sheet].concat());
    let lower_case: Vec<u8> = sheet.iter().map(|byte| byte ^ 0x20).collect();
    read(b, lower_case);
}

/// Two small sheets damaged: of the paper's layer program, and of two contours
/// with a removed vertex in the second.
fn damaged_examples(b: &mut Builder) {
    b.traced(&picture::shown("... .#. ..."));
    b.add(Command::Smooth { limit: 100 });
    damaged_everywhere(b);
    b.traced(&picture::shown("..... .###. ..... ..#.. ....."));
    let removed = contours(&b.current())[1][1];
    b.poke(removed, 384);
    damaged_everywhere(b);
}

/// Sheets of layers that are not held: each choice of removed vertices of a bar,
/// as the second of three contours; whole, without the end and with a byte more,
/// since 8 comes before 7.
fn sheets_not_held(b: &mut Builder) {
    b.traced(&picture::shown("..... .#... ..... .##.. ..... .#... ....."));
    let sheet = b.sheet();
    let second = 5 + (6 + 2 * 4) + 6;
    for removed in 1..64u32 {
        let mut changed = sheet.clone();
        for i in (0..6).filter(|i| removed >> i & 1 == 1) {
            changed[second + 2 * i] = 0x52;
        }
        read(b, changed[..changed.len() - 1].to_vec());
        read(b, [&changed[..], &[0x45]].concat());
        read(b, changed);
    }
}

/// One damage to a sheet: a byte changed, put in or taken out, a part cut off,
/// an offset of 0, K for R or R for K.
pub fn damage(b: &mut Builder, sheet: &mut Vec<u8>) {
    let i = b.rng.below(sheet.len());
    let letters: Vec<usize> = (5..sheet.len())
        .filter(|&k| sheet[k] == 0x4B || sheet[k] == 0x52)
        .collect();
    match b.rng.below(7) {
        0 => sheet[i] = b.rng.next() as u8,
        1 => sheet.insert(i, b.rng.pick(&[0x43, 0x45, 0x4B, 0x52, 0x00])),
        2 => {
            sheet.remove(i);
        }
        3 => sheet.truncate(i),
        4 if !letters.is_empty() => sheet[b.rng.pick(&letters) + 1] = 0,
        _ => {
            for _ in 0..b.rng.pick(&[1, 1, 3, 12]) {
                if !letters.is_empty() {
                    let k = b.rng.pick(&letters);
                    sheet[k] ^= 0x4B ^ 0x52;
                }
            }
        }
    }
}

/// The sheet of one layer read against another of the same size.
fn sheet_of_another(b: &mut Builder) {
    let (w, h) = (b.rng.between(3, 8), b.rng.between(3, 8));
    let one = picture::random(&mut b.rng, w, h, 6);
    let other = picture::random(&mut b.rng, w, h, 6);
    b.traced(&one);
    let sheet = b.sheet();
    b.layer(&other);
    b.add(Command::ReadSheet { bytes: sheet });
}

/// Sheets: B, M, P, T, S, Y, W and D only.
pub fn sheet(b: &mut Builder) {
    ask_1_to_7(b, &plain(Command::WriteSheet { n: 600 }));
    ask_1_to_7(b, &plain(Command::WriteSheet { n: 3 }));
    some_noes(b, &plain(Command::ReadSheet { bytes: vec![0x4C] }));
    for layer in first_layers() {
        write_and_read(b, &layer);
    }
    for _ in 0..20 {
        let layer = b.some_layer(14);
        write_and_read(b, &layer);
    }
    for (w, h) in [(600, 3), (4, 600)] {
        let layer = picture::random(&mut b.rng, w, h, 2);
        write_and_read(b, &layer);
    }
    damaged_examples(b);
    sheets_not_held(b);
    for _ in 0..45 {
        let layer = b.some_layer(10);
        worked(b, &layer);
        let mut sheet = b.sheet();
        damage(b, &mut sheet);
        read(b, sheet);
    }
    for _ in 0..8 {
        sheet_of_another(b);
    }
    for layer in picture::nested() {
        write_and_read(b, &layer);
    }
}

/// Lists of the layer that is set into outputs of nearly right lengths.
fn list(b: &mut Builder) {
    let kept = b
        .machine
        .table
        .iter()
        .filter(|&&entry| is_kept(entry))
        .count() as u32;
    let all = b.sheet().len() as u32;
    let contours = (all - 6 - 2 * b.sticks().len() as u32) / 6;
    let (items, floats) = (kept + contours, 2 * kept);
    b.add(Command::Planner { items, floats });
    b.add(Command::Planner {
        items: items + 1,
        floats: floats + 3,
    });
    b.add(Command::Planner {
        items: items.saturating_sub(1),
        floats,
    });
    b.add(Command::Planner {
        items,
        floats: floats.saturating_sub(1),
    });
    let (some, few) = (b.rng.below(40) as u32, b.rng.below(80) as u32);
    b.add(Command::Planner {
        items: some,
        floats: few,
    });
}

/// The planner's list: B, M, P, T, S, Y and L only.
pub fn planner(b: &mut Builder) {
    ask_1_to_7(
        b,
        &plain(Command::Planner {
            items: 400,
            floats: 800,
        }),
    );
    for layer in first_layers() {
        worked(b, &layer);
        list(b);
    }
    for (w, h) in [(1024, 3), (3, 1024)] {
        let wide = picture::random(&mut b.rng, w, h, 8);
        b.traced(&wide);
        b.add(Command::Planner {
            items: 10_000,
            floats: 20_000,
        });
    }
    for _ in 0..20 {
        let layer = b.some_layer(16);
        worked(b, &layer);
        list(b);
    }
    contours_within_contours(b);
    deep(b);
}

/// Nested layers, with the first vertices of contours removed too, so that a move
/// leads to another stick than the first.
fn contours_within_contours(b: &mut Builder) {
    let mut layers = picture::nested();
    for most in [12, 12, 12, 12, 20, 20, 20, 20, 32, 32] {
        let (w, h) = (b.rng.between(7, most), b.rng.between(7, most));
        let turned = b.rng.pick(&[0, 2, 6]);
        layers.push(picture::rings(&mut b.rng, w, h, turned));
    }
    for layer in layers {
        worked(b, &layer);
        list(b);
        b.traced(&layer);
        let sixteenths = b.rng.pick(&[0, 4]);
        b.jitter(sixteenths);
        b.remove_firsts(3);
        list(b);
    }
}

/// More than a hundred contours one in the other, with few vertices left.
fn deep(b: &mut Builder) {
    b.traced(&picture::frames(230, 230));
    b.add(Command::Simplify { t: 255 });
    list(b);
    b.remove_firsts(2);
    list(b);
}

/// What the layer program reads for a layer.
pub fn program_input(layer: &Layer) -> Vec<u8> {
    let mut bytes = vec![0x4C];
    bytes.extend((layer.w as u16).to_le_bytes());
    bytes.extend((layer.h as u16).to_le_bytes());
    bytes.extend(layer.bitmap());
    bytes
}

/// Inputs that are cut short, too long, or have another first byte or wrong sides.
fn ill_formed_inputs(b: &mut Builder) {
    let good = program_input(&picture::shown("... .#. ..."));
    for cut in 0..good.len() {
        let bytes = good[..cut].to_vec();
        b.add(Command::Program { bytes });
    }
    let bytes = [&good[..], &[0]].concat();
    b.add(Command::Program { bytes });
    for first in [0x00, 0x43, 0x6C, 0xFF] {
        let mut bytes = good.clone();
        bytes[0] = first;
        b.add(Command::Program { bytes });
    }
    let sides: [(u16, u16); 8] = [
        (0, 3),
        (1, 3),
        (3, 0),
        (3, 1),
        (65, 3),
        (3, 65),
        (1024, 3),
        (3, 65535),
    ];
    for (w, h) in sides {
        let head = [
            vec![0x4C],
            w.to_le_bytes().to_vec(),
            h.to_le_bytes().to_vec(),
        ]
        .concat();
        let n = exact_length(w as usize, h as usize).min(500);
        let bytes = [head.clone(), vec![0; n]].concat();
        b.add(Command::Program { bytes: head });
        b.add(Command::Program { bytes });
    }
}

/// Inputs with a bit or two turned: mostly spare bits and border samples.
fn damaged_inputs(b: &mut Builder) {
    for _ in 0..60 {
        let layer = picture::any(&mut b.rng, 20);
        let mut bytes = program_input(&layer);
        for _ in 0..b.rng.between(1, 2) {
            let i = b.rng.below(bytes.len());
            bytes[i] ^= 1 << b.rng.below(8);
        }
        b.add(Command::Program { bytes });
    }
}

/// The layer program: G only.
pub fn layer(b: &mut Builder) {
    ill_formed_inputs(b);
    damaged_inputs(b);
    for layer in first_layers() {
        b.add(Command::Program {
            bytes: program_input(&layer),
        });
    }
    for (w, h) in [(64, 64), (64, 2), (2, 64), (63, 64), (64, 33)] {
        for sixteenths in [0, 1, 8, 16] {
            let layer = picture::random(&mut b.rng, w, h, sixteenths);
            b.add(Command::Program {
                bytes: program_input(&layer),
            });
        }
        let discs = picture::discs(&mut b.rng, w.max(8), h.max(8), 6);
        b.add(Command::Program {
            bytes: program_input(&discs),
        });
    }
    for _ in 0..150 {
        let layer = b.any_layer(30);
        b.add(Command::Program {
            bytes: program_input(&layer),
        });
    }
}
