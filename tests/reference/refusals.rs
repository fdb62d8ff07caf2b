// Vectors for the refusals that many calls share: the questions 1 to 5 of a
// bitmap and a table's length, 6 of its entries, 7 and 15 of its vertices.

use crate::builder::{exact_length, Builder};
use crate::hold::{offset, State};
use crate::layer::{row_bytes, Layer};
use crate::picture;
use crate::script::Command;

/// A call that is appended on whatever layer and table are set.
pub type Call<'a> = &'a dyn Fn(&mut Builder);

/// Bytes of 0, of FF or at random.
fn filling(b: &mut Builder, n: usize) -> Vec<u8> {
    match b.rng.below(3) {
        0 => vec![0; n],
        1 => vec![0xFF; n],
        _ => b.rng.bytes(n),
    }
}

/// Question 1: sides of 0, 1, 1025 and 65535, each with every other side.
pub fn sides(b: &mut Builder, call: Call) {
    let sides = [0, 1, 2, 1024, 1025, 65535];
    for w in sides {
        for h in sides {
            if (2..=1024).contains(&w) && (2..=1024).contains(&h) {
                continue;
            }
            let exact = exact_length(w, h);
            let n = if exact <= 1100 {
                b.rng.pick(&[exact, exact, 0, 1])
            } else {
                b.rng.below(18)
            };
            let bytes = filling(b, n);
            b.bitmap(w, h, bytes);
            let n = b.rng.below(40);
            b.table(n);
            call(b);
        }
    }
    for (w, h) in [(3, 1025), (1025, 3)] {
        b.bitmap(w, h, vec![0; exact_length(w, h)]);
        b.table((w - 1) * h + w * (h - 1));
        call(b);
    }
}

/// Question 2: bitmaps of no byte, one short, one long, and much longer.
pub fn lengths(b: &mut Builder, call: Call) {
    let sizes = [
        (2, 2),
        (3, 3),
        (7, 5),
        (8, 5),
        (9, 5),
        (15, 4),
        (16, 4),
        (17, 4),
        (33, 9),
    ];
    for (w, h) in sizes {
        let exact = exact_length(w, h);
        let other = b
            .rng
            .pick(&[2 * exact, exact + row_bytes(w), exact - row_bytes(w)]);
        let rounded_down = w / 8 * h;
        let mut lengths = vec![0, exact - 1, exact + 1, other, 3 * exact + 100];
        if rounded_down != exact && !lengths.contains(&rounded_down) {
            lengths.push(rounded_down);
        }
        for n in lengths {
            let bytes = filling(b, n);
            b.bitmap(w, h, bytes);
            b.table((w - 1) * h + w * (h - 1));
            call(b);
        }
    }
}

/// A bitmap with a spare bit set in each of these rows, the layer else good.
fn with_spare_bits(b: &mut Builder, layer: &Layer, rows: &[usize]) -> Vec<u8> {
    let mut bytes = layer.bitmap();
    for &r in rows {
        let between = b.rng.between(layer.w % 8, 7);
        let spare = b.rng.pick(&[layer.w % 8, 7, between]);
        bytes[(r + 1) * row_bytes(layer.w) - 1] |= 1 << spare;
    }
    bytes
}

/// Question 3: spare bits in the first, a middle and the last row, in two rows
/// and in all; now and then with a border sample inside as well.
pub fn spare_bits(b: &mut Builder, call: Call) {
    for w in [2, 3, 7, 9, 15, 17, 30] {
        let h = b.rng.between(3, 9);
        let two = [b.rng.between(0, 1), b.rng.between(2, h - 1)];
        let all: Vec<usize> = (0..h).collect();
        let rows: [&[usize]; 5] = [&[0], &[h / 2], &[h - 1], &two, &all];
        for set in rows {
            let mut layer = picture::random(&mut b.rng, w, h, 8);
            if b.rng.chance(1, 4) {
                layer.set(0, b.rng.below(h), true);
            }
            let bytes = with_spare_bits(b, &layer, set);
            b.bitmap(w, h, bytes);
            b.table(layer.edge_count());
            call(b);
        }
    }
}

/// The layer with these samples inside as well, which lie on the border.
fn with_border(b: &mut Builder, call: Call, layer: &Layer, samples: &[(usize, usize)]) {
    let mut layer = layer.clone();
    for &(c, r) in samples {
        layer.set(c, r, true);
    }
    b.layer(&layer);
    call(b);
}

/// Question 4: border samples on each of the four sides, in the corners, several
/// at once.
pub fn border(b: &mut Builder, call: Call) {
    let sizes = [
        (2, 2),
        (3, 3),
        (7, 4),
        (8, 5),
        (9, 6),
        (15, 3),
        (16, 8),
        (17, 7),
        (2, 9),
        (9, 2),
        (40, 40),
    ];
    for (w, h) in sizes {
        let layer = picture::random(&mut b.rng, w, h, 8);
        let corners = [(0, 0), (w - 1, 0), (0, h - 1), (w - 1, h - 1)];
        let (c, c2) = (b.rng.below(w), b.rng.below(w));
        let (r, r2) = (b.rng.below(h), b.rng.below(h));
        let sides = [(c, 0), (c2, h - 1), (0, r), (w - 1, r2)];
        for side in sides {
            with_border(b, call, &layer, &[side]);
        }
        for corner in corners {
            if w == 8 || w == 9 || b.rng.chance(1, 4) {
                with_border(b, call, &layer, &[corner]);
            }
        }
        let several = b.rng.between(2, 4);
        with_border(b, call, &layer, &sides[4 - several..]);
    }
}

/// Question 5: tables of no entry, one short, one long, and others.
pub fn table_lengths(b: &mut Builder, call: Call) {
    for (w, h) in [(2, 2), (3, 3), (8, 5), (17, 7), (40, 40)] {
        let layer = picture::random(&mut b.rng, w, h, 8);
        let exact = layer.edge_count();
        for n in [0, exact - 1, exact + 1, w * h, 2 * exact] {
            if n != exact {
                b.bitmap(w, h, layer.bitmap());
                b.table(n);
                call(b);
            }
        }
    }
}

/// A random layer and table with a no to each question 1 to 5 whose bit is set,
/// bit 0 for question 1.
fn with_noes(b: &mut Builder, call: Call, noes: usize) {
    let no = |question: usize| noes >> (question - 1) & 1 == 1;
    let (w, h) = (b.rng.pick(&[3, 5, 9, 13, 17, 31]), b.rng.between(3, 9));
    let mut layer = picture::random(&mut b.rng, w, h, 8);
    let exact = layer.edge_count();
    if no(4) {
        let sample = b
            .rng
            .pick(&[(0, 0), (w / 2, 0), (w - 1, h / 2), (w / 3, h - 1)]);
        layer.set(sample.0, sample.1, true);
    }
    let mut bytes = layer.bitmap();
    if no(3) {
        let r = b.rng.below(h);
        bytes = with_spare_bits(b, &layer, &[r]);
    }
    if no(2) {
        let n = bytes.len();
        bytes.resize(b.rng.pick(&[0, n - 1, n + 1, n + row_bytes(w)]), 0);
    }
    let sides = match no(1) {
        true => b.rng.pick(&[(w, 1), (1, h), (0, h), (w, 1025)]),
        false => (w, h),
    };
    b.bitmap(sides.0, sides.1, bytes);
    let other = b.rng.pick(&[0, exact - 1, exact + 1]);
    b.table(if no(5) { other } else { exact });
    call(b);
}

/// Each set of noes to the questions 1 to 5, none and all included: the first no
/// wins.
pub fn first_no_wins(b: &mut Builder, call: Call) {
    for noes in 0..32 {
        with_noes(b, call, noes);
    }
}

/// For each question 1 to 5 some layers where it has the first no, and random
/// noes to those after it.
pub fn some_noes(b: &mut Builder, call: Call) {
    for first in 0..5 {
        for times in 0..6 {
            let later = if times < 3 { 0 } else { b.rng.below(32) };
            with_noes(b, call, (1 | later) << first & 31);
        }
    }
}

/// Question 6: entries that no stick may have, among them some that a pinned vertex
/// has, and entries off sticks that are not 0; one or several, and with removed
/// vertices that break 7 or 15.
pub fn entries(b: &mut Builder, call: Call, times: usize) {
    for _ in 0..times {
        let layer = b.some_layer(12);
        b.traced(&layer);
        if b.rng.chance(1, 3) {
            remove_at_random(b, 4);
        }
        for _ in 0..b.rng.pick(&[1, 1, 2, 5]) {
            let number = match b.rng.below(6) {
                0 => b.rng.pick(&[0, layer.edge_count() - 1]),
                _ => b.rng.below(layer.edge_count()),
            };
            let value = match layer.is_stick(number) {
                true => b.rng.pick(&[0, 0, 256, 256, 512, 513, 640, 32768, 65535]),
                false => b.rng.pick(&[1, 128, 255, 256, 257, 384, 511, 512, 65535]),
            };
            b.poke(number, value);
        }
        call(b);
    }
}

/// Marks so many of sixteen vertices as removed, held or not.
pub fn remove_at_random(b: &mut Builder, sixteenths: usize) {
    for stick in b.sticks() {
        if b.rng.chance(sixteenths, 16) {
            let entry = b.machine.table[stick];
            b.poke(stick, State::Removed.at(offset(entry)));
        }
    }
}

/// Question 7: removed vertices at random, from a few to all, at offsets as
/// traced and others; some of these layers are held.
pub fn not_held(b: &mut Builder, call: Call, times: usize) {
    let single = picture::shown("... .#. ...");
    for removed in 1..16u32 {
        b.traced(&single);
        for (i, stick) in [2, 7, 3, 10].iter().enumerate() {
            if removed >> i & 1 == 1 {
                b.poke(*stick, 384);
            }
        }
        call(b);
    }
    for _ in 0..times {
        let layer = b.some_layer(12);
        b.traced(&layer);
        let sixteenths = b.rng.pick(&[0, 0, 4]);
        b.jitter(sixteenths);
        b.thin(6);
        if b.rng.chance(3, 4) {
            let sixteenths = b.rng.pick(&[1, 2, 4, 16]);
            remove_at_random(b, sixteenths);
        }
        call(b);
    }
}

/// Question 15: layers that are held with vertices removed.
pub fn some_removed(b: &mut Builder, call: Call, times: usize) {
    for _ in 0..times {
        let layer = b.some_layer(14);
        b.traced(&layer);
        let sixteenths = b.rng.pick(&[0, 4, 16]);
        b.jitter(sixteenths);
        let vertices = b.rng.pick(&[1, 2, 4, 8, 16]);
        b.thin(vertices);
        call(b);
    }
}

/// All refusals from 1 to 7 that a call can give, at some places each.
pub fn ask_1_to_7(b: &mut Builder, call: Call) {
    some_noes(b, call);
    entries(b, call, 25);
    not_held(b, call, 20);
}

/// A call that only appends this command.
pub fn plain(command: Command) -> impl Fn(&mut Builder) {
    move |b| {
        b.add(command.clone());
    }
}
