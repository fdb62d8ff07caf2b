// Cases of Note 7, "area by stick number", worked out by hand: all sums of a layer, and
// outputs that are long enough for them or too short. An edge from (x, y) to (X, Y) adds
// x × Y - X × y, and edges come by the number of the stick they start from.

use crate::areas_cases::{all_at, check_of, compared, refused, Case, Entries, Wanted};
use crate::cases::{traced, Check, BAR, SINGLE};
use crate::layer::Layer;
use crate::picture::{full, shown};
use crate::pins_cases::{RING, RING_BORE, RING_OUTLINE, SINGLE_STICKS};

/// A call that is done, in outputs that are exactly long enough: all areas and all sums.
fn done(
    name: &'static str,
    (layer, entries): (&str, &Entries),
    areas: &[i64],
    sums: &[i64],
) -> Case {
    let [contours, edges] = [areas.len(), sums.len()];
    let total = sums.last().copied().unwrap_or(0);
    Case {
        name,
        layer: shown(layer),
        entries: entries.to_vec(),
        room: [contours, edges],
        wanted: Wanted {
            figures: [0, 0, contours as i64, edges as i64, total],
            areas: areas.to_vec(),
            sums: sums.to_vec(),
        },
    }
}

/// A vertex at 128 has whole coordinates in halves of the pitch: numbers in their squares.
fn halves(numbers: &[i64]) -> Vec<i64> {
    numbers.iter().map(|number| 16384 * number).collect()
}

/// The single sample: 2 on its left, 3 on its right, 7 below and 10 above it, walked 2, 7, 3,
/// 10. As traced they are at (128, 256), (384, 256), (256, 128) and (256, 384).
///   2 to 7:   128 × 128 - 256 × 256 = -49152
///   3 to 10:  384 × 384 - 256 × 256 =  81920
///   7 to 3:   256 × 256 - 384 × 128 =  16384
///   10 to 2:  256 × 256 - 128 × 384 =  16384
/// With other offsets they are at (100, 256), (456, 256), (256, 50) and (256, 286).
///   2 to 7:   100 × 50 - 256 × 256  = -60536
///   3 to 10:  456 × 286 - 256 × 256 =  64880
///   7 to 3:   256 × 256 - 456 × 50  =  42736
///   10 to 2:  256 × 256 - 100 × 286 =  36936
/// After the tenth pass they are 1 away from the sample: 255 × 255 - 256 × 256 is -511,
/// 257 × 257 - 256 × 256 is 513, and 256 × 256 - 255 × 257 is 1.
fn single() -> Vec<Case> {
    let at = |name, entries: [u16; 4], sums: [i64; 4]| {
        let entries: Vec<(usize, u16)> = SINGLE_STICKS.into_iter().zip(entries).collect();
        done(name, (SINGLE, &entries), &sums[3..], &sums)
    };
    let traced = [-49152, 32768, 49152, 65536];
    let other = [-60536, 4344, 47080, 84016];
    vec![
        at("sums as traced", [128; 4], traced),
        at("sums as traced, pinned", [640; 4], traced),
        at("sums with other offsets", [100, 50, 200, 30], other),
        at("sums with these, two pinned", [612, 50, 200, 542], other),
        at("after the tenth pass", [255, 255, 1, 1], [-511, 2, 3, 4]),
    ]
}

/// The ring of eight around one, in halves of the pitch. Its outline is walked 4, 21, 22, 23,
/// 7, 11, 15, 38, 37, 36, 12, 8, its bore 9, 32, 10, 27.
///   4 (1, 2) to 21 (2, 1): -3      21 (2, 1) to 22 (4, 1): -2
///   7 (7, 2) to 11 (7, 4): 14      22 (4, 1) to 23 (6, 1): -2
///   8 (1, 4) to 4 (1, 2): -2       23 (6, 1) to 7 (7, 2): 5
///   9 (3, 4) to 32 (4, 5): -1      27 (4, 3) to 9 (3, 4): 7
///   10 (5, 4) to 27 (4, 3): -1     32 (4, 5) to 10 (5, 4): -9
///   11 (7, 4) to 15 (7, 6): 14     36 (2, 7) to 12 (1, 6): 5
///   12 (1, 6) to 8 (1, 4): -2      37 (4, 7) to 36 (2, 7): 14
///   15 (7, 6) to 38 (6, 7): 13     38 (6, 7) to 37 (4, 7): 14
fn ring() -> Vec<Case> {
    let pinned = all_at(&[&RING_OUTLINE[..], &RING_BORE].concat(), 640);
    let areas = halves(&[68, -4]);
    let sums = halves(&[-3, 11, 9, 8, 7, 21, 19, 32, 30, 28, 33, 40, 31, 36, 50, 64]);
    let within = |name, room: [usize; 2]| Case {
        room,
        ..done(name, (RING, &[]), &areas, &sums)
    };
    let short = |name, room: [usize; 2]| refused(name, (RING, &[]), room, 14, 0);
    vec![
        done("sums of a ring", (RING, &[]), &areas, &sums),
        done("of pinned ones", (RING, &pinned), &areas, &sums),
        within("room for a sum more", [2, 17]),
        within("room for many sums", [2, 100]),
        within("room for an area and four sums more", [3, 20]),
        short("one sum short", [2, 15]),
        short("one area short, room for sums", [1, 17]),
        short("one sum short, room for areas", [17, 15]),
        short("an area and a sum short", [1, 15]),
        short("no sums", [2, 0]),
        short("no areas", [0, 16]),
        short("neither", [0, 0]),
        short("the lengths the other way round", [16, 2]),
    ]
}

/// The bar, in halves of the pitch: four vertices kept and pinned, 4 at (1, 2), 14 at (4, 1),
/// 7 at (7, 2) and 19 at (4, 3), each with removed ones between.
///   4 to 14: 1 × 1 - 4 × 2 = -7      14 to 7: 4 × 2 - 7 × 1 = 1
///   7 to 19: 7 × 3 - 4 × 2 = 13      19 to 4: 4 × 2 - 1 × 3 = 5
/// And in 1/256, with 14 slid to 140 and pinned, and its last vertex, 18, removed, so that
/// the edge that closes the contour starts at 19, and the one from 20 comes after it.
///   4 (128, 256) to 13 (256, 128):  128 × 128 - 256 × 256 = -49152
///   7 (896, 256) to 20 (768, 384):  896 × 384 - 768 × 256 = 147456
///   13 (256, 128) to 14 (512, 140): 256 × 140 - 512 × 128 = -29696
///   14 (512, 140) to 15 (768, 128): 512 × 128 - 768 × 140 = -41984
///   15 (768, 128) to 7 (896, 256):  768 × 256 - 896 × 128 = 81920
///   19 (512, 384) to 4 (128, 256):  512 × 256 - 128 × 384 = 81920
///   20 (768, 384) to 19 (512, 384): 768 × 384 - 512 × 384 = 98304
fn bar() -> Vec<Case> {
    let removed = all_at(&[13, 15, 18, 20], 384);
    let four = [all_at(&[4, 14, 7, 19], 640), removed].concat();
    let of_four = || {
        let sums = halves(&[-7, 6, 7, 12]);
        done("sums of four", (BAR, &four), &sums[3..], &sums)
    };
    let seven = [(14, 652), (18, 384)];
    let sums = [-49152, 98304, 68608, 26624, 108544, 190464, 288768];
    vec![
        of_four(),
        Case {
            room: [1, 8],
            ..of_four()
        },
        refused("three for four", (BAR, &four), [1, 3], 14, 0),
        done("sums of seven", (BAR, &seven), &sums[6..], &sums),
        refused("six for seven", (BAR, &seven), [1, 6], 14, 0),
    ]
}

/// The block of 2 by 2, walked 3, 13, 14, 5, 8, 22, 21, 6, without its first vertex, in halves
/// of the pitch: the edge that closes it, from 6, is the second.
///   5 (5, 2) to 8 (5, 4): 10      14 (4, 1) to 5 (5, 2): 3
///   6 (1, 4) to 13 (2, 1): -7     21 (2, 5) to 6 (1, 4): 3
///   8 (5, 4) to 22 (4, 5): 9      22 (4, 5) to 21 (2, 5): 10
///   13 (2, 1) to 14 (4, 1): -2
fn block() -> Vec<Case> {
    let rows = ".... .##. .##. ....";
    let sums = halves(&[10, 3, 12, 10, 13, 16, 26]);
    let pinned = [all_at(&[13, 6], 640), vec![(3, 511)]].concat();
    vec![
        done("sums of a block", (rows, &[(3, 384)]), &sums[6..], &sums),
        done("of one with pins", (rows, &pinned), &sums[6..], &sums),
    ]
}

/// Two contours, whose edges come by turns, in halves of the pitch. Two samples on a
/// diagonal, walked 3, 13, 4, 17 and 7, 18, 8, 22:
///   3 (1, 2) to 13 (2, 1): -3     13 (2, 1) to 4 (3, 2): 1
///   4 (3, 2) to 17 (2, 3): 5      17 (2, 3) to 3 (1, 2): 1
///   7 (3, 4) to 18 (4, 3): -7     18 (4, 3) to 8 (5, 4): 1
///   8 (5, 4) to 22 (4, 5): 9      22 (4, 5) to 7 (3, 4): 1
/// Two samples in a row, walked 4, 13, 5, 18 and 6, 15, 7, 20, where the last edge takes away:
///   4 (1, 2) to 13 (2, 1): -3     13 (2, 1) to 5 (3, 2): 1
///   5 (3, 2) to 18 (2, 3): 5      15 (6, 1) to 7 (7, 2): 5
///   6 (5, 2) to 15 (6, 1): -7     18 (2, 3) to 4 (1, 2): 1
///   7 (7, 2) to 20 (6, 3): 9      20 (6, 3) to 6 (5, 2): -3
fn two_contours() -> Vec<Case> {
    let areas = halves(&[4, 4]);
    let diagonal = halves(&[-3, 2, -5, 4, 5, 6, 7, 8]);
    let row = halves(&[-3, 2, -5, 4, 5, 10, 11, 8]);
    let rows = [".... ..#. .#.. ....", "..... .#.#. ....."];
    vec![
        done("sums of a diagonal", (rows[0], &[]), &areas, &diagonal),
        done("sums of a row", (rows[1], &[]), &areas, &row),
        refused("seven for eight", (rows[1], &[]), [2, 7], 14, 0),
    ]
}

/// Without a contour there is no edge, and the total is 0; and questions 6 and 7 come before
/// 14 of either output.
fn no_sum() -> Vec<Case> {
    let blank = ".... .... ....";
    let none = |name, room: [usize; 2]| Case {
        room,
        ..done(name, (blank, &[]), &[], &[])
    };
    vec![
        none("no contour, no output", [0, 0]),
        none("no contour, room for sums", [0, 4]),
        none("no contour, room for areas", [4, 0]),
        refused("6, no sums", (SINGLE, &[(4, 1)]), [1, 0], 6, 4),
        refused("7, no sums", (SINGLE, &[(3, 384)]), [1, 0], 7, 2),
        refused("7, no areas", (SINGLE, &[(3, 384)]), [0, 4], 7, 2),
    ]
}

pub fn cases() -> Vec<Case> {
    let groups = [single(), ring(), bar(), block(), two_contours(), no_sum()];
    groups.into_iter().flatten().collect()
}

/// What the edges of a full square of n by n samples add as traced, in halves of the pitch.
/// In a row one starts at the left and goes down, one at the right and goes up; then those
/// below from left to right, and those above, which go from right to left.
fn of_full_square(n: i64) -> Vec<i64> {
    // The last column, and the vertices right of it.
    let (last, right) = (2 * n, 2 * n + 1);
    let mut added = Vec::new();
    for row in 1..=n {
        added.push(if row == 1 { 1 - 4 } else { -2 });
        added.push(if row == n {
            right * right - last * last
        } else {
            2 * right
        });
    }
    for column in 1..=n {
        added.push(if column == n { 2 * last - right } else { -2 });
    }
    for column in 1..=n {
        added.push(if column == 1 {
            2 * last - right
        } else {
            2 * right
        });
    }
    added
}

/// The largest contour without a bend but at its corners.
fn full_square() -> Check {
    let mut sum = 0;
    let mut sums = Vec::new();
    for added in of_full_square(1022) {
        sum += added;
        sums.push(sum);
    }
    let layer: Layer = full(1024, 1024);
    let wanted = Wanted {
        figures: [0, 0, 1, 4088, 136902541312],
        areas: vec![136902541312],
        sums: halves(&sums),
    };
    compared("sums of a square", &traced(&layer), [1, 4088], &wanted)
}

pub fn checks() -> Vec<Check> {
    let mut checks: Vec<Check> = cases().iter().map(check_of).collect();
    checks.push(full_square());
    checks
}
