// Cases of Note 6, "metal per contour", worked out by hand: a layer as traced with some
// entries set, outputs of so many numbers, and what the call gives. The numbers are
// twice an area in 1/65,536 of a square pitch, so that a square pitch is 131072. Of the sums
// they have the last; all sums are in sums_cases.rs.

use crate::areas::areas;
use crate::cases::{check, traced, Check, BAR, SINGLE};
use crate::hold::is_removed;
use crate::layer::Layer;
use crate::machine::{Machine, SIGNED_BEFORE};
use crate::picture::{frames, nested, shown};
use crate::pins_cases::{LONG_BAR, RING, RING_BORE, RING_OUTLINE, SINGLE_STICKS};

/// Entries of a table by their numbers.
pub type Entries = [(usize, u16)];

/// Number, place, contours, drawn edges and total; what is written of the areas; and of the
/// sums the last ones, or all.
pub struct Wanted {
    pub figures: [i64; 5],
    pub areas: Vec<i64>,
    pub sums: Vec<i64>,
}

/// The outputs hold so many areas and so many sums.
pub struct Case {
    pub name: &'static str,
    pub layer: Layer,
    pub entries: Vec<(usize, u16)>,
    pub room: [usize; 2],
    pub wanted: Wanted,
}

/// As many drawn edges as kept vertices: the sticks, less those removed.
fn edges(layer: &Layer, entries: &Entries) -> usize {
    let sticks = (0..layer.edge_count()).filter(|&number| layer.is_stick(number));
    let removed = entries.iter().filter(|(_, entry)| is_removed(*entry));
    sticks.count() - removed.count()
}

/// A call that is done, on a layer and in an output of so many areas and one of exactly as
/// many sums as there are: the areas in the order of the contours, and their total.
fn done_on(
    name: &'static str,
    (layer, entries): (Layer, &Entries),
    n: usize,
    areas: &[i64],
    total: i64,
) -> Case {
    let edges = edges(&layer, entries);
    Case {
        name,
        layer,
        entries: entries.to_vec(),
        room: [n, edges],
        wanted: Wanted {
            figures: [0, 0, areas.len() as i64, edges as i64, total],
            areas: areas.to_vec(),
            sums: vec![total; edges.min(1)],
        },
    }
}

fn done(
    name: &'static str,
    (rows, entries): (&str, &Entries),
    n: usize,
    areas: &[i64],
    total: i64,
) -> Case {
    done_on(name, (shown(rows), entries), n, areas, total)
}

/// A call that is refused, with outputs of so many numbers.
pub fn refused(
    name: &'static str,
    (rows, entries): (&str, &Entries),
    room: [usize; 2],
    number: i64,
    place: i64,
) -> Case {
    Case {
        name,
        layer: shown(rows),
        entries: entries.to_vec(),
        room,
        wanted: Wanted {
            figures: [number, place, 0, 0, 0],
            areas: Vec::new(),
            sums: Vec::new(),
        },
    }
}

/// The same entry on all these sticks.
pub fn all_at(sticks: &[usize], entry: u16) -> Vec<(usize, u16)> {
    sticks.iter().map(|&stick| (stick, entry)).collect()
}

/// The single sample's vertices are the ends of two diagonals, of which one lies in a row
/// and the other in a column: twice the area is their product. Its offsets are those on
/// the left, below, on the right and above.
fn single() -> Vec<Case> {
    let at = |name, entries: [u16; 4], area: i64| {
        let entries: Vec<(usize, u16)> = SINGLE_STICKS.into_iter().zip(entries).collect();
        done(name, (SINGLE, &entries), 1, &[area], area)
    };
    vec![
        // 256 × 256
        at("as traced", [128, 128, 128, 128], 65536),
        // (256 + 77 - 179) × (256 + 77 - 179)
        at("after one pass", [179, 179, 77, 77], 23716),
        // 2 × 2
        at("after its tenth pass", [255, 255, 1, 1], 4),
        // 510 × 510
        at("as wide as it gets", [1, 1, 255, 255], 260100),
        // (256 + 200 - 100) × (256 + 30 - 50)
        at("with other offsets", [100, 50, 200, 30], 84016),
        at("with these, pinned", [612, 562, 712, 542], 84016),
        at("with these, two pinned", [100, 562, 200, 542], 84016),
    ]
}

/// A block of m by n samples as traced encloses m × n square pitches but for an eighth at
/// each of its corners: 65536 × (2 × m × n - 1). The bar is one of 3 by 1. Its lower middle
/// vertex at 140 takes away 512 × 12, unless it is removed. Of four vertices kept the
/// diagonals are 768 and 256.
fn bar() -> Vec<Case> {
    let at = |name, entries: &Entries, area: i64| done(name, (BAR, entries), 1, &[area], area);
    let four = all_at(&[13, 15, 18, 20], 384);
    let pinned = [all_at(&[4, 14, 7, 19], 640), four.clone()].concat();
    vec![
        at("bar", &[], 327680),
        at("slid", &[(14, 140)], 321536),
        at("slid and pinned", &[(14, 652)], 321536),
        at("removed", &[(14, 384)], 327680),
        at("slid and removed", &[(14, 396)], 327680),
        at("four kept", &four, 196608),
        at("four kept and pinned", &pinned, 196608),
    ]
}

/// The long bar with four vertices kept, which are those of a parallelogram: its diagonals
/// go by (1536, 0) and by (256, 256), and twice the area is 1536 × 256.
fn long_bar() -> Vec<Case> {
    let four = all_at(&[22, 23, 25, 26, 27, 30, 31, 32, 34, 35], 384);
    let area = 393216;
    vec![done(
        "long bar, four kept",
        (LONG_BAR, &four),
        1,
        &[area],
        area,
    )]
}

/// A block of 2 by 2, its contour 3, 13, 14, 5, 8, 22, 21, 6, is 65536 × 7 as traced. Without
/// its first vertex, or its last, a triangle of 256 × 128 is missing; without every second
/// one from the first on, four of them. Its first vertex slid from 128 to 100 adds one of
/// 28 × 384.
fn block() -> Vec<Case> {
    let rows = ".... .##. .##. ....";
    let at = |name, entries: &Entries, area: i64| done(name, (rows, entries), 1, &[area], area);
    let rest = all_at(&[13, 14, 5, 8, 22, 21, 6], 640);
    vec![
        at("block", &[], 458752),
        at("without its first vertex", &[(3, 384)], 425984),
        at("which was at 1", &[(3, 257)], 425984),
        at("which was at 255", &[(3, 511)], 425984),
        at("and with pins", &[&[(3, 384)], &rest[..]].concat(), 425984),
        at("without its last vertex", &[(6, 384)], 425984),
        at("without four", &all_at(&[3, 14, 8, 21], 384), 327680),
        at("with its first slid", &[(3, 100)], 469504),
        at("with its first pinned", &[(3, 612)], 469504),
    ]
}

/// The same as a bore, its contour 11, 16, 50, 51, 18, 13, 39, 38, in a block of 4 by 4, which
/// is 65536 × 31.
fn bore() -> Vec<Case> {
    let rows = "...... .####. .#..#. .#..#. .####. ......";
    let at = |name, entries: &Entries, area: i64, total: i64| {
        done(name, (rows, entries), 2, &[2031616, area], total)
    };
    let four = all_at(&[11, 50, 18, 39], 384);
    vec![
        at("bore", &[], -458752, 1572864),
        at("bore without its first", &[(11, 384)], -425984, 1605632),
        at("bore without its last", &[(38, 384)], -425984, 1605632),
        at("bore without four", &four, -327680, 1703936),
        at("bore with its first slid", &[(11, 100)], -469504, 1562112),
        at("bore with it pinned", &[(11, 612)], -469504, 1562112),
    ]
}

/// A ring of 3 by 3 samples around one: 65536 × 17, and a diamond as that of the single
/// sample. Its outline as far out as it gets is a square of 1022 without four corners of 255,
/// and as far in one of 514 without four of 1.
fn ring() -> Vec<Case> {
    let (left, right) = ([4, 8, 12], [7, 11, 15]);
    let (below, above) = ([21, 22, 23], [36, 37, 38]);
    let outline = |low, high| {
        [(left, low), (below, low), (right, high), (above, high)]
            .iter()
            .flat_map(|(sticks, entry)| all_at(sticks, *entry))
            .collect::<Vec<(usize, u16)>>()
    };
    // The bore's sticks on the left and below it are 9 and 27.
    let bore = |low, high| [all_at(&[9, 27], low), all_at(&[32, 10], high)].concat();
    let out = [outline(1, 255), bore(255, 1)].concat();
    let within = [outline(255, 1), bore(1, 255)].concat();
    let pinned = all_at(&[&RING_OUTLINE[..], &RING_BORE].concat(), 640);
    let traced: [i64; 2] = [1114112, -65536];
    vec![
        done("ring", (RING, &[]), 2, &traced, 1048576),
        done("ring, pinned", (RING, &pinned), 2, &traced, 1048576),
        done("all out", (RING, &out), 2, &[1828868, -4], 1828864),
        done("all in", (RING, &within), 2, &[528388, -260100], 268288),
        done("a longer output", (RING, &[]), 3, &traced, 1048576),
        done("a long output", (RING, &[]), 40, &traced, 1048576),
        refused("an output one short", (RING, &[]), [1, 16], 14, 0),
        refused("no output", (RING, &[]), [0, 16], 14, 0),
    ]
}

/// Several contours: two samples on a diagonal, two outside ones, which one bore goes
/// around (a rectangle of which the sides go by (128, -128) and by (384, 384)), and a ring of
/// 5 by 5 around 3 by 3, with a sample within and one above, which starts at stick 42. By
/// depth that one would come second.
fn several() -> Vec<Case> {
    let one = ".... ..#. .#.. ....";
    let other = ".... .#.. ..#. ....";
    let joined = "...... .####. .##.#. .#.##. .####. ......";
    let four = |name, entries: &Entries, last: i64, total: i64| {
        let areas = [3211264, -1114112, 65536, last];
        done_on(name, (nested().remove(0), entries), 4, &areas, total)
    };
    vec![
        done("a diagonal", (one, &[]), 2, &[65536, 65536], 131072),
        done("one slid", (one, &[(3, 1)]), 2, &[98048, 65536], 163584),
        done("the other", (other, &[(6, 1)]), 2, &[65536, 98048], 163584),
        done(
            "a bore around two",
            (joined, &[]),
            2,
            &[2031616, -196608],
            1835008,
        ),
        four("four contours", &[], 65536, 2228224),
        // 383 × 256
        four("the last one slid", &[(42, 1)], 98048, 2260736),
        four("the last one pinned", &[(42, 513)], 98048, 2260736),
    ]
}

/// Without a contour nothing is written, and outputs of no number are long enough.
fn no_contour() -> Vec<Case> {
    let blank = ".... .... ....";
    vec![
        done("no contour", (blank, &[]), 0, &[], 0),
        done("no contour, three numbers", (blank, &[]), 3, &[], 0),
        refused("an entry without one", (blank, &[(5, 640)]), [0, 0], 6, 5),
    ]
}

/// Questions 6 and 7 of the table, with outputs that are too short and with ones that are not.
fn tables() -> Vec<Case> {
    let two = ".... ..#. .#.. ....";
    let both = |name, layer: (&str, &Entries), number, place| {
        [[0, 0], [2, 8]].map(|room| refused(name, layer, room, number, place))
    };
    let cases = [
        both("0 on a stick", (SINGLE, &[(2, 0)]), 6, 2),
        both("512 on a stick", (SINGLE, &[(7, 512)]), 6, 7),
        both("640 off sticks", (SINGLE, &[(4, 640)]), 6, 4),
        both("6 before 7", (SINGLE, &[(2, 384), (10, 768)]), 6, 10),
        both("not held", (SINGLE, &[(10, 384)]), 7, 2),
        both("second not held", (two, &[(8, 384)]), 7, 7),
    ];
    cases.into_iter().flatten().collect()
}

pub fn cases() -> Vec<Case> {
    let groups = vec![
        single(),
        bar(),
        long_bar(),
        block(),
        bore(),
        ring(),
        several(),
        no_contour(),
        tables(),
    ];
    groups.into_iter().flatten().collect()
}

/// Number, place and figures, and then the whole outputs, of which all sums but so many are
/// left out.
fn measured(machine: &Machine, room: [usize; 2], sums_seen: usize) -> Vec<i64> {
    let [mut of_contours, mut sums] = room.map(|n| vec![SIGNED_BEFORE; n]);
    let (w, h, bitmap, table) = (machine.w, machine.h, &machine.bitmap, &machine.table);
    let (figures, edges) = match areas(w, h, bitmap, table, &mut of_contours, &mut sums) {
        Ok(done) => {
            let [contours, edges] = [done.contours, done.edges].map(|count| count as i64);
            (vec![0, 0, contours, edges, done.total], done.edges)
        }
        Err(refusal) => {
            let [number, place] = [refusal.number as i64, refusal.place as i64];
            (vec![number, place, 0, 0, 0], 0)
        }
    };
    let from = edges.saturating_sub(sums_seen);
    [&figures, &of_contours, &sums[from..]].concat()
}

/// What `measured` gives if these figures and numbers are right, in outputs that are longer
/// or not.
fn expected(wanted: &Wanted, room: [usize; 2]) -> Vec<i64> {
    let [_, _, contours, edges, _] = wanted.figures;
    let [more_areas, more_sums] = [room[0] - contours as usize, room[1] - edges as usize];
    [
        &wanted.figures[..],
        &wanted.areas,
        &vec![SIGNED_BEFORE; more_areas],
        &wanted.sums,
        &vec![SIGNED_BEFORE; more_sums],
    ]
    .concat()
}

/// A call on a machine against what it should give.
pub fn compared(name: &'static str, machine: &Machine, room: [usize; 2], wanted: &Wanted) -> Check {
    let bits = |numbers: Vec<i64>| -> Vec<u64> { numbers.iter().map(|&n| n as u64).collect() };
    let found = measured(machine, room, wanted.sums.len());
    check(name, &bits(expected(wanted, room)), bits(found))
}

pub fn check_of(case: &Case) -> Check {
    let mut machine = traced(&case.layer);
    for &(number, entry) in &case.entries {
        machine.table[number] = entry;
    }
    compared(case.name, &machine, case.room, &case.wanted)
}

/// Questions 1 to 5, each before 14: the single sample's table, or another length, with
/// outputs of no number.
fn bitmaps() -> Vec<Check> {
    let none = |name, (w, h), bitmap: &[u8], entries: usize, number, place| {
        let mut machine = traced(&shown(SINGLE));
        (machine.w, machine.h, machine.bitmap) = (w, h, bitmap.to_vec());
        machine.table.truncate(entries);
        let wanted = refused(name, (SINGLE, &[]), [0, 0], number, place).wanted;
        compared(name, &machine, [0, 0], &wanted)
    };
    vec![
        none("areas, W 1", (1, 3), &[0, 0, 0], 12, 1, 0),
        none("areas, H 1025", (3, 1025), &[0; 1025], 12, 1, 0),
        none("areas, a byte short", (3, 3), &[0, 2], 12, 2, 0),
        none("areas, a spare bit", (3, 3), &[0, 10, 1], 12, 3, 1),
        none("areas, a border sample", (3, 3), &[0, 3, 0], 12, 4, 3),
        none("areas, an entry short", (3, 3), &[0, 2, 0], 11, 5, 0),
        none("areas, all right but 14", (3, 3), &[0, 2, 0], 12, 14, 0),
    ]
}

/// Squares one in the other, of sides 1022, 1020 down to 2, by turns outlines and bores. With
/// sides 2 × j the total is 65536 times the sum of 8 × j × j - 1, those with an even j taken
/// away: 8 × (511 × 512 / 2) - 1. A square has four vertices for each sample of its side, and
/// all have 4 × 2 × (511 × 512 / 2).
fn squares() -> Vec<Check> {
    let area = |i: i64| {
        let side = 1022 - 2 * i;
        let area = 65536 * (2 * side * side - 1);
        if i % 2 == 0 {
            area
        } else {
            -area
        }
    };
    let total = 68585193472;
    let wanted = Wanted {
        figures: [0, 0, 511, 1046528, total],
        areas: (0..511).map(area).collect(),
        sums: vec![total],
    };
    let largest = wanted.areas[0] as u64;
    let machine = traced(&frames(1024, 1024));
    vec![
        compared("squares", &machine, [512, 1046530], &wanted),
        check("the largest", &[136902541312], vec![largest]),
    ]
}

pub fn checks() -> Vec<Check> {
    let mut checks: Vec<Check> = cases().iter().map(check_of).collect();
    checks.extend(bitmaps());
    checks.extend(squares());
    checks
}
