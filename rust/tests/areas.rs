//! The areas that contours enclose, by geometry: what a rectangle, a triangle and a quadrilateral with perpendicular diagonals have. Which contour
//! is which, in the order of the sheet and in that of the list. The sums from stick to stick, by hand and against
//! the list.

use puzhenim::{Area, Areas, Edge, Kind, Layer, Measured, Refusal};

const SINGLE: Layer<'static> = Layer { width: 3, height: 3, bitmap: &[0, 0b010, 0] };
const BAR: Layer<'static> = Layer { width: 5, height: 3, bitmap: &[0, 0b01110, 0] };
/// Eight samples around one that is outside.
const RING: Layer<'static> = Layer { width: 5, height: 5, bitmap: &[0, 0b01110, 0b01010, 0b01110, 0] };
/// A ring around a sample, and a sample above the ring.
const NESTED: Layer<'static> =
    Layer { width: 7, height: 9, bitmap: &[0, 0b0111110, 0b0100010, 0b0101010, 0b0100010, 0b0111110, 0, 0b0000010, 0] };
const EMPTY: Layer<'static> = Layer { width: 4, height: 2, bitmap: &[0, 0] };

/// The sticks of the single sample and of the bar in contour order, and those of the ring's bore: west, south, east and north of a sample.
const SINGLE_STICKS: [usize; 4] = [2, 7, 3, 10];
const BAR_STICKS: [usize; 8] = [4, 13, 14, 15, 7, 20, 19, 18];
const BORE_STICKS: [usize; 4] = [9, 27, 10, 32];

/// Half a square sample.
const HALF: i64 = 65_536;

fn traced(layer: Layer) -> Vec<u16> {
    let mut table = layer.new_table();
    layer.trace(&mut table).expect("the layer is good");
    table
}

/// The traced table with these entries on the sticks.
fn with(layer: Layer, sticks: &[usize], entries: &[u16]) -> Vec<u16> {
    let mut table = traced(layer);
    for (stick, entry) in sticks.iter().zip(entries) {
        table[*stick] = *entry;
    }
    table
}

fn areas(layer: Layer, table: &[u16]) -> Areas {
    layer.areas(table).expect("the layer is held")
}

/// The numbers of the contours, if the total is their sum and the last sum.
fn numbers(layer: Layer, table: &[u16]) -> Vec<i64> {
    let areas = areas(layer, table);
    let numbers: Vec<i64> = areas.contours.iter().map(|area| area.0).collect();
    assert_eq!(areas.total, Area(numbers.iter().sum()));
    assert_eq!(areas.total, areas.sums.last().map_or(Area(0), |last| last.after));
    numbers
}

/// The sticks of the sums, and the sums.
fn sums(layer: Layer, table: &[u16]) -> Vec<(usize, i64)> {
    areas(layer, table).sums.iter().map(|sum| (sum.stick, sum.after.0)).collect()
}

/// An eighth of a square sample: what a product is in if both points are in half pitches.
const EIGHTH: i64 = 16_384;

fn in_eighths(sums: &[(usize, i64)]) -> Vec<(usize, i64)> {
    sums.iter().map(|(stick, eighths)| (*stick, eighths * EIGHTH)).collect()
}

#[test]
fn a_traced_sample_from_stick_to_stick() {
    // In half pitches the vertices are (1, 2) on stick 2, (3, 2) on 3, (2, 1) on 7 and (2, 3) on 10; the contour goes 2, 7, 3, 10.
    // From 2 to 7 an edge adds 1 × 1 - 2 × 2 = -3, from 3 to 10 it adds 3 × 3 - 2 × 2 = 5, from 7 to 3 2 × 2 - 3 × 1 = 1, from 10 to 2
    // 2 × 2 - 1 × 3 = 1.
    let expected = in_eighths(&[(2, -3), (3, -3 + 5), (7, -3 + 5 + 1), (10, -3 + 5 + 1 + 1)]);
    assert_eq!(expected, [(2, -49_152), (3, 32_768), (7, 49_152), (10, 65_536)]);
    assert_eq!(sums(SINGLE, &traced(SINGLE)), expected);
    // Pinned vertices are kept ones.
    assert_eq!(sums(SINGLE, &with(SINGLE, &SINGLE_STICKS, &[640; 4])), expected);
}

#[test]
fn a_ring_and_its_bore_from_stick_to_stick() {
    // In half pitches the outline goes (1, 2), (2, 1), (4, 1), (6, 1), (7, 2), (7, 4), (7, 6), (6, 7), (4, 7), (2, 7), (1, 6), (1, 4), and the
    // bore (3, 4), (4, 5), (5, 4), (4, 3). By the numbers of their sticks the edges add
    let added = [
        (4, -3), // from (1, 2)
        (7, 14),
        (8, -2),  // from (1, 4)
        (9, -1),  // from (3, 4) on the bore
        (10, -1), // from (5, 4) on the bore
        (11, 14),
        (12, -2),
        (15, 13),
        (21, -2), // from (2, 1)
        (22, -2),
        (23, 5),
        (27, 7),  // from (4, 3) on the bore
        (32, -9), // from (4, 5) on the bore
        (36, 5),  // from (2, 7)
        (37, 14),
        (38, 14),
    ];
    let after = [-3, 11, 9, 8, 7, 21, 19, 32, 30, 28, 33, 40, 31, 36, 50, 64];
    let running: Vec<i64> = (1..=added.len()).map(|count| added[..count].iter().map(|(_, eighths)| eighths).sum()).collect();
    assert_eq!(running, after);
    let expected: Vec<(usize, i64)> = added.iter().zip(after).map(|((stick, _), eighths)| (*stick, eighths)).collect();
    assert_eq!(sums(RING, &traced(RING)), in_eighths(&expected));
}

#[test]
fn removed_and_pinned_vertices_from_stick_to_stick() {
    // In half pitches the bar's vertices are (1, 2), (2, 1), (4, 1), (6, 1), (7, 2), (6, 3), (4, 3), (2, 3). Without the third, wherever it last
    // was, the edge from (2, 1) on stick 13 ends at (6, 1) and adds 2 - 6 = -4.
    for removed in [257, 384, 511] {
        let table = with(BAR, &BAR_STICKS, &[128, 128, removed, 128, 128, 128, 512 + 128, 128]);
        assert_eq!(sums(BAR, &table), in_eighths(&[(4, -3), (7, 6), (13, 2), (15, 7), (18, 8), (19, 14), (20, 20)]));
    }
    // The four that are left go (1, 2), (4, 1), (7, 2), (4, 3).
    let mut table = traced(BAR);
    assert_eq!(BAR.simplify(&mut table, 86).unwrap().removed, 4);
    assert_eq!(sums(BAR, &table), in_eighths(&[(4, -7), (7, 6), (14, 7), (19, 12)]));
}

#[test]
fn a_traced_sample_encloses_half_a_square() {
    let traced = areas(SINGLE, &traced(SINGLE));
    assert_eq!((traced.contours, traced.total), (vec![Area(65_536)], Area(65_536)));
    assert_eq!(traced.total.square_samples(), 0.5);
}

#[test]
fn a_single_sample_by_its_diagonals() {
    // The diagonals are 256 + east - west and 256 + north - south, and their product is twice the area.
    let cases = [
        ([128, 128, 128, 128], 256 * 256),
        ([179, 179, 77, 77], 154 * 154),
        ([255, 255, 1, 1], 4),
        ([1, 1, 255, 255], 510 * 510),
        ([255, 1, 1, 255], 2 * 510),
        ([10, 200, 30, 7], 276 * 63),
    ];
    for (offsets, expected) in cases {
        assert_eq!(numbers(SINGLE, &with(SINGLE, &SINGLE_STICKS, &offsets)), [expected]);
        // Pinned vertices are kept ones.
        let pinned = offsets.map(|offset| 512 + offset);
        assert_eq!(numbers(SINGLE, &with(SINGLE, &SINGLE_STICKS, &pinned)), [expected]);
        let mixed = [pinned[0], offsets[1], pinned[2], offsets[3]];
        assert_eq!(numbers(SINGLE, &with(SINGLE, &SINGLE_STICKS, &mixed)), [expected]);
    }
}

#[test]
fn a_bar_from_its_kept_vertices() {
    let number = |entries: [u16; 8]| numbers(BAR, &with(BAR, &BAR_STICKS, &entries))[0];
    // A rectangle of 2 by 1 and two triangles of base 1 and height 1/2.
    assert_eq!(number([128; 8]), 5 * HALF);
    // The lower middle vertex 12/256 higher takes away a triangle of base 2 and that height.
    let triangle = 2 * 256 * 12;
    assert_eq!(number([128, 128, 140, 128, 128, 128, 128, 128]), 5 * HALF - triangle);
    assert_eq!(number([128, 128, 512 + 140, 128, 128, 128, 128, 128]), 5 * HALF - triangle);
    // Removed, it has no say, wherever it last was.
    assert_eq!(number([128, 128, 256 + 140, 128, 128, 128, 128, 128]), 5 * HALF);
    assert_eq!(number([128, 128, 256 + 1, 128, 128, 128, 128, 128]), 5 * HALF);
}

#[test]
fn a_simplified_bar() {
    // Left over is a quadrilateral with diagonals of 3 and 1.
    let mut table = traced(BAR);
    assert_eq!(BAR.simplify(&mut table, 86).unwrap().removed, 4);
    assert_eq!(numbers(BAR, &table), [3 * HALF]);
    // A pin keeps the vertex at (1, 1/2), and so a triangle over the edge from (1/2, 1) to (2, 1/2): base 1 along y = 1/2, height 1/2.
    let mut table = with(BAR, &BAR_STICKS[1..2], &[512 + 128]);
    assert_eq!(BAR.simplify(&mut table, 86).unwrap().removed, 3);
    assert_eq!(numbers(BAR, &table), [3 * HALF + HALF / 2]);
}

#[test]
fn an_edit_alters_the_area_of_its_contour_alone() {
    let mut table = traced(NESTED);
    let before = numbers(NESTED, &table);
    // The west vertex of the inner sample goes to 1: its diagonal grows by 127.
    assert_eq!(NESTED.roll(&mut table, b"S\0\x02\0\x03\0\x01E", 0), Ok(1));
    assert_eq!(numbers(NESTED, &table), [before[0], before[1], 383 * 256, before[3]]);
}

#[test]
fn a_bore_is_below_0() {
    // A square of side 3 without four corners, each a triangle with legs of 1/2; the bore is a traced sample.
    let traced = areas(RING, &traced(RING));
    assert_eq!((&traced.contours[..], traced.total), (&[Area(17 * HALF), Area(-HALF)][..], Area(16 * HALF)));
    assert_eq!(traced.contours.iter().map(|area| area.square_samples()).collect::<Vec<f64>>(), [8.5, -0.5]);
    for (offsets, bore) in [([1, 1, 255, 255], -510 * 510), ([255, 255, 1, 1], -4), ([10, 200, 30, 7], -276 * 63)] {
        assert_eq!(numbers(RING, &with(RING, &BORE_STICKS, &offsets)), [17 * HALF, bore]);
    }
}

#[test]
fn diagonal_samples_and_diagonal_bores() {
    for bitmap in [[0, 0b0010, 0b0100, 0], [0, 0b0100, 0b0010, 0]] {
        let layer = Layer { width: 4, height: 4, bitmap: &bitmap };
        assert_eq!(numbers(layer, &traced(layer)), [HALF, HALF]);
    }
    // Outside is joined over the corner: one bore, a rectangle whose sides are the diagonals of squares of side 1/2 and 3/2.
    for bitmap in [[0, 0b011110, 0b011010, 0b010110, 0b011110, 0], [0, 0b011110, 0b010110, 0b011010, 0b011110, 0]] {
        let layer = Layer { width: 6, height: 6, bitmap: &bitmap };
        assert_eq!(numbers(layer, &traced(layer)), [31 * HALF, -3 * HALF]);
    }
}

#[test]
fn areas_are_in_the_order_of_the_sheet() {
    // Squares of side 5, 3, 1 and 1 without their corners. The list has the sample above the ring second.
    let table = traced(NESTED);
    let nested = areas(NESTED, &table);
    assert_eq!(numbers(NESTED, &table), [49 * HALF, -17 * HALF, HALF, HALF]);
    let sums = [nested.sum_of(Kind::Outline), nested.sum_of(Kind::Bore), nested.total];
    assert_eq!(sums, [51, -17, 34].map(|halves| Area(halves * HALF)));
    let firsts: Vec<(u16, u16)> = NESTED.first_sticks().unwrap().iter().map(|first| (first.column, first.row)).collect();
    assert_eq!(firsts, [(0, 1), (1, 2), (2, 3), (0, 7)]);
    assert_eq!(NESTED.list_order(), Ok(vec![0, 3, 1, 2]));
    let kinds: Vec<Option<Kind>> = nested.contours.iter().map(|area| area.kind()).collect();
    assert_eq!(kinds, [Some(Kind::Outline), Some(Kind::Bore), Some(Kind::Outline), Some(Kind::Outline)]);
}

#[test]
fn first_sticks_are_those_of_the_sheet() {
    for layer in [SINGLE, BAR, RING, NESTED, EMPTY] {
        let table = traced(layer);
        let sheet = layer.sheet(&table).unwrap();
        // No offset is a C, so that each C begins a contour.
        let starts = (0..sheet.len()).filter(|at| sheet[*at] == b'C');
        let first = |at: usize| Edge { vertical: sheet[at + 1] == 1, column: sheet[at + 2].into(), row: sheet[at + 4].into() };
        assert_eq!(layer.first_sticks(), Ok(starts.map(first).collect()));
    }
}

#[test]
fn a_layer_without_contours() {
    assert_eq!(areas(EMPTY, &traced(EMPTY)), Areas::default());
    assert_eq!(EMPTY.measure(&traced(EMPTY), &mut [], &mut []), Ok(Measured { contours: 0, edges: 0, total: Area(0) }));
    assert_eq!((EMPTY.first_sticks(), EMPTY.list_order()), (Ok(vec![]), Ok(vec![])));
}

#[test]
fn numbers_past_the_answers_stay() {
    let (mut lent, mut sums) = ([7; 6], [7; 42]);
    assert_eq!(NESTED.measure(&traced(NESTED), &mut lent, &mut sums), Ok(Measured { contours: 4, edges: 40, total: Area(34 * HALF) }));
    assert_eq!(lent, [49 * HALF, -17 * HALF, HALF, HALF, 7, 7]);
    assert_eq!(sums[39..], [34 * HALF, 7, 7]);
}

#[test]
fn the_largest_contour() {
    let row: Vec<u8> = (0..128).map(|byte| if byte == 0 { 0xFE } else { 0xFF >> u8::from(byte == 127) }).collect();
    let bitmap = [vec![0; 128], row.repeat(1022), vec![0; 128]].concat();
    let layer = Layer { width: 1024, height: 1024, bitmap: &bitmap };
    let mut table = traced(layer);
    // A square of side 1,022 without its corners.
    assert_eq!(numbers(layer, &table), [(2 * 1022 * 1022 - 1) * HALF]);
    // As far out as vertices go: from 1/256 to 1,022 255/256, its corners with legs of 255/256.
    for (number, entry) in table.iter_mut().enumerate().filter(|(_, entry)| **entry != 0) {
        let edge = layer.edge(number).unwrap();
        *entry = if edge.column == 0 || edge.row == 0 { 1 } else { 255 };
    }
    assert_eq!(numbers(layer, &table), [2 * 261_886 * 261_886 - 4 * 255 * 255]);
    assert_eq!(areas(layer, &table).total.square_samples() * 131_072.0, 137_168_293_892.0);
}

const SCATTERED: [(u16, u16); 4] = [(13, 100), (24, 300), (40, 40), (101, 27)];

/// The bitmap of a layer of such sides, about three of four samples inside, its border outside.
fn scattered((width, height): (u16, u16)) -> Vec<u8> {
    let stride = (usize::from(width) + 7) / 8;
    let mut bytes = vec![0; usize::from(height) * stride];
    let mut state: u32 = 1;
    for row in 1..usize::from(height) - 1 {
        for column in 1..usize::from(width) - 1 {
            state = state.wrapping_mul(1_664_525).wrapping_add(1_013_904_223);
            bytes[row * stride + column / 8] |= u8::from(state >> 30 != 0) << (column % 8);
        }
    }
    bytes
}

#[test]
fn a_traced_layer_by_its_samples() {
    // A link around one inside corner of a cell leaves out an eighth of a square of that sample's own, one around three takes in an eighth. An
    // outline has four more of the former, a bore four more of the latter.
    for sides in SCATTERED {
        let layer = Layer { width: sides.0, height: sides.1, bitmap: &scattered(sides) };
        let table = traced(layer);
        let inside = layer.counts(&table).unwrap().inside as i64;
        let kinds = layer.kinds().unwrap();
        let bores = kinds.iter().filter(|kind| **kind == Kind::Bore).count() as i64;
        let outlines = kinds.len() as i64 - bores;
        assert!(bores > 1 && outlines > 1);
        assert_eq!(areas(layer, &table).total, Area(HALF * (2 * inside - outlines + bores)));
    }
}

type Point = (i64, i64);

/// The edges of a polygon, x and y in samples: where each starts in 1/256 of the pitch, and what it adds.
fn edges(points: &[(f64, f64)]) -> Vec<(Point, i64)> {
    let fine: Vec<Point> = points.iter().map(|(x, y)| ((x * 256.0) as i64, (y * 256.0) as i64)).collect();
    let after = fine.iter().cycle().skip(1);
    fine.iter().zip(after).map(|(p, q)| (*p, p.0 * q.1 - q.0 * p.1)).collect()
}

/// Twice the signed area of a polygon, x and y in samples.
fn doubled(points: &[(f64, f64)]) -> i64 {
    edges(points).iter().map(|(_, added)| added).sum()
}

/// The number of the stick that a point lies strictly inside.
fn stick_at(layer: Layer, (x, y): Point) -> usize {
    let (w, h) = (usize::from(layer.width), usize::from(layer.height));
    let (column, row) = (x as usize / 256, y as usize / 256);
    match x % 256 {
        0 => (w - 1) * h + row * w + column,
        _ => row * (w - 1) + column,
    }
}

/// The sums by the list's polygons.
fn listed_sums(layer: Layer, table: &[u16]) -> Vec<(usize, i64)> {
    let contours = layer.list(table).unwrap().contours();
    let mut edges: Vec<(usize, i64)> =
        contours.iter().flat_map(|points| edges(points)).map(|(start, added)| (stick_at(layer, start), added)).collect();
    edges.sort_unstable();
    let mut sum = 0;
    edges.iter_mut().for_each(|(_, number)| {
        sum += *number;
        *number = sum;
    });
    edges
}

#[test]
fn areas_are_those_of_the_list_and_tell_the_kinds() {
    for sides in SCATTERED {
        let layer = Layer { width: sides.0, height: sides.1, bitmap: &scattered(sides) };
        let mut table = traced(layer);
        for (number, entry) in table.iter_mut().enumerate().filter(|(_, entry)| **entry != 0) {
            *entry = (number * 89 % 255 + 1) as u16 + if number % 7 == 0 { 512 } else { 0 };
        }
        for tolerance in [None, Some(40), Some(255)] {
            let mut simplified = table.clone();
            let removed = tolerance.map_or(0, |tolerance| layer.simplify(&mut simplified, tolerance).unwrap().removed);
            assert_eq!(removed > 0, tolerance.is_some());
            let by_list: Vec<i64> = layer.list(&simplified).unwrap().contours().iter().map(|points| doubled(points)).collect();
            assert_eq!(sums(layer, &simplified), listed_sums(layer, &simplified));
            let areas = areas(layer, &simplified);
            let listed: Vec<Area> = layer.list_order().unwrap().iter().map(|place| areas.contours[*place]).collect();
            assert_eq!(listed.iter().map(|area| area.0).collect::<Vec<i64>>(), by_list);
            assert_eq!(listed.iter().map(|area| area.kind()).collect::<Option<Vec<Kind>>>(), Some(layer.kinds().unwrap()));
        }
    }
}

#[test]
fn questions_are_put_in_their_order() {
    let sides = Layer { width: 1, height: 3, bitmap: &[0xFF] };
    let length = Layer { width: 3, height: 3, bitmap: &[0xFF] };
    let spare = Layer { width: 3, height: 3, bitmap: &[0, 0b1110, 0] };
    let border = Layer { width: 3, height: 3, bitmap: &[0, 0b0110, 0] };
    let mut not_held = traced(SINGLE);
    not_held[7] += 256;
    let mut wrong = not_held.clone();
    wrong[0] = 9;
    // Of each, what later questions ask about is wrong too, with no room in the outputs.
    let cases: [(Layer, &[u16], Refusal); 8] = [
        (sides, &[9], Refusal::BadSides),
        (length, &[9], Refusal::BitmapLength),
        (spare, &[9], Refusal::SpareBits { byte: 1 }),
        (border, &[9], Refusal::BorderInside { sample: 5 }),
        (SINGLE, &wrong[..11], Refusal::TableLength),
        (SINGLE, &wrong, Refusal::WrongEntry { entry: 0 }),
        (SINGLE, &not_held, Refusal::NotHeld { stick: 2 }),
        (SINGLE, &traced(SINGLE), Refusal::ShortOutput),
    ];
    for (number, (layer, table, refusal)) in [1, 2, 3, 4, 5, 6, 7, 14].into_iter().zip(cases) {
        assert_eq!((layer.measure(table, &mut [], &mut []), refusal.number()), (Err(refusal), number));
        let (mut areas, mut sums) = ([7; 4], [7; 9]);
        if number < 14 {
            assert_eq!((layer.measure(table, &mut areas, &mut sums), layer.areas(table)), (Err(refusal), Err(refusal)));
        }
        assert_eq!((areas, sums), ([7; 4], [7; 9]));
    }
}

#[test]
fn one_number_too_few_in_either_output_is_refused() {
    let table = traced(NESTED);
    for (contours, edges) in [(3, 40), (4, 39), (3, 39), (0, 40), (4, 0)] {
        let (mut areas, mut sums) = (vec![7; contours], vec![7; edges]);
        assert_eq!(NESTED.measure(&table, &mut areas, &mut sums), Err(Refusal::ShortOutput));
        assert_eq!((areas, sums), (vec![7; contours], vec![7; edges]));
    }
    let measured = NESTED.measure(&table, &mut [0; 4], &mut [0; 40]);
    assert_eq!(measured.map(|measured| (measured.contours, measured.edges)), Ok((4, 40)));
}
