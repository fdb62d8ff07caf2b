//! The calls on the cases of the rules.

use puzhenim::{Counts, Edge, Item, Kind, Layer, Planned, Refusal, Simplified, Smoothed, Vertex};

const SINGLE: Layer<'static> = Layer { width: 3, height: 3, bitmap: &[0, 0b010, 0] };
const BAR: Layer<'static> = Layer { width: 5, height: 3, bitmap: &[0, 0b01110, 0] };
/// A ring around a sample, and a sample above the ring.
const NESTED: Layer<'static> =
    Layer { width: 7, height: 9, bitmap: &[0, 0b0111110, 0b0100010, 0b0101010, 0b0100010, 0b0111110, 0, 0b0000010, 0] };
const EMPTY: Layer<'static> = Layer { width: 4, height: 2, bitmap: &[0, 0] };

fn traced(layer: Layer) -> Vec<u16> {
    let mut table = layer.new_table();
    layer.trace(&mut table).expect("the layer is good");
    table
}

/// The entries of the single sample's four sticks in contour order.
fn entries(table: &[u16]) -> [u16; 4] {
    [table[2], table[7], table[3], table[10]]
}

fn slide(edge: Edge, offset: u8) -> Vec<u8> {
    let mut roll = vec![b'S'];
    roll.extend(stick(edge));
    roll.push(offset);
    roll
}

fn remove(edge: Edge) -> Vec<u8> {
    let mut roll = vec![b'X'];
    roll.extend(stick(edge));
    roll
}

fn stick(edge: Edge) -> Vec<u8> {
    let mut bytes = vec![u8::from(edge.vertical)];
    bytes.extend(edge.column.to_le_bytes());
    bytes.extend(edge.row.to_le_bytes());
    bytes
}

fn ended(commands: &[Vec<u8>]) -> Vec<u8> {
    let mut roll = commands.concat();
    roll.push(b'E');
    roll
}

#[test]
fn a_single_sample_has_four_sticks() {
    let table = traced(SINGLE);
    assert_eq!(table.len(), 12);
    assert_eq!(entries(&table), [128; 4]);
    assert_eq!(table.iter().filter(|entry| **entry != 0).count(), 4);
    assert_eq!(SINGLE.counts(&table), Ok(Counts { inside: 1, sticks: 4, contours: 1 }));
}

#[test]
fn smoothing_a_single_sample() {
    let mut table = traced(SINGLE);
    assert_eq!(SINGLE.smooth(&mut table, 1), Ok(Smoothed { passes: 1, total: 204, settled: false }));
    assert_eq!(entries(&table), [179, 179, 77, 77]);

    let mut table = traced(SINGLE);
    assert_eq!(SINGLE.smooth(&mut table, 9), Ok(Smoothed { passes: 9, total: 4, settled: false }));
    let mut table = traced(SINGLE);
    assert_eq!(SINGLE.smooth(&mut table, 100), Ok(Smoothed { passes: 10, total: 0, settled: true }));
    assert_eq!(entries(&table), [255, 255, 1, 1]);
}

#[test]
fn a_contour_settles_by_itself() {
    // Three of four single samples stand where their tenth pass leaves them. Over the layer the fourth's ninth pass would be settled.
    let four = Layer { width: 5, height: 5, bitmap: &[0, 0b01010, 0, 0b01010, 0] };
    let mut table = traced(four);
    assert_eq!(four.smooth(&mut table, 100), Ok(Smoothed { passes: 10, total: 0, settled: true }));
    let settled = table.clone();
    for stick in [4, 21, 5, 26] {
        table[stick] = 128;
    }
    assert_eq!(four.smooth(&mut table.clone(), 9), Ok(Smoothed { passes: 9, total: 4, settled: false }));
    assert_eq!(four.smooth(&mut table, 100), Ok(Smoothed { passes: 10, total: 0, settled: true }));
    assert_eq!(table, settled);
}

#[test]
fn smoothing_by_no_pass() {
    let mut table = traced(SINGLE);
    assert_eq!(SINGLE.smooth(&mut table, 0), Ok(Smoothed { passes: 0, total: 0, settled: false }));
    assert_eq!(table, traced(SINGLE));
    let mut table = traced(EMPTY);
    assert_eq!(EMPTY.smooth(&mut table, 7), Ok(Smoothed { passes: 0, total: 0, settled: true }));
}

#[test]
fn simplifying_a_single_sample_removes_nothing() {
    let mut table = traced(SINGLE);
    SINGLE.smooth(&mut table, 100).unwrap();
    let before = table.clone();
    assert_eq!(SINGLE.simplify(&mut table, 255), Ok(Simplified { removed: 0, tried: 6 }));
    assert_eq!(table, before);
    let mut table = traced(SINGLE);
    assert_eq!(SINGLE.simplify(&mut table, 255), Ok(Simplified { removed: 0, tried: 6 }));
}

#[test]
fn simplifying_a_bar_compares_the_slide_exactly() {
    let mut table = traced(BAR);
    assert_eq!(BAR.simplify(&mut table, 86), Ok(Simplified { removed: 4, tried: 6 }));
    let removed = table.iter().filter(|entry| matches!(Vertex::of(**entry), Some(Vertex::Removed(128)))).count();
    assert_eq!(removed, 4);
    let mut table = traced(BAR);
    assert_eq!(BAR.simplify(&mut table, 85), Ok(Simplified { removed: 0, tried: 14 }));
}

/// Note 8: "for a layer at most twice the vertices minus twice the contours"; each vertex removed spares two runs.
#[test]
fn a_removed_vertex_spares_two_tries() {
    for (layer, most) in [(SINGLE, 6), (BAR, 14), (NESTED, 72), (EMPTY, 0)] {
        for tolerance in [0, 64, 85, 86, 255] {
            let mut table = traced(layer);
            assert_eq!(layer.counts(&table).unwrap().most_tries(), most);
            let simplified = layer.simplify(&mut table, tolerance).unwrap();
            assert_eq!(simplified.tried + 2 * simplified.removed, most);
        }
    }
    assert_eq!(Counts { inside: 0, sticks: 1, contours: 2 }.most_tries(), 0);
    assert_eq!(Counts { inside: 0, sticks: u64::MAX, contours: 0 }.most_tries(), u64::MAX);
}

/// Note 8: "for each even n from 4 to 12, one held layer with a single contour of n vertices, all kept and slid where needed, that reaches the
/// ceiling at T 0". Rows of one to five samples, slid at every second one.
#[test]
fn slid_rows_reach_the_ceiling() {
    for (samples, tried) in (1..=5).zip([6, 10, 14, 18, 22]) {
        let bitmap = [0, (2 << samples) - 2, 0];
        let layer = Layer { width: samples + 2, height: 3, bitmap: &bitmap };
        let mut table = traced(layer);
        let slides = |column| [0, 1].map(|row| slide(Edge { vertical: true, column, row }, 100)).concat();
        let roll: Vec<Vec<u8>> = (2..=samples).step_by(2).map(slides).collect();
        assert_eq!(layer.roll(&mut table, &ended(&roll), 0), Ok(u64::from(samples / 2 * 2)));
        assert_eq!(layer.simplify(&mut table, 0), Ok(Simplified { removed: 0, tried }));
    }
}

#[test]
fn a_slid_vertex_is_removed_within_the_tolerance() {
    let middle = Edge { vertical: true, column: 2, row: 0 };
    let mut table = traced(BAR);
    assert_eq!(BAR.roll(&mut table, &ended(&[slide(middle, 140)]), 0), Ok(1));
    let slid = table.clone();
    assert_eq!(BAR.roll(&mut table, &ended(&[remove(middle)]), 12), Ok(1));
    assert_eq!(table.iter().filter(|entry| **entry == 256 + 140).count(), 1);

    let mut table = slid.clone();
    let refused = BAR.roll(&mut table, &ended(&[remove(middle)]), 11);
    assert_eq!(refused, Err(Refusal::BeyondTolerance { byte: 0, done: 0 }));
    assert_eq!(table, slid);
}

#[test]
fn diagonal_samples_are_apart() {
    for bitmap in [[0, 0b0010, 0b0100, 0], [0, 0b0100, 0b0010, 0]] {
        let layer = Layer { width: 4, height: 4, bitmap: &bitmap };
        let table = traced(layer);
        assert_eq!(layer.counts(&table), Ok(Counts { inside: 2, sticks: 8, contours: 2 }));
        let lengths: Vec<usize> = layer.list(&table).unwrap().contours().iter().map(Vec::len).collect();
        assert_eq!(lengths, [4, 4]);
    }
}

#[test]
fn a_slide_to_0_is_refused_and_to_255_done() {
    let edge = SINGLE.edge(2).unwrap();
    let mut table = traced(SINGLE);
    let refused = SINGLE.roll(&mut table, &ended(&[slide(edge, 0)]), 255);
    assert_eq!(refused, Err(Refusal::BadOffset { byte: 0, done: 0 }));
    assert_eq!(SINGLE.roll(&mut table, &ended(&[slide(edge, 255)]), 255), Ok(1));
    assert_eq!(entries(&table), [255, 128, 128, 128]);
}

#[test]
fn a_roll_stops_partway() {
    let edge = SINGLE.edge(2).unwrap();
    let mut table = traced(SINGLE);
    let refused = SINGLE.roll(&mut table, &ended(&[slide(edge, 9), slide(edge, 8), remove(edge)]), 255).unwrap_err();
    assert_eq!((refused.number(), refused.place(), refused.done()), (11, 14, Some(2)));
    assert_eq!(entries(&table), [8, 128, 128, 128]);
}

#[test]
fn the_last_three_kept_vertices_stay() {
    let block = Layer { width: 4, height: 4, bitmap: &[0, 0b0110, 0b0110, 0] };
    let mut table = traced(block);
    let sticks: Vec<usize> = (0..table.len()).filter(|number| table[*number] != 0).collect();
    let last = loop {
        let tried = sticks.iter().map(|number| block.roll(&mut table, &ended(&[remove(block.edge(*number).unwrap())]), 255));
        let answers: Vec<Result<u64, Refusal>> = tried.collect();
        if answers.iter().all(Result::is_err) {
            break answers;
        }
    };
    assert!(last.iter().all(|answer| matches!(answer.unwrap_err().number(), 9 | 11 | 12 | 13)));
    assert!(table.iter().filter_map(|entry| Vertex::of(*entry)).filter(Vertex::is_kept).count() >= 3);
}

#[test]
fn an_end_alone_does_nothing() {
    let mut table = traced(SINGLE);
    assert_eq!(SINGLE.roll(&mut table, b"E", 0), Ok(0));
    assert_eq!(SINGLE.roll(&mut table, b"", 0), Err(Refusal::Malformed { byte: 0 }));
    assert_eq!(table, traced(SINGLE));
}

#[test]
fn a_sheet_is_read_as_it_was_written() {
    let mut table = traced(BAR);
    BAR.smooth(&mut table, 100).unwrap();
    BAR.simplify(&mut table, 64).unwrap();
    let sheet = BAR.sheet(&table).unwrap();
    assert_eq!(sheet.len(), 6 + 6 + 2 * 8);
    let mut read = vec![0xABCD; BAR.edges()];
    assert_eq!(BAR.read_sheet(&mut read, &sheet), Ok(()));
    assert_eq!(read, table);
}

#[test]
fn outputs_past_the_answer_stay() {
    let table = traced(SINGLE);
    let mut sheet = [7; 22];
    assert_eq!(SINGLE.write_sheet(&table, &mut sheet), Ok(20));
    assert_eq!(sheet[20..], [7, 7]);
    let (mut items, mut points) = ([7; 6], [7.0; 9]);
    assert_eq!(SINGLE.plan(&table, &mut items, &mut points), Ok(Planned { items: 5, floats: 8 }));
    assert_eq!((items[5], points[8]), (7, 7.0));
}

#[test]
fn the_list_goes_round_with_inside_on_the_left() {
    let table = traced(SINGLE);
    let items: Vec<Item> = SINGLE.list(&table).unwrap().iter().collect();
    let expected = [
        Item::Move { x: 0.5, y: 1.0 },
        Item::Line { x: 1.0, y: 0.5 },
        Item::Line { x: 1.5, y: 1.0 },
        Item::Line { x: 1.0, y: 1.5 },
        Item::Close,
    ];
    assert_eq!(items, expected);
}

#[test]
fn contours_come_by_depth_and_first_stick() {
    let table = traced(NESTED);
    let firsts = |table: &[u16]| -> Vec<(f64, f64)> { NESTED.list(table).unwrap().contours().iter().map(|contour| contour[0]).collect() };
    assert_eq!(firsts(&table), [(0.5, 1.0), (0.5, 7.0), (1.5, 2.0), (2.5, 3.0)]);
    // With the first vertex of the bore removed, its move leads to the next one.
    let mut edited = table;
    let bore = Edge { vertical: false, column: 1, row: 2 };
    assert_eq!(NESTED.roll(&mut edited, &ended(&[remove(bore)]), 255), Ok(1));
    assert_eq!(firsts(&edited), [(0.5, 1.0), (0.5, 7.0), (1.5, 3.0), (2.5, 3.0)]);
}

#[test]
fn kinds_are_in_the_order_of_the_list() {
    use Kind::{Bore, Outline};
    assert_eq!(NESTED.kinds(), Ok(vec![Outline, Outline, Bore, Outline]));
    assert_eq!(SINGLE.kinds(), Ok(vec![Outline]));
    assert_eq!(EMPTY.kinds(), Ok(vec![]));
    // Samples on a diagonal are outlines of their own, in a bore too; outside is joined over a corner, so that this ring is open.
    let touching = Layer { width: 6, height: 6, bitmap: &[0, 0b011110, 0b010010, 0b010010, 0b001110, 0] };
    assert_eq!(touching.kinds(), Ok(vec![Outline]));
    let bore = Layer { width: 8, height: 8, bitmap: &[0, 0x7E, 0x42, 0x4A, 0x52, 0x42, 0x7E, 0] };
    assert_eq!(bore.kinds(), Ok(vec![Outline, Bore, Outline, Outline]));
}

/// Twice the signed area of a contour, in samples.
fn area(points: &[(f64, f64)]) -> f64 {
    let after = points.iter().cycle().skip(1);
    points.iter().zip(after).map(|(p, q)| p.0 * q.1 - q.0 * p.1).sum()
}

#[test]
fn outlines_go_counter_clockwise_and_bores_clockwise() {
    let bitmap: Vec<u8> = (0..32).map(|row: u8| if row % 31 == 0 { 0 } else { row.wrapping_mul(73) & 0x7E }).collect();
    for layer in [NESTED, SINGLE, BAR, Layer { width: 8, height: 32, bitmap: &bitmap }] {
        let mut table = traced(layer);
        layer.smooth(&mut table, 3).unwrap();
        layer.simplify(&mut table, 64).unwrap();
        let kinds: Vec<Kind> = layer.list(&table).unwrap().contours().iter().map(|points| kind_by_area(points)).collect();
        assert_eq!(layer.kinds(), Ok(kinds));
    }
}

fn kind_by_area(points: &[(f64, f64)]) -> Kind {
    match area(points) > 0.0 {
        true => Kind::Outline,
        false => Kind::Bore,
    }
}

#[test]
fn a_sample_off_the_grid_is_outside() {
    let asked = [(1, 1), (0, 1), (3, 1), (1, 3), (65535, 65535)];
    let samples: Vec<bool> = asked.iter().map(|(c, r)| SINGLE.sample(*c, *r).unwrap()).collect();
    assert_eq!(samples, [true, false, false, false, false]);
}

#[test]
fn edges_have_the_numbers_of_the_rules() {
    let layer = Layer { width: 5, height: 3, bitmap: &[] };
    for number in 0..layer.edges() {
        let edge = layer.edge(number).unwrap();
        let (c, r) = (usize::from(edge.column), usize::from(edge.row));
        assert_eq!(number, if edge.vertical { 3 * 4 + r * 5 + c } else { r * 4 + c });
    }
    assert_eq!(layer.edge(layer.edges()), None);
    assert_eq!(Layer { width: 0, height: 0, bitmap: &[] }.edges(), 0);
}
