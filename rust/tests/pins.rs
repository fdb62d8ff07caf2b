//! Pinned vertices: their entries, the command that pins, what each call leaves of a pin, and the sheet.

use puzhenim::{Counts, Layer, Refusal, Simplified, Smoothed, Vertex};

const SINGLE: Layer<'static> = Layer { width: 3, height: 3, bitmap: &[0, 0b010, 0] };
const BAR: Layer<'static> = Layer { width: 5, height: 3, bitmap: &[0, 0b01110, 0] };

/// The sticks in contour order.
const SINGLE_STICKS: [usize; 4] = [2, 7, 3, 10];
const BAR_STICKS: [usize; 8] = [4, 13, 14, 15, 7, 20, 19, 18];

fn traced(layer: Layer) -> Vec<u16> {
    let mut table = layer.new_table();
    layer.trace(&mut table).expect("the layer is good");
    table
}

/// The traced table with the vertices on these sticks pinned, by a roll.
fn pinned(layer: Layer, sticks: &[usize]) -> Vec<u16> {
    let mut table = traced(layer);
    let pins: Vec<Vec<u8>> = sticks.iter().map(|stick| command(b'P', layer, *stick)).collect();
    assert_eq!(layer.roll(&mut table, &ended(&pins), 0), Ok(sticks.len() as u64));
    table
}

/// The table of a layer with these entries on its sticks.
fn table_of(layer: Layer, sticks: &[usize], entries: &[u16]) -> Vec<u16> {
    let mut table = layer.new_table();
    for (stick, entry) in sticks.iter().zip(entries) {
        table[*stick] = *entry;
    }
    table
}

fn single(entries: [u16; 4]) -> Vec<u16> {
    table_of(SINGLE, &SINGLE_STICKS, &entries)
}

fn bar(entries: [u16; 8]) -> Vec<u16> {
    table_of(BAR, &BAR_STICKS, &entries)
}

/// A command that names the stick of this number, without an offset.
fn command(letter: u8, layer: Layer, number: usize) -> Vec<u8> {
    let edge = layer.edge(number).expect("it is in the grid");
    let [column, column_high] = edge.column.to_le_bytes();
    let [row, row_high] = edge.row.to_le_bytes();
    vec![letter, u8::from(edge.vertical), column, column_high, row, row_high]
}

fn slide(layer: Layer, number: usize, offset: u8) -> Vec<u8> {
    let mut slide = command(b'S', layer, number);
    slide.push(offset);
    slide
}

fn ended(commands: &[Vec<u8>]) -> Vec<u8> {
    let mut roll = commands.concat();
    roll.push(b'E');
    roll
}

#[test]
fn entries_of_vertices() {
    let vertices = [513, 640, 767].map(Vertex::of);
    assert_eq!(vertices, [1, 128, 255].map(|offset| Some(Vertex::Pinned(offset))));
    assert_eq!([0, 256, 512, 768, 769, 65535].map(Vertex::of), [None; 6]);
    for (vertex, is_kept, is_pinned) in
        [(Vertex::Kept(9), true, false), (Vertex::Removed(9), false, false), (Vertex::Pinned(9), true, true)]
    {
        assert_eq!((vertex.is_kept(), vertex.is_pinned(), vertex.offset()), (is_kept, is_pinned, 9));
    }
}

#[test]
fn a_pin_is_512_and_the_offset() {
    for tolerance in [0, 255] {
        let mut table = traced(SINGLE);
        assert_eq!(SINGLE.roll(&mut table, b"P\x01\x01\0\0\0E", tolerance), Ok(1));
        assert_eq!(table, single([128, 640, 128, 128]));
    }
    for (offset, entry) in [(1, 513), (255, 767)] {
        let mut table = traced(SINGLE);
        let roll = ended(&[slide(SINGLE, 2, offset), command(b'P', SINGLE, 2)]);
        assert_eq!(SINGLE.roll(&mut table, &roll, 0), Ok(2));
        assert_eq!(table, single([entry, 128, 128, 128]));
    }
}

#[test]
fn a_pin_on_a_pinned_vertex_is_done_and_alters_nothing() {
    let pin = command(b'P', SINGLE, 7);
    let mut table = traced(SINGLE);
    assert_eq!(SINGLE.roll(&mut table, &ended(&[pin.clone(), pin.clone()]), 0), Ok(2));
    assert_eq!(table, single([128, 640, 128, 128]));
    assert_eq!(SINGLE.roll(&mut table, &ended(&[pin]), 0), Ok(1));
    assert_eq!(table, single([128, 640, 128, 128]));
}

#[test]
fn a_pinned_vertex_is_neither_slid_nor_removed() {
    let table = pinned(BAR, &[14]);
    // Without the pin each would be done, but for the slide to 0, which 10 would refuse.
    for edit in [slide(BAR, 14, 129), slide(BAR, 14, 128), slide(BAR, 14, 0), command(b'X', BAR, 14)] {
        let mut edited = table.clone();
        assert_eq!(BAR.roll(&mut edited, &ended(&[edit]), 255), Err(Refusal::VertexPinned { byte: 0, done: 0 }));
        assert_eq!(edited, table);
    }
}

#[test]
fn a_roll_stops_at_a_pin_that_it_made() {
    for edit in [slide(BAR, 14, 7), command(b'X', BAR, 14)] {
        let mut table = traced(BAR);
        let commands = [slide(BAR, 14, 140), command(b'P', BAR, 14), slide(BAR, 4, 9), edit, slide(BAR, 7, 9)];
        let refusal = BAR.roll(&mut table, &ended(&commands), 255).unwrap_err();
        assert_eq!((refusal.number(), refusal.place(), refusal.done()), (16, 7 + 6 + 7, Some(3)));
        assert_eq!(table, bar([9, 128, 512 + 140, 128, 128, 128, 128, 128]));
    }
}

#[test]
fn only_a_kept_vertex_is_pinned() {
    let mut table = traced(BAR);
    let roll = ended(&[command(b'X', BAR, 14), command(b'P', BAR, 14)]);
    assert_eq!(BAR.roll(&mut table, &roll, 0), Err(Refusal::NoKeptVertex { byte: 6, done: 1 }));
    assert_eq!(table, bar([128, 128, 384, 128, 128, 128, 128, 128]));
    // No stick, a column and a row off the grid, and a kind above 1.
    for roll in [b"P\0\0\0\0\0E", b"P\0\x04\0\x01\0E", b"P\x01\x02\0\x02\0E", b"P\x02\x02\0\0\0E"] {
        let mut table = traced(BAR);
        assert_eq!(BAR.roll(&mut table, roll, 255), Err(Refusal::NoKeptVertex { byte: 0, done: 0 }));
        assert_eq!(table, traced(BAR));
    }
}

#[test]
fn a_pinned_vertex_is_a_kept_neighbour() {
    // The edge between the two pinned vertices passes the middle one where it lies.
    let mut table = pinned(BAR, &[13, 15]);
    assert_eq!(BAR.roll(&mut table, &ended(&[command(b'X', BAR, 14)]), 0), Ok(1));
    assert_eq!(table, bar([128, 640, 384, 640, 128, 128, 128, 128]));
    let points = BAR.list(&table).unwrap().contours().concat();
    assert_eq!(points, [(0.5, 1.0), (1.0, 0.5), (3.0, 0.5), (3.5, 1.0), (3.0, 1.5), (2.0, 1.5), (1.0, 1.5)]);
}

#[test]
fn a_layer_of_pinned_vertices_is_held_and_planned_as_a_kept_one() {
    let table = pinned(SINGLE, &SINGLE_STICKS);
    assert_eq!(table, single([640; 4]));
    assert_eq!(SINGLE.counts(&table), Ok(Counts { inside: 1, sticks: 4, contours: 1 }));
    assert_eq!(SINGLE.list(&table), SINGLE.list(&traced(SINGLE)));
    assert_eq!(SINGLE.list(&single([513, 767, 767, 513])), SINGLE.list(&single([1, 255, 255, 1])));
}

#[test]
fn smoothing_skips_a_pinned_vertex() {
    // The segment of each vertex's neighbours meets its stick at the sample, wherever the neighbours are: three go their way of four.
    let smoothed = |limit| {
        let mut table = pinned(SINGLE, &[2]);
        (SINGLE.smooth(&mut table, limit), table)
    };
    let expected = Smoothed { passes: 1, total: 3 * 51, settled: false };
    assert_eq!(smoothed(1), (Ok(expected), single([640, 179, 77, 77])));
    assert_eq!(smoothed(9).0, Ok(Smoothed { passes: 9, total: 3, settled: false }));
    let expected = Smoothed { passes: 10, total: 0, settled: true };
    assert_eq!(smoothed(100), (Ok(expected), single([640, 255, 1, 1])));
}

#[test]
fn smoothing_draws_a_vertex_to_its_pinned_neighbours() {
    // Between neighbours at 255 and 128 the middle vertex is drawn two fifths of the way from 128 to 191 1/2: to 153.4, and so to 153.
    let mut table = bar([512 + 128, 512 + 255, 128, 512 + 128, 512 + 128, 512 + 128, 512 + 128, 512 + 128]);
    assert_eq!(BAR.smooth(&mut table, 1), Ok(Smoothed { passes: 1, total: 25, settled: false }));
    assert_eq!(table, bar([512 + 128, 512 + 255, 153, 512 + 128, 512 + 128, 512 + 128, 512 + 128, 512 + 128]));
}

#[test]
fn pinned_vertices_count_when_a_contour_settles() {
    // One vertex moves by 1: of four vertices that is settled, as 1000 < 4 × 256, and of three it is not.
    let mut table = single([640, 254, 1, 1]);
    assert_eq!(SINGLE.smooth(&mut table, 100), Ok(Smoothed { passes: 1, total: 1, settled: true }));
    assert_eq!(table, single([640, 255, 1, 1]));
}

#[test]
fn a_contour_of_pinned_vertices_gets_one_pass() {
    let table = pinned(SINGLE, &SINGLE_STICKS);
    for (limit, passes, settled) in [(0, 0, false), (1, 1, true), (65535, 1, true)] {
        let mut smoothed = table.clone();
        assert_eq!(SINGLE.smooth(&mut smoothed, limit), Ok(Smoothed { passes, total: 0, settled }));
        assert_eq!(smoothed, table);
    }
}

#[test]
fn simplifying_splits_a_run_with_a_pinned_vertex_inside() {
    // Without the pin the first half of the lower run passes, and takes the vertex on stick 13.
    let mut table = pinned(BAR, &[13]);
    assert_eq!(BAR.simplify(&mut table, 86), Ok(Simplified { removed: 3, tried: 8 }));
    assert_eq!(table, bar([128, 640, 128, 384, 128, 384, 128, 384]));
}

#[test]
fn a_pinned_vertex_at_the_end_of_a_run_lets_it_pass() {
    let mut table = pinned(BAR, &[4, 14, 7, 19]);
    assert_eq!(BAR.simplify(&mut table, 86), Ok(Simplified { removed: 4, tried: 6 }));
    assert_eq!(table, bar([640, 384, 640, 384, 640, 384, 640, 384]));
}

#[test]
fn simplifying_removes_no_pinned_vertex() {
    let mut table = pinned(BAR, &BAR_STICKS);
    assert_eq!(BAR.simplify(&mut table, 255), Ok(Simplified { removed: 0, tried: 14 }));
    assert_eq!(table, bar([640; 8]));
}

#[test]
fn a_pin_stays_through_every_call_but_trace_and_reading() {
    let mut table = traced(BAR);
    BAR.roll(&mut table, &ended(&[slide(BAR, 13, 90), command(b'P', BAR, 13)]), 0).unwrap();
    BAR.smooth(&mut table, 100).unwrap();
    BAR.simplify(&mut table, 255).unwrap();
    let again = ended(&[command(b'P', BAR, 13), command(b'X', BAR, 13)]);
    assert_eq!(BAR.roll(&mut table, &again, 255), Err(Refusal::VertexPinned { byte: 6, done: 1 }));
    assert_eq!(table[13], 512 + 90);
    BAR.trace(&mut table).unwrap();
    assert_eq!(table, traced(BAR));
}

#[test]
fn the_sheet_has_n_for_a_pinned_vertex() {
    let sheet = b"L\x03\0\x03\0C\0\0\0\x01\0K\x80N\x80K\x80K\x80E";
    assert_eq!(SINGLE.sheet(&pinned(SINGLE, &[7])).unwrap(), sheet);
    let table = bar([128, 513, 128, 384, 128, 384, 767, 384]);
    let sheet = b"L\x05\0\x03\0C\0\0\0\x01\0K\x80N\x01K\x80R\x80K\x80R\x80N\xFFR\x80E";
    assert_eq!(BAR.sheet(&table).unwrap(), sheet);
    let mut read = vec![0xABCD; BAR.edges()];
    assert_eq!(BAR.read_sheet(&mut read, sheet), Ok(()));
    assert_eq!(read, table);
}

#[test]
fn a_sheet_pins_the_vertices_that_it_names_and_no_others() {
    let mut table = pinned(SINGLE, &[2, 7]);
    assert_eq!(SINGLE.read_sheet(&mut table, b"L\x03\0\x03\0C\0\0\0\x01\0K\x09K\x08N\x07N\x06E"), Ok(()));
    assert_eq!(table, single([9, 8, 512 + 7, 512 + 6]));
    assert_eq!(SINGLE.read_sheet(&mut table, b"L\x03\0\x03\0C\0\0\0\x01\0K\x09K\x08K\x07K\x06E"), Ok(()));
    assert_eq!(table, single([9, 8, 7, 6]));
    assert_eq!(SINGLE.roll(&mut table, &ended(&[slide(SINGLE, 3, 5)]), 0), Ok(1));
}
