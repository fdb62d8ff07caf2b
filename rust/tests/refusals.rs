//! Each question answered no, with its place and its words.

use puzhenim::{Layer, Refusal};

const SINGLE: Layer<'static> = Layer { width: 3, height: 3, bitmap: &[0, 0b010, 0] };
const BAR: Layer<'static> = Layer { width: 5, height: 3, bitmap: &[0, 0b01110, 0] };

fn traced(layer: Layer) -> Vec<u16> {
    let mut table = layer.new_table();
    layer.trace(&mut table).expect("the layer is good");
    table
}

/// A call that is refused leaves the table as it was.
fn refused<T>(table: &[u16], call: impl FnOnce(&mut [u16]) -> Result<T, Refusal>) -> Refusal {
    let mut lent = table.to_vec();
    let refusal = call(&mut lent).err().expect("the call is refused");
    assert_eq!(lent, table);
    refusal
}

#[test]
fn sides() {
    for (width, height) in [(1, 3), (3, 1), (1025, 3), (3, 1025), (0, 0), (65535, 65535)] {
        let layer = Layer { width, height, bitmap: &[0; 3] };
        assert_eq!(refused(&[], |table| layer.trace(table)), Refusal::BadSides);
    }
    let bitmap = [0; 1024 * 128];
    let largest = Layer { width: 1024, height: 1024, bitmap: &bitmap };
    assert_eq!(largest.trace(&mut largest.new_table()), Ok(()));
}

#[test]
fn bitmap() {
    for bitmap in [&[0, 2][..], &[0, 2, 0, 0], &[]] {
        let layer = Layer { width: 3, height: 3, bitmap };
        assert_eq!(layer.sample(0, 0), Err(Refusal::BitmapLength));
    }
    let layer = Layer { width: 3, height: 3, bitmap: &[0, 0b1010, 0] };
    assert_eq!(layer.sample(1, 1), Err(Refusal::SpareBits { byte: 1 }));
    let layer = Layer { width: 3, height: 3, bitmap: &[0, 0b110, 0] };
    assert_eq!(layer.sample(1, 1), Err(Refusal::BorderInside { sample: 5 }));
}

#[test]
fn table() {
    assert_eq!(refused(&[0; 11], |table| SINGLE.trace(table)), Refusal::TableLength);
    assert_eq!(refused(&[0; 13], |table| SINGLE.read_sheet(table, b"")), Refusal::TableLength);
    assert_eq!(SINGLE.counts(&[0; 13]), Err(Refusal::TableLength));
    for (entry, value) in [(2, 0), (7, 256), (0, 1), (11, 300), (10, 512), (3, 768), (2, 65535), (0, 512), (11, 640)] {
        let mut table = traced(SINGLE);
        table[entry] = value;
        let wrong = Refusal::WrongEntry { entry: entry as u64 };
        assert_eq!(refused(&table, |table| SINGLE.smooth(table, 1)), wrong);
        assert_eq!(refused(&table, |table| SINGLE.roll(table, b"E", 1)), wrong);
        assert_eq!(SINGLE.sheet(&table), Err(wrong));
        assert_eq!(SINGLE.list(&table), Err(wrong));
        assert_eq!(SINGLE.areas(&table), Err(wrong));
    }
    for value in [1, 255, 513, 767] {
        let mut table = traced(SINGLE);
        table[10] = value;
        assert_eq!(SINGLE.roll(&mut table, b"E", 1), Ok(0));
    }
}

#[test]
fn held() {
    let mut table = traced(SINGLE);
    table[7] += 256;
    let refusal = refused(&table, |table| SINGLE.simplify(table, 1));
    assert_eq!(refusal, Refusal::NotHeld { stick: 2 });
    assert_eq!(refusal.to_string(), "the layer is not held: contour that starts at stick 2 (question 7)");
    assert_eq!(SINGLE.plan(&table, &mut [], &mut []), Err(refusal));
    assert_eq!(SINGLE.measure(&table, &mut [], &mut []), Err(refusal));
}

#[test]
fn malformed_sheets() {
    let good = SINGLE.sheet(&traced(SINGLE)).unwrap();
    let table = traced(SINGLE);
    let read = |sheet: &[u8]| refused(&table, |table| SINGLE.read_sheet(table, sheet));
    assert_eq!(read(&good[..19]), Refusal::Malformed { byte: 19 });
    assert_eq!(read(&[&good[..], b"E"].concat()), Refusal::Malformed { byte: 20 });
    for (at, start) in [(0, 0), (1, 0), (5, 5), (7, 5), (11, 11), (13, 13), (19, 19)] {
        let mut wrong = good.clone();
        wrong[at] ^= 0x20;
        assert_eq!(read(&wrong), Refusal::Malformed { byte: start });
    }
    let mut no_offset = good.clone();
    no_offset[12] = 0;
    assert_eq!(read(&no_offset), Refusal::Malformed { byte: 11 });
    no_offset[11] = b'N';
    assert_eq!(read(&no_offset), Refusal::Malformed { byte: 11 });
    let mut not_held = good;
    not_held[11] = b'R';
    assert_eq!(read(&not_held), Refusal::NotHeld { stick: 2 });
}

#[test]
fn malformed_rolls() {
    let table = traced(SINGLE);
    let roll = |roll: &[u8]| refused(&table, |table| SINGLE.roll(table, roll, 255));
    assert_eq!(roll(b"S\0\0\0\x01\0\x01"), Refusal::Malformed { byte: 7 });
    assert_eq!(roll(b"S\0\0\0\x01\0\x01X\0\0E"), Refusal::Malformed { byte: 7 });
    assert_eq!(roll(b"EE"), Refusal::Malformed { byte: 1 });
    assert_eq!(roll(b"Q"), Refusal::Malformed { byte: 0 });
    // A pin without an end, cut short, and with an offset, which it does not have.
    assert_eq!(roll(b"P\0\0\0\x01\0"), Refusal::Malformed { byte: 6 });
    assert_eq!(roll(b"P\0\0\0\x01"), Refusal::Malformed { byte: 0 });
    assert_eq!(roll(b"P\0\0\0\x01\0\x80E"), Refusal::Malformed { byte: 6 });
    // The whole roll is looked at before a pin is set.
    assert_eq!(roll(b"P\0\0\0\x01\0Q"), Refusal::Malformed { byte: 6 });
}

#[test]
fn edits() {
    let table = traced(SINGLE);
    let roll = |roll: &[u8]| refused(&table, |table| SINGLE.roll(table, roll, 255));
    assert_eq!(roll(b"X\x02\0\0\x01\0E"), Refusal::NoKeptVertex { byte: 0, done: 0 });
    assert_eq!(roll(b"X\0\x02\0\x01\0E"), Refusal::NoKeptVertex { byte: 0, done: 0 });
    assert_eq!(roll(b"X\0\0\0\0\0E"), Refusal::NoKeptVertex { byte: 0, done: 0 });
    assert_eq!(roll(b"S\0\0\0\x01\0\0E"), Refusal::BadOffset { byte: 0, done: 0 });
    assert_eq!(roll(b"X\0\0\0\x01\0E"), Refusal::NoCrossing { byte: 0, done: 0 });
}

#[test]
fn an_edit_says_which_command() {
    let mut table = traced(BAR);
    let refusal = BAR.roll(&mut table, b"S\x01\x02\0\0\0\x8CX\x01\x02\0\0\0E", 11).unwrap_err();
    assert_eq!(refusal, Refusal::BeyondTolerance { byte: 7, done: 1 });
    let words = "a removed vertex would slide farther than the tolerance: command 2 of the roll, at byte 7 (question 12)";
    assert_eq!(refusal.to_string(), words);
}

#[test]
fn pinned_vertices() {
    let mut table = traced(SINGLE);
    table[2] += 512;
    let roll = |roll: &[u8]| refused(&table, |table| SINGLE.roll(table, roll, 255));
    // Before 10, which a slide to 0 is refused by otherwise, and before 11, which this removal is refused by otherwise.
    assert_eq!(roll(b"S\0\0\0\x01\0\0E"), Refusal::VertexPinned { byte: 0, done: 0 });
    assert_eq!(roll(b"X\0\0\0\x01\0E"), Refusal::VertexPinned { byte: 0, done: 0 });
    let refusal = roll(b"P\0\0\0\x01\0S\0\0\0\x01\0\x80E");
    assert_eq!((refusal.number(), refusal.place(), refusal.done()), (16, 6, Some(1)));
    let words = "the vertex is pinned, and only tracing anew or reading a sheet without the pin takes a pin away: \
                 command 2 of the roll, at byte 6 (question 16)";
    assert_eq!(refusal.to_string(), words);
}

#[test]
fn outputs() {
    let table = traced(SINGLE);
    let mut sheet = [7; 19];
    assert_eq!(SINGLE.write_sheet(&table, &mut sheet), Err(Refusal::ShortOutput));
    assert_eq!(sheet, [7; 19]);
    assert_eq!(SINGLE.plan(&table, &mut [0; 4], &mut [0.0; 8]), Err(Refusal::ShortOutput));
    assert_eq!(SINGLE.plan(&table, &mut [0; 5], &mut [0.0; 7]), Err(Refusal::ShortOutput));
    assert_eq!(SINGLE.measure(&table, &mut [], &mut []), Err(Refusal::ShortOutput));
}

#[test]
fn removed_vertices() {
    let mut table = traced(BAR);
    BAR.simplify(&mut table, 86).unwrap();
    let entry = table.iter().position(|entry| *entry > 256).unwrap() as u64;
    assert_eq!(refused(&table, |table| BAR.smooth(table, 1)), Refusal::SomeRemoved { entry });
    assert_eq!(refused(&table, |table| BAR.simplify(table, 1)), Refusal::SomeRemoved { entry });
}
