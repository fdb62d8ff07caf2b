//! Sides, numbers and lists that no good layer has: nothing panics, wraps or asks for much memory. Views against single samples, and the
//! deepest layer.

use puzhenim::{Area, Areas, Item, Kind, Layer, List, Refusal, View};

const ABSURD: [(u16, u16); 8] = [(0, 0), (0, 65535), (65535, 0), (1, 1), (1, 1024), (1025, 2), (2, 1025), (65535, 65535)];

#[test]
fn absurd_sides_have_no_table() {
    for (width, height) in ABSURD {
        let layer = Layer { width, height, bitmap: &[] };
        let mut table = layer.new_table();
        assert_eq!(table.capacity(), 0);
        assert_eq!(layer.counts(&table), Err(Refusal::BadSides));
        assert_eq!(layer.trace(&mut table), Err(Refusal::BadSides));
        assert_eq!(layer.smooth(&mut table, 65535), Err(Refusal::BadSides));
        assert_eq!(layer.simplify(&mut table, 255), Err(Refusal::BadSides));
        assert_eq!(layer.roll(&mut table, b"E", 255), Err(Refusal::BadSides));
        assert_eq!(layer.sheet(&table), Err(Refusal::BadSides));
        assert_eq!(layer.read_sheet(&mut table, b""), Err(Refusal::BadSides));
        assert_eq!(layer.list(&table), Err(Refusal::BadSides));
        assert_eq!(layer.measure(&table, &mut [0; 9], &mut [0; 9]), Err(Refusal::BadSides));
        assert_eq!(layer.areas(&table), Err(Refusal::BadSides));
        assert_eq!(layer.sample(65535, 65535), Err(Refusal::BadSides));
        assert_eq!(layer.view(), Err(Refusal::BadSides));
        assert_eq!(layer.kinds(), Err(Refusal::BadSides));
        assert_eq!(layer.first_sticks(), Err(Refusal::BadSides));
        assert_eq!(layer.list_order(), Err(Refusal::BadSides));
    }
    let lengths = [(2, 2), (1024, 2), (1024, 1024)].map(|(width, height)| Layer { width, height, bitmap: &[] }.new_table().len());
    assert_eq!(lengths, [4, 3070, 2_095_104]);
}

#[test]
fn edges_of_absurd_sides() {
    for (width, height) in ABSURD {
        let layer = Layer { width, height, bitmap: &[] };
        let (w, h) = (i128::from(width), i128::from(height));
        let edges = layer.edges();
        assert_eq!(edges as i128, (w - 1).max(0) * h + w * (h - 1).max(0));
        for number in [0, edges / 2, edges.saturating_sub(1)] {
            let edge = layer.edge(number);
            assert_eq!(edge.is_some(), number < edges);
            let (x, y) = edge.map_or((0, 0), |edge| edge.point(255));
            assert!(x <= 256 * u32::from(width) && y <= 256 * u32::from(height));
        }
        assert_eq!((layer.edge(edges), layer.edge(usize::MAX)), (None, None));
    }
}

#[test]
fn a_refusal_of_any_numbers_has_words() {
    let refusal = Refusal::NoCrossing { byte: u64::MAX, done: u64::MAX };
    assert!(refusal.to_string().contains("at byte 18446744073709551615"));
}

#[test]
fn a_list_with_points_missing() {
    let list = |items: &[u8], points: &[f64]| List { items: items.to_vec(), points: points.to_vec() };
    assert_eq!(list(b"lMl", &[1.0, 2.0, 3.0]).iter().collect::<Vec<_>>(), [Item::Line { x: 1.0, y: 2.0 }]);
    assert_eq!(list(b"lZ?", &[1.0, 2.0]).contours(), [[]; 0]);
    assert_eq!(list(b"", &[1.0]).iter().next(), None);
}

#[test]
fn areas_that_no_layer_has() {
    let areas = Areas { contours: [i64::MAX, 1, i64::MIN, -1, 0].map(Area).to_vec(), ..Areas::default() };
    assert_eq!((areas.sum_of(Kind::Outline), areas.sum_of(Kind::Bore)), (Area(i64::MAX), Area(i64::MIN)));
    assert_eq!(Area(i64::MIN).square_samples(), -(2.0_f64.powi(46)));
}

/// A layer of so many samples, its border outside.
fn bitmap(width: u16, height: u16) -> Vec<u8> {
    let stride = (usize::from(width) + 7) / 8;
    let mut bytes = vec![0; usize::from(height) * stride];
    for row in 1..usize::from(height) - 1 {
        for column in (1..usize::from(width) - 1).filter(|column| (column * 7 + row * 5) % 11 < 5) {
            bytes[row * stride + column / 8] |= 1 << (column % 8);
        }
    }
    bytes
}

#[test]
fn a_view_reads_what_single_samples_are() {
    for (width, height) in [(2, 2), (3, 9), (7, 4), (8, 5), (9, 6), (16, 3), (17, 17), (64, 33)] {
        let bytes = bitmap(width, height);
        let layer = Layer { width, height, bitmap: &bytes };
        let view = layer.view().unwrap();
        assert_eq!(view.layer(), layer);
        for row in 0..height + 2 {
            for column in 0..width + 9 {
                assert_eq!(Ok(view.sample(column, row)), layer.sample(column, row), "{} {} of {} {}", column, row, width, height);
            }
        }
        assert!(!view.sample(65535, 65535) && !view.sample(65535, 1) && !view.sample(1, 65535));
    }
}

#[test]
fn a_view_of_the_largest_layer_counts_its_samples() {
    let bytes = bitmap(1024, 1024);
    let layer = Layer { width: 1024, height: 1024, bitmap: &bytes };
    let view = layer.view().unwrap();
    let inside = (0..1024).map(|row| (0..1024).filter(|column| view.sample(*column, row)).count() as u64).sum();
    assert_eq!(layer.counts(&layer.new_table()).unwrap().inside, inside);
}

#[test]
fn a_view_and_kinds_are_refused_as_a_sample_is() {
    for (width, bitmap) in [(1, &[0, 2, 0][..]), (3, &[0, 2]), (3, &[0, 2, 8]), (3, &[0, 6, 0])] {
        let layer = Layer { width, height: 3, bitmap };
        let refusal = layer.sample(1, 1).unwrap_err();
        assert_eq!(layer.view(), Err(refusal));
        assert_eq!(layer.kinds(), Err(refusal));
        assert_eq!(layer.first_sticks(), Err(refusal));
        assert_eq!(layer.list_order(), Err(refusal));
    }
}

#[test]
fn nested_squares_as_deep_as_a_layer_has_room_for() {
    let mut bytes = vec![0; 1024 * 128];
    for row in 0..1024_usize {
        for column in 0..1024_usize {
            let way = column.min(1023 - column).min(row.min(1023 - row));
            bytes[row * 128 + column / 8] |= ((way % 2) as u8) << (column % 8);
        }
    }
    let layer = Layer { width: 1024, height: 1024, bitmap: &bytes };
    let mut table = layer.new_table();
    layer.trace(&mut table).unwrap();
    let contours = layer.list(&table).unwrap().contours();
    assert_eq!(contours.len(), 511);
    for (i, (contour, kind)) in contours.iter().zip(layer.kinds().unwrap()).enumerate() {
        assert_eq!((contour[0], contour.len()), ((i as f64 + 0.5, i as f64 + 1.0), 4 * (1022 - 2 * i)));
        assert_eq!(kind, if i % 2 == 0 { Kind::Outline } else { Kind::Bore });
    }
    // Squares of sides 1,022, 1,020 and so on to 2, each without its corners, which are half a square together.
    let areas = layer.areas(&table).unwrap();
    for (i, area) in areas.contours.iter().enumerate() {
        let side = 1022 - 2 * i as i64;
        assert_eq!(area.0, 65_536 * (2 * side * side - 1) * if i % 2 == 0 { 1 } else { -1 });
    }
    // The alternating sum of the squares of 511, 510 and so on to 1 is 511 × 512 / 2.
    assert_eq!(areas.total, Area(65_536 * (2 * 4 * 511 * 256 - 1)));
    assert_eq!(layer.list_order().unwrap(), (0..511).collect::<Vec<usize>>());
}

#[test]
fn a_view_outlives_the_record_that_it_is_made_of() {
    fn of(bitmap: &[u8]) -> View<'_> {
        Layer { width: 3, height: 3, bitmap }.view().unwrap()
    }
    assert!(of(&[0, 2, 0]).sample(1, 1));
}
