// Vectors of Note 8, "a ceiling on tries": rows of samples, slid so that no run passes under
// T 0 but a single edge, and layers with two contours that reach the ceiling or do not. That
// they do is asked of the vectors in ceiling.rs.

use crate::builder::{edit_bytes, Builder};
use crate::layer::{Edge, Layer};
use crate::picture;
use crate::roll::Action;
use crate::script::Command;
use crate::sets_pending::slide_by_turns;

/// "For each even n from 4 to 12".
pub const SIZES: [usize; 5] = [4, 6, 8, 10, 12];

/// The samples in the longest row that a layer has room for, and the vertices of its contour.
pub const LONGEST: usize = 1022;
pub const MOST: usize = 2 * LONGEST + 2;

/// One row of samples whose contour has n vertices: two for each sample, above and below it,
/// and one at each end.
pub fn row(n: usize) -> Layer {
    picture::full(n / 2 + 1, 3)
}

const TWO_ROWS: &str = "........... .#####.###. ...........";
const RING: &str = "..... .###. .#.#. .###. .....";
pub const DIAGONALS: [&str; 2] = [".... ..#. .#.. ....", ".... .#.. ..#. ...."];

/// "Slid where needed": a roll that slides the vertices on the vertical sticks of every even
/// column to offset 100. The others stay at 128, so that along a row no three vertices in
/// succession lie on a line, as those of a run that passes under T 0 do.
pub fn slides(layer: &Layer) -> Vec<u8> {
    let sticks = (0..layer.edge_count()).filter(|&number| layer.is_stick(number));
    let edges = sticks.map(|number| layer.edge(number));
    let even = edges.filter(|edge| edge.kind == 1 && edge.c % 2 == 0);
    let slide = |edge: Edge| edit_bytes(1, edge.c as u16, edge.r as u16, Action::Slide(100));
    even.flat_map(slide).chain([0x45]).collect()
}

/// Traces the layer, slides its vertices by the roll, and simplifies, once for each tolerance.
fn slid(b: &mut Builder, layer: &Layer, tolerances: &[u8]) {
    for &t in tolerances {
        b.traced(layer);
        let bytes = slides(layer);
        b.add(Command::Roll { t: 0, bytes });
        b.add(Command::Simplify { t });
    }
}

/// Simplifies the layer as traced, once for each tolerance.
fn as_traced(b: &mut Builder, layer: &Layer, tolerances: &[u8]) {
    for &t in tolerances {
        b.traced(layer);
        b.add(Command::Simplify { t });
    }
}

pub fn ceiling(b: &mut Builder) {
    for n in SIZES {
        slid(b, &row(n), &[0, 255]);
    }
    as_traced(b, &row(12), &[0]);
    for rows in DIAGONALS {
        as_traced(b, &picture::shown(rows), &[0, 255]);
    }
    slid(b, &picture::shown(TWO_ROWS), &[0, 255]);
    let ring = picture::shown(RING);
    as_traced(b, &ring, &[0]);
    b.traced(&ring);
    slide_by_turns(b, &ring);
    b.add(Command::Simplify { t: 0 });
    slid(b, &row(MOST), &[0, 255]);
}
