// Simplify: a contour is cut into two runs, and runs are halved until each
// passes; the inner vertices of passing runs are removed.

use crate::chord::{crosses, slides_at_most};
use crate::hold::{ask_1_to_7, ask_all_kept, is_pinned, is_removed, offset, removed, vertex_of};
use crate::layer::{Layer, Refusal};

/// "The answer is the vertices removed and the runs tried, single edges
/// included."
pub struct Simplified {
    pub removed: usize,
    pub tried: u64,
}

/// The runs of one contour under a tolerance.
pub struct Runs<'a> {
    pub layer: &'a Layer,
    pub contour: &'a [usize],
    pub t: u8,
}

impl Runs<'_> {
    fn stick(&self, i: usize) -> usize {
        self.contour[i % self.contour.len()]
    }

    /// "A run passes if it is a single edge, or if its chord crosses each stick
    /// between and each vertex there would slide at most T." Note 5, of a pinned vertex:
    /// "Simplify lets no run pass that has one strictly inside."
    pub fn passes(&self, table: &[u16], start: usize, edges: usize) -> bool {
        let a = vertex_of(self.layer, table, self.stick(start));
        let b = vertex_of(self.layer, table, self.stick(start + edges));
        (start + 1..start + edges).all(|i| {
            let stick = self.stick(i);
            let edge = self.layer.edge(stick);
            !is_pinned(table[stick])
                && crosses(a, b, edge)
                && slides_at_most(a, b, edge, offset(table[stick]), self.t)
        })
    }

    /// "Inner vertices of a passing run are removed." Does the run pass?
    pub fn remove_if_passing(&self, table: &mut [u16], start: usize, edges: usize) -> bool {
        let passes = self.passes(table, start, edges);
        if passes {
            for i in start + 1..start + edges {
                let stick = self.stick(i);
                table[stick] = removed(table[stick]);
            }
        }
        passes
    }

    /// "A run that does not pass is split, its first part having half its edges
    /// rounded down, and each part is tried." The runs tried, this one included.
    fn try_run(&self, table: &mut [u16], start: usize, edges: usize) -> u64 {
        if self.remove_if_passing(table, start, edges) {
            return 1;
        }
        let half = edges / 2;
        let first = self.try_run(table, start, half);
        let second = self.try_run(table, start + half, edges - half);
        1 + first + second
    }
}

/// "A contour of n vertices is cut into the run from vertex 0 to vertex n div 2
/// and the run from there back to 0." Questions 1 to 7 and 15.
pub fn simplify(
    w: u16,
    h: u16,
    bitmap: &[u8],
    table: &mut [u16],
    t: u8,
) -> Result<Simplified, Refusal> {
    let (layer, contours) = ask_1_to_7(w, h, bitmap, table)?;
    ask_all_kept(table)?;
    let mut tried = 0;
    for contour in &contours {
        let n = contour.len();
        let layer = &layer;
        let runs = Runs { layer, contour, t };
        tried += runs.try_run(table, 0, n / 2);
        tried += runs.try_run(table, n / 2, n - n / 2);
    }
    let removed = table.iter().filter(|&&entry| is_removed(entry)).count();
    Ok(Simplified { removed, tried })
}
