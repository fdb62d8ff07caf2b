//! Which contour is which: where each starts, what it is, and the order of the list beside that of the sheet. All this depends on the bitmap
//! alone. It is read off the list of the layer as traced by Rust code of this crate, which is not proved.

use crate::{Edge, Kind, Layer, Refusal};

/// What orders first sticks as their numbers do, since all are horizontal.
fn rank(first: &Edge) -> (u16, u16) {
    (first.row, first.column)
}

fn by_number(mut firsts: Vec<Edge>) -> Vec<Edge> {
    firsts.sort_unstable_by_key(rank);
    firsts
}

impl Layer<'_> {
    /// The contours' first sticks in the order of the list. Every vertex of the layer as traced is kept in the middle of its stick, so a contour
    /// begins in the middle of its first stick, which is horizontal; rounding down gives the stick's west end.
    fn listed_firsts(&self) -> Result<Vec<Edge>, Refusal> {
        let mut table = self.new_table();
        self.trace(&mut table)?;
        let first_points = self.list(&table)?.contours().into_iter().filter_map(|contour| contour.first().copied());
        Ok(first_points.map(|(x, y)| Edge { vertical: false, column: x as u16, row: y as u16 }).collect())
    }

    /// The contours' first sticks, the lowest number first: the order of the sheet and of [`Layer::areas`]. All are horizontal. Questions 1 to 4.
    ///
    /// ```
    /// # use puzhenim::{Edge, Layer};
    /// // Eight samples around one that is outside.
    /// let layer = Layer { width: 5, height: 5, bitmap: &[0, 0b01110, 0b01010, 0b01110, 0] };
    /// let at = |column, row| Edge { vertical: false, column, row };
    /// assert_eq!(layer.first_sticks()?, [at(0, 1), at(1, 2)]);
    /// # Ok::<(), puzhenim::Refusal>(())
    /// ```
    pub fn first_sticks(&self) -> Result<Vec<Edge>, Refusal> {
        self.listed_firsts().map(by_number)
    }

    /// For each contour of the list its place in the order of the sheet: contour i of the list starts at `first_sticks()[list_order()[i]]` and
    /// has the area `areas(table).contours[list_order()[i]]`. Questions 1 to 4.
    ///
    /// ```
    /// # use puzhenim::Layer;
    /// // A ring around a sample, and a sample above the ring, which no other is around: the list has it after the ring's outline.
    /// let bitmap = [0, 0b0111110, 0b0100010, 0b0101010, 0b0100010, 0b0111110, 0, 0b0000010, 0];
    /// let layer = Layer { width: 7, height: 9, bitmap: &bitmap };
    /// assert_eq!(layer.list_order()?, [0, 3, 1, 2]);
    /// # Ok::<(), puzhenim::Refusal>(())
    /// ```
    pub fn list_order(&self) -> Result<Vec<usize>, Refusal> {
        let listed = self.listed_firsts()?;
        let firsts = by_number(listed.clone());
        let before = |first: &Edge| firsts.partition_point(|other| rank(other) < rank(first));
        Ok(listed.iter().map(before).collect())
    }

    /// What the contours are, in the order of the list, which depends on the bitmap alone: `kinds()[i]` belongs to contour i of every list of
    /// this layer. Each contour comes after those around it; outlines have an even number of others around them, bores an odd one.
    /// Questions 1 to 4.
    ///
    /// ```
    /// # use puzhenim::{Kind, Layer};
    /// // A ring around a sample.
    /// let bitmap = [0, 0b0111110, 0b0100010, 0b0101010, 0b0100010, 0b0111110, 0];
    /// let layer = Layer { width: 7, height: 7, bitmap: &bitmap };
    /// assert_eq!(layer.kinds()?, [Kind::Outline, Kind::Bore, Kind::Outline]);
    /// # Ok::<(), puzhenim::Refusal>(())
    /// ```
    pub fn kinds(&self) -> Result<Vec<Kind>, Refusal> {
        let view = self.view()?;
        // A contour is a bore exactly if the west end of its first stick is inside: the theorem of the library.
        let kind = |first: Edge| if view.sample(first.column, first.row) { Kind::Bore } else { Kind::Outline };
        Ok(self.listed_firsts()?.into_iter().map(kind).collect())
    }
}
