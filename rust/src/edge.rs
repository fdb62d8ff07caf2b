//! Grid edges and the vertices that the hold table puts on them.

/// A grid edge: from sample (column, row) to the next one in its row, or to the one above it if it is vertical.
#[derive(Clone, Copy, Debug, PartialEq, Eq, Hash)]
pub struct Edge {
    /// Whether it runs upward.
    pub vertical: bool,
    /// The column of the sample that it starts at.
    pub column: u16,
    /// The row of that sample.
    pub row: u16,
}

/// A vertex as an entry of the hold table has it: its offset along the stick, 1 to 255, in 1/256 of the pitch. A pinned vertex is a kept one
/// too: [`Vertex::is_kept`] tells.
#[derive(Clone, Copy, Debug, PartialEq, Eq, Hash)]
pub enum Vertex {
    /// An entry of 1 to 255: kept and not pinned.
    Kept(u8),
    /// An entry of 256 plus the offset that the vertex last had.
    Removed(u8),
    /// An entry of 512 plus the offset: kept and pinned. Smoothing, simplifying and edits leave it where it is.
    Pinned(u8),
}

impl Vertex {
    /// The vertex of an entry, none if it is 0 or no entry of a vertex.
    ///
    /// ```
    /// # use puzhenim::Vertex;
    /// assert_eq!(Vertex::of(128), Some(Vertex::Kept(128)));
    /// assert_eq!(Vertex::of(384), Some(Vertex::Removed(128)));
    /// assert_eq!(Vertex::of(640), Some(Vertex::Pinned(128)));
    /// assert_eq!(Vertex::of(0), None);
    /// ```
    pub fn of(entry: u16) -> Option<Vertex> {
        match entry {
            1..=255 => Some(Vertex::Kept(entry as u8)),
            257..=511 => Some(Vertex::Removed((entry - 256) as u8)),
            513..=767 => Some(Vertex::Pinned((entry - 512) as u8)),
            _ => None,
        }
    }

    /// Whether it is kept, pinned or not.
    ///
    /// ```
    /// # use puzhenim::Vertex;
    /// assert!(Vertex::Kept(128).is_kept() && Vertex::Pinned(128).is_kept());
    /// assert!(!Vertex::Removed(128).is_kept());
    /// ```
    pub fn is_kept(&self) -> bool {
        matches!(self, Vertex::Kept(_) | Vertex::Pinned(_))
    }

    /// Whether it is pinned.
    ///
    /// ```
    /// # use puzhenim::Vertex;
    /// assert!(Vertex::Pinned(128).is_pinned() && !Vertex::Kept(128).is_pinned());
    /// ```
    pub fn is_pinned(&self) -> bool {
        matches!(self, Vertex::Pinned(_))
    }

    /// Its offset along the stick; of a removed vertex the one that it last had.
    ///
    /// ```
    /// # use puzhenim::Vertex;
    /// assert_eq!([Vertex::Kept(1), Vertex::Removed(2), Vertex::Pinned(3)].map(|vertex| vertex.offset()), [1, 2, 3]);
    /// ```
    pub fn offset(&self) -> u8 {
        match *self {
            Vertex::Kept(offset) | Vertex::Removed(offset) | Vertex::Pinned(offset) => offset,
        }
    }
}

impl Edge {
    /// Where a vertex at this offset lies, x and y in 1/256 of the pitch.
    ///
    /// ```
    /// # use puzhenim::Edge;
    /// assert_eq!(Edge { vertical: true, column: 1, row: 0 }.point(128), (256, 128));
    /// ```
    pub fn point(&self, offset: u8) -> (u32, u32) {
        let (x, y, along) = (256 * u32::from(self.column), 256 * u32::from(self.row), u32::from(offset));
        if self.vertical {
            (x, y + along)
        } else {
            (x + along, y)
        }
    }
}
