//! The running sum as steps, in so few columns that the plot of the largest layer is small. Of the sums in a column the lowest, the highest and
//! the last are drawn, so that none sticks out of what is shown.

use puzhenim::{Area, Sum};

/// The most columns.
const MOST: usize = 1920;

pub struct Curve {
    columns: Vec<Column>,
    /// How many numbers share one column.
    pub bundle: usize,
}

/// The sums in a column that has any.
pub struct Column {
    /// The lowest number of the column.
    pub stick: usize,
    pub low: Area,
    pub high: Area,
    pub last: Area,
}

impl Curve {
    /// The curve of a layer of so many grid edges. Each sum has a column of its own if there are not too many.
    pub fn of(sums: &[Sum], edges: usize) -> Curve {
        let bundle = if sums.len() <= MOST { 1 } else { (edges + MOST - 1) / MOST };
        let mut curve = Curve { columns: Vec::new(), bundle };
        sums.iter().for_each(|sum| curve.add(sum));
        curve
    }

    fn add(&mut self, sum: &Sum) {
        let (stick, after) = (sum.stick - sum.stick % self.bundle, sum.after);
        match self.columns.last_mut() {
            Some(column) if column.stick == stick => {
                *column = Column { stick, low: column.low.min(after), high: column.high.max(after), last: after }
            }
            _ => self.columns.push(Column { stick, low: after, high: after, last: after }),
        }
    }

    pub fn columns(&self) -> &[Column] {
        &self.columns
    }

    /// The lowest and the highest sum, the 0 before the first edge included.
    pub fn reach(&self) -> (Area, Area) {
        let low = self.columns.iter().map(|column| column.low).min();
        let high = self.columns.iter().map(|column| column.high).max();
        (low.unwrap_or_default().min(Area(0)), high.unwrap_or_default().max(Area(0)))
    }
}
