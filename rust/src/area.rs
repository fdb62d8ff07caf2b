//! The areas that contours enclose, and how the total grows from stick to stick. The library gives them as whole numbers, so that they are
//! exact. Here they get their meaning: square samples, the kind of a contour, the stick of each sum.

use crate::{Kind, Vertex};

/// The number of a square of one pitch by one pitch.
const SQUARE_SAMPLE: f64 = 131_072.0;

/// A signed area: the number is twice the area in 1/65,536 of a square pitch. So 131,072 is one square sample, a square of one pitch by one pitch.
#[derive(Clone, Copy, Debug, Default, PartialEq, Eq, PartialOrd, Ord, Hash)]
pub struct Area(pub i64);

/// What [`Layer::areas`](crate::Layer::areas) answers.
#[derive(Clone, Debug, Default, PartialEq, Eq)]
pub struct Areas {
    /// The area of each contour, in the order of the sheet.
    pub contours: Vec<Area>,
    /// The sum after each drawn edge, by the number of the stick that it starts from, whatever its contour. The last is the total.
    pub sums: Vec<Sum>,
    /// The sum over all contours, which is that over all drawn edges.
    pub total: Area,
}

/// How far the area has grown when the drawn edge that starts from this stick is added. On the way from stick to stick it may be below 0 or
/// above the total.
#[derive(Clone, Copy, Debug, PartialEq, Eq, Hash)]
pub struct Sum {
    /// The number of the stick: its entry in the table, and what [`Layer::edge`](crate::Layer::edge) takes.
    pub stick: usize,
    /// The sum after its edge.
    pub after: Area,
}

/// The sticks that drawn edges start from, in the order of their numbers: those with a kept vertex. The library sums in this order and says how
/// many there are. Which they are is read off the table here, by code that is not proved.
pub(crate) fn starts(table: &[u16]) -> impl Iterator<Item = usize> + '_ {
    let is_kept = |entry: u16| Vertex::of(entry).map_or(false, |vertex| vertex.is_kept());
    table.iter().enumerate().filter(move |(_, entry)| is_kept(**entry)).map(|(number, _)| number)
}

impl Area {
    /// The area in square samples. It is exact below 2⁵³, as the areas and sums of every held layer are.
    ///
    /// ```
    /// # use puzhenim::Area;
    /// assert_eq!(Area(65_536).square_samples(), 0.5);
    /// assert_eq!(Area(-3 * 131_072).square_samples(), -3.0);
    /// ```
    pub fn square_samples(self) -> f64 {
        self.0 as f64 / SQUARE_SAMPLE
    }

    /// What a contour of this area is (of a sum it says nothing): an outline if it is above 0, a bore if it is below. No contour of a held layer has an area of 0, so that
    /// each one in [`Areas::contours`] has a kind.
    ///
    /// ```
    /// # use puzhenim::{Area, Kind};
    /// assert_eq!([1, -1, 0].map(|number| Area(number).kind()), [Some(Kind::Outline), Some(Kind::Bore), None]);
    /// ```
    pub fn kind(self) -> Option<Kind> {
        match self.0.signum() {
            1 => Some(Kind::Outline),
            -1 => Some(Kind::Bore),
            _ => None,
        }
    }
}

impl Areas {
    /// The numbers that the library gives for this table.
    pub(crate) fn of(table: &[u16], contours: Vec<i64>, sums: Vec<i64>, total: Area) -> Areas {
        let sums = starts(table).zip(sums).map(|(stick, after)| Sum { stick, after: Area(after) });
        Areas { contours: contours.into_iter().map(Area).collect(), sums: sums.collect(), total }
    }

    /// The areas of all outlines, or of all bores, summed up. The two sums make up the total.
    ///
    /// ```
    /// # use puzhenim::{Area, Kind, Layer};
    /// // Eight samples around one that is outside.
    /// let layer = Layer { width: 5, height: 5, bitmap: &[0, 0b01110, 0b01010, 0b01110, 0] };
    /// let mut table = layer.new_table();
    /// layer.trace(&mut table)?;
    /// let areas = layer.areas(&table)?;
    /// let sums = [areas.sum_of(Kind::Outline), areas.sum_of(Kind::Bore), areas.total];
    /// assert_eq!(sums.map(Area::square_samples), [8.5, -0.5, 8.0]);
    /// # Ok::<(), puzhenim::Refusal>(())
    /// ```
    pub fn sum_of(&self, kind: Kind) -> Area {
        let numbers = self.contours.iter().filter(|area| area.kind() == Some(kind)).map(|area| area.0);
        Area(numbers.fold(0, i64::saturating_add))
    }
}
