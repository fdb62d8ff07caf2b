//! A layer and the calls on it.

use crate::{area, raw, Area, Areas, Edge, List, Refusal, View};

/// A sampled layer: columns and rows, 2 to 1,024 each, and the bitmap, (width + 7) / 8 bytes a row, row 0 the lowest. Sample (c, r) is
/// bit c % 8, least significant first, of byte c / 8 of row r; 1 is inside. Any values may be put here: the calls ask whether they are
/// good.
#[derive(Clone, Copy, Debug, PartialEq, Eq)]
pub struct Layer<'a> {
    /// Columns.
    pub width: u16,
    /// Rows.
    pub height: u16,
    /// The samples, row by row.
    pub bitmap: &'a [u8],
}

/// What [`Layer::counts`] answers.
#[derive(Clone, Copy, Debug, PartialEq, Eq)]
pub struct Counts {
    /// Inside samples.
    pub inside: u64,
    /// Grid edges whose samples differ, each with a vertex.
    pub sticks: u64,
    /// Contours.
    pub contours: u64,
}

impl Counts {
    /// The most runs that [`Layer::simplify`] tries on the layer, whatever the tolerance and the offsets: twice the vertices less twice the contours.
    /// It tries two fewer for each vertex that it removes.
    ///
    /// ```
    /// # use puzhenim::Layer;
    /// let layer = Layer { width: 5, height: 3, bitmap: &[0, 0b01110, 0] };
    /// let mut table = layer.new_table();
    /// layer.trace(&mut table)?;
    /// let most = layer.counts(&table)?.most_tries();
    /// let simplified = layer.simplify(&mut table, 86)?;
    /// assert_eq!(most, 14);
    /// assert_eq!(simplified.tried, most - 2 * simplified.removed);
    /// # Ok::<(), puzhenim::Refusal>(())
    /// ```
    pub fn most_tries(&self) -> u64 {
        self.sticks.saturating_sub(self.contours).saturating_mul(2)
    }
}

/// What [`Layer::smooth`] answers.
#[derive(Clone, Copy, Debug, PartialEq, Eq)]
pub struct Smoothed {
    /// The most passes that a contour took.
    pub passes: u64,
    /// The changes of each contour's last pass, summed up over all contours, in 1/256 of the pitch.
    pub total: u64,
    /// Whether every contour is settled; if not, some contour met the limit.
    pub settled: bool,
}

/// What [`Layer::simplify`] answers.
#[derive(Clone, Copy, Debug, PartialEq, Eq)]
pub struct Simplified {
    /// Vertices removed.
    pub removed: u64,
    /// Runs tried, single edges included: [`Counts::most_tries`], less two for each vertex removed.
    pub tried: u64,
}

/// What [`Layer::plan`] answers.
#[derive(Clone, Copy, Debug, PartialEq, Eq)]
pub struct Planned {
    /// Items written.
    pub items: u64,
    /// Floats written, two a point.
    pub floats: u64,
}

/// What [`Layer::measure`] answers.
#[derive(Clone, Copy, Debug, PartialEq, Eq)]
pub struct Measured {
    /// Contours, each with an area written.
    pub contours: u64,
    /// Drawn edges, each with a sum written.
    pub edges: u64,
    /// The sum of the areas, and the last of the sums.
    pub total: Area,
}

/// The most samples that a side has.
const MOST: u16 = 1024;

/// The call's own figures, or its refusal. Only a roll has a figure where it is refused, the commands done.
fn accepted((number, [place, one, two, three]): raw::Answer) -> Result<[u64; 3], Refusal> {
    match number {
        0 => Ok([one, two, three]),
        _ => Err(Refusal::new(number, place, one)),
    }
}

impl<'a> Layer<'a> {
    /// How many grid edges there are, each with an entry in the hold table: (width - 1) × height + width × (height - 1).
    ///
    /// ```
    /// # use puzhenim::Layer;
    /// assert_eq!(Layer { width: 3, height: 3, bitmap: &[0, 2, 0] }.edges(), 12);
    /// ```
    pub fn edges(&self) -> usize {
        let (w, h) = (usize::from(self.width), usize::from(self.height));
        w.saturating_sub(1) * h + w * h.saturating_sub(1)
    }

    /// The grid edge of this number.
    ///
    /// ```
    /// # use puzhenim::{Edge, Layer};
    /// let layer = Layer { width: 3, height: 3, bitmap: &[0, 2, 0] };
    /// assert_eq!(layer.edge(7), Some(Edge { vertical: true, column: 1, row: 0 }));
    /// assert_eq!(layer.edge(12), None);
    /// ```
    pub fn edge(&self, number: usize) -> Option<Edge> {
        let (w, h) = (usize::from(self.width), usize::from(self.height));
        let horizontal = w.saturating_sub(1) * h;
        let at = |n: usize, across: usize, vertical| Edge { vertical, column: (n % across) as u16, row: (n / across) as u16 };
        if number < horizontal {
            Some(at(number, w - 1, false))
        } else if number < self.edges() {
            Some(at(number - horizontal, w, true))
        } else {
            None
        }
    }

    /// A hold table of the right length, all 0. It is empty where a side is not 2 to 1,024: question 1 then refuses every call, whatever
    /// the table.
    ///
    /// ```
    /// # use puzhenim::Layer;
    /// assert_eq!(Layer { width: 3, height: 3, bitmap: &[0, 2, 0] }.new_table(), [0; 12]);
    /// assert_eq!(Layer { width: 65535, height: 65535, bitmap: &[] }.new_table(), []);
    /// ```
    pub fn new_table(&self) -> Vec<u16> {
        let sides = 2..=MOST;
        match sides.contains(&self.width) && sides.contains(&self.height) {
            true => vec![0; self.edges()],
            false => Vec::new(),
        }
    }

    /// Counts the inside samples, the sticks and the contours. Of the table only the length is looked at. Questions 1 to 5.
    ///
    /// ```
    /// # use puzhenim::{Counts, Layer};
    /// let layer = Layer { width: 3, height: 3, bitmap: &[0, 2, 0] };
    /// assert_eq!(layer.counts(&layer.new_table()), Ok(Counts { inside: 1, sticks: 4, contours: 1 }));
    /// ```
    pub fn counts(&self, table: &[u16]) -> Result<Counts, Refusal> {
        let [inside, sticks, contours] = accepted(raw::counts(*self, table))?;
        Ok(Counts { inside, sticks, contours })
    }

    /// Keeps every stick at 128, none pinned, whatever the table held. Questions 1 to 5.
    ///
    /// ```
    /// # use puzhenim::Layer;
    /// let layer = Layer { width: 3, height: 3, bitmap: &[0, 2, 0] };
    /// let mut table = layer.new_table();
    /// layer.trace(&mut table)?;
    /// assert_eq!(table, [0, 0, 128, 128, 0, 0, 0, 128, 0, 0, 128, 0]);
    /// # Ok::<(), puzhenim::Refusal>(())
    /// ```
    pub fn trace(&self, table: &mut [u16]) -> Result<(), Refusal> {
        accepted(raw::trace(*self, table)).map(drop)
    }

    /// Smooths each contour by passes until it is settled, by at most `limit`; every vertex stays strictly inside its stick, and a pinned one
    /// where it is. A contour is settled after a pass that moves its vertices, the pinned ones counted, by less than a thousandth of the pitch
    /// on average. Questions 1 to 7 and 15.
    ///
    /// ```
    /// # use puzhenim::{Layer, Smoothed};
    /// let layer = Layer { width: 3, height: 3, bitmap: &[0, 2, 0] };
    /// let mut table = layer.new_table();
    /// layer.trace(&mut table)?;
    /// assert_eq!(layer.smooth(&mut table, 1)?, Smoothed { passes: 1, total: 204, settled: false });
    /// assert_eq!([table[2], table[7], table[3], table[10]], [179, 179, 77, 77]);
    /// # Ok::<(), puzhenim::Refusal>(())
    /// ```
    pub fn smooth(&self, table: &mut [u16], limit: u16) -> Result<Smoothed, Refusal> {
        let [passes, total, settled] = accepted(raw::smooth(*self, table, limit))?;
        Ok(Smoothed { passes, total, settled: settled == 1 })
    }

    /// Removes vertices that slide at most `tolerance`, in 1/256 of the pitch, and no pinned one. Questions 1 to 7 and 15.
    ///
    /// ```
    /// # use puzhenim::{Layer, Simplified};
    /// let layer = Layer { width: 5, height: 3, bitmap: &[0, 0b01110, 0] };
    /// let mut table = layer.new_table();
    /// layer.trace(&mut table)?;
    /// assert_eq!(layer.simplify(&mut table, 86)?, Simplified { removed: 4, tried: 6 });
    /// # Ok::<(), puzhenim::Refusal>(())
    /// ```
    pub fn simplify(&self, table: &mut [u16], tolerance: u8) -> Result<Simplified, Refusal> {
        let [removed, tried, _] = accepted(raw::simplify(*self, table, tolerance))?;
        Ok(Simplified { removed, tried })
    }

    /// Applies an edit roll and answers the commands done. S, a stick and an offset slide a vertex; X and a stick remove one; P and a stick pin
    /// one, and a pin on a pinned vertex is done and alters nothing; E ends the roll. A refused edit leaves those before it done. Questions 1
    /// to 8, then of a slide or removal 9, 16 and 10 to 13, of a pin 9 alone.
    ///
    /// ```
    /// # use puzhenim::{Layer, Refusal};
    /// let layer = Layer { width: 3, height: 3, bitmap: &[0, 2, 0] };
    /// let mut table = layer.new_table();
    /// layer.trace(&mut table)?;
    /// assert_eq!(layer.roll(&mut table, b"S\0\0\0\x01\0\xFFE", 64), Ok(1));
    /// assert_eq!(table[2], 255);
    /// let refused = layer.roll(&mut table, b"S\0\0\0\x01\0\0E", 64);
    /// assert_eq!(refused, Err(Refusal::BadOffset { byte: 0, done: 0 }));
    /// let refused = layer.roll(&mut table, b"P\0\0\0\x01\0X\0\0\0\x01\0E", 64);
    /// assert_eq!(refused, Err(Refusal::VertexPinned { byte: 6, done: 1 }));
    /// assert_eq!(table[2], 512 + 255);
    /// # Ok::<(), puzhenim::Refusal>(())
    /// ```
    pub fn roll(&self, table: &mut [u16], roll: &[u8], tolerance: u8) -> Result<u64, Refusal> {
        let [done, ..] = accepted(raw::roll(*self, table, roll, tolerance))?;
        Ok(done)
    }

    /// Writes the sheet and answers its length, 6 + 6 × contours + 2 × sticks. Bytes past it stay. Questions 1 to 7 and 14.
    ///
    /// ```
    /// # use puzhenim::{Layer, Refusal};
    /// let layer = Layer { width: 3, height: 3, bitmap: &[0, 2, 0] };
    /// let mut table = layer.new_table();
    /// layer.trace(&mut table)?;
    /// let mut sheet = [0; 30];
    /// assert_eq!(layer.write_sheet(&table, &mut sheet), Ok(20));
    /// assert_eq!(layer.write_sheet(&table, &mut sheet[..19]), Err(Refusal::ShortOutput));
    /// # Ok::<(), puzhenim::Refusal>(())
    /// ```
    pub fn write_sheet(&self, table: &[u16], sheet: &mut [u8]) -> Result<u64, Refusal> {
        let [length, ..] = accepted(raw::write_sheet(*self, table, sheet))?;
        Ok(length)
    }

    /// The sheet as [`Layer::write_sheet`] writes it, in bytes of its own.
    ///
    /// ```
    /// # use puzhenim::Layer;
    /// let empty = Layer { width: 2, height: 2, bitmap: &[0, 0] };
    /// assert_eq!(empty.sheet(&empty.new_table())?, b"L\x02\0\x02\0E");
    /// # Ok::<(), puzhenim::Refusal>(())
    /// ```
    pub fn sheet(&self, table: &[u16]) -> Result<Vec<u8>, Refusal> {
        let counts = self.counts(table)?;
        // A layer has at most 2,095,104 sticks, and fewer contours.
        let mut sheet = vec![0; (6 + 6 * counts.contours + 2 * counts.sticks) as usize];
        self.write_sheet(table, &mut sheet)?;
        Ok(sheet)
    }

    /// Reads a sheet into the table, whatever that held; pinned are the vertices with N. Questions 1 to 5, 8, 7.
    ///
    /// ```
    /// # use puzhenim::{Layer, Refusal};
    /// let layer = Layer { width: 3, height: 3, bitmap: &[0, 2, 0] };
    /// let mut table = layer.new_table();
    /// layer.read_sheet(&mut table, b"L\x03\0\x03\0C\0\0\0\x01\0K\xFFK\xFFK\x01K\x01E")?;
    /// assert_eq!([table[2], table[7], table[3], table[10]], [255, 255, 1, 1]);
    /// assert_eq!(layer.read_sheet(&mut table, b"L\x03\0\x03\0"), Err(Refusal::Malformed { byte: 5 }));
    /// # Ok::<(), puzhenim::Refusal>(())
    /// ```
    pub fn read_sheet(&self, table: &mut [u16], sheet: &[u8]) -> Result<(), Refusal> {
        accepted(raw::read_sheet(*self, table, sheet)).map(drop)
    }

    /// Writes the planner's list: one byte an item, `M`, `l` or `Z`, and x, y of each point in samples. Contours come by depth, which is the
    /// number of other contours around them, and among equal depth by first stick: see [`Layer::kinds`]. What is past the list stays.
    /// Questions 1 to 7 and 14.
    ///
    /// ```
    /// # use puzhenim::{Layer, Planned};
    /// let layer = Layer { width: 3, height: 3, bitmap: &[0, 2, 0] };
    /// let mut table = layer.new_table();
    /// layer.trace(&mut table)?;
    /// let (mut items, mut points) = ([0; 5], [0.0; 8]);
    /// assert_eq!(layer.plan(&table, &mut items, &mut points)?, Planned { items: 5, floats: 8 });
    /// assert_eq!(&items, b"MlllZ");
    /// assert_eq!(points, [0.5, 1.0, 1.0, 0.5, 1.5, 1.0, 1.0, 1.5]);
    /// # Ok::<(), puzhenim::Refusal>(())
    /// ```
    pub fn plan(&self, table: &[u16], items: &mut [u8], points: &mut [f64]) -> Result<Planned, Refusal> {
        let [items, floats, _] = accepted(raw::plan(*self, table, items, points))?;
        Ok(Planned { items, floats })
    }

    /// The list as [`Layer::plan`] writes it, in buffers of its own.
    ///
    /// ```
    /// # use puzhenim::{Item, Layer};
    /// let layer = Layer { width: 3, height: 3, bitmap: &[0, 2, 0] };
    /// let mut table = layer.new_table();
    /// layer.trace(&mut table)?;
    /// let list = layer.list(&table)?;
    /// assert_eq!(list.iter().next(), Some(Item::Move { x: 0.5, y: 1.0 }));
    /// # Ok::<(), puzhenim::Refusal>(())
    /// ```
    pub fn list(&self, table: &[u16]) -> Result<List, Refusal> {
        let counts = self.counts(table)?;
        let mut items = vec![0; (counts.sticks + counts.contours) as usize];
        let mut points = vec![0.0; 2 * counts.sticks as usize];
        let planned = self.plan(table, &mut items, &mut points)?;
        items.truncate(planned.items as usize);
        points.truncate(planned.floats as usize);
        Ok(List { items, points })
    }

    /// Writes the area of each contour, in the order of the sheet, and the sum after each drawn edge, in the order of the number of the stick
    /// that it starts from; answers how many of both there are, and the total. The numbers are those of [`Area`], from the kept vertices: above
    /// 0 for an outline, below 0 for a bore. Numbers past them stay. Questions 1 to 7 and 14.
    ///
    /// ```
    /// # use puzhenim::{Area, Layer, Measured, Refusal};
    /// let layer = Layer { width: 3, height: 3, bitmap: &[0, 2, 0] };
    /// let mut table = layer.new_table();
    /// layer.trace(&mut table)?;
    /// let (mut areas, mut sums) = ([7; 2], [7; 5]);
    /// assert_eq!(layer.measure(&table, &mut areas, &mut sums)?, Measured { contours: 1, edges: 4, total: Area(65_536) });
    /// assert_eq!((areas, sums), ([65_536, 7], [-49_152, 32_768, 49_152, 65_536, 7]));
    /// assert_eq!(layer.measure(&table, &mut areas, &mut sums[..3]), Err(Refusal::ShortOutput));
    /// # Ok::<(), puzhenim::Refusal>(())
    /// ```
    pub fn measure(&self, table: &[u16], areas: &mut [i64], sums: &mut [i64]) -> Result<Measured, Refusal> {
        let [contours, edges, total] = accepted(raw::areas(*self, table, areas, sums))?;
        // A figure that is signed stands in two's complement.
        Ok(Measured { contours, edges, total: Area(total as i64) })
    }

    /// The areas and the sums as [`Layer::measure`] writes them, in buffers of their own. `contours[i]` belongs to the contour that starts at
    /// [`first_sticks()[i]`](Layer::first_sticks), which need not be contour i of the list: see [`Layer::list_order`]. Each of the `sums` has
    /// its stick.
    ///
    /// ```
    /// # use puzhenim::{Area, Kind, Layer, Sum};
    /// // Eight samples around one that is outside.
    /// let layer = Layer { width: 5, height: 5, bitmap: &[0, 0b01110, 0b01010, 0b01110, 0] };
    /// let mut table = layer.new_table();
    /// layer.trace(&mut table)?;
    /// let areas = layer.areas(&table)?;
    /// assert_eq!(areas.contours, [Area(1_114_112), Area(-65_536)]);
    /// assert_eq!((areas.contours[1].kind(), areas.contours[1].square_samples()), (Some(Kind::Bore), -0.5));
    /// assert_eq!(areas.total.square_samples(), 8.0);
    /// assert_eq!(areas.sums[0], Sum { stick: 4, after: Area(-49_152) });
    /// assert_eq!(areas.sums.last().map(|last| last.after), Some(areas.total));
    /// # Ok::<(), puzhenim::Refusal>(())
    /// ```
    pub fn areas(&self, table: &[u16]) -> Result<Areas, Refusal> {
        let mut areas = vec![0; self.counts(table)?.contours as usize];
        let mut sums = vec![0; area::starts(table).count()];
        let measured = self.measure(table, &mut areas, &mut sums)?;
        Ok(Areas::of(table, areas, sums, measured.total))
    }

    /// A view for reading many samples. Questions 1 to 4, once.
    ///
    /// ```
    /// # use puzhenim::{Layer, Refusal};
    /// let layer = Layer { width: 3, height: 3, bitmap: &[0, 2, 0] };
    /// assert!(layer.view()?.sample(1, 1));
    /// assert_eq!(Layer { width: 1, ..layer }.view(), Err(Refusal::BadSides));
    /// # Ok::<(), puzhenim::Refusal>(())
    /// ```
    pub fn view(&self) -> Result<View<'a>, Refusal> {
        View::new(*self)
    }

    /// Whether the sample is inside; off the grid it is not. Questions 1 to 4, each time: see [`Layer::view`] for reading many.
    ///
    /// ```
    /// # use puzhenim::Layer;
    /// let layer = Layer { width: 3, height: 3, bitmap: &[0, 2, 0] };
    /// assert_eq!(layer.sample(1, 1), Ok(true));
    /// assert_eq!(layer.sample(1, 9), Ok(false));
    /// ```
    pub fn sample(&self, column: u16, row: u16) -> Result<bool, Refusal> {
        let [sample, ..] = accepted(raw::sample(*self, column, row))?;
        Ok(sample == 1)
    }
}
