//! The planner's list.

/// What a contour is; [`Layer::kinds`](crate::Layer::kinds) and the sign of its area ([`Area::kind`](crate::Area::kind)) tell.
#[derive(Clone, Copy, Debug, PartialEq, Eq, Hash)]
pub enum Kind {
    /// It winds around the inside ends of its sticks, counter-clockwise.
    Outline,
    /// It winds around the outside ends of its sticks, clockwise.
    Bore,
}

/// The planner's list in its two outputs: one byte an item, `M`, `l` or `Z`, and x, y of each point in samples.
#[derive(Clone, Debug, Default, PartialEq)]
pub struct List {
    /// One byte an item.
    pub items: Vec<u8>,
    /// x then y of each point.
    pub points: Vec<f64>,
}

/// An item of the planner's list; x and y are in samples and exact.
#[derive(Clone, Copy, Debug, PartialEq)]
#[allow(missing_docs)]
pub enum Item {
    /// A contour begins here.
    Move { x: f64, y: f64 },
    /// A line from the point before to here.
    Line { x: f64, y: f64 },
    /// A line back to where the contour began.
    Close,
}

impl List {
    /// The items with their points, up to the first that has none left.
    ///
    /// ```
    /// # use puzhenim::{Item, List};
    /// let list = List { items: b"MlZ".to_vec(), points: vec![1.0, 2.0, 3.0, 4.0] };
    /// let items: Vec<Item> = list.iter().collect();
    /// assert_eq!(items, [Item::Move { x: 1.0, y: 2.0 }, Item::Line { x: 3.0, y: 4.0 }, Item::Close]);
    /// ```
    pub fn iter(&self) -> impl Iterator<Item = Item> + '_ {
        let mut points = self.points.chunks_exact(2);
        let mut point = move || match points.next() {
            Some(&[x, y]) => Some((x, y)),
            _ => None,
        };
        self.items.iter().map_while(move |item| match item {
            b'M' => point().map(|(x, y)| Item::Move { x, y }),
            b'l' => point().map(|(x, y)| Item::Line { x, y }),
            _ => Some(Item::Close),
        })
    }

    /// The contours, each as its points, in the order of the list.
    ///
    /// ```
    /// # use puzhenim::List;
    /// let list = List { items: b"MlZMlZ".to_vec(), points: vec![1.0, 2.0, 3.0, 4.0, 5.0, 6.0, 7.0, 8.0] };
    /// assert_eq!(list.contours(), [[(1.0, 2.0), (3.0, 4.0)], [(5.0, 6.0), (7.0, 8.0)]]);
    /// ```
    pub fn contours(&self) -> Vec<Vec<(f64, f64)>> {
        let mut contours: Vec<Vec<(f64, f64)>> = Vec::new();
        for item in self.iter() {
            match item {
                Item::Move { x, y } => contours.push(vec![(x, y)]),
                Item::Line { x, y } => contours.last_mut().into_iter().for_each(|contour| contour.push((x, y))),
                Item::Close => {}
            }
        }
        contours
    }
}
