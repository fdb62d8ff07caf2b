// The planner's list: moves, lines and closes, one byte per item in one output
// and the coordinates in another.

use crate::contour::Contour;
use crate::depth::depths;
use crate::hold::{ask_1_to_7, drawn_edges, vertex_of};
use crate::layer::{refuse, Layer, Refusal};

/// "A point's x and y, in samples."
struct Place {
    x: f64,
    y: f64,
}

/// "An item is a move or a line with two 64-bit floats, or a close without any."
enum Item {
    Move(Place),
    Line(Place),
    Close,
}

/// How much of the two outputs was written.
pub struct Listed {
    pub items: usize,
    pub floats: usize,
}

/// "Are exact: whole 1/256ths divided by 256."
fn place(layer: &Layer, table: &[u16], stick: usize) -> Place {
    let vertex = vertex_of(layer, table, stick);
    Place {
        x: vertex.x as f64 / 256.0,
        y: vertex.y as f64 / 256.0,
    }
}

/// "Per contour a move to the first kept vertex, a line to each further one, a
/// close."
fn items_of_contour(layer: &Layer, contour: &[usize], table: &[u16]) -> Vec<Item> {
    let mut items = Vec::new();
    for (i, drawn) in drawn_edges(contour, table).iter().enumerate() {
        let place = place(layer, table, drawn.from);
        items.push(if i == 0 {
            Item::Move(place)
        } else {
            Item::Line(place)
        });
    }
    items.push(Item::Close);
    items
}

/// "In its list, contours now come by depth, which is the number of other contours
/// around them, and among equal depth by first stick number."
fn by_depth(layer: &Layer, contours: Vec<Contour>) -> Vec<Contour> {
    let depths = depths(layer, &contours);
    let mut listed: Vec<(usize, Contour)> = depths.into_iter().zip(contours).collect();
    listed.sort_by_key(|(depth, contour)| (*depth, contour[0]));
    listed.into_iter().map(|(_, contour)| contour).collect()
}

/// The planner's list. Questions 1 to 7 and 14. "Written out are one byte per item (hex 4D, 6C, 5A)
/// in one output, and x then y per point, as 64-bit floats, in a second."
pub fn planner(
    w: u16,
    h: u16,
    bitmap: &[u8],
    table: &[u16],
    items: &mut [u8],
    floats: &mut [f64],
) -> Result<Listed, Refusal> {
    let (layer, contours) = ask_1_to_7(w, h, bitmap, table)?;
    let contours = by_depth(&layer, contours);
    let mut letters: Vec<u8> = Vec::new();
    let mut numbers: Vec<f64> = Vec::new();
    for item in contours
        .iter()
        .flat_map(|contour| items_of_contour(&layer, contour, table))
    {
        let (letter, point) = match item {
            Item::Move(place) => (0x4D, Some(place)),
            Item::Line(place) => (0x6C, Some(place)),
            Item::Close => (0x5A, None),
        };
        letters.push(letter);
        numbers.extend(point.iter().flat_map(|place| [place.x, place.y]));
    }
    if items.len() < letters.len() || floats.len() < numbers.len() {
        return refuse(14, 0);
    }
    items[..letters.len()].copy_from_slice(&letters);
    floats[..numbers.len()].copy_from_slice(&numbers);
    Ok(Listed {
        items: letters.len(),
        floats: numbers.len(),
    })
}
