//! The areas of a layer's contours as lines for a person to read: what each contour is, where it starts and what it encloses. The total comes
//! last, so that it is in sight however many contours there are. And the running sums as lines for a program.

use puzhenim::{Area, Areas, Edge, Kind, Layer, Refusal, Sum};

/// A head, a line for each contour and one for the total. The order has the contours by their places in the sheet.
pub fn lines(layer: Layer, areas: &Areas, order: impl IntoIterator<Item = usize>) -> Result<String, Refusal> {
    let firsts = layer.first_sticks()?;
    let mut text = line("contour", ["column", "row", "square samples", "in 1/131072"]);
    for place in order {
        if let (Some(area), Some(first)) = (areas.contours.get(place), firsts.get(place)) {
            text += &area_line(name(*area), [&first.column.to_string(), &first.row.to_string()], *area);
        }
    }
    text += &area_line("total", ["", ""], areas.total);
    Ok(text)
}

/// The lines in the order of the sheet.
pub fn sheet_lines(layer: Layer, areas: &Areas) -> Result<String, Refusal> {
    lines(layer, areas, 0..areas.contours.len())
}

/// A line for each sum: number, kind, column and row of the stick, kind 0 being horizontal and 1 vertical, and the sum after its edge.
pub fn sum_lines(layer: Layer, areas: &Areas) -> String {
    let edges = areas.sums.iter().filter_map(|sum| layer.edge(sum.stick).map(|edge| (sum, edge)));
    edges.map(|(sum, edge)| sum_line(sum, edge)).collect()
}

fn sum_line(sum: &Sum, edge: Edge) -> String {
    format!("{} {} {} {} {}\n", sum.stick, u8::from(edge.vertical), edge.column, edge.row, sum.after.0)
}

fn name(area: Area) -> &'static str {
    match area.kind() {
        Some(Kind::Outline) => "outline",
        Some(Kind::Bore) => "bore",
        None => "",
    }
}

/// Six decimals are enough to tell any two areas apart.
fn area_line(name: &str, [column, row]: [&str; 2], area: Area) -> String {
    line(name, [column, row, &format!("{:.6}", area.square_samples()), &area.0.to_string()])
}

fn line(name: &str, [column, row, samples, number]: [&str; 4]) -> String {
    format!("{:<9}{:>8}{:>8}{:>18}{:>15}\n", name, column, row, samples, number)
}
