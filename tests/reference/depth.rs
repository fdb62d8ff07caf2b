// The depth of each contour: "the number of other contours around them", by flood
// filling from the border inward.

use crate::contour::Contour;
use crate::layer::Layer;

/// How many contours lie between each sample, by r×W+c, and the border. Inside
/// samples are joined over their sides, outside ones over corners too, since with
/// two inside samples on a diagonal "each inside corner is cut off alone". Joined
/// samples have the same level, and a part that touches one of level k and is not
/// yet reached has level k + 1.
fn levels(layer: &Layer) -> Vec<usize> {
    let inside = |at: usize| layer.sample(at % layer.w, at / layer.w);
    let mut levels: Vec<Option<usize>> = vec![None; layer.w * layer.h];
    let (mut level, mut open) = (0, vec![0]);
    while !open.is_empty() {
        let mut beyond = Vec::new();
        while let Some(at) = open.pop() {
            if levels[at].is_some() {
                continue;
            }
            levels[at] = Some(level);
            let joined = layer.neighbours(at, !inside(at));
            open.extend(joined.filter(|&near| inside(near) == inside(at)));
            let touched = layer.neighbours(at, false);
            beyond.extend(touched.filter(|&near| inside(near) != inside(at)));
        }
        level += 1;
        open = beyond;
    }
    let reached = |level: Option<usize>| level.expect("every sample is reached");
    levels.into_iter().map(reached).collect()
}

/// The depth of each contour. One with level k on one side and k + 1 on the other
/// has depth k; its first stick tells, as any other of its sticks does.
pub fn depths(layer: &Layer, contours: &[Contour]) -> Vec<usize> {
    let levels = levels(layer);
    let level = |(c, r): (usize, usize)| levels[r * layer.w + c];
    let depth = |contour: &Contour| {
        let [a, b] = layer.edge(contour[0]).ends();
        level(a).min(level(b))
    };
    contours.iter().map(depth).collect()
}
