// Layers that vectors are made of: random ones, checkerboards, spirals,
// serpentines, combs, frames, discs, rings, and contours within contours.

use crate::layer::Layer;
use crate::prng::Rng;

/// A layer whose samples off the border are as the rule says.
fn drawn(w: usize, h: usize, mut inside: impl FnMut(usize, usize) -> bool) -> Layer {
    let mut layer = Layer::blank(w, h);
    for r in 1..h - 1 {
        for c in 1..w - 1 {
            let is_inside = inside(c, r);
            layer.set(c, r, is_inside);
        }
    }
    layer
}

/// So many of sixteen samples inside.
pub fn random(rng: &mut Rng, w: usize, h: usize, sixteenths: usize) -> Layer {
    drawn(w, h, |_, _| rng.chance(sixteenths, 16))
}

/// A random layer of a random size from 3 to most.
pub fn any(rng: &mut Rng, most: usize) -> Layer {
    let (w, h) = (rng.between(3, most), rng.between(3, most));
    let sixteenths = rng.pick(&[1, 2, 4, 6, 8, 10, 12, 14, 15, 16]);
    random(rng, w, h, sixteenths)
}

/// Blocks and bars, so that contours have long straight runs: a few rectangles
/// filled, a few cleared.
pub fn blocks(rng: &mut Rng, most: usize) -> Layer {
    let (w, h) = (rng.between(4, most), rng.between(4, most));
    let mut layer = Layer::blank(w, h);
    for step in 0..rng.between(1, 5) {
        let (c, r) = (rng.between(1, w - 2), rng.between(1, h - 2));
        let (c2, r2) = (rng.between(c, w - 2), rng.between(r, h - 2));
        let inside = step % 3 != 2;
        for y in r..=r2 {
            for x in c..=c2 {
                layer.set(x, y, inside);
            }
        }
    }
    layer
}

/// The samples that this string shows, row H-1 on top, rows parted by blanks.
pub fn shown(rows: &str) -> Layer {
    let rows: Vec<&[u8]> = rows
        .split_whitespace()
        .rev()
        .map(|row| row.as_bytes())
        .collect();
    drawn(rows[0].len(), rows.len(), |c, r| rows[r][c] == b'#')
}

/// All layers of so many columns and rows.
pub fn every(side: usize) -> impl Iterator<Item = Layer> {
    let inner = side - 2;
    let layer = move |bits: usize| {
        drawn(side, side, |c, r| {
            bits >> ((r - 1) * inner + c - 1) & 1 == 1
        })
    };
    (0..1 << (inner * inner)).map(layer)
}

pub fn full(w: usize, h: usize) -> Layer {
    drawn(w, h, |_, _| true)
}

/// Samples with c + r even, or odd, are inside.
pub fn checkerboard(w: usize, h: usize, odd: usize) -> Layer {
    drawn(w, h, |c, r| (c + r) % 2 == odd)
}

/// Frames one in the other: a sample is inside if its way to the border is odd.
pub fn frames(w: usize, h: usize) -> Layer {
    drawn(w, h, |c, r| c.min(r).min(w - 1 - c).min(h - 1 - r) % 2 == 1)
}

/// A full layer with a hole at each second sample of each second row.
pub fn holes(w: usize, h: usize) -> Layer {
    drawn(w, h, |c, r| c % 2 == 1 || r % 2 == 1)
}

/// Single samples, so many in a row and so many rows.
pub fn lattice(columns: usize, rows: usize) -> Layer {
    drawn(2 * columns + 1, 2 * rows + 1, |c, r| {
        c % 2 == 1 && r % 2 == 1
    })
}

/// Rows joined at their right and left ends by turns.
pub fn serpentine(w: usize, h: usize) -> Layer {
    drawn(w, h, |c, r| {
        r % 2 == 1 || (r % 4 == 2 && c == w - 2) || (r % 4 == 0 && c == 1)
    })
}

/// The way along a serpentine from (1,1) on, cut off after so many samples: a contour of
/// two sticks for each of them and two more.
pub fn snake(w: usize, samples: usize) -> Layer {
    let whole = serpentine(w, 2 * (samples / (w - 1)) + 4);
    drawn(whole.w, whole.h, |c, r| {
        let before = (r - 1) / 2 * (w - 1);
        let along = match r % 4 {
            1 => c - 1,
            3 => w - 2 - c,
            _ => w - 2,
        };
        whole.sample(c, r) && before + along < samples
    })
}

/// A full layer with diagonal slits, three apart, which are open at the border below
/// or to the left and end one sample before the border above or to the right. One
/// contour goes around all of it, as the samples of a slit are joined over corners;
/// with four sticks for most of them it is longer than a serpentine's.
pub fn comb(w: usize, h: usize) -> Layer {
    drawn(w, h, |c, r| {
        (c + 2 * r) % 3 != 0 || c == w - 2 || r == h - 2
    })
}

/// May a spiral go on from (c,r) in this direction? The next sample is free and
/// does not touch the arm beyond it.
fn spiral_step(layer: &Layer, c: usize, r: usize, way: usize) -> Option<(usize, usize)> {
    let step = |c: usize, r: usize| match way {
        0 => (c + 1, r),
        1 => (c, r + 1),
        2 => (c - 1, r),
        _ => (c, r - 1),
    };
    let next = step(c, r);
    if layer.on_border(next.0, next.1) || layer.sample(next.0, next.1) {
        return None;
    }
    let beyond = step(next.0, next.1);
    if layer.sample(beyond.0, beyond.1) {
        return None;
    }
    Some(next)
}

/// One arm that winds inward from (1,1).
pub fn spiral(w: usize, h: usize) -> Layer {
    let mut layer = Layer::blank(w, h);
    let (mut c, mut r, mut way) = (1, 1, 0);
    layer.set(c, r, true);
    loop {
        let turned = (way + 1) % 4;
        match (
            spiral_step(&layer, c, r, way),
            spiral_step(&layer, c, r, turned),
        ) {
            (Some(next), _) => {
                c = next.0;
                r = next.1;
            }
            (None, Some(_)) => way = turned,
            (None, None) => return layer,
        }
        layer.set(c, r, true);
    }
}

/// Discs and rings about random centres.
pub fn discs(rng: &mut Rng, w: usize, h: usize, count: usize) -> Layer {
    let small = w.min(h);
    let mut rings = Vec::new();
    for _ in 0..count {
        let outer = rng.between(1, small / 6);
        let inner = if rng.chance(1, 2) {
            rng.below(outer)
        } else {
            0
        };
        rings.push((rng.below(w), rng.below(h), inner, outer));
    }
    drawn(w, h, |c, r| {
        rings.iter().any(|&(x, y, inner, outer)| {
            let (dx, dy) = (c as i64 - x as i64, r as i64 - y as i64);
            let distance = (dx * dx + dy * dy) as usize;
            inner * inner <= distance && distance < outer * outer
        })
    })
}

/// Contours within contours, some of which touch on a diagonal. In most of them
/// the order by depth is another than that by first stick.
pub fn nested() -> Vec<Layer> {
    let pictures = [
        // a ring around a sample, and a sample above it
        "....... .#..... ....... .#####. .#...#. .#.#.#. .#...#. .#####. .......",
        // rings side by side with smaller ones within, the right one lower
        "............... .#####..######. .#...#..#....#. .#.#.#..#.##.#. .#...#..#.##.#. .#####..#....#. ........######. ...............",
        // two bores side by side in one outline, an outline in each
        "............. .###########. .#...#.....#. .#.#.#.###.#. .#...#.#.#.#. .#####.###.#. .....#.....#. .....#######. .............",
        // a bore that holds an outline that touches it on one diagonal, on the other, and on two
        "........ .######. .#....#. .#.#..#. .##...#. .#....#. .######. ........",
        "........ .######. .#....#. .##...#. .#.#..#. .#....#. .######. ........",
        "......... .#######. .##...##. .#.#.#.#. .#..#..#. .#.....#. .#######. .........",
        // two outlines that touch, in a bore; one of them a ring
        "........ .######. .#....#. .#..#.#. .#.#..#. .#....#. .######. ........",
        ".......... .########. .#......#. .#.###..#. .#.#.#..#. .#.###..#. .#....#.#. .#......#. .########. ..........",
        // outside joined over a corner: a ring that is open there, and one bore in place of two
        "...... ..###. .#..#. .#..#. .####. ......",
        "....... .#####. .#.##.. .##.##. .#####. .......",
    ];
    pictures.iter().map(|rows| shown(rows)).collect()
}

/// The rectangles that are drawn within one, from its lowest to its highest sample
/// each way: none, one, or two side by side or one above the other.
fn within(rng: &mut Rng, [left, low, right, high]: [usize; 4]) -> Vec<[usize; 4]> {
    let margin = rng.pick(&[1, 1, 1, 2]);
    if right < left + 2 * margin || high < low + 2 * margin || rng.chance(1, 12) {
        return Vec::new();
    }
    let (left, right) = (left + margin, right - margin);
    let (low, high) = (low + margin, high - margin);
    let (wide, tall) = (right - left >= 2, high - low >= 2);
    if !(wide || tall) || rng.chance(1, 2) {
        return vec![[left, low, right, high]];
    }
    if tall && (!wide || rng.chance(1, 2)) {
        let gap = rng.between(low + 1, high - 1);
        return vec![[left, low, right, gap - 1], [left, gap + 1, right, high]];
    }
    let gap = rng.between(left + 1, right - 1);
    vec![[left, low, gap - 1, high], [gap + 1, low, right, high]]
}

/// Rings in rings and rings side by side, at random; then so many samples are
/// turned over, so that some contours open or touch on a diagonal.
pub fn rings(rng: &mut Rng, w: usize, h: usize, turned: usize) -> Layer {
    let mut layer = Layer::blank(w, h);
    let mut open = vec![([0, 0, w - 1, h - 1], false)];
    while let Some((area, inside)) = open.pop() {
        let [left, low, right, high] = area;
        for r in low..=high {
            for c in left..=right {
                layer.set(c, r, inside);
            }
        }
        open.extend(within(rng, area).into_iter().map(|part| (part, !inside)));
    }
    for _ in 0..turned {
        let (c, r) = (rng.between(1, w - 2), rng.between(1, h - 2));
        layer.set(c, r, !layer.sample(c, r));
    }
    layer
}
