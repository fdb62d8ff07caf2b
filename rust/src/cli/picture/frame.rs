//! How large a sample is drawn, what is marked, and where the grid stands on the page.

use crate::page::{round, Page, HEAD, MARGIN};
use puzhenim::Layer;

/// The grid's longer side in pixels, if the pitch is then within its bounds.
const SIDE: f64 = 960.0;
const FINEST: f64 = 2.0;
const COARSEST: f64 = 64.0;

/// The least pitch in pixels at which samples, and vertices, are marked.
const SAMPLES_FROM: f64 = 8.0;
const VERTICES_FROM: f64 = 4.0;

/// What the line of figures needs, and what the number of pinned vertices adds to it.
const LEAST_WIDTH: f64 = 660.0;
const PINNED_WIDTH: f64 = 120.0;

const STYLE: &str = "\
.outline{fill:#e3ebf4;stroke:#1b5e9e;stroke-linejoin:round}
.bore{fill:#fff;stroke:#c8501e;stroke-linejoin:round}
.dot{fill:none;stroke-linecap:round}
.in{stroke:#7d92a8}
.out{stroke:#d3d3d3}
.kept-outline{stroke:#1b5e9e}
.kept-bore{stroke:#c8501e}
.removed{stroke:#8a3fb0;stroke-opacity:.55}
";

/// The style of the marks at pinned vertices, squares in place of round marks; it stands only in a picture of pinned vertices.
const PINNED_STYLE: &str = ".pinned{stroke:#1d7a35;stroke-linecap:square}\n";

pub struct Frame {
    columns: f64,
    rows: f64,
    /// The pitch in pixels.
    scale: f64,
    /// The factor by which texts are enlarged, so that they can be read when the whole picture is shown.
    unit: f64,
    has_pinned: bool,
}

impl Frame {
    /// The frame of a layer with or without pinned vertices.
    pub fn of(layer: Layer, has_pinned: bool) -> Frame {
        let (columns, rows) = (f64::from(layer.width), f64::from(layer.height));
        let longer = columns.max(rows);
        let scale = (SIDE / longer).clamp(FINEST, COARSEST);
        Frame { columns, rows, scale, unit: (longer * scale / SIDE).max(1.0), has_pinned }
    }

    pub fn marks_samples(&self) -> bool {
        self.scale >= SAMPLES_FROM
    }

    pub fn marks_vertices(&self) -> bool {
        self.scale >= VERTICES_FROM
    }

    /// How wide a contour's line is, in pixels.
    pub fn line(&self) -> f64 {
        (self.scale / 8.0).clamp(1.2, 2.4)
    }

    /// The width of a mark in pixels, from its width at a pitch of 16.
    pub fn mark(&self, pixels: f64) -> f64 {
        (self.scale / 16.0).min(1.5) * pixels
    }

    /// Pixels in 1/256ths of the pitch.
    pub fn pen(&self, pixels: f64) -> f64 {
        round(pixels * 256.0 / self.scale)
    }

    pub fn page(&self) -> Page {
        let least = if self.has_pinned { LEAST_WIDTH + PINNED_WIDTH } else { LEAST_WIDTH };
        let width = self.across().max(least) + 2.0 * MARGIN;
        Page { width, unit: self.unit, style: [STYLE, if self.has_pinned { PINNED_STYLE } else { "" }].concat() }
    }

    /// How wide the grid is on the page.
    fn across(&self) -> f64 {
        self.columns * self.scale / self.unit
    }

    /// How high the grid is on the page.
    pub fn up(&self) -> f64 {
        self.rows * self.scale / self.unit
    }

    /// The grid in the middle of the page, with the shapes. Sample (0, 0) is half a pitch from its lower left corner, and y grows upward.
    pub fn grid(&self, page: &Page, shapes: &str) -> String {
        let (across, up) = (self.across(), self.up());
        let (left, pitch) = ((page.width - across) / 2.0, self.scale / self.unit);
        format!(
            "<rect class=\"grid\" x=\"{}\" y=\"{}\" width=\"{}\" height=\"{}\"/>\n\
             <g transform=\"translate({} {}) scale({fine} -{fine})\">\n{}</g>\n",
            round(left),
            HEAD,
            round(across),
            round(up),
            round(left + pitch / 2.0),
            round(HEAD + up - pitch / 2.0),
            shapes,
            fine = pitch / 256.0,
        )
    }
}
