//! Contours of a sampled layer, by the proved library `libpuzhenim.a`.
//!
//! A [`Layer`] is a bitmap of inside and outside samples. Its contours are held in a table that has an entry for each grid edge: 0 where
//! the edge is no stick, else the vertex on the stick (see [`Vertex`]). Every call is put questions in a fixed order; the first that is
//! answered no refuses the call with a [`Refusal`] and leaves every buffer as found, but for the earlier commands of a roll. No function
//! has a precondition, and none panics. A call needs at most 272 kB of stack, so that a thread of 512 kB runs every one.
//!
//! ```
//! use puzhenim::Layer;
//! let layer = Layer { width: 3, height: 3, bitmap: &[0, 2, 0] };
//! let mut table = layer.new_table();
//! layer.trace(&mut table)?;
//! layer.smooth(&mut table, 100)?;
//! layer.simplify(&mut table, 64)?;
//! assert_eq!(layer.sheet(&table)?, b"L\x03\0\x03\0C\0\0\0\x01\0K\xFFK\xFFK\x01K\x01E");
//! # Ok::<(), puzhenim::Refusal>(())
//! ```

#![deny(unsafe_code)]
#![warn(missing_docs)]

mod area;
mod contours;
mod edge;
mod layer;
mod list;
#[allow(unsafe_code)]
mod raw;
mod refusal;
mod view;

pub use area::{Area, Areas, Sum};
pub use edge::{Edge, Vertex};
pub use layer::{Counts, Layer, Measured, Planned, Simplified, Smoothed};
pub use list::{Item, Kind, List};
pub use refusal::Refusal;
pub use view::View;
