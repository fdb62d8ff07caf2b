//! Why a call is refused.

use std::error::Error;
use std::fmt;

/// Why a call is refused: a case for each question that is put to a call, in the order of their numbers, with its place.
///
/// ```
/// use puzhenim::{Layer, Refusal};
/// let layer = Layer { width: 3, height: 3, bitmap: &[1, 2, 0] };
/// let refusal = layer.sample(1, 1).unwrap_err();
/// assert_eq!(refusal, Refusal::BorderInside { sample: 0 });
/// assert_eq!((refusal.number(), refusal.place()), (4, 0));
/// assert_eq!(refusal.to_string(), "a border sample is inside: sample 0 (question 4)");
/// ```
#[derive(Clone, Copy, Debug, PartialEq, Eq, Hash)]
#[allow(missing_docs)]
pub enum Refusal {
    /// 1: a side is not 2 to 1,024 samples.
    BadSides,
    /// 2: the bitmap has another length than its sides ask for.
    BitmapLength,
    /// 3: a spare bit is set, in this byte of the bitmap.
    SpareBits { byte: u64 },
    /// 4: a border sample is inside, of the number row × width + column.
    BorderInside { sample: u64 },
    /// 5: the hold table has another length than one entry per grid edge.
    TableLength,
    /// 6: this entry is neither 0 off a stick nor that of a vertex on one.
    WrongEntry { entry: u64 },
    /// 7: the layer is not held; the contour that is not starts at this stick.
    NotHeld { stick: u64 },
    /// 8: the roll or sheet is not well formed; the command that is wrong, cut short, missing or extra starts at this byte.
    Malformed { byte: u64 },
    /// 9: the stick that a command names lies off the grid or carries no kept vertex.
    NoKeptVertex { byte: u64, done: u64 },
    /// 10: the new offset is not 1 to 255.
    BadOffset { byte: u64, done: u64 },
    /// 11: a redrawn edge does not cross each of its removed sticks.
    NoCrossing { byte: u64, done: u64 },
    /// 12: a removed vertex would slide farther than the tolerance.
    BeyondTolerance { byte: u64, done: u64 },
    /// 13: fewer than three kept vertices would be left.
    TooFewKept { byte: u64, done: u64 },
    /// 14: an output does not hold the whole answer.
    ShortOutput,
    /// 15: the vertex of this entry is removed, and the call wants every vertex kept.
    SomeRemoved { entry: u64 },
    /// 16, put after 9 and before 10: the vertex to be slid or removed is pinned. Only tracing anew or reading a sheet without the pin takes
    /// a pin away.
    VertexPinned { byte: u64, done: u64 },
}

use Refusal::*;

impl Refusal {
    /// The refusal of this number and place, for a command of a roll after so many done. A number is 1 to 16, as each call promises.
    pub(crate) fn new(number: u32, place: u64, done: u64) -> Refusal {
        match number {
            1 => BadSides,
            2 => BitmapLength,
            3 => SpareBits { byte: place },
            4 => BorderInside { sample: place },
            5 => TableLength,
            6 => WrongEntry { entry: place },
            7 => NotHeld { stick: place },
            8 => Malformed { byte: place },
            9 => NoKeptVertex { byte: place, done },
            10 => BadOffset { byte: place, done },
            11 => NoCrossing { byte: place, done },
            12 => BeyondTolerance { byte: place, done },
            13 => TooFewKept { byte: place, done },
            14 => ShortOutput,
            15 => SomeRemoved { entry: place },
            _ => VertexPinned { byte: place, done },
        }
    }

    /// The number of the question that was answered no, 1 to 16.
    pub fn number(&self) -> u32 {
        match self {
            BadSides => 1,
            BitmapLength => 2,
            SpareBits { .. } => 3,
            BorderInside { .. } => 4,
            TableLength => 5,
            WrongEntry { .. } => 6,
            NotHeld { .. } => 7,
            Malformed { .. } => 8,
            NoKeptVertex { .. } => 9,
            BadOffset { .. } => 10,
            NoCrossing { .. } => 11,
            BeyondTolerance { .. } => 12,
            TooFewKept { .. } => 13,
            ShortOutput => 14,
            SomeRemoved { .. } => 15,
            VertexPinned { .. } => 16,
        }
    }

    /// The place that goes with the refusal, 0 where there is none.
    pub fn place(&self) -> u64 {
        match *self {
            BadSides | BitmapLength | TableLength | ShortOutput => 0,
            SpareBits { byte } | Malformed { byte } => byte,
            BorderInside { sample } => sample,
            WrongEntry { entry } | SomeRemoved { entry } => entry,
            NotHeld { stick } => stick,
            NoKeptVertex { byte, .. }
            | BadOffset { byte, .. }
            | NoCrossing { byte, .. }
            | BeyondTolerance { byte, .. }
            | TooFewKept { byte, .. }
            | VertexPinned { byte, .. } => byte,
        }
    }

    /// How many commands of a roll were done, where an edit is refused.
    pub fn done(&self) -> Option<u64> {
        match *self {
            NoKeptVertex { done, .. }
            | BadOffset { done, .. }
            | NoCrossing { done, .. }
            | BeyondTolerance { done, .. }
            | TooFewKept { done, .. }
            | VertexPinned { done, .. } => Some(done),
            _ => None,
        }
    }

    fn what(&self) -> &'static str {
        match self {
            BadSides => "a side is not 2 to 1024 samples",
            BitmapLength => "the bitmap has another length than its sides ask for",
            SpareBits { .. } => "a spare bit is set",
            BorderInside { .. } => "a border sample is inside",
            TableLength => "the hold table has not one entry per grid edge",
            WrongEntry { .. } => "the hold table has a wrong entry",
            NotHeld { .. } => "the layer is not held",
            Malformed { .. } => "the roll or sheet is not well formed",
            NoKeptVertex { .. } => "the named stick carries no kept vertex",
            BadOffset { .. } => "the new offset is not 1 to 255",
            NoCrossing { .. } => "a redrawn edge does not cross each of its removed sticks",
            BeyondTolerance { .. } => "a removed vertex would slide farther than the tolerance",
            TooFewKept { .. } => "fewer than three kept vertices would be left",
            ShortOutput => "an output does not hold the whole answer",
            SomeRemoved { .. } => "a vertex is removed where all must be kept",
            VertexPinned { .. } => "the vertex is pinned, and only tracing anew or reading a sheet without the pin takes a pin away",
        }
    }
}

impl fmt::Display for Refusal {
    fn fmt(&self, f: &mut fmt::Formatter<'_>) -> fmt::Result {
        f.write_str(self.what())?;
        match *self {
            SpareBits { byte } => write!(f, ": byte {} of the bitmap", byte)?,
            BorderInside { sample } => write!(f, ": sample {}", sample)?,
            WrongEntry { entry } | SomeRemoved { entry } => write!(f, ": entry {}", entry)?,
            NotHeld { stick } => write!(f, ": contour that starts at stick {}", stick)?,
            Malformed { byte } => write!(f, ": command at byte {}", byte)?,
            _ => {}
        }
        if let Some(done) = self.done() {
            write!(f, ": command {} of the roll, at byte {}", done.saturating_add(1), self.place())?;
        }
        write!(f, " (question {})", self.number())
    }
}

impl Error for Refusal {}
