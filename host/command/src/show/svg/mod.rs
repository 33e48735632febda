//! Two maps drawn to scale, side by side, as one SVG document.

mod document;
mod labels;
mod measures;

pub use document::drawn;

use super::Span;

pub struct Drawing {
    pub title: String,
    /// What the drawing says, in two lines at most.
    pub verdict: Vec<String>,
    /// Whether that is bad.
    pub bad: bool,
    pub old: Column,
    pub new: Column,
    /// What is carried: from the old image, into the new one.
    pub bands: Vec<(Span, Span)>,
}

pub struct Column {
    pub title: String,
    pub about: String,
    /// The image's bytes.
    pub len: u64,
    /// Each after the one that holds it.
    pub shapes: Vec<Shape>,
}

/// An area.
pub struct Shape {
    pub span: Span,
    pub depth: usize,
    /// Whether it holds another one.
    pub parent: bool,
    pub look: Look,
    pub name: String,
    /// Marked PRESERVE.
    pub marked: bool,
    /// What is told of it when it is pointed at.
    pub tip: String,
}

#[derive(Clone, Copy, Debug, PartialEq, Eq)]
pub enum Look {
    Carried,
    /// In a carried area, and comes with it.
    Along,
    Lost,
    Overwritten,
    Left,
    /// In one map alone.
    Alone,
}

impl Look {
    pub const ALL: [Look; 6] =
        [Look::Carried, Look::Along, Look::Lost, Look::Overwritten, Look::Left, Look::Alone];

    fn class(self) -> &'static str {
        match self {
            Look::Carried => "carried",
            Look::Along => "along",
            Look::Lost => "lost",
            Look::Overwritten => "overwritten",
            Look::Left => "left",
            Look::Alone => "alone",
        }
    }

    fn legend(self) -> &'static str {
        match self {
            Look::Carried => "carried",
            Look::Along => "carried with the area around it",
            Look::Lost => "would be lost",
            Look::Overwritten => "overwritten by a carried area",
            Look::Left => "not carried: as each image has it",
            Look::Alone => "in one map alone",
        }
    }
}
