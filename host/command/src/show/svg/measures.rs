//! Where everything stands, in units of the drawing.

use super::labels::spread;
use super::{Column, Drawing, Look, Shape};
use crate::sizes::human;

pub const MARGIN: f64 = 36.0;
pub const HEAD: f64 = 162.0;
/// Under the bars: to the legend's first row, from row to row, and from the last one to the end.
const TO_LEGEND: f64 = 38.0;
const ROW: f64 = 22.0;
const FOOT: f64 = 52.0;
pub const SWATCH: f64 = 14.0;
/// The width of a character of the legend, of the title and of the lines under it.
const LETTER: f64 = 6.7;
const TITLE: f64 = 12.0;
const VERDICT: f64 = 8.2;
pub const BAR: f64 = 128.0;
pub const BETWEEN: f64 = 250.0;
/// From a bar to its labels, at least and at most; and for each unit that a label stands away from its area.
const LEADER: (f64, f64) = (38.0, 190.0);
const LEADER_BY: f64 = 0.2;
/// From label to label.
const LINE: f64 = 17.0;
/// The least height of the bars, and of an area.
const BARS: f64 = 440.0;
const THIN: f64 = 1.5;
/// The width of a character of the labels.
const CHARACTER: f64 = 7.25;
const OFFSET: f64 = 10.0 * CHARACTER;
const SPACE: f64 = 12.0;
/// How far an area's edge is from that of the one that holds it.
const INDENT: f64 = 12.0;
const INNERMOST: f64 = 28.0;

pub struct Measures {
    pub bars: f64,
    unit: f64,
    indent: f64,
    names: [f64; 2],
    sizes: [f64; 2],
    leader: f64,
    /// What the lines on top need.
    least: f64,
}

/// Where an area's label would best stand, and where it does.
pub struct Label<'a> {
    pub shape: &'a Shape,
    pub wanted: f64,
    pub y: f64,
}

/// The horizontal places of a side: the labels' parts, and the bar's edges.
pub struct Across {
    pub name: f64,
    pub offset: f64,
    pub size: f64,
    pub outer: f64,
    pub inner: f64,
    /// From the bar outwards: -1 on the old side, 1 on the new one.
    pub out: f64,
}

impl Measures {
    pub fn of(drawing: &Drawing) -> Measures {
        let columns = [&drawing.old, &drawing.new];
        let shapes = || columns.iter().flat_map(|column| &column.shapes);
        let lines = columns.iter().map(|column| column.shapes.len()).max().unwrap_or(0);
        let bars = BARS.max((lines as f64 + 1.0) * LINE);
        let longest = columns.iter().map(|column| column.len).max().unwrap_or(0).max(1);
        let depth = shapes().map(|shape| shape.depth).max().unwrap_or(0);
        let wide = |texts: Vec<usize>| texts.into_iter().max().unwrap_or(0) as f64 * CHARACTER;
        let names = |column: &Column| wide(column.shapes.iter().map(|shape| shape.name.len() + 1).collect());
        let sizes =
            |column: &Column| wide(column.shapes.iter().map(|shape| human(shape.span.size).len()).collect());
        let mut measures = Measures {
            bars,
            unit: bars / longest as f64,
            indent: INDENT.min((BAR - INNERMOST) / depth.max(1) as f64),
            names: columns.map(names),
            sizes: columns.map(sizes),
            leader: LEADER.0,
            least: drawing
                .verdict
                .iter()
                .map(|line| wide_as(line, VERDICT))
                .fold(wide_as(&drawing.title, TITLE), f64::max),
        };
        let away = columns.iter().flat_map(|column| measures.labels(column));
        let farthest = away.map(|label| (label.y - label.wanted).abs()).fold(0.0, f64::max);
        measures.leader = (LEADER.0 + LEADER_BY * (farthest - LINE).max(0.0)).min(LEADER.1);
        measures
    }

    /// The labels of a column, from its top.
    pub fn labels<'a>(&self, column: &'a Column) -> Vec<Label<'a>> {
        let mut shapes: Vec<&Shape> = column.shapes.iter().collect();
        shapes.sort_by(|a, b| self.wanted(a).total_cmp(&self.wanted(b)));
        let wanted: Vec<f64> = shapes.iter().map(|shape| self.wanted(shape)).collect();
        let placed = spread(&wanted, LINE, (HEAD + LINE / 2.0, HEAD + self.bars - LINE / 2.0));
        let label = |((shape, wanted), y)| Label { shape, wanted, y };
        shapes.into_iter().zip(wanted).zip(placed).map(label).collect()
    }

    /// What would be lost, each with the place of its mark.
    pub fn lost<'a>(&self, column: &'a Column) -> Vec<(&'a Shape, f64)> {
        let middle = |shape: &Shape| {
            let (top, bottom) = self.extent(shape.span.offset, shape.span.end());
            (top + bottom) / 2.0
        };
        let mut shapes: Vec<&Shape> = column.shapes.iter().filter(|shape| shape.look == Look::Lost).collect();
        shapes.sort_by(|a, b| middle(a).total_cmp(&middle(b)));
        let wanted: Vec<f64> = shapes.iter().map(|shape| middle(shape)).collect();
        let placed = spread(&wanted, LINE, (HEAD + LINE / 2.0, HEAD + self.bars - LINE / 2.0));
        shapes.into_iter().zip(placed).collect()
    }

    pub fn across(&self, new: bool) -> Across {
        let before = self.names[0] + self.sizes[0] + OFFSET + 2.0 * SPACE;
        let outer = MARGIN + before + self.leader;
        let inner = outer + BAR + BETWEEN;
        match new {
            false => Across {
                offset: MARGIN,
                size: MARGIN + OFFSET + SPACE + self.sizes[0],
                name: MARGIN + before,
                outer,
                inner: outer + BAR,
                out: -1.0,
            },
            true => Across {
                name: inner + BAR + self.leader,
                offset: inner + BAR + self.leader + self.names[1] + SPACE,
                size: inner + BAR + self.leader + self.names[1] + 2.0 * SPACE + OFFSET + self.sizes[1],
                outer: inner + BAR,
                inner,
                out: 1.0,
            },
        }
    }

    pub fn width(&self) -> f64 {
        (self.across(true).size + MARGIN).max(self.least + 2.0 * MARGIN)
    }

    pub fn height(&self) -> f64 {
        self.legend().last().map_or(0.0, |(_, y)| y + FOOT)
    }

    /// Where each entry of the legend stands, in as many rows as they need.
    pub fn legend(&self) -> Vec<(f64, f64)> {
        let (mut x, mut y) = (MARGIN, HEAD + self.bars + TO_LEGEND);
        let place = |look: Look| {
            let needed = SWATCH + 30.0 + look.legend().len() as f64 * LETTER;
            if x + needed > self.width() && x > MARGIN {
                (x, y) = (MARGIN, y + ROW);
            }
            x += needed;
            (x - needed, y)
        };
        Look::ALL.into_iter().map(place).collect()
    }

    /// Where a byte of an image stands.
    pub fn down(&self, byte: u64) -> f64 {
        HEAD + byte as f64 * self.unit
    }

    /// Top and bottom of bytes, which are seen however few they are.
    pub fn extent(&self, offset: u64, end: u64) -> (f64, f64) {
        let (top, bottom) = (self.down(offset), self.down(end));
        (top, bottom.max(top + THIN))
    }

    /// An area's outer edge.
    pub fn edge(&self, across: &Across, shape: &Shape) -> f64 {
        across.outer - across.out * self.indent * shape.depth as f64
    }

    /// Where an area's label would best stand: in its middle, or at its top if it holds others.
    fn wanted(&self, shape: &Shape) -> f64 {
        let (top, bottom) = self.extent(shape.span.offset, shape.span.end());
        match shape.parent {
            true => top + THIN / 2.0,
            false => (top + bottom) / 2.0,
        }
    }
}

fn wide_as(text: &str, character: f64) -> f64 {
    text.chars().count() as f64 * character
}
