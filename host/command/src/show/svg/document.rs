//! The document itself.

use super::measures::{Across, Label, Measures, BAR, HEAD, MARGIN, SWATCH};
use super::{Column, Drawing, Look, Shape};
use crate::sizes::human;
use std::fmt::Write;

/// How far what is lost reaches out to the other side.
const STUB: f64 = 78.0;

const STYLE: &str = "\
text { font: 12px ui-monospace, 'DejaVu Sans Mono', Menlo, Consolas, monospace; fill: #1d2a3a }
.title { font: 600 19px system-ui, 'Segoe UI', 'DejaVu Sans', Helvetica, sans-serif }
.verdict { font: 500 14px system-ui, 'Segoe UI', 'DejaVu Sans', Helvetica, sans-serif; fill: #17705f }
.bad { fill: #b3121d }
.head { font: 600 14px system-ui, 'Segoe UI', 'DejaVu Sans', Helvetica, sans-serif }
.note { font: 12px system-ui, 'Segoe UI', 'DejaVu Sans', Helvetica, sans-serif; fill: #5b6b7f }
.number { fill: #6b7a8d }
.marked { font-weight: 700 }
.end { text-anchor: end }
.middle { text-anchor: middle }
.bar { fill: #ffffff; stroke: #b9c4d1 }
.leader { fill: none; stroke: #9aa8b8; stroke-width: .7; stroke-opacity: .8 }
.band { fill: #1f9d86; fill-opacity: .22; stroke: #1f9d86; stroke-opacity: .55; stroke-width: .8 }
rect { stroke-width: 1 }
.carried { fill: #35b39b; stroke: #17705f }
.along { fill: #a9dfd3; stroke: #4fa996 }
.lost { fill: url(#hatched); stroke: #b3121d; stroke-width: 1.4 }
.overwritten { fill: url(#dotted); stroke: #b97309 }
.left { fill: #6d8cb0; fill-opacity: .16; stroke: #9aa9ba }
.alone { fill: #f7f9fb; stroke: #8494a7; stroke-dasharray: 4 2.5 }
.stub { fill: url(#fading) }
.cross { stroke: #b3121d; stroke-width: 2; stroke-linecap: round }
.good-name { fill: #17705f }
.bad-name { fill: #b3121d }
.halo { stroke: #ffffff; stroke-width: 4; paint-order: stroke; font-weight: 700 }
";

const PATTERNS: &str = r##"<pattern id="hatched" width="8" height="8" patternUnits="userSpaceOnUse" patternTransform="rotate(45)">
<rect width="8" height="8" fill="#fdecec"/><rect width="3" height="8" fill="#e0525c"/></pattern>
<pattern id="dotted" width="7" height="7" patternUnits="userSpaceOnUse">
<rect width="7" height="7" fill="#fff5e2"/><circle cx="3.5" cy="3.5" r="1.5" fill="#e39b2d"/></pattern>
<linearGradient id="fading"><stop offset="0" stop-color="#d6333f" stop-opacity=".55"/>
<stop offset="1" stop-color="#d6333f" stop-opacity="0"/></linearGradient>
"##;

pub fn drawn(drawing: &Drawing) -> String {
    let measures = Measures::of(drawing);
    let (old, new) = (measures.across(false), measures.across(true));
    let (width, height) = (measures.width(), measures.height());
    let mut out = format!(
        "<svg xmlns=\"http://www.w3.org/2000/svg\" width=\"{width:.0}\" height=\"{height:.0}\" viewBox=\"0 0 {width:.0} {height:.0}\">\n"
    );
    put(&mut out, format_args!("<title>{}</title>", escaped(&drawing.title)));
    put(&mut out, format_args!("<style>\n{STYLE}</style>\n<defs>\n{PATTERNS}</defs>"));
    put(&mut out, format_args!("<rect width=\"{width:.0}\" height=\"{height:.0}\" fill=\"#ffffff\"/>"));
    let bad = if drawing.bad { " bad" } else { "" };
    text(&mut out, (MARGIN, MARGIN + 8.0), "title", &drawing.title);
    for (k, line) in drawing.verdict.iter().enumerate() {
        text(&mut out, (MARGIN, MARGIN + 32.0 + 20.0 * k as f64), &format!("verdict{bad}"), line);
    }
    for (column, across) in [(&drawing.old, &old), (&drawing.new, &new)] {
        bar(&mut out, &measures, across, column);
    }
    bands(&mut out, &measures, drawing, &old, &new);
    for (column, across) in [(&drawing.old, &old), (&drawing.new, &new)] {
        column.shapes.iter().for_each(|shape| area(&mut out, &measures, across, shape));
        labels(&mut out, &measures, across, column);
    }
    stubs(&mut out, &measures, drawing, &old);
    legend(&mut out, &measures);
    out + "</svg>\n"
}

fn put(out: &mut String, line: std::fmt::Arguments) {
    let _ = writeln!(out, "{line}");
}

fn text(out: &mut String, (x, y): (f64, f64), class: &str, text: &str) {
    put(out, format_args!("<text x=\"{x:.1}\" y=\"{y:.1}\" class=\"{class}\">{}</text>", escaped(text)));
}

/// The image as a whole: what no area covers is seen through to it.
fn bar(out: &mut String, measures: &Measures, across: &Across, column: &Column) {
    let (top, bottom) = measures.extent(0, column.len);
    let (left, middle) = (across.outer.min(across.inner), (across.outer + across.inner) / 2.0);
    text(out, (middle, HEAD - 32.0), "head middle", &column.title);
    text(out, (middle, HEAD - 14.0), "note middle", &column.about);
    put(
        out,
        format_args!(
            "<rect x=\"{left:.1}\" y=\"{top:.1}\" width=\"{BAR:.1}\" height=\"{:.1}\" class=\"bar\"/>",
            bottom - top
        ),
    );
}

fn area(out: &mut String, measures: &Measures, across: &Across, shape: &Shape) {
    let (top, bottom) = measures.extent(shape.span.offset, shape.span.end());
    let edge = measures.edge(across, shape);
    let (left, width) = (edge.min(across.inner), (edge - across.inner).abs());
    put(out, format_args!(
        "<rect x=\"{left:.1}\" y=\"{top:.1}\" width=\"{width:.1}\" height=\"{:.1}\" class=\"{}\"><title>{}</title></rect>",
        bottom - top,
        shape.look.class(),
        escaped(&shape.tip)
    ));
}

fn labels(out: &mut String, measures: &Measures, across: &Across, column: &Column) {
    let end = if across.out < 0.0 { " end" } else { "" };
    for Label { shape, wanted, y } in measures.labels(column) {
        let edge = measures.edge(across, shape);
        let (near, far) = (across.outer + across.out * 5.0, across.name - across.out * 5.0);
        let middle = (near + far) / 2.0;
        put(
            out,
            format_args!(
                "<path d=\"M{edge:.1} {wanted:.1}H{near:.1}C{middle:.1} {wanted:.1} {middle:.1} {y:.1} {far:.1} {y:.1}\" class=\"leader\"/>"
            ),
        );
        let look = match shape.look {
            Look::Lost => " bad-name",
            Look::Carried | Look::Along => " good-name",
            _ => "",
        };
        let marked = if shape.marked { " marked" } else { "" };
        let line = y + 4.2;
        text(out, (across.name, line), &format!("name{end}{look}{marked}"), &shape.name);
        text(out, (across.offset, line), "number", &format!("{:#010x}", shape.span.offset));
        text(out, (across.size, line), "number end", &human(shape.span.size));
    }
}

/// What is carried, from edge to edge.
fn bands(out: &mut String, measures: &Measures, drawing: &Drawing, old: &Across, new: &Across) {
    let middle = (old.inner + new.inner) / 2.0;
    for (from, to) in &drawing.bands {
        let ((a, b), (c, d)) =
            (measures.extent(from.offset, from.end()), measures.extent(to.offset, to.end()));
        let (left, right) = (old.inner, new.inner);
        put(
            out,
            format_args!(
                "<path d=\"M{left:.1} {a:.1}C{middle:.1} {a:.1} {middle:.1} {c:.1} {right:.1} {c:.1}\
             V{d:.1}C{middle:.1} {d:.1} {middle:.1} {b:.1} {left:.1} {b:.1}Z\" class=\"band\"/>"
            ),
        );
    }
}

/// What would be lost goes nowhere.
fn stubs(out: &mut String, measures: &Measures, drawing: &Drawing, old: &Across) {
    let (left, x) = (old.inner, old.inner + STUB);
    let middle = (left + x) / 2.0;
    for (shape, y) in measures.lost(&drawing.old) {
        let (top, bottom) = measures.extent(shape.span.offset, shape.span.end());
        let (above, below) = (y - 1.0, y + 1.0);
        put(
            out,
            format_args!(
                "<path d=\"M{left:.1} {top:.1}C{middle:.1} {top:.1} {middle:.1} {above:.1} {x:.1} {above:.1}\
                 V{below:.1}C{middle:.1} {below:.1} {middle:.1} {bottom:.1} {left:.1} {bottom:.1}Z\" class=\"stub\"/>"
            ),
        );
        put(out, format_args!("<path d=\"M{:.1} {:.1}l8 8m0 -8l-8 8\" class=\"cross\"/>", x - 4.0, y - 4.0));
        text(out, (x + 11.0, y + 4.2), "bad-name halo", "lost");
    }
}

/// What each look means, under the bars.
fn legend(out: &mut String, measures: &Measures) {
    for (look, (x, y)) in Look::ALL.into_iter().zip(measures.legend()) {
        put(
            out,
            format_args!(
                "<rect x=\"{x:.1}\" y=\"{:.1}\" width=\"{SWATCH}\" height=\"{SWATCH}\" class=\"{}\"/>",
                y - 11.5,
                look.class()
            ),
        );
        text(out, (x + SWATCH + 8.0, y), "note", look.legend());
    }
    let line =
        "A name in bold is marked PRESERVE. Both images are drawn to one scale, the lowest byte on top.";
    text(out, (MARGIN, measures.height() - 24.0), "note", line);
}

/// Text as XML has it; characters that XML does not allow are left out.
fn escaped(text: &str) -> String {
    let allowed = |c: &char| !matches!(c, '\0'..='\u{8}' | '\u{b}' | '\u{c}' | '\u{e}'..='\u{1f}' | '\u{fffe}' | '\u{ffff}');
    let one = |c: char| match c {
        '&' => "&amp;".to_string(),
        '<' => "&lt;".to_string(),
        '>' => "&gt;".to_string(),
        '"' => "&quot;".to_string(),
        '\'' => "&#39;".to_string(),
        c => c.to_string(),
    };
    text.chars().filter(allowed).map(one).collect()
}

#[cfg(test)]
mod tests {
    use super::escaped;

    #[test]
    fn text_is_escaped() {
        assert_eq!(escaped("a<b>&\"'"), "a&lt;b&gt;&amp;&quot;&#39;");
        assert_eq!(escaped("a\u{0}\u{1b}\u{ffff}Größe\n"), "aGröße\n");
    }
}
