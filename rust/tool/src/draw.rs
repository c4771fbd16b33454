//! Sheets as SVG pages.

use crate::geometry::{Box, Point, Segment};
use crate::labels::{self, Label, Scene, ASCENT};
use crate::page::Page;
use crate::plan::{plan, Ask, Plan, MARGIN, ROW};
use lineage::{Direction, Sheet};
use std::fmt::Write as _;

const COLOURS: [&str; 2] = ["#c22", "#15c"];

/// The page, or what cannot be drawn. x and y have a scale each, so that a sheet of any shape fills the page, and a
/// window too, unless one scale is asked for.
pub fn page(sheet: &Sheet, names: &[String], ask: &Ask) -> Result<String, String> {
    let plan = plan(sheet, ask);
    let asked = asked(&plan, ask)?;
    let labels = labelled(&plan, names, ask, &asked)?;
    let mut svg = String::new();
    head(&mut svg, sheet, ask, &plan, labels.len());
    lines(&mut svg, &plan);
    for (i, &(u, v, along)) in ask.paths.iter().enumerate() {
        highlight(&mut svg, sheet, ask, &plan, i, (u, v, along));
    }
    dots(&mut svg, sheet, names, &plan);
    numbers(&mut svg, &plan, &labels);
    svg.push_str("</svg>\n");
    Ok(svg)
}

/// The dots whose numbers are asked for: the ends of paths, and marks.
fn asked(plan: &Plan, ask: &Ask) -> Result<Vec<usize>, String> {
    let ends = ask.paths.iter().flat_map(|&(u, v, _)| [u, v]);
    ends.chain(ask.marks.iter().copied())
        .map(|lot| match plan.dot_of.get(lot as usize) {
            None => Err(format!("lot {lot}: there is no such lot")),
            Some(Some(dot)) => Ok(*dot),
            Some(None) if plan.part.binary_search(&lot).is_ok() => {
                Err(format!("lot {lot} is not drawn: it is not in the window"))
            }
            Some(None) => Err(format!("lot {lot} is not drawn: it is not in the part below lot {}", ask.root)),
        })
        .collect()
}

fn labelled(plan: &Plan, names: &[String], ask: &Ask, asked: &[usize]) -> Result<Vec<Label>, String> {
    let (wide, high) = (ask.page.width, ask.page.height);
    let scene = Scene {
        dots: &plan.dots,
        radii: &plan.radii,
        lines: &plan.lines,
        ends: &plan.ends,
        held: &plan.held,
        excess: plan.excess(),
        area: Box { left: 2.0, top: ask.top() - 10.0, right: wide - 2.0, bottom: high - 2.0 },
        size: plan.size,
        cells: plan.cells,
        dot_cells: &plan.dot_cells,
        line_cells: &plan.line_cells,
    };
    let numbers: Vec<String> = plan.lots.iter().map(u32::to_string).collect();
    let names: Vec<String> = if names.is_empty() {
        Vec::new()
    } else {
        plan.lots.iter().map(|&v| names[v as usize].chars().take(24).collect()).collect()
    };
    labels::place(&scene, &numbers, &names, asked).map_err(|dot| {
        format!("lot {}: no room for its number: ask for fewer, or for a larger --page", plan.lots[dot])
    })
}

/// A number with its noun.
fn counted(n: usize, one: &str, many: &str) -> String {
    format!("{n} {}", if n == 1 { one } else { many })
}

/// A number with two figures.
fn short(x: f64) -> String {
    let places = (1 - x.abs().log10().floor() as i32).clamp(0, 12) as usize;
    format!("{x:.places$}")
}

/// What is drawn, in a line.
fn caption(sheet: &Sheet, ask: &Ask, plan: &Plan) -> String {
    let n = sheet.tree().lots();
    let mut text = counted(n, "lot", "lots");
    if plan.lots.len() < n {
        text = format!("{} of {text}", plan.lots.len());
    }
    if plan.part.len() < n {
        write!(text, ", from lot {} on", ask.root).unwrap();
    }
    let (wide, high) = plan.view.extent;
    match ask.window.map(|window| window.corner()) {
        Some((a, b)) => write!(text, ", {}: the window at ({a}, {b}) of side {wide}", sheet.rule()).unwrap(),
        None => write!(text, ", {}: {wide} wide, {high} high", sheet.rule()).unwrap(),
    }
    let stretched = plan.view.scale.1 / plan.view.scale.0;
    if !(0.99..1.01).contains(&stretched) {
        write!(text, ", y drawn at {} times the scale of x", short(stretched)).unwrap();
    }
    text
}

/// What the page cannot show, and how held lines look, in a line.
fn remarks(plan: &Plan, labels: usize) -> String {
    let mut remarks = Vec::new();
    if plan.held_lines > 0 {
        remarks.push(format!("{} held: heavy and black", counted(plan.held_lines, "line is", "lines are")));
    }
    if labels < plan.lots.len() {
        remarks.push(format!("{} left out", counted(plan.lots.len() - labels, "number", "numbers")));
    }
    if plan.touching > 0 {
        let dots = counted(plan.touching, "dot touches", "dots touch");
        remarks.push(format!("at this page size {dots} a dot or line of another lot"));
    }
    remarks.join("; ")
}

/// Text for XML; characters that XML has no place for are shown as such.
fn escaped(text: &str) -> String {
    let mut escaped = String::new();
    for c in text.chars() {
        match c {
            '&' => escaped.push_str("&amp;"),
            '<' => escaped.push_str("&lt;"),
            '>' => escaped.push_str("&gt;"),
            '"' => escaped.push_str("&quot;"),
            c if c.is_control() || matches!(c, '\u{fffe}' | '\u{ffff}') => escaped.push('\u{fffd}'),
            c => escaped.push(c),
        }
    }
    escaped
}

/// A line of text at the top, as small as it must be to fit the page.
fn row(svg: &mut String, page: &Page, number: usize, text: &str, (size, fill): (f64, &str)) {
    let size = size.min((page.width - 2.0 * MARGIN) / (labels::ADVANCE * text.chars().count().max(1) as f64));
    let y = 24.0 + ROW * number as f64;
    let text = escaped(text);
    writeln!(svg, "<text x=\"{MARGIN}\" y=\"{y}\" font-size=\"{size:.1}\" fill=\"{fill}\">{text}</text>").unwrap();
}

fn head(svg: &mut String, sheet: &Sheet, ask: &Ask, plan: &Plan, labels: usize) {
    let page = &ask.page;
    writeln!(
        svg,
        "<svg xmlns=\"http://www.w3.org/2000/svg\" width=\"{0}{4}\" height=\"{1}{4}\" viewBox=\"0 0 {2} {3}\" \
         font-family=\"sans-serif\">",
        page.shown.0, page.shown.1, page.width, page.height, page.unit
    )
    .unwrap();
    let caption = caption(sheet, ask, plan);
    let name = if ask.title.is_empty() { &caption } else { &ask.title };
    writeln!(svg, "<title>{}</title>", escaped(name)).unwrap();
    svg.push_str("<rect width=\"100%\" height=\"100%\" fill=\"white\"/>\n");
    let (extent, scale) = (plan.view.extent, plan.view.scale);
    let (wide, high) = (f64::from(extent.0) * scale.0, f64::from(extent.1) * scale.1);
    let top = page.height - MARGIN - high;
    writeln!(
        svg,
        "<rect x=\"{MARGIN}\" y=\"{top:.2}\" width=\"{wide:.2}\" height=\"{high:.2}\" fill=\"none\" stroke=\"#ddd\" \
         stroke-width=\"{:.2}\" stroke-dasharray=\"4 4\"/>",
        plan.stroke.min(1.0)
    )
    .unwrap();
    if !ask.title.is_empty() {
        row(svg, page, 0, &ask.title, (16.0, "#000"));
    }
    row(svg, page, ask.caption_row(), &caption, (13.0, "#555"));
    let remarks = remarks(plan, labels);
    if !remarks.is_empty() {
        row(svg, page, ask.remarks_row(), &remarks, (13.0, "#555"));
    }
}

/// The four numbers of a segment, as attributes.
fn ends_of(segment: &Segment, (across, down): (usize, usize)) -> String {
    let (a, b) = (segment.from, segment.to);
    format!("x1=\"{:.across$}\" y1=\"{:.down$}\" x2=\"{:.across$}\" y2=\"{:.down$}\"", a.x, a.y, b.x, b.y)
}

fn lines(svg: &mut String, plan: &Plan) {
    writeln!(svg, "<g id=\"lines\" stroke=\"#345\" stroke-width=\"{:.2}\">", plan.stroke).unwrap();
    for (i, (line, lot)) in plan.lines.iter().zip(&plan.line_lots).enumerate() {
        let ends = ends_of(line, plan.view.digits);
        let (look, held) = if plan.held[i] { (held_look(plan), ", held") } else { (String::new(), "") };
        writeln!(svg, "<line id=\"line-{lot}\" {ends}{look}><title>line of lot {lot}{held}</title></line>").unwrap();
    }
    svg.push_str("</g>\n");
}

/// How a held line looks, as attributes.
fn held_look(plan: &Plan) -> String {
    format!(" stroke=\"#000\" stroke-width=\"{:.2}\"", plan.heavy())
}

/// A path, what is said of it, and an arrow along its direction in the page's scales.
fn highlight(
    svg: &mut String,
    sheet: &Sheet,
    ask: &Ask,
    plan: &Plan,
    number: usize,
    (u, v, along): (u32, u32, Direction),
) {
    let colour = COLOURS[number];
    let told = if u == v {
        ring(svg, plan, u, colour);
        format!("the path from {u} to itself has no line; its direction is {along}")
    } else {
        trace(svg, sheet, plan, (u, v), colour);
        format!("the path from {u} to {v} rises along {along}")
    };
    let at = ask.caption_row() + 1 + number;
    row(svg, &ask.page, at, &told, (13.0, colour));
    // rising means a positive product with (d, e): on a page with two scales that is a direction divided by them
    let (dx, dy) = (f64::from(along.d) / plan.view.scale.0, -f64::from(along.e) / plan.view.scale.1);
    let centre = Point { x: ask.page.width - MARGIN / 2.0, y: 20.0 + ROW * at as f64 };
    arrow(svg, centre, (16.0 * dx / dx.hypot(dy), 16.0 * dy / dx.hypot(dy)), colour);
}

/// The lines of a path, in its colour.
fn trace(svg: &mut String, sheet: &Sheet, plan: &Plan, (u, v): (u32, u32), colour: &str) {
    let (across, down) = plan.view.digits;
    let path = sheet.tree().path(u, v).unwrap_or_default();
    let wide = (2.0 * plan.stroke).clamp(1.0, 3.0);
    for (i, piece) in pieces(sheet, plan, &path).iter().enumerate() {
        let points: Vec<String> = piece.iter().map(|p| format!("{:.across$},{:.down$}", p.x, p.y)).collect();
        let which = if i == 0 { String::new() } else { format!("-{}", i + 1) };
        writeln!(
            svg,
            "<polyline id=\"path-{u}-{v}{which}\" points=\"{}\" fill=\"none\" stroke=\"{colour}\" \
             stroke-width=\"{wide:.2}\" stroke-opacity=\"0.8\"/>",
            points.join(" ")
        )
        .unwrap();
    }
    path.windows(2).for_each(|step| held_dashes(svg, sheet, plan, (step[0], step[1])));
}

/// The points of a path's pieces: it is one, unless it leaves the window and comes back.
fn pieces(sheet: &Sheet, plan: &Plan, path: &[u32]) -> Vec<Vec<Point>> {
    let mut pieces: Vec<Vec<Point>> = Vec::new();
    let mut at_dot = false;
    for step in path.windows(2) {
        let drawn = stepped(sheet, plan, (step[0], step[1]));
        if let Some((_, line)) = drawn {
            match pieces.last_mut().filter(|_| at_dot) {
                Some(piece) => piece.push(line.to),
                None => pieces.push(vec![line.from, line.to]),
            }
        }
        at_dot = drawn.is_some() && plan.dot_of[step[1] as usize].is_some();
    }
    pieces
}

/// The line on which a path steps from lot to lot, and what is drawn of it, that way round.
fn stepped(sheet: &Sheet, plan: &Plan, (a, b): (u32, u32)) -> Option<(usize, Segment)> {
    let lot = if sheet.tree().parents()[a as usize] == b { a } else { b };
    let line = plan.line_lots.binary_search(&lot).ok()?;
    let Segment { from, to } = plan.lines[line];
    Some((line, if lot == a { Segment { from: to, to: from } } else { Segment { from, to } }))
}

/// Where a path steps from lot to lot over a held line, that line again, in dashes: so both are seen.
fn held_dashes(svg: &mut String, sheet: &Sheet, plan: &Plan, step: (u32, u32)) {
    let Some((line, drawn)) = stepped(sheet, plan, step) else { return };
    if plan.held[line] {
        let (lot, ends) = (plan.line_lots[line], ends_of(&drawn, plan.view.digits));
        let look = held_look(plan) + " stroke-dasharray=\"9 9\"";
        writeln!(svg, "<line {ends}{look}><title>line of lot {lot}, held</title></line>").unwrap();
    }
}

/// The lot that a path does not leave: its dot in a ring, less wide than labels keep away from dots.
fn ring(svg: &mut String, plan: &Plan, lot: u32, colour: &str) {
    let Some(dot) = plan.dot_of[lot as usize] else { return };
    let ((across, down), Point { x, y }) = (plan.view.digits, plan.dots[dot]);
    let radius = plan.radii[dot] + 0.75;
    writeln!(
        svg,
        "<circle id=\"path-{lot}-{lot}\" cx=\"{x:.across$}\" cy=\"{y:.down$}\" r=\"{radius:.2}\" fill=\"none\" \
         stroke=\"{colour}\" stroke-width=\"1.5\"/>"
    )
    .unwrap();
}

fn arrow(svg: &mut String, centre: Point, (dx, dy): (f64, f64), colour: &str) {
    let (tail, tip) = (centre.moved(-dx / 2.0, -dy / 2.0), centre.moved(dx / 2.0, dy / 2.0));
    let (left, right) = (
        tip.moved(-dx / 3.0 - dy / 4.0, -dy / 3.0 + dx / 4.0),
        tip.moved(-dx / 3.0 + dy / 4.0, -dy / 3.0 - dx / 4.0),
    );
    writeln!(
        svg,
        "<path d=\"M{:.1} {:.1}L{:.1} {:.1}M{:.1} {:.1}L{:.1} {:.1}L{:.1} {:.1}\" fill=\"none\" stroke=\"{colour}\" \
         stroke-width=\"1.5\"/>",
        tail.x, tail.y, tip.x, tip.y, left.x, left.y, tip.x, tip.y, right.x, right.y
    )
    .unwrap();
}

/// What is known of a lot.
fn about(sheet: &Sheet, names: &[String], lot: u32) -> String {
    let mut text = format!("lot {lot}");
    if let Some(name) = names.get(lot as usize).filter(|name| !name.is_empty()) {
        write!(text, ", {name}").unwrap();
    }
    match lot {
        0 => text.push_str(", the root"),
        _ => write!(text, ", parent {}", sheet.tree().parents()[lot as usize]).unwrap(),
    }
    let (x, y) = sheet.place(lot).unwrap_or_default();
    write!(text, ", at ({x}, {y})").unwrap();
    if sheet.held()[lot as usize] == 1 {
        text.push_str(", its line is held");
    }
    text
}

fn dots(svg: &mut String, sheet: &Sheet, names: &[String], plan: &Plan) {
    let (across, down) = plan.view.digits;
    svg.push_str("<g id=\"dots\" fill=\"#123\">\n");
    for ((&lot, at), radius) in plan.lots.iter().zip(&plan.dots).zip(&plan.radii) {
        let title = escaped(&about(sheet, names, lot));
        let (x, y) = (at.x, at.y);
        writeln!(
            svg,
            "<circle id=\"lot-{lot}\" cx=\"{x:.across$}\" cy=\"{y:.down$}\" r=\"{radius:.2}\">\
             <title>{title}</title></circle>"
        )
        .unwrap();
    }
    svg.push_str("</g>\n");
}

/// The numbers, each as wide as its place was measured, and the leader lines.
fn numbers(svg: &mut String, plan: &Plan, labels: &[Label]) {
    let size = plan.size;
    svg.push_str("<g id=\"leaders\" stroke=\"#b50\" stroke-width=\"0.7\">\n");
    for (label, leader) in labels.iter().filter_map(|label| Some((label, label.leader?))) {
        writeln!(svg, "<line id=\"leader-{}\" {}/>", plan.lots[label.dot], ends_of(&leader, plan.view.digits))
            .unwrap();
    }
    writeln!(svg, "</g>\n<g id=\"labels\" fill=\"#000\" font-size=\"{size}\">").unwrap();
    for label in labels {
        let (lot, b) = (plan.lots[label.dot], label.bounds);
        let (baseline, wide, text) = (b.top + ASCENT * size, b.right - b.left, escaped(&label.text));
        writeln!(
            svg,
            "<text id=\"label-{lot}\" x=\"{:.2}\" y=\"{baseline:.2}\" textLength=\"{wide:.2}\" \
             lengthAdjust=\"spacingAndGlyphs\">{text}</text>",
            b.left
        )
        .unwrap();
    }
    svg.push_str("</g>\n");
}

#[cfg(test)]
mod tests {
    use super::*;

    #[test]
    fn text_is_escaped() {
        assert_eq!(escaped("a < b & \"c\" \u{1}"), "a &lt; b &amp; &quot;c&quot; \u{fffd}");
    }
}
