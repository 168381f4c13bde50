//! A message sequence chart as SVG.
use crate::names::Names;
use crate::trace::{Lane, Step, Trace, What};
use std::fmt::Write;

const LANE: usize = 270;
const ROW: usize = 22;
/// The height of a further line of a label, and how many characters fit between two lanes.
const LINE: usize = 13;
const FITS: usize = 40;

fn x(lane: Lane) -> usize {
    let place = match lane {
        Lane::LinkSide => 0,
        Lane::Gateway => 1,
        Lane::Asp(p) => 2 + p,
    };
    90 + LANE * place
}

fn escaped(text: &str) -> String {
    text.replace('&', "&amp;")
        .replace('<', "&lt;")
        .replace('>', "&gt;")
}

/// A label in lines that fit between two lanes.
fn wrapped(label: &str) -> Vec<String> {
    let mut lines = vec![String::new()];
    for word in label.split(' ') {
        let last = lines.len() - 1;
        let line = &mut lines[last];
        if line.is_empty() {
            line.push_str(word);
        } else if line.chars().count() + 1 + word.chars().count() <= FITS {
            line.push(' ');
            line.push_str(word);
        } else {
            lines.push(word.to_string());
        }
    }
    lines
}

/// A text whose last line stands at a height, the others above it.
fn label(out: &mut String, lines: &[String], at: usize, y: usize, style: &str) {
    let _ = write!(
        out,
        "<text x=\"{at}\" y=\"{}\"{style}>",
        y - LINE * (lines.len() - 1)
    );
    for (i, line) in lines.iter().enumerate() {
        let text = escaped(line);
        let _ = match i {
            0 => write!(out, "{text}"),
            _ => write!(out, "<tspan x=\"{at}\" dy=\"{LINE}\">{text}</tspan>"),
        };
    }
    let _ = writeln!(out, "</text>");
}

/// The whole chart, with numbers for ASPs and ASes.
pub fn picture(trace: &Trace) -> String {
    named(trace, &Names::default())
}

/// The whole chart, with a title and names. Rows of one event stand together.
pub fn named(trace: &Trace, names: &Names) -> String {
    let top = if names.title.is_empty() { 30 } else { 62 };
    let mut rows = String::new();
    let (mut y, mut event) = (top + 26, 0);
    for step in &trace.steps {
        if step.event != event {
            y += if event == 0 { 0 } else { ROW / 2 };
            event = step.event;
        }
        let lines = wrapped(&names.label(&step.label));
        y += ROW + LINE * (lines.len() - 1);
        row(&mut rows, step, &lines, y);
    }
    let lanes = 2 + trace.asps;
    let (width, height) = (90 + LANE * (lanes - 1) + 120, y + 30);
    let mut out = String::new();
    let _ = writeln!(out, "<svg xmlns=\"http://www.w3.org/2000/svg\" viewBox=\"0 0 {width} {height}\" width=\"{width}\" height=\"{height}\" font-family=\"sans-serif\" font-size=\"11\"><style>text {{ paint-order: stroke; stroke: white; stroke-width: 3px; }}</style>");
    let _ = writeln!(out, "<defs><marker id=\"to\" viewBox=\"0 0 8 8\" refX=\"8\" refY=\"4\" markerWidth=\"8\" markerHeight=\"8\" orient=\"auto\"><path d=\"M0 0L8 4L0 8z\"/></marker></defs>");
    let _ = writeln!(
        out,
        "<rect width=\"{width}\" height=\"{height}\" fill=\"white\"/>"
    );
    if !names.title.is_empty() {
        let title = escaped(&names.title);
        let _ = writeln!(
            out,
            "<text x=\"20\" y=\"28\" font-weight=\"bold\" font-size=\"16\">{title}</text>"
        );
    }
    for place in 0..lanes {
        lifeline(&mut out, &names.lane(place), 90 + LANE * place, top, height);
    }
    out + &rows + "</svg>\n"
}

fn lifeline(out: &mut String, name: &str, at: usize, top: usize, height: usize) {
    let name = escaped(name);
    let _ = writeln!(out, "<text x=\"{at}\" y=\"{top}\" text-anchor=\"middle\" font-weight=\"bold\" font-size=\"13\">{name}</text>");
    let _ = writeln!(
        out,
        "<line x1=\"{at}\" y1=\"{}\" x2=\"{at}\" y2=\"{}\" stroke=\"#999\"/>",
        top + 10,
        height - 10
    );
}

fn row(out: &mut String, step: &Step, lines: &[String], y: usize) {
    match &step.what {
        What::Message(from, to, _) | What::Primitive(from, to) => {
            let (a, b) = (x(*from), x(*to));
            let dash = if matches!(step.what, What::Primitive(..)) {
                " stroke-dasharray=\"5 3\""
            } else {
                ""
            };
            let _ = writeln!(out, "<line x1=\"{a}\" y1=\"{y}\" x2=\"{b}\" y2=\"{y}\" stroke=\"black\"{dash} marker-end=\"url(#to)\"/>");
            label(out, lines, a.min(b) + 12, y - 4, "");
        }
        What::Lost(p) => {
            let (a, b) = (x(Lane::Gateway), x(Lane::Asp(*p)));
            let _ = writeln!(out, "<line x1=\"{a}\" y1=\"{y}\" x2=\"{b}\" y2=\"{y}\" stroke=\"#c00\" stroke-dasharray=\"2 4\"/>");
            let _ = writeln!(
                out,
                "<path d=\"M{0} {1}l10 10m0 -10l-10 10\" stroke=\"#c00\"/>",
                b - 5,
                y - 5
            );
            label(out, lines, a + 12, y - 4, " fill=\"#c00\"");
        }
        What::Note => {
            let at = x(Lane::Gateway);
            let _ = writeln!(out, "<circle cx=\"{at}\" cy=\"{}\" r=\"3\"/>", y - 4);
            label(
                out,
                lines,
                at + 12,
                y,
                " font-style=\"italic\" fill=\"#036\"",
            );
        }
    }
}
