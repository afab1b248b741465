//! A term drawn as a tree: values, calls that act and other computations in three colours.

use super::layout::layout;
use super::legend::Legend;
use crate::svg::{Anchor, Drawing};
use oracle::tables::Tables;
use oracle::term::Term;

const COLUMN: f64 = 76.0;
const ROW: f64 = 44.0;
/// Of a column, what is left free between two boxes.
const GAP: f64 = 12.0;
const BOX_HEIGHT: f64 = 24.0;
const MARGIN: f64 = 16.0;
/// The line of the title.
const TITLE: f64 = 24.0;
const LEAST_WIDTH: f64 = 160.0;
const VALUE: &str = "#e4f0d8";
const COMPUTATION: &str = "#fbe3d0";
pub const ACTING: &str = "#f2a373";

/// The tree as SVG text.
pub fn tree_drawing(term: &Term, tables: &Tables, legend: Legend, title: &str) -> String {
    let nodes = layout(term, legend);
    let terms = term.nodes();
    let right_edges = nodes.iter().map(|node| node.column + node.width / 2.0);
    let columns = right_edges.fold(0.0, f64::max);
    let rows = 1 + nodes.iter().map(|node| node.row).max().unwrap_or(0);
    let top = MARGIN + TITLE + ROW / 2.0;
    let place = |index: usize| {
        let node = &nodes[index];
        (MARGIN + node.column * COLUMN, top + node.row as f64 * ROW)
    };
    let width = LEAST_WIDTH.max(2.0 * MARGIN + columns * COLUMN);
    let mut drawing = Drawing::new(width, 2.0 * MARGIN + TITLE + rows as f64 * ROW);
    drawing.label((MARGIN, MARGIN + TITLE / 2.0), Anchor::Start, title);
    for (index, node) in nodes.iter().enumerate() {
        if let Some(parent) = node.parent {
            drawing.line(place(parent), place(index), "#888");
        }
    }
    for (index, node) in nodes.iter().enumerate() {
        let (x, y) = place(index);
        let size = (node.width * COLUMN - GAP, BOX_HEIGHT);
        let colour = colour_of(terms[index], tables);
        drawing.bar((x, y), size, colour);
        drawing.label((x, y + 4.0), Anchor::Middle, &node.label);
    }
    drawing.text()
}

fn colour_of(term: &Term, tables: &Tables) -> &'static str {
    match term {
        Term::Call(number, _) if tables.signature_at(*number).acts => ACTING,
        _ if term.is_value() => VALUE,
        _ => COMPUTATION,
    }
}
