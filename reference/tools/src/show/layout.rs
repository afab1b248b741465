//! A layered layout: a node's row is its depth, leaves stand side by side, a node over its parts.

use super::labels::Names;
use super::legend::Legend;
use oracle::term::{Role, Term};

/// A node's label and place; places are counted in columns and rows.
pub struct Placed {
    pub label: String,
    /// The middle.
    pub column: f64,
    /// Columns that the label takes, with the space beside it.
    pub width: f64,
    pub row: usize,
    /// The index of the node it is a part of.
    pub parent: Option<usize>,
}

/// All nodes in prefix order.
pub fn layout(term: &Term, legend: Legend) -> Vec<Placed> {
    let mut layout = Layout {
        names: Names::new(legend),
        nodes: Vec::new(),
        columns: 0.0,
    };
    layout.place(term, None, 0);
    layout.nodes
}

struct Layout {
    names: Names,
    nodes: Vec<Placed>,
    /// Columns taken so far.
    columns: f64,
}

impl Layout {
    /// Places a node and its parts.
    fn place(&mut self, term: &Term, parent: Option<usize>, row: usize) {
        let index = self.nodes.len();
        self.nodes.push(Placed {
            label: self.label(term),
            column: 0.0,
            width: 0.0,
            row,
            parent,
        });
        let start = self.columns;
        let mut parts = Vec::new();
        let mut bound = Vec::new();
        for (role, part) in term.parts() {
            parts.push(self.nodes.len());
            if role == Role::Scope {
                bound.push(self.names.bind());
                self.place(part, Some(index), row + 1);
                self.names.leave();
            } else {
                self.place(part, Some(index), row + 1);
            }
        }
        if !bound.is_empty() {
            let label = &mut self.nodes[index].label;
            *label = format!("{label} {}", bound.join(" | "));
        }
        let width = width_of(&self.nodes[index].label);
        self.widen(index, start, width);
        let middle = match (parts.first(), parts.last()) {
            (Some(&first), Some(&last)) => {
                (self.nodes[first].column + self.nodes[last].column) / 2.0
            }
            _ => start + width / 2.0,
        };
        let (leftmost, rightmost) = (start + width / 2.0, self.columns - width / 2.0);
        self.nodes[index].column = middle.max(leftmost).min(rightmost);
        self.nodes[index].width = width;
    }

    /// Takes at least so many columns from `start` for a node and its parts, which stay in the
    /// middle of them.
    fn widen(&mut self, index: usize, start: f64, width: f64) {
        let missing = start + width - self.columns;
        if missing > 0.0 {
            for part in &mut self.nodes[index + 1..] {
                part.column += missing / 2.0;
            }
            self.columns = start + width;
        }
    }

    /// What the node is, without the variables that it binds.
    fn label(&self, term: &Term) -> String {
        match term {
            Term::Variable(number) => self.names.variable(*number),
            Term::Call(number, _) => self.names.call(*number),
            Term::Function(..) => "λ".into(),
            Term::Application(..) => "apply".into(),
            Term::Let(..) => "let".into(),
            Term::Pair(..) => "pair".into(),
            Term::First(_) => "first".into(),
            Term::Second(_) => "second".into(),
            Term::Left(..) => "left".into(),
            Term::Right(..) => "right".into(),
            Term::Case(..) => "case".into(),
            Term::Unit(_) => "()".into(),
        }
    }
}

/// A column holds about seven characters and the space beside them.
fn width_of(label: &str) -> f64 {
    (label.chars().count() as f64 + 3.5) / 10.5
}
