//! Types as formulas: `b0`, `unit`, `b0 → b1`, `b0 × b1`, `b0 + b1`.

use super::legend::Legend;
use oracle::tables::{Tables, Type};

/// A type with more nodes than this is written by its number, as `t17`.
const LARGEST_FORMULA: usize = 12;

/// The types of a table, written with the names of their base types.
#[derive(Clone, Copy)]
pub struct Formulas<'a> {
    pub tables: &'a Tables,
    pub legend: Legend,
}

impl Formulas<'_> {
    /// The type's formula; large parts are written by their numbers.
    pub fn formula(&self, number: u32) -> String {
        self.whole(number).unwrap_or_else(|| self.by_parts(number))
    }

    /// The type by formula if that is short, else by number.
    pub fn short(&self, number: u32) -> String {
        self.whole(number).unwrap_or_else(|| format!("t{number}"))
    }

    /// The formula if it is not too large.
    fn whole(&self, number: u32) -> Option<String> {
        self.within(number, false, &mut { LARGEST_FORMULA })
    }

    /// The formula if it has at most so many nodes; in parentheses if it is a part.
    fn within(&self, number: u32, is_part: bool, nodes: &mut usize) -> Option<String> {
        *nodes = nodes.checked_sub(1)?;
        let entry = self.tables.type_at(number);
        let Some((left, right)) = entry.parts() else {
            return Some(self.without_parts(entry));
        };
        let left = self.within(left, true, nodes)?;
        let right = self.within(right, true, nodes)?;
        Some(compound(entry, &left, &right, is_part))
    }

    /// The formula over the numbers of its two parts.
    fn by_parts(&self, number: u32) -> String {
        let entry = self.tables.type_at(number);
        match entry.parts() {
            Some((left, right)) => {
                compound(entry, &format!("t{left}"), &format!("t{right}"), false)
            }
            None => self.without_parts(entry),
        }
    }

    fn without_parts(&self, entry: Type) -> String {
        match entry {
            Type::Base(name) => self.legend.base(name as usize),
            Type::Unit => String::from("unit"),
            other => panic!("{other:?} has parts"),
        }
    }
}

fn compound(entry: Type, left: &str, right: &str, is_part: bool) -> String {
    let sign = match entry {
        Type::Function(..) => "→",
        Type::Product(..) => "×",
        _ => "+",
    };
    if is_part {
        format!("({left} {sign} {right})")
    } else {
        format!("{left} {sign} {right}")
    }
}
