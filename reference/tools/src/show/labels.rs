//! Names of variables: binders are x0, x1 … in the order they are met, inputs as the legend has it.

use super::legend::Legend;

/// The binders around a node, and how many names were given so far.
pub struct Names {
    legend: Legend,
    scope: Vec<usize>,
    given: usize,
}

impl Names {
    /// No binder was met yet.
    pub fn new(legend: Legend) -> Names {
        Names {
            legend,
            scope: Vec::new(),
            given: 0,
        }
    }

    /// Gives the next name to a binder around what follows.
    pub fn bind(&mut self) -> String {
        self.scope.push(self.given);
        self.given += 1;
        format!("x{}", self.given - 1)
    }

    /// Leaves the scope of the innermost binder.
    pub fn leave(&mut self) {
        self.scope.pop();
    }

    /// The name of a variable: of its binder, or of an input.
    pub fn variable(&self, number: u32) -> String {
        let number = number as usize;
        match self.scope.iter().rev().nth(number) {
            Some(name) => format!("x{name}"),
            None => self.legend.input(number - self.scope.len()),
        }
    }

    /// The name of a call.
    pub fn call(&self, number: u32) -> String {
        self.legend.call(number as usize)
    }
}
