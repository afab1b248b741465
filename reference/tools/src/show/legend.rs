//! Names that a bundle does not hold: of its base types, calls and inputs.

/// The names in the order of the numbers; what has none is called b0, c0, i0 by its number.
#[derive(Clone, Copy, Debug, Default)]
pub struct Legend {
    pub bases: &'static [&'static str],
    pub calls: &'static [&'static str],
    pub inputs: &'static [&'static str],
}

impl Legend {
    pub fn base(&self, number: usize) -> String {
        name_or_number(self.bases, 'b', number)
    }

    pub fn call(&self, number: usize) -> String {
        name_or_number(self.calls, 'c', number)
    }

    pub fn input(&self, number: usize) -> String {
        name_or_number(self.inputs, 'i', number)
    }

    /// The call as its table lists it: by its number, and its name if it has one.
    pub fn call_entry(&self, number: usize) -> String {
        number_and_name(self.calls, 'c', number)
    }

    /// The input as its table lists it: by its number, and its name if it has one.
    pub fn input_entry(&self, number: usize) -> String {
        number_and_name(self.inputs, 'i', number)
    }
}

fn name_or_number(names: &[&str], letter: char, number: usize) -> String {
    match names.get(number) {
        Some(name) => name.to_string(),
        None => format!("{letter}{number}"),
    }
}

fn number_and_name(names: &[&str], letter: char, number: usize) -> String {
    match names.get(number) {
        Some(name) => format!("{letter}{number} {name}"),
        None => format!("{letter}{number}"),
    }
}
