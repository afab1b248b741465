//! Seeded generators of samples: well-typed terms with their tables, damaged ones, boundary sizes.

pub mod acting;
pub mod acting_damage;
pub mod acting_shapes;
pub mod boundaries;
pub mod bundles;
pub mod calls;
pub mod ceiling_shapes;
pub mod ceilings;
pub mod damage;
pub mod deep;
pub mod each;
pub mod ends;
pub mod examples;
pub mod ill_typed;
pub mod inputs;
pub mod later_examples;
pub mod limits;
pub mod long_readings;
pub mod phrases;
pub mod places;
pub mod runs;
pub mod shapes;
pub mod steps;
pub mod tables;
pub mod terms;
pub mod unit_damage;
pub mod unit_shapes;
pub mod units;
pub mod values;

use oracle::bundle::{read_bundle, write_bundle};
use oracle::checks::{examine, Checked, Refusal, LONGEST_TO_EXAMINE};
use oracle::words::{pack_call, read_count, unpack_call, unpack_term, ACTING, CALL, UNIT};

/// Three tables and a term as words.
#[derive(Clone, Debug, PartialEq, Eq)]
pub struct Sample {
    pub types: Vec<u64>,
    pub calls: Vec<u64>,
    pub inputs: Vec<u64>,
    pub term: Vec<u64>,
}

impl Sample {
    /// The decoded sample, or its refusal by a call that does not normalize.
    pub fn examine(&self) -> Result<Checked, Refusal> {
        examine(
            &self.types,
            &self.calls,
            &self.inputs,
            &self.term,
            LONGEST_TO_EXAMINE,
        )
    }

    /// Whether some node is a unit.
    pub fn has_unit(&self) -> bool {
        self.term.iter().any(|&word| unpack_term(word).0 == UNIT)
    }

    /// Whether some call of the table acts.
    pub fn has_acting_call(&self) -> bool {
        self.calls.iter().any(|&word| acts(word))
    }

    /// Whether some node names a call that acts; the nodes' calls are known.
    pub fn names_acting_call(&self) -> bool {
        let mut nodes = self.term.iter().map(|&word| unpack_term(word));
        nodes.any(|(kind, number, _)| kind == CALL && acts(self.calls[number as usize]))
    }

    /// The same sample, except that no call acts; the calls' counts are known.
    pub fn without_acting_calls(&self) -> Sample {
        let calls = self.calls.iter().map(|&word| {
            let (count, result, types) = unpack_call(word);
            pack_call(count % ACTING, result, types)
        });
        Sample {
            calls: calls.collect(),
            ..self.clone()
        }
    }

    /// The number of words in all four tables.
    pub fn words(&self) -> usize {
        self.types.len() + self.calls.len() + self.inputs.len() + self.term.len()
    }

    /// The tables of a bundle, which are not checked.
    pub fn from_bundle(bytes: &[u8]) -> Result<Sample, Refusal> {
        let mut words = vec![0; LONGEST_TO_EXAMINE];
        let lengths = read_bundle(bytes, &mut words);
        if lengths.refusal != 0 {
            return Err(Refusal::Bundle);
        }
        let (types, rest) = words.split_at(lengths.types);
        let (calls, rest) = rest.split_at(lengths.calls);
        let (inputs, rest) = rest.split_at(lengths.inputs);
        Ok(Sample {
            types: types.to_vec(),
            calls: calls.to_vec(),
            inputs: inputs.to_vec(),
            term: rest[..lengths.term].to_vec(),
        })
    }

    /// The sample as a bundle.
    pub fn bundle(&self) -> Vec<u8> {
        write_bundle(&self.types, &self.calls, &self.inputs, &self.term)
    }
}

/// Whether this call word is that of a call that acts.
fn acts(word: u64) -> bool {
    read_count(unpack_call(word).0).is_some_and(|(_, acts)| acts)
}

/// What kind of sample to generate.
#[derive(Clone, Copy, Debug)]
pub struct Profile {
    pub most_types: usize,
    pub most_calls: usize,
    pub most_inputs: usize,
    /// About the largest term wanted, in words.
    pub fuel: usize,
    /// No function in the types of inputs, result and calls: demand 3's premise.
    pub first_order: bool,
    /// With the unit type.
    pub units: bool,
    /// With calls that act, in most of the samples, and with unused lets.
    pub acting: bool,
}

impl Profile {
    /// Small samples, for a theorem prover's computation.
    pub const SMALL: Profile = Profile {
        most_types: 8,
        most_calls: 5,
        most_inputs: 4,
        fuel: 20,
        first_order: false,
        units: false,
        acting: false,
    };

    /// The same with space for the words that damages insert.
    pub const SMALLER: Profile = Profile {
        most_types: 5,
        most_calls: 4,
        most_inputs: 3,
        ..Profile::SMALL
    };

    /// Samples for the property tests, with about this many term words at most.
    pub fn of_size(fuel: usize) -> Profile {
        Profile {
            most_types: 16,
            most_calls: 8,
            most_inputs: 6,
            fuel,
            first_order: false,
            units: false,
            acting: false,
        }
    }

    /// The same, meeting demand 3's premise.
    pub fn first_order(self) -> Profile {
        Profile {
            first_order: true,
            ..self
        }
    }

    /// The same with the unit type.
    pub fn with_units(self) -> Profile {
        Profile {
            units: true,
            ..self
        }
    }

    /// The same with calls that act.
    pub fn with_acting_calls(self) -> Profile {
        Profile {
            acting: true,
            ..self
        }
    }
}
