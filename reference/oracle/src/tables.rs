//! The type, call and input tables in decoded form.

use crate::words::*;

/// A type table entry; parts are numbers of earlier entries.
#[derive(Clone, Copy, Debug, PartialEq, Eq)]
pub enum Type {
    Base(u32),
    Function(u32, u32),
    Product(u32, u32),
    Sum(u32, u32),
    Unit,
}

impl Type {
    /// Decodes a word; `None` if the kind is unknown or an unused field is set.
    pub fn from_word(word: u64) -> Option<Type> {
        let (kind, left, right) = unpack_type(word);
        let (left, right) = (left as u32, right as u32);
        match kind {
            BASE if right == 0 => Some(Type::Base(left)),
            FUNCTION_TYPE => Some(Type::Function(left, right)),
            PRODUCT => Some(Type::Product(left, right)),
            SUM => Some(Type::Sum(left, right)),
            UNIT_TYPE if left == 0 && right == 0 => Some(Type::Unit),
            _ => None,
        }
    }

    /// The two parts; base types and the unit type have none.
    pub fn parts(self) -> Option<(u32, u32)> {
        match self {
            Type::Base(_) | Type::Unit => None,
            Type::Function(left, right) | Type::Product(left, right) | Type::Sum(left, right) => {
                Some((left, right))
            }
        }
    }
}

/// A call's signature: argument types and result type, and whether the call acts, that is, does
/// something even where its answer is not used.
#[derive(Clone, Debug, PartialEq, Eq)]
pub struct Signature {
    pub arguments: Vec<u32>,
    pub result: u32,
    pub acts: bool,
}

impl Signature {
    /// Decodes a word; `None` if the count is unknown or a field past the arguments is set.
    pub fn from_word(word: u64) -> Option<Signature> {
        let (count, result, fields) = unpack_call(word);
        let (arguments, acts) = read_count(count)?;
        let (used, unused) = fields.split_at(arguments);
        unused.iter().all(|&field| field == 0).then(|| Signature {
            arguments: used.iter().map(|&field| field as u32).collect(),
            result: result as u32,
            acts,
        })
    }

    /// Argument types and the result type.
    pub fn types(&self) -> impl Iterator<Item = u32> + '_ {
        self.arguments.iter().copied().chain([self.result])
    }
}

/// The three tables a term is read against.
#[derive(Clone, Debug, PartialEq, Eq)]
pub struct Tables {
    pub types: Vec<Type>,
    pub signatures: Vec<Signature>,
    pub inputs: Vec<u32>,
}

impl Tables {
    /// Decodes tables; `None` if a word cannot be decoded or a part is not earlier.
    pub fn from_words(types: &[u64], calls: &[u64], inputs: &[u64]) -> Option<Tables> {
        Some(Tables {
            types: decode_types(types)?,
            signatures: decode_calls(calls, types.len())?,
            inputs: decode_inputs(inputs, types.len())?,
        })
    }

    /// The type with this number, which is in the table.
    pub fn type_at(&self, number: u32) -> Type {
        self.types[number as usize]
    }

    /// The signature of the call with this number, which is in the table.
    pub fn signature_at(&self, number: u32) -> &Signature {
        &self.signatures[number as usize]
    }

    /// Whether some call of the table acts, be it in a term or not.
    pub fn has_acting_call(&self) -> bool {
        self.signatures.iter().any(|signature| signature.acts)
    }
}

/// Decodes a type table whose parts are all earlier entries.
pub fn decode_types(words: &[u64]) -> Option<Vec<Type>> {
    let earlier = |index: usize, number: u32| (number as usize) < index;
    words
        .iter()
        .enumerate()
        .map(|(index, &word)| {
            let entry = Type::from_word(word)?;
            match entry.parts() {
                Some((left, right)) if !earlier(index, left) || !earlier(index, right) => None,
                _ => Some(entry),
            }
        })
        .collect()
}

/// Decodes a call table over `type_count` types.
pub fn decode_calls(words: &[u64], type_count: usize) -> Option<Vec<Signature>> {
    words
        .iter()
        .map(|&word| {
            let signature = Signature::from_word(word)?;
            let known = signature.types().all(|t| (t as usize) < type_count);
            known.then_some(signature)
        })
        .collect()
}

/// Decodes an input table over `type_count` types; whole words count.
pub fn decode_inputs(words: &[u64], type_count: usize) -> Option<Vec<u32>> {
    words
        .iter()
        .map(|&word| (word < type_count as u64).then_some(word as u32))
        .collect()
}
