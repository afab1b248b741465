//! Packing and unpacking of table words: fields from the most significant bit downwards.

/// Kinds of type words.
pub const BASE: u64 = 0;
pub const FUNCTION_TYPE: u64 = 1;
pub const PRODUCT: u64 = 2;
pub const SUM: u64 = 3;
pub const UNIT_TYPE: u64 = 4;

/// Kinds of term words.
pub const VARIABLE: u64 = 0;
pub const CALL: u64 = 1;
pub const FUNCTION: u64 = 2;
pub const APPLICATION: u64 = 3;
pub const LET: u64 = 4;
pub const PAIR: u64 = 5;
pub const FIRST: u64 = 6;
pub const SECOND: u64 = 7;
pub const LEFT: u64 = 8;
pub const RIGHT: u64 = 9;
pub const CASE: u64 = 10;
pub const UNIT: u64 = 11;

/// By how much the count of an acting call exceeds the number of its arguments.
pub const ACTING: u64 = 8;

/// The value of the `width` bits of `word` which start at bit `low`.
fn field(word: u64, low: u32, width: u32) -> u64 {
    (word >> low) & ((1 << width) - 1)
}

/// The value as the `width` bits of a word which start at bit `low`.
fn placed(value: u64, low: u32, width: u32) -> u64 {
    assert!(value >> width == 0, "{value} has more than {width} bits");
    value << low
}

/// A type word: 4 bits of kind, 30 of left, 30 of right.
pub fn pack_type(kind: u64, left: u64, right: u64) -> u64 {
    placed(kind, 60, 4) | placed(left, 30, 30) | placed(right, 0, 30)
}

/// Kind, left and right of a type word.
pub fn unpack_type(word: u64) -> (u64, u64, u64) {
    (field(word, 60, 4), field(word, 30, 30), field(word, 0, 30))
}

/// A call word: count 4 bits, result type 15, three argument types of 15.
pub fn pack_call(count: u64, result: u64, arguments: [u64; 3]) -> u64 {
    let [first, second, third] = arguments;
    let arguments = placed(first, 30, 15) | placed(second, 15, 15) | placed(third, 0, 15);
    placed(count, 60, 4) | placed(result, 45, 15) | arguments
}

/// Count, result type and the three argument fields of a call word.
pub fn unpack_call(word: u64) -> (u64, u64, [u64; 3]) {
    let arguments = [field(word, 30, 15), field(word, 15, 15), field(word, 0, 15)];
    (field(word, 60, 4), field(word, 45, 15), arguments)
}

/// What a call word's count says: the number of arguments, and whether the call acts. `None` for
/// 4 to 7 and 12 to 15.
pub fn read_count(count: u64) -> Option<(usize, bool)> {
    let acts = count >= ACTING;
    let arguments = if acts { count - ACTING } else { count };
    (arguments <= 3).then_some((arguments as usize, acts))
}

/// A term word: 4 bits of kind, 30 of number, 30 of type.
pub fn pack_term(kind: u64, number: u64, type_number: u64) -> u64 {
    placed(kind, 60, 4) | placed(number, 30, 30) | placed(type_number, 0, 30)
}

/// Kind, number and type of a term word.
pub fn unpack_term(word: u64) -> (u64, u64, u64) {
    (field(word, 60, 4), field(word, 30, 30), field(word, 0, 30))
}

/// A bundle's header: 13 bits each for types, calls, inputs and term words, then 12 zero bits.
pub fn pack_header(lengths: [u64; 4]) -> u64 {
    let [types, calls, inputs, term] = lengths;
    placed(types, 51, 13) | placed(calls, 38, 13) | placed(inputs, 25, 13) | placed(term, 12, 13)
}

/// The four lengths and the low 12 bits of a header.
pub fn unpack_header(word: u64) -> ([u64; 4], u64) {
    let lengths = [
        field(word, 51, 13),
        field(word, 38, 13),
        field(word, 25, 13),
        field(word, 12, 13),
    ];
    (lengths, field(word, 0, 12))
}
