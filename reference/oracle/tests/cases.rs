//! The paper's cases A to L, its sample bundle byte for byte, and its traps.

use oracle::api::{check, is_normal, normalize, Answer};
use oracle::bundle::{read_bundle, write_bundle, Lengths};
use oracle::coding::encode;
use oracle::listing::{listing, respond};
use oracle::settings::Settings;
use oracle::term::Term;
use oracle::words::*;

const TYPES: [u64; 4] = [0, 1 << 60, 2 << 60, 3 << 60];
const CALLS: [u64; 2] = [0, 1 << 60];

fn variable(number: u32) -> Term {
    Term::Variable(number)
}

fn c() -> Term {
    Term::Call(0, vec![])
}

fn d(argument: Term) -> Term {
    Term::Call(1, vec![argument])
}

fn let_in(bound: Term, body: Term) -> Term {
    Term::Let(Box::new(bound), Box::new(body))
}

fn case(subject: Term, left: Term, right: Term) -> Term {
    Term::Case(Box::new(subject), Box::new(left), Box::new(right))
}

fn pair(left: Term, right: Term) -> Term {
    Term::Pair(2, Box::new(left), Box::new(right))
}

fn function(body: Term) -> Term {
    Term::Function(1, Box::new(body))
}

fn apply(head: Term, operand: Term) -> Term {
    Term::Application(Box::new(head), Box::new(operand))
}

/// Normalizes over the paper's tables; answers the answer and the normal form's words.
fn flatten(inputs: &[u64], term: &Term, budget: u32, capacity: usize) -> (Answer, Vec<u64>) {
    let mut output = vec![u64::MAX; capacity];
    let mut first_scratch = vec![1; capacity + 3];
    let mut second_scratch = vec![2; capacity + 1];
    let answer = normalize(
        &TYPES,
        &CALLS,
        inputs,
        &encode(term),
        Settings::no_ceilings(budget),
        &mut output,
        &mut first_scratch,
        &mut second_scratch,
    );
    let scratch = [first_scratch, second_scratch].concat();
    assert!(scratch.iter().all(|&word| word == 0));
    assert!(output[answer.length..].iter().all(|&word| word == u64::MAX));
    output.truncate(answer.length);
    (answer, output)
}

/// Asserts the normal form and the counts, in a type of this number.
fn accepts(inputs: &[u64], term: &Term, type_number: u32, result: &Term, counts: [u32; 10]) {
    let words = encode(result);
    let answer = Answer {
        refusal: 0,
        type_number,
        length: words.len(),
        counts,
    };
    assert_eq!(flatten(inputs, term, 1000, 1000), (answer, words.clone()));
    let normal = is_normal(&TYPES, &CALLS, inputs, &words);
    assert!(normal.refusal == 0 && normal.normal);
    let is_unchanged = encode(term) == words;
    let normal = is_normal(&TYPES, &CALLS, inputs, &encode(term));
    assert!(normal.refusal == 0 && normal.normal == is_unchanged);
}

fn refuses(answer: Answer, refusal: u32, counts: [u32; 10]) {
    let expected = Answer {
        refusal,
        type_number: 0,
        length: 0,
        counts,
    };
    assert_eq!(answer, expected);
}

fn case_a() -> Term {
    apply(function(d(variable(0))), c())
}

#[test]
fn case_a_is_accepted() {
    let result = let_in(c(), d(variable(0)));
    accepts(&[], &case_a(), 0, &result, [1, 0, 0, 1, 0, 0, 0, 0, 0, 0]);
}

#[test]
fn case_b_takes_no_steps() {
    accepts(&[0], &variable(0), 0, &variable(0), [0; 10]);
}

#[test]
fn case_c_projects() {
    let term = Term::First(Box::new(pair(variable(0), variable(1))));
    let counts = [0, 0, 0, 0, 1, 0, 0, 0, 0, 0];
    accepts(&[0, 0], &term, 0, &variable(0), counts);
    let term = Term::Second(Box::new(pair(variable(0), variable(1))));
    let counts = [0, 0, 0, 0, 0, 1, 0, 0, 0, 0];
    accepts(&[0, 0], &term, 0, &variable(1), counts);
}

#[test]
fn case_d_drops() {
    let counts = [0, 0, 0, 0, 0, 0, 0, 0, 0, 1];
    accepts(&[0], &let_in(c(), variable(1)), 0, &variable(0), counts);
}

#[test]
fn case_e_takes_a_branch() {
    let left = Term::Left(3, Box::new(variable(0)));
    let term = case(left, variable(0), variable(0));
    let counts = [0, 0, 0, 0, 0, 0, 1, 0, 0, 0];
    accepts(&[0], &term, 0, &variable(0), counts);
    let right = Term::Right(3, Box::new(variable(0)));
    let term = case(right, c(), variable(0));
    let counts = [0, 0, 0, 0, 0, 0, 0, 1, 0, 0];
    accepts(&[0], &term, 0, &variable(0), counts);
}

#[test]
fn case_f_moves_a_case() {
    let choice = case(variable(0), variable(0), variable(0));
    let result = case(variable(0), d(variable(0)), d(variable(0)));
    let counts = [0, 0, 1, 0, 0, 0, 0, 0, 2, 0];
    accepts(&[3], &let_in(choice, d(variable(0))), 0, &result, counts);
}

#[test]
fn case_g_moves_a_let() {
    let result = let_in(c(), let_in(d(variable(0)), d(variable(0))));
    let counts = [2, 1, 0, 0, 0, 0, 0, 0, 0, 0];
    accepts(&[], &d(d(c())), 0, &result, counts);
}

#[test]
fn case_h_spends_the_budget() {
    let (answer, _) = flatten(&[], &case_a(), 1, 1000);
    refuses(answer, 10, [1, 0, 0, 0, 0, 0, 0, 0, 0, 0]);
    assert_eq!(flatten(&[], &case_a(), 2, 1000).0.refusal, 0);
}

#[test]
fn case_i_has_no_capacity() {
    refuses(flatten(&[], &case_a(), 1000, 6).0, 11, [0; 10]);
    refuses(flatten(&[], &case_a(), 1000, 4).0, 11, [0; 10]);
    assert_eq!(flatten(&[], &case_a(), 1000, 7).0.refusal, 0);
}

#[test]
fn case_j_puts_the_budget_before_the_capacity() {
    refuses(flatten(&[], &case_a(), 0, 6).0, 10, [0; 10]);
    // The input's own length comes before both.
    refuses(flatten(&[], &case_a(), 0, 4).0, 11, [0; 10]);
}

#[test]
fn case_k_has_a_word_left_over() {
    assert_eq!(check(&TYPES, &CALLS, &[0], &[0, 0]).refusal, 7);
    assert_eq!(is_normal(&TYPES, &CALLS, &[0], &[0, 0]).refusal, 7);
}

#[test]
fn case_l_has_a_part_that_is_not_earlier() {
    let types = [pack_type(FUNCTION_TYPE, 0, 0)];
    assert_eq!(check(&types, &[], &[0], &[0]).refusal, 2);
}

const SAMPLE_INPUT: [u64; 12] = [
    0x0020008000005000,
    0x0000000000000000,
    0x1000000000000000,
    0x2000000000000000,
    0x3000000000000000,
    0x0000000000000000,
    0x1000000000000000,
    0x3000000000000000,
    0x2000000000000001,
    0x1000000040000000,
    0x0000000000000000,
    0x1000000000000000,
];

const SAMPLE_OUTPUT: &str = "ok 0 4 1 0 0 1 0 0 0 0 0 0
4000000000000000
1000000000000000
1000000040000000
0000000000000000
";

#[test]
fn sample_bundle_gives_the_sample_listing() {
    let bytes = SAMPLE_INPUT.map(u64::to_be_bytes).concat();
    assert_eq!(respond(&bytes), SAMPLE_OUTPUT.as_bytes());
    assert_eq!(write_bundle(&TYPES, &CALLS, &[], &encode(&case_a())), bytes);

    let mut words = [7; 13];
    let lengths = Lengths {
        refusal: 0,
        types: 4,
        calls: 2,
        inputs: 0,
        term: 5,
    };
    assert_eq!(read_bundle(&bytes, &mut words), lengths);
    assert_eq!(words[..11], SAMPLE_INPUT[1..]);
    assert_eq!(words[11..], [7, 7]);
}

#[test]
fn listing_fills_the_front_or_nothing() {
    let (answer, words) = flatten(&[], &case_a(), 2, 7);
    let length = SAMPLE_OUTPUT.len();
    let mut text = vec![b'x'; length + 2];
    assert_eq!(listing(&answer, &words, &mut text), length);
    assert_eq!(text, [SAMPLE_OUTPUT.as_bytes(), b"xx"].concat());
    let mut text = vec![b'x'; length - 1];
    assert_eq!(listing(&answer, &words, &mut text), 0);
    assert_eq!(text, vec![b'x'; length - 1]);
    assert_eq!(listing(&answer, &words[1..], &mut vec![0; 1000]), 0);

    let (answer, words) = flatten(&[], &case_a(), 1, 7);
    let mut text = [0; 26];
    assert_eq!(listing(&answer, &words, &mut text), 26);
    assert_eq!(&text[..], b"no 10 1 0 0 0 0 0 0 0 0 0\n");
}

#[test]
fn a_call_used_twice_is_made_once() {
    let term = let_in(c(), pair(variable(0), variable(0)));
    accepts(&[], &term, 2, &term, [0; 10]);
}

#[test]
fn a_part_moved_under_a_let_is_renumbered() {
    // let (let c, d v0), pair v0 input
    let term = let_in(let_in(c(), d(variable(0))), pair(variable(0), variable(1)));
    let moved = let_in(d(variable(0)), pair(variable(0), variable(2)));
    let counts = [0, 1, 0, 0, 0, 0, 0, 0, 0, 0];
    accepts(&[0], &term, 2, &let_in(c(), moved), counts);
    // let insertion renumbers the other operand: pair (d input) input
    let term = pair(d(variable(0)), variable(0));
    let result = let_in(d(variable(0)), pair(variable(0), variable(1)));
    let counts = [1, 0, 0, 0, 0, 0, 0, 0, 0, 0];
    accepts(&[0], &term, 2, &result, counts);
}

#[test]
fn a_let_of_a_value_is_not_moved() {
    let term = let_in(let_in(variable(0), d(variable(0))), d(variable(0)));
    let result = let_in(d(variable(0)), d(variable(0)));
    let counts = [0, 0, 0, 0, 0, 0, 0, 0, 1, 0];
    accepts(&[0], &term, 0, &result, counts);
}

#[test]
fn a_let_around_a_case_is_copied_into_both_branches() {
    // let (case s, d v0, v0), pair v0 x with inputs s and x
    let choice = case(variable(0), d(variable(0)), variable(0));
    let term = let_in(choice, pair(variable(0), variable(2)));
    let left = let_in(d(variable(0)), pair(variable(0), variable(3)));
    let right = pair(variable(0), variable(2));
    let result = case(variable(0), left, right);
    let counts = [0, 0, 1, 0, 0, 0, 0, 0, 1, 0];
    accepts(&[3, 0], &term, 2, &result, counts);
}

#[test]
fn a_drop_frees_an_earlier_let() {
    let term = let_in(c(), let_in(d(variable(0)), variable(2)));
    let counts = [0, 0, 0, 0, 0, 0, 0, 0, 0, 2];
    accepts(&[0], &term, 0, &variable(0), counts);
}

#[test]
fn a_substituted_value_is_raised_under_binders() {
    // let input, function(d v1): under the function the input is one binder further out
    let term = let_in(variable(0), function(d(variable(1))));
    let result = function(d(variable(1)));
    let counts = [0, 0, 0, 0, 0, 0, 0, 0, 1, 0];
    accepts(&[0], &term, 1, &result, counts);
}
