//! Terms as text and as drawings.

use oracle::deep_stack::with_deep_stack;
use tools::generate::boundaries::normal_chain;
use tools::generate::deep::named_deep_shapes;
use tools::generate::examples::examples;
use tools::generate::shapes::{branching, sample, typical, B, B_AND_B, B_OR_B};
use tools::generate::{phrases, Sample};
use tools::show::drawing::ACTING;
use tools::show::layout::layout;
use tools::show::legend::Legend;
use tools::show::report::{show, Shown};

fn shown(sample: &Sample) -> Shown {
    show(&sample.bundle(), Legend::default())
        .unwrap_or_else(|refusal| panic!("refused with {refusal:?}"))
}

/// The lines from the term on.
fn lines_of_terms(sample: &Sample) -> String {
    let text = shown(sample).text();
    let start = text
        .find("before")
        .expect("the term comes before its normal form");
    text[start..].to_owned()
}

#[test]
fn names_and_counts() {
    use phrases::*;
    let body = call(1, &[&variable(0)]);
    let term = apply(&function(1, &body), &call(0, &[]));
    let expected = "\
before: 5 words of type b0
  (λx0: b0. c1(x0)) c0()
steps: 2
  let 1
  apply 1
after: 4 words
  let x0 = c0() in
  c1(x0)
";
    assert_eq!(lines_of_terms(&sample(&[], term)), expected);
}

#[test]
fn branches_and_inputs() {
    use phrases::*;
    let on_left = pair(B_AND_B, &variable(0), &variable(2));
    let on_right = let_in(
        &call(1, &[&variable(0)]),
        &pair(B_AND_B, &variable(0), &variable(1)),
    );
    let term = case(&variable(0), &on_left, &on_right);
    let expected = "\
before: 11 words of type b0 × b0
  case i0 of
    left x0: (x0, i1)
    right x1:
      let x2 = c1(x1) in
      (x2, x1)
steps: 0
";
    assert!(lines_of_terms(&sample(&[B_OR_B, B], term)).starts_with(expected));
}

#[test]
fn units_and_their_type() {
    use phrases::*;
    use tools::generate::units::{self, B_AND_U, GIVE, TAKE, U, U_TO_B};
    let helper = function(U_TO_B, &call(TAKE, &[&unit(U)]));
    let pair = pair(B_AND_U, &apply(&variable(0), &unit(U)), &call(GIVE, &[]));
    let sample = units::sample(&[U], let_in(&helper, &pair));
    let expected = "\
before: 9 words of type b0 × unit
  let x1 = λx0: unit. c3(()) in
  (x1 (), c2())
steps: 4
  let 2
  apply 1
  let value 1
after: 8 words
  let x0 = c3(()) in
  let x1 = c2() in
  (x0, x1)
";
    assert_eq!(lines_of_terms(&sample), expected);
    let text = shown(&sample).text();
    for line in [
        "  t1 = unit\n",
        "  t3 = b0 + unit\n",
        "  c3(unit): b0\n",
        "  i0: unit\n",
    ] {
        assert!(text.contains(line), "{line}");
    }
    let words = shown(&sample).words();
    assert!(words.contains("4000000000000000     4     0      0  t1 = unit\n"));
    assert!(words.contains("b000000000000001    11       0     1        ()\n"));
    let (drawing, _) = shown(&sample).drawings();
    assert_eq!(drawing.matches(">()</text>").count(), 2);
}

#[test]
fn calls_that_act() {
    use phrases::*;
    use tools::generate::acting::{self, begin, d};
    let term = let_in(&begin(), &let_in(&d(1), &variable(2)));
    let sample = acting::sample(&[B], term);
    let expected = "\
before: 6 words of type b0
  let x0 = c2() in
  let x1 = c1(i0) in
  i0
steps: 1
  drop 1
after: 3 words
  let x0 = c2() in
  i0
";
    assert_eq!(lines_of_terms(&sample), expected);
    let text = shown(&sample).text();
    let calls = "\
calls
  c0(): b0
  c1(b0): b0
  c2(): b0, acting
  c3(b0): b0, acting
  c4(b0, b0): b0, acting
  c5(b0, b0, b0): b0, acting
  c6(): b0 + b0, acting
  c7(b0 → b0): b0
inputs
";
    assert!(text.contains(calls), "{text}");
    // The words have the count, which is not the number of arguments.
    let words = shown(&sample).words();
    for line in [
        "calls             count  result  their types\n",
        "1000000000000000      1       0    0   0   0  c1(b0): b0\n",
        "8000000000000000      8       0    0   0   0  c2(): b0, acting\n",
        "b000000000000000     11       0    0   0   0  c5(b0, b0, b0): b0, acting\n",
    ] {
        assert!(words.contains(line), "{words}");
    }
    // In the drawings such a call has a colour of its own.
    let (before, after) = shown(&sample).drawings();
    for drawing in [before, after.expect("a normal form")] {
        assert_eq!(drawing.matches(ACTING).count(), 1);
    }
}

#[test]
fn tables() {
    let text = shown(&branching(1)).text();
    let expected = "\
types
  t0 = b0
  t1 = b0 → b0
  t2 = b0 × b0
  t3 = b0 + b0
  t4 = (b0 → b0) → (b0 → b0)
  t5 = (b0 → b0) × (b0 → b0)
calls
  c0(): b0
  c1(b0): b0
inputs
  i0: b0 + b0
";
    assert!(text.starts_with(expected), "{text}");
}

#[test]
fn refusals() {
    let refusal = |bytes: &[u8]| show(bytes, Legend::default()).err().map(|why| why.number());
    assert_eq!(refusal(&[0; 7]), Some(12));
    assert_eq!(refusal(&[0; 8]), Some(1));
    let shown = shown(&branching(30));
    assert!(shown.text().ends_with("refused with 11\n"));
    assert!(shown.drawings().1.is_none());
    // A term may be shown that is too long to be normalized.
    let text = self::shown(&normal_chain(1366)).text();
    assert!(text.ends_with("refused with 1\n"));
}

#[test]
fn drawings_have_a_box_for_each_word() {
    with_deep_stack(|| {
        let deep = named_deep_shapes().into_iter().map(|shape| shape.sample);
        let samples = typical(3, 20).into_iter().chain(deep);
        for sample in samples {
            let shown = shown(&sample);
            let (before, _) = shown.drawings();
            assert_eq!(before.matches("rx=").count(), sample.term.len());
            assert!(shown.text().lines().all(|line| !line.ends_with(' ')));
        }
    });
}

#[test]
fn boxes_do_not_overlap() {
    let with_long_labels = examples().map(|example| (example.sample, example.legend));
    let without_names = typical(5, 40).into_iter();
    let without_names = without_names.map(|sample| (sample, Legend::default()));
    for (sample, legend) in without_names.chain(with_long_labels) {
        let term = sample.examine().expect("a well-typed term").term;
        let mut nodes = layout(&term, legend);
        nodes.sort_by(|one, other| {
            (one.row, one.column)
                .partial_cmp(&(other.row, other.column))
                .expect("numbers")
        });
        for pair in nodes.windows(2).filter(|pair| pair[0].row == pair[1].row) {
            let [one, other] = pair else { continue };
            let distance = other.column - one.column;
            assert!(distance >= (one.width + other.width) / 2.0 - 1e-6);
        }
    }
}
