//! A unit is reduced as an input is that no rule takes apart: the base dialect, with a base type for
//! the unit type and one further input for each unit, has the same steps.

use oracle::api::normalize;
use oracle::coding::encode;
use oracle::dialect::Dialect;
use oracle::free_inputs::free_inputs;
use oracle::term::Term;
use oracle::words::*;
use tools::generate::each::each_unit_sample;
use tools::generate::limits::Limits;
use tools::generate::unit_shapes::moderate_unit_shapes;
use tools::generate::units::small_units;
use tools::generate::Sample;

/// The sample over the base dialect: the unit type is a base type of its own, and each unit one
/// further input of it.
fn with_an_input_for_units(sample: &Sample) -> Option<Sample> {
    let unit_type = pack_type(UNIT_TYPE, 0, 0);
    let number = sample.types.iter().position(|&word| word == unit_type)?;
    let name = (1 << 29..).find(|&name| !sample.types.contains(&pack_type(BASE, name, 0)))?;
    let mut base = sample.clone();
    base.types[number] = pack_type(BASE, name, 0);
    base.inputs.push(number as u64);
    let mut term = sample.examine().ok()?.term;
    replace_units(&mut term, sample.inputs.len() as u32);
    base.term = encode(&term);
    Some(base)
}

/// Puts the variable with this number, under no binder, in the place of each unit.
fn replace_units(term: &mut Term, number: u32) {
    if let Term::Unit(_) = term {
        *term = Term::Variable(number);
    }
    for (role, part) in term.parts_mut() {
        replace_units(part, number + role.binders());
    }
}

/// Both reduce alike, within any limits; answers whether there are units in the normal form.
fn check_as_input(sample: &Sample, limits: Limits) -> Option<bool> {
    let base = with_an_input_for_units(sample)?;
    let mut expected = limits.lengths.map(|length| vec![7; length]);
    let answer = base.normalize_in(Dialect::Base, limits.settings, &mut expected);
    let mut found = limits.lengths.map(|length| vec![7; length]);
    assert_eq!(
        sample.normalize(normalize, limits.settings, &mut found),
        answer
    );
    assert_eq!(sample.is_normal(), base.is_normal_in(Dialect::Base));
    if answer.refusal != 0 {
        return None;
    }
    let later = Sample {
        term: found[0][..answer.length].to_vec(),
        ..sample.clone()
    };
    let as_input = with_an_input_for_units(&later)?;
    assert_eq!(as_input.term, expected[0][..answer.length]);

    let mut read = base.free_inputs(free_inputs);
    let further = sample.inputs.len();
    let mark = 1 << (63 - further % 64);
    assert_eq!(read.marks[further / 64] & mark != 0, sample.has_unit());
    read.marks[further / 64] &= !mark;
    read.count -= u32::from(sample.has_unit());
    assert_eq!(sample.free_inputs(free_inputs), read);
    Some(later.has_unit())
}

#[test]
fn units_are_reduced_as_an_input_is() {
    let (mut compared, mut with_units) = (0, 0);
    each_unit_sample(85, 4000, 60, |random, sample| {
        let limits = Limits::with_capacity(random, 400, 600);
        if let Some(has_unit) = check_as_input(&sample, limits) {
            compared += 1;
            with_units += usize::from(has_unit);
        }
        let budget = random.below(20) as u32;
        let capacity = random.between(1, 80);
        check_as_input(&sample, Limits::with_capacity(random, budget, capacity));
    });
    assert!(
        compared > 3000 && with_units > 700,
        "{compared}, {with_units}"
    );
    for shape in small_units().into_iter().chain(moderate_unit_shapes()) {
        let compared = check_as_input(&shape.sample, Limits::OF_PROGRAM);
        assert!(compared.is_some(), "{}", shape.name);
    }
}
