//! Ceilings through `normalize`: which one decides, the order of 10, 13 and 11, and raising one.

use flatten::{normalize, Buffers, Counts, Refused, Settings, Tables};

const TABLES: Tables = Tables {
    types: &[0, 1 << 60],
    calls: &[0, 1 << 60],
    inputs: &[],
};

/// The function that calls d on its argument, applied to c: one let, then one apply.
const TERM: [u64; 5] = [3 << 60, 2 << 60 | 1, 1 << 60 | 1 << 30, 0, 1 << 60];

/// The longest term on the way has so many words.
const LONGEST: usize = 7;

const LET: usize = 0;
const APPLY: usize = 3;

/// The word that the buffers hold before each call.
const BEFORE: u64 = 0xdead;

fn with(settings: Settings, rule: usize, ceiling: u32) -> Settings {
    let mut ceilings = settings.ceilings;
    ceilings[rule] = ceiling;
    Settings {
        ceilings,
        ..settings
    }
}

/// No rule allowed but let and apply, each so often.
fn only(budget: u32, lets: u32, applies: u32) -> Settings {
    let nothing = Settings {
        budget,
        ceilings: [0; 10],
    };
    with(with(nothing, LET, lets), APPLY, applies)
}

fn counted(lets: u32, applies: u32) -> Counts {
    only(0, lets, applies).ceilings
}

/// The counts of the normal form or the refusal, and the output after the call. The scratch buffers
/// have to be zero.
fn outcome(settings: Settings, capacity: usize) -> (Result<Counts, Refused>, Vec<u64>) {
    let [mut output, mut first, mut second] = [(); 3].map(|()| vec![BEFORE; capacity]);
    let buffers = Buffers {
        output: &mut output,
        first: &mut first,
        second: &mut second,
    };
    let answer = normalize(TABLES, &TERM, settings, buffers).map(|normal| normal.counts);
    assert_eq!([first, second], [(); 2].map(|()| vec![0; capacity]));
    (answer, output)
}

fn assert_refused(settings: Settings, capacity: usize, number: u32, counts: Counts) {
    let (answer, output) = outcome(settings, capacity);
    assert_eq!(answer, Err(Refused { number, counts }));
    assert_eq!(output, vec![BEFORE; capacity]);
}

#[test]
fn no_ceilings_are_the_largest_numbers() {
    let settings = Settings::no_ceilings(7);
    assert_eq!(
        settings,
        Settings {
            budget: 7,
            ceilings: [u32::MAX; 10]
        }
    );
}

#[test]
fn each_ceiling_is_of_its_own_rule() {
    let (all, _) = outcome(Settings::no_ceilings(2), LONGEST);
    assert_eq!(all, Ok(counted(1, 1)));
    for rule in 0..10 {
        let settings = with(Settings::no_ceilings(2), rule, 0);
        match rule {
            LET => assert_refused(settings, LONGEST, 13, counted(0, 0)),
            APPLY => assert_refused(settings, LONGEST, 13, counted(1, 0)),
            _ => assert_eq!(outcome(settings, LONGEST).0, Ok(counted(1, 1))),
        }
    }
}

#[test]
fn ten_then_thirteen_then_eleven() {
    assert_refused(only(0, 0, 0), LONGEST - 1, 10, counted(0, 0));
    assert_refused(only(1, 0, 0), LONGEST - 1, 13, counted(0, 0));
    assert_refused(only(1, 1, 0), LONGEST - 1, 11, counted(0, 0));
    assert_refused(only(1, 1, 0), LONGEST, 10, counted(1, 0));
    assert_refused(only(2, 1, 0), LONGEST, 13, counted(1, 0));
    assert_refused(only(0, 0, 0), TERM.len() - 1, 11, counted(0, 0));
}

#[test]
fn raising_keeps_what_is_accepted() {
    let least = outcome(only(2, 1, 1), LONGEST);
    assert_eq!(least.0, Ok(counted(1, 1)));
    assert_eq!(outcome(only(3, 1, 1), LONGEST), least);
    for rule in 0..10 {
        assert_eq!(outcome(with(only(2, 1, 1), rule, u32::MAX), LONGEST), least);
    }
}

#[test]
fn the_refusal_says_its_reason() {
    let refused = outcome(only(9, 1, 0), LONGEST).0.unwrap_err();
    let text = "refused with 13: a rule fits and its ceiling is met";
    assert_eq!(refused.to_string(), text);
}
