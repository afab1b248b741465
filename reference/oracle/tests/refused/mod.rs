//! The refusals of one sort of samples: ill typed, damaged, and with a flipped bit.

use oracle::free_inputs::free_inputs;
use tools::generate::damage::{apply_damages, damages, flip_a_bit, Damage};
use tools::generate::each::{each_sample, Make};
use tools::generate::Sample;

/// The refusal by all calls that do not normalize, which is the same.
pub fn refusal(sample: &Sample) -> u32 {
    let refusal = sample.check().refusal;
    assert_eq!(sample.is_normal().refusal, refusal);
    assert_eq!(sample.free_inputs(free_inputs).refusal, refusal);
    refusal
}

/// Asserts that each sample is refused with 9.
pub fn check_ill_typed(samples: Vec<Sample>) {
    for sample in samples {
        assert_eq!(refusal(&sample), 9, "{:x?}", sample.term);
    }
}

/// Asserts that each damage gives its number, and of two, one of them of this sort, the lower one.
pub fn check_damages(make: Make, [of_one, of_two]: [u64; 2], of_sort: &[Damage]) {
    for damage in damages().into_iter().filter(|damage| damage.is_small) {
        each_sample(make, of_one, 150, 40, |random, mut sample| {
            let expected = apply_damages(random, &mut sample, &[damage]);
            assert_eq!(refusal(&sample), expected, "{}", damage.name);
        });
    }
    each_sample(make, of_two, 4000, 40, |random, mut sample| {
        let (one, other) = (random.pick(of_sort), *random.pick(&damages()));
        if one.refusal != other.refusal && other.is_small {
            let expected = apply_damages(random, &mut sample, &[one, other]);
            assert_eq!(refusal(&sample), expected, "{}, {}", one.name, other.name);
        }
    });
}

/// Asserts that flipped bits are refused with each number from 2 to 9.
pub fn check_flipped_bits(make: Make, seed: u64) {
    let mut refusals = [0; 10];
    each_sample(make, seed, 10_000, 40, |random, mut sample| {
        flip_a_bit(random, &mut sample);
        refusals[refusal(&sample) as usize] += 1;
    });
    assert!(
        refusals[2..].iter().all(|&count| count > 10),
        "{refusals:?}"
    );
}
