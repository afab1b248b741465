//! Both implementations on one sort of samples: at their limits, damaged, and in named shapes.

use crate::compared::agree;
use tools::generate::damage::{apply_damages, damages, Damage};
use tools::generate::each::{each_sample, Make};
use tools::generate::limits::{near_needs, Limits};
use tools::generate::shapes::Shape;
use tools::generate::Sample;

/// Asserts that both agree with just enough budget and capacity and with a little less.
pub fn agree_at_the_edge(make: Make, seed: u64) {
    let mut refusals = [0; 12];
    each_sample(make, seed, 2500, 60, |random, sample| {
        for limits in near_needs(random, &sample, 2000) {
            let answer = agree(&sample, limits, "at the edge");
            refusals[answer.refusal as usize] += 1;
        }
    });
    for refusal in [0, 10, 11] {
        assert!(refusals[refusal] > 1000, "{refusals:?}");
    }
}

/// Asserts that both refuse damaged samples, about half of them by a damage of this sort, and
/// ill-typed ones.
pub fn agree_on_damages(make: Make, seed: u64, of_sort: &[Damage], ill_typed: Vec<Sample>) {
    each_sample(make, seed, 6000, 40, |random, mut sample| {
        let small: Vec<_> = damages().into_iter().filter(|d| d.is_small).collect();
        let damage = if random.chance(50) {
            random.pick(of_sort)
        } else {
            *random.pick(&small)
        };
        let refusal = apply_damages(random, &mut sample, &[damage]);
        let limits = Limits::with_capacity(random, 100, 100);
        let answer = agree(&sample, limits, damage.name);
        assert_eq!(answer.refusal, refusal, "{}", damage.name);
    });
    for sample in ill_typed {
        let answer = agree(&sample, Limits::OF_PROGRAM, "ill typed");
        assert_eq!(answer.refusal, 9);
    }
}

/// Asserts that both accept these shapes, and agree when they may take one step less.
pub fn agree_on_shapes(shapes: impl Iterator<Item = Shape>) {
    for Shape { name, sample } in shapes {
        let answer = agree(&sample, Limits::OF_PROGRAM, name);
        assert_eq!(answer.refusal, 0, "{name}");
        let steps: u32 = answer.counts.iter().sum();
        let limits = Limits::with_budget(steps.saturating_sub(1));
        agree(&sample, limits, name);
    }
}

/// Asserts that both refuse shapes that are too long.
pub fn agree_on_long_shapes(shapes: Vec<Shape>) {
    for Shape { name, sample } in shapes {
        let answer = agree(&sample, Limits::OF_PROGRAM, name);
        assert_eq!(answer.refusal, 1, "{name}");
    }
}
