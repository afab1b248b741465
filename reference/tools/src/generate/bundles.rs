//! Damaged bundles: one fault for each reason of refusal 12 that lies in the bytes.

use crate::random::Random;

/// A fault put into a bundle's bytes, after which the reader refuses it with 12.
pub struct BundleDamage {
    pub name: &'static str,
    pub is_small: bool,
    pub apply: fn(&mut Random, &mut Vec<u8>),
}

const fn damage(name: &'static str, apply: fn(&mut Random, &mut Vec<u8>)) -> BundleDamage {
    BundleDamage {
        name,
        is_small: true,
        apply,
    }
}

const fn large_damage(name: &'static str, apply: fn(&mut Random, &mut Vec<u8>)) -> BundleDamage {
    BundleDamage {
        is_small: false,
        ..damage(name, apply)
    }
}

pub const BUNDLE_DAMAGES: &[BundleDamage] = &[
    large_damage("65,537 bytes", |_, bytes| bytes.resize(65_537, 0)),
    large_damage("65,544 bytes, as its header says", |_, bytes| {
        *bytes = oracle::bundle::write_bundle(&[], &[], &[0; 4096], &[0; 4096]);
    }),
    damage("under 8 bytes", |random, bytes| {
        bytes.truncate(random.below(8));
    }),
    damage("low header bit set", |random, bytes| {
        let bit = random.below(12);
        bytes[7 - bit / 8] |= 1 << (bit % 8);
    }),
    damage("bytes left over", |random, bytes| {
        let longer = bytes.len() + random.between(1, 16);
        bytes.resize(longer, 0);
    }),
    damage("bytes end early", |random, bytes| {
        let fewer = random.between(1, bytes.len() - 8);
        bytes.truncate(bytes.len() - fewer);
    }),
    damage("header with another length", |random, bytes| {
        // The lowest bits of the four lengths are the header's bits 51, 38, 25 and 12.
        let bit = *random.pick(&[51, 38, 25, 12]) + random.below(13);
        bytes[7 - bit / 8] ^= 1 << (bit % 8);
    }),
];
