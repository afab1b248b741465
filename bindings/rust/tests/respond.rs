//! The call `respond` on two shipped examples, and on bundles that cannot be read.

use flatten::respond;

const SAMPLE: &[u8] = include_bytes!("../../../examples/sample.bundle");
const SAMPLE_LISTING: &[u8] = include_bytes!("../../../examples/sample.listing");
const REGISTER: &[u8] = include_bytes!("../../../examples/register.bundle");
const README: &str = include_str!("../../../README.md");

/// A listing as README.md shows it.
fn indented(listing: &str) -> String {
    listing
        .lines()
        .map(|line| format!("    {line}\n"))
        .collect()
}

#[test]
fn the_sample_is_listed_as_in_its_file() {
    assert_eq!(respond(SAMPLE), SAMPLE_LISTING);
}

#[test]
fn the_register_is_listed_as_in_the_readme() {
    let listing = String::from_utf8(respond(REGISTER)).expect("a listing is ASCII");
    assert!(listing.starts_with("ok 4 21 "));
    assert!(README.contains(&indented(&listing)), "{listing}");
}

#[test]
fn what_is_no_bundle_is_refused_with_12() {
    let too_long = [SAMPLE, &[0; 8]].concat();
    for bytes in [&[], &SAMPLE[..7], &SAMPLE[..SAMPLE.len() - 1], &too_long] {
        assert_eq!(respond(bytes), b"no 12 0 0 0 0 0 0 0 0 0 0\n");
    }
}
