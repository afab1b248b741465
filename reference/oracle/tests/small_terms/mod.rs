//! Named small terms beside their normal forms and counts, which were found by hand.

use oracle::api::{normalize, Answer};
use oracle::reduction::Counts;
use oracle::settings::Settings;
use tools::generate::phrases::Phrase;
use tools::generate::shapes::Shape;
use tools::generate::Sample;

/// The name of a small term, its normal form and the counts.
pub type Reduced = (&'static str, Phrase, Counts);

/// The answer and the normal form's words; the rest of the buffers is as it should be.
pub fn normal_form(sample: &Sample) -> (Answer, Vec<u64>) {
    let mut buffers = [vec![7; 60], vec![8; 60], vec![9; 60]];
    let answer = sample.normalize(normalize, Settings::no_ceilings(100), &mut buffers);
    let [output, first_scratch, second_scratch] = buffers;
    assert!(output[answer.length..].iter().all(|&word| word == 7));
    assert_eq!([first_scratch, second_scratch], [[0; 60], [0; 60]]);
    (answer, output[..answer.length].to_vec())
}

/// Asserts that each shape is one of `reduced`, and has that normal form, or one of `normal`, and
/// stays.
pub fn check_shapes(shapes: Vec<Shape>, mut reduced: Vec<Reduced>, normal: &[&str]) {
    for Shape { name, sample } in shapes {
        let (answer, words) = normal_form(&sample);
        assert_eq!(answer.refusal, 0, "{name}");
        assert_eq!(answer.type_number, sample.check().type_number);
        let index = reduced.iter().position(|(other, ..)| *other == name);
        let expected = match index.map(|index| reduced.remove(index)) {
            Some((_, normal_form, counts)) => (normal_form, counts),
            None => {
                assert!(normal.contains(&name), "{name}");
                (sample.term.clone(), [0; 10])
            }
        };
        assert_eq!((words, answer.counts), expected, "{name}");
        assert_eq!(sample.is_normal().normal, index.is_none(), "{name}");
    }
    assert_eq!(reduced, []);
}
