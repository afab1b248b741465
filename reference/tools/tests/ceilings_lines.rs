//! Lines of `ceilings`: their fields, and how often each refusal falls.

use oracle::deep_stack::with_deep_stack;
use tools::lines::ceilings::ceilings_line;
use tools::lines::lines;

fn numbers(field: &str) -> Vec<u64> {
    let words = field.split_whitespace().map(str::parse);
    words.map(|word| word.expect("a number")).collect()
}

#[test]
fn each_refusal_falls_often() {
    let lines: Vec<String> = with_deep_stack(|| lines(ceilings_line, 1, 2000).collect());
    assert_eq!(lines.len(), 2000);
    let mut refusals = [0; 14];
    let mut met = [0; 10];
    for line in &lines {
        let fields: Vec<Vec<u64>> = line.split(';').map(numbers).collect();
        assert_eq!(fields.len(), 14);
        let [_, _, _, _, budget, ceilings, output, first, second, refusal, type_number, length, counts, normal_form] =
            &fields[..]
        else {
            panic!("{line}")
        };
        for one in [budget, output, first, second, refusal, type_number, length] {
            assert_eq!(one.len(), 1);
        }
        assert_eq!((ceilings.len(), counts.len()), (10, 10));
        assert_eq!(normal_form.len(), length[0] as usize);
        assert!(ceilings.iter().all(|&ceiling| ceiling <= u32::MAX.into()));
        // No count passes its ceiling, and all together do not pass the budget.
        assert!(counts.iter().zip(ceilings).all(|(uses, most)| uses <= most));
        assert!(counts.iter().sum::<u64>() <= budget[0]);
        refusals[refusal[0] as usize] += 1;
        if refusal[0] == 13 {
            for (met, (uses, ceiling)) in met.iter_mut().zip(counts.iter().zip(ceilings)) {
                *met += usize::from(uses == ceiling);
            }
        }
    }
    for refusal in [0, 10, 11, 13] {
        assert!(refusals[refusal] > 150, "{refusals:?}");
    }
    assert!(refusals[1..10].iter().all(|&n| n > 2), "{refusals:?}");
    assert!(refusals[1..10].iter().sum::<usize>() < 300, "{refusals:?}");
    assert!(met.iter().all(|&n| n > 20), "{met:?}");
}
