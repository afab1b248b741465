//! What `show` writes: the tables, the term, and after normalizing the counts and the normal form.

use super::drawing::tree_drawing;
use super::legend::Legend;
use super::tables::tables_text;
use super::terms::term_text;
use super::types::Formulas;
use super::words::words_text;
use crate::generate::limits::Limits;
use crate::generate::Sample;
use oracle::checks::{Checked, Refusal, LONGEST_TO_NORMALIZE};
use oracle::reduction::{walk, Counts};
use oracle::rules::RULE_NAMES;
use oracle::term::Term;

/// A bundle's term before and after normalizing.
pub struct Shown {
    sample: Sample,
    checked: Checked,
    legend: Legend,
    /// The normal form, or why there is none, with the steps taken.
    outcome: Result<Term, Refusal>,
    counts: Counts,
}

/// Reads a bundle and normalizes its term within the program's limits; the refusal by 1 to 9 or 12
/// otherwise.
pub fn show(bytes: &[u8], legend: Legend) -> Result<Shown, Refusal> {
    let sample = Sample::from_bundle(bytes)?;
    let checked = sample.examine()?;
    let (outcome, counts) = normal_form(&checked);
    Ok(Shown {
        sample,
        checked,
        legend,
        outcome,
        counts,
    })
}

/// What the program answers, with the steps taken.
fn normal_form(checked: &Checked) -> (Result<Term, Refusal>, Counts) {
    let Checked { tables, term, .. } = checked;
    if term.size() > LONGEST_TO_NORMALIZE {
        return (Err(Refusal::Lengths), [0; 10]);
    }
    let Limits { settings, lengths } = Limits::OF_PROGRAM;
    match walk(tables, term.clone(), settings, lengths[0]) {
        Ok((normal_form, counts)) => (Ok(normal_form), counts),
        Err(stopped) => (Err(stopped.refusal), stopped.counts),
    }
}

impl Shown {
    fn formulas(&self) -> Formulas<'_> {
        Formulas {
            tables: &self.checked.tables,
            legend: self.legend,
        }
    }

    /// The words of the bundle with their fields.
    pub fn words(&self) -> String {
        words_text(&self.sample, self.formulas(), &self.checked.term)
    }

    /// The tables, the term, the counts and the normal form as text.
    pub fn text(&self) -> String {
        let Checked {
            term, type_number, ..
        } = &self.checked;
        let formulas = self.formulas();
        let mut text = tables_text(formulas);
        text += &format!(
            "before: {} words of type {}\n{}",
            term.size(),
            formulas.short(*type_number),
            term_text(formulas, term)
        );
        let steps: u32 = self.counts.iter().sum();
        text += &format!("steps: {steps}\n");
        for (name, count) in RULE_NAMES.iter().zip(self.counts) {
            if count > 0 {
                text += &format!("  {name} {count}\n");
            }
        }
        text += &match &self.outcome {
            Ok(term) => format!(
                "after: {} words\n{}",
                term.size(),
                term_text(formulas, term)
            ),
            Err(refusal) => format!("refused with {}\n", refusal.number()),
        };
        text
    }

    /// The term and its normal form drawn as trees; the term alone if there is no normal form.
    pub fn drawings(&self) -> (String, Option<String>) {
        let drawing = |term: &Term, when: &str| {
            let title = format!("{when}: {} words", term.size());
            tree_drawing(term, &self.checked.tables, self.legend, &title)
        };
        let before = drawing(&self.checked.term, "before");
        let after = self.outcome.as_ref().ok();
        (before, after.map(|term| drawing(term, "after")))
    }
}
