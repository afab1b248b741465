//! The walk: three phases, each a loop of search, budget, ceiling, measure, capacity and rewriting.

use crate::depths::Depths;
use crate::measure::measure;
use crate::renaming::Substitution;
use crate::rewrite::Buffers;
use crate::search::first_redex;
use crate::usage::Usage;
use oracle::checks::Refusal;
use oracle::reduction::Counts;
use oracle::rules::{Phase, PHASES};
use oracle::settings::Settings;

/// What a walk did, up to its end or a refusal.
#[derive(Default)]
pub struct Record {
    pub counts: Counts,
    /// The length of the longest term.
    pub longest: usize,
}

/// Walks the current term to its normal form within the settings and the capacity.
pub fn walk(
    buffers: &mut Buffers,
    calls: &[u64],
    settings: Settings,
    capacity: usize,
    record: &mut Record,
) -> Result<(), Refusal> {
    record.longest = buffers.length;
    let mut depths = Depths::new();
    let mut substitution = Substitution::new();
    let mut usage = Usage::new(calls);
    let mut remaining = settings.budget;
    let mut allowed = settings.ceilings;
    for phase in PHASES {
        let mut from = 0;
        while let Some(redex) = first_redex(phase, buffers.term(), from, calls, &mut usage) {
            if remaining == 0 {
                return Err(Refusal::Budget);
            }
            let allowed = &mut allowed[redex.rule as usize];
            if *allowed == 0 {
                return Err(Refusal::Ceiling);
            }
            let measured = measure(buffers.term(), redex, calls, &mut depths);
            if measured.next_length > capacity {
                return Err(Refusal::Capacity);
            }
            buffers.rewrite(measured.plan, calls, &mut depths, &mut substitution);
            remaining -= 1;
            *allowed -= 1;
            record.counts[redex.rule as usize] += 1;
            record.longest = record.longest.max(buffers.length);
            from = match phase {
                Phase::Insertion => redex.index,
                // Before the redex only a let that binds it can have become one.
                Phase::Reduction => redex.index.saturating_sub(1),
                // A drop can free any earlier let.
                Phase::Removal => 0,
            };
        }
    }
    Ok(())
}
