//! The run of a plan over the words: taken in list order, one accepted word for each batch.

use super::word::{accepted, rolls, L};
use crate::refusal::Refusal;

/// What one batch took: the place of its accepted word in the list, and its rolls.
pub struct Taken {
    /// The place of the accepted word.
    pub place: usize,
    /// The rolls of the accepted word.
    pub rolls: Vec<u64>,
}

/// A run that gave every batch its word.
pub struct Trace {
    /// What each batch of the plan took.
    pub batches: Vec<Taken>,
    /// The place after the last word used.
    pub next: usize,
    /// The count of rejected words.
    pub rejected: usize,
}

impl Trace {
    /// The rolls of all batches, one batch after the other.
    pub fn rolls(&self) -> Vec<u64> {
        rolls_of(&self.batches)
    }
}

/// The rolls of these batches, one batch after the other.
pub fn rolls_of(batches: &[Taken]) -> Vec<u64> {
    batches.iter().flat_map(|taken| taken.rolls.iter().copied()).collect()
}

/// Runs a plan over the words from the start place, or names the first batch that got no word.
pub fn run(plan: &[Vec<u64>], words: &[u64], start: usize) -> Result<Trace, Refusal> {
    let mut trace = Trace { batches: Vec::new(), next: start, rejected: 0 };
    for (batch, bounds) in plan.iter().enumerate() {
        loop {
            let place = trace.next;
            let Some(&word) = words.get(place) else {
                return Err(Refusal::Words { batch });
            };
            trace.next += 1;
            if accepted(L, bounds, word) {
                let (rolls, _) = rolls(L, bounds, word);
                trace.batches.push(Taken { place, rolls });
                break;
            }
            trace.rejected += 1;
        }
    }
    Ok(trace)
}
