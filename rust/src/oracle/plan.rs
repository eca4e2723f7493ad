//! Plans: the batches of an operation, each a list of bounds, known before a word is looked at.

use super::word::product;

/// The batches of an operation, in the order in which they take words.
pub type Plan = Vec<Vec<u64>>;

/// The most bounds in one batch.
pub const MAX_BATCH: usize = 16;

/// The highest product of a batch of two or more bounds that is cut from a list.
const CUT_LIMIT: u128 = 1 << 56;

/// Cuts a list of bounds: a batch takes the next bound whatever it is, and further bounds while they join.
pub fn cut(bounds: &[u64]) -> Plan {
    let mut plan = Plan::new();
    for &bound in bounds {
        match plan.last_mut() {
            Some(batch) if joins(batch, bound) => batch.push(bound),
            _ => plan.push(vec![bound]),
        }
    }
    plan
}

/// Whether a bound joins a batch: it has fewer than 16, and its product with the new bound is at most 2^56.
fn joins(batch: &[u64], bound: u64) -> bool {
    batch.len() < MAX_BATCH && product(batch) * u128::from(bound) <= CUT_LIMIT
}

/// The shuffle's batch size with m records still to place, 0 where it is finished.
fn shuffle_size(m: usize) -> usize {
    match m {
        0 | 1 => 0,
        2..=6 => m - 1,
        7..=512 => 6,
        513..=2048 => 5,
        _ => 4,
    }
}

/// The batches of a shuffle of n records: with m still to place and batch size s, the bounds m, m - 1, .., m + 1 - s.
pub fn shuffle(n: usize) -> Plan {
    let mut plan = Plan::new();
    let mut m = n;
    while shuffle_size(m) > 0 {
        let s = shuffle_size(m);
        plan.push((m + 1 - s..=m).rev().map(|bound| bound as u64).collect());
        m -= s;
    }
    plan
}

/// The batches of the reservoir of k from n records: the bounds k + 1, .., n, cut as a list of bounds.
pub fn reservoir(n: usize, k: usize) -> Plan {
    let bounds: Vec<u64> = (k + 1..=n).map(|bound| bound as u64).collect();
    cut(&bounds)
}

/// The batches of a sample of k from n records: those of the reservoir, then those of a shuffle of its k slots.
pub fn sample(n: usize, k: usize) -> Plan {
    [reservoir(n, k), shuffle(k)].concat()
}
