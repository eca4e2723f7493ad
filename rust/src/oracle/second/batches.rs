//! How a list of bounds falls into batches: by the cut, for a list and a sample, or by the sizes of a shuffle.

use super::word::share;

/// The most bounds in one batch.
pub const MAX_BATCH: usize = 16;

/// The highest product that a batch reaches by a further bound is 2^56.
const CUT_WIDTH: u32 = 56;

/// The rows of the shuffle's batch sizes: from how many records still to place, to how many, and the size.
const SIZES: [(u64, u64, usize); 8] =
    [(2_049, 16_384, 4), (513, 2_048, 5), (7, 512, 6), (6, 6, 5), (5, 5, 4), (4, 4, 3), (3, 3, 2), (2, 2, 1)];

/// The batches of a list, where `size` tells for what is left of it the size of the next batch.
fn batches(bounds: &[u64], size: impl Fn(&[u64]) -> usize) -> Vec<&[u64]> {
    let mut batches = Vec::new();
    let mut left = bounds;
    while !left.is_empty() {
        let (batch, later) = left.split_at(size(left));
        batches.push(batch);
        left = later;
    }
    batches
}

/// Cuts a list of bounds by trying every end: a batch of two or more has its end as far on as its count and its product
/// allow, and where no such end is allowed, a bound is a batch alone.
pub fn by_cut(bounds: &[u64]) -> Vec<&[u64]> {
    batches(bounds, |left| {
        let mut ends = (2..=left.len().min(MAX_BATCH)).rev();
        ends.find(|&end| share(CUT_WIDTH, &left[..end]) > 0).unwrap_or(1)
    })
}

/// The batches of a shuffle's bounds n, n - 1, .., 2: the next bound is the number of records still to place.
pub fn by_size(bounds: &[u64]) -> Vec<&[u64]> {
    batches(bounds, |left| {
        let row = SIZES.iter().find(|&&(from, to, _)| (from..=to).contains(&left[0]));
        row.map(|&(_, _, size)| size).expect("2 to 16,384 records have their rows")
    })
}
