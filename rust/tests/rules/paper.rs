//! The paper's own batched shuffle (source document 000, its code samples), carried over to Rust line by line, and our
//! shuffle beside it on equal words. It rolls by the same batch sizes for up to 2^14 records.

use crate::support::{shuffle, Generator, Lent};
use hildrasp::oracle::plan;

/// Rolls k dice with n, n - 1, .. sides from one word: the indexes and the last r.
fn roll(n: usize, k: usize, word: u64) -> (Vec<usize>, u64) {
    let mut r = word;
    let mut indexes = Vec::new();
    for i in 0..k {
        let x = (n - i) as u128 * u128::from(r);
        r = x as u64;
        indexes.push((x >> 64) as usize);
    }
    (indexes, r)
}

/// Performs k steps of a shuffle. `bound` is at least the product of the k sides; a closer one is returned.
fn batched(storage: &mut [u32], n: usize, k: usize, mut bound: u64, rng: &mut impl FnMut() -> u64) -> u64 {
    let (mut indexes, mut r) = roll(n, k, rng());
    if r < bound {
        bound = n as u64;
        for i in 1..k {
            bound *= (n - i) as u64;
        }
        let t = bound.wrapping_neg() % bound;
        while r < t {
            (indexes, r) = roll(n, k, rng());
        }
    }
    for (i, &index) in indexes.iter().enumerate() {
        storage.swap(n - i - 1, index);
    }
    bound
}

/// Fisher-Yates shuffle, rolling up to six dice at a time, from its batches of 4 on.
fn shuffle_6(storage: &mut [u32], rng: &mut impl FnMut() -> u64) {
    let mut i = storage.len();
    let mut bound = 1 << 56;
    while i > 1 << 11 {
        bound = batched(storage, i, 4, bound, rng);
        i -= 4;
    }
    bound = 1 << 55;
    while i > 1 << 9 {
        bound = batched(storage, i, 5, bound, rng);
        i -= 5;
    }
    bound = 1 << 54;
    while i > 6 {
        bound = batched(storage, i, 6, bound, rng);
        i -= 6;
    }
    if i > 1 {
        batched(storage, i, i - 1, 720, rng);
    }
}

#[test]
fn the_records_equal_those_of_the_papers_own_shuffle_on_equal_words() {
    let mut generator = Generator::new(31);
    let around_the_sizes = [511, 512, 513, 514, 518, 2047, 2048, 2049, 2050, 2052, 2053, 16_383, 16_384];
    for n in (0..100).chain(around_the_sizes) {
        for _ in 0..20 {
            let records = generator.records(n);
            let words = generator.words_for_plan(&plan::shuffle(n));
            let mut wanted = records.clone();
            let mut used = 0;
            shuffle_6(&mut wanted, &mut || {
                used += 1;
                words[used - 1]
            });
            let (answer, lent) = shuffle(&words, 0, &records);
            assert_eq!((answer.no, answer.next), (0, used), "{n} records");
            assert_eq!(lent, Lent::holding(n, &wanted), "{n} records");
        }
    }
}
