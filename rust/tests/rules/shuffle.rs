//! Shuffle: its batches, its exchanges, and refusals 2, 9, 10.

use crate::support::{cases, choices, done, in_place, refused, roll_batch, shuffle, thinned, Generator, Lent};
use hildrasp::oracle::{plan, run::run, word};
use hildrasp::raw;
use std::collections::BTreeSet;

#[test]
fn up_to_9_records_are_shuffled_by_the_rules_on_words_around_every_edge() {
    let mut generator = Generator::new(41);
    for n in 2..=9 {
        let records = generator.records(n);
        let b = word::product(&plan::shuffle(n)[0]);
        for a in thinned((0..b).collect()) {
            let edge = (a << 64).div_ceil(b) as u64;
            for word in [edge.wrapping_sub(1), edge, edge.wrapping_add(1)] {
                shuffle(&[word, generator.word_for(2), generator.word_for(6)], 0, &records);
            }
        }
    }
}

#[test]
fn no_word_is_used_for_0_or_1_records() {
    for records in [&[][..], &[77]] {
        for words in [&[][..], &[5], &[5, 6]] {
            for start in 0..=words.len() {
                assert_eq!(shuffle(words, start, records), (done(start, 0), Lent::holding(records.len(), records)));
            }
            for start in [words.len() + 1, usize::MAX] {
                let wanted = (refused(9, start, 0), Lent::holding(records.len(), records));
                assert_eq!(shuffle(words, start, records), wanted);
            }
        }
    }
}

/// The library shuffles n records in batches of these sizes: each batch takes one word and gives the rolls that it
/// gives alone, and one word less is a refusal at the last batch.
fn is_batched_as(n: usize, sizes: &[usize]) {
    let mut generator = Generator::new(47);
    let mut wanted = in_place(n);
    let mut m = n;
    let mut words = Vec::new();
    for size in sizes {
        let bounds: Vec<u64> = (m + 1 - size..=m).rev().map(|bound| bound as u64).collect();
        let candidates = [0; 20].map(|_| generator.word());
        let answer = roll_batch(&candidates, 0, &bounds);
        assert_eq!(answer.no, 0, "one of the candidates is accepted");
        words.push(candidates[answer.rejected]);
        for (i, &roll) in (1..).zip(&answer.rolls[..*size]) {
            wanted.swap(roll as usize, m - i);
        }
        m -= size;
    }
    assert_eq!(m, 1, "all but one record are placed by a roll");
    let records = in_place(n);
    assert_eq!(shuffle(&words, 0, &records), (done(sizes.len(), 0), Lent::holding(n, &wanted)), "{n} records");
    let last = sizes.len() - 1;
    assert_eq!(shuffle(&words[..last], 0, &records), (refused(10, 0, last), Lent::holding(n, &records)), "{n} records");
}

#[test]
fn the_batch_size_goes_by_the_records_still_to_place() {
    for n in 2..=6 {
        is_batched_as(n, &[n - 1]);
    }
    is_batched_as(7, &[6]);
    is_batched_as(8, &[6, 1]);
    is_batched_as(12, &[6, 5]);
    is_batched_as(13, &[6, 6]);
    is_batched_as(14, &[6, 6, 1]);
    is_batched_as(512, &[[6; 84].as_slice(), &[6, 1]].concat());
    is_batched_as(513, &[[5].as_slice(), &[6; 84], &[3]].concat());
    is_batched_as(2048, &[[5; 308].as_slice(), &[6; 83], &[6, 3]].concat());
    is_batched_as(2049, &[[4].as_slice(), &[5; 307], &[6; 84], &[5]].concat());
}

#[test]
fn there_are_0_to_16384_records() {
    let mut generator = Generator::new(42);
    let near_a_size = [2, 6, 7, 8, 511, 512, 513, 2047, 2048, 2049, 16_383, 16_384];
    for n in near_a_size {
        let records = generator.records(n);
        let words = generator.words_for_plan(&plan::shuffle(n));
        assert_eq!(shuffle(&words, 0, &records).0.no, 0, "{n} records");
    }
    for n in [16_385, 16_386, 20_000] {
        let records = generator.records(n);
        let words: Vec<u64> = (0..n).map(|_| generator.word()).collect();
        assert_eq!(shuffle(&words, 0, &records), (refused(2, 0, 0), Lent::holding(n, &records)));
    }
}

#[test]
fn words_that_end_at_any_batch_of_a_long_shuffle_leave_the_records_as_they_were() {
    let mut generator = Generator::new(43);
    for n in [14, 530, 2100, 16_384] {
        let records = generator.records(n);
        let plan = plan::shuffle(n);
        let words = generator.words_for_plan(&plan);
        let trace = run(&plan, &words, 0).unwrap_or_else(|refusal| panic!("words made for the plan: {refusal}"));
        let mut lent = records.clone();
        for (batch, taken) in trace.batches.iter().enumerate() {
            // The list ends right before the batch's accepted word.
            assert_eq!(raw::shuffle(&words[..taken.place], 0, &mut lent), refused(10, 0, batch), "{n} records");
            assert!(lent == records, "{n} records, batch {batch}");
        }
        assert_eq!(raw::shuffle(&words, 0, &mut lent), done(words.len(), words.len() - plan.len()));
        assert!(lent != records, "{n} records");
    }
}

#[test]
fn the_start_place_may_be_at_the_end_of_the_words_and_not_above_it() {
    let records = in_place(8);
    // Each of these words places all records as they are.
    let words = [u64::MAX; 5];
    for start in 0..=3 {
        assert_eq!(shuffle(&words, start, &records), (done(start + 2, 0), Lent::holding(8, &records)));
    }
    assert_eq!(shuffle(&words, 4, &records), (refused(10, 4, 1), Lent::holding(8, &records)));
    assert_eq!(shuffle(&words, 5, &records), (refused(10, 5, 0), Lent::holding(8, &records)));
    for start in [6, 7, usize::MAX - 1, usize::MAX] {
        assert_eq!(shuffle(&words, start, &records), (refused(9, start, 0), Lent::holding(8, &records)));
    }
}

#[test]
fn of_any_refusals_that_meet_the_lowest_number_is_given() {
    let mut generator = Generator::new(44);
    let plan = plan::shuffle(16_384);
    let words = generator.words_for_plan(&plan);
    for wrong in choices(&[2, 9, 10]) {
        let is_wrong = |no| wrong.contains(&no);
        let records = generator.records(if is_wrong(2) { 16_385 } else { 16_384 });
        let words = if is_wrong(10) { &words[..words.len() - 1] } else { &words };
        let start = if is_wrong(9) { words.len() + 1 } else { 0 };
        let (answer, lent) = shuffle(words, start, &records);
        match wrong.first() {
            Some(10) => assert_eq!(answer, refused(10, start, plan.len() - 1)),
            Some(&lowest) => assert_eq!(answer, refused(lowest, start, 0), "wrong {wrong:?}"),
            None => assert_eq!(answer, done(words.len(), words.len() - plan.len())),
        }
        assert_eq!(lent == Lent::holding(records.len(), &records), !wrong.is_empty(), "wrong {wrong:?}");
    }
}

/// One random shuffle with its words and start: made to succeed, then perhaps spoilt.
fn random_shuffle(generator: &mut Generator, n: usize) -> raw::Answer {
    let records = generator.records(n);
    let mut words: Vec<u64> = (0..generator.below(4)).map(|_| generator.word()).collect();
    let mut start = words.len();
    words.extend(generator.words_for_plan(&plan::shuffle(n)));
    words.extend((0..generator.below(3)).map(|_| generator.word()));
    if generator.once_in(4) {
        words.truncate(generator.below(words.len() + 1));
    }
    if generator.once_in(8) {
        start = generator.start(words.len());
    }
    shuffle(&words, start, &records).0
}

#[test]
fn random_shuffles_agree_with_the_oracle() {
    let mut generator = Generator::new(45);
    let mut numbers = BTreeSet::new();
    let mut rejected = 0;
    let cases = cases(100_000);
    for _ in 0..cases {
        let n = generator.below(40);
        let answer = random_shuffle(&mut generator, n);
        numbers.insert(answer.no);
        rejected += answer.rejected;
    }
    assert_eq!(numbers, BTreeSet::from([0, 9, 10]));
    assert!(rejected > cases / 2, "only {rejected} words were rejected");
}

#[test]
fn long_random_shuffles_agree_with_the_oracle() {
    let mut generator = Generator::new(46);
    let mut numbers = BTreeSet::new();
    for _ in 0..cases(300) {
        let n = generator.between(40, 3000);
        numbers.insert(random_shuffle(&mut generator, n).no);
    }
    for _ in 0..cases(60) {
        let n = generator.between(14_000, 17_000);
        numbers.insert(random_shuffle(&mut generator, n).no);
    }
    assert_eq!(numbers, BTreeSet::from([0, 2, 9, 10]));
}
