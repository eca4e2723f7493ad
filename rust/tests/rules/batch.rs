//! One batch: from a word to rolls, and refusals 2, 4, 5, 9, 10.

use crate::support::{batch_refused, cases, choices, roll_batch, rolled, Generator};
use hildrasp::oracle::word;
use std::collections::BTreeSet;

/// Every list of `count` bounds from 1 to `most`.
fn all_bounds(count: usize, most: u64) -> Vec<Vec<u64>> {
    (0..count).fold(vec![vec![]], |lists: Vec<Vec<u64>>, _| {
        lists.iter().flat_map(|list| (1..=most).map(|bound| [list.as_slice(), &[bound]].concat())).collect()
    })
}

/// For a product of b: the words around each edge between two series of rolls, and the last words of all.
fn words_around_every_edge(b: u128) -> Vec<u64> {
    let edges = (0..=b).map(|a| (a << 64).div_ceil(b) as u64);
    edges.flat_map(|edge| [-2, -1, 0, 1, 2].map(|step| edge.wrapping_add_signed(step))).collect()
}

#[test]
fn every_batch_of_small_bounds_gives_the_rolls_of_the_rules_on_words_around_every_edge() {
    let mut generator = Generator::new(1);
    for bounds in [all_bounds(1, 40), all_bounds(2, 9), all_bounds(3, 5), all_bounds(4, 3)].concat() {
        let words = words_around_every_edge(word::product(&bounds));
        for start in 0..words.len() {
            roll_batch(&words, start, &bounds);
        }
        for _ in 0..100 {
            roll_batch(&[generator.word(), generator.word()], 0, &bounds);
        }
    }
}

#[test]
fn the_word_is_accepted_exactly_when_the_last_r_is_at_least_the_threshold() {
    // 12 times the word is 2 times 2^64 plus the last r, and 2^64 mod 12 is 4: the rolls are 0, 2.
    let last_r_is_4 = ((2 << 64) + 4) / 12;
    assert_eq!(12 * last_r_is_4, (2 << 64) + 4_u128);
    assert_eq!(roll_batch(&[last_r_is_4 as u64], 0, &[2, 6]), rolled(1, 0, &[0, 2]));
    assert_eq!(roll_batch(&[last_r_is_4 as u64 - 1], 0, &[2, 6]), rolled(1, 0, &[0, 1]));
    // 12 times 2^62 is 3 times 2^64: the last r is 0, below 4.
    let last_r_is_0 = 1 << 62;
    assert_eq!(roll_batch(&[last_r_is_0], 0, &[2, 6]), batch_refused(10, 0));
}

#[test]
fn the_rolls_of_a_rejected_word_are_all_rolled_again() {
    // Word 2^62 is rejected with 0, 3; the next word gives both rolls anew.
    assert_eq!(roll_batch(&[1 << 62, u64::MAX], 0, &[2, 6]), rolled(2, 1, &[1, 5]));
    assert_eq!(roll_batch(&[3 << 62, 1], 0, &[2, 6]), rolled(2, 1, &[0, 0]));
}

#[test]
fn the_product_may_be_2_to_the_64_and_then_every_word_is_accepted() {
    let products_of_2_to_the_64: [&[u64]; 6] =
        [&[1 << 32, 1 << 32], &[1 << 63, 2], &[2, 1 << 63], &[1 << 63, 2, 1, 1], &[1, 1 << 63, 1, 2], &[16; 16]];
    for bounds in products_of_2_to_the_64 {
        for word in [0, 1, 2, 1 << 32, (1 << 63) - 1, 1 << 63, u64::MAX - 1, u64::MAX] {
            let answer = roll_batch(&[word], 0, bounds);
            assert_eq!((answer.no, answer.rejected), (0, 0), "bounds {bounds:?}, word {word}");
        }
    }
    assert_eq!(roll_batch(&[u64::MAX], 0, &[16; 16]), rolled(1, 0, &[15; 16]));
    assert_eq!(roll_batch(&[u64::MAX], 0, &[1 << 63, 2, 1, 1]), rolled(1, 0, &[(1 << 63) - 1, 1, 0, 0]));
}

#[test]
fn a_product_above_2_to_the_64_is_refused_5() {
    let products_above: [&[u64]; 12] = [
        &[274_177, 67_280_421_310_721], // 2^64 + 1
        &[67_280_421_310_721, 1, 274_177],
        &[1 << 63, 2, 1, 1, 2],
        &[1 << 63, 2, 2],
        &[1 << 63, 3],
        &[1 << 63, 4],                         // 2^65
        &[1 << 40, 1 << 40],                   // 2^80
        &[1 << 32, 1 << 32, 1 << 32, 1 << 32], // 2^128
        &[1 << 32, (1 << 32) + 1],
        &[2, 1 << 63, 1, u64::MAX],
        &[u64::MAX, 2],
        &[u64::MAX; 16],
    ];
    for bounds in products_above {
        for words in [&[][..], &[0], &[u64::MAX]] {
            assert_eq!(roll_batch(words, 0, bounds), batch_refused(5, 0), "bounds {bounds:?}");
        }
    }
}

#[test]
fn a_product_above_2_to_the_64_is_refused_5_whatever_its_low_half_is() {
    let mut generator = Generator::new(4);
    for _ in 0..cases(100_000) {
        let any = generator.word().max(1);
        let low = generator.one_of(&[1, 2, any, u64::MAX]);
        let bounds = generator.bounds_with_low_half(low);
        assert_eq!(roll_batch(&[generator.word()], 0, &bounds), batch_refused(5, 0), "bounds {bounds:?}");
    }
}

#[test]
fn products_close_to_a_limit_give_the_rolls_of_the_rules() {
    let products: [&[u64]; 9] = [
        &[1 << 28, 1 << 28], // 2^56
        &[1 << 56],
        &[257, 280_379_743_338_241], // 2^56 + 1
        &[(1 << 56) + 1],
        &[3, 5, 17, 257, 641, 65_537, 6_700_417], // 2^64 - 1
        &[(1 << 32) - 1, (1 << 32) + 1],
        &[u64::MAX],
        &[(1 << 63) + 1],
        &[274_177, 67_280_421_310_720], // 274,176 below 2^64
    ];
    let mut generator = Generator::new(2);
    for bounds in products {
        for _ in 0..2000 {
            let words: Vec<u64> = (0..4).map(|_| generator.word_for(word::product(bounds))).collect();
            roll_batch(&words, 0, bounds);
        }
    }
}

#[test]
fn a_batch_whose_product_is_1_still_takes_a_word() {
    for count in 1..=16 {
        for word in [0, 1, u64::MAX] {
            assert_eq!(roll_batch(&[word, 5], 0, &[1; 16][..count]), rolled(1, 0, &[0; 16][..count]));
        }
        assert_eq!(roll_batch(&[], 0, &[1; 16][..count]), batch_refused(10, 0));
    }
}

#[test]
fn a_batch_has_1_to_16_bounds_and_places_past_the_count_are_0() {
    assert_eq!(roll_batch(&[u64::MAX], 0, &[]), batch_refused(2, 0));
    for count in 1..=16 {
        assert_eq!(roll_batch(&[u64::MAX], 0, &[2; 16][..count]), rolled(1, 0, &[1; 16][..count]));
    }
    for count in [17, 18, 4096, 4097] {
        assert_eq!(roll_batch(&[u64::MAX], 0, &vec![1; count]), batch_refused(2, 0));
    }
}

#[test]
fn words_are_taken_in_list_order_until_one_is_accepted_or_the_list_ends() {
    // Word 0 is rejected wherever 2^64 mod the product is not 0.
    let bounds = [3, 5, 7];
    for before in 0..4 {
        for rejected in 0..6 {
            let mut words = [vec![99; before], vec![0; rejected]].concat();
            assert_eq!(roll_batch(&words, before, &bounds), batch_refused(10, before));
            words.extend([u64::MAX, 0, 1]);
            assert_eq!(roll_batch(&words, before, &bounds), rolled(before + rejected + 1, rejected, &[2, 4, 6]));
        }
    }
}

#[test]
fn the_start_place_may_be_at_the_end_of_the_words_and_not_above_it() {
    for length in 0..5 {
        let words = vec![u64::MAX; length];
        for start in 0..length {
            assert_eq!(roll_batch(&words, start, &[3]), rolled(start + 1, 0, &[2]));
        }
        assert_eq!(roll_batch(&words, length, &[3]), batch_refused(10, length));
        for start in [length + 1, length + 2, usize::MAX - 1, usize::MAX] {
            assert_eq!(roll_batch(&words, start, &[3]), batch_refused(9, start));
        }
    }
}

#[test]
fn of_any_refusals_that_meet_the_lowest_number_is_given() {
    for wrong in choices(&[2, 4, 5, 9, 10]) {
        let is_wrong = |no| wrong.contains(&no);
        let count = if is_wrong(2) { 17 } else { 16 };
        let words: &[u64] = if is_wrong(10) { &[0, 0] } else { &[0, u64::MAX] };
        let start = if is_wrong(9) { 3 } else { 0 };
        for place_of_zero in 0..count {
            let mut bounds = vec![1; count];
            bounds[5] = 3;
            if is_wrong(5) {
                bounds[4] = 1 << 63;
                bounds[11] = 4;
            }
            if is_wrong(4) {
                bounds[place_of_zero] = 0;
            }
            // A zero in place of the 2^63 or the 4 leaves a product within the limit, and 4 is the number all the same.
            let answer = roll_batch(words, start, &bounds);
            match wrong.first() {
                Some(&lowest) => assert_eq!(answer, batch_refused(lowest, start), "bounds {bounds:?}, wrong {wrong:?}"),
                None => assert_eq!((answer.no, answer.next, answer.rejected, answer.count), (0, 2, 1, 16)),
            }
        }
    }
}

#[test]
fn a_batch_of_no_bounds_is_refused_2_whatever_the_words() {
    for (words, start) in [(&[][..], 0), (&[], 1), (&[1], 0), (&[1], 1), (&[1], 2), (&[1], usize::MAX)] {
        assert_eq!(roll_batch(words, start, &[]), batch_refused(2, start));
    }
}

#[test]
fn a_zero_is_refused_4_also_where_the_bounds_before_it_pass_the_product() {
    let with_a_zero: [&[u64]; 5] =
        [&[1 << 63, 4, 0], &[0, 1 << 63, 4], &[1 << 63, 0, 4], &[0], &[u64::MAX, u64::MAX, 0]];
    for bounds in with_a_zero {
        assert_eq!(roll_batch(&[1], 0, bounds), batch_refused(4, 0), "bounds {bounds:?}");
    }
}

#[test]
fn random_batches_are_rolled_as_by_the_oracle() {
    let mut generator = Generator::new(3);
    let mut numbers = BTreeSet::new();
    let mut rejected = 0;
    let cases = cases(100_000);
    for _ in 0..cases {
        let bounds = generator.bounds();
        let b = word::product(&bounds);
        let words: Vec<u64> = (0..generator.below(9)).map(|_| generator.word_for(b)).collect();
        let start = generator.start(words.len());
        let answer = roll_batch(&words, start, &bounds);
        numbers.insert(answer.no);
        rejected += answer.rejected;
    }
    assert_eq!(numbers, BTreeSet::from([0, 2, 4, 5, 9, 10]));
    assert!(rejected > cases / 10, "only {rejected} words were rejected");
}
