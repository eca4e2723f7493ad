//! The words behind rolls: one unbroken run, named by its first and last word, and refusals 2, 4, 5, 7.

use crate::support::{behind, behind_refused, cases, choices, roll_batch, rolled, words_behind, Generator};
use hildrasp::oracle::word;
use std::collections::BTreeSet;

/// Rolls, each below its bound: low ones, high ones or any.
fn rolls_below(generator: &mut Generator, bounds: &[u64]) -> Vec<u64> {
    let kind = generator.below(3);
    let mut roll = |&bound: &u64| match kind {
        0 => 0,
        1 => bound - 1,
        _ => generator.word() % bound,
    };
    bounds.iter().map(&mut roll).collect()
}

/// The run of these rolls is as long as the rules say; its first and last word give the rolls, accepted, and the words
/// beside it do not.
fn is_the_run(bounds: &[u64], rolls: &[u64]) {
    let run = words_behind(bounds, rolls);
    assert_eq!(run.no, 0, "bounds {bounds:?}, rolls {rolls:?}");
    let length = u128::from(run.last) - u128::from(run.first) + 1;
    assert_eq!(length, (1 << 64) / word::product(bounds), "bounds {bounds:?}, rolls {rolls:?}");
    let given = rolled(1, 0, rolls);
    assert_eq!(roll_batch(&[run.first], 0, bounds), given);
    assert_eq!(roll_batch(&[run.last], 0, bounds), given);
    if let Some(before) = run.first.checked_sub(1) {
        assert_ne!(roll_batch(&[before], 0, bounds), given, "the word before the run");
    }
    if let Some(after) = run.last.checked_add(1) {
        assert_ne!(roll_batch(&[after], 0, bounds), given, "the word after the run");
    }
}

#[test]
fn the_words_behind_rolls_are_one_run_and_no_others() {
    let mut generator = Generator::new(21);
    let mut allowed = 0;
    let cases = cases(100_000);
    for _ in 0..cases {
        let bounds = generator.bounds();
        // Without rolls, allowed bounds are refused 7 and others lower.
        if words_behind(&bounds, &[]).no == 7 {
            let rolls = rolls_below(&mut generator, &bounds);
            is_the_run(&bounds, &rolls);
            allowed += 1;
        }
    }
    assert!(allowed > cases / 4, "only {allowed} lists of bounds were allowed");
}

#[test]
fn every_accepted_word_is_in_the_run_of_its_rolls() {
    let mut generator = Generator::new(22);
    let mut accepted = 0;
    let cases = cases(30_000);
    for _ in 0..cases {
        let bounds = generator.bounds();
        let word = generator.word_for(word::product(&bounds));
        let answer = roll_batch(&[word], 0, &bounds);
        if answer.no == 0 {
            let run = words_behind(&bounds, &answer.rolls[..answer.count]);
            assert!(run.first <= word && word <= run.last, "bounds {bounds:?}, word {word}");
            accepted += 1;
        }
    }
    assert!(accepted > cases / 4, "only {accepted} words were accepted");
}

#[test]
fn the_runs_of_all_rolls_stand_in_their_order_and_leave_out_the_rejected_words_alone() {
    let small: [&[u64]; 8] = [&[1], &[2], &[7], &[2, 6], &[6, 2], &[3, 5, 7], &[6, 5, 4, 3, 2], &[1, 1, 10, 1]];
    for bounds in small {
        let b = word::product(bounds);
        let mut covered = 0;
        let mut from = 0;
        for a in 0..b {
            let rolls = digits(bounds, a);
            let run = words_behind(bounds, &rolls);
            assert!(u128::from(run.first) >= from, "bounds {bounds:?}, rolls {rolls:?}");
            from = u128::from(run.last) + 1;
            covered += from - u128::from(run.first);
        }
        assert_eq!(covered, (1 << 64) - (1 << 64) % b, "bounds {bounds:?}");
    }
}

/// The rolls whose mixed-radix number is a, first roll most significant.
fn digits(bounds: &[u64], a: u128) -> Vec<u64> {
    let mut rest = a;
    let mut rolls = vec![0; bounds.len()];
    for (roll, &bound) in rolls.iter_mut().zip(bounds).rev() {
        *roll = (rest % u128::from(bound)) as u64;
        rest /= u128::from(bound);
    }
    rolls
}

#[test]
fn a_product_of_2_to_the_64_has_one_word_behind_its_rolls_the_number_that_they_spell() {
    for word in [0, 1, 2, 0x0123_4567_89ab_cdef, 1 << 63, u64::MAX - 1, u64::MAX] {
        let (high, low) = (word >> 32, word & 0xffff_ffff);
        assert_eq!(words_behind(&[1 << 32, 1 << 32], &[high, low]), behind(word, word));
        assert_eq!(words_behind(&[1 << 63, 2, 1, 1], &[word >> 1, word & 1, 0, 0]), behind(word, word));
        let nibbles: Vec<u64> = (0..16).rev().map(|i| word >> (4 * i) & 15).collect();
        assert_eq!(words_behind(&[16; 16], &nibbles), behind(word, word));
    }
}

#[test]
fn products_close_to_a_limit_have_exact_runs() {
    let products: [&[u64]; 8] = [
        &[1 << 28, 1 << 28],         // 2^56
        &[257, 280_379_743_338_241], // 2^56 + 1
        &[(1 << 56) + 1],
        &[3, 5, 17, 257, 641, 65_537, 6_700_417], // 2^64 - 1
        &[u64::MAX],
        &[(1 << 63) + 1],
        &[(1 << 63) - 1],
        &[274_177, 67_280_421_310_720],
    ];
    let mut generator = Generator::new(23);
    for bounds in products {
        let (none, all): (Vec<u64>, Vec<u64>) = bounds.iter().map(|bound| (0, bound - 1)).unzip();
        is_the_run(bounds, &none);
        is_the_run(bounds, &all);
        for _ in 0..1000 {
            let rolls = rolls_below(&mut generator, bounds);
            is_the_run(bounds, &rolls);
        }
    }
    // 2^64 + 1
    assert_eq!(words_behind(&[274_177, 67_280_421_310_721], &[0, 0]), behind_refused(5));
}

#[test]
fn a_product_of_1_has_all_words_behind_it() {
    for count in 1..=16 {
        assert_eq!(words_behind(&[1; 16][..count], &[0; 16][..count]), behind(0, u64::MAX));
    }
}

#[test]
fn rolls_and_bounds_that_differ_in_count_are_refused_7() {
    for bounds in 1..=16 {
        for rolls in (0..=20).filter(|&rolls| rolls != bounds) {
            assert_eq!(words_behind(&[2; 16][..bounds], &[0; 20][..rolls]), behind_refused(7));
        }
    }
}

#[test]
fn a_roll_that_reaches_its_bound_is_refused_7() {
    let bounds = [3, 1, 1 << 40, 7];
    for place in 0..4 {
        for above in [0, 1, 1 << 20, u64::MAX - bounds[place]] {
            let mut rolls = bounds.map(|bound| bound - 1);
            is_the_run(&bounds, &rolls);
            rolls[place] = bounds[place] + above;
            assert_eq!(words_behind(&bounds, &rolls), behind_refused(7));
        }
    }
}

#[test]
fn of_any_refusals_that_meet_the_lowest_number_is_given() {
    // The ways in which rolls do not fit their bounds: one too few, one too many, one that reaches its bound.
    let spoilt: [fn(&mut Vec<u64>); 3] =
        [|rolls| rolls.truncate(rolls.len() - 1), |rolls| rolls.push(0), |rolls| rolls[7] = 3];
    for wrong in choices(&[2, 4, 5, 7]) {
        let is_wrong = |no| wrong.contains(&no);
        let count = if is_wrong(2) { 17 } else { 16 };
        for (place_of_zero, spoil) in (0..count).flat_map(|place| spoilt.map(|spoil| (place, spoil))) {
            let mut bounds = vec![1; count];
            bounds[7] = 3;
            if is_wrong(5) {
                bounds[4] = 1 << 63;
                bounds[11] = 4;
            }
            if is_wrong(4) {
                bounds[place_of_zero] = 0;
            }
            let mut rolls = vec![0; count];
            if is_wrong(7) {
                spoil(&mut rolls);
            }
            let wanted = match wrong.first() {
                Some(&lowest) => behind_refused(lowest),
                None => behind(1, u64::MAX / 3), // 2^64 mod 3 is 1
            };
            assert_eq!(words_behind(&bounds, &rolls), wanted, "bounds {bounds:?}, rolls {rolls:?}, wrong {wrong:?}");
        }
    }
}

#[test]
fn no_bounds_are_refused_2_whatever_the_rolls() {
    for count in [0, 1, 16, 17] {
        assert_eq!(words_behind(&[], &[0; 17][..count]), behind_refused(2));
    }
}

#[test]
fn random_ways_back_agree_with_the_oracle() {
    let mut generator = Generator::new(24);
    let mut numbers = BTreeSet::new();
    for _ in 0..cases(100_000) {
        let bounds = generator.bounds();
        let in_range: Vec<u64> = bounds.iter().map(|&bound| generator.word() % bound.max(1)).collect();
        let mut rolls = in_range;
        match generator.below(8) {
            0 => rolls.push(generator.word()),
            1 => rolls.truncate(generator.below(rolls.len() + 1)),
            2 if !rolls.is_empty() => {
                let place = generator.below(rolls.len());
                rolls[place] = bounds[place].saturating_add(generator.below(3) as u64);
            }
            _ => {}
        }
        numbers.insert(words_behind(&bounds, &rolls).no);
    }
    assert_eq!(numbers, BTreeSet::from([0, 2, 4, 5, 7]));
}
