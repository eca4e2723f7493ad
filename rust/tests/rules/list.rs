//! A list of bounds: how it is cut, where its rolls go, and refusals 2, 4, 6, 9, 10.

use crate::support::{cases, choices, done, refused, roll_batch, roll_list, Generator, Lent};
use hildrasp::oracle::{plan::cut, run::run};
use std::collections::BTreeSet;

/// The library cuts these bounds into batches of these sizes: each batch takes one word and gives the rolls that it
/// gives alone, and one word less is a refusal at the last batch.
fn is_cut_as(bounds: &[u64], sizes: &[usize]) {
    let mut generator = Generator::new(14);
    let mut words = Vec::new();
    let mut rolls = Vec::new();
    for &size in sizes {
        let candidates = [0; 20].map(|_| generator.word());
        let answer = roll_batch(&candidates, 0, &bounds[rolls.len()..][..size]);
        assert_eq!(answer.no, 0, "one of the candidates is accepted");
        words.push(candidates[answer.rejected]);
        rolls.extend(&answer.rolls[..size]);
    }
    assert_eq!(rolls.len(), bounds.len());
    let room = bounds.len() + 3;
    assert_eq!(roll_list(&words, 0, bounds, room), (done(sizes.len(), 0), Lent::holding(room, &rolls)), "{bounds:?}");
    if let Some((_, fewer)) = words.split_last() {
        assert_eq!(
            roll_list(fewer, 0, bounds, room),
            (refused(10, 0, fewer.len()), Lent::with_room(room)),
            "{bounds:?}"
        );
    }
}

#[test]
fn a_batch_takes_the_next_bound_whatever_it_is() {
    is_cut_as(&[u64::MAX], &[1]);
    is_cut_as(&[u64::MAX, u64::MAX], &[1, 1]);
    is_cut_as(&[1 << 63, 1 << 63, 7], &[1, 1, 1]);
}

#[test]
fn further_bounds_join_while_the_product_is_at_most_2_to_the_56() {
    is_cut_as(&[1 << 28, 1 << 28], &[2]);
    is_cut_as(&[257, 280_379_743_338_241], &[1, 1]); // 2^56 + 1
    is_cut_as(&[257, 280_379_743_338_240], &[2]); // 2^56 - 256
    is_cut_as(&[1 << 56, 1, 1, 2], &[3, 1]);
    is_cut_as(&[2, 1 << 55, 1], &[3]);
    is_cut_as(&[2, 1 << 56], &[1, 1]);
    is_cut_as(&[1, (1 << 56) - 1, 1], &[3]);
}

#[test]
fn a_single_bound_above_2_to_the_56_is_a_batch_alone() {
    is_cut_as(&[(1 << 56) + 1, 1], &[1, 1]);
    is_cut_as(&[1, (1 << 56) + 1, 1], &[1, 1, 1]);
    is_cut_as(&[3, 3, u64::MAX, 3, 3], &[2, 1, 2]);
}

#[test]
fn a_batch_has_at_most_16_bounds() {
    for count in 0..=16 {
        is_cut_as(&[1; 16][..count], &[count][..usize::from(count > 0)]);
    }
    is_cut_as(&[1; 17], &[16, 1]);
    is_cut_as(&[1; 32], &[16, 16]);
    is_cut_as(&[1; 33], &[16, 16, 1]);
    is_cut_as(&[3; 40], &[16, 16, 8]);
    is_cut_as(&[10; 40], &[16, 16, 8]); // 10^16 is below 2^56
    is_cut_as(&[11; 40], &[16, 16, 8]); // 11^16 is below 2^56
    is_cut_as(&[12; 40], &[15, 15, 10]); // 12^15 is below 2^56 and 12^16 above
}

#[test]
fn the_exact_product_decides_where_a_product_with_wrap_would_let_a_bound_join() {
    is_cut_as(&[1 << 32, 1 << 32], &[1, 1]); // 0 with wrap at 64 bits
    is_cut_as(&[1 << 56, 256], &[1, 1]); // 0
    is_cut_as(&[1 << 63, 4], &[1, 1]); // 0
    is_cut_as(&[1 << 32, (1 << 32) + 1], &[1, 1]); // 2^32
    is_cut_as(&[3, 0x5555_5555_5555_5556], &[1, 1]); // 2
    is_cut_as(&[1 << 40, (1 << 24) + 1, 5], &[1, 2]); // 2^40
    is_cut_as(&[1 << 56, u64::MAX], &[1, 1]);
    is_cut_as(&[2, (1 << 63) + 1], &[1, 1]); // 2
    let mut generator = Generator::new(15);
    for _ in 0..cases(100_000) {
        let low = generator.one_of(&[1, 2, 1 << 28, (1 << 56) - 1, 1 << 56]);
        is_cut_as(&generator.bounds_with_low_half(low), &[1, 1]);
    }
}

#[test]
fn an_empty_list_uses_no_word() {
    for room in [0, 1, 5] {
        for words in [&[][..], &[3], &[0, 0, 0]] {
            for start in 0..=words.len() {
                assert_eq!(roll_list(words, start, &[], room), (done(start, 0), Lent::with_room(room)));
            }
            for start in [words.len() + 1, usize::MAX] {
                assert_eq!(roll_list(words, start, &[], room), (refused(9, start, 0), Lent::with_room(room)));
            }
        }
    }
}

#[test]
fn a_list_has_0_to_4096_bounds() {
    let words = vec![u64::MAX; 300];
    for count in [4095, 4096] {
        let (answer, lent) = roll_list(&words, 0, &vec![2; count], count);
        assert_eq!((answer, lent), (done(256, 0), Lent::holding(count, &vec![1; count])));
    }
    for count in [4097, 5000] {
        assert_eq!(roll_list(&words, 0, &vec![2; count], count), (refused(2, 0, 0), Lent::with_room(count)));
    }
}

#[test]
fn places_past_the_last_roll_stay() {
    let bounds = [6, 6, 6, 1 << 60, 6];
    let words = [u64::MAX; 3];
    for room in 5..40 {
        let (answer, lent) = roll_list(&words, 0, &bounds, room);
        assert_eq!((answer, lent), (done(3, 0), Lent::holding(room, &[5, 5, 5, (1 << 60) - 1, 5])));
    }
}

#[test]
fn a_lent_list_that_is_too_short_is_refused_6() {
    let words = [u64::MAX; 3];
    for room in 0..5 {
        assert_eq!(roll_list(&words, 0, &[6, 6, 6, 1 << 60, 6], room), (refused(6, 0, 0), Lent::with_room(room)));
    }
}

#[test]
fn words_that_run_out_at_any_batch_leave_the_lent_list_as_it_was() {
    let mut generator = Generator::new(11);
    for _ in 0..20 {
        let bounds: Vec<u64> = (0..60).map(|_| generator.bound()).collect();
        let plan = cut(&bounds);
        let words = generator.words_for_plan(&plan);
        let trace = run(&plan, &words, 0).unwrap_or_else(|refusal| panic!("words made for the plan: {refusal}"));
        for length in 0..words.len() {
            let batch = trace.batches.iter().filter(|taken| taken.place < length).count();
            let room = bounds.len() + 2;
            assert_eq!(roll_list(&words[..length], 0, &bounds, room), (refused(10, 0, batch), Lent::with_room(room)));
        }
        let (answer, lent) = roll_list(&words, 0, &bounds, bounds.len());
        assert_eq!(answer, done(words.len(), words.len() - plan.len()));
        assert_eq!(lent, Lent::holding(bounds.len(), &trace.rolls()));
    }
}

#[test]
fn the_start_place_may_be_at_the_end_of_the_words_and_not_above_it() {
    let words = [u64::MAX; 6];
    let bounds = [1 << 60, 10, 10];
    for start in 0..=4 {
        let rolls = [(1 << 60) - 1, 9, 9];
        assert_eq!(roll_list(&words, start, &bounds, 3), (done(start + 2, 0), Lent::holding(3, &rolls)));
    }
    assert_eq!(roll_list(&words, 5, &bounds, 3), (refused(10, 5, 1), Lent::with_room(3)));
    assert_eq!(roll_list(&words, 6, &bounds, 3), (refused(10, 6, 0), Lent::with_room(3)));
    for start in [7, 8, usize::MAX - 1, usize::MAX] {
        assert_eq!(roll_list(&words, start, &bounds, 3), (refused(9, start, 0), Lent::with_room(3)));
    }
}

#[test]
fn of_any_refusals_that_meet_the_lowest_number_is_given() {
    for wrong in choices(&[2, 4, 6, 9, 10]) {
        let is_wrong = |no| wrong.contains(&no);
        let count = if is_wrong(2) { 4097 } else { 4096 };
        let room = if is_wrong(6) { count - 1 } else { count };
        // Bounds of 3 are cut by sixteen: 256 batches, or 257.
        let words = vec![u64::MAX; if is_wrong(10) { 255 } else { 257 }];
        let start = if is_wrong(9) { words.len() + 1 } else { 0 };
        for place_of_zero in [0, 1, 2047, 4094, count - 1] {
            let mut bounds = vec![3; count];
            if is_wrong(4) {
                bounds[place_of_zero] = 0;
            }
            let wanted = match wrong.first() {
                Some(10) => (refused(10, start, 255), Lent::with_room(room)),
                Some(&lowest) => (refused(lowest, start, 0), Lent::with_room(room)),
                None => (done(256, 0), Lent::holding(room, &[2; 4096])),
            };
            assert_eq!(roll_list(&words, start, &bounds, room), wanted, "wrong {wrong:?}");
        }
    }
}

/// Bounds of a list: short runs of one kind after another.
fn bounds_of_a_list(generator: &mut Generator, count: usize) -> Vec<u64> {
    let mut bounds = Vec::new();
    while bounds.len() < count {
        match generator.below(6) {
            0 => bounds.extend(vec![1; generator.below(20)]),
            1 => bounds.extend((0..generator.below(20)).map(|_| generator.between(1, 20) as u64)),
            2 => bounds.extend(generator.bounds_close_to(1 << 56)),
            3 => bounds.extend(generator.bounds_close_to(1 << 63)),
            4 => bounds.push(generator.bound()),
            _ => bounds.push((1 << 63) + generator.word() % (1 << 62)),
        }
    }
    bounds.truncate(count);
    bounds
}

/// One random list with its words, start and room: made to succeed, then perhaps spoilt.
fn random_list(generator: &mut Generator, count: usize) -> hildrasp::raw::Answer {
    let mut bounds = bounds_of_a_list(generator, count);
    let mut words: Vec<u64> = (0..generator.below(4)).map(|_| generator.word()).collect();
    let mut start = words.len();
    words.extend(generator.words_for_plan(&cut(&bounds)));
    words.extend((0..generator.below(3)).map(|_| generator.word()));
    let mut room = count + generator.one_of(&[0, 1, 17]);
    if generator.once_in(4) {
        words.truncate(generator.below(words.len() + 1));
    }
    if generator.once_in(8) {
        start = generator.start(words.len());
    }
    if generator.once_in(16) {
        room = generator.below(count + 1);
    }
    if count > 0 && generator.once_in(16) {
        bounds[generator.below(count)] = 0;
    }
    roll_list(&words, start, &bounds, room).0
}

#[test]
fn random_lists_are_rolled_as_by_the_oracle() {
    let mut generator = Generator::new(12);
    let mut numbers = BTreeSet::new();
    let mut rejected = 0;
    let cases = cases(100_000);
    for _ in 0..cases {
        let count = generator.below(30);
        let answer = random_list(&mut generator, count);
        numbers.insert(answer.no);
        rejected += answer.rejected;
    }
    assert_eq!(numbers, BTreeSet::from([0, 4, 6, 9, 10]));
    assert!(rejected > cases / 2, "only {rejected} words were rejected");
}

#[test]
fn long_random_lists_are_rolled_as_by_the_oracle() {
    let mut generator = Generator::new(13);
    let mut numbers = BTreeSet::new();
    for _ in 0..cases(300) {
        let count = generator.between(3000, 4150);
        numbers.insert(random_list(&mut generator, count).no);
    }
    assert_eq!(numbers, BTreeSet::from([0, 2, 4, 6, 9, 10]));
}
