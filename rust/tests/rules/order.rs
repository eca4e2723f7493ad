//! The rolls behind an order, and refusals 2, 6, 8.

use crate::support::{brief, cases, choices, done, in_place, refused, rolls_behind, Generator, Lent};
use std::collections::BTreeSet;

/// The rolls of the library shuffle 0, 1, .., n - 1 into the order, n - 1 of them, each below its bound.
fn rolls_shuffle_into(order: &[u32]) {
    let n = order.len();
    let count = n.saturating_sub(1);
    let (answer, mut lent) = rolls_behind(order, count);
    assert_eq!(answer, done(0, 0));
    let mut records = in_place(n);
    for (m, &roll) in (2..=n).rev().zip(lent.lend().iter()) {
        assert!(roll < m as u64, "order {}", brief(order));
        records.swap(roll as usize, m - 1);
    }
    assert!(records == order, "order {}", brief(order));
    let rolls = lent.lend().to_vec();
    for longer in [count + 1, count + 10] {
        assert_eq!(
            rolls_behind(order, longer),
            (done(0, 0), Lent::holding(longer, &rolls)),
            "places past the last stay"
        );
    }
}

#[test]
fn the_rolls_behind_an_order_shuffle_0_to_n_less_1_into_it() {
    let mut generator = Generator::new(61);
    for n in [2, 3, 4, 6, 7, 8, 512, 513, 2048, 2049, 16_383, 16_384] {
        rolls_shuffle_into(&in_place(n));
        rolls_shuffle_into(&in_place(n).into_iter().rev().collect::<Vec<u32>>());
        rolls_shuffle_into(&generator.order(n));
        let mut one_round = in_place(n);
        one_round.rotate_left(1);
        rolls_shuffle_into(&one_round);
        one_round.rotate_right(2);
        rolls_shuffle_into(&one_round);
    }
}

#[test]
fn there_are_no_rolls_behind_an_order_of_0_or_1() {
    for room in [0, 1, 5] {
        assert_eq!(rolls_behind(&[], room), (done(0, 0), Lent::with_room(room)));
        assert_eq!(rolls_behind(&[0], room), (done(0, 0), Lent::with_room(room)));
    }
}

#[test]
fn a_list_that_is_not_each_of_0_to_n_less_1_once_is_refused_8() {
    let mut generator = Generator::new(62);
    for n in [1, 2, 3, 4, 7, 8, 100, 16_384] {
        for place in [0, n / 2, n - 1] {
            let order = generator.order(n);
            let beside = order[(place + 1) % n];
            let foreign = [n as u32, n as u32 + 1, 16_384, 1 << 16, 1 << 31, u32::MAX];
            // With another record in its stead, one is missing, and one may stand there twice.
            for other in foreign.into_iter().chain([beside]).filter(|&other| other != order[place]) {
                let mut list = order.clone();
                list[place] = other;
                assert_eq!(rolls_behind(&list, n), (refused(8, 0, 0), Lent::with_room(n)), "{other} at {place} of {n}");
            }
        }
    }
}

#[test]
fn an_order_has_0_to_16384_places() {
    for n in [16_385, 16_386, 40_000] {
        assert_eq!(rolls_behind(&in_place(n), n), (refused(2, 0, 0), Lent::with_room(n)));
    }
}

#[test]
fn a_lent_list_that_is_too_short_is_refused_6() {
    for n in [2, 3, 8, 100, 16_384] {
        for room in [0, n / 2, n - 2].into_iter().filter(|&room| room < n - 1) {
            assert_eq!(rolls_behind(&in_place(n), room), (refused(6, 0, 0), Lent::with_room(room)));
        }
    }
}

#[test]
fn of_any_refusals_that_meet_the_lowest_number_is_given() {
    for wrong in choices(&[2, 6, 8]) {
        let is_wrong = |no| wrong.contains(&no);
        let n = if is_wrong(2) { 16_385 } else { 16_384 };
        let room = if is_wrong(6) { n - 2 } else { n - 1 };
        for place in [0, 1, n / 2, n - 1] {
            for other in [2, n as u32, u32::MAX] {
                let mut order = in_place(n);
                if is_wrong(8) {
                    order[place] = other;
                }
                let (answer, lent) = rolls_behind(&order, room);
                match wrong.first() {
                    Some(&lowest) => assert_eq!(answer, refused(lowest, 0, 0), "wrong {wrong:?}"),
                    None => assert_eq!(answer, done(0, 0)),
                }
                assert_eq!(lent == Lent::with_room(room), !wrong.is_empty(), "wrong {wrong:?}");
            }
        }
    }
}

#[test]
fn random_orders_have_the_rolls_of_the_oracle() {
    let mut generator = Generator::new(63);
    let mut numbers = BTreeSet::new();
    for _ in 0..cases(100_000) {
        let n = generator.below(25);
        let mut order = generator.order(n);
        if n > 0 && generator.once_in(8) {
            let place = generator.below(n);
            order[place] = generator.below(n + 2) as u32;
        }
        let mut room = n + generator.one_of(&[0, 1, 9]);
        if generator.once_in(8) {
            room = generator.below(n + 1);
        }
        numbers.insert(rolls_behind(&order, room).0.no);
    }
    assert_eq!(numbers, BTreeSet::from([0, 6, 8]));
}
