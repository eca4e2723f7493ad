//! From an order to its rolls, from the rolls of each batch to the words behind them, and by a shuffle with these words
//! to the order again. With exactly one word for each batch, a list gives the order if every word is in its batch's
//! run, and not if one is the word before or after it.

use crate::support::{brief, done, in_place, rolls_behind, shuffle, thinned, words_behind, Generator, Lent};
use hildrasp::oracle::{plan, word};
use hildrasp::raw::Behind;

/// The run of words of each batch of the shuffle of 0, 1, .., n - 1 into this order.
fn runs_behind(order: &[u32]) -> Vec<Behind> {
    let count = order.len().saturating_sub(1);
    let (answer, mut lent) = rolls_behind(order, count);
    assert_eq!(answer, done(0, 0));
    let mut rolls = lent.lend().to_vec();
    let runs = plan::shuffle(order.len()).into_iter().map(|bounds| {
        let of_this_batch: Vec<u64> = rolls.drain(..bounds.len()).collect();
        let run = words_behind(&bounds, &of_this_batch);
        assert_eq!(
            u128::from(run.last - run.first) + 1,
            (1 << 64) / word::product(&bounds),
            "whichever order was wanted"
        );
        run
    });
    runs.collect()
}

/// Whether these words shuffle 0, 1, .., n - 1 into this order, not refused.
fn produces(words: &[u64], order: &[u32]) -> bool {
    let (answer, lent) = shuffle(words, 0, &in_place(order.len()));
    answer.no == 0 && lent == Lent::holding(order.len(), order)
}

/// The first and the last words of the runs produce the order; with the word before or after the run of one of
/// `batches` the same words do not.
fn there_and_back(order: &[u32], batches: impl Iterator<Item = usize>) {
    let runs = runs_behind(order);
    let first: Vec<u64> = runs.iter().map(|run| run.first).collect();
    let last: Vec<u64> = runs.iter().map(|run| run.last).collect();
    assert!(produces(&first, order), "the first words give the order {}", brief(order));
    assert!(produces(&last, order), "the last words give the order {}", brief(order));
    for batch in batches {
        let mut words = first.clone();
        if let Some(before) = runs[batch].first.checked_sub(1) {
            words[batch] = before;
            assert!(!produces(&words, order), "the word before run {batch} gives the order {}", brief(order));
        }
        if let Some(after) = runs[batch].last.checked_add(1) {
            words[batch] = after;
            assert!(!produces(&words, order), "the word after run {batch} gives the order {}", brief(order));
        }
    }
}

/// Every order of 0, 1, .., n - 1.
fn all_orders(n: u32) -> Vec<Vec<u32>> {
    (0..n).fold(vec![vec![]], |orders: Vec<Vec<u32>>, record| {
        let with_record = |order: &Vec<u32>, place| [&order[..place], &[record], &order[place..]].concat();
        orders.iter().flat_map(|order| (0..=order.len()).map(move |place| with_record(order, place))).collect()
    })
}

#[test]
fn every_order_of_up_to_8_records_comes_from_the_words_in_its_runs_and_no_others() {
    for n in 0..=8 {
        let batches = plan::shuffle(n as usize).len();
        for order in thinned(all_orders(n)) {
            there_and_back(&order, 0..batches);
        }
    }
}

#[test]
fn orders_of_many_records_come_from_the_words_in_their_runs_and_no_others() {
    let mut generator = Generator::new(71);
    for n in [9, 13, 14, 40, 512, 513, 600, 2048, 2049, 2100, 16_383, 16_384] {
        let batches = plan::shuffle(n).len();
        let some = [0, batches / 2, batches - 1];
        there_and_back(&generator.order(n), some.into_iter());
        there_and_back(&in_place(n), some.into_iter());
    }
}

#[test]
fn any_words_in_the_runs_put_any_different_records_into_the_order() {
    let mut generator = Generator::new(72);
    for n in [2, 5, 7, 8, 20, 100, 1000, 5000] {
        for _ in 0..20 {
            let order = generator.order(n);
            let words: Vec<u64> = runs_behind(&order)
                .iter()
                .map(|run| run.first + generator.word() % (run.last - run.first + 1))
                .collect();
            let records: Vec<u32> = (0..n as u32).map(|place| 1_000_000 - 3 * place).collect();
            let wanted: Vec<u32> = order.iter().map(|&place| records[place as usize]).collect();
            assert_eq!(shuffle(&words, 0, &records), (done(words.len(), 0), Lent::holding(n, &wanted)));
        }
    }
}
