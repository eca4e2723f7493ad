//! Why a record was drawn or not: the four reasons, the same reasons beside the draw, and refusals 1, 3, 7, 10.

use crate::sheets::{self, laid_out, numbers_beside, words_that_roll, UNSOUND};
use crate::support::{
    cases, choices, explained, in_place, roll_list, rolls_behind, run_sheet, sample, sheet_refused, shuffle, thinned,
    why, why_refused, words_around_every_edge, Generator, Lent,
};
use hildrasp::oracle::{plan, reading, run::run, second, word};
use hildrasp::{raw, Reason};
use std::collections::BTreeSet;

/// The sheet without gaps of these words and records, its first slot early.
fn sheet_of(words: &[u64], records: &[u32], k: usize) -> Vec<u8> {
    laid_out(words, records, k as u32, 1, [0; 3], false)
}

/// Why each record of a sheet was drawn or not. There are no further places.
fn for_every_place(words: &[u64], records: &[u32], k: usize) -> Vec<raw::Reason> {
    let sheet = sheet_of(words, records, k);
    assert_eq!(why(&sheet, records.len()), why_refused(7, 0));
    (0..records.len()).map(|place| why(&sheet, place)).collect()
}

/// Draws from a few records, as many as make up this count of places: for each its words, n and k, and the answers. All
/// four reasons are met, and words are rejected.
fn in_random_draws(seed: u64, count: usize, holds: impl Fn(&[u64], usize, usize, &[raw::Reason])) {
    let mut generator = Generator::new(seed);
    let (mut reasons, mut rejected) = (BTreeSet::new(), 0);
    let (mut places, count) = (0, cases(count));
    while places < count {
        let n = generator.between(1, 30);
        let (words, records, k, _) = sheets::n_to_draw_from(&mut generator, n);
        let answers = for_every_place(&words, &records, k);
        holds(&words, n, k, &answers);
        places += n;
        reasons.extend(answers.iter().map(|answer| answer.reason));
        rejected += answers[0].rejected;
    }
    assert_eq!(reasons, BTreeSet::from([1, 2, 3, 4]));
    assert!(rejected > 0);
}

// ---- The four reasons ----

/// It was among the first k and stayed, and the final shuffle leaves the slot as it is.
fn stayed(slot: usize) -> Reason {
    Reason::Stayed { slot, final_slot: slot }
}

/// It was rolled into the slot and stayed, and the final shuffle leaves the slot as it is.
fn rolled_in(slot: usize) -> Reason {
    Reason::RolledIn { slot, final_slot: slot }
}

/// The same reason where the final shuffle brings the slots into this order.
fn in_this_order(reason: Reason, order: &[u32]) -> Reason {
    let end_of = |slot| order.iter().position(|&at| at as usize == slot).expect("an order holds each slot once");
    match reason {
        Reason::Stayed { slot, .. } => Reason::Stayed { slot, final_slot: end_of(slot) },
        Reason::RolledIn { slot, .. } => Reason::RolledIn { slot, final_slot: end_of(slot) },
        taken_or_passed_over => taken_or_passed_over,
    }
}

/// In a draw of k records with these rolls of the reservoir the record at each place has the reason wanted, whether the
/// final shuffle leaves the slots as they are, moves each by one, or brings them into any order.
fn have_reasons(k: usize, rolls: &[u64], wanted: impl Fn(usize) -> Reason) {
    let mut moved_by_one = in_place(k);
    moved_by_one.rotate_left(1);
    for order in [in_place(k), moved_by_one, Generator::new(142).order(k)] {
        let (_, mut of_the_shuffle) = rolls_behind(&order, k - 1);
        let words = words_that_roll(k, &[rolls, of_the_shuffle.lend()].concat());
        for (place, answer) in for_every_place(&words, &in_place(k + rolls.len()), k).into_iter().enumerate() {
            let reason = in_this_order(wanted(place), &order);
            assert_eq!(answer, explained(words.len(), 0, reason), "k {k}, rolls {rolls:?}, {order:?}, place {place}");
        }
    }
}

#[test]
fn where_every_roll_is_k_or_more_the_first_k_stayed_and_each_other_is_passed_over_with_its_roll() {
    for (k, steps) in [1, 2, 3, 16, 17].into_iter().flat_map(|k| [0, 1, 2, 16, 17, 40].map(|steps| (k, steps))) {
        // The least such roll is k, and the highest that there is at a place is the place itself.
        let highest: Vec<u64> = (k..k + steps).map(|place| place as u64).collect();
        for rolls in [vec![k as u64; steps], highest] {
            have_reasons(k, &rolls, |place| match place.checked_sub(k) {
                None => stayed(place),
                Some(step) => Reason::PassedOver { roll: rolls[step] },
            });
        }
    }
}

#[test]
fn a_record_rolled_in_at_any_step_stayed_and_the_record_that_held_the_slot_names_its_place_and_step() {
    let steps = [1, 2, 3, 20].into_iter().flat_map(|steps| (0..steps).map(move |step| (steps, step)));
    for ((steps, step), k) in steps.flat_map(|steps| [1, 2, 3, 17].map(|k| (steps, k))) {
        for slot in BTreeSet::from([0, k / 2, k - 1]) {
            let mut rolls = vec![k as u64; steps];
            rolls[step] = slot as u64;
            have_reasons(k, &rolls, |place| match place {
                _ if place == slot => Reason::Taken { slot, by_place: k + step, by_step: step },
                _ if place == k + step => rolled_in(slot),
                _ if place < k => stayed(place),
                _ => Reason::PassedOver { roll: k as u64 },
            });
        }
    }
}

#[test]
fn a_record_held_its_slot_until_the_first_later_record_that_took_it() {
    for (k, slot) in [1, 2, 4].into_iter().flat_map(|k| (0..k).map(move |slot| (k, slot))) {
        for steps in choices(&[0, 1, 2, 3, 4, 5]) {
            let mut rolls = [k as u64; 6];
            steps.iter().for_each(|&step| rolls[step as usize] = slot as u64);
            // All that held the slot, one after the other.
            let holders: Vec<usize> = [slot].into_iter().chain(steps.iter().map(|&step| k + step as usize)).collect();
            have_reasons(k, &rolls, |place| match holders.iter().position(|&holder| holder == place) {
                None if place < k => stayed(place),
                None => Reason::PassedOver { roll: k as u64 },
                Some(at) => match holders.get(at + 1) {
                    Some(&by_place) => Reason::Taken { slot, by_place, by_step: by_place - k },
                    None if at == 0 => stayed(slot),
                    None => rolled_in(slot),
                },
            });
        }
    }
}

#[test]
fn with_k_equal_to_n_every_record_stayed_and_is_where_the_shuffle_of_the_places_has_it() {
    let mut generator = Generator::new(143);
    for n in [1, 2, 3, 7, 8, 13, 100, 600] {
        let words = generator.words_for_plan(&plan::shuffle(n));
        let (shuffled, mut in_the_end) = shuffle(&words, 0, &in_place(n));
        assert_eq!((shuffled.no, shuffled.next), (0, words.len()), "{n} records");
        let sheet = sheet_of(&words, &generator.records(n), n);
        for (final_slot, &place) in in_the_end.lend().iter().enumerate() {
            let slot = place as usize;
            let stayed = explained(shuffled.next, shuffled.rejected, Reason::Stayed { slot, final_slot });
            assert_eq!(why(&sheet, slot), stayed, "{n} records");
        }
    }
}

#[test]
fn a_sample_of_1_from_1_needs_no_word_to_be_explained() {
    for words in [&[][..], &[0], &[5; 3]] {
        assert_eq!(why(&sheet_of(words, &[77], 1), 0), explained(0, 0, stayed(0)), "words {words:?}");
    }
}

#[test]
fn the_slot_is_the_reservoirs_and_the_final_slot_is_where_the_final_shuffle_puts_the_record() {
    // Three of five records. With bounds 4 and 5, 2^64 mod 20 is 16: word 2^62 + 1 rolls 1 with r = 4, and then 0 with
    // r = 20. So place 3 takes slot 1, and place 4 slot 0. With bounds 3 and 2 the word 1 rolls 0 and 0: slot 0 is
    // exchanged with slot 2, and what then stands in slot 0 with slot 1. So slot 0 ends as 2, slot 1 as 0, slot 2 as 1.
    let sheet = sheet_of(&[(1 << 62) + 1, 1], &[100, 101, 102, 103, 104], 3);
    let reasons = [
        Reason::Taken { slot: 0, by_place: 4, by_step: 1 },
        Reason::Taken { slot: 1, by_place: 3, by_step: 0 },
        Reason::Stayed { slot: 2, final_slot: 1 },
        Reason::RolledIn { slot: 1, final_slot: 0 },
        Reason::RolledIn { slot: 0, final_slot: 2 },
    ];
    for (place, reason) in reasons.into_iter().enumerate() {
        assert_eq!(why(&sheet, place), explained(2, 0, reason), "place {place}");
    }
    assert_eq!(run_sheet(&sheet, 3).1, Lent::holding(3, &[103, 102, 104]));
}

#[test]
fn it_goes_by_place_since_record_numbers_may_repeat() {
    in_random_draws(131, 2_000, |words, n, k, answers| {
        let from_the_last: Vec<u32> = in_place(n).into_iter().rev().collect();
        let of_two_numbers: Vec<u32> = in_place(n).into_iter().map(|place| place % 2).collect();
        for records in [in_place(n), vec![7; n], vec![0; n], of_two_numbers, from_the_last] {
            assert_eq!(for_every_place(words, &records, k), answers, "records {records:?}");
        }
    });
}

// ---- Beside the draw ----

/// The draw of places by these words: its answer, and the place in each slot, as the sample of the places has them.
fn places_drawn(words: &[u64], n: usize, k: usize) -> (raw::Drawn, Vec<usize>) {
    let (drawn, mut slots) = run_sheet(&sheet_of(words, &in_place(n), k), k);
    assert_eq!(sample(words, 0, &in_place(n), k, k).1, slots);
    (drawn, slots.lend().iter().map(|&place| place as usize).collect())
}

/// A record was drawn exactly where it stayed, and then it is in the final slot that is named.
fn is_true_of_the_slots(place: usize, answer: raw::Reason, k: usize, slots: &[usize]) {
    match slots.iter().position(|&drawn| drawn == place) {
        Some(slot) => assert_eq!((answer.reason, answer.final_slot), (if place < k { 1 } else { 2 }, slot)),
        None => {
            assert!([3, 4].contains(&answer.reason), "place {place} was not drawn: {answer:?}");
            assert_eq!(answer.final_slot, 0, "place {place} has none");
        }
    }
}

/// So it is with the record at every place.
fn are_true_of_the_slots(answers: &[raw::Reason], k: usize, slots: &[usize]) {
    for (place, &answer) in answers.iter().enumerate() {
        is_true_of_the_slots(place, answer, k, slots);
    }
}

/// From the record that a slot of the reservoir had at first, each names the next that held it, up to one that was
/// drawn and is in its final slot; and who is met on no such way was passed over.
fn name_each_next_holder(answers: &[raw::Reason], k: usize, slots: &[usize]) {
    let mut holders = BTreeSet::new();
    for slot in 0..k {
        let mut place = slot;
        holders.insert(place);
        assert_eq!(answers[place].slot, slot);
        while answers[place].reason == 3 {
            let raw::Reason { by_place, by_step, .. } = answers[place];
            assert!(by_place > place && by_place == k + by_step, "place {place}: {:?}", answers[place]);
            place = by_place;
            assert_eq!(answers[place].slot, slot);
            holders.insert(place);
        }
        assert_eq!(slots[answers[place].final_slot], place, "slot {slot}");
    }
    let passed_over = (0..answers.len()).filter(|&place| answers[place].reason == 4);
    assert!(passed_over.eq((0..answers.len()).filter(|place| !holders.contains(place))));
}

/// A shuffle of the slots' own numbers, by the words after the reservoir's, puts each slot where its record ends.
fn are_shuffled_from_their_slots(answers: &[raw::Reason], k: usize, words: &[u64]) {
    let bounds: Vec<u64> = (k + 1..=answers.len()).map(|bound| bound as u64).collect();
    let (listed, _) = roll_list(words, 0, &bounds, bounds.len());
    let (_, mut in_the_end) = shuffle(words, listed.next, &in_place(k));
    for answer in answers.iter().filter(|answer| [1, 2].contains(&answer.reason)) {
        assert_eq!(in_the_end.lend()[answer.final_slot] as usize, answer.slot, "{k} of {}", answers.len());
    }
}

/// A record from place k on has the roll of its step: the slot that it was rolled into, or else the roll that is given.
fn tell_the_rolls(answers: &[raw::Reason], k: usize, words: &[u64]) {
    let bounds: Vec<u64> = (k + 1..=answers.len()).map(|bound| bound as u64).collect();
    let (_, mut rolls) = roll_list(words, 0, &bounds, bounds.len());
    for (answer, &roll) in answers[k..].iter().zip(rolls.lend().iter()) {
        let told = if answer.reason == 4 { answer.roll } else { answer.slot as u64 };
        assert_eq!((told, answer.reason == 4), (roll, roll >= k as u64));
    }
}

#[test]
fn a_record_was_drawn_exactly_where_it_stayed_and_it_is_in_the_final_slot_that_is_named() {
    in_random_draws(132, 20_000, |words, n, k, answers| {
        are_true_of_the_slots(answers, k, &places_drawn(words, n, k).1)
    });
}

#[test]
fn the_final_shuffle_brings_each_record_that_stayed_from_its_slot_to_its_final_slot() {
    in_random_draws(144, 20_000, |words, _, k, answers| are_shuffled_from_their_slots(answers, k, words));
}

#[test]
fn each_that_held_a_slot_names_the_next_up_to_the_record_that_was_drawn() {
    in_random_draws(133, 20_000, |words, n, k, answers| {
        name_each_next_holder(answers, k, &places_drawn(words, n, k).1)
    });
}

#[test]
fn a_record_from_place_k_on_has_the_roll_of_its_own_step() {
    in_random_draws(134, 20_000, |words, _, k, answers| tell_the_rolls(answers, k, words));
}

#[test]
fn next_and_rejected_are_those_of_the_draw() {
    in_random_draws(135, 20_000, |words, n, k, answers| {
        let (drawn, _) = places_drawn(words, n, k);
        for answer in answers {
            assert_eq!((answer.no, answer.batch), (0, 0));
            assert_eq!((answer.next, answer.rejected), (drawn.next, drawn.rejected));
        }
    });
}

#[test]
fn every_draw_from_up_to_6_records_gives_the_reasons_that_are_true_of_it() {
    let mut generator = Generator::new(136);
    for (n, k) in (1..=6).flat_map(|n| (1..=n).map(move |k| (n, k))) {
        let b = word::product(&(k as u64 + 1..=n as u64).collect::<Vec<u64>>());
        for word in thinned(words_around_every_edge(b).collect()) {
            // The last word of all is accepted by every batch.
            let words = [word, generator.word_for((2..=k as u128).product()), u64::MAX, u64::MAX];
            let answers = for_every_place(&words, &generator.records(n), k);
            let (drawn, slots) = places_drawn(&words, n, k);
            assert!(answers.iter().all(|answer| (answer.next, answer.rejected) == (drawn.next, drawn.rejected)));
            are_true_of_the_slots(&answers, k, &slots);
            name_each_next_holder(&answers, k, &slots);
            tell_the_rolls(&answers, k, &words);
            are_shuffled_from_their_slots(&answers, k, &words);
        }
    }
}

#[test]
fn every_final_shuffle_of_up_to_6_slots_gives_the_final_slots_that_are_true_of_it() {
    for (n, k) in (2..=7).flat_map(|n| (2..=n.min(6)).map(move |k| (n, k))) {
        // The highest word passes over every record from place k on.
        let of_the_reservoir = vec![u64::MAX; plan::reservoir(n, k).len()];
        for word in thinned(words_around_every_edge((2..=k as u128).product()).collect()) {
            let words = [of_the_reservoir.as_slice(), &[word, u64::MAX]].concat();
            let answers = for_every_place(&words, &in_place(n), k);
            are_true_of_the_slots(&answers, k, &places_drawn(&words, n, k).1);
            assert!(answers[..k].iter().enumerate().all(|(place, answer)| (answer.reason, answer.slot) == (1, place)));
        }
    }
}

#[test]
fn on_the_longest_sheets_a_record_has_the_reason_that_is_true() {
    let mut generator = Generator::new(137);
    for (n, k) in sheets::LONGEST_DRAWS {
        let rolls = sheets::rolls_for(&mut generator, n, k);
        let words = words_that_roll(k, &rolls);
        let sheet = sheet_of(&words, &generator.records(n), k);
        assert!((65_528..=65_535).contains(&sheet.len()));
        let trace = run(&plan::sample(n, k), &words, 0).unwrap_or_else(|refusal| panic!("words that roll: {refusal}"));
        let reasons = reading::reasons(n, k, &trace.batches);
        let (_, slots) = places_drawn(&words, n, k);
        let at_the_edges = [0, 1, k - 1, k.min(n - 1), n - 2, n - 1];
        for place in at_the_edges.into_iter().chain(thinned((0..n).step_by(11).collect())) {
            let answer = raw::why(&sheet, place);
            assert_eq!(answer, explained(words.len(), 0, reasons[place]), "{k} of {n} records, place {place}");
            is_true_of_the_slots(place, answer, k, &slots);
        }
        assert_eq!(why(&sheet, n), why_refused(7, 0));
        let without_the_last_word = sheet_of(&words[..words.len() - 1], &generator.records(n), k);
        assert_eq!(why(&without_the_last_word, n - 1), why_refused(10, words.len() - 1));
    }
}

// ---- Refusals ----

#[test]
fn a_place_that_is_not_below_n_is_refused_7() {
    // The highest rolls leave the slots as they are.
    for n in [1, 2, 3, 40, 11_077] {
        let words = vec![u64::MAX; plan::shuffle(n).len()];
        let sheet = sheet_of(&words, &in_place(n), n);
        for place in numbers_beside(n) {
            let wanted = if place < n { explained(words.len(), 0, stayed(place)) } else { why_refused(7, 0) };
            assert_eq!(why(&sheet, place), wanted, "place {place} of {n}");
        }
    }
    // So many that there is no room for a word.
    let without_words = sheet_of(&[], &in_place(16_377), 16_377);
    for place in numbers_beside(16_377) {
        let wanted = if place < 16_377 { why_refused(10, 0) } else { why_refused(7, 0) };
        assert_eq!(why(&without_words, place), wanted, "place {place}");
    }
    // They leave the first k where they were.
    for k in 1..40 {
        let sheet = sheet_of(&[u64::MAX; 12], &in_place(40), k);
        assert_eq!(why(&sheet, 39).reason, 4);
        for place in numbers_beside(40).into_iter().filter(|&place| place >= 40) {
            assert_eq!(why(&sheet, place), why_refused(7, 0), "place {place} of 40");
        }
    }
}

#[test]
fn k_is_1_to_n_and_w_at_most_k() {
    let far = [255, 256, 257, 1 << 16, (1 << 16) + 6, 1 << 31, (1 << 31) + 1, u32::MAX - 1, u32::MAX];
    for (k, w) in (0..=8).chain(far).flat_map(|k| (0..=9).chain(far).map(move |w| (k, w))) {
        let sheet = laid_out(&[u64::MAX; 2], &in_place(6), k, w, [0; 3], false);
        let is_allowed = (1..=6).contains(&k) && w <= k;
        for place in [0, 5, 6, usize::MAX] {
            let no = match place {
                _ if !is_allowed => 3,
                0..=5 => 0,
                _ => 7,
            };
            assert_eq!(why(&sheet, place).no, no, "k {k}, w {w}, place {place}");
        }
    }
    // Without records no k is right, and no place is below their count.
    for (k, w) in (0..=2).flat_map(|k| (0..=3).map(move |w| (k, w))) {
        assert_eq!(why(&laid_out(&[5], &[], k, w, [0; 3], false), 0), why_refused(3, 0));
    }
}

#[test]
fn words_that_run_out_at_any_batch_are_refused_10_with_the_batch_that_running_the_sheet_names() {
    let mut generator = Generator::new(138);
    for (n, k) in [(100, 2), (60, 40), (7, 6), (3, 2), (9, 8), (40, 39), (600, 530)] {
        let plan = plan::sample(n, k);
        let words = generator.words_for_plan(&plan);
        let trace = run(&plan, &words, 0).unwrap_or_else(|refusal| panic!("words made for the plan: {refusal}"));
        for length in 0..words.len() {
            let batch = trace.batches.iter().filter(|taken| taken.place < length).count();
            let sheet = sheet_of(&words[..length], &in_place(n), k);
            assert_eq!(run_sheet(&sheet, k), (sheet_refused(10, batch), Lent::with_room(k)));
            // Also where the reason is settled by the words that there are, and the final shuffle alone lacks one.
            for place in [0, k - 1, k, n - 1] {
                assert_eq!(why(&sheet, place), why_refused(10, batch), "{length} words, place {place}");
            }
        }
        assert_eq!(why(&sheet_of(&words, &in_place(n), k), 0).no, 0);
    }
}

/// A sheet of 50 records on which just these numbers' rules are broken, but for 7, which is the place's.
fn broken(wrong: &[u64], wrong_sample: (u32, u32), damage: fn(&mut Vec<u8>)) -> Vec<u8> {
    // The bounds 6, .., 50 are cut into four batches: 6..20, 21..31, 32..41 and 42..50. The final shuffle is the fifth.
    let words = if wrong.contains(&10) { &[u64::MAX; 4][..] } else { &[u64::MAX; 5] };
    let (k, w) = if wrong.contains(&3) { wrong_sample } else { (5, 5) };
    let mut sheet = laid_out(words, &in_place(50), k, w, [0; 3], false);
    if wrong.contains(&1) {
        damage(&mut sheet);
    }
    sheet
}

#[test]
fn of_any_refusals_that_meet_the_lowest_number_is_given() {
    // k and w that are not allowed: w above k, k above n, k of 0.
    let wrong_samples = [(5, 6), (51, 3), (u32::MAX, 3), (0, 0), (0, 1)];
    for (sample, damage) in wrong_samples.into_iter().flat_map(|sample| UNSOUND.map(|damage| (sample, damage))) {
        for wrong in choices(&[1, 3, 7, 10]) {
            let sheet = broken(&wrong, sample, damage);
            for place in if wrong.contains(&7) { [50, 51, 1 << 32, usize::MAX] } else { [0, 4, 5, 49] } {
                let wanted = match wrong.first() {
                    Some(10) => why_refused(10, 4),
                    Some(&lowest) => why_refused(lowest, 0),
                    None if place < 5 => explained(5, 0, stayed(place)),
                    None => explained(5, 0, Reason::PassedOver { roll: place as u64 }),
                };
                assert_eq!(why(&sheet, place), wanted, "wrong {wrong:?}, k and w {sample:?}, place {place}");
            }
        }
    }
}

// ---- Damaged and random sheets ----

#[test]
fn a_sheet_cut_off_at_any_byte_is_refused_1() {
    for records_first in [false, true] {
        let sheet = laid_out(&[1, 2, 3], &in_place(9), 4, 2, [3, 2, 0], records_first);
        assert_eq!(why(&sheet, 8).no, 0);
        for length in 0..sheet.len() {
            for place in [0, 8, 9] {
                assert_eq!(why(&sheet[..length], place), why_refused(1, 0), "{length} bytes");
            }
        }
    }
}

#[test]
fn a_sheet_with_any_byte_damaged_is_answered_as_by_the_oracle() {
    let mut generator = Generator::new(139);
    for records_first in [false, true] {
        let sheet = laid_out(&[1, 7 << 60], &generator.records(6), 3, 2, [1, 2, 3], records_first);
        let damages = (0..sheet.len()).flat_map(|place| (0..=255).map(move |byte| (place, byte)));
        for (damaged, byte) in thinned(damages.collect()) {
            let mut other = sheet.clone();
            other[damaged] = byte;
            why(&other, generator.below(8));
        }
    }
}

#[test]
fn random_draws_are_answered_as_by_both_ways_of_the_oracle() {
    in_random_draws(140, 100_000, |words, n, k, answers| {
        let sheet = sheet_of(words, &in_place(n), k);
        for (place, answer) in answers.iter().enumerate() {
            assert_eq!(*answer, second::why(&sheet, place), "{k} of {n} records by {words:?}, place {place}");
        }
    });
}

#[test]
fn random_sheets_are_answered_as_by_the_oracle_wherever_the_place() {
    let mut generator = Generator::new(141);
    let (mut numbers, mut reasons) = (BTreeSet::new(), BTreeSet::new());
    for _ in 0..cases(20_000) {
        let sheet = if generator.once_in(3) { sheets::sound(&mut generator) } else { sheets::damaged(&mut generator) };
        let n = sheets::number(&sheet, 8) as usize;
        let below_n = generator.below(n.max(1));
        let place = if generator.once_in(4) { generator.one_of(&numbers_beside(n)) } else { below_n };
        let answer = why(&sheet, place);
        numbers.insert(answer.no);
        reasons.insert(answer.reason);
    }
    assert_eq!(numbers, BTreeSet::from([0, 1, 3, 7, 10]));
    assert_eq!(reasons, BTreeSet::from([0, 1, 2, 3, 4]));
}
