//! Sample: the reservoir with its bounds cut as a list, the final shuffle of its slots, and refusals 2, 3, 6, 9, 10.

use crate::support::{cases, choices, done, in_place, refused, roll_list, sample, shuffle, thinned, Generator, Lent};
use hildrasp::oracle::plan::{self, Plan};
use hildrasp::oracle::{run::run, word};
use hildrasp::raw;
use std::collections::BTreeSet;

// ---- The reservoir, then the final shuffle ----

/// The reservoir alone: the answer to the list of its bounds, and its slots by the rolls of that list. Each place from
/// k on takes the slot below k that it rolled.
fn reservoir(words: &[u64], records: &[u32], k: usize) -> (raw::Answer, Vec<u32>) {
    let bounds: Vec<u64> = (k + 1..=records.len()).map(|bound| bound as u64).collect();
    let (listed, mut rolls) = roll_list(words, 0, &bounds, bounds.len());
    let mut slots = records[..k].to_vec();
    for (i, &j) in (k..).zip(rolls.lend().iter()) {
        if (j as usize) < k {
            slots[j as usize] = records[i];
        }
    }
    (listed, slots)
}

/// The sample is the reservoir and then the shuffle of its slots, from the word after the reservoir's last.
fn is_the_reservoir_shuffled(generator: &mut Generator, n: usize, k: usize) {
    let records = generator.records(n);
    let words = generator.words_for_plan(&plan::sample(n, k));
    let (listed, slots) = reservoir(&words, &records, k);
    let (shuffled, in_the_end) = shuffle(&words, listed.next, &slots);
    assert_eq!((listed.no, shuffled.no, shuffled.next), (0, 0, words.len()), "{k} of {n}");
    let sampled = done(words.len(), listed.rejected + shuffled.rejected);
    assert_eq!(sample(&words, 0, &records, k, k), (sampled, in_the_end), "{k} of {n}");
}

#[test]
fn the_sample_is_the_reservoir_and_then_the_shuffle_of_its_k_slots_with_the_words_that_follow() {
    let mut generator = Generator::new(51);
    for (n, k) in (1..60).flat_map(|n| (1..=n).map(move |k| (n, k))) {
        is_the_reservoir_shuffled(&mut generator, n, k);
    }
    for k in [6, 7, 8, 512, 513, 514, 2048, 2049, 2050, 16_380] {
        for more in [1, 3, 4] {
            is_the_reservoir_shuffled(&mut generator, k + more, k);
        }
    }
    for (n, k) in [(4000, 1), (4000, 64), (4000, 2000), (16_384, 12_288), (16_384, 16_384)] {
        is_the_reservoir_shuffled(&mut generator, n, k);
    }
}

#[test]
fn two_of_three_records_are_the_reservoir_by_one_word_and_exchanged_or_not_by_the_next() {
    // With bound 3 the word 0 leaves r = 0, below t = 2^64 mod 3 = 1, and is rejected; word 1 rolls 0, and record 309
    // takes slot 0 from 101. With bound 2, where t = 0, word 0 rolls 0 and exchanges the slots; 2^63 rolls 1 and leaves
    // them as they are.
    let two_of_three = |words: &[u64]| sample(words, 0, &[101, 205, 309], 2, 3);
    // Exchanged before 309 comes in, the slots would be 309 and 101.
    assert_eq!(two_of_three(&[1, 0]), (done(2, 0), Lent::holding(3, &[205, 309])));
    // From the first word again, word 1 would roll 0 with bound 2 and exchange the slots.
    assert_eq!(two_of_three(&[1, 1 << 63]), (done(2, 0), Lent::holding(3, &[309, 205])));
    // With bounds 3 and 2 in the final shuffle as well, t = 2^64 mod 6 = 4 would reject the last word.
    assert_eq!(two_of_three(&[0, 1, 0]), (done(3, 1), Lent::holding(3, &[205, 309])));
    // Bounds 3 and 2 in one batch would take word 1 alone. Counted anew, the final shuffle would be batch 0.
    assert_eq!(two_of_three(&[1]), (refused(10, 0, 1), Lent::with_room(3)));
    assert_eq!(two_of_three(&[0]), (refused(10, 0, 0), Lent::with_room(3)));
}

/// Every list with one word for each batch of a plan: for each series of rolls the last of the words that give it.
fn one_word_for_each_batch(plan: &Plan) -> Vec<Vec<u64>> {
    plan.iter().fold(vec![vec![]], |lists, bounds| {
        let b = word::product(bounds);
        let last_words: Vec<u64> = (1..=b).map(|a| ((a << 64).div_ceil(b) - 1) as u64).collect();
        let longer = |list: &Vec<u64>, word| [list.as_slice(), &[word]].concat();
        lists.iter().flat_map(|list| last_words.iter().map(move |&word| longer(list, word))).collect()
    })
}

#[test]
fn over_all_series_of_rolls_every_record_is_in_every_slot_as_often_as_any_other() {
    for (n, k) in (1..=6).flat_map(|n| (1..=n).map(move |k| (n, k))) {
        let plan = plan::sample(n, k);
        let mut times = vec![vec![0; k]; n];
        for words in one_word_for_each_batch(&plan) {
            let (answer, mut slots) = sample(&words, 0, &in_place(n), k, k);
            assert_eq!(answer, done(plan.len(), 0), "every word is accepted");
            for (slot, &record) in slots.lend().iter().enumerate() {
                times[record as usize][slot] += 1;
            }
        }
        // The bounds are 2 to n in some order, so there are n! series of rolls: one in n of them for each record.
        let one_in_n: usize = (1..n).product();
        assert_eq!(times, vec![vec![one_in_n; k]; n], "{k} of {n}");
    }
}

#[test]
fn with_a_k_of_1_nothing_is_shuffled() {
    let mut generator = Generator::new(57);
    for n in (2..60).chain([600, 4000]) {
        let records = generator.records(n);
        let words = generator.words_for_plan(&plan::reservoir(n, 1));
        for length in [0, words.len() / 2, words.len() - 1] {
            let (listed, _) = reservoir(&words[..length], &records, 1);
            assert_eq!(listed.no, 10);
            assert_eq!(sample(&words[..length], 0, &records, 1, 3), (listed, Lent::with_room(3)), "1 of {n}");
        }
        let (listed, slots) = reservoir(&words, &records, 1);
        assert_eq!(listed.no, 0);
        assert_eq!(sample(&words, 0, &records, 1, 3), (listed, Lent::holding(3, &slots)), "1 of {n}");
    }
}

#[test]
fn k_is_1_to_n() {
    let mut generator = Generator::new(52);
    for n in [0, 1, 2, 3, 4, 10, 100, 4097, 16_383, 16_384] {
        let records = generator.records(n);
        for k in [1, 2, n.saturating_sub(1), n].into_iter().filter(|k| (1..=n).contains(k)) {
            let plan = plan::sample(n, k);
            let words = generator.words_for_plan(&plan);
            let (answer, _) = sample(&words, 0, &records, k, k);
            assert_eq!(answer, done(words.len(), words.len() - plan.len()), "k {k} of {n}");
        }
        for k in [0, n + 1, n + 2, 1 << 32, usize::MAX - 1, usize::MAX] {
            assert_eq!(sample(&[1, 2, 3], 0, &records, k, 4), (refused(3, 0, 0), Lent::with_room(4)), "k {k} of {n}");
        }
    }
}

#[test]
fn with_k_equal_to_n_the_sample_is_the_shuffle_of_the_records_by_the_same_words() {
    let mut generator = Generator::new(58);
    for n in [1, 2, 3, 6, 7, 8, 512, 513, 2048, 2049, 16_383, 16_384] {
        let records = generator.records(n);
        let mut words = vec![generator.word(), generator.word()];
        words.extend(generator.words_for_plan(&plan::shuffle(n)));
        assert_eq!(sample(&words, 2, &records, n, n).0.no, 0, "{n} records");
        for length in BTreeSet::from([2, 2 + (words.len() - 2) / 2, words.len() - 1, words.len()]) {
            for start in [2, length, length + 1] {
                let (shuffled, in_the_end) = shuffle(&words[..length], start, &records);
                // A refusal leaves the slots as they were, and they had no records.
                let slots = if shuffled.no == 0 { in_the_end } else { Lent::with_room(n) };
                assert_eq!(sample(&words[..length], start, &records, n, n), (shuffled, slots), "{n} records");
            }
        }
    }
}

#[test]
fn a_sample_of_1_from_1_uses_no_word() {
    for words in [&[][..], &[0, 0, 0]] {
        for start in 0..=words.len() {
            assert_eq!(sample(words, start, &[77], 1, 2), (done(start, 0), Lent::holding(2, &[77])));
        }
        for start in [words.len() + 1, usize::MAX] {
            assert_eq!(sample(words, start, &[77], 1, 2), (refused(9, start, 0), Lent::with_room(2)));
        }
    }
}

// ---- Refusals and the lent list ----

#[test]
fn lent_places_past_k_stay() {
    let words = [u64::MAX; 10];
    let records = in_place(30);
    for k in 1..=30 {
        for room in [k, k + 1, k + 16, 100] {
            // The highest roll is its own place: it is below k nowhere, and the first k records stay in their slots; in
            // the final shuffle each of them is exchanged with itself.
            assert_eq!(sample(&words, 0, &records, k, room).1, Lent::holding(room, &records[..k]));
        }
    }
}

#[test]
fn a_lent_list_that_is_too_short_is_refused_6() {
    let words = [u64::MAX; 10];
    for (k, room) in (1..=30).flat_map(|k| (0..k).map(move |room| (k, room))) {
        assert_eq!(sample(&words, 0, &in_place(30), k, room), (refused(6, 0, 0), Lent::with_room(room)));
    }
}

#[test]
fn equal_records_are_records_like_others() {
    // The bounds are 3, 4, 5, 6, and t = 2^64 mod 360 = 16. Word 2^61 + 1 gives roll 0 with r = 3 * 2^61 + 3, roll 1
    // with r = 2^63 + 12, roll 2 with r = 2^63 + 60, roll 3 with r = 360; word 2^61 ends with r = 0, and is rejected.
    // Slot 0 gets the 8 of place 2 and slot 1 the 8 of place 3; the rolls 2 and 3 are not below k. Then word 0
    // exchanges the two slots.
    let words = [1 << 61, (1 << 61) + 1, 0];
    assert_eq!(sample(&words, 0, &[7, 7, 8, 8, 9, 9], 2, 2), (done(3, 1), Lent::holding(2, &[8, 8])));
}

#[test]
fn words_that_end_at_any_batch_of_the_reservoir_or_of_the_final_shuffle_leave_the_slots_as_they_were() {
    let mut generator = Generator::new(53);
    let of_few = [(2, 1), (2, 2), (3, 2), (8, 8), (30, 1), (60, 40), (200, 14), (700, 513)];
    for (n, k) in of_few.into_iter().chain([(3000, 2), (16_384, 64), (16_384, 8192), (16_384, 16_384)]) {
        let records = generator.records(n);
        let plan = plan::sample(n, k);
        let words = generator.words_for_plan(&plan);
        let trace = run(&plan, &words, 0).unwrap_or_else(|refusal| panic!("words made for the plan: {refusal}"));
        let before = generator.records(k + 5);
        let mut slots = before.clone();
        let first_of_the_shuffle = plan::reservoir(n, k).len();
        let at_the_edges = [first_of_the_shuffle.saturating_sub(1), first_of_the_shuffle, plan.len() - 1];
        let at_the_edges = at_the_edges.into_iter().filter(|&batch| batch < plan.len());
        for batch in thinned((0..plan.len()).collect()).chain(at_the_edges) {
            // The list ends right before the batch's accepted word.
            let answer = raw::sample(&words[..trace.batches[batch].place], 0, &records, k, &mut slots);
            assert_eq!(answer, refused(10, 0, batch), "{k} of {n}");
            assert!(slots == before, "{k} of {n}, batch {batch}");
        }
        let answer = raw::sample(&words, 0, &records, k, &mut slots);
        assert_eq!(answer, done(words.len(), words.len() - plan.len()));
        assert!(slots[..k] != before[..k] && slots[k..] == before[k..]);
    }
}

#[test]
fn batch_numbers_run_on_into_the_final_shuffle() {
    let mut generator = Generator::new(59);
    for (n, k) in [(3, 2), (7, 6), (8, 8), (20, 20), (30, 8), (60, 40), (100, 2), (200, 14), (600, 530)] {
        let records = generator.records(n);
        let words = generator.words_for_plan(&plan::sample(n, k));
        let mut ended_in = BTreeSet::new();
        for length in 0..words.len() {
            let words = &words[..length];
            let (listed, slots) = reservoir(words, &records, k);
            let wanted = match listed.no {
                0 => {
                    // Words used are batches plus rejected.
                    let of_the_reservoir = listed.next - listed.rejected;
                    refused(10, 0, of_the_reservoir + shuffle(words, listed.next, &slots).0.batch)
                }
                _ => listed,
            };
            assert_eq!(sample(words, 0, &records, k, k + 5), (wanted, Lent::with_room(k + 5)), "{k} of {n}");
            ended_in.insert(listed.no == 0);
        }
        assert_eq!(ended_in.len(), if k < n { 2 } else { 1 }, "in the reservoir, where there is one, and after it");
    }
}

#[test]
fn the_start_place_may_be_at_the_end_of_the_words_and_not_above_it() {
    // The bounds 2, .., 30 are cut as 2..17, which are sixteen, 18..29, whose product with 30 passes 2^56, and 30.
    let records = in_place(30);
    let words = [u64::MAX; 6];
    for start in 0..=3 {
        assert_eq!(sample(&words, start, &records, 1, 1), (done(start + 3, 0), Lent::holding(1, &[0])));
    }
    for start in 4..=6 {
        assert_eq!(sample(&words, start, &records, 1, 1), (refused(10, start, 6 - start), Lent::with_room(1)));
    }
    for start in [7, 8, usize::MAX - 1, usize::MAX] {
        assert_eq!(sample(&words, start, &records, 1, 1), (refused(9, start, 0), Lent::with_room(1)));
    }
    // The bounds 9, .., 30 are cut as 9..22, whose product with 23 passes 2^56, and 23..30; the shuffle of 8 records is
    // batches of 6 and 1. The highest rolls leave the first 8 in their slots.
    for start in 0..=2 {
        assert_eq!(sample(&words, start, &records, 8, 8), (done(start + 4, 0), Lent::holding(8, &records[..8])));
    }
    for start in 3..=6 {
        assert_eq!(sample(&words, start, &records, 8, 8), (refused(10, start, 6 - start), Lent::with_room(8)));
    }
    assert_eq!(sample(&words, 7, &records, 8, 8), (refused(9, 7, 0), Lent::with_room(8)));
}

#[test]
fn of_any_refusals_that_meet_the_lowest_number_is_given() {
    let mut generator = Generator::new(54);
    let plan = plan::sample(16_384, 5);
    let words = generator.words_for_plan(&plan);
    for wrong in choices(&[2, 3, 6, 9, 10]) {
        let is_wrong = |no| wrong.contains(&no);
        let n = if is_wrong(2) { 16_385 } else { 16_384 };
        let records = generator.records(n);
        let words = if is_wrong(10) { &words[..words.len() - 1] } else { &words };
        let start = if is_wrong(9) { words.len() + 1 } else { 0 };
        // No room is too short for a k of 0.
        let wrong_k = if is_wrong(6) { vec![n + 1, usize::MAX] } else { vec![0, n + 1, n + 2] };
        for k in if is_wrong(3) { wrong_k } else { vec![5] } {
            let room = if is_wrong(6) { k.min(n) - 1 } else { k.min(n + 2) };
            let (answer, lent) = sample(words, start, &records, k, room);
            match wrong.first() {
                Some(10) => assert_eq!(answer, refused(10, start, plan.len() - 1)),
                Some(&lowest) => assert_eq!(answer, refused(lowest, start, 0), "wrong {wrong:?}, k {k}"),
                None => assert_eq!(answer, done(words.len(), words.len() - plan.len())),
            }
            assert_eq!(lent == Lent::with_room(room), !wrong.is_empty(), "wrong {wrong:?}, k {k}");
        }
    }
}

/// One random sample with its words, start and room: made to succeed, then perhaps spoilt.
fn random_sample(generator: &mut Generator, n: usize) -> raw::Answer {
    let records = generator.records(n);
    let mut k = generator.below(n + 1);
    if generator.once_in(2) {
        k = k.min(generator.between(1, 5));
    }
    let mut words: Vec<u64> = (0..generator.below(4)).map(|_| generator.word()).collect();
    let mut start = words.len();
    words.extend(generator.words_for_plan(&plan::sample(n, k)));
    words.extend((0..generator.below(3)).map(|_| generator.word()));
    let mut room = k + generator.one_of(&[0, 1, 17]);
    if generator.once_in(4) {
        words.truncate(generator.below(words.len() + 1));
    }
    if generator.once_in(8) {
        start = generator.start(words.len());
    }
    if generator.once_in(16) {
        room = generator.below(k + 1);
    }
    if generator.once_in(16) {
        k = generator.one_of(&[0, n + 1, n + 2, usize::MAX]);
    }
    sample(&words, start, &records, k, room).0
}

#[test]
fn random_samples_agree_with_the_oracle() {
    let mut generator = Generator::new(55);
    let mut numbers = BTreeSet::new();
    let mut rejected = 0;
    let cases = cases(100_000);
    for _ in 0..cases {
        let n = generator.below(60);
        let answer = random_sample(&mut generator, n);
        numbers.insert(answer.no);
        rejected += answer.rejected;
    }
    assert_eq!(numbers, BTreeSet::from([0, 3, 6, 9, 10]));
    assert!(rejected > cases / 4, "only {rejected} words were rejected");
}

#[test]
fn long_random_samples_agree_with_the_oracle() {
    let mut generator = Generator::new(56);
    let mut numbers = BTreeSet::new();
    for _ in 0..cases(300) {
        let n = generator.between(60, 3000);
        numbers.insert(random_sample(&mut generator, n).no);
    }
    for _ in 0..cases(100) {
        let n = generator.between(14_000, 17_000);
        numbers.insert(random_sample(&mut generator, n).no);
    }
    assert_eq!(numbers, BTreeSet::from([0, 2, 3, 6, 9, 10]));
}
