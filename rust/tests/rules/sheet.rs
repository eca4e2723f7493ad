//! The draw sheet: when it is sound, the draw from it, and refusals 1, 3, 6, 10.

use crate::sheets::{self, change_number, laid_out, written};
use crate::support::{cases, choices, in_place, run_sheet, sample, sheet_refused, thinned, Generator, Lent};
use hildrasp::oracle::{plan, run::run};
use hildrasp::{raw, Numbers};
use std::collections::BTreeSet;

/// The number that the library gives for a sheet, with room enough.
fn number_for(sheet: &[u8]) -> u64 {
    run_sheet(sheet, 16_384).0.no
}

/// A sheet of this length whose two areas lie as given; it asks for all its records. Its words are filled as gaps are;
/// the first is accepted, and does for up to three records.
fn with_areas(length: usize, (words, words_at): (u32, u32), (records, records_at): (u32, u32)) -> Vec<u8> {
    written(length, Numbers { words, words_at, records, records_at, k: records, w: 0 }, &[], &[])
}

// ---- Sound sheets ----

#[test]
fn a_sheet_has_24_to_65535_bytes() {
    for length in 0..24 {
        assert_eq!(number_for(&vec![0; length]), 1, "{length} bytes");
        assert_eq!(number_for(&with_areas(length, (0, 24), (0, 24))), 1, "{length} bytes");
    }
    // Without records no k is right, and the sheet is refused for nothing else.
    assert_eq!(number_for(&with_areas(24, (0, 24), (0, 24))), 3);
    assert_eq!(number_for(&with_areas(25, (0, 24), (0, 25))), 3);
    for length in [28, 1000, 65_534, 65_535] {
        assert_eq!(number_for(&with_areas(length, (0, 24), (1, 24))), 0, "{length} bytes");
    }
    for length in [65_536, 65_537, 65_536 + 24, 70_000, 131_072, 1 << 20] {
        assert_eq!(number_for(&with_areas(length, (0, 24), (1, 24))), 1, "{length} bytes");
    }
}

#[test]
fn each_offset_is_at_least_24() {
    for offset in 0..30 {
        let no = if offset < 24 { 1 } else { 0 };
        assert_eq!(number_for(&with_areas(100, (1, offset), (1, 90))), no, "words at {offset}");
        assert_eq!(number_for(&with_areas(100, (1, 90), (1, offset))), no, "records at {offset}");
    }
}

#[test]
fn each_area_ends_within_the_sheet() {
    for length in 100..120 {
        // Words from 88 to 104, records from 24 to 28.
        let no = if length < 104 { 1 } else { 0 };
        assert_eq!(number_for(&with_areas(length, (2, 88), (1, 24))), no, "{length} bytes");
        // Records from 92 to 104, words from 24 to 32.
        assert_eq!(number_for(&with_areas(length, (1, 24), (3, 92))), no, "{length} bytes");
    }
}

#[test]
fn the_areas_share_no_byte() {
    // The words are the bytes 56 to 71. Records of 12 bytes go at every place, before, over and after them.
    for records_at in 24..=100 {
        let apart = records_at + 12 <= 56 || records_at >= 72;
        let sheet = with_areas(112, (2, 56), (3, records_at));
        assert_eq!(number_for(&sheet), if apart { 0 } else { 1 }, "records at {records_at}");
    }
    // Records within words, and words within records.
    assert_eq!(number_for(&with_areas(200, (20, 24), (1, 100))), 1);
    assert_eq!(number_for(&with_areas(200, (1, 100), (40, 24))), 1);
}

#[test]
fn an_empty_area_shares_no_byte_wherever_it_lies() {
    // The other area is the bytes 40 to 79.
    for offset in 0..=130 {
        let is_sound = (24..=120).contains(&offset);
        // Without words there is none to shuffle the records.
        let no = if is_sound { 10 } else { 1 };
        assert_eq!(number_for(&with_areas(120, (0, offset), (10, 40))), no, "empty words at {offset}");
        // Without records no k is right.
        let no = if is_sound { 3 } else { 1 };
        assert_eq!(number_for(&with_areas(120, (5, 40), (0, offset))), no, "empty records at {offset}");
        assert_eq!(number_for(&with_areas(120, (0, 24), (0, offset))), no, "both empty, records at {offset}");
        assert_eq!(number_for(&with_areas(120, (0, offset), (0, 24))), no, "both empty, words at {offset}");
    }
}

#[test]
fn counts_and_offsets_near_2_to_the_32_are_not_sound() {
    let near = [1 << 29, (1 << 29) - 3, (1 << 29) + 1, 1 << 30, (1 << 30) - 6, (1 << 30) + 1, 1 << 31, 3 << 30];
    for far in near.into_iter().chain((0..40).map(|below| u32::MAX - below)) {
        for length in [24, 100, 65_535] {
            assert_eq!(number_for(&with_areas(length, (far, 24), (0, 24))), 1, "{far} words");
            assert_eq!(number_for(&with_areas(length, (0, 24), (far, 24))), 1, "{far} records");
            assert_eq!(number_for(&with_areas(length, (0, far), (0, 24))), 1, "no words at {far}");
            assert_eq!(number_for(&with_areas(length, (1, far), (0, 24))), 1, "a word at {far}");
            assert_eq!(number_for(&with_areas(length, (0, 24), (0, far))), 1, "no records at {far}");
            assert_eq!(number_for(&with_areas(length, (0, 24), (1, far))), 1, "a record at {far}");
            assert_eq!(number_for(&with_areas(length, (far, far), (far, far))), 1, "all at {far}");
        }
    }
}

#[test]
fn an_area_may_grow_into_a_gap_and_no_further() {
    let sheet = laid_out(&[1, 2], &[3, 4, 5], 3, 0, [0, 8, 4], false);
    for field in [0, 8] {
        let mut other = sheet.clone();
        change_number(&mut other, field, |count| count + 1);
        assert_eq!(number_for(&other), 0, "the gap is room for one more");
        change_number(&mut other, field, |count| count + 1);
        assert_eq!(number_for(&other), 1);
    }
}

#[test]
fn gaps_may_hold_anything() {
    let (words, records) = ([0, 1, 5 << 60, u64::MAX, 7, 3], in_place(40));
    for records_first in [false, true] {
        let sheet = laid_out(&words, &records, 3, 2, [5, 7, 9], records_first);
        let drawn = run_sheet(&sheet, 3);
        assert_eq!(drawn.0.no, 0);
        let first_area = if records_first { 4 * records.len() } else { 8 * words.len() };
        let between = 24 + 5 + first_area;
        for place in (24..29).chain(between..between + 7).chain(sheet.len() - 9..sheet.len()) {
            for byte in [0, 1, 0xff] {
                let mut other = sheet.clone();
                other[place] = byte;
                assert_eq!(run_sheet(&other, 3), drawn, "byte {place}");
            }
        }
    }
}

// ---- The draw ----

#[test]
fn the_draw_is_the_sample_from_start_0_wherever_the_areas_lie() {
    let mut generator = Generator::new(81);
    for n in [1, 2, 3, 10, 60, 500] {
        let k = generator.between(1, n);
        let records = generator.records(n);
        let words = generator.words_for_plan(&plan::sample(n, k));
        let (answer, slots) = sample(&words, 0, &records, k, k + 2);
        for gaps in [[0, 0, 0], [1, 0, 0], [0, 1, 0], [0, 0, 1], [3, 5, 7], [4, 8, 12]] {
            for records_first in [false, true] {
                let sheet = laid_out(&words, &records, k as u32, 1, gaps, records_first);
                let (drawn, lent) = run_sheet(&sheet, k + 2);
                assert_eq!((drawn.no, drawn.next, drawn.rejected, drawn.batch), (0, answer.next, answer.rejected, 0));
                assert_eq!(lent, slots);
            }
        }
    }
}

#[test]
fn the_six_numbers_come_back_with_the_draw() {
    let sheet = laid_out(&[7, 8, 9], &[1, 2, 3, 4, 5], 4, 3, [2, 3, 4], false);
    let (drawn, _) = run_sheet(&sheet, 4);
    assert_eq!(drawn.no, 0);
    assert_eq!(drawn.numbers, Numbers { words: 3, words_at: 26, records: 5, records_at: 53, k: 4, w: 3 });
}

#[test]
fn the_longest_sheets_are_drawn_from() {
    let mut generator = Generator::new(82);
    for (n, k) in sheets::LONGEST_DRAWS {
        let words = sheets::words_that_roll(k, &sheets::rolls_for(&mut generator, n, k));
        let records = generator.records(n);
        let (sampled, slots) = sample(&words, 0, &records, k, k);
        let sheet = |words| laid_out(words, &records, k as u32, 1, [0; 3], true);
        let (drawn, lent) = run_sheet(&sheet(&words), k);
        assert_eq!((drawn.no, drawn.next, sampled.next), (0, words.len(), words.len()), "{k} of {n}");
        assert_eq!(lent, slots, "{k} of {n}");
        let without_the_last = run_sheet(&sheet(&words[..words.len() - 1]), k);
        assert_eq!(without_the_last, (sheet_refused(10, words.len() - 1), Lent::with_room(k)), "{k} of {n}");
        // With one record more the sheet would be too long.
        let longer = 24 + 8 * plan::sample(n + 1, k).len() + 4 * (n + 1);
        assert!(sheet(&words).len() <= 65_535 && longer > 65_535, "{k} of {n}");
    }
    // The most records that fit leave no room for a word, and the most words room for one record, which needs none.
    let most_records = laid_out(&[], &generator.records(16_377), 16_377, 16_377, [0, 0, 3], false);
    assert_eq!(run_sheet(&most_records, 16_377), (sheet_refused(10, 0), Lent::with_room(16_377)));
    let most_words = laid_out(&[3; 8188], &[5], 1, 0, [0, 0, 3], true);
    let (drawn, slots) = run_sheet(&most_words, 2);
    assert_eq!((drawn.no, drawn.next, slots), (0, 0, Lent::holding(2, &[5])));
    assert_eq!([most_records.len(), most_words.len()], [65_535; 2]);
}

// ---- Refusals ----

#[test]
fn k_is_1_to_n_and_w_at_most_k() {
    let records = in_place(6);
    let words = [u64::MAX; 4];
    for (k, w) in (0..=8).flat_map(|k| (0..=9).map(move |w| (k, w))) {
        let sheet = laid_out(&words, &records, k, w, [0; 3], false);
        let allowed = (1..=6).contains(&k) && w <= k;
        if allowed {
            assert_eq!(number_for(&sheet), 0, "k {k}, w {w}");
        } else {
            assert_eq!(run_sheet(&sheet, 6), (sheet_refused(3, 0), Lent::with_room(6)), "k {k}, w {w}");
        }
    }
    for (k, w) in [(u32::MAX, 0), (u32::MAX, u32::MAX), (1 << 31, 1), (6, u32::MAX), (1 << 16, 0), (257, 0), (6, 256)] {
        let sheet = laid_out(&words, &records, k, w, [0; 3], false);
        assert_eq!(run_sheet(&sheet, 6), (sheet_refused(3, 0), Lent::with_room(6)), "k {k}, w {w}");
    }
}

#[test]
fn a_lent_list_that_is_too_short_is_refused_6() {
    for k in 1..=6 {
        let sheet = laid_out(&[u64::MAX; 4], &in_place(6), k as u32, 0, [0; 3], false);
        for room in 0..k {
            assert_eq!(run_sheet(&sheet, room), (sheet_refused(6, 0), Lent::with_room(room)));
        }
        for room in [k, k + 1, 6, 30] {
            assert_eq!(run_sheet(&sheet, room).0.no, 0);
        }
    }
}

#[test]
fn words_that_end_at_any_batch_of_the_reservoir_or_of_the_final_shuffle_leave_the_slots_as_they_were() {
    let mut generator = Generator::new(83);
    for (n, k) in [(3, 2), (8, 8), (60, 40), (100, 2), (700, 513), (530, 530)] {
        let records = generator.records(n);
        let plan = plan::sample(n, k);
        let words = generator.words_for_plan(&plan);
        let trace = run(&plan, &words, 0).unwrap_or_else(|refusal| panic!("words made for the plan: {refusal}"));
        for length in 0..words.len() {
            let batch = trace.batches.iter().filter(|taken| taken.place < length).count();
            let sheet = laid_out(&words[..length], &records, k as u32, 1, [0; 3], false);
            let wanted = (sheet_refused(10, batch), Lent::with_room(k + 3));
            assert_eq!(run_sheet(&sheet, k + 3), wanted, "{k} of {n}, {length} words");
        }
        assert_eq!(number_for(&laid_out(&words, &records, k as u32, 1, [0; 3], false)), 0, "{k} of {n}");
    }
}

#[test]
fn a_draw_is_refused_10_for_the_batch_that_its_sample_is() {
    let mut generator = Generator::new(86);
    for (n, k) in (1..=30).flat_map(|n| (1..=n).map(move |k| (n, k))) {
        let records = generator.records(n);
        let mut words = generator.words_for_plan(&plan::sample(n, k));
        words.truncate(generator.below(words.len() + 1));
        let (raw::Answer { no, next, rejected, batch }, slots) = sample(&words, 0, &records, k, k + 1);
        let (drawn, lent) = run_sheet(&laid_out(&words, &records, k as u32, 0, [0; 3], false), k + 1);
        assert_eq!([drawn.next, drawn.rejected, drawn.batch], [next, rejected, batch], "{k} of {n}");
        assert_eq!((drawn.no, lent), (no, slots), "{k} of {n}");
    }
}

#[test]
fn of_any_refusals_that_meet_the_lowest_number_is_given() {
    let records = in_place(50);
    // The bounds 6, .., 50 are cut into four batches: 6..20, 21..31, 32..41 and 42..50. The final shuffle is the fifth.
    let enough = [u64::MAX; 5];
    // k and w that are not allowed: w above k, k above n, k of 0.
    for (wrong_k, wrong_w) in [(5, 6), (51, 3), (u32::MAX, 3), (0, 0)] {
        for wrong in choices(&[1, 3, 6, 10]) {
            let is_wrong = |no| wrong.contains(&no);
            if is_wrong(3) && is_wrong(6) && wrong_k == 0 {
                continue; // No room is too short for a k of 0.
            }
            let words = if is_wrong(10) { &enough[..4] } else { &enough };
            let (k, w) = if is_wrong(3) { (wrong_k, wrong_w) } else { (5, 5) };
            let room = if is_wrong(6) { 4 } else { 60 };
            let mut sheet = laid_out(words, &records, k, w, [0; 3], false);
            if is_wrong(1) {
                sheet.pop();
            }
            let (drawn, slots) = run_sheet(&sheet, room);
            match wrong.first() {
                Some(10) => assert_eq!(drawn, sheet_refused(10, 4)),
                Some(&lowest) => assert_eq!(drawn, sheet_refused(lowest, 0), "wrong {wrong:?}, k {k}, w {w}"),
                None => assert_eq!((drawn.no, drawn.next), (0, 5)),
            }
            assert_eq!(slots == Lent::with_room(room), !wrong.is_empty(), "wrong {wrong:?}, k {k}, w {w}");
        }
    }
}

// ---- Damaged and random sheets ----

#[test]
fn a_sheet_with_any_byte_damaged_is_answered_as_by_the_oracle() {
    let mut generator = Generator::new(84);
    let words = generator.words_for_plan(&plan::sample(30, 3));
    for records_first in [false, true] {
        let sheet = laid_out(&words, &generator.records(30), 3, 2, [1, 2, 3], records_first);
        assert_eq!(number_for(&sheet), 0);
        let damages = (0..sheet.len()).flat_map(|place| (0..=255).map(move |byte| (place, byte)));
        for (place, byte) in thinned(damages.collect()) {
            let mut other = sheet.clone();
            other[place] = byte;
            run_sheet(&other, 5);
        }
    }
}

#[test]
fn a_sheet_cut_off_at_any_byte_is_refused_1() {
    let sheet = laid_out(&[1, 2, 3], &in_place(9), 4, 2, [3, 2, 0], true);
    assert_eq!(number_for(&sheet), 0);
    for length in 0..sheet.len() {
        assert_eq!(run_sheet(&sheet[..length], 9), (sheet_refused(1, 0), Lent::with_room(9)), "{length} bytes");
    }
}

#[test]
fn each_of_the_six_numbers_is_read_low_byte_first() {
    let sheet = laid_out(&[u64::MAX; 300], &in_place(700), 600, 500, [0x0201, 0x0102, 0], false);
    assert_eq!(number_for(&sheet), 0);
    for field in 0..6 {
        let mut other = sheet.clone();
        other[4 * field..4 * field + 4].reverse();
        assert_ne!(number_for(&other), 0, "number {field}");
    }
}

#[test]
fn random_sheets_are_answered_as_by_the_oracle() {
    let mut generator = Generator::new(85);
    let mut numbers = BTreeSet::new();
    let mut rejected = 0;
    let cases = cases(100_000);
    for _ in 0..cases {
        let sheet = if generator.once_in(3) { sheets::sound(&mut generator) } else { sheets::damaged(&mut generator) };
        let enough = (sheets::number(&sheet, 16) as usize).min(16_384);
        let room = if generator.once_in(8) { generator.below(enough + 1) } else { enough + generator.below(3) };
        let (drawn, _) = run_sheet(&sheet, room);
        numbers.insert(drawn.no);
        rejected += drawn.rejected;
    }
    assert_eq!(numbers, BTreeSet::from([0, 1, 3, 6, 10]));
    assert!(rejected > cases / 4, "only {rejected} words were rejected");
}
