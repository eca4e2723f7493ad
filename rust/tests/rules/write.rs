//! Writing a draw sheet: where its numbers, words and records go, how long it may be, and refusals 2, 3, 6.

use crate::sheets::{self, by_the_library, laid_out, numbers_beside};
use crate::support::{
    cases, choices, in_place, run_sheet, sample, sheet_written, write_refused, write_sheet, Generator, Lent,
};
use hildrasp::oracle::sheet::is_sound;
use hildrasp::raw::Written;
use std::collections::BTreeSet;

/// The library writes the sheet that is laid out without gaps, the words first, and leaves the bytes past it.
fn is_laid_out(words: &[u64], records: &[u32], k: usize, w: usize, past: usize) {
    let sheet = laid_out(words, records, k as u32, w as u32, [0; 3], false);
    let room = sheet.len() + past;
    let wanted = (sheet_written(sheet.len()), Lent::holding(room, &sheet));
    assert_eq!(write_sheet(words, records, k, w, room), wanted, "{} words, {k} of {}", words.len(), records.len());
}

/// The library refuses to write these, and leaves every byte.
fn is_refused(no: u64, words: &[u64], records: &[u32], k: usize, w: usize, room: usize) {
    let case = || format!("{} words, {} records, k {k}, w {w}, room {room}", words.len(), records.len());
    assert_eq!(write_sheet(words, records, k, w, room), (write_refused(no), Lent::with_room(room)), "{}", case());
}

// ---- The sheet ----

#[test]
fn words_are_at_24_and_records_straight_after() {
    let mut generator = Generator::new(111);
    for (words, n) in (0..20).flat_map(|words| (1..20).map(move |n| (words, n))) {
        let words: Vec<u64> = (0..words).map(|_| generator.word()).collect();
        let records = generator.records(n);
        let k = generator.between(1, n);
        is_laid_out(&words, &records, k, generator.below(k + 1), 0);
    }
}

#[test]
fn numbers_words_and_records_are_written_low_byte_first() {
    let sheet = by_the_library(&[0x0807_0605_0403_0201], &[0x0c0b_0a09, 0x100f_0e0d], 2, 1);
    assert_eq!(sheet[..24], [1, 0, 0, 0, 24, 0, 0, 0, 2, 0, 0, 0, 32, 0, 0, 0, 2, 0, 0, 0, 1, 0, 0, 0]);
    assert_eq!(sheet[24..], [1, 2, 3, 4, 5, 6, 7, 8, 9, 10, 11, 12, 13, 14, 15, 16]);
    // 300 words, at 24; 700 records, at 2,424; k of 600, w of 500.
    let sheet = by_the_library(&[u64::MAX; 300], &in_place(700), 600, 500);
    assert_eq!(sheet[..24], [44, 1, 0, 0, 24, 0, 0, 0, 188, 2, 0, 0, 120, 9, 0, 0, 88, 2, 0, 0, 244, 1, 0, 0]);
}

#[test]
fn bytes_past_the_sheet_stay() {
    let mut generator = Generator::new(112);
    let words = [0; 5].map(|_| generator.word());
    for n in [1, 2, 17] {
        let records = generator.records(n);
        for past in (0..300).chain([65_000, 65_535, 65_536, 200_000]) {
            is_laid_out(&words, &records, n, 1, past);
        }
    }
}

#[test]
fn a_written_sheet_is_sound_and_its_draw_is_the_sample_of_its_records_from_start_0() {
    let mut generator = Generator::new(113);
    let mut numbers = BTreeSet::new();
    for _ in 0..cases(20_000) {
        let (mut words, records, k, w) = sheets::to_draw_from(&mut generator);
        if generator.once_in(4) {
            words.truncate(generator.below(words.len() + 1));
        }
        let sheet = by_the_library(&words, &records, k, w);
        assert!(is_sound(&sheet));
        let (answer, wanted) = sample(&words, 0, &records, k, k + 2);
        let (drawn, slots) = run_sheet(&sheet, k + 2);
        assert_eq!((drawn.no, drawn.next, drawn.rejected), (answer.no, answer.next, answer.rejected));
        assert_eq!((drawn.batch, slots), (answer.batch, wanted));
        numbers.insert(drawn.no);
    }
    assert_eq!(numbers, BTreeSet::from([0, 10]));
}

// ---- Refusals ----

/// Counts of words and records of the longest sheets: 24 + 8 x 8,188 + 4 x 1 is 65,532, and so are the others.
const LONGEST: [(usize, usize); 9] =
    [(0, 16_377), (1, 16_375), (2, 16_373), (100, 16_177), (4094, 8189), (4095, 8187), (8186, 5), (8187, 3), (8188, 1)];

#[test]
fn a_sheet_that_would_pass_65535_bytes_is_refused_2() {
    let mut generator = Generator::new(114);
    let words: Vec<u64> = (0..8190).map(|_| generator.word()).collect();
    let records = generator.records(16_400);
    for (a, b) in LONGEST {
        // 65,532 bytes; then with one record more 65,536, and with one word more 65,540.
        is_laid_out(&words[..a], &records[..b], b, b, 0);
        is_laid_out(&words[..a], &records[..b], 1, 0, 9);
        is_refused(2, &words[..a], &records[..b + 1], 1, 0, 65_536);
        is_refused(2, &words[..a + 1], &records[..b], 1, 0, 65_600);
        if b > 1 {
            // 65,528 bytes; then with one word more 65,536.
            is_laid_out(&words[..a], &records[..b - 1], 1, 1, 0);
            is_refused(2, &words[..a + 1], &records[..b - 1], 1, 1, 70_000);
        }
    }
}

#[test]
fn lists_far_longer_than_any_sheet_are_refused_2() {
    let counts =
        [0, 1, 8191, 8192, 8193, 16_383, 16_384, 16_385, 65_533, 65_536, 65_540, 1 << 17, 1 << 20, (1 << 22) + 1];
    let words = vec![5; (1 << 22) + 1];
    let records = vec![7; (1 << 22) + 1];
    for (a, b) in counts.into_iter().flat_map(|a| counts.map(|b| (a, b))) {
        if a > 8188 || b > 16_377 {
            is_refused(2, &words[..a], &records[..b], 1, 1, 100);
            is_refused(2, &words[..a], &records[..b], 1, 1, 70_000);
        }
    }
}

#[test]
fn k_is_1_to_n_and_w_at_most_k() {
    for n in [0, 1, 2, 3, 40, 16_377] {
        let records = in_place(n);
        for k in numbers_beside(n) {
            for w in numbers_beside(n).into_iter().chain(numbers_beside(k.min(n))) {
                let (room, is_allowed) = (24 + 4 * n, (1..=n).contains(&k) && w <= k);
                if is_allowed {
                    is_laid_out(&[], &records, k, w, 0);
                } else {
                    is_refused(3, &[], &records, k, w, room);
                }
            }
        }
    }
}

#[test]
fn a_lent_list_that_is_too_short_is_refused_6() {
    let mut generator = Generator::new(115);
    let words: Vec<u64> = (0..8190).map(|_| generator.word()).collect();
    let records = generator.records(16_400);
    for (a, b) in (0..5).flat_map(|a| (1..5).map(move |b| (a, b))) {
        for room in 0..24 + 8 * a + 4 * b {
            is_refused(6, &words[..a], &records[..b], 1, 0, room);
        }
        is_laid_out(&words[..a], &records[..b], 1, 0, 0);
    }
    for (a, b) in LONGEST {
        for room in [0, 24, 65_500, 65_528, 65_531] {
            is_refused(6, &words[..a], &records[..b], 1, 0, room);
        }
    }
}

#[test]
fn of_any_refusals_that_meet_the_lowest_number_is_given() {
    let mut generator = Generator::new(116);
    let records = generator.records(16_400);
    for (a, b) in LONGEST {
        let words: Vec<u64> = (0..a).map(|_| generator.word()).collect();
        // k and w that are not allowed: k of 0, k above n, w above k.
        for (wrong_k, wrong_w) in [(0, 0), (b + 2, 0), (usize::MAX, 1), (1, 2), (1, usize::MAX), ((1 << 32) + 1, 1)] {
            for wrong in choices(&[2, 3, 6]) {
                let is_wrong = |no| wrong.contains(&no);
                let records = if is_wrong(2) { &records[..b + 1] } else { &records[..b] };
                let (k, w) = if is_wrong(3) { (wrong_k, wrong_w) } else { (1, 1) };
                let length = 24 + 8 * a + 4 * records.len();
                match wrong.first() {
                    Some(&lowest) => is_refused(lowest, &words, records, k, w, length - usize::from(is_wrong(6))),
                    None => is_laid_out(&words, records, k, w, 0),
                }
            }
        }
    }
}

// ---- Small and random cases ----

#[test]
fn every_small_sheet_is_written_as_by_the_oracle() {
    let (words, records) = ([u64::MAX, 1 << 40, 3], [9, u32::MAX, 1 << 20, 0]);
    let mut numbers = BTreeSet::new();
    for (a, b) in (0..=3).flat_map(|a| (0..=4).map(move |b| (a, b))) {
        for (k, w) in (0..=6).flat_map(|k| (0..=6).map(move |w| (k, w))) {
            let length = 24 + 8 * a + 4 * b;
            for room in [0, 4, 23, 24].into_iter().chain(length - 2..=length + 2) {
                numbers.insert(write_sheet(&words[..a], &records[..b], k, w, room).0.no);
            }
        }
    }
    assert_eq!(numbers, BTreeSet::from([0, 3, 6]));
}

/// One random sheet to write and its room, which is enough most often.
fn random_write(generator: &mut Generator) -> Written {
    let (words, records, k, w) = sheets::to_write(generator);
    let length = 24 + 8 * words.len() + 4 * records.len();
    let room = match generator.below(16) {
        0 => generator.below(length),
        1 => length - 1,
        _ => length + generator.one_of(&[0, 1, 17]),
    };
    write_sheet(&words, &records, k, w, room).0
}

#[test]
fn random_sheets_are_written_as_by_the_oracle() {
    let mut generator = Generator::new(117);
    let numbers: BTreeSet<u64> = (0..cases(100_000)).map(|_| random_write(&mut generator).no).collect();
    assert_eq!(numbers, BTreeSet::from([0, 2, 3, 6]));
}
