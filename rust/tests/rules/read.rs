//! Reading a draw sheet without a draw: its numbers, words and records, writing them again, and refusals 1, 3, 6.

use crate::sheets::{self, by_the_library, laid_out, numbers_without_gaps, written, UNSOUND};
use crate::support::{
    cases, choices, in_place, read_sheet, run_sheet, sheet_read, sheet_refused, thinned, Generator, Lent,
};
use hildrasp::raw::Drawn;
use hildrasp::Numbers;
use std::collections::BTreeSet;

/// Room for the words and the records that a sheet says it has, up to the most that one can have.
fn room_for(sheet: &[u8]) -> [usize; 2] {
    [(0, 8188), (8, 16_377)].map(|(field, most)| (sheets::number(sheet, field) as usize).min(most))
}

/// What the library reads from a sheet with just enough room.
fn read(sheet: &[u8]) -> (Drawn, Vec<u64>, Vec<u32>) {
    let (read, mut words, mut records) = read_sheet(sheet, room_for(sheet));
    (read, words.lend().to_vec(), records.lend().to_vec())
}

/// The library refuses to read this, and leaves both lists.
fn is_refused(no: u64, sheet: &[u8], rooms: [usize; 2]) {
    let wanted = (sheet_refused(no, 0), Lent::with_room(rooms[0]), Lent::with_room(rooms[1]));
    assert_eq!(read_sheet(sheet, rooms), wanted, "{} bytes, room {rooms:?}", sheet.len());
}

/// The sheet that the library writes from what it read.
fn written_again(numbers: Numbers, words: &[u64], records: &[u32]) -> Vec<u8> {
    by_the_library(words, records, numbers.k as usize, numbers.w as usize)
}

// ---- What is read ----

#[test]
fn reading_a_written_sheet_gives_back_the_same_whether_or_not_its_words_suffice_for_the_draw() {
    let mut generator = Generator::new(121);
    let mut numbers_of_draws = BTreeSet::new();
    for _ in 0..cases(20_000) {
        let (mut words, records, k, w) = sheets::to_draw_from(&mut generator);
        if generator.once_in(2) {
            words.truncate(generator.below(words.len() + 1));
        }
        let sheet = by_the_library(&words, &records, k, w);
        let numbers = numbers_without_gaps(words.len(), records.len(), k, w);
        assert_eq!(read(&sheet), (sheet_read(numbers), words, records));
        numbers_of_draws.insert(run_sheet(&sheet, k).0.no);
    }
    assert_eq!(numbers_of_draws, BTreeSet::from([0, 10]));
}

#[test]
fn writing_again_what_was_read_from_a_written_sheet_gives_the_same_bytes() {
    let mut generator = Generator::new(129);
    for _ in 0..cases(20_000) {
        let words: Vec<u64> = (0..generator.below(20)).map(|_| generator.word()).collect();
        let n = generator.between(1, 40);
        let k = generator.between(1, n);
        let sheet = by_the_library(&words, &generator.records(n), k, generator.below(k + 1));
        let (Drawn { numbers, .. }, words, records) = read(&sheet);
        assert_eq!(written_again(numbers, &words, &records), sheet);
    }
}

#[test]
fn bytes_past_a_written_sheet_are_a_gap_and_read_over() {
    let mut sheet = by_the_library(&[5, 6], &[101, 205, 309], 2, 1);
    let alone = read(&sheet);
    for length in [53, 60, 1000, 65_535] {
        sheet.resize(length, 0xff);
        assert_eq!(read(&sheet), alone, "{length} bytes");
    }
    sheet.push(0xff);
    is_refused(1, &sheet, [2, 3]);
}

#[test]
fn a_sheet_whose_words_do_not_suffice_is_read_and_its_draw_refused_10() {
    // Word 0 is rejected for the bounds 2 and 3, and with no word at all there is none to accept.
    for words in [&[0][..], &[]] {
        let sheet = by_the_library(words, &[101, 205, 309], 1, 1);
        let numbers = numbers_without_gaps(words.len(), 3, 1, 1);
        assert_eq!(read(&sheet), (sheet_read(numbers), words.to_vec(), vec![101, 205, 309]));
        assert_eq!(run_sheet(&sheet, 1), (sheet_refused(10, 0), Lent::with_room(1)));
    }
}

#[test]
fn a_sound_sheet_with_gaps_is_read_and_written_again_with_the_same_words_records_and_draw() {
    let mut generator = Generator::new(122);
    let (mut same, mut other) = (0, 0);
    for _ in 0..cases(20_000) {
        let sheet = sheets::sound(&mut generator);
        let (Drawn { no, numbers, .. }, words, records) = read(&sheet);
        assert_eq!(no, 0);
        let again = written_again(numbers, &words, &records);
        let numbers_again = numbers_without_gaps(words.len(), records.len(), numbers.k as usize, numbers.w as usize);
        assert_eq!(read(&again), (sheet_read(numbers_again), words, records));
        let k = numbers.k as usize;
        let ((drawn, slots), (drawn_again, slots_again)) = (run_sheet(&sheet, k), run_sheet(&again, k));
        assert_eq!((Drawn { numbers: numbers_again, ..drawn }, slots), (drawn_again, slots_again));
        // Where the six numbers are those of the written form and nothing follows the areas, there was no gap.
        let without_gap = numbers == numbers_again && sheet.len() == again.len();
        assert_eq!(sheet == again, without_gap);
        if without_gap {
            same += 1;
        } else {
            other += 1;
        }
    }
    assert!(same > 0 && other > same, "{same} sheets were without gaps and {other} with");
}

#[test]
fn a_sheet_with_a_gap_of_one_byte_or_with_its_records_first_differs_from_its_written_form() {
    let (words, records) = ([0, 1], [101, 205, 309]);
    let written_form = by_the_library(&words, &records, 1, 1);
    for (gaps, records_first) in [([1, 0, 0], false), ([0, 1, 0], false), ([0, 0, 1], false), ([0, 0, 0], true)] {
        let sheet = laid_out(&words, &records, 1, 1, gaps, records_first);
        let (Drawn { no, numbers, .. }, words_read, records_read) = read(&sheet);
        assert_eq!((no, &words_read[..], &records_read[..]), (0, &words[..], &records[..]));
        assert_ne!(sheet, written_form);
        assert_eq!(written_again(numbers, &words_read, &records_read), written_form);
    }
}

#[test]
fn places_past_the_words_and_past_the_records_stay() {
    let mut generator = Generator::new(123);
    let words = [0; 3].map(|_| generator.word());
    let records = generator.records(5);
    for (a, b) in (0..=3).flat_map(|a| (1..=5).map(move |b| (a, b))) {
        let sheet = by_the_library(&words[..a], &records[..b], 1, 1);
        let numbers = numbers_without_gaps(a, b, 1, 1);
        for rooms in [[a, b], [a + 1, b], [a, b + 1], [a + 9, b + 7], [20_000, 20_000]] {
            let wanted =
                (sheet_read(numbers), Lent::holding(rooms[0], &words[..a]), Lent::holding(rooms[1], &records[..b]));
            assert_eq!(read_sheet(&sheet, rooms), wanted, "{a} words, {b} records, room {rooms:?}");
        }
    }
}

#[test]
fn the_longest_sheets_are_read() {
    let mut generator = Generator::new(124);
    for (a, b) in [(0, 16_377), (1, 16_375), (4094, 8189), (8187, 3), (8188, 1)] {
        let words: Vec<u64> = (0..a).map(|_| generator.word()).collect();
        let records = generator.records(b);
        for (gaps, records_first) in [([0; 3], false), ([0, 0, 3], true), ([1, 2, 0], false), ([0, 1, 2], true)] {
            let sheet = laid_out(&words, &records, 1, 1, gaps, records_first);
            let (Drawn { no, numbers, .. }, words_read, records_read) = read(&sheet);
            assert_eq!((no, numbers.words as usize, numbers.records as usize), (0, a, b));
            assert!(words_read == words && records_read == records, "{a} words, {b} records");
        }
        is_refused(1, &laid_out(&words, &records, 1, 1, [4, 0, 0], false), [a, b]);
    }
}

// ---- Refusals ----

#[test]
fn a_sheet_is_refused_1_and_3_when_read_as_when_run_and_never_10() {
    let mut generator = Generator::new(125);
    let mut numbers = BTreeSet::new();
    for _ in 0..cases(20_000) {
        let sheet = sheets::damaged(&mut generator);
        let (read, ..) = read(&sheet);
        let (drawn, _) = run_sheet(&sheet, 16_377);
        match drawn.no {
            10 => assert_eq!(read.no, 0),
            no => assert_eq!((read.no, read.numbers), (no, drawn.numbers)),
        }
        numbers.insert(drawn.no);
    }
    assert_eq!(numbers, BTreeSet::from([0, 1, 3, 10]));
}

#[test]
fn k_is_1_to_n_and_w_at_most_k() {
    let (words, records) = ([3, 4], in_place(6));
    let far = [255, 256, 257, 1 << 16, (1 << 16) + 6, 1 << 31, (1 << 31) + 1, u32::MAX - 1, u32::MAX];
    for (k, w) in (0..=8).chain(far).flat_map(|k| (0..=9).chain(far).map(move |w| (k, w))) {
        let sheet = laid_out(&words, &records, k, w, [0; 3], false);
        let is_allowed = (1..=6).contains(&k) && w <= k;
        if is_allowed {
            let numbers = numbers_without_gaps(2, 6, k as usize, w as usize);
            assert_eq!(read(&sheet), (sheet_read(numbers), words.to_vec(), records.clone()), "k {k}, w {w}");
        } else {
            is_refused(3, &sheet, [2, 6]);
        }
    }
    // Without records no k is right.
    for (k, w) in (0..=2).flat_map(|k| (0..=3).map(move |w| (k, w))) {
        is_refused(3, &laid_out(&words, &[], k, w, [0; 3], false), [2, 0]);
    }
}

#[test]
fn where_either_list_is_too_short_it_is_refused_6_and_neither_is_written() {
    let mut generator = Generator::new(126);
    let words = [0; 4].map(|_| generator.word());
    let records = generator.records(5);
    for records_first in [false, true] {
        let sheet = laid_out(&words, &records, 2, 1, [1, 2, 3], records_first);
        for (a, b) in (0..=6).flat_map(|a| (0..=7).map(move |b| (a, b))) {
            if a < 4 || b < 5 {
                is_refused(6, &sheet, [a, b]);
            } else {
                assert_eq!(read_sheet(&sheet, [a, b]).0.no, 0, "room {a} and {b}");
            }
        }
        for rooms in [[0, 20_000], [3, 20_000], [20_000, 0], [20_000, 4], [3, 4]] {
            is_refused(6, &sheet, rooms);
        }
    }
    // No words need no room.
    assert_eq!(read_sheet(&laid_out(&[], &records, 2, 1, [0; 3], false), [0, 5]).0.no, 0);
}

#[test]
fn of_any_refusals_that_meet_the_lowest_number_is_given() {
    let (words, records) = ([5, 6, 7], in_place(9));
    // k and w that are not allowed: k of 0, k above n, w above k.
    for (wrong_k, wrong_w) in [(0, 0), (10, 3), (u32::MAX, 3), (4, 5), (4, u32::MAX), (0, 1)] {
        for (damage, short) in UNSOUND.iter().flat_map(|damage| [[2, 9], [3, 8], [2, 8]].map(|short| (damage, short))) {
            for wrong in choices(&[1, 3, 6]) {
                let is_wrong = |no| wrong.contains(&no);
                let (k, w) = if is_wrong(3) { (wrong_k, wrong_w) } else { (4, 4) };
                let mut sheet = laid_out(&words, &records, k, w, [0; 3], false);
                if is_wrong(1) {
                    damage(&mut sheet);
                }
                let rooms = if is_wrong(6) { short } else { [3, 9] };
                match wrong.first() {
                    Some(&lowest) => is_refused(lowest, &sheet, rooms),
                    None => assert_eq!(read_sheet(&sheet, rooms).0, sheet_read(numbers_without_gaps(3, 9, 4, 4))),
                }
            }
        }
    }
}

// ---- Small, damaged and random sheets ----

#[test]
fn a_sheet_with_its_areas_at_every_place_is_read_as_by_the_oracle() {
    let counts = (0..=2).flat_map(|words| (0..=3).map(move |records| (words, records)));
    let places = || (22..=46).flat_map(|at| (22..=46).map(move |other| (at, other)));
    let areas = counts.flat_map(|counts| places().map(move |places| (counts, places)));
    for ((words, records), (words_at, records_at)) in thinned(areas.collect()) {
        for length in [23, 24, 25, 36, 40, 44] {
            let numbers = Numbers { words, words_at, records, records_at, k: records, w: 1 };
            let sheet = written(length, numbers, &[7, 8 << 56], &[9, 10, 11 << 24]);
            for rooms in [[2, 3], [1, 3], [2, 2]] {
                read_sheet(&sheet, rooms);
            }
        }
    }
}

#[test]
fn an_empty_area_of_words_may_lie_wherever_it_is_within_the_sheet() {
    // The records are the bytes 40 to 79.
    for words_at in 0..=130 {
        let numbers = Numbers { words: 0, words_at, records: 10, records_at: 40, k: 3, w: 2 };
        let sheet = written(120, numbers, &[], &in_place(10));
        if (24..=120).contains(&words_at) {
            assert_eq!(read(&sheet), (sheet_read(numbers), vec![], in_place(10)), "words at {words_at}");
        } else {
            is_refused(1, &sheet, [0, 10]);
        }
    }
}

#[test]
fn a_sheet_with_any_byte_damaged_is_read_as_by_the_oracle() {
    let mut generator = Generator::new(127);
    for records_first in [false, true] {
        let sheet = laid_out(&[1, generator.word()], &generator.records(6), 3, 2, [1, 2, 3], records_first);
        let damages = (0..sheet.len()).flat_map(|place| (0..=255).map(move |byte| (place, byte)));
        for (place, byte) in thinned(damages.collect()) {
            let mut other = sheet.clone();
            other[place] = byte;
            read_sheet(&other, [3, 7]);
        }
    }
}

#[test]
fn a_sheet_cut_off_at_any_byte_is_refused_1() {
    for records_first in [false, true] {
        let sheet = laid_out(&[1, 2, 3], &in_place(9), 4, 2, [3, 2, 0], records_first);
        assert_eq!(read(&sheet).0.no, 0);
        for length in 0..sheet.len() {
            is_refused(1, &sheet[..length], [3, 9]);
        }
    }
}

#[test]
fn random_sheets_are_read_as_by_the_oracle() {
    let mut generator = Generator::new(128);
    let mut numbers = BTreeSet::new();
    for _ in 0..cases(100_000) {
        let sheet = if generator.once_in(3) { sheets::sound(&mut generator) } else { sheets::damaged(&mut generator) };
        let rooms = room_for(&sheet).map(|enough| match generator.below(8) {
            0 => generator.below(enough + 1),
            more => enough + more % 3,
        });
        numbers.insert(read_sheet(&sheet, rooms).0.no);
    }
    assert_eq!(numbers, BTreeSet::from([0, 1, 3, 6]));
}
