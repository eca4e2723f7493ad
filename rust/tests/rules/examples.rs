//! The checked examples of document 01, with the values that stand there, but for one that document 02 changes (M-102).

use crate::support::{
    batch_refused, behind, done, explained, read_sheet, refused, roll_batch, roll_list, rolled, rolls_behind,
    run_sheet, sample, sheet_read, sheet_written, shuffle, why, words_behind, write_sheet, Lent,
};
use crate::{program, sheets};
use hildrasp::oracle::{plan::cut, word};
use hildrasp::raw::{Drawn, Numbers};
use hildrasp::Reason;

#[test]
fn at_four_bits_bounds_2_and_6_reject_0_4_8_12() {
    let bounds = [2, 6];
    assert_eq!((word::product(&bounds), word::threshold(4, &bounds)), (12, 4));
    let rejected: Vec<u64> = (0..16).filter(|&word| !word::accepted(4, &bounds, word)).collect();
    assert_eq!(rejected, [0, 4, 8, 12]);
}

#[test]
fn at_four_bits_bounds_2_and_6_give_the_rolls_of_the_paper() {
    assert_eq!(word::rolls(4, &[2, 6], 1).0, [0, 0]);
    assert_eq!(word::rolls(4, &[2, 6], 3), (vec![0, 2], 4));
    assert_eq!(word::rolls(4, &[2, 6], 5).0, [0, 3]);
    assert_eq!(word::rolls(4, &[2, 6], 15).0, [1, 5]);
}

#[test]
fn bounds_2_to_the_32_twice_accept_the_words_0_and_1() {
    assert_eq!(roll_batch(&[1], 0, &[1 << 32, 1 << 32]), rolled(1, 0, &[0, 1]));
    assert_eq!(roll_batch(&[0], 0, &[1 << 32, 1 << 32]), rolled(1, 0, &[0, 0]));
}

#[test]
fn bounds_2_to_the_32_and_one_more_are_refused_5() {
    assert_eq!(roll_batch(&[0], 0, &[1 << 32, (1 << 32) + 1]), batch_refused(5, 0));
}

#[test]
fn bound_2_to_the_64_less_1_rejects_0_and_gives_0_for_1_and_1_for_2() {
    assert_eq!(roll_batch(&[0], 0, &[u64::MAX]), batch_refused(10, 0));
    assert_eq!(roll_batch(&[0, 1], 0, &[u64::MAX]), rolled(2, 1, &[0]));
    assert_eq!(roll_batch(&[1], 0, &[u64::MAX]), rolled(1, 0, &[0]));
    assert_eq!(roll_batch(&[2], 0, &[u64::MAX]), rolled(1, 0, &[1]));
}

#[test]
fn the_words_behind_0_0_for_bounds_2_and_6() {
    assert_eq!(words_behind(&[2, 6], &[0, 0]), behind(1, 1_537_228_672_809_129_301));
}

#[test]
fn the_words_behind_0_for_bound_1_are_all_words() {
    assert_eq!(words_behind(&[1], &[0]), behind(0, u64::MAX));
}

#[test]
fn bounds_2_to_the_28_twice_then_1_and_2_are_cut_as_3_and_1() {
    let bounds = [1 << 28, 1 << 28, 1, 2];
    assert_eq!(cut(&bounds), [&bounds[..3], &bounds[3..]]);
    assert_eq!(roll_list(&[0], 0, &bounds, 4), (refused(10, 0, 1), Lent::with_room(4)));
    assert_eq!(roll_list(&[1 << 36, 1 << 63], 0, &bounds, 4), (done(2, 0), Lent::holding(4, &[1, 0, 0, 1])));
}

#[test]
fn seventeen_bounds_of_1_are_cut_as_16_and_1() {
    assert_eq!(cut(&[1; 17]), [&[1; 16][..], &[1; 1][..]]);
    assert_eq!(roll_list(&[7], 0, &[1; 17], 17), (refused(10, 0, 1), Lent::with_room(17)));
    assert_eq!(roll_list(&[7, 8], 0, &[1; 17], 17), (done(2, 0), Lent::holding(17, &[0; 17])));
}

#[test]
fn a_shuffle_of_0_1_2_with_words_0_1_gives_1_2_0_with_one_rejected() {
    assert_eq!(shuffle(&[0, 1], 0, &[0, 1, 2]), (done(2, 1), Lent::holding(3, &[1, 2, 0])));
}

#[test]
fn two_records_are_exchanged_by_word_0_and_not_by_word_2_to_the_63() {
    assert_eq!(shuffle(&[0], 0, &[0, 1]), (done(1, 0), Lent::holding(2, &[1, 0])));
    assert_eq!(shuffle(&[1 << 63], 0, &[0, 1]), (done(1, 0), Lent::holding(2, &[0, 1])));
}

#[test]
fn eight_records_with_words_1_0_give_1_2_3_4_5_6_7_0() {
    let shuffled = [1, 2, 3, 4, 5, 6, 7, 0];
    assert_eq!(shuffle(&[1, 0], 0, &[0, 1, 2, 3, 4, 5, 6, 7]), (done(2, 0), Lent::holding(8, &shuffled)));
}

#[test]
fn eight_records_with_word_1_alone_are_refused_10_at_batch_1_and_stay_as_they_were() {
    let records = [0, 1, 2, 3, 4, 5, 6, 7];
    assert_eq!(shuffle(&[1], 0, &records), (refused(10, 0, 1), Lent::holding(8, &records)));
}

#[test]
fn the_rolls_behind_1_2_0_are_0_0() {
    assert_eq!(rolls_behind(&[1, 2, 0], 2), (done(0, 0), Lent::holding(2, &[0, 0])));
}

/// Document 01 has "Sample of 3 from 3: no word used". M-102 changes it: the three slots are shuffled, as document 01
/// shuffles 0, 1, 2 with words 0, 1.
#[test]
fn a_sample_of_3_from_3_now_uses_words() {
    assert_eq!(sample(&[0, 1], 0, &[0, 1, 2], 3, 3), (done(2, 1), Lent::holding(3, &[1, 2, 0])));
    assert_eq!(sample(&[0, 1], 0, &[7, 8, 9], 3, 3), (done(2, 1), Lent::holding(3, &[8, 9, 7])));
    assert_eq!(sample(&[], 0, &[7, 8, 9], 3, 3), (refused(10, 0, 0), Lent::with_room(3)));
}

#[test]
fn a_sample_of_0_from_0_is_refused_3() {
    assert_eq!(sample(&[], 0, &[], 0, 0), (refused(3, 0, 0), Lent::with_room(0)));
}

#[test]
fn the_sheet_of_52_bytes_draws_record_309() {
    let sheet = sheets::of_52_bytes();
    let numbers = Numbers { words: 2, words_at: 24, records: 3, records_at: 40, k: 1, w: 1 };
    let drawn = Drawn { no: 0, next: 2, rejected: 1, batch: 0, numbers };
    assert_eq!(sheet.len(), 52);
    assert_eq!(run_sheet(&sheet, 2), (drawn, Lent::holding(2, &[309])));
}

#[test]
fn the_sheet_of_52_bytes_is_written_from_its_words_and_records_and_read_back() {
    let (words, records) = ([0, 1], [101, 205, 309]);
    let sheet = [
        2, 0, 0, 0, 24, 0, 0, 0, 3, 0, 0, 0, 40, 0, 0, 0, 1, 0, 0, 0, 1, 0, 0, 0, // six numbers
        0, 0, 0, 0, 0, 0, 0, 0, 1, 0, 0, 0, 0, 0, 0, 0, // words
        101, 0, 0, 0, 205, 0, 0, 0, 53, 1, 0, 0, // records
    ];
    assert_eq!(write_sheet(&words, &records, 1, 1, 60), (sheet_written(52), Lent::holding(60, &sheet)));
    let numbers = Numbers { words: 2, words_at: 24, records: 3, records_at: 40, k: 1, w: 1 };
    let read = (sheet_read(numbers), Lent::holding(3, &words), Lent::holding(5, &records));
    assert_eq!(read_sheet(&sheet, [3, 5]), read);
}

#[test]
fn on_the_sheet_of_52_bytes_record_205_put_out_101_and_309_put_out_205_and_stayed() {
    let sheet = sheets::of_52_bytes();
    assert_eq!(why(&sheet, 0), explained(2, 1, Reason::Taken { slot: 0, by_place: 1, by_step: 0 }));
    assert_eq!(why(&sheet, 1), explained(2, 1, Reason::Taken { slot: 0, by_place: 2, by_step: 1 }));
    assert_eq!(why(&sheet, 2), explained(2, 1, Reason::RolledIn { slot: 0, final_slot: 0 }));
}

#[test]
fn the_program_prints_two_lines_for_the_sheet_of_52_bytes() {
    assert_eq!(program::prints(&sheets::of_52_bytes()), "draw 3 1 2 1\n1 309 early\n");
}
