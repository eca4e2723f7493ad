//! The faces of the library: the safe Rust face gives each refusal its name, and the C header serves a C program.

use crate::sheets;
use crate::support::built_program;
use hildrasp::{
    read_sheet, roll_batch, roll_list, rolls_behind, run_sheet, sample, shuffle, why, words_behind, write_sheet,
    Explanation, Reason, Refusal, Used,
};
use std::env;
use std::path::Path;
use std::process::Command;

#[test]
fn a_refusal_carries_the_number_that_the_rules_fix_for_it() {
    let refusals = [
        (Refusal::Sheet, 1),
        (Refusal::Count, 2),
        (Refusal::Sample, 3),
        (Refusal::Zero, 4),
        (Refusal::Product, 5),
        (Refusal::Room, 6),
        (Refusal::Misfit, 7),
        (Refusal::Order, 8),
        (Refusal::Start, 9),
        (Refusal::Words { batch: 3 }, 10),
    ];
    for (refusal, number) in refusals {
        assert_eq!(refusal.number(), number);
        assert!(refusal.to_string().starts_with(&format!("refused {number}: ")));
        assert_eq!(refusal.batch(), if number == 10 { 3 } else { 0 });
    }
}

#[test]
fn one_batch_can_meet_2_4_5_9_10() {
    assert_eq!(roll_batch(&[1], 0, &[]), Err(Refusal::Count));
    assert_eq!(roll_batch(&[1], 0, &[0]), Err(Refusal::Zero));
    assert_eq!(roll_batch(&[1], 0, &[1 << 63, 3]), Err(Refusal::Product));
    assert_eq!(roll_batch(&[1], 2, &[3]), Err(Refusal::Start));
    assert_eq!(roll_batch(&[0], 0, &[3]), Err(Refusal::Words { batch: 0 }));
}

#[test]
fn a_list_can_meet_2_4_6_9_10() {
    assert_eq!(roll_list(&[1], 0, &[1; 4097], &mut [0; 4097]), Err(Refusal::Count));
    assert_eq!(roll_list(&[1], 0, &[2, 0], &mut [0; 2]), Err(Refusal::Zero));
    assert_eq!(roll_list(&[1], 0, &[2, 2], &mut [0; 1]), Err(Refusal::Room));
    assert_eq!(roll_list(&[1], 2, &[2, 2], &mut [0; 2]), Err(Refusal::Start));
    assert_eq!(roll_list(&[1], 0, &[1; 17], &mut [0; 17]), Err(Refusal::Words { batch: 1 }));
}

#[test]
fn words_behind_rolls_can_meet_2_4_5_7() {
    assert_eq!(words_behind(&[], &[]), Err(Refusal::Count));
    assert_eq!(words_behind(&[0], &[0]), Err(Refusal::Zero));
    assert_eq!(words_behind(&[1 << 63, 3], &[0, 0]), Err(Refusal::Product));
    assert_eq!(words_behind(&[6], &[6]), Err(Refusal::Misfit));
}

#[test]
fn a_shuffle_can_meet_2_9_10() {
    assert_eq!(shuffle(&[1], 0, &mut [0; 16_385]), Err(Refusal::Count));
    assert_eq!(shuffle(&[1], 2, &mut [0; 8]), Err(Refusal::Start));
    assert_eq!(shuffle(&[1], 0, &mut [0; 8]), Err(Refusal::Words { batch: 1 }));
}

#[test]
fn a_sample_can_meet_2_3_6_9_10() {
    assert_eq!(sample(&[1], 0, &[0; 16_385], 1, &mut [0]), Err(Refusal::Count));
    assert_eq!(sample(&[1], 0, &[5, 6], 3, &mut [0; 3]), Err(Refusal::Sample));
    assert_eq!(sample(&[1], 0, &[5, 6], 2, &mut [0]), Err(Refusal::Room));
    assert_eq!(sample(&[1], 2, &[5, 6], 1, &mut [0]), Err(Refusal::Start));
    assert_eq!(sample(&[1], 0, &[5; 30], 1, &mut [0]), Err(Refusal::Words { batch: 1 }));
    assert_eq!(sample(&[1], 0, &[5; 3], 2, &mut [0; 2]), Err(Refusal::Words { batch: 1 }));
}

#[test]
fn rolls_behind_an_order_can_meet_2_6_8() {
    assert_eq!(rolls_behind(&[0; 16_385], &mut [0; 16_384]), Err(Refusal::Count));
    assert_eq!(rolls_behind(&[2, 1, 0], &mut [0]), Err(Refusal::Room));
    assert_eq!(rolls_behind(&[2, 1, 1], &mut [0; 2]), Err(Refusal::Order));
}

#[test]
fn a_sheet_can_meet_1_3_6_10() {
    let sheet = |words: &[u64], k, w| sheets::laid_out(words, &[101, 205, 309], k, w, [0; 3], false);
    assert_eq!(run_sheet(&[0; 23], &mut [0]), Err(Refusal::Sheet));
    assert_eq!(run_sheet(&sheet(&[0, 1], 1, 2), &mut [0]), Err(Refusal::Sample));
    assert_eq!(run_sheet(&sheet(&[0, 1], 1, 1), &mut []), Err(Refusal::Room));
    assert_eq!(run_sheet(&sheet(&[0], 1, 1), &mut [0]), Err(Refusal::Words { batch: 0 }));
    assert_eq!(run_sheet(&sheet(&[1], 2, 1), &mut [0; 2]), Err(Refusal::Words { batch: 1 }));
}

#[test]
fn writing_a_sheet_can_meet_2_3_6() {
    assert_eq!(write_sheet(&[], &[5; 16_378], 1, 1, &mut [0; 65_536]), Err(Refusal::Count));
    assert_eq!(write_sheet(&[0, 1], &[101, 205, 309], 1, 2, &mut [0; 52]), Err(Refusal::Sample));
    assert_eq!(write_sheet(&[0, 1], &[101, 205, 309], 1, 1, &mut [0; 51]), Err(Refusal::Room));
}

#[test]
fn reading_a_sheet_can_meet_1_3_6() {
    let sheet = |k, w| sheets::laid_out(&[0, 1], &[101, 205, 309], k, w, [0; 3], false);
    assert_eq!(read_sheet(&[0; 23], &mut [0; 2], &mut [0; 3]), Err(Refusal::Sheet));
    assert_eq!(read_sheet(&sheet(1, 2), &mut [0; 2], &mut [0; 3]), Err(Refusal::Sample));
    assert_eq!(read_sheet(&sheet(1, 1), &mut [0; 1], &mut [0; 3]), Err(Refusal::Room));
    assert_eq!(read_sheet(&sheet(1, 1), &mut [0; 2], &mut [0; 2]), Err(Refusal::Room));
}

#[test]
fn why_a_record_was_drawn_or_not_can_meet_1_3_7_10() {
    let sheet = |words: &[u64], k, w| sheets::laid_out(words, &[101, 205, 309], k, w, [0; 3], false);
    assert_eq!(why(&[0; 23], 0), Err(Refusal::Sheet));
    assert_eq!(why(&sheet(&[0, 1], 1, 2), 0), Err(Refusal::Sample));
    assert_eq!(why(&sheet(&[0, 1], 1, 1), 3), Err(Refusal::Misfit));
    assert_eq!(why(&sheet(&[0], 1, 1), 0), Err(Refusal::Words { batch: 0 }));
    let two_batches = sheets::laid_out(&[u64::MAX], &[7; 18], 1, 1, [0; 3], false);
    assert_eq!(why(&two_batches, 0), Err(Refusal::Words { batch: 1 }));
    assert_eq!(why(&sheet(&[1], 2, 1), 0), Err(Refusal::Words { batch: 1 }));
}

#[test]
fn a_reason_carries_its_number_and_what_it_names() {
    // The bounds are 3 and 4. Word 0 is rejected, and word 5 x 2^61 gives the rolls 1 and 3. Then the bound is 2, and
    // word 0 exchanges the two slots.
    let sheet = sheets::laid_out(&[0, 5 << 61, 0], &[101, 205, 307, 409], 2, 1, [0; 3], false);
    let reasons = [
        (Reason::Stayed { slot: 0, final_slot: 1 }, 1),
        (Reason::Taken { slot: 1, by_place: 2, by_step: 0 }, 3),
        (Reason::RolledIn { slot: 1, final_slot: 0 }, 2),
        (Reason::PassedOver { roll: 3 }, 4),
    ];
    for (place, (reason, number)) in reasons.into_iter().enumerate() {
        assert_eq!(why(&sheet, place), Ok(Explanation { used: Used { next: 3, rejected: 1 }, reason }));
        assert_eq!(reason.number(), number);
    }
}

#[test]
fn success_returns_the_place_after_the_last_word_used_and_the_count_of_rejected_words() {
    let mut rolls = [0; 2];
    assert_eq!(roll_list(&[7, 0, 0, u64::MAX, 7], 1, &[6, 6], &mut rolls), Ok(Used { next: 4, rejected: 2 }));
    assert_eq!(rolls, [5, 5]);
}

#[test]
fn a_c_program_includes_the_header_and_links_the_library() {
    let package = Path::new(env!("CARGO_MANIFEST_DIR"));
    let program = Path::new(env!("CARGO_TARGET_TMPDIR")).join("c_face");
    let built = Command::new(env::var_os("CC").unwrap_or("cc".into()))
        .args(["-std=c11", "-Wall", "-Wextra", "-Werror", "-I"])
        .arg(package.join("../include"))
        .arg(package.join("tests/rules/face.c"))
        .arg(package.join("../target/staticlib/libhildrasp.a"))
        .arg("-o")
        .arg(&program)
        .status()
        .expect("cc runs");
    assert!(built.success(), "the C program is built");
    let ran = built_program(&program).output().expect("the C program runs");
    assert!(ran.status.success(), "{}", String::from_utf8_lossy(&ran.stderr));
}
