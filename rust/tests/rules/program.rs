//! The draw-sheet program on standard input: what it prints, byte for byte.

use crate::sheets::{self, by_the_library, laid_out};
use crate::support::{brief, built_program, cases, in_place, Generator};
use hildrasp::oracle::sheet::printed;
use std::fs::{self, File};
use std::io::{ErrorKind, Write};
use std::path::Path;
use std::process::{Command, Output, Stdio};
use std::thread::sleep;
use std::time::Duration;

fn program() -> Command {
    built_program(&Path::new(env!("CARGO_MANIFEST_DIR")).join("../target/bin/draw_sheet"))
}

/// The standard output of a run, which ends with success, refused or not.
fn text(output: Output) -> String {
    assert!(output.status.success(), "the program ended with {}", output.status);
    String::from_utf8(output.stdout).expect("the program prints text")
}

/// What the program prints for this input, fed through a pipe in pieces with a pause after each.
fn prints_in_pieces<'a>(pieces: impl Iterator<Item = &'a [u8]>, pause: Duration) -> String {
    let mut running = program()
        .stdin(Stdio::piped())
        .stdout(Stdio::piped())
        .spawn()
        .expect("target/bin/draw_sheet is built and runs");
    let mut input = running.stdin.take().expect("standard input is a pipe");
    for piece in pieces {
        match input.write_all(piece) {
            // A program that has read enough to refuse may leave the rest unread.
            Err(error) if error.kind() == ErrorKind::BrokenPipe => break,
            written => written.expect("the pipe takes the piece"),
        }
        sleep(pause);
    }
    drop(input);
    text(running.wait_with_output().expect("the program ends"))
}

/// What the program prints for this input, fed through a pipe in one piece.
pub fn prints(input: &[u8]) -> String {
    prints_in_pieces([input].into_iter(), Duration::ZERO)
}

/// The program prints for this input what the oracle does.
fn agrees(input: &[u8]) {
    let (text, wanted) = (prints(input), printed(input));
    assert!(text == wanted, "{} bytes {}\n{text}is not\n{wanted}", input.len(), brief(input));
}

#[test]
fn a_draw_prints_its_numbers_and_a_line_for_each_slot() {
    // These words leave the first k records in their slots, and the slots as they are in the final shuffle.
    let words = [u64::MAX; 3];
    let records = [4_294_967_295, 0, 1_000_000_000, 7];
    let sheet = |k, w| laid_out(&words, &records, k, w, [0; 3], false);
    assert_eq!(prints(&sheet(1, 0)), "draw 4 1 1 0\n1 4294967295 late\n");
    assert_eq!(prints(&sheet(3, 2)), "draw 4 3 2 0\n1 4294967295 early\n2 0 early\n3 1000000000 late\n");
    assert_eq!(prints(&sheet(4, 4)), "draw 4 4 1 0\n1 4294967295 early\n2 0 early\n3 1000000000 early\n4 7 early\n");
}

#[test]
fn the_first_w_slots_after_the_final_shuffle_are_early_and_the_others_late() {
    // The highest word passes record 7 over. With bounds 3 and 2 the word 0 is rejected, and word 1 rolls 0 and 0: the
    // record of slot 0 is exchanged with that of slot 2, and what then stands in slot 0 with that of slot 1.
    let draw = |w| prints(&laid_out(&[u64::MAX, 0, 1], &[101, 205, 309, 7], 3, w, [0; 3], false));
    assert_eq!(draw(0), "draw 4 3 3 1\n1 205 late\n2 309 late\n3 101 late\n");
    assert_eq!(draw(1), "draw 4 3 3 1\n1 205 early\n2 309 late\n3 101 late\n");
    assert_eq!(draw(2), "draw 4 3 3 1\n1 205 early\n2 309 early\n3 101 late\n");
    assert_eq!(draw(3), "draw 4 3 3 1\n1 205 early\n2 309 early\n3 101 early\n");
}

#[test]
fn a_refusal_prints_one_line_with_its_number_and_the_batch() {
    let records = in_place(50);
    assert_eq!(prints(&laid_out(&[], &records, 51, 0, [0; 3], false)), "refused 3 0\n");
    assert_eq!(prints(&laid_out(&[], &records, 5, 6, [0; 3], false)), "refused 3 0\n");
    // The bounds 6, .., 50 are four batches, and so are 14, .., 50: 14..26, 27..37, 38..47 and 48..50. The final
    // shuffle of 5 slots is one batch; that of 13 is two, of six rolls each.
    for (k, batches) in [(5, 5), (13, 6)] {
        for batch in 0..batches {
            let sheet = laid_out(&[u64::MAX; 6][..batch], &records, k, 5, [0; 3], false);
            assert_eq!(prints(&sheet), format!("refused 10 {batch}\n"), "k {k}");
        }
        let enough = laid_out(&[u64::MAX; 6][..batches], &records, k, 5, [0; 3], false);
        assert!(prints(&enough).starts_with(&format!("draw 50 {k} {batches} 0\n")), "k {k}");
    }
}

#[test]
fn input_shorter_than_24_or_longer_than_65535_bytes_is_refused_1() {
    for length in [0, 1, 23] {
        assert_eq!(prints(&vec![0; length]), "refused 1 0\n", "{length} bytes");
    }
    let mut sheet = sheets::of_52_bytes();
    sheet.resize(65_535, 0);
    assert_eq!(prints(&sheet), "draw 3 1 2 1\n1 309 early\n");
    for length in [65_536, 65_537, 65_600, 131_072, 1 << 20] {
        sheet.resize(length, 0);
        assert_eq!(prints(&sheet), "refused 1 0\n", "{length} bytes");
    }
}

#[test]
fn the_program_lends_room_enough_for_the_most_records() {
    let mut generator = Generator::new(91);
    // So many that there is no room for a word: the room of the program is looked at before that.
    let records = generator.records(16_377);
    for gaps in [[0, 0, 3], [3, 0, 0], [0; 3]] {
        assert_eq!(prints(&laid_out(&[], &records, 16_377, 8000, gaps, false)), "refused 10 0\n");
    }
    for w in [0, 5000, 11_077] {
        agrees(&longest_draw(&mut generator, w));
    }
}

/// A written sheet with the most records that can all be drawn, w of them for an early review, and 3 bytes past it.
fn longest_draw(generator: &mut Generator, w: usize) -> Vec<u8> {
    let (n, k) = sheets::LONGEST_DRAWS[0];
    let words = sheets::words_that_roll(k, &sheets::rolls_for(generator, n, k));
    let mut sheet = by_the_library(&words, &generator.records(n), k, w);
    sheet.extend([0; 3]);
    assert_eq!((n, sheet.len()), (k, 65_535));
    sheet
}

#[test]
fn input_that_comes_in_pieces_is_read_to_its_end() {
    let mut generator = Generator::new(92);
    let pause = Duration::from_micros(500);
    let sheet = sheets::of_52_bytes();
    for size in [1, 5, 24, 51] {
        assert_eq!(prints_in_pieces(sheet.chunks(size), pause), "draw 3 1 2 1\n1 309 early\n", "pieces of {size}");
    }
    for size in [7, 100, 4096] {
        let sheet = laid_out(&[u64::MAX; 90], &generator.records(300), 20, 7, [1, 2, 3], true);
        assert_eq!(prints_in_pieces(sheet.chunks(size), pause), printed(&sheet), "pieces of {size}");
    }
    let most = longest_draw(&mut generator, 5);
    let too_long = [most.as_slice(), &[0]].concat();
    for size in [1000, 32_768, 65_535] {
        assert!(prints_in_pieces(most.chunks(size), pause) == printed(&most), "pieces of {size}");
        assert_eq!(prints_in_pieces(too_long.chunks(size), pause), "refused 1 0\n", "pieces of {size}");
    }
}

#[test]
fn input_may_be_a_file() {
    let path = Path::new(env!("CARGO_TARGET_TMPDIR")).join("sheet");
    for sheet in [sheets::of_52_bytes(), vec![], vec![0; 65_536]] {
        fs::write(&path, &sheet).expect("the sheet is written");
        let file = File::open(&path).expect("the sheet is there");
        let output = program().stdin(file).output().expect("target/bin/draw_sheet is built and runs");
        assert_eq!(text(output), printed(&sheet));
    }
}

#[test]
fn a_sheet_with_any_byte_damaged_is_answered_as_by_the_oracle() {
    let sheet = sheets::of_52_bytes();
    for place in 0..sheet.len() {
        for damage in [1, 0x80] {
            let mut other = sheet.clone();
            other[place] ^= damage;
            agrees(&other);
        }
    }
}

#[test]
fn the_draw_of_a_written_sheet_is_printed_as_by_the_oracle() {
    let mut generator = Generator::new(94);
    for _ in 0..cases(1000) {
        let (mut words, records, k, w) = sheets::to_draw_from(&mut generator);
        if generator.once_in(8) {
            words.truncate(generator.below(words.len() + 1));
        }
        agrees(&by_the_library(&words, &records, k, w));
    }
    agrees(&longest_draw(&mut generator, 8000));
    agrees(&by_the_library(&[], &generator.records(16_377), 16_377, 8000));
    agrees(&by_the_library(&[3; 8188], &[5], 1, 0));
}

#[test]
fn random_sheets_are_answered_as_by_the_oracle() {
    let mut generator = Generator::new(93);
    for _ in 0..cases(1000) {
        agrees(&sheets::sound(&mut generator));
        agrees(&sheets::damaged(&mut generator));
    }
}
