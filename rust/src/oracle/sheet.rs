//! The draw sheet: its six numbers, when it is sound, its words and records, how it is written, and what the program
//! prints for it.

use super::{run_sheet, MAX_RECORDS};
use crate::raw::Numbers;
use std::iter::successors;
use std::ops::Range;

/// The bytes of the six numbers.
const HEADER: usize = 24;

/// The most bytes of a sheet.
pub const MAX_SHEET: usize = 65_535;

/// A number written low byte first.
fn low_byte_first(bytes: &[u8]) -> u64 {
    bytes.iter().rev().fold(0, |number, &byte| 256 * number + u64::from(byte))
}

/// The six 32-bit numbers of a sheet of at least 24 bytes.
fn numbers(sheet: &[u8]) -> Numbers {
    let number = |i: usize| low_byte_first(&sheet[4 * i..][..4]) as u32;
    Numbers {
        words: number(0),
        words_at: number(1),
        records: number(2),
        records_at: number(3),
        k: number(4),
        w: number(5),
    }
}

/// The bytes of the words: 8 for each.
fn words_area(numbers: Numbers) -> Range<u64> {
    u64::from(numbers.words_at)..u64::from(numbers.words_at) + 8 * u64::from(numbers.words)
}

/// The bytes of the records: 4 for each.
fn records_area(numbers: Numbers) -> Range<u64> {
    u64::from(numbers.records_at)..u64::from(numbers.records_at) + 4 * u64::from(numbers.records)
}

/// Whether a sheet is sound: its length is allowed, each offset is at least 24, each area ends within the sheet, and
/// the areas share no byte.
pub fn is_sound(sheet: &[u8]) -> bool {
    if sheet.len() < HEADER || sheet.len() > MAX_SHEET {
        return false;
    }
    let numbers = numbers(sheet);
    let (words, records) = (words_area(numbers), records_area(numbers));
    let end = sheet.len() as u64;
    words.start >= HEADER as u64
        && records.start >= HEADER as u64
        && words.end <= end
        && records.end <= end
        && !words.clone().any(|byte| records.contains(&byte))
}

/// The six numbers, the words and the records of a sound sheet.
pub fn contents(sheet: &[u8]) -> (Numbers, Vec<u64>, Vec<u32>) {
    let numbers = numbers(sheet);
    let area = |bytes: Range<u64>| &sheet[bytes.start as usize..bytes.end as usize];
    let words = area(words_area(numbers)).chunks(8).map(low_byte_first).collect();
    let records = area(records_area(numbers)).chunks(4).map(|bytes| low_byte_first(bytes) as u32).collect();
    (numbers, words, records)
}

/// The length of the sheet with so many words and records, exact for lists of any length.
pub fn length(words: usize, records: usize) -> u128 {
    HEADER as u128 + 8 * words as u128 + 4 * records as u128
}

/// The bytes of a number, low byte first: its remainder by 256, then that of each quotient.
fn bytes_of(size: usize, number: u64) -> impl Iterator<Item = u8> {
    successors(Some(number), |number| Some(number / 256)).take(size).map(|number| (number % 256) as u8)
}

/// The sheet of these words and records, whose length is allowed: six numbers, words at 24, records straight after.
pub fn written(words: &[u64], records: &[u32], k: usize, w: usize) -> Vec<u8> {
    let numbers = [words.len(), HEADER, records.len(), HEADER + 8 * words.len(), k, w];
    let numbers = numbers.into_iter().flat_map(|number| bytes_of(4, number as u64));
    let words = words.iter().flat_map(|&word| bytes_of(8, word));
    let records = records.iter().flat_map(|&record| bytes_of(4, record.into()));
    numbers.chain(words).chain(records).collect()
}

/// What the program prints for its input.
pub fn printed(input: &[u8]) -> String {
    let mut slots = vec![0; MAX_RECORDS];
    let drawn = run_sheet(input, &mut slots);
    if drawn.no != 0 {
        return format!("refused {} {}\n", drawn.no, drawn.batch);
    }
    let Numbers { records, k, w, .. } = drawn.numbers;
    let mut lines = format!("draw {records} {k} {} {}\n", drawn.next, drawn.rejected);
    for (number, record) in (1..=k).zip(slots) {
        let review = if number <= w { "early" } else { "late" };
        lines += &format!("{number} {record} {review}\n");
    }
    lines
}
