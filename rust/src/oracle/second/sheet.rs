//! The draw sheet read number by number, its bytes marked one by one, and written place by place; and the program's
//! text as rows of fields.

use super::run_sheet;
use crate::raw::{Drawn, Numbers};
use std::fmt::Display;
use std::mem::replace;

/// The bytes of the six numbers, which no area may reach into.
const HEADER: usize = 24;

/// The most bytes of a sheet.
const MAX_SHEET: usize = 65_535;

/// The 32-bit number whose low byte is at this place.
fn number(sheet: &[u8], at: usize) -> u32 {
    u32::from_le_bytes([sheet[at], sheet[at + 1], sheet[at + 2], sheet[at + 3]])
}

/// The word whose low byte is at this place: its low half, then its high half.
fn word(sheet: &[u8], at: usize) -> u64 {
    u64::from(number(sheet, at)) | u64::from(number(sheet, at + 4)) << 32
}

/// Marks the bytes of an area, `size` of them for each of `count`. False where the area cannot begin there, or one of
/// its bytes is past the sheet or has its mark already.
fn mark(marks: &mut [bool], at: usize, count: u32, size: usize) -> bool {
    let begins = (HEADER..=marks.len()).contains(&at);
    let mut bytes = at..at + size * count as usize;
    begins && bytes.all(|byte| marks.get_mut(byte).is_some_and(|mark| !replace(mark, true)))
}

/// The six numbers, the words and the records of a sheet; none where it is not sound.
pub fn read(sheet: &[u8]) -> Option<(Numbers, Vec<u64>, Vec<u32>)> {
    if !(HEADER..=MAX_SHEET).contains(&sheet.len()) {
        return None;
    }
    let [words, words_at, records, records_at, k, w] = [0, 4, 8, 12, 16, 20].map(|at| number(sheet, at));
    let mut marks = vec![false; sheet.len()];
    if !mark(&mut marks, words_at as usize, words, 8) || !mark(&mut marks, records_at as usize, records, 4) {
        return None;
    }
    let words_of_the_sheet = (0..words).map(|i| word(sheet, (words_at + 8 * i) as usize)).collect();
    let records_of_the_sheet = (0..records).map(|i| number(sheet, (records_at + 4 * i) as usize)).collect();
    Some((Numbers { words, words_at, records, records_at, k, w }, words_of_the_sheet, records_of_the_sheet))
}

/// Whether a sheet may have so many words and records: the words find room after the six numbers, and the records in
/// what is then left.
pub fn has_room_for(words: usize, records: usize) -> bool {
    let room = MAX_SHEET - HEADER;
    words <= room / 8 && records <= (room - 8 * words) / 4
}

/// The sheet of these words and records: for each place the number that lies there, and which of its bytes.
pub fn write(words: &[u64], records: &[u32], k: usize, w: usize) -> Vec<u8> {
    let words_at = HEADER;
    let records_at = words_at + 8 * words.len();
    let length = records_at + 4 * records.len();
    let numbers = [words.len(), words_at, records.len(), records_at, k, w];
    let byte_at = |place: usize| {
        let (number, byte) = if place >= records_at {
            (u64::from(records[(place - records_at) / 4]), (place - records_at) % 4)
        } else if place >= words_at {
            (words[(place - words_at) / 8], (place - words_at) % 8)
        } else {
            (numbers[place / 4] as u64, place % 4)
        };
        (number >> (8 * byte)) as u8
    };
    (0..length).map(byte_at).collect()
}

/// A row of the program's text: its fields with one blank between them, and a line feed.
fn row(fields: &[&dyn Display]) -> String {
    let fields: Vec<String> = fields.iter().map(|field| field.to_string()).collect();
    fields.join(" ") + "\n"
}

/// What the program prints for its input.
pub fn printed(input: &[u8]) -> String {
    // A record takes four bytes of the sheet, so this is room enough.
    let mut slots = vec![0; MAX_SHEET / 4];
    let Drawn { no, next, rejected, batch, numbers } = run_sheet(input, &mut slots);
    if no > 0 {
        return row(&[&"refused", &no, &batch]);
    }
    let Numbers { records, k, w, .. } = numbers;
    let (early, late) = slots[..k as usize].split_at(w as usize);
    let mut rows = vec![row(&[&"draw", &records, &k, &next, &rejected])];
    for (review, slots) in [("early", early), ("late", late)] {
        for record in slots {
            // The draw's own row is number 0, and so each slot has the number of its row.
            rows.push(row(&[&rows.len(), record, &review]));
        }
    }
    rows.concat()
}
