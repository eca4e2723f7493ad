//! Making sheets: laid out soundly, written from any six numbers, or by the library; at random, sound and damaged; with
//! words that give wanted rolls.

use crate::support::{sheet_written, write_sheet, Generator};
use hildrasp::oracle::{plan, word};
use hildrasp::Numbers;

/// What the gaps of a sheet are filled with.
const GAP: u8 = 0xee;

/// A sheet of this length with these six numbers, and with these words and records at the offsets that the numbers
/// give. Bytes past the length are left out.
pub fn written(length: usize, numbers: Numbers, words: &[u64], records: &[u32]) -> Vec<u8> {
    let Numbers { words: count, words_at, records: of, records_at, k, w } = numbers;
    let mut sheet = vec![GAP; length];
    put(&mut sheet, 0, [count, words_at, of, records_at, k, w].iter().flat_map(|number| number.to_le_bytes()));
    put(&mut sheet, words_at, words.iter().flat_map(|word| word.to_le_bytes()));
    put(&mut sheet, records_at, records.iter().flat_map(|record| record.to_le_bytes()));
    sheet
}

fn put(sheet: &mut [u8], at: u32, bytes: impl Iterator<Item = u8>) {
    if let Some(from) = sheet.get_mut(at as usize..) {
        from.iter_mut().zip(bytes).for_each(|(place, byte)| *place = byte);
    }
}

/// A sheet with gaps of these sizes before, between and after its two areas, the words first or the records.
pub fn laid_out(
    words: &[u64],
    records: &[u32],
    k: u32,
    w: u32,
    [before, between, after]: [usize; 3],
    records_first: bool,
) -> Vec<u8> {
    let first_at = 24 + before;
    let (words_size, records_size) = (8 * words.len(), 4 * records.len());
    let (words_at, records_at) = if records_first {
        (first_at + records_size + between, first_at)
    } else {
        (first_at, first_at + words_size + between)
    };
    let numbers = Numbers {
        words: words.len() as u32,
        words_at: words_at as u32,
        records: records.len() as u32,
        records_at: records_at as u32,
        k,
        w,
    };
    written(first_at + words_size + between + records_size + after, numbers, words, records)
}

/// The sheet of document 01.
pub fn of_52_bytes() -> Vec<u8> {
    laid_out(&[0, 1], &[101, 205, 309], 1, 1, [0; 3], false)
}

/// The six numbers of a sheet that is laid out without gaps, the words first.
pub fn numbers_without_gaps(words: usize, records: usize, k: usize, w: usize) -> Numbers {
    let [words, words_at, records, records_at, k, w] =
        [words, 24, records, 24 + 8 * words, k, w].map(|number| number as u32);
    Numbers { words, words_at, records, records_at, k, w }
}

/// The sheet that the library writes into a list of just its length.
pub fn by_the_library(words: &[u64], records: &[u32], k: usize, w: usize) -> Vec<u8> {
    let length = 24 + 8 * words.len() + 4 * records.len();
    let (written, mut sheet) = write_sheet(words, records, k, w, length);
    assert_eq!(written, sheet_written(length));
    sheet.lend().to_vec()
}

/// Words, records, k and w made to be drawn from: words that suffice, at the edges of acceptance.
pub fn to_draw_from(generator: &mut Generator) -> (Vec<u64>, Vec<u32>, usize, usize) {
    let most = generator.one_of(&[5, 20, 20, 100, 100, 3000]);
    let n = generator.between(1, most);
    n_to_draw_from(generator, n)
}

/// The same, of n records.
pub fn n_to_draw_from(generator: &mut Generator, n: usize) -> (Vec<u64>, Vec<u32>, usize, usize) {
    let most_k = generator.one_of(&[1, 5, n]).min(n);
    let k = generator.between(1, most_k);
    let w = generator.below(k + 1);
    let records = generator.records(n);
    let mut words = generator.words_for_plan(&plan::sample(n, k));
    words.extend((0..generator.below(3)).map(|_| generator.word()));
    (words, records, k, w)
}

/// Counts of records, each with a k: with one record more, the words of the draw, one for each batch, would not fit on
/// the sheet beside the records.
pub const LONGEST_DRAWS: [(usize, usize); 7] =
    [(11_077, 11_077), (11_077, 11_073), (11_076, 8_192), (11_076, 3_248), (11_097, 2_048), (11_110, 64), (11_117, 1)];

/// Rolls for a sample of k from n records: the reservoir's, half of them low, so that the first slots change hands
/// often; then those of the final shuffle.
pub fn rolls_for(generator: &mut Generator, n: usize, k: usize) -> Vec<u64> {
    let mut rolls = Vec::new();
    for place in k..n {
        let bound = generator.one_of(&[k.min(5), place + 1]);
        rolls.push(generator.below(bound) as u64);
    }
    rolls.extend((2..=k).rev().map(|bound| generator.below(bound) as u64));
    rolls
}

/// The words, one for each batch, that give these rolls in a sample of k records. From n records the reservoir has
/// n - k rolls, and the final shuffle k - 1.
pub fn words_that_roll(k: usize, rolls: &[u64]) -> Vec<u64> {
    let mut left = rolls;
    let word = |bounds: &Vec<u64>| {
        let (of_this_batch, later) = left.split_at(bounds.len());
        left = later;
        word::run_of_words(word::L, bounds, of_this_batch).0
    };
    plan::sample(rolls.len() + 1, k).iter().map(word).collect()
}

/// A sheet made to be drawn from.
pub fn sound(generator: &mut Generator) -> Vec<u8> {
    let (words, records, k, w) = to_draw_from(generator);
    let gaps = [0; 3].map(|_| generator.one_of(&[0, 0, 1, 3, 8, 50]));
    let records_first = generator.once_in(2);
    laid_out(&words, &records, k as u32, w as u32, gaps, records_first)
}

/// A sheet that was sound and then damaged in some way, which may have left it sound.
pub fn damaged(generator: &mut Generator) -> Vec<u8> {
    let mut sheet = sound(generator);
    match generator.below(8) {
        0 => sheet.truncate(generator.below(sheet.len() + 1)),
        1 => {
            let longer = sheet.len() + generator.one_of(&[1, 100, 65_535, 65_536]);
            let length = generator.one_of(&[longer, 65_535, 65_536]);
            sheet.resize(length, GAP);
        }
        2 => {
            let place = generator.below(sheet.len());
            sheet[place] ^= 1 << generator.below(8);
        }
        3 | 4 => {
            // One of the six numbers moves a little: an area grows, shrinks or shifts, or k or w passes its limit.
            let field = 4 * generator.below(6);
            let step = generator.one_of(&[1, 1, 2, 4, 8, u32::MAX, u32::MAX, u32::MAX - 3, u32::MAX - 7]);
            change_number(&mut sheet, field, |number| number.wrapping_add(step));
        }
        5 => {
            let field = 4 * generator.below(6);
            let length = sheet.len() as u32;
            let far = [0, 1, 23, 24, length - 1, length, length + 1, 1 << 29, 1 << 30, 1 << 31, u32::MAX - 7, u32::MAX];
            let other = generator.one_of(&far);
            change_number(&mut sheet, field, |_| other);
        }
        6 => {
            // Fewer words than the draw needs.
            let fewer = generator.below(4) as u32;
            change_number(&mut sheet, 0, |words| words.min(fewer));
        }
        _ => (0..3).for_each(|_| {
            let place = generator.below(sheet.len().min(24));
            sheet[place] = generator.word() as u8;
        }),
    }
    sheet
}

/// Damages after which a sheet that has words and records, and no gap, is not sound: it is too short, too long, its
/// records end past it, an offset is below 24, its areas share bytes.
pub const UNSOUND: [fn(&mut Vec<u8>); 5] = [
    |sheet| sheet.truncate(23),
    |sheet| sheet.resize(65_536, 0),
    |sheet| sheet.truncate(sheet.len() - 1),
    |sheet| change_number(sheet, 4, |_| 23),
    |sheet| change_number(sheet, 12, |_| 24),
];

/// Numbers for a k, a w or a place beside n: at its edges and at those of 32 and 64 bits, some with a low half of 0, 1
/// or n.
pub fn numbers_beside(n: usize) -> Vec<usize> {
    let (low_half, high_half) = (0xffff_ffff, 0xffff_ffff << 32);
    let around_n = [0, 1, n.saturating_sub(1), n, n + 1, n + 2];
    let around_32_bits = [low_half, low_half + 1, low_half + 2, low_half + 1 + n];
    let around_64_bits = [1 << 63, (1 << 63) + 1, high_half + 1, high_half + n, usize::MAX - 1, usize::MAX];
    [&around_n[..], &around_32_bits, &around_64_bits].concat()
}

/// Words, records, k and w for a sheet to write, whether or not the words suffice for a draw: most are allowed, some
/// make a sheet about as long as one may be.
pub fn to_write(generator: &mut Generator) -> (Vec<u64>, Vec<u32>, usize, usize) {
    let (words, n) = match generator.below(100) {
        0 => {
            // Two records take the bytes of a word, and 16,377 records alone are the most.
            let words = generator.below(8190);
            (words, 16_377_usize.saturating_sub(2 * words) + generator.below(3))
        }
        _ => (generator.below(12), generator.below(25)),
    };
    let mut k = generator.between(1, n.max(1));
    let mut w = generator.below(k + 1);
    if generator.once_in(8) {
        w = generator.one_of(&numbers_beside(k));
    }
    if generator.once_in(8) {
        k = generator.one_of(&numbers_beside(n));
    }
    let words = (0..words).map(|_| generator.word() >> generator.below(64)).collect();
    (words, generator.records(n), k, w)
}

/// The number that starts at this byte, 0 where the sheet ends within it.
pub fn number(sheet: &[u8], field: usize) -> u32 {
    let bytes = sheet.get(field..field + 4).and_then(|bytes| bytes.try_into().ok());
    bytes.map_or(0, u32::from_le_bytes)
}

/// Changes the number that starts at this byte.
pub fn change_number(sheet: &mut [u8], field: usize, change: impl Fn(u32) -> u32) {
    let changed = change(number(sheet, field));
    sheet[field..field + 4].copy_from_slice(&changed.to_le_bytes());
}
