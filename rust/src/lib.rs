//! Hildrasp: a draw that can be checked. Random words from outside become dice rolls, shuffles and samples, by Lemire's
//! batched rejection method, the Fisher-Yates shuffle and the reservoir, and every draw can be done again from its words.
//!
//! This is the safe Rust face of the proved library. An operation that uses words is lent the whole list and a start
//! place counted from 0. Every call is answered for every input: with a result, or with a [`Refusal`], and then each
//! list lent to it is exactly what it was. Under the same rules the answer to the same input never changes.
//!
//! [`raw`] shows the library's answers as C sees them; [`oracle`] is an independent program with the same meaning,
//! against which the library is tested.

#![warn(missing_docs)]
#![deny(unsafe_code)]

pub mod oracle;
#[allow(unsafe_code)]
pub mod raw;
mod reason;
mod refusal;

use std::ops::RangeInclusive;

pub use raw::Numbers;
pub use reason::Reason;
pub use refusal::Refusal;

/// The words that an operation used. Words used are batches plus rejected words.
#[derive(Debug, Clone, Copy, PartialEq, Eq)]
pub struct Used {
    /// The place after the last word used, the start place where none was.
    pub next: usize,
    /// The count of rejected words.
    pub rejected: usize,
}

/// The rolls of one batch, and the words that it used.
#[derive(Debug, Clone, Copy, PartialEq, Eq)]
pub struct Rolls {
    rolls: [u64; 16],
    count: usize,
    /// The words that the batch used.
    pub used: Used,
}

impl Rolls {
    /// One roll for each bound, each below its bound.
    pub fn as_slice(&self) -> &[u64] {
        &self.rolls[..self.count]
    }
}

/// A draw from a sheet: the words that it used, and the six numbers that the sheet starts with.
#[derive(Debug, Clone, Copy, PartialEq, Eq)]
pub struct Draw {
    /// The words that the draw used.
    pub used: Used,
    /// The six numbers that the sheet starts with.
    pub numbers: Numbers,
}

/// Why a record was drawn or not: the words that the draw used, and the reason.
#[derive(Debug, Clone, Copy, PartialEq, Eq)]
pub struct Explanation {
    /// The words that the draw used.
    pub used: Used,
    /// The one reason that is true in the draw.
    pub reason: Reason,
}

/// Rolls one batch: one word gives a roll for each of 1 to 16 bounds, whose product is at most 2^64.
///
/// It starts with the word as r. For each bound in turn, bound times r equals 2^64 times the roll plus the new r. The
/// word is accepted exactly when the last r is at least 2^64 mod the product of the bounds.
///
/// **Words used:** from `start` in list order up to the first accepted one, also where the product is 1.
///
/// **Refusals, in this order:** 2 [`Count`](Refusal::Count), 4 [`Zero`](Refusal::Zero),
/// 5 [`Product`](Refusal::Product), 9 [`Start`](Refusal::Start), 10 [`Words`](Refusal::Words).
///
/// **Cost:** the two halves of a product for each bound and for each roll; one remainder, none for a product of 2^64; a
/// multiplication for each word looked at.
///
/// Under the same rules the answer to the same words, start and bounds never changes.
///
/// ```
/// // Of the words 0 and 1, bound 2^64 - 1 rejects the first, and the second gives 0.
/// let rolls = hildrasp::roll_batch(&[0, 1], 0, &[u64::MAX])?;
/// assert_eq!(rolls.as_slice(), [0]);
/// assert_eq!(rolls.used, hildrasp::Used { next: 2, rejected: 1 });
/// # Ok::<(), hildrasp::Refusal>(())
/// ```
pub fn roll_batch(words: &[u64], start: usize, bounds: &[u64]) -> Result<Rolls, Refusal> {
    let raw::Batch { no, next, rejected, count, rolls } = raw::roll_batch(words, start, bounds);
    match Refusal::given(no, 0) {
        Some(refusal) => Err(refusal),
        None => Ok(Rolls { rolls, count, used: Used { next, rejected } }),
    }
}

/// Rolls a list of 0 to 4,096 bounds into the front of the lent list `rolls`; places past the last roll stay.
///
/// The list is cut into batches, each rolled as [`roll_batch`] does. A batch takes the next bound whatever it is;
/// further bounds join in order while the batch has fewer than 16 and its product with the new bound is at most 2^56.
///
/// **Words used:** from `start` in list order, for each batch up to its first accepted one; none for an empty list.
///
/// **Refusals, in this order:** 2 [`Count`](Refusal::Count), 4 [`Zero`](Refusal::Zero), 6 [`Room`](Refusal::Room),
/// 9 [`Start`](Refusal::Start), 10 [`Words`](Refusal::Words). The lent list then stays the same, also where words run
/// out at a late batch.
///
/// **Cost:** two passes over bounds and words, each with the two halves of a product for each bound that may join and a
/// remainder for each batch; the two halves of a product for each roll.
///
/// Under the same rules the answer to the same words, start and bounds never changes.
///
/// ```
/// // Seventeen bounds of 1 are cut as 16 and 1: two words are used.
/// let mut rolls = [9; 18];
/// let used = hildrasp::roll_list(&[5, 6, 7], 0, &[1; 17], &mut rolls)?;
/// assert_eq!(used, hildrasp::Used { next: 2, rejected: 0 });
/// assert_eq!(rolls[..17], [0; 17]);
/// assert_eq!(rolls[17], 9);
/// # Ok::<(), hildrasp::Refusal>(())
/// ```
pub fn roll_list(words: &[u64], start: usize, bounds: &[u64], rolls: &mut [u64]) -> Result<Used, Refusal> {
    used(raw::roll_list(words, start, bounds, rolls))
}

/// Names the words behind rolls: the run of words, from its first to its last, that give these rolls for these bounds,
/// accepted. No other word does. The run's length is 2^64 divided by the product of the bounds, rounded down.
///
/// **Words used:** none.
///
/// **Refusals, in this order:** 2 [`Count`](Refusal::Count), 4 [`Zero`](Refusal::Zero),
/// 5 [`Product`](Refusal::Product), 7 [`Misfit`](Refusal::Misfit).
///
/// **Cost:** constant.
///
/// Under the same rules the answer to the same bounds and rolls never changes.
///
/// ```
/// let run = hildrasp::words_behind(&[2, 6], &[0, 0])?;
/// assert_eq!(run, 1..=1537228672809129301);
/// # Ok::<(), hildrasp::Refusal>(())
/// ```
pub fn words_behind(bounds: &[u64], rolls: &[u64]) -> Result<RangeInclusive<u64>, Refusal> {
    let raw::Behind { no, first, last, .. } = raw::words_behind(bounds, rolls);
    match Refusal::given(no, 0) {
        Some(refusal) => Err(refusal),
        None => Ok(first..=last),
    }
}

/// Shuffles 0 to 16,384 records in the lent list itself (Fisher-Yates, rolled in batches).
///
/// With m records still to place, the batch size s is 4 for m from 2,049, 5 for m from 513 to 2,048, 6 for m from 7 to
/// 512, and m - 1 for m from 2 to 6. The bounds are m, m - 1, .., m + 1 - s; then, for i = 1..s in turn, the record at
/// place roll i is exchanged with that at place m - i.
///
/// **Words used:** from `start` in list order, for each batch up to its first accepted one; none for 0 or 1 records.
///
/// **Refusals, in this order:** 2 [`Count`](Refusal::Count), 9 [`Start`](Refusal::Start),
/// 10 [`Words`](Refusal::Words). The records then stay where they were, also where words run out at the last batch.
///
/// **Cost:** two passes over the words, each with a remainder for each batch; an exchange for each record.
///
/// Under the same rules the answer to the same words, start and records never changes.
///
/// ```
/// // Three records are one batch; it rejects the word 0.
/// let mut records = [0, 1, 2];
/// let used = hildrasp::shuffle(&[0, 1], 0, &mut records)?;
/// assert_eq!(records, [1, 2, 0]);
/// assert_eq!(used, hildrasp::Used { next: 2, rejected: 1 });
///
/// // Eight records are two batches, and one word does for the first alone.
/// let mut records = [0, 1, 2, 3, 4, 5, 6, 7];
/// assert_eq!(hildrasp::shuffle(&[1], 0, &mut records), Err(hildrasp::Refusal::Words { batch: 1 }));
/// assert_eq!(records, [0, 1, 2, 3, 4, 5, 6, 7]);
/// # Ok::<(), hildrasp::Refusal>(())
/// ```
pub fn shuffle(words: &[u64], start: usize, records: &mut [u32]) -> Result<Used, Refusal> {
    used(raw::shuffle(words, start, records))
}

/// Samples k of n records into the first k places of the lent list `slots`; places past k stay. There are up to 16,384
/// records and k is 1 to n.
///
/// The first k records are put in slots 0..k - 1. For each place i from k to n - 1, j is rolled with bound i + 1; if j is
/// below k, slot j gets record i. The bounds k + 1, .., n are cut as [`roll_list`] cuts them. Then the k slots are
/// shuffled as [`shuffle`] shuffles k records, with the words that follow.
///
/// **Words used:** from `start` in list order, for each batch up to its first accepted one: first the batches of the
/// reservoir, then those of the final shuffle. A sample of 1 from 1 uses none.
///
/// **Refusals, in this order:** 2 [`Count`](Refusal::Count), 3 [`Sample`](Refusal::Sample), 6 [`Room`](Refusal::Room),
/// 9 [`Start`](Refusal::Start), 10 [`Words`](Refusal::Words), whose batches are counted on from the reservoir into the
/// final shuffle. The slots then stay the same, also where the final shuffle alone lacks words.
///
/// **Cost:** as a list of n - k bounds and a shuffle of k records, and two arrays of 16,384 numbers whatever n is.
///
/// Under the same rules the answer to the same words, start, records and k never changes.
///
/// ```
/// // One of three records: word 0 is rejected, and word 1 rolls 0 for record 205 and again for record 309.
/// let mut slots = [0];
/// let used = hildrasp::sample(&[0, 1], 0, &[101, 205, 309], 1, &mut slots)?;
/// assert_eq!(slots, [309]);
/// assert_eq!(used, hildrasp::Used { next: 2, rejected: 1 });
///
/// // Two of them: word 1 rolls 0 for record 309, which takes slot 0 from 101; then word 0 exchanges the two slots.
/// let mut slots = [0; 2];
/// let used = hildrasp::sample(&[1, 0], 0, &[101, 205, 309], 2, &mut slots)?;
/// assert_eq!(slots, [205, 309]);
/// assert_eq!(used, hildrasp::Used { next: 2, rejected: 0 });
///
/// // Word 1 does for the reservoir alone. Its one batch is number 0, and that of the final shuffle number 1.
/// let mut slots = [7; 2];
/// let refusal = hildrasp::sample(&[1], 0, &[101, 205, 309], 2, &mut slots);
/// assert_eq!(refusal, Err(hildrasp::Refusal::Words { batch: 1 }));
/// assert_eq!(slots, [7; 2]);
/// # Ok::<(), hildrasp::Refusal>(())
/// ```
pub fn sample(words: &[u64], start: usize, records: &[u32], k: usize, slots: &mut [u32]) -> Result<Used, Refusal> {
    used(raw::sample(words, start, records, k, slots))
}

/// Names the rolls behind an order: the n - 1 rolls, in shuffle order, that shuffle 0, 1, .., n - 1 into it (none for n of
/// 0). They go into the front of the lent list `rolls`; places past them stay. The order holds up to 16,384 places.
///
/// **Words used:** none.
///
/// **Refusals, in this order:** 2 [`Count`](Refusal::Count), 6 [`Room`](Refusal::Room), 8 [`Order`](Refusal::Order).
/// The lent list then stays the same.
///
/// **Cost:** linear in n, and a table of 16,384 marks whatever n is.
///
/// Under the same rules the answer to the same order never changes.
///
/// ```
/// let mut rolls = [9; 2];
/// hildrasp::rolls_behind(&[1, 2, 0], &mut rolls)?;
/// assert_eq!(rolls, [0, 0]);
/// # Ok::<(), hildrasp::Refusal>(())
/// ```
pub fn rolls_behind(order: &[u32], rolls: &mut [u64]) -> Result<(), Refusal> {
    used(raw::rolls_behind(order, rolls)).map(|_| ())
}

/// Runs a draw sheet of 24 to 65,535 bytes: the sample of its records by its words from start 0, in the first k places of
/// the lent list `slots`; places past k stay. The first w slots, as the final shuffle leaves them, are the early
/// reviews, the others late.
///
/// A sheet starts with six 32-bit numbers, low byte first: count of words, byte offset of words, count of records, byte
/// offset of records, k, w. Words take 8 bytes, records 4, low byte first. The sheet is sound exactly when its length is
/// allowed, each offset is at least 24, each area ends within the sheet, and the areas share no byte. Gaps may hold
/// anything.
///
/// **Words used:** those of the sheet, as [`sample`] uses them.
///
/// **Refusals, in this order:** 1 [`Sheet`](Refusal::Sheet), 3 [`Sample`](Refusal::Sample), 6 [`Room`](Refusal::Room),
/// 10 [`Words`](Refusal::Words), with the batch that [`sample`] names. The slots then stay the same.
///
/// **Cost:** a copy of each word and each record, in arrays of the most that a sheet holds; then as [`sample`].
///
/// Under the same rules the answer to the same sheet never changes.
///
/// ```
/// let mut sheet = Vec::new();
/// for number in [2_u32, 24, 3, 40, 1, 1] {
///     sheet.extend(number.to_le_bytes());
/// }
/// for word in [0_u64, 1] {
///     sheet.extend(word.to_le_bytes());
/// }
/// for record in [101_u32, 205, 309] {
///     sheet.extend(record.to_le_bytes());
/// }
/// let mut slots = [0];
/// let draw = hildrasp::run_sheet(&sheet, &mut slots)?;
/// assert_eq!(slots, [309]);
/// assert_eq!((draw.numbers.records, draw.numbers.k, draw.numbers.w), (3, 1, 1));
/// assert_eq!(draw.used, hildrasp::Used { next: 2, rejected: 1 });
/// # Ok::<(), hildrasp::Refusal>(())
/// ```
pub fn run_sheet(sheet: &[u8], slots: &mut [u32]) -> Result<Draw, Refusal> {
    let raw::Drawn { no, next, rejected, batch, numbers } = raw::run_sheet(sheet, slots);
    match Refusal::given(no, batch) {
        Some(refusal) => Err(refusal),
        None => Ok(Draw { used: Used { next, rejected }, numbers }),
    }
}

/// Writes a draw sheet into the front of the lent list `sheet`, as [`run_sheet`] takes it: the six numbers, the words
/// at byte 24, the records straight after. Bytes past the sheet stay. What comes back is the sheet's length: 24 bytes,
/// 8 for each word and 4 for each record, at most 65,535.
///
/// **Words used:** none; whether they suffice for the draw is not looked at.
///
/// **Refusals, in this order:** 2 [`Count`](Refusal::Count) where the sheet would pass 65,535 bytes,
/// 3 [`Sample`](Refusal::Sample), 6 [`Room`](Refusal::Room). The lent list then stays the same.
///
/// **Cost:** linear in the sheet's length.
///
/// Under the same rules the answer to the same words, records, k and w never changes.
///
/// ```
/// // One of three records, for an early review: 24 bytes, 16 for the words and 12 for the records.
/// let mut bytes = [9; 60];
/// let length = hildrasp::write_sheet(&[0, 1], &[101, 205, 309], 1, 1, &mut bytes)?;
/// let (sheet, past) = bytes.split_at(length);
/// assert_eq!(sheet.len(), 52);
/// assert_eq!(past, [9; 8]);
///
/// let mut slots = [0];
/// let draw = hildrasp::run_sheet(sheet, &mut slots)?;
/// assert_eq!(slots, [309]);
/// assert_eq!(draw.used, hildrasp::Used { next: 2, rejected: 1 });
/// # Ok::<(), hildrasp::Refusal>(())
/// ```
pub fn write_sheet(words: &[u64], records: &[u32], k: usize, w: usize, sheet: &mut [u8]) -> Result<usize, Refusal> {
    let raw::Written { no, length, .. } = raw::write_sheet(words, records, k, w, sheet);
    match Refusal::given(no, 0) {
        Some(refusal) => Err(refusal),
        None => Ok(length),
    }
}

/// Reads a draw sheet of 24 to 65,535 bytes, as [`run_sheet`] takes it: its words into the front of the lent list
/// `words`, its records into the front of the lent list `records`; the rest of each stays. What comes back is its six
/// numbers.
///
/// Whatever is read can be written again by [`write_sheet`]. What was read from a written sheet gives the same bytes; a
/// sheet with gaps, or with its records first, may differ from its written form.
///
/// **Words used:** none; whether they suffice for the draw is not looked at.
///
/// **Refusals, in this order:** 1 [`Sheet`](Refusal::Sheet), 3 [`Sample`](Refusal::Sample), 6 [`Room`](Refusal::Room)
/// where either list is too short. Both lists then stay the same.
///
/// **Cost:** linear in the count of words and the count of records.
///
/// Under the same rules the answer to the same sheet never changes.
///
/// ```
/// let mut sheet = [0; 52];
/// hildrasp::write_sheet(&[0, 1], &[101, 205, 309], 1, 1, &mut sheet)?;
/// let (mut words, mut records) = ([9; 3], [9; 4]);
/// let numbers = hildrasp::read_sheet(&sheet, &mut words, &mut records)?;
/// assert_eq!((numbers.words, numbers.words_at), (2, 24));
/// assert_eq!((numbers.records, numbers.records_at), (3, 40));
/// assert_eq!((numbers.k, numbers.w), (1, 1));
/// assert_eq!(words, [0, 1, 9]);
/// assert_eq!(records, [101, 205, 309, 9]);
///
/// // With word 0 alone, which the draw rejects, the sheet is read all the same. Its draw is refused 10.
/// let mut sheet = [0; 44];
/// hildrasp::write_sheet(&[0], &[101, 205, 309], 1, 1, &mut sheet)?;
/// assert_eq!(hildrasp::read_sheet(&sheet, &mut words, &mut records)?.words, 1);
/// assert_eq!(hildrasp::run_sheet(&sheet, &mut [0]), Err(hildrasp::Refusal::Words { batch: 0 }));
/// # Ok::<(), hildrasp::Refusal>(())
/// ```
pub fn read_sheet(sheet: &[u8], words: &mut [u64], records: &mut [u32]) -> Result<Numbers, Refusal> {
    let raw::Drawn { no, numbers, .. } = raw::read_sheet(sheet, words, records);
    match Refusal::given(no, 0) {
        Some(refusal) => Err(refusal),
        None => Ok(numbers),
    }
}

/// Tells why the record at a place of a draw sheet, from 0, was drawn or not: the one [`Reason`] that is true in the
/// draw that [`run_sheet`] runs. It goes by place, since record numbers may repeat.
///
/// The first k records are put in the slots of their own places. The record at a later place i is rolled at step i - k,
/// and takes the slot that is its roll, if that is below k. A record holds its slot until a later one takes it; the
/// first that does is named. A record that still holds its slot after the last step was drawn, and the final shuffle
/// puts it in its final slot, which is named too.
///
/// **Words used:** those of the sheet, as [`run_sheet`] uses them.
///
/// **Refusals, in this order:** 1 [`Sheet`](Refusal::Sheet), 3 [`Sample`](Refusal::Sample),
/// 7 [`Misfit`](Refusal::Misfit) where the place isn't below the count of records, 10 [`Words`](Refusal::Words) as
/// [`run_sheet`] is, also where the final shuffle alone lacks words.
///
/// **Cost:** linear in the count of words and the count of records: a copy of each, in arrays of the most that a sheet
/// holds; one dry run over the words; each roll made once; one pass over the rolls.
///
/// Under the same rules the answer to the same sheet and place never changes.
///
/// ```
/// use hildrasp::{Reason, Refusal};
///
/// // Two of four records by the words 2^63, 2^63 + 1 and 0. Bounds 3 and 4 are one batch; 2^64 mod 12 is 4. The first
/// // word leaves a last r of 0 and is rejected. The second: 3 (2^63 + 1) is 1 times 2^64 plus 2^63 + 3, so record 309
/// // rolls 1 and takes slot 1; 4 (2^63 + 3) is 2 times 2^64 plus 12, so record 412 rolls 2 and takes none. Then word 0
/// // rolls 0 with bound 2: the final shuffle exchanges the two slots.
/// let mut sheet = [0; 64];
/// hildrasp::write_sheet(&[1 << 63, (1 << 63) + 1, 0], &[101, 205, 309, 412], 2, 1, &mut sheet)?;
/// assert_eq!(hildrasp::why(&sheet, 0)?.reason, Reason::Stayed { slot: 0, final_slot: 1 });
/// assert_eq!(hildrasp::why(&sheet, 1)?.reason, Reason::Taken { slot: 1, by_place: 2, by_step: 0 });
/// assert_eq!(hildrasp::why(&sheet, 2)?.reason, Reason::RolledIn { slot: 1, final_slot: 0 });
/// assert_eq!(hildrasp::why(&sheet, 3)?.reason, Reason::PassedOver { roll: 2 });
/// assert_eq!(hildrasp::why(&sheet, 4), Err(Refusal::Misfit));
///
/// // So the draw is 309 and 101.
/// let mut slots = [0; 2];
/// let draw = hildrasp::run_sheet(&sheet, &mut slots)?;
/// assert_eq!(slots, [309, 101]);
/// assert_eq!(hildrasp::why(&sheet, 3)?.used, draw.used);
/// # Ok::<(), Refusal>(())
/// ```
pub fn why(sheet: &[u8], place: usize) -> Result<Explanation, Refusal> {
    let answer = raw::why(sheet, place);
    let raw::Reason { no, next, rejected, batch, .. } = answer;
    match Refusal::given(no, batch) {
        Some(refusal) => Err(refusal),
        None => Ok(Explanation { used: Used { next, rejected }, reason: Reason::given(answer) }),
    }
}

/// The words that a call used, or its refusal.
fn used(answer: raw::Answer) -> Result<Used, Refusal> {
    let raw::Answer { no, next, rejected, batch } = answer;
    match Refusal::given(no, batch) {
        Some(refusal) => Err(refusal),
        None => Ok(Used { next, rejected }),
    }
}
