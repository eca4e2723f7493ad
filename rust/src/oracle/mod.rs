//! The oracle: the operations again, in plain Rust with 128-bit arithmetic, written from documents 01 and 02 alone.
//!
//! An operation is its refusals in order, its plan, the run of the plan over the words, and a reading of the rolls.
//! The oracle calls nothing of the proved library; the two have only the shape of their answers in common.
//! [`second`] does each operation again by another way, against which this one is held.

pub mod plan;
pub mod reading;
pub mod run;
pub mod second;
pub mod sheet;
pub mod word;

use crate::raw::{self, Answer, Batch, Behind, Drawn, Numbers, Written};
use crate::reason::Reason;
use crate::refusal::Refusal;
use plan::{cut, MAX_BATCH};
use run::{run, Trace};
use word::{power, product, run_of_words, L};

/// The most bounds in a list.
const MAX_LIST: usize = 4096;

/// The most records.
const MAX_RECORDS: usize = 16_384;

/// What an operation comes to: values for the front of the lent list, or a refusal.
type Outcome<T> = Result<Done<T>, Refusal>;

/// An operation that was not refused.
struct Done<T> {
    values: Vec<T>,
    next: usize,
    rejected: usize,
}

/// The refusal of the first test that holds; the tests stand in the order of their numbers.
fn refuse(tests: &[(Refusal, bool)]) -> Result<(), Refusal> {
    match tests.iter().find(|(_, holds)| *holds) {
        Some(&(refusal, _)) => Err(refusal),
        None => Ok(()),
    }
}

/// The answer that shows an outcome.
fn shown<T>(start: usize, outcome: &Outcome<T>) -> Answer {
    match outcome {
        Ok(done) => Answer { no: 0, next: done.next, rejected: done.rejected, batch: 0 },
        Err(refusal) => Answer { no: refusal.number(), next: start, rejected: 0, batch: refusal.batch() },
    }
}

/// Leaves in a lent list what an outcome puts there: on a refusal the list stays the same.
fn leave<T: Copy>(outcome: &Outcome<T>, lent: &mut [T]) {
    if let Ok(done) = outcome {
        lent[..done.values.len()].copy_from_slice(&done.values);
    }
}

/// Rolls one batch.
pub fn roll_batch(words: &[u64], start: usize, bounds: &[u64]) -> Batch {
    match batch(words, start, bounds) {
        Ok(done) => {
            let mut rolls = [0; MAX_BATCH];
            rolls[..done.values.len()].copy_from_slice(&done.values);
            Batch { no: 0, next: done.next, rejected: done.rejected, count: done.values.len(), rolls }
        }
        Err(refusal) => Batch { no: refusal.number(), next: start, rejected: 0, count: 0, rolls: [0; MAX_BATCH] },
    }
}

fn batch(words: &[u64], start: usize, bounds: &[u64]) -> Outcome<u64> {
    refuse(&[
        (Refusal::Count, bounds.is_empty() || bounds.len() > MAX_BATCH),
        (Refusal::Zero, bounds.contains(&0)),
        (Refusal::Product, product(bounds) > power(L)),
        (Refusal::Start, start > words.len()),
    ])?;
    let trace = run(&[bounds.to_vec()], words, start)?;
    Ok(Done { values: trace.rolls(), next: trace.next, rejected: trace.rejected })
}

/// Rolls a list of bounds into the lent list.
pub fn roll_list(words: &[u64], start: usize, bounds: &[u64], lent: &mut [u64]) -> Answer {
    let outcome = list(words, start, bounds, lent.len());
    leave(&outcome, lent);
    shown(start, &outcome)
}

fn list(words: &[u64], start: usize, bounds: &[u64], room: usize) -> Outcome<u64> {
    refuse(&[
        (Refusal::Count, bounds.len() > MAX_LIST),
        (Refusal::Zero, bounds.contains(&0)),
        (Refusal::Room, room < bounds.len()),
        (Refusal::Start, start > words.len()),
    ])?;
    let trace = run(&cut(bounds), words, start)?;
    Ok(Done { values: trace.rolls(), next: trace.next, rejected: trace.rejected })
}

/// Names the words behind rolls.
pub fn words_behind(bounds: &[u64], rolls: &[u64]) -> Behind {
    let misfit = bounds.len() != rolls.len() || bounds.iter().zip(rolls).any(|(bound, roll)| roll >= bound);
    let refused = refuse(&[
        (Refusal::Count, bounds.is_empty() || bounds.len() > MAX_BATCH),
        (Refusal::Zero, bounds.contains(&0)),
        (Refusal::Product, product(bounds) > power(L)),
        (Refusal::Misfit, misfit),
    ]);
    match refused {
        Ok(()) => {
            let (first, last) = run_of_words(L, bounds, rolls);
            Behind { no: 0, next: 0, rejected: 0, first, last }
        }
        Err(refusal) => Behind { no: refusal.number(), next: 0, rejected: 0, first: 0, last: 0 },
    }
}

/// Shuffles records in the lent list itself.
pub fn shuffle(words: &[u64], start: usize, lent: &mut [u32]) -> Answer {
    let outcome = shuffled(words, start, lent);
    leave(&outcome, lent);
    shown(start, &outcome)
}

fn shuffled(words: &[u64], start: usize, records: &[u32]) -> Outcome<u32> {
    refuse(&[(Refusal::Count, records.len() > MAX_RECORDS), (Refusal::Start, start > words.len())])?;
    let trace = run(&plan::shuffle(records.len()), words, start)?;
    Ok(Done { values: reading::shuffled(records, &trace.batches), next: trace.next, rejected: trace.rejected })
}

/// Samples k records into the lent list.
pub fn sample(words: &[u64], start: usize, records: &[u32], k: usize, lent: &mut [u32]) -> Answer {
    let outcome = sampled(words, start, records, k, lent.len());
    leave(&outcome, lent);
    shown(start, &outcome)
}

fn sampled(words: &[u64], start: usize, records: &[u32], k: usize, room: usize) -> Outcome<u32> {
    refuse(&[
        (Refusal::Count, records.len() > MAX_RECORDS),
        (Refusal::Sample, k == 0 || k > records.len()),
        (Refusal::Room, room < k),
        (Refusal::Start, start > words.len()),
    ])?;
    let trace = run(&plan::sample(records.len(), k), words, start)?;
    let values = reading::sampled(records, k, &trace.batches);
    Ok(Done { values, next: trace.next, rejected: trace.rejected })
}

/// Names the rolls behind an order in the lent list.
pub fn rolls_behind(order: &[u32], lent: &mut [u64]) -> Answer {
    let outcome = behind_order(order, lent.len());
    leave(&outcome, lent);
    shown(0, &outcome)
}

fn behind_order(order: &[u32], room: usize) -> Outcome<u64> {
    refuse(&[
        (Refusal::Count, order.len() > MAX_RECORDS),
        (Refusal::Room, room < order.len().saturating_sub(1)),
        (Refusal::Order, !reading::is_order(order)),
    ])?;
    Ok(Done { values: reading::rolls_behind(order), next: 0, rejected: 0 })
}

/// Runs a draw sheet, with its sample in the lent list.
pub fn run_sheet(sheet: &[u8], lent: &mut [u32]) -> Drawn {
    let (numbers, outcome) = match drawn(sheet, lent.len()) {
        Ok((numbers, done)) => (numbers, Ok(done)),
        Err(refusal) => (Numbers::default(), Err(refusal)),
    };
    leave(&outcome, lent);
    let Answer { no, next, rejected, batch } = shown(0, &outcome);
    Drawn { no, next, rejected, batch, numbers }
}

fn drawn(sheet: &[u8], room: usize) -> Result<(Numbers, Done<u32>), Refusal> {
    let (numbers, words, records) = contents(sheet)?;
    let done = sampled(&words, 0, &records, numbers.k as usize, room)?;
    Ok((numbers, done))
}

/// The six numbers, the words and the records of a sheet that is sound and asks for a sample that there is.
fn contents(sheet: &[u8]) -> Result<(Numbers, Vec<u64>, Vec<u32>), Refusal> {
    refuse(&[(Refusal::Sheet, !sheet::is_sound(sheet))])?;
    let (numbers, words, records) = sheet::contents(sheet);
    refuse(&[(Refusal::Sample, !is_allowed(numbers.k as usize, numbers.w as usize, records.len()))])?;
    Ok((numbers, words, records))
}

/// Whether k and w are allowed on a sheet with n records.
fn is_allowed(k: usize, w: usize, n: usize) -> bool {
    1 <= k && k <= n && w <= k
}

/// Reads a draw sheet into the lent lists.
pub fn read_sheet(sheet: &[u8], lent_words: &mut [u64], lent_records: &mut [u32]) -> Drawn {
    let (no, numbers) = match read(sheet, lent_words.len(), lent_records.len()) {
        Ok((numbers, words, records)) => {
            lent_words[..words.len()].copy_from_slice(&words);
            lent_records[..records.len()].copy_from_slice(&records);
            (0, numbers)
        }
        Err(refusal) => (refusal.number(), Numbers::default()),
    };
    Drawn { no, next: 0, rejected: 0, batch: 0, numbers }
}

fn read(sheet: &[u8], word_room: usize, record_room: usize) -> Result<(Numbers, Vec<u64>, Vec<u32>), Refusal> {
    let (numbers, words, records) = contents(sheet)?;
    refuse(&[(Refusal::Room, word_room < words.len() || record_room < records.len())])?;
    Ok((numbers, words, records))
}

/// Writes a draw sheet into the lent list.
pub fn write_sheet(words: &[u64], records: &[u32], k: usize, w: usize, lent: &mut [u8]) -> Written {
    let outcome = written(words, records, k, w, lent.len());
    leave(&outcome, lent);
    let Answer { no, next, rejected, .. } = shown(0, &outcome);
    Written { no, next, rejected, length: outcome.map_or(0, |done| done.values.len()) }
}

fn written(words: &[u64], records: &[u32], k: usize, w: usize, room: usize) -> Outcome<u8> {
    let length = sheet::length(words.len(), records.len());
    refuse(&[
        (Refusal::Count, length > sheet::MAX_SHEET as u128),
        (Refusal::Sample, !is_allowed(k, w, records.len())),
        (Refusal::Room, (room as u128) < length),
    ])?;
    Ok(Done { values: sheet::written(words, records, k, w), next: 0, rejected: 0 })
}

/// Tells why the record at a place of a draw sheet was drawn or not.
pub fn why(sheet: &[u8], place: usize) -> raw::Reason {
    let zeros = raw::Reason::default();
    let (trace, reason) = match explained(sheet, place) {
        Ok(explained) => explained,
        Err(refusal) => return raw::Reason { no: refusal.number(), batch: refusal.batch(), ..zeros },
    };
    let answer = raw::Reason { next: trace.next, rejected: trace.rejected, reason: reason.number(), ..zeros };
    match reason {
        Reason::Stayed { slot, final_slot } | Reason::RolledIn { slot, final_slot } => {
            raw::Reason { slot, final_slot, ..answer }
        }
        Reason::Taken { slot, by_place, by_step } => raw::Reason { slot, by_place, by_step, ..answer },
        Reason::PassedOver { roll } => raw::Reason { roll, ..answer },
    }
}

fn explained(sheet: &[u8], place: usize) -> Result<(Trace, Reason), Refusal> {
    let (numbers, words, records) = contents(sheet)?;
    refuse(&[(Refusal::Misfit, place >= records.len())])?;
    let (n, k) = (records.len(), numbers.k as usize);
    let trace = run(&plan::sample(n, k), &words, 0)?;
    let reasons = reading::reasons(n, k, &trace.batches);
    Ok((trace, reasons[place]))
}
