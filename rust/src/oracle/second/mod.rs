//! A second way for each operation, written from documents 01 and 02 alone.
//!
//! The first way splits an operation as the definitions do: a plan, its run over the words, a reading of the rolls. A
//! misreading there could be shared by the definitions, the library and the oracle. The second way has the shape of the
//! answers in common with the first and nothing else, and does without what the first turns on:
//!
//! | | the first way | the second way |
//! |---|---|---|
//! | rolls of a word | bound after bound, with a remainder r | the digits of one number, from the last bound back |
//! | acceptance | the last r against a threshold | each series of rolls keeps as many words as any other, its last |
//! | products, the cut | multiplies; a bound joins or not | divides; every end of a batch is tried |
//! | shuffle | exchanges records | takes from the last place on, along links; no record moves |
//! | reservoir | overwrites slots | follows each record: its slot, and whether a later record takes it |
//! | sample | one plan of both parts | rolls the reservoir; from the word after it rolls again, for the shuffle |
//! | why a record was drawn or not | fills slots with places, and notes who is put out | sorts all that held a slot |
//! | its final slot | shuffles all slots | follows one slot from roll to roll |
//! | words behind rolls | a quotient | a search among all words |
//! | rolls behind an order | shuffles, and looks records up | follows each record through the rolls before |
//! | sheet | areas as ranges of bytes | marks the bytes one by one |
//! | a sheet's length | multiplies and adds | divides the room that is left |
//! | writing a sheet | number after number, each by its bytes | place after place, each by the number that lies there |
//! | text of the program | a format for each line | rows of fields; the slots parted into early and late |
//! | refusals | the first test of a row that holds | the least of the numbers that apply |

mod batches;
mod records;
pub mod sheet;
pub mod word;

use crate::raw::{Answer, Batch, Behind, Drawn, Numbers, Reason, Written};
use batches::{by_cut, by_size, MAX_BATCH};
use word::{accepted, rolls_of, run_behind, share};

/// The width of the product.
const L: u32 = 64;

/// The most bounds in a list.
const MAX_LIST: usize = 4_096;

/// The most records.
const MAX_RECORDS: usize = 16_384;

/// What a call comes to: its answer and what goes into the lent list, or the answer of its refusal.
type Outcome<T> = Result<(Answer, Vec<T>), Answer>;

/// The answer of a call that uses no words.
const DONE_WITHOUT_WORDS: Answer = Answer { no: 0, next: 0, rejected: 0, batch: 0 };

/// A refusal: its number, the start place as given, the batch, zeros elsewhere.
fn refused(no: u64, start: usize, batch: usize) -> Answer {
    Answer { no, next: start, rejected: 0, batch }
}

/// Refuses with the least of the numbers that apply, if one does.
fn refuse(start: usize, numbers: &[(u64, bool)]) -> Result<(), Answer> {
    let least = numbers.iter().filter(|(_, applies)| *applies).map(|&(no, _)| no).min();
    least.map_or(Ok(()), |no| Err(refused(no, start, 0)))
}

/// Fills the front of a lent list with the values of an outcome, of which a refusal has none, and gives its answer.
fn fill<T>(lent: &mut [T], outcome: Outcome<T>) -> Answer {
    let (answer, values) = outcome.unwrap_or_else(|refusal| (refusal, Vec::new()));
    lent.iter_mut().zip(values).for_each(|(place, value)| *place = value);
    answer
}

/// The rolls of batches, one after the other: each is given the next accepted word of those left. Words used are
/// batches plus rejected, so of the words used all but one for each batch were rejected.
fn roll(words: &[u64], start: usize, batches: &[&[u64]]) -> Outcome<u64> {
    let mut left = words[start..].iter();
    let mut rolls = Vec::new();
    for (batch, bounds) in batches.iter().enumerate() {
        let word = left.find(|&&word| accepted(L, bounds, word)).ok_or(refused(10, start, batch))?;
        rolls.extend(rolls_of(L, bounds, *word));
    }
    let next = words.len() - left.len();
    Ok((Answer { no: 0, next, rejected: next - start - batches.len(), batch: 0 }, rolls))
}

/// Rolls one batch.
pub fn roll_batch(words: &[u64], start: usize, bounds: &[u64]) -> Batch {
    let mut rolls = [0; MAX_BATCH];
    let Answer { no, next, rejected, .. } = fill(&mut rolls, batch(words, start, bounds));
    Batch { no, next, rejected, count: if no == 0 { bounds.len() } else { 0 }, rolls }
}

fn batch(words: &[u64], start: usize, bounds: &[u64]) -> Outcome<u64> {
    refuse(
        start,
        &[
            (2, !(1..=MAX_BATCH).contains(&bounds.len())),
            (4, bounds.contains(&0)),
            (5, share(L, bounds) == 0),
            (9, start > words.len()),
        ],
    )?;
    roll(words, start, &[bounds])
}

/// Rolls a list of bounds into the lent list.
pub fn roll_list(words: &[u64], start: usize, bounds: &[u64], lent: &mut [u64]) -> Answer {
    let outcome = list(words, start, bounds, lent.len());
    fill(lent, outcome)
}

fn list(words: &[u64], start: usize, bounds: &[u64], room: usize) -> Outcome<u64> {
    refuse(
        start,
        &[(2, bounds.len() > MAX_LIST), (4, bounds.contains(&0)), (6, room < bounds.len()), (9, start > words.len())],
    )?;
    roll(words, start, &by_cut(bounds))
}

/// Names the words behind rolls.
pub fn words_behind(bounds: &[u64], rolls: &[u64]) -> Behind {
    let mut run = [0; 2];
    let Answer { no, next, rejected, .. } = fill(&mut run, behind_rolls(bounds, rolls));
    let [first, last] = run;
    Behind { no, next, rejected, first, last }
}

fn behind_rolls(bounds: &[u64], rolls: &[u64]) -> Outcome<u64> {
    let fit = bounds.len() == rolls.len() && rolls.iter().zip(bounds).all(|(roll, bound)| roll < bound);
    refuse(
        0,
        &[
            (2, !(1..=MAX_BATCH).contains(&bounds.len())),
            (4, bounds.contains(&0)),
            (5, share(L, bounds) == 0),
            (7, !fit),
        ],
    )?;
    let (first, last) = run_behind(L, bounds, rolls);
    Ok((DONE_WITHOUT_WORDS, vec![first, last]))
}

/// Shuffles records in the lent list itself.
pub fn shuffle(words: &[u64], start: usize, lent: &mut [u32]) -> Answer {
    let outcome = shuffled(words, start, lent);
    fill(lent, outcome)
}

fn shuffled(words: &[u64], start: usize, records: &[u32]) -> Outcome<u32> {
    refuse(start, &[(2, records.len() > MAX_RECORDS), (9, start > words.len())])?;
    let bounds: Vec<u64> = (2..=records.len() as u64).rev().collect();
    let (answer, rolls) = roll(words, start, &by_size(&bounds))?;
    Ok((answer, records::shuffled(records, &rolls)))
}

/// Samples k records into the lent list.
pub fn sample(words: &[u64], start: usize, records: &[u32], k: usize, lent: &mut [u32]) -> Answer {
    let outcome = sampled(words, start, records, k, lent.len());
    fill(lent, outcome)
}

fn sampled(words: &[u64], start: usize, records: &[u32], k: usize, room: usize) -> Outcome<u32> {
    let n = records.len();
    refuse(start, &[(2, n > MAX_RECORDS), (3, !(1..=n).contains(&k)), (6, room < k), (9, start > words.len())])?;
    let rolled = roll_sample(words, start, n, k)?;
    let slots = records::reservoir(records, k, &rolled.of_the_reservoir);
    Ok((rolled.answer, records::shuffled(&slots, &rolled.of_the_shuffle)))
}

/// The rolls of a sample, and its answer.
struct SampleRolls {
    answer: Answer,
    of_the_reservoir: Vec<u64>,
    of_the_shuffle: Vec<u64>,
}

/// The rolls of a sample of k from n records, where there is one. Where the words end in the final shuffle, the
/// reservoir's batches are counted in.
fn roll_sample(words: &[u64], start: usize, n: usize, k: usize) -> Result<SampleRolls, Answer> {
    let upwards: Vec<u64> = (1..=n as u64).skip(k).collect();
    let batches = by_cut(&upwards);
    let (reservoir, of_the_reservoir) = roll(words, start, &batches)?;
    let downwards: Vec<u64> = (2..=k as u64).rev().collect();
    let (shuffle, of_the_shuffle) = roll(words, reservoir.next, &by_size(&downwards))
        .map_err(|refusal| refused(refusal.no, start, batches.len() + refusal.batch))?;
    let answer = Answer { rejected: reservoir.rejected + shuffle.rejected, ..shuffle };
    Ok(SampleRolls { answer, of_the_reservoir, of_the_shuffle })
}

/// Names the rolls behind an order in the lent list.
pub fn rolls_behind(order: &[u32], lent: &mut [u64]) -> Answer {
    let outcome = behind_order(order, lent.len());
    fill(lent, outcome)
}

fn behind_order(order: &[u32], room: usize) -> Outcome<u64> {
    refuse(0, &[(2, order.len() > MAX_RECORDS), (6, room + 1 < order.len()), (8, !records::are_an_order(order))])?;
    Ok((DONE_WITHOUT_WORDS, records::rolls_behind(order)))
}

/// Runs a draw sheet, with its sample in the lent list.
pub fn run_sheet(sheet: &[u8], lent: &mut [u32]) -> Drawn {
    let read = sheet::read(sheet);
    let outcome = match &read {
        Some((numbers, words, records)) => drawn(*numbers, words, records, lent.len()),
        None => Err(refused(1, 0, 0)),
    };
    let Answer { no, next, rejected, batch } = fill(lent, outcome);
    let numbers = read.filter(|_| no == 0).map_or(Numbers::default(), |(numbers, ..)| numbers);
    Drawn { no, next, rejected, batch, numbers }
}

fn drawn(numbers: Numbers, words: &[u64], records: &[u32], room: usize) -> Outcome<u32> {
    refuse(0, &[(3, numbers.w > numbers.k)])?;
    sampled(words, 0, records, numbers.k as usize, room)
}

/// Reads a draw sheet into the lent lists.
pub fn read_sheet(sheet: &[u8], lent_words: &mut [u64], lent_records: &mut [u32]) -> Drawn {
    let (numbers, words, records) = match read(sheet, lent_words.len(), lent_records.len()) {
        Ok((numbers, words, records)) => (numbers, Ok((DONE_WITHOUT_WORDS, words)), Ok((DONE_WITHOUT_WORDS, records))),
        Err(refusal) => (Numbers::default(), Err(refusal), Err(refusal)),
    };
    fill(lent_words, words);
    let Answer { no, next, rejected, batch } = fill(lent_records, records);
    Drawn { no, next, rejected, batch, numbers }
}

fn read(sheet: &[u8], word_room: usize, record_room: usize) -> Result<(Numbers, Vec<u64>, Vec<u32>), Answer> {
    let (numbers, words, records) = sheet::read(sheet).ok_or(refused(1, 0, 0))?;
    let is_short = words.len() > word_room || records.len() > record_room;
    refuse(0, &[(3, !has_a_sample(numbers)), (6, is_short)])?;
    Ok((numbers, words, records))
}

/// Whether k and w are allowed beside a sheet's count of records.
fn has_a_sample(Numbers { records, k, w, .. }: Numbers) -> bool {
    (w.max(1)..=records).contains(&k)
}

/// Writes a draw sheet into the lent list.
pub fn write_sheet(words: &[u64], records: &[u32], k: usize, w: usize, lent: &mut [u8]) -> Written {
    let outcome = written(words, records, k, w, lent.len());
    let length = outcome.as_ref().map_or(0, |(_, bytes)| bytes.len());
    let Answer { no, next, rejected, .. } = fill(lent, outcome);
    Written { no, next, rejected, length }
}

fn written(words: &[u64], records: &[u32], k: usize, w: usize, room: usize) -> Outcome<u8> {
    let n = records.len();
    refuse(0, &[(2, !sheet::has_room_for(words.len(), n)), (3, !(w.max(1)..=n).contains(&k))])?;
    let bytes = sheet::write(words, records, k, w);
    refuse(0, &[(6, bytes.len() > room)])?;
    Ok((DONE_WITHOUT_WORDS, bytes))
}

/// Tells why the record at a place of a draw sheet was drawn or not.
pub fn why(sheet: &[u8], place: usize) -> Reason {
    explained(sheet, place).unwrap_or_else(|Answer { no, batch, .. }| Reason { no, batch, ..Reason::default() })
}

fn explained(sheet: &[u8], place: usize) -> Result<Reason, Answer> {
    let (numbers, words, records) = sheet::read(sheet).ok_or(refused(1, 0, 0))?;
    let (k, n) = (numbers.k as usize, records.len());
    refuse(0, &[(3, !has_a_sample(numbers)), (7, !(0..n).contains(&place))])?;
    let SampleRolls { answer, of_the_reservoir, of_the_shuffle } = roll_sample(&words, 0, n, k)?;
    let reason = records::reason(place, k, &of_the_reservoir, &of_the_shuffle);
    Ok(Reason { next: answer.next, rejected: answer.rejected, ..reason })
}
