//! Readings: what rolls mean for records. Fisher-Yates, the sample and what happened to each record in it, and the way
//! back from an order to its rolls.

use super::plan;
use super::run::{rolls_of, Taken};
use crate::reason::Reason;
use std::mem::replace;

/// Fisher-Yates: with m records still to place, each batch of s rolls exchanges, for i = 1..s in turn, the record at
/// place roll i with that at place m - i. Then m falls by s.
pub fn shuffled<T: Copy>(records: &[T], batches: &[Taken]) -> Vec<T> {
    let mut records = records.to_vec();
    let mut m = records.len();
    for taken in batches {
        for (i, &roll) in (1..).zip(&taken.rolls) {
            records.swap(roll as usize, m - i);
        }
        m -= taken.rolls.len();
    }
    records
}

/// The sample: the reservoir by its own batches, then Fisher-Yates on its slots by the batches that follow.
pub fn sampled(records: &[u32], k: usize, batches: &[Taken]) -> Vec<u32> {
    let (of_the_reservoir, of_the_shuffle) = parted(records.len(), k, batches);
    shuffled(&reservoir(records, k, &rolls_of(of_the_reservoir)), of_the_shuffle)
}

/// The batches of a sample parted into those of the reservoir and those of the final shuffle.
fn parted(n: usize, k: usize, batches: &[Taken]) -> (&[Taken], &[Taken]) {
    batches.split_at(plan::reservoir(n, k).len())
}

/// The reservoir: the first k records in slots 0..k - 1, and for each place i from k on its roll j; if j is below k,
/// slot j gets record i.
fn reservoir(records: &[u32], k: usize, rolls: &[u64]) -> Vec<u32> {
    let mut slots = records[..k].to_vec();
    for (i, &j) in (k..).zip(rolls) {
        if j < k as u64 {
            slots[j as usize] = records[i];
        }
    }
    slots
}

/// What happened to the record at each of n places: the reservoir again, with places in its slots. Step by step a
/// record has the reason that is true of it so far.
pub fn reasons(n: usize, k: usize, batches: &[Taken]) -> Vec<Reason> {
    let (of_the_reservoir, of_the_shuffle) = parted(n, k, batches);
    let final_slots = final_slots(k, of_the_shuffle);
    let mut slots: Vec<usize> = (0..k).collect();
    let stayed = |&slot: &usize| Reason::Stayed { slot, final_slot: final_slots[slot] };
    let mut reasons: Vec<Reason> = slots.iter().map(stayed).collect();
    for (step, &roll) in rolls_of(of_the_reservoir).iter().enumerate() {
        let i = k + step;
        if roll < k as u64 {
            let slot = roll as usize;
            let put_out = replace(&mut slots[slot], i);
            reasons[put_out] = Reason::Taken { slot, by_place: i, by_step: step };
            reasons.push(Reason::RolledIn { slot, final_slot: final_slots[slot] });
        } else {
            reasons.push(Reason::PassedOver { roll });
        }
    }
    reasons
}

/// For each of k slots the one where its record stands after the final shuffle: Fisher-Yates on the slots' own numbers.
fn final_slots(k: usize, of_the_shuffle: &[Taken]) -> Vec<usize> {
    let slots: Vec<usize> = (0..k).collect();
    let mut final_slots = slots.clone();
    for (final_slot, slot) in shuffled(&slots, of_the_shuffle).into_iter().enumerate() {
        final_slots[slot] = final_slot;
    }
    final_slots
}

/// Whether a list holds each of 0..n - 1 once.
pub fn is_order(list: &[u32]) -> bool {
    let mut sorted = list.to_vec();
    sorted.sort_unstable();
    sorted.iter().enumerate().all(|(place, &record)| record as usize == place)
}

/// The rolls that shuffle 0, 1, .., n - 1 into an order: the record wanted at place m - 1 is looked up where it stands.
pub fn rolls_behind(order: &[u32]) -> Vec<u64> {
    let mut records: Vec<u32> = (0..order.len() as u32).collect();
    let mut rolls = Vec::new();
    for m in (2..=order.len()).rev() {
        let wanted = order[m - 1];
        let roll = records[..m].iter().position(|&record| record == wanted).expect("an order holds each place once");
        records.swap(roll, m - 1);
        rolls.push(roll as u64);
    }
    rolls
}
